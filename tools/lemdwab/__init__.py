"""The tools beside the proofs, and what they share; each module says what it is for. They need
Python 3.10 or later, and no other package."""
