"""The model written apart: the rules of docs/REFERENCE.md once more, by nobody who looked at the
program. It is never changed to fit the program."""
