#!/usr/bin/env python3
"""sweeps.py: starts lemdwab.apart.sweeps, which -h describes."""

import sys
from pathlib import Path

sys.path.insert(0, str(Path(__file__).resolve().parents[2] / "tools"))
from lemdwab.apart import sweeps, words

words.main(sweeps.main)
