#!/usr/bin/env python3
"""judge.py: starts lemdwab.apart.judging, which -h describes."""

import sys
from pathlib import Path

sys.path.insert(0, str(Path(__file__).resolve().parents[2] / "tools"))
from lemdwab.apart import judging, words

words.main(judging.main)
