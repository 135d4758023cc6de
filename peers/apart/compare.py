#!/usr/bin/env python3
"""compare.py: starts lemdwab.apart.compare, which -h describes."""

import sys
from pathlib import Path

sys.path.insert(0, str(Path(__file__).resolve().parents[2] / "tools"))
from lemdwab.apart import compare, words

words.main(compare.main)
