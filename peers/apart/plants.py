#!/usr/bin/env python3
"""plants.py: starts lemdwab.apart.plants, which -h describes."""

import sys
from pathlib import Path

sys.path.insert(0, str(Path(__file__).resolve().parents[2] / "tools"))
from lemdwab.apart import plants, words

words.main(plants.main)
