#!/usr/bin/env python3
"""plants_told.py: starts lemdwab.apart.plants_told, which -h describes."""

import sys
from pathlib import Path

sys.path.insert(0, str(Path(__file__).resolve().parents[2] / "tools"))
from lemdwab.apart import plants_told, words

words.main(plants_told.main)
