#!/usr/bin/env python3
"""random_scripts.py: starts lemdwab.apart.random_scripts, which -h describes."""

import sys
from pathlib import Path

sys.path.insert(0, str(Path(__file__).resolve().parents[2] / "tools"))
from lemdwab.apart import random_scripts, words

words.main(random_scripts.main)
