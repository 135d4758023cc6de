#!/usr/bin/env python3
"""model.py: starts lemdwab.apart.model, which -h describes."""

import sys
from pathlib import Path

sys.path.insert(0, str(Path(__file__).resolve().parents[2] / "tools"))
from lemdwab.apart import model, words

words.main(model.main)
