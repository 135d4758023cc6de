#!/usr/bin/env python3
"""any_plans.py: starts lemdwab.apart.any_plans, which -h describes."""

import sys
from pathlib import Path

sys.path.insert(0, str(Path(__file__).resolve().parents[2] / "tools"))
from lemdwab.apart import any_plans, words

words.main(any_plans.main)
