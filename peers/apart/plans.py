#!/usr/bin/env python3
"""plans.py: starts lemdwab.apart.plans, which -h describes."""

import sys
from pathlib import Path

sys.path.insert(0, str(Path(__file__).resolve().parents[2] / "tools"))
from lemdwab.apart import plans, words

words.main(plans.main)
