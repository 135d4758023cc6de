#!/usr/bin/env python3
"""generated.py: starts lemdwab.apart.generated, which -h describes."""

import sys
from pathlib import Path

sys.path.insert(0, str(Path(__file__).resolve().parents[2] / "tools"))
from lemdwab.apart import generated, words

words.main(generated.main)
