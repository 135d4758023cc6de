#!/usr/bin/env -S python3 -B
"""documents.py check|make|claims: starts lemdwab.documents.documents of tools/."""

import sys
from pathlib import Path

sys.path.insert(0, str(Path(__file__).resolve().parents[2] / "tools"))
from lemdwab.documents import documents

sys.exit(documents.main())
