"""Checks the documents, makes anew what is made of the tree, or accepts statements.

    documents.py check
    documents.py make
    documents.py claims FUNCTION..
"""

from __future__ import annotations

import sys
import traceback

from lemdwab.documents import (believed, bindings, checks, claims, definitions, forms, header,
                               pictures, registers, statements, strength, words)


def looked() -> int:
    """Does what the words ask for; gives the status."""
    if sys.argv[1] == "make":
        for maker in (definitions, pictures, strength, statements):
            maker.make()
        return 0
    if sys.argv[1] == "claims":
        return claims.accept(sys.argv[2:])
    parts = (definitions, believed, words, forms, pictures, strength, statements, claims, header,
             bindings, registers, checks)
    found = list(dict.fromkeys(line for part in parts for line in part.drifts()))
    for line in checks.aged():
        print(f"note: {line}")
    print("\n".join(found) if found else "in step")
    return 1 if found else 0


def main() -> int:
    """Ends with what `looked` gives; with 2 where it fails."""
    try:
        return looked()
    except Exception:
        # Nothing has drifted that could be seen: 1 would say that something had.
        traceback.print_exc()
        return 2
