#!/usr/bin/env python3
"""Holds KVM against the program over random scripts: compare_kvm.py PROGRAM BRIDGE SCRIPTS SEED

SCRIPTS of each subject, from the number SEED on. Of moves the stores that follow one in the script
come within it, on KVM's side. With MENDED=1 the bridge is of KVM with its errors mended.
"""

import os
import sys
from pathlib import Path

sys.path.insert(0, str(Path(__file__).resolve().parents[2] / "tools"))
import rules
from scripts import SUBJECTS, random_script

from lemdwab import held

HERE = Path(__file__).resolve().parent


def told(_, script):
    """What KVM's rules foresee."""
    return held.foreseen(script, rules.TheirMachine)


def answers(bridge, subject, script, seed):
    """What KVM answers."""
    words = [str(seed)] if subject == "moves" else []
    return held.answers_of(["qemu-riscv64", bridge, *words], script)


if __name__ == "__main__":
    if os.environ.get("MENDED"):
        rules.ERRORS.clear()
    ROWS = HERE / ("known.txt" if rules.ERRORS else "open.txt")
    KVM = held.Peer(ROWS, SUBJECTS, random_script, told, answers)
    STATUS = held.main(KVM, __doc__)
    if not STATUS and not rules.ERRORS:
        print("of the errors that are mended: 0 known, 0 differ; all else is open")
    sys.exit(STATUS)
