#!/usr/bin/env python3
"""Holds QEMU against the program over random scripts: compare_qemu.py PROGRAM STUB SCRIPTS SEED

SCRIPTS of each subject, from the number SEED on.
"""

import sys
from pathlib import Path

sys.path.insert(0, str(Path(__file__).resolve().parents[2] / "tools"))
import rules
from bridge import Bridge, Untold
from machine import Failed
from scripts import SUBJECTS, random_script

from lemdwab import held

HERE = Path(__file__).resolve().parent


def told(subject, script):
    """What QEMU's rules foresee."""
    return held.foreseen(script, lambda *sizes: rules.TheirMachine(subject == "direct", *sizes))


def answers(stub, subject, script, _):
    """What QEMU answers."""
    bridge = Bridge(stub, subject == "direct")
    try:
        return [bridge.answer(text) for text in held.lines_of(script)]
    except (Failed, Untold) as stopped:
        raise held.Stopped(stopped) from stopped
    finally:
        bridge.close()


if __name__ == "__main__":
    QEMU = held.Peer(HERE / "known.txt", SUBJECTS, random_script, told, answers)
    sys.exit(held.main(QEMU, __doc__))
