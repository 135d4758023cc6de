#!/usr/bin/env python3
# SPDX-License-Identifier: Apache-2.0
"""lockstep.py [PROGRAM]: holds a machine against the model access by access, in Python.

The model is PROGRAM with the word `replay`, else that of the variable PROGRAM, else ../aia. Here
the machine is a list of accesses and of what each of them read, of one that claims the wrong
identity; yours calls `ask` for each access as it makes it. Ends with status 1 and a message at the
first answer that differs, else with 0, and says how many were the same; and with 2 where the words
are wrong, or the model can't be run, ends before its time or with another status than 0. A PROGRAM
has a minute for each answer.
"""

import os
import signal
import subprocess
import sys
from pathlib import Path

SECONDS = 60  # how long a model that is named may take over an answer
PATIENCE = 3  # how long a model has to end once it answers no more, in seconds
MISTAKES = ("bad", "nomachine", "again", "range")  # of the script, whatever the machine does
MACHINE = (
    ("machine 1 0 63 1", "ok"),
    ("h 0 csrrw siselect 0xc0", "-"),
    ("h 0 csrrw sireg 0x28", "0x0000000000000000"),
    ("st 0x28000000 5", "ok"),
    ("st 0x28000000 3", "ok"),
    ("h 0 csrrw stopei 0", "0x0000000000030003"),
    ("h 0 csrr stopei", "0x0000000000030003"),
)


def end(status, message):
    """Ends with a message."""
    print(message, file=sys.stderr)
    sys.exit(status)


def too_long(*_):
    """Ends a read that takes too long."""
    raise TimeoutError


def ask(model, line, mine="-", seconds=0):
    """Hands the model a line, and compares its answer with mine; any is right where mine is `-`. It
    may take so many seconds, where any are told."""
    try:
        model.stdin.write(line + "\n")
        model.stdin.flush()
    except BrokenPipeError:
        pass  # it has ended: the read says so
    signal.alarm(seconds)
    try:
        answer, whole, _ = model.stdout.readline().partition("\n")
    except TimeoutError:
        model.kill()
        end(2, f"{line}: the model does not answer within {seconds} seconds")
    signal.alarm(0)
    if not whole:
        end(2, f"{line}: the model {ending(leave(model))}")
    if answer in MISTAKES or mine not in ("-", answer):
        end(1, f"{line}: the model says {answer}, mine is {mine}")


def ending(status):
    """Says how a program ended: with a status, or by which signal."""
    if status >= 0:
        return f"ended with status {status}"
    names = {each.value: f" ({each.name})" for each in signal.Signals}
    return f"was killed by signal {-status}{names.get(-status, '')}"


def leave(model):
    """Closes the model's input, and gives its status; one that does not end then is killed."""
    try:
        model.stdin.close()
    except BrokenPipeError:
        pass  # it has ended, and what it was not told is lost
    try:
        return model.wait(PATIENCE)
    except subprocess.TimeoutExpired:
        model.kill()
        return model.wait()


def program_of(words):
    """Gives the model's program: a file that is named, or one on the path; else ../aia."""
    if not words:
        return Path(__file__).resolve().parent.parent / "aia"
    return Path(words[0]).absolute() if Path(words[0]).is_file() else words[0]


def main():
    words = sys.argv[1:]
    if words in (["-h"], ["--help"]):
        print(__doc__.strip())
        return
    if len(words) > 1:
        end(2, f"lockstep.py: one PROGRAM at most is wanted, and not {len(words)} words\n"
               "lockstep.py -h says more")
    if words and words[0].startswith("-"):
        end(2, f"lockstep.py: there is no option {words[0]!r}\nlockstep.py -h says more")
    words = words or [name for name in [os.environ.get("PROGRAM")] if name]
    program = program_of(words)
    signal.signal(signal.SIGALRM, too_long)
    try:
        model = subprocess.Popen([program, "replay"], text=True, stdin=subprocess.PIPE,
                                 stdout=subprocess.PIPE)
    except OSError as wrong:
        end(2, f"{program} can't be run: {wrong.strerror}")
    try:
        for line, mine in MACHINE:
            ask(model, line, mine, SECONDS if words else 0)
    finally:
        status = leave(model)
        if status and not words:
            print("another model goes behind lockstep.py: examples/lockstep.py"
                  " peers/apart/model.py, which is not proved", file=sys.stderr)
    if status:
        end(2, f"the model {ending(status)}")
    print(f"{len(MACHINE)} accesses, all the same")


if __name__ == "__main__":
    main()
