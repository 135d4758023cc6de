"""Holds the answers of a peer against those of the program, over random scripts.

An answer is the same; or it differs, and then it is *explained* where the rules of the peer foresee
it and a row of its file of known differences says why, the file that suite/compare takes with
--known; or it is neither. Where it differs, the program has to answer as the model apart does: an
answer of the program that is wrong is explained by no row.
"""

from __future__ import annotations

import os
import re
import selectors
import subprocess
import sys
import time
from collections import Counter
from collections.abc import Callable, Iterable
from pathlib import Path
from typing import Any, NamedTuple

from lemdwab.answers import Known
from lemdwab.apart import model, reading, words
from lemdwab.apart.refusals import Refused
from lemdwab.running import ending, sure

ANY = "-"
LINES = 600  # of a script
SECONDS = 1500  # of a comparison
TIME_LIMIT, OUTPUT_LIMIT = 60, 16 << 20


class Stopped(Exception):
    """The comparison can't go on."""


def printed(command: list[str], script: bytes) -> bytes:
    """What a command prints for a script, within limits of time and bytes."""
    source = os.memfd_create("script")
    os.write(source, script)
    os.lseek(source, 0, os.SEEK_SET)
    deadline, found = time.monotonic() + TIME_LIMIT, bytearray()
    with subprocess.Popen(["setpriv", "--pdeathsig", "KILL", *command], stdin=source,
                          stdout=subprocess.PIPE, stderr=subprocess.DEVNULL) as process:
        os.close(source)
        waits, pipe = selectors.DefaultSelector(), sure(process.stdout).fileno()
        waits.register(pipe, selectors.EVENT_READ)
        while waits.select(max(0, deadline - time.monotonic())) and len(found) <= OUTPUT_LIMIT:
            piece = os.read(pipe, 65536)
            if not piece:
                if process.wait(TIME_LIMIT):
                    raise Stopped(f"{command[0]} {ending(process.returncode)}")
                return bytes(found)
            found += piece
        process.kill()
    raise Stopped(f"{command[0]} prints too much, or takes more than {TIME_LIMIT} seconds")


def lines_of(script: bytes) -> list[bytes]:
    """The lines of a script that have an answer."""
    return [text for text in reading.texts(script) if reading.read(text) is not None]


def answers_of(command: list[str], script: bytes) -> list[str]:
    """What a command answers, line by line."""
    return printed(command, script).decode(errors="backslashreplace").split("\n")[:-1]


class Tally:
    """What was found so far."""

    def __init__(self, known: Known) -> None:
        self.known = known
        self.subjects: dict[str, Counter[str]] = {}
        self.reasons: Counter[str | None] = Counter()
        self.unexplained = 0

    def script(self, name: str, subject: str, script: bytes, wanted: list[str], told: list[str],
               got: list[str]) -> None:
        """The answers to one script: the program's, those that the rules foresee, the peer's."""
        counts = self.subjects.setdefault(subject, Counter())
        lines = lines_of(script)
        right = model.answers(script).decode().split("\n")[:-1]
        if not len(lines) == len(wanted) == len(told) == len(got) == len(right):
            raise Stopped(f"{name}: not as many answers as lines")
        for at, (line, ours, foreseen, theirs, apart) in enumerate(
                zip(lines, wanted, told, got, right)):
            counts["lines"] += 1
            if foreseen == ANY:
                counts["not looked at"] += 1
                continue
            why = self.known.reason(line.decode(), ours, theirs) if ours != theirs else ""
            if foreseen == theirs and why is not None and ours == apart:
                counts["differ, explained" if why else "same"] += 1
                self.reasons[why] += bool(why)
                continue
            counts["differ, unexplained"] += 1
            self.unexplained += 1
            if self.unexplained <= 100:
                print(f"{name}: answer {at + 1}: {line.decode()}: the program {ours}, the model "
                      f"apart {apart}, the peer {theirs}, its rules {foreseen}"
                      + ("" if why is not None else ", and no row fits"))
            return  # what comes later may differ for that alone

    def show(self) -> bool:
        """The counts, and whether all is explained."""
        total: Counter[str] = Counter()
        for subject, counts in self.subjects.items():
            total += counts
            print(f"{subject}: " + counted(counts))
        print("all: " + counted(total))
        for why, count in sorted(self.reasons.items()):
            if why:
                print(f"  {count:7} {why}")
        return not self.unexplained


def counted(counts: Counter[str]) -> str:
    words = ("lines", "same", "not looked at", "differ, explained", "differ, unexplained")
    return "; ".join(f"{counts[word]} {word}" for word in words)


def foreseen(script: bytes, make: Callable[..., Any]) -> list[str]:
    """The answers of the rules of a peer to a script that begins with a `machine` line, of whose
    sizes `make` gives a machine."""
    machine, answers = None, []
    for text in lines_of(script):
        form, fields = sure(reading.read(text))
        if form == "machine":
            machine = make(*fields)
            answers.append("ok")
            continue
        try:
            answers.append(getattr(machine, form)(*fields))
        except Refused as refused:
            answers.append(refused.word)
    return answers


def print_script(subjects: Iterable[str], make: Callable[[str, int, int], bytes], usage: str
                 ) -> int:
    """Prints the random script that the words of the command line name: SUBJECT, SEED, COUNT. Gives
    the exit status."""
    subject, seed, count = words.given(usage, lambda given: len(given) == 3 and (
        given[0] in subjects and re.fullmatch("[0-9]{1,9}", given[1])
        and re.fullmatch("[1-9][0-9]{0,4}", given[2])))
    sys.stdout.buffer.write(make(subject, int(seed), int(count)))
    return 0


class Peer(NamedTuple):
    """What is compared with the program."""

    known: Path  # its file of known differences
    subjects: Iterable[str]
    random_script: Callable[[str, int, int], bytes]  # of a subject, a seed, so many lines
    told: Callable[[str, bytes], list[str]]  # what its rules foresee of a subject's script
    answers: Callable[[str, str, bytes, int], list[str]]  # its own: by WHAT, subject, script, seed


def compared(peer: Peer, program: str, what: str, seeds: range) -> bool:
    """Compares over scripts of each subject and seed, and shows the counts. Says whether all is
    explained."""
    tally, deadline = Tally(Known(peer.known)), time.monotonic() + SECONDS
    for seed in seeds:
        for subject in peer.subjects:
            if time.monotonic() > deadline:
                raise Stopped(f"it took more than {SECONDS} seconds")
            script = peer.random_script(subject, seed, LINES)
            tally.script(f"{subject} {seed}", subject, script,
                         answers_of([program, "replay"], script), peer.told(subject, script),
                         peer.answers(what, subject, script, seed))
    return tally.show()


def main(peer: Peer, usage: str) -> int:
    """Compares a peer by the words of the command line: PROGRAM, WHAT, SCRIPTS and SEED. Gives the
    exit status."""
    program, what, *numbers = words.given(usage, lambda given: len(given) == 4 and all(
        re.fullmatch("[0-9]{1,9}", word) for word in given[2:]))
    scripts, seed = map(int, numbers)
    try:
        is_explained = compared(peer, program, what, range(seed, seed + scripts))
    except Stopped as stopped:
        print(f"{Path(sys.argv[0]).stem}: {stopped}", file=sys.stderr)
        return 2
    return 0 if is_explained else 1
