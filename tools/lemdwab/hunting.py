"""A command held against the model over random scripts: the first that differs, how often it does,
and what is left of it.

A command may answer otherwise now and then. So a difference counts only as it was seen: a script is
shrunk by runs that differed, and what is printed is one of these. If it differs in another way from
run to run nothing is shrunk: what would be left is of no difference in particular."""

from __future__ import annotations

import math
import os
import sys
import time
from collections.abc import Callable, Iterator
from concurrent.futures import Future, wait
from pathlib import Path
from typing import TYPE_CHECKING, NamedTuple

from lemdwab import answers, running, scripts
from lemdwab.running import sure
from lemdwab.shrinking import Shrinker

if TYPE_CHECKING:
    from lemdwab.answers import Known
    from lemdwab.running import Pace, Ran
    from lemdwab.scripts import Draw

# How often a script that differed is run again, where it differs each time, and where not.
FEW, MANY = 4, 39
# Seconds after which it is run no more.
LONGEST = 120
# A script that differs in fewer of so many runs than one is not shrunk.
SELDOM = 4
# How probable it is that a script which differs now and then is seen to.
SURE = 0.95
# How many scripts a process tries before it tells, at first and at most.
FIRST_UNIT, MOST_UNIT = 4, 256
CHANGES = "the command's answers change from run to run"


class Found(NamedTuple):
    """The first difference over a script: its kind, its place without the lines that each script
    begins with, the model's answer there, and mine, if there are two; and how both ended. Beside
    the kinds of a verdict there are `broken`, answers are missing and the command ended with a
    fault, and `ending`, it did so after all of them."""

    kind: str
    at: int
    model: str
    mine: str
    wanted: bytes
    ran: running.Ran

    def way(self) -> tuple[str, int | None, str]:
        """Gives what is the same of a difference that comes again. How far a command gets until it
        is stopped is not."""
        return self.kind, None if self.ran.stopped else self.at, self.mine


class Seen(NamedTuple):
    """What came of running a script again: a difference, if one came, how often one did, in how
    many runs, and in which ways."""

    found: Found | None
    seen: int
    runs: int
    ways: frozenset[tuple[str, int | None, str]]

    def changes(self) -> bool:
        """Says whether it differed in more ways than one."""
        return len(self.ways) > 1

    def and_then(self, other: Seen) -> Seen:
        """Gives both together."""
        return Seen(other.found or self.found, self.seen + other.seen, self.runs + other.runs,
                    self.ways | other.ways)


class Hunt:
    """Two commands, and how they are held against each other."""

    def __init__(self, command: list[str], model: list[str], each: int, known: Known,
                 begin: tuple[bytes, ...], pace: Pace | None = None) -> None:
        self.command, self.model, self.each, self.known = command, model, each, known
        self.begin, self.pace = begin, pace or running.Pace()
        self.last: tuple[bytes | None, bytes] = (None, b"")

    def wanted(self, script: bytes) -> bytes:
        """Gives what the model answers, which is the same each time."""
        if self.last[0] != script:
            ran = running.run(self.model, script, self.each, answers.most_output(script))
            running.check_started(ran, self.model)
            if ran.fault():
                running.fail(f"the model: {ran.fault()}")
            self.last = script, ran.output
        return self.last[1]

    def whole(self, script: bytes) -> bytes:
        """Gives a script with what each begins with."""
        return scripts.begun(script, self.begin)[0]

    def differs(self, script: bytes) -> Found | None:
        """Gives the first difference over a script, None where all is the same. One within the
        lines that each begins with is at the machine's place."""
        whole, before = scripts.begun(script, self.begin)
        wanted = self.wanted(whole)
        ran = running.run(self.command, whole, self.each, answers.most_output(whole))
        running.check_started(ran, self.command)
        if wanted == ran.output and not ran.fault():
            return None
        verdict = answers.Verdict(whole, wanted, ran.output, self.known)
        kind, place = verdict.first() or ("ending" if ran.fault() else "", len(verdict.script) - 1)
        if not kind:
            return None
        model = verdict.model[place] if kind in ("answer", "missing") else ""
        mine = verdict.differences[0].mine if kind == "answer" else ""
        kind = "broken" if kind == "missing" and ran.fault() else kind
        return Found(kind, max(min(place, before - 1), place - len(self.begin), 0), model, mine,
                     wanted, ran)

    def is_unseen(self, script: bytes) -> bool:
        """Says whether the command answers - to each line of a script that the model answers."""
        whole = self.whole(script)
        ran = running.run(self.command, whole, self.each, answers.most_output(whole))
        return answers.Verdict(whole, self.wanted(whole), ran.output, self.known).is_unseen()

    def again(self, script: bytes, most: int) -> Seen:
        """Runs a script so many times, or until that took too long; gives what was seen."""
        seen, deadline = Seen(None, 0, 0, frozenset()), time.monotonic() + LONGEST
        while seen.runs < most and time.monotonic() < deadline:
            one = self.differs(script)
            seen = seen.and_then(Seen(one, int(bool(one)), 1,
                                      frozenset([one.way()] if one else ())))
            self.pace.tell(f"run again {running.counted(seen.runs, 'time')} of {most} at most")
        return seen

    def told(self, script: bytes, found: Found) -> Iterator[str]:
        """Says each line with its answers, as a run had them."""
        verdict = answers.Verdict(self.whole(script), found.wanted, found.ran.output, self.known)
        differing = {one.at: answers.cut(one.mine) + answers.hint(one)
                     for one in verdict.differences}
        missing = range(verdict.place, verdict.place + verdict.missing)
        width = max((len(line.text) for line in verdict.script), default=0)
        for at, (line, model) in enumerate(zip(verdict.script, verdict.model)):
            mine = f"   mine: {differing[at]}" if at in differing else ""
            mine = "   mine: (nothing)" if at in missing else mine
            yield answers.printable(f"{line.text:{width}}  => {model}{mine}")
        for said in verdict.uneven():
            yield answers.printable(said)
        if found.ran.fault():
            yield answers.printable(found.ran.fault())

    def uneven(self, script: bytes, found: Found | None) -> list[str]:
        """Says how many answers to a whole script are missing or spare, if any are."""
        if not found or found.kind == "answer":
            return []
        verdict = answers.Verdict(self.whole(script), found.wanted, found.ran.output, self.known)
        return [answers.printable(f"of its {len(verdict.model)} answers: {line}")
                for line in verdict.uneven()]

    def search(self, seeds: range, lines: int, draw: Draw) -> int | None:
        """Gives the first of these numbers whose script differs, None where none does."""
        for tried, seed in enumerate(seeds, 1):
            if self.differs(scripts.script_of(seed, lines, draw)):
                return seed
            self.pace.tell(far(tried, len(seeds)))
        return None


def far(tried: int, count: int) -> str:
    """Says how far a search is."""
    return f"{tried:,} of {running.counted(count, 'script')}"


class Left(NamedTuple):
    """What is left of a script that differed: its lines, shrunk or not, a difference over them, if
    one came, how often that was, in how many runs, and how many runs the shrinking took."""

    script: bytes
    found: Found | None
    seen: int
    runs: int
    shrinking: int


class Progress:
    """What is told of a shrinking while it goes on: how far it is, and what is left so far, which
    is kept, so that it is there where the tool is stopped."""

    def __init__(self, into: str | None) -> None:
        self.into = into
        self.hunt: Hunt | None = None
        self.seed: int | None = None
        self.left: bytes | None = None

    def begin(self, hunt: Hunt, seed: int, script: bytes) -> None:
        """Notes which script differs."""
        self.hunt, self.seed, self.left = hunt, seed, hunt.whole(script)

    def tell_stopped(self) -> None:
        """Says that the tool was stopped, and where what is left so far stands."""
        said = f"stopped by {running.State.stopped_by}: "
        if self.left is None:
            said += "no script that differs was found so far"
        else:
            path = self.into or keep(self.left, sure(self.seed))
            if self.into:
                Path(self.into).write_bytes(self.left)
            lines = running.counted(len(answers.lines(self.left)), "line")
            said += (f"what is left so far, {lines}, stands in {path}" if path else
                     "what is left so far can't be written here")
        print(f"hunt: {said}", file=sys.stderr)

    def tell(self, shrinker: Shrinker) -> None:
        """Says how far a shrinking is, now and then, and keeps what is left."""
        hunt = sure(self.hunt)
        self.left = hunt.whole(shrinker.seen_script())
        if self.into:
            Path(self.into).write_bytes(self.left)
        hunt.pace.tell(f"shrinking: {running.counted(len(shrinker.texts), 'line')} left, after"
                       f" {running.counted(shrinker.runs, 'run')}")


def left_of(hunt: Hunt, script: bytes, is_machine_fixed: bool, tell: Callable[[str], None],
            progress: Progress) -> Left:
    """Runs a script that differed once some more, and shrinks it unless the difference comes too
    seldom, or another one comes. Says where it does not come each time."""
    again = hunt.again(script, FEW)
    for line in hunt.uneven(script, again.found):
        tell(line)
    is_steady = again.seen == again.runs
    if not is_steady:
        again = again.and_then(hunt.again(script, MANY - again.runs))
        ways = f", in {len(again.ways)} ways" if again.changes() else ""
        tell(f"seen {times(again.seen + 1, again.runs + 1)}{ways}: {CHANGES}")
    elif again.changes():
        tell(f"differs in {len(again.ways)} ways in {again.runs} runs: {CHANGES}")
    if again.changes() or not again.seen or again.seen * SELDOM < again.runs:
        return Left(script, None, again.seen, again.runs, 0)
    unseen = 1 - again.seen / again.runs
    shrinker = Shrinker(script, hunt.differs, is_machine_fixed,
                        math.ceil(math.log(1 - SURE, unseen)) if unseen else 1, progress.tell)
    shrunk = (shrinker.script, shrinker.seen_script) if shrinker.shrink() else ()
    # What was cut off unseen may be wanted after all.
    for lines in (one() for one in shrunk):
        again = hunt.again(lines, FEW if is_steady else MANY)
        if not again.seen and is_steady:
            again = hunt.again(lines, MANY)
        if again.changes():
            tell(f"what was left of it differs in {len(again.ways)} ways in {again.runs} runs:"
                 f" {CHANGES}")
            return Left(script, None, again.seen, again.runs, 0)
        if again.seen:
            return Left(lines, again.found, again.seen, again.runs, shrinker.runs)
    return Left(script, None, 0, again.runs, shrinker.runs if shrunk else 0)


def times(seen: int, runs: int) -> str:
    """Says how often something was seen."""
    return f"once in {runs} runs" if seen == 1 else f"in {seen} of {runs} runs"


# ---- more than one process

def units(first: int, count: int, jobs: int) -> Iterator[tuple[int, int]]:
    """Cuts the numbers that are tried into ranges, each the work of a process: small ones first,
    since most errors are found soon, and small ones last, so that all end at about one time."""
    at, size = first, FIRST_UNIT
    while at < first + count:
        for _ in range(jobs):
            left = first + count - at
            unit = min(size, max(FIRST_UNIT, left // (2 * jobs)), left)
            if unit:
                yield at, unit
            at += unit
        size = min(2 * size, MOST_UNIT)


def searched(tool: str, words: list[str], each: int, unit: tuple[int, int]) -> Ran:
    """Has a process of its own look through a range; gives how it ended."""
    first, count = unit
    command = [sys.executable, "-B", tool, "--find", "--seed", str(first), "--scripts", str(count),
               *words]
    return running.run(command, b"", 60 + count * 2 * (each + 5), 1 << 16)


def result_of(one: Future[Ran], waiting: list[Future[Ran]], tried: list[int],
              pace: Pace) -> Ran:
    """Waits for a range to be looked through, and says meanwhile how far all are."""
    while not one.done():
        wait([one], min(pace.left(), 60) + 0.1)
        pace.tell(far(sum(size for each, size in zip(waiting, tried) if each.done()), sum(tried)))
    return one.result()


def search_by(jobs: int, tool: str, words: list[str], each: int, first: int, count: int,
              pace: Pace) -> str | None:
    """Looks through the numbers by so many processes of a tool; gives what the first of them, in
    the order of the numbers, said that found one, None where none did."""
    ranges = list(units(first, count, jobs))
    sizes = [size for _, size in ranges]
    with running.Workers(jobs) as workers:
        waiting = [workers.submit(searched, tool, words, each, unit) for unit in ranges]
        try:
            for one in waiting:
                ran = result_of(one, waiting, sizes, pace)
                if running.State.is_stopping:
                    sys.exit(2)
                if ran.stopped or ran.status not in (0, 1):
                    # What it says begins with the tool's name.
                    running.fail(ran.errors.removeprefix("hunt: ") or ran.fault())
                if ran.status == 1:
                    return answers.shown(ran.output)
        finally:
            end(waiting)
    return None


def end(waiting: list[Future[Ran]]) -> None:
    """Ends those that are still at work; the others do not begin."""
    for one in waiting:
        one.cancel()
    while wait(waiting, 0.1).not_done:
        running.end_running()


# ---- files

def check_writable(path: str) -> None:
    """Ends the tool where a file can't be written; leaves it as it is."""
    is_there = os.path.lexists(path)
    try:
        # A pipe that nobody reads yet is not waited for.
        os.close(os.open(path, os.O_WRONLY | os.O_APPEND | os.O_CREAT | os.O_NONBLOCK, 0o666))
        if not is_there:
            os.unlink(path)
    except OSError as wrong:
        running.fail(f"{path} can't be written: {wrong.strerror}")


def keep(script: bytes, seed: int) -> Path | None:
    """Writes a script into the folder where the tool was started, under a name that is free; gives
    the name, None where it can't be written."""
    for number in range(1, 100):
        path = Path(f"hunt-{seed}{f'-{number}' if number > 1 else ''}.script")
        try:
            with path.open("xb") as file:
                file.write(script)
            return path
        except FileExistsError:
            continue
        except OSError:
            return None
    return None
