"""judge.py [--seconds N] < FILE: looks for a run of each plan of a file that loses an interrupt.

It reads plans as `./plans judge` does (docs/PLANS.md), and tries runs of each on the machine that
is told there, with Python alone. Of each plan it prints one answer:

    loses: RUN                a run that loses an identity, or leaves it where it does not belong,
                              or, into memory, leaves the host untold; in the words in which
                              `./plans judge` shows runs, and by the numbers of the file's lines
    no loss found in N runs   with `; stopped after S seconds` where not all were tried
    bad line N                as `./plans judge` has it; `suite/lint --language judge` says why

This is a search, not a proof: `no loss found` is no `accepted`, and nothing here is proved.

A run follows one identity of a word, the second, from each place where it may stand at the start,
with one store at most: of each producer, by each of its routes, behind each step, at once or, while
it can be in flight, later. One is enough: a store only adds an identity to a place, so what is
lost, left or untold with several stores is so with one of them alone. Of stores that end alike one
is tried. What the host is told is looked at last. Each plan is given N seconds, else 60.

Ends with status 0 where no loss is found, 1 where a plan loses, 7 where one has a bad line, 8 where
there is no plan, 6 where the file has more than 16,777,216 bytes (then the plans that ended are
answered), as `./plans judge` does; and with 2 where the words are wrong, or it can't read or write.
"""

from __future__ import annotations

import sys
import time
from collections.abc import Iterable, Iterator
from itertools import pairwise

from lemdwab.apart import reading, words as command_line
from lemdwab.apart.plan_machine import Machine, Setting, Step
from lemdwab.apart.plan_runs import NOWHERE, PLACES, Losing, Store, Untold, shown
from lemdwab.linting_plans import DECLARATIONS, STEPS, Judged, cut

MOST_BYTES = 1 << 24
SECONDS, MOST_SECONDS = 60, 86_400
NO_LOSS, LOSES, TOO_LONG, BAD_LINE, NO_PLAN = 0, 1, 6, 7, 8


class Plan:
    """A plan of a file: its setting, its steps with their lines, and its first bad line."""

    def __init__(self) -> None:
        self.setting = Setting([])
        self.steps: list[Step] = []
        self.lines: list[int] = []
        self.bad: int | None = None

    def take(self, line: int, said: list[str]) -> None:
        """Takes the words of a line that is good."""
        if said[0] in DECLARATIONS:
            self.setting.declare(*said)
        else:
            self.steps.append(tuple(int(word) if word.isdigit() else word for word in said))
            self.lines.append(line)


def plans_of(texts: Iterable[bytes]) -> Iterator[Plan]:
    """Lists the plans of a file, by its lines."""
    judged = Judged()
    plan: Plan | None = None
    for number, text in enumerate(texts, 1):
        is_bad, said = judged.fault(text) is not None, [word for _, word in cut(text)]
        if not is_bad and not said:
            continue
        begins = said[:1] == ["plan"]
        if plan and begins:
            yield plan
        if not plan or begins:
            plan = Plan()
        if plan.bad is None and is_bad:
            plan.bad = number
        elif plan.bad is None and not begins:
            plan.take(number, said)
    if plan:
        yield plan


# ---- which runs are tried


def touches(step: Step, word: int, producer: int) -> bool:
    """Says whether a step is of no other word and of no other producer than these."""
    if "producer" in STEPS[str(step[0])]:
        return step[1] == producer
    return not isinstance(step[-1], int) or step[-1] == word


def stores(setting: Setting, plan: list[Step], word: int, producer: int) -> Iterator[Store]:
    """Lists the stores of a producer into a word, one of those that end alike. Behind a step of
    another word or producer one ends as before it. One in flight ends as one at once where its
    route leads to the same place still, so it is sent before a switch, as late as it can."""
    machine = Machine(setting)
    sent: int | None = None
    for before in range(len(plan) + 1):
        if before:
            step = plan[before - 1]
            machine.step(step)
            if not touches(step, word, producer):
                continue
            if step in (("fence", producer), ("pause", producer)):
                sent = None
        if machine.paused[producer]:
            continue
        yield Store(producer, before)
        if machine.written[producer] != machine.force[producer]:
            yield Store(producer, before, by_written=True)
        if machine.force[producer] == "old":
            sent = before if setting.producers[producer] == "routed" else None
        elif sent is not None:
            yield Store(producer, sent, lands=before)


def all_stores(setting: Setting, plan: list[Step], word: int) -> Iterator[Store]:
    """Lists the stores of all producers into a word."""
    for producer in range(len(setting.producers)):
        yield from stores(setting, plan, word, producer)


def runs_that_lose(setting: Setting, plan: list[Step]) -> Iterator[Losing]:
    """Lists runs that may lose an identity: those without a store, then those with one, then that
    in which nothing stands anywhere."""
    identities = [(word, 1) for word in range(setting.words)]
    for what in identities:
        for begin in ("old",) if setting.fresh else ("old", "new"):
            for bank in ("pending", "enabled"):
                yield Losing(what, bank, begin)
    for what in identities:
        for store in all_stores(setting, plan, what[0]):
            yield Losing(what, "pending", NOWHERE, store)
    yield Losing(identities[0], "pending", NOWHERE)


def runs_untold(setting: Setting, plan: list[Step]) -> Iterator[Untold]:
    """Lists runs that may leave the host untold: those without a store, then those with one, each
    from all starts of the numbers where they are heeded."""
    numbers: list[tuple[str, str | None]] = [("old", "old")]
    if setting.heeds:
        numbers = [(one, other) for one in PLACES for other in (*PLACES, None)]
    identities = [(word, 1) for word in range(setting.words)]
    for what in identities:
        for delivery, threshold in numbers:
            yield Untold(what, None, delivery, threshold)
    for what in identities:
        for store in all_stores(setting, plan, what[0]):
            for delivery, threshold in numbers:
                yield Untold(what, store, delivery, threshold)


def runs(setting: Setting, plan: list[Step]) -> Iterator[Losing | Untold]:
    """Lists the runs of a plan that are tried."""
    yield from runs_that_lose(setting, plan)
    if setting.memory:
        yield from runs_untold(setting, plan)


# ---- what is answered


def answer(plan: Plan, seconds: int) -> tuple[int, str]:
    """Gives what is answered of a plan, and the status that this asks for."""
    if plan.bad is not None:
        return BAD_LINE, f"bad line {plan.bad}"
    count, end = 0, time.monotonic() + seconds
    for tried in runs(plan.setting, plan.steps):
        if time.monotonic() >= end:
            return NO_LOSS, f"no loss found in {count} runs; stopped after {seconds} seconds"
        count += 1
        run = shown(plan.setting, plan.steps, plan.lines, tried)
        if run:
            return LOSES, f"loses: {run}"
    return NO_LOSS, f"no loss found in {count} runs"


def plans_that_end(data: bytes) -> Iterator[Plan]:
    """Lists the plans of a file; of one that is too long those that end in what is read of it."""
    if len(data) <= MOST_BYTES:
        yield from plans_of(reading.texts(data))
        return
    whole = data[:data.rfind(b"\n", 0, MOST_BYTES) + 1]
    for plan, _ in pairwise(plans_of(reading.texts(whole))):
        yield plan


def main() -> int:
    given = command_line.given(
        __doc__, lambda given: not given or (
            len(given) == 2 and given[0] == "--seconds" and command_line.are_numbers(given[1:])
            and 1 <= int(given[1]) <= MOST_SECONDS))
    seconds = int(given[1]) if given else SECONDS
    data = sys.stdin.buffer.read(MOST_BYTES + 1)
    worst = None
    for plan in plans_that_end(data):
        status, text = answer(plan, seconds)
        print(text, flush=True)
        worst = max(status, worst or 0)
    if len(data) > MOST_BYTES:
        return TOO_LONG
    return NO_PLAN if worst is None else worst
