"""Shrinks a script that two programs answer differently to the fewest lines that still are."""

from __future__ import annotations

import time
from collections.abc import Callable, Sequence
from typing import TYPE_CHECKING

from lemdwab import answers
from lemdwab.apart import reading
from lemdwab.running import sure

if TYPE_CHECKING:
    from lemdwab.hunting import Found

# The most runs of a command, and the most seconds, that a shrinking takes.
MOST_RUNS = 2000
LONGEST = 900
# Two lines at most so far apart are tried to be left out together.
NEAR = 8
# What is tried for each number of a machine.
SMALLER = ((1, 2, 3), (0, 1, 2), (63, 127, 255, 511, 1023), (1, 8, 32))


def script_of(texts: list[bytes]) -> bytes:
    """Gives lines as a script."""
    return b"".join(text + b"\n" for text in texts)


class Shrinker:
    """A script's lines, made fewer. `try_` runs both programs over a script, and gives the first
    difference, None where there is none: its kind, its place among the lines that have an answer,
    and the model's answer there. It is run so many `times` at most until the difference comes.

    Lines are left out only where a difference of the first one's kind was seen without them. If an
    answer differs, the line that it is of is kept, and its answer has to be the first to differ. A
    line that the model answered as a machine would is not made one by which the script is wrong:
    that another machine takes it says nothing. What stands behind the first difference is cut off
    without a run, unless the first time shows that it is wanted; so `seen` keeps the lines of the
    last run that differed. `tell` is called with the shrinker each time that lines are taken."""

    def __init__(self, script: bytes, try_: Callable[[bytes], Found | None],
                 is_machine_fixed: bool = False, times: int = 1,
                 tell: Callable[[Shrinker], None] | None = None) -> None:
        self.try_, self.is_machine_fixed, self.times = try_, is_machine_fixed, times
        self.tell = tell or (lambda _: None)
        self.runs, self.deadline = 0, time.monotonic() + LONGEST
        self.allowed, self.cuts = answers.MISTAKES, True
        self.kind: str | None = None
        # The place of the line whose answer differs, below 0 where there is none.
        self.target = -1
        self.texts = [text for text in reading.texts(script)
                      if not reading.is_skipped(text)]
        self.seen = self.texts

    def script(self) -> bytes:
        """Gives the lines that are left, as a script."""
        return script_of(self.texts)

    def seen_script(self) -> bytes:
        """Gives the lines over which a difference was last seen, as a script."""
        return script_of(self.seen)

    def read(self, at: int) -> tuple[str, list[int]]:
        """Gives the form and the fields of a line."""
        return sure(reading.read(self.texts[at]))

    def is_kept(self, found: Found, target: int) -> bool:
        """Says whether a difference is of the kind that is kept, and of the line at this place."""
        return (self.kind in (None, found.kind) and (self.kind != "answer" or found.at == target)
                and found.model not in answers.MISTAKES - self.allowed)

    def tried(self, texts: list[bytes], target: int = -1) -> Found | None:
        """Gives the first difference over these lines, if it is one to be kept, by some of the runs
        that are left; None where none came."""
        for _ in range(self.times):
            if self.runs == MOST_RUNS or time.monotonic() > self.deadline:
                return None
            self.runs += 1
            found = self.try_(script_of(texts))
            if found and self.is_kept(found, target):
                return found
        return None

    def takes(self, texts: list[bytes], target: int) -> bool:
        """Takes these lines, up to the first difference, if it is one to be kept; `target` is the
        place that the line whose answer differs has among them."""
        found = self.tried(texts, target)
        if not found:
            return False
        self.target = found.at
        self.seen, self.texts = texts, texts[:found.at + 1] if self.cuts else texts
        self.allowed = {found.model} & self.allowed
        self.tell(self)
        return True

    def kept(self) -> set[int]:
        """Gives the place of the line that stays, if there is one."""
        return {self.target} if self.kind == "answer" else set()

    def takes_without(self, places: set[int]) -> bool:
        """Takes the lines but for those at these places, and the one that stays."""
        places = places - self.kept()
        before = sum(at < self.target for at in places)
        return bool(places) and self.takes(
            [text for at, text in enumerate(self.texts) if at not in places], self.target - before)

    def begin(self) -> bool:
        """Cuts off what stands behind the first difference, and settles the kind that is kept: that
        without these lines, which may differ in other ways; or that of the whole, where they are
        wanted. Says whether a difference came."""
        whole = self.texts
        if not self.takes(whole, -1):
            return False
        found = self.tried(self.texts)
        if not found:
            self.texts, self.cuts = whole, False
            found = self.tried(whole)
        if found:
            self.kind, self.target = found.kind, found.at
        return bool(found)

    def leave_out(self) -> bool:
        """Leaves out runs of lines, ever shorter ones, from the end on; then two near each other.
        Says whether that made the script shorter."""
        before = len(self.texts)
        size = max(1, before // 2)
        while size:
            is_shorter = False
            at = len(self.texts) - size
            while at >= 0:
                is_shorter |= self.takes_without({*range(at, at + size)})
                at = min(at, len(self.texts)) - size
            size = 1 if is_shorter and size == 1 else size // 2
        first = len(self.texts) - 2
        while first >= 0:
            for second in range(first + 1, min(first + NEAR, len(self.texts))):
                pair = {first, second}
                if not pair & self.kept() and self.takes_without(pair):
                    break
            first = min(first, len(self.texts)) - 1
        return len(self.texts) < before

    def make_smaller(self) -> bool:
        """Gives the machine less of each of its numbers, unless they are fixed. Says whether it
        took less."""
        if self.is_machine_fixed:
            return False
        at = next((at for at, text in enumerate(self.texts) if text.startswith(b"machine ")), None)
        if at is None:
            return False
        sizes: Sequence[int] = self.read(at)[1]
        before = list(sizes)
        for place in range(len(sizes)):
            for size in SMALLER[place]:
                less = (*sizes[:place], size, *sizes[place + 1:])
                if size < sizes[place] and self.takes(
                        [*self.texts[:at], b"machine %d %d %d %d" % less, *self.texts[at + 1:]],
                        self.target):
                    sizes = less
                    break
        return list(sizes) != before

    def make_whole(self) -> bool:
        """Makes whole moves of those by steps. Says whether that made the script shorter."""
        before = len(self.texts)
        for at in range(before - 1, -1, -1):
            # Fewer lines may be left than there were.
            name, fields = self.read(at) if at < len(self.texts) else ("", ())
            if name.startswith("begin_"):
                self.takes_whole(at, fields[:2])
        return len(self.texts) < before

    def takes_whole(self, at: int, mover: Sequence[int]) -> None:
        """Takes a whole move in the place of one by steps that begins at a place."""
        rest = [place for place in range(at + 1, len(self.texts))
                if reading.read(self.texts[place]) != ("step", mover)]
        # What came between the steps comes after the whole move, or else before it.
        for order in ([at, *rest], [*rest[:-1], at, *rest[-1:]]):
            order = [*range(at), *order]
            texts = [self.texts[place] for place in order]
            texts[order.index(at)] = self.texts[at].split(b" ", 1)[1]
            target = order.index(self.target) if self.target in order else -1
            if self.takes(texts, target):
                return

    def spell(self) -> None:
        """Spells great numbers as addresses are, and others without zeros in front."""
        def plain(word: bytes) -> bytes:
            value = reading.number(word)
            if value is None or word.isdigit() and value < answers.GREAT:
                return word
            return b"0x%x" % value
        self.takes([b" ".join(map(plain, text.split(b" "))) for text in self.texts], self.target)

    def shrink(self) -> bool:
        """Makes the script as short as it gets; says whether a difference came at first."""
        if not self.begin():
            return False
        self.make_smaller()
        while self.leave_out() or self.make_whole() or self.make_smaller():
            pass
        self.spell()
        return True
