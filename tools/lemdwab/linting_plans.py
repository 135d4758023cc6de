"""Why a line of a plan for `judge` is bad, as docs/PLANS.md has it: it spells nothing, or it
says what it may not say there."""

from __future__ import annotations

import re
from typing import NamedTuple

from lemdwab import answers
from lemdwab.linting import Fault, bytes_of_no_text, unknown

LINE_BYTES, MOST_WORDS, MOST_PRODUCERS, MOST_STEPS = 128, 32, 16, 4096
# What follows the first word of a declaration, and of a step: the names of CHOICES, or numbers.
DECLARATIONS = {
    "plan": (), "fresh": (), "memory": (), "heeds": (), "inherited": (), "words": ("count",),
    "producer": ("kind",), "numbers": ("spot", "spot"), "notices": ("declared",),
}
STEPS = {
    "route": ("producer",), "fence": ("producer",), "switch": ("producer",),
    "pause": ("producer",), "resume": ("producer",),
    "zero": ("place", "thing"), "take": ("thing",), "copy": ("thing",), "join": ("set",),
    "put": ("thing",), "look": ("word",), "post": (), "tell": (), "untell": (),
    "write": ("written",), "free": (),
}
SETS, NUMBERS = ("pending", "enabled"), ("threshold", "delivery")
CHOICES = {
    "kind": ("routed", "switched"), "spot": ("old", "hand", "new"), "place": ("old", "new"),
    "set": SETS, "thing": (*SETS, *NUMBERS), "written": ("notice",),
    "declared": ("unset",),
}
# The forms, as docs/PLANS.md has them.
FORMS = {
    "words": "`words N`", "producer": "`producer KIND`", "numbers": "`numbers FROM TO`",
    "notices": "`notices unset`",
    "route": "`route P`", "fence": "`fence P`", "switch": "`switch P`",
    "pause": "`pause P`", "resume": "`resume P`",
    "zero": "`zero PLACE SET W` or `zero PLACE N`", "take": "`take SET W` or `take N`",
    "copy": "`copy SET W` or `copy N`",
    "join": "`join SET W`", "put": "`put SET W` or `put N`", "look": "`look W`",
    "write": "`write notice`",
}
NAMES = {"count": "N", "producer": "P", "word": "W"}
NUMERAL = re.compile("[0-9]{1,2}")


class Said(NamedTuple):
    """What a line says: its first word, and the numbers in it by what they are, each with its
    column."""

    name: str
    numbers: dict[str, tuple[int, int]]


def cut(text: bytes) -> list[tuple[int, str]]:
    """Gives the words before a comment, each with its column; any number of spaces is between."""
    front = answers.shown(text.partition(b"#")[0])
    return [(found.start() + 1, found[0]) for found in re.finditer("[^ ]+", front)]


def field_fault(what: str, column: int, word: str, form: str) -> Fault | None:
    """Finds what is wrong with a word that ought to be of a kind."""
    if what in NAMES:
        return None if NUMERAL.fullmatch(word) else Fault(
            column, f"{NAMES[what]} of {form} is a number of one or two decimal digits: {word}")
    if word in CHOICES[what]:
        return None
    if what == "set" and word in NUMBERS:
        return Fault(column, f"{word} is not joined, but put: {form}")
    return Fault(column, f"{unknown('word', word, CHOICES[what])} (here stands"
                         f" {' or '.join(CHOICES[what])})")


def said_of(text: bytes) -> Fault | Said | None:
    """Gives what a line says, its fault where it spells nothing, None where it is skipped."""
    if len(text) > LINE_BYTES:
        return Fault(LINE_BYTES + 1, f"a line of {len(text)} bytes; it has {LINE_BYTES} at most,"
                                     " its comment among them")
    words = cut(text)
    if not words:
        return None
    fault = bytes_of_no_text(text.partition(b"#")[0])
    if fault:
        return fault
    column, name = words[0]
    wanted = [*DECLARATIONS.get(name, STEPS.get(name, ()))]
    if name not in DECLARATIONS and name not in STEPS:
        return Fault(column, unknown("word", name, {*DECLARATIONS, *STEPS}))
    form = FORMS.get(name, f"`{name}`")
    numbers: dict[str, tuple[int, int]] = {}
    for column, word in words[1:]:
        if not wanted:
            return Fault(column, f"too many words: {form}")
        what = wanted.pop(0)
        fault = field_fault(what, column, word, form)
        if fault:
            return fault
        if what in NAMES:
            numbers[what] = int(word), column
        elif what in ("set", "thing") and word in SETS:
            wanted.insert(0, "word")
    if wanted:
        return Fault(words[-1][0] + len(words[-1][1]), f"too few words: {form}")
    return Said(name, numbers)


TELLING = {"look", "post", "tell", "write", "heeds", "notices"}


def warning(names: set[str]) -> str:
    """Gives what a plan that says lines of these names leaves undeclared, so that the judge asks
    nothing of it; nothing where a plan says nothing, or leaves out nothing."""
    found = []
    if names and "producer" not in names:
        found.append("no `producer`: nobody stores, and no route and no fence is asked for")
    if names & TELLING and "memory" not in names:
        found.append("no `memory`: nothing is asked of what the host is told")
    return f"declares {'; and '.join(found)}" if found else ""


def notes(texts: list[bytes]) -> list[tuple[int, str]] | None:
    """Lists what the judge does not say of a file's plans: that there is none, by None, or of which
    line on a plan leaves what undeclared."""
    plans_: list[tuple[int, set[str]]] = [(1, set())]
    is_any = False
    for number, text in enumerate(texts, 1):
        said = said_of(text)
        is_any |= said is not None
        if isinstance(said, Said) and said.name == "plan":
            plans_.append((number, set()))
        elif isinstance(said, Said):
            plans_[-1][1].add(said.name)
    if not is_any:
        return None
    return [(number, warning(names)) for number, names in plans_ if warning(names)]


class Judged:
    """The lines of a file of plans. After the first bad line of a plan its others are looked at as
    far as they spell nothing alone: what is declared is not known then."""

    def __init__(self) -> None:
        self.plans = 0
        self.begin()

    def begin(self) -> None:
        """Begins a plan, for which nothing is declared."""
        self.words, self.producers, self.steps, self.is_bad = 1, 0, 0, False

    def fault(self, text: bytes) -> Fault | None:
        """Finds what is wrong with the next line."""
        said = said_of(text)
        if isinstance(said, Said):
            if said.name == "plan":
                self.begin()
                return None
            if self.is_bad:
                return None
            said = self.declared(said) if said.name in DECLARATIONS else self.done(said)
        self.is_bad |= said is not None
        return said

    def declared(self, said: Said) -> Fault | None:
        """Takes a declaration, or finds what is wrong with it."""
        count, column = said.numbers.get("count", (1, 1))
        if not 1 <= count <= MOST_WORDS:
            return Fault(column, f"N of `words N` is 1 to {MOST_WORDS}: {count}")
        if self.steps:
            return Fault(1, f"{said.name} stands behind a step; declarations come before the first")
        if said.name == "producer":
            if self.producers == MOST_PRODUCERS:
                return Fault(1, f"one producer too many; a plan has {MOST_PRODUCERS} at most")
            self.producers += 1
        self.words = count if said.name == "words" else self.words
        return None

    def done(self, said: Said) -> Fault | None:
        """Takes a step, or finds what is wrong with it."""
        producer, column = said.numbers.get("producer", (-1, 1))
        if producer >= self.producers:
            declared = (f"0 to {self.producers - 1} are" if self.producers > 1 else
                        "0 alone is" if self.producers else "none is")
            return Fault(column, f"producer {producer} is not declared; {declared}")
        word, column = said.numbers.get("word", (0, 1))
        if word >= self.words:
            declared = f"0 to {self.words - 1} are" if self.words > 1 else "0 alone is"
            return Fault(column, f"word {word} is not declared; {declared}")
        if self.steps == MOST_STEPS:
            return Fault(1, f"one step too many; a plan has {MOST_STEPS} at most")
        self.steps += 1
        return None
