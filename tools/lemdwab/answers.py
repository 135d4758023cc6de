"""Scripts, their lines and answers: which lines have an answer, what may stand for one, and where
two tellings of the answers differ."""

from __future__ import annotations

import re
from collections.abc import Iterator
from fnmatch import fnmatchcase
from itertools import zip_longest
from pathlib import Path
from typing import NamedTuple

from lemdwab.apart import reading
from lemdwab.apart.model import is_machine_size
from lemdwab.running import contents, counted, fail

# Answers that say that the script is wrong, and not the machine.
MISTAKES = {"bad", "nomachine", "again", "range"}
REFUSALS = MISTAKES | {
    "full", "busy", "home", "entered", "parked", "nofile", "passed", "unready", "idle", "away",
    "illegal", "virtual", "fault", "guarded", "other", "notvalid", "gfault"}
NOT_SHOWN = "-"
# What stands first in an answer that is no number and no refusal.
ANSWERING = {NOT_SHOWN, "ok", "moving", "done", "pins", "basic", "mrif", "custom", "misconfigured",
             "image", "majors", "prio", "word"}
# From here on a number is spelled in hexadecimal.
GREAT = 1 << 16
# What a machine may have.
SIZES = ("1 to 4 harts, 0 to 31 guest files, 63, 127, 255, 511, 1023 or 2047 identities, 1 to 1023"
         " sources")
# The most bytes that an answer has, with its LF.
ANSWER_BYTES = 128
FORMS = sorted({name.split("_")[0] for name, _ in reading.BY_KEYWORDS.values()}
               | {word.decode() for word in reading.READERS})


class Line(NamedTuple):
    """A line that has an answer."""

    number: int
    text: str


class Difference(NamedTuple):
    """A line that is answered otherwise, by its place among those that have an answer."""

    at: int
    line: Line
    model: str
    mine: str


def shown(text: bytes) -> str:
    """Gives bytes as text; no two are the same."""
    return text.decode(errors="surrogateescape")


def printable(text: str) -> str:
    """Spells out what a terminal would not show, as the CR at the end of a line."""
    return text if text.isprintable() else "".join(
        one if one.isprintable() else one.encode("unicode_escape", "surrogatepass").decode()
        for one in text)


def cut(answer: str) -> str:
    """Cuts an answer that is longer than any of the model's, for a terminal; says of an empty one
    that it is."""
    if len(answer) <= ANSWER_BYTES:
        return answer or "(an empty line)"
    return f"{answer[:ANSWER_BYTES]}.. ({len(answer)} characters)"


def lines(script: bytes) -> list[Line]:
    """Lists the lines of a script that have an answer."""
    return [Line(number, shown(text)) for number, text in enumerate(reading.texts(script), 1)
            if not reading.is_skipped(text)]


def head_comment(script: bytes) -> list[str]:
    """Lists the comments with which a script begins."""
    found = []
    for text in reading.texts(script):
        if not text.startswith(b"#"):
            break
        found.append(shown(text))
    return found


def most_output(script: bytes) -> int:
    """Gives how many bytes of answers a script may have, and some more."""
    return ANSWER_BYTES * (script.count(b"\n") + 2)


def form(text: str) -> str:
    """Gives the form of a line: its first word."""
    return text.split(" ")[0]


def spelled_plainly(text: str) -> str:
    """Spells the great numbers of a line as addresses are, and others in decimal."""
    def plain(word: str) -> str:
        value = reading.number(word.encode(errors="surrogateescape"))
        if value is None:
            return word
        return f"{value}" if value < GREAT else f"0x{value:x}"
    return " ".join(map(plain, text.split(" ")))


def fits(text: str, pattern: str) -> bool:
    """Says whether a line fits a pattern, as it stands or with its numbers spelled plainly."""
    return fnmatchcase(text, pattern) or fnmatchcase(spelled_plainly(text), pattern)


def is_refused(text: str, answer: str) -> bool:
    """Says whether an answer is a refusal; `notvalid` of an `entry` is none."""
    return answer in REFUSALS and (form(text) != "entry" or answer in MISTAKES)


def forms_of(text: str) -> set[str]:
    """Reads a list of forms, as st,ld,h; a script always has `machine`."""
    forms = text.split(",")
    for one in forms:
        if one not in FORMS:
            fail(f"there is no form of line {one!r}; there are {', '.join(FORMS)}")
    return {"machine", *forms}


def sizes_of(text: str) -> tuple[int, int, int, int]:
    """Reads the four numbers of a machine, as '1 7 255 96'."""
    found = text.split()
    if not (len(found) == 4 and all(re.fullmatch("[0-9]{1,4}", word) for word in found)
            and is_machine_size(*map(int, found))):
        fail(f"no machine has the numbers {text!r}: they are {SIZES}")
    harts, guests, greatest, sources = map(int, found)
    return harts, guests, greatest, sources


def with_sizes(script: bytes, sizes: tuple[int, int, int, int]) -> bytes:
    """Gives a script whose first machine that may be has other sizes."""
    texts = script.split(b"\n")
    for at, text in enumerate(texts):
        name, fields = reading.read(text) or ("", ())
        if name == "machine" and is_machine_size(*fields):
            texts[at] = b"machine %d %d %d %d" % sizes
            break
    return b"\n".join(texts)


def asks_for_none(script: bytes) -> bool:
    """Says whether a script has a `machine` line of sizes that no machine has."""
    found = (reading.read(text) or ("", ()) for text in script.split(b"\n"))
    return any(name == "machine" and not is_machine_size(*fields) for name, fields in found)


def is_answer(text: str) -> bool:
    """Says whether a text has the form of an answer."""
    first = form(text)
    return first in REFUSALS | ANSWERING or bool(re.fullmatch("0x[0-9a-fA-F]+", first))


def is_trace(text: bytes) -> bool:
    """Says whether a text has a line of a script."""
    return any(reading.read(one) not in (None, reading.BAD) for one in reading.texts(text))


def answers(text: bytes) -> list[str]:
    """Lists the answers of a text; the last one may lack its LF."""
    return [shown(one) for one in reading.texts(text)]


class Known:
    """Differences that are known, each with a reason, and how often each was met."""

    def __init__(self, path: Path | str | None = None) -> None:
        texts = answers(contents(path)) if path else []
        self.rows = [self.row(str(path), number, text) for number, text in enumerate(texts, 1)
                     if text and not text.startswith("#")]
        self.met = [0] * len(self.rows)

    @staticmethod
    def row(path: str, number: int, text: str) -> list[str]:
        """Reads a row: patterns of the line, the model's answer and mine, and a reason."""
        fields = [field.strip() for field in text.split("|")]
        if len(fields) != 4 or not all(fields):
            fail(f"{path}, line {number}: a row is LINE | MODEL | MINE | REASON")
        return fields

    def row_of(self, line: str, model: str, mine: str) -> int | None:
        """Gives the place of the first row that fits a difference; None where none does."""
        for at, (pattern, *patterns, _) in enumerate(self.rows):
            if fits(line, pattern) and all(map(fnmatchcase, (model, mine), patterns)):
                return at
        return None

    def reason(self, line: str, model: str, mine: str) -> str | None:
        """Gives the reason of the first row that fits a difference, and counts it; None where none
        does."""
        at = self.row_of(line, model, mine)
        if at is None:
            return None
        self.met[at] += 1
        return self.rows[at][-1]

    def has(self, line: str, model: str, mine: str) -> bool:
        """Says whether a difference is known, and counts it."""
        return self.reason(line, model, mine) is not None

    def told(self) -> Iterator[str]:
        """Says of each row how often it was met."""
        for row, met in zip(self.rows, self.met):
            yield f"known, met {counted(met, 'time')}: {row[3]} ({' | '.join(row[:3])})"


def passes(line: Line, want: str, got: str, known: Known) -> bool:
    """Says whether an answer is the model's, or passes for it; what is known is not counted."""
    return (want == got or got == NOT_SHOWN and want not in MISTAKES
            or known.row_of(line.text, want, got) is not None)


def shift(script: list[Line], model: list[str], mine: list[str], known: Known) -> tuple[int, int]:
    """Gives where answers are missing or spare, and how many are spare, below 0 where they are
    missing. It is where the first differs, if all behind it are then the model's; else the end."""
    spare, end = len(mine) - len(model), min(len(model), len(mine))
    if not spare:
        return end, 0
    same = (passes(*three, known) for three in zip(script, model, mine))
    first = next((at for at, is_same in enumerate(same) if not is_same), end)
    behind, left = first + max(0, -spare), mine[first + max(0, spare):]
    is_shift = all(passes(*three, known)
                   for three in zip(script[behind:], model[behind:], left))
    return (first if is_shift else end), spare


class Verdict:
    """What came of holding answers against those of the model."""

    def __init__(self, script: bytes, model: bytes, mine: bytes, known: Known,
                 is_strict: bool = False) -> None:
        self.script, self.model, self.mine = lines(script), answers(model), answers(mine)
        self.head = head_comment(script)
        self.same = self.known = self.not_shown = self.refused = 0
        self.differences: list[Difference] = []
        self.place, spare = shift(self.script, self.model, self.mine, known)
        self.missing = max(0, -spare)
        self.spare = self.mine[self.place:self.place + max(0, spare)]
        # Who shows nothing at all says of no line that it is wrong.
        self.is_blank = not spare and set(self.mine) == {NOT_SHOWN}
        for at, want, got in self.pairs():
            self.look(at, self.script[at], want, got, known, is_strict)

    def pairs(self) -> Iterator[tuple[int, str, str]]:
        """Lists the places of lines that are answered twice, with the model's answer and mine."""
        mine = self.mine[:self.place] + self.mine[self.place + len(self.spare):]
        for at, want in enumerate(self.model[:len(self.script)]):
            if not self.place <= at < self.place + self.missing:
                yield at, want, mine[at - (self.missing if at >= self.place else 0)]

    def first(self) -> tuple[str, int] | None:
        """Gives the kind of the first difference, and its place; None where there is none. Of its
        kinds `answer` is a line that is answered otherwise, `missing` and `spare` are answers."""
        is_uneven = self.missing or self.spare
        if self.differences and not (is_uneven and self.differences[0].at >= self.place):
            return "answer", self.differences[0].at
        if is_uneven:
            return "missing" if self.missing else "spare", self.place
        return None

    def line(self, at: int) -> Line:
        """Gives the line at a place; a model that is none may have said more than there are."""
        return self.script[at] if at < len(self.script) else Line(len(self.script) + 1, "(no line)")

    def look(self, at: int, line: Line, want: str, got: str, known: Known, is_strict: bool) -> None:
        """Looks at one answer of each."""
        if got == NOT_SHOWN and (want not in MISTAKES or self.is_blank):
            self.not_shown += 1
            self.refused += is_refused(line.text, want)
        elif want == got and not (is_strict and want == "bad"):
            self.same += 1
        elif known.has(line.text, want, got):
            self.known += 1
        else:
            self.differences.append(Difference(at, line, want, got))

    def compared(self) -> int:
        """Gives how many answers were held against the model's."""
        return self.same + self.known + len(self.differences)

    def is_unseen(self) -> bool:
        """Says whether there were answers to look at, and each was one that is not shown."""
        return self.not_shown > 0 and not self.compared() and not self.count()

    def is_of_no_script(self) -> bool:
        """Says whether no line is one of a script: there is none, or the model takes none."""
        return all(answer == "bad" for answer in self.model[:len(self.script)])

    def has_no_machine(self) -> bool:
        """Says whether the model has no machine at any line."""
        return set(self.model) <= {"bad", "nomachine", "range"}

    def count(self) -> int:
        """Gives how many differences there are: answers that are missing, or spare, are one."""
        return len(self.differences) + bool(self.missing) + bool(self.spare)

    def told(self, most: int, margin: str = "") -> Iterator[str]:
        """Says each difference, so many at most, with the three lines before it."""
        for text in self.said(most):
            yield margin + printable(text)

    def said(self, most: int) -> Iterator[str]:
        """Says them as they are."""
        for text in self.head if self.count() else ():
            yield text
        told = 0
        for difference in self.differences[:most]:
            for before in range(max(told, difference.at - 3), difference.at):
                line = self.script[before]
                yield f"{line.number:6}  {line.text:30}  {self.model[before]}"
            told = difference.at + 1
            yield f"line {difference.line.number}: {difference.line.text}"
            yield f"  model: {difference.model}"
            yield f"  mine:  {cut(difference.mine)}{hint(difference)}"
        if len(self.differences) > most:
            yield f"and {len(self.differences) - most} more that differ"
        yield from self.uneven()

    def uneven(self) -> Iterator[str]:
        """Says which answers are missing, or spare."""
        if self.missing == 1:
            line = self.line(self.place)
            yield f"the answer to line {line.number} is missing: {line.text}"
        elif self.missing:
            line, last = self.line(self.place), self.place + self.missing
            until = "on" if last >= len(self.model) else f"to {self.line(last - 1).number}"
            yield (f"{counted(self.missing, 'answer')} missing, from line {line.number} {until}:"
                   f" {line.text}")
        if self.spare:
            where = ("" if self.place >= len(self.model) else
                     f", before that of line {self.line(self.place).number}" if self.place else
                     ", before all others")
            yield (f"{counted(len(self.spare), 'answer')} spare{where}, the first:"
                   f" {cut(self.spare[0])}")

    def summary(self) -> str:
        """Says in one line how many answers are the same, and not."""
        refused = f" ({self.refused} of them refused)" if self.refused else ""
        known = f", {self.known} known" if self.known else ""
        return (f"{self.same} answers same, {self.not_shown} not looked at{refused}{known},"
                f" {self.count()} differ")


def hint(difference: Difference) -> str:
    """Says where the script or the spelling is wrong, and not the machine."""
    _, _, model, mine = difference
    if model == mine:
        return " (--strict)"
    if model == "bad" or mine == NOT_SHOWN:
        return " (the script is no trace of a machine here)"
    if bare(model) == bare(mine):
        return " (its spelling alone differs: capitals, CR, spaces, or leading zeros)"
    return ""


def bare(answer: str) -> list[str]:
    """Gives an answer without what may differ in its spelling alone."""
    return [re.sub(r"^0x0+(?=[0-9a-f])", "0x", word) for word in answer.lower().split()]


def first_difference(script: bytes, model: bytes, mine: bytes, known: Known
                     ) -> tuple[int, str] | None:
    """Gives the place of the first difference among the lines that have an answer, and what the
    model answers there; None where there is none."""
    for at, (line, want, got) in enumerate(zip_longest(lines(script), answers(model),
                                                       answers(mine), fillvalue="")):
        if want != got and not (got == NOT_SHOWN and want not in MISTAKES):
            text = line.text if isinstance(line, Line) else ""
            if not known.has(text, want, got):
                return at, want
    return None
