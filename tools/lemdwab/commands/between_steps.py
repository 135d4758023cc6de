"""between-steps: writes what lines answer between two steps of a move.

    between-steps [FOLDER]

Writes crates/aia_script_tests/data/moves/lines-between-steps below FOLDER, else in this repository:
lines that stand between two steps of a move of a virtual hart, what each answers there, and what
there is to see after the move. The program aia_script_tests holds runs to it, between any two
steps, and with passed sources also before and after the move. Which lines these are stands in
lemdwab.between. What they answer says the model written apart. Takes about a minute.

Ends with status 2 where the words are wrong, or the file can't be written. Needs Python 3.10 or
later.
"""

from __future__ import annotations

import copy
import re
from collections.abc import Iterator
from itertools import groupby
from pathlib import Path
from typing import TYPE_CHECKING

from lemdwab import between, running
from lemdwab.apart import model, moves
from lemdwab.between import KINDS, MOVES, Setting
from lemdwab.running import sure

if TYPE_CHECKING:
    from lemdwab.apart.model import Script

HEAD = """\
# Lines between two steps of a move, and their answers: suite/between-steps finds them, so
# edit that, not this. crates/aia_script_tests/src/table.rt says how a table is read.

"""
# How wide the lines of a row of several and their answers are at most.
WIDTH = 93
WIDE = re.compile("0x0*([0-9a-f]+)")


def shown(answer: str) -> str:
    """Gives an answer as the table has it: numbers of 64 bits are cut."""
    return f"x{sure(WIDE.fullmatch(answer))[1]}" if len(answer) == 18 else answer


class Run:
    """A script of the model written apart, up to a place of a move."""

    def __init__(self, script: Script | None = None) -> None:
        self.script = script or model.Script()

    def copied(self) -> Run:
        """Gives a run that goes on by itself from the same place."""
        return Run(copy.deepcopy(self.script))

    def answers(self, lines: list[str]) -> list[str]:
        """Says lines, and lists their answers."""
        return [shown(sure(self.script.answer(line.encode()))) for line in lines]

    def steps(self, count: int) -> None:
        """Does so many steps of the move."""
        for _ in range(count):
            self.script.answer(b"step 0 0")


def steps_left(kind: str, setting: Setting) -> int:
    """Gives how many steps are to come after the beginning."""
    if kind not in MOVES:
        return 0
    return len(moves.plan_of(MOVES[kind], setting.words)) + setting.passed - begun(kind, setting)


def begun(kind: str, setting: Setting) -> int:
    """Gives how many steps are done at the beginning: up to its fence, or none."""
    if setting.flight != "past":
        return 0
    return moves.plan_of(MOVES[kind], setting.words).index(("Fence", 0)) + 1


def listed(word: str, lines: list[str], said: list[str]) -> Iterator[str]:
    """Lists rows of lines with their answers, as many lines in a row as fit its width."""
    row, row_said = "", ""
    for line, one in zip(lines, said):
        if row and len(word + row + row_said + line + one) > WIDTH:
            yield f"{word} {row} => {row_said}"
            row = row_said = ""
        row += (";" if row else "") + line
        row_said += (" " if row_said else "") + one
    yield f"{word} {row} => {row_said}"


class Move:
    """A move of a virtual hart from a setting on, and what there is to see after it."""

    def __init__(self, kind: str, setting: Setting) -> None:
        self.kind, self.setting = kind, setting
        self.left = steps_left(kind, setting)
        self.before = between.before(setting)
        self.begin = between.begin(kind, setting, begun(kind, setting))
        self.after = between.after(kind, setting)
        start = Run()
        self.said_before = start.answers(self.before)
        self.said_begin = start.answers(self.begin)
        self.places = [start]
        for _ in range(self.left):
            self.places.append(self.places[-1].copied())
            self.places[-1].steps(1)
        self.usual = self.places[-1].copied().answers(self.after)

    def head(self) -> str:
        """Says what the table is about."""
        setting = self.setting
        sent = "past its fence" if setting.flight == "past" else "before"
        return (f"\n== {self.kind} of {setting.greatest} identities"
                + (", one deliverable" if setting.is_deliverable else "")
                + (f", stores sent {sent}" if setting.flight else "")
                + (f", passed sources: {setting.passed}" if setting.passed else ""))

    def said(self, lines: list[str], gap: int) -> str:
        """Gives what lines answer at a place, and behind that what is to see after the move where
        it is not as usual: of looks that are, how many."""
        run = self.places[gap].copied()
        said, same = run.answers(lines), 0
        run.steps(self.left - gap)
        for got, usual in zip(run.answers(self.after), self.usual):
            if got == usual:
                same += 1
            else:
                said += ([str(same)] if same else []) + [got]
                same = 0
        return " ".join(said)

    def runs(self, line: str) -> Iterator[str]:
        """Lists the rows of lines at all places, those together where they answer the same."""
        last = self.left + (1 if self.setting.passed else 0)
        said = [(gap, self.said(line.split(";"), gap)) for gap in range(last)]
        for answer, group in groupby(said, lambda one: one[1]):
            gaps = [gap for gap, _ in group]
            yield f"at {gaps[0]} {gaps[-1] + 1} {line} => {answer}"

    def table(self) -> Iterator[str]:
        """Lists the rows of the table."""
        yield self.head()
        yield f"steps {self.left}"
        yield from listed("before", self.before, self.said_before)
        yield from listed("before", self.begin, self.said_begin)
        yield from listed("after", self.after, self.usual)
        setting = self.setting
        if not (setting.is_deliverable or setting.flight or setting.passed):
            yield "rows"
        for line in between.lines(setting):
            yield from self.runs(line)


def tables() -> Iterator[Move]:
    """Lists all tables: which moves, from which settings on."""
    for words in (1, 2):
        for is_deliverable in (False, True):
            for kind in MOVES:
                yield Move(kind, Setting(words, is_deliverable))
        for kind in MOVES:
            for flight in ("before", "past"):
                yield Move(kind, Setting(words, flight=flight))
        for passed in (1, 3):
            for kind in KINDS:
                yield Move(kind, Setting(words, passed=passed))


def main() -> int:
    _, rest, _ = running.words("")
    if len(rest) > 1:
        running.usage("one FOLDER at most is wanted")
    top = Path(rest[0]) if rest else running.TOP
    if not top.is_dir():
        running.fail(f"there is no folder {top}")
    folder = top / "crates/aia_script_tests/data/moves"
    folder.mkdir(parents=True, exist_ok=True)
    rows = [f"everywhere {lines} => {word}" for word, lines in between.EVERYWHERE]
    for move in tables():
        rows += move.table()
    (folder / "lines-between-steps").write_text(HEAD + "\n".join(rows) + "\n", encoding="ascii")
    return 0
