"""lint: says why lines are bad, of a script or of a plan.

    lint [OPTIONS] FILE..                  where FILE is `-`, standard input
    lint try LINES SEED [LANGUAGE]         random lines, compared with the program

Prints a line for each line that the program refuses for its text, as FILE:LINE:COLUMN: and the
reason, 20 of a file at most, and at the end what the file is and how many lines of it are bad. A
file is a script, a plan that `./aia audit` judges, or plans that `./plans judge` does: the one of
which most lines are read. Of a script it looks at the text of each line, and not at what is there;
it warns where the first line that is read makes no machine. It runs nothing, but with `try`. Needs
Python 3.10 or later.

    --language LANGUAGE   script, audit or judge, and no other
    --words W             how many words the files of a plan for `audit` have, as `audit` is told;
                          else what a first line `# audit KIND W` says, else any

`try` draws good lines and broken ones and sees that lint says something of just those that the
program refuses. The program is that of the variable PROGRAM, for `judge` that of PLANS, else ./aia
or ./plans of this repository. It prints each line on which they differ, ten at most.

Ends with status 0 where no line is bad, 1 where one is, or lint and the program differ; 2 where it
could not look: words are wrong, or a file can't be read.
"""

from __future__ import annotations

import re
import sys
from typing import TYPE_CHECKING

from lemdwab import answers, linting, running
from lemdwab.apart import plans, reading
from lemdwab.apart.model import is_machine_size
from lemdwab.linting_plans import Judged, Said, notes, said_of

if TYPE_CHECKING:
    from lemdwab.linting import Audit, Fault, Script

# What a file is by its language.
LANGUAGES = {"script": "a script", "audit": "a plan for ./aia audit",
             "judge": "a plan for ./plans judge"}
MOST_BYTES = 1 << 24
# More lines than these, of which fewer than a tenth are read, are of no language.
SOME = 10
# Nor are more than these, of which none is read.
FEW = 2
# How many complaints of a file are printed.
MOST_TOLD = 20
# So many lines tell what a file is.
ENOUGH = 5000
FIRST_LINE = re.compile(rb"# audit (?:leave|arrive|shift) ([0-9]{1,2})\r?")


def contents(name: str) -> bytes:
    """Gives the bytes of a file, or of standard input."""
    if name != "-":
        return running.contents(name)
    return sys.stdin.buffer.read(MOST_BYTES + 1)


def plainly(text: bytes) -> bytes:
    """Gives what a line may have meant: without its comment, capitals, tabs and spare spaces."""
    return b" ".join(text.partition(b"#")[0].lower().split())


def language_of(texts: list[bytes]) -> tuple[str, dict[str, int]]:
    """Gives the language in which most lines are read, the first of them where it is open."""
    read = dict.fromkeys(LANGUAGES, 0)
    for text in filter(None, map(plainly, texts[:ENOUGH])):
        read["script"] += linting.script_fault(text) is None
        read["audit"] += linting.step_fault(text, None) is None
        read["judge"] += isinstance(said_of(text), Said)
    return max(LANGUAGES, key=lambda name: read[name]), read


def reader_of(language: str, width: int | None) -> Audit | Judged | Script:
    """Gives what reads the lines of a file."""
    if language == "script":
        return linting.Script()
    return Judged() if language == "judge" else linting.Audit(width)


class File:
    """The lines of a file, and what is wrong with them."""

    def __init__(self, name: str, data: bytes, language: str | None, width: int | None) -> None:
        self.name, self.size = name, len(data)
        # Of one that is too long the program answers the whole lines that it has read.
        whole = data if len(data) <= MOST_BYTES else data[:data.rfind(b"\n", 0, MOST_BYTES) + 1]
        self.texts = reading.texts(whole)
        first = FIRST_LINE.fullmatch(self.texts[0]) if self.texts else None
        self.width = width or (width_of(first[1].decode()) if first else None)
        self.is_dos = 0 < data.count(b"\n") == data.count(b"\r\n")
        like, read = language_of(self.texts)
        # A file without a line is of no language; that of a plan says so by its name.
        self.language = language or (
            "judge" if not any(read.values()) and str(name).endswith(".plan") else like)
        self.is_other = read[like] > read[self.language]
        self.read, self.count = read, sum(1 for text in self.texts[:ENOUGH] if plainly(text))
        most = max(read.values())
        self.is_of_none = (self.count > FEW and not most
                           or self.count > SOME and 10 * most < self.count)
        self.like = like

    def verdict(self, bad: int) -> str:
        """Says what the file is, and how many of its lines are bad."""
        lines = running.counted(len(self.texts), "line")
        if self.is_of_none:
            return f"{self.name}: in none of the three languages, {lines}"
        return f"{self.name}: {LANGUAGES[self.language]}, {lines}, {bad} bad"

    def faults(self, texts: list[bytes]) -> list[Fault | None]:
        """Lists the faults of lines, None of each that has none."""
        reader = reader_of(self.language, self.width)
        return [reader.fault(text) for text in texts]

    def warned(self) -> bool:
        """Says of a script which lines no machine answers, of plans for `judge` what is not
        declared; gives whether there is no plan."""
        if self.language == "script" and not self.is_of_none:
            self.warn_of_machines()
        if self.language != "judge":
            return False
        if (found := notes(self.texts)) is None:
            print(f"{self.name}: there is no plan: the file is empty or has comments alone, and"
                  " ./plans judge ends with 8")
            return True
        for number, warning in found:
            print(f"{self.name}:{number}:1: warning: the plan from here on {warning}")
        return False

    def warn_of_machines(self) -> None:
        """Warns of a script whose first good line does not make a machine."""
        for number, text in enumerate(self.texts, 1):
            read = reading.read(text)
            if read is None or read == reading.BAD:
                continue
            name, fields = read
            if name != "machine":
                print(f"{self.name}:{number}:1: warning: no machine stands before this line, which"
                      " is answered nomachine")
            elif not is_machine_size(*fields):
                print(f"{self.name}:{number}:1: warning: no machine has these sizes: they are"
                      f" {answers.SIZES}; the answer is range, and that of the lines behind it"
                      " nomachine")
            return

    def told(self) -> int:
        """Says what is wrong; gives how many lines are bad."""
        if self.is_other and not self.is_of_none:
            print(f"{self.name}: this is {LANGUAGES[self.like]}, not {LANGUAGES[self.language]}")
        found = self.faults(self.texts)
        bad = len(found) - found.count(None)
        if self.is_dos and bad:
            first = next(at for at, fault in enumerate(found) if fault)
            print(f"{self.name}:{first + 1}:{len(self.texts[first])}: each line ends with CR LF;"
                  " a line ends with LF alone")
            found = self.faults([text.removesuffix(b"\r") for text in self.texts])
        told = [(number, fault) for number, fault in enumerate(found, 1) if fault]
        for number, fault in told[:MOST_TOLD]:
            print(f"{self.name}:{number}:{fault.column}: {answers.printable(fault.reason)}")
        if len(told) > MOST_TOLD:
            print(f"{self.name}: and {len(told) - MOST_TOLD} more lines that are bad")
        if self.size > MOST_BYTES:
            print(f"{self.name}: the program reads {MOST_BYTES:,} bytes at most, and ends with 6")
        return bad


def width_of(text: str) -> int | None:
    """Reads how many words the files of a plan have; None where no file has so many."""
    return next((width for width in plans.WIDTHS if str(width) == text), None)


def main() -> int:
    given, rest, _ = running.words("", "language=", "words=")
    language, width = given.get("language"), given.get("words")
    if not rest:
        running.usage("a FILE is wanted")
    if rest[0] == "try":
        # No other tool needs what it draws.
        from lemdwab.trials import lint
        return lint.compares(rest[1:])
    if language not in (None, *LANGUAGES):
        running.fail(f"there is no language {language!r}; there are {', '.join(LANGUAGES)}")
    if width is not None and not width_of(width):
        running.fail(f"a file has {', '.join(map(str, plans.WIDTHS))} words, and not {width!r}")
    late = next((name for name in rest if name.startswith("--")), None)
    if late:
        running.usage(f"{late} stands behind a file: options come first, and a file is ./{late}")
    is_bad = False
    for name in rest:
        file = File(name, contents(name), language, width_of(width) if width else None)
        bad = file.told()
        is_bad |= file.warned()
        print(file.verdict(bad))
        is_bad |= bad > 0 or file.size > MOST_BYTES
    return 1 if is_bad else 0
