"""The rows of suite/rows: scripts with their answers, and what suite/make makes of them.
suite/README.md says how a row is written."""

import re
from collections.abc import Iterator
from pathlib import Path
from typing import NamedTuple

from lemdwab.apart.reading import is_skipped
from lemdwab.running import TOP, fail

ROWS = TOP / "suite/rows"
# Which crate has the theorems of the rows in which folder.
CRATES = {"aia_vectors": "rows", "aia_guest_vectors": "rows/guests"}
DATA = "crates/aia_script_tests/data"
# What an editor does not show, or that would stand at an end.
SPELLED = {r"\t": "\t", r"\r": "\r", r"\s": " "}
WIDTH, SHORT = 100, 60
ROOT = """\
//! The rows, by their subjects; suite/make writes them.
//!
//! Each function that proves a row does nothing: its clause is what was proved, by computing. These
//! are the definitions that are computed, those of suite/rows/unfolded; `rt fmt` keeps them in one
//! line.
#![tactic(auto, unfolding({unfolded}))]

"""
SUBJECT = """\
{head}//!
//! Made of suite/{source} by suite/make: edit the rows.

ghost use Rattle.std.specs.Prelude.{{◌≡◌}};
ghost use Rattle.aia_model.specs.Script.{{answers}};
ghost use Rattle.aia_vectors.specs.Rows.{{script_of, {others}answers_of}};

"""
THEOREM = """\
{shows}pub const {name}: [(&str, &str); {count}] = {pairs};

/// Proves that the model answers [`{name}`] as it says.
pub fn {theorem}()
    ensures {{ {clause} }}
{{}}
"""


class Row(NamedTuple):
    """A script with its answers: the name of its constant and of its theorem, its files without
    their ending, whether no line feed ends it, what it shows, and its lines, each with its
    answer."""

    name: str
    theorem: str
    path: str
    is_unended: bool
    shows: str
    lines: list[tuple[str, str]]


class Subject(NamedTuple):
    """A file of rows: below suite/, what it is about, and its rows."""

    source: str
    head: str
    rows: list[Row]

    @property
    def name(self) -> str:
        """The subject, as its file is called."""
        return Path(self.source).stem


# ---- how rows are read

class Reader:
    """The rows of a file, as they are read line by line."""

    def __init__(self, path: Path) -> None:
        self.path, self.number = path, 0
        self.head: list[str] = []
        self.rows: list[Row] = []
        # The first line of the row that is read, what it shows, and its lines.
        self.begun: list[str] = []
        self.shows: list[str] = []
        self.lines: list[tuple[str, str]] = []

    def wrong(self, why: str) -> None:
        """Ends with status 2, and says what is wrong with the line that is read."""
        fail(f"{self.path}:{self.number}: {why}")

    def read(self) -> Subject:
        """Reads the file."""
        for self.number, line in enumerate(self.path.read_text(encoding="utf-8").splitlines(), 1):
            self.take(line)
        self.end()
        return Subject(str(self.path.relative_to(TOP / "suite")), "".join(self.head), self.rows)

    def take(self, line: str) -> None:
        """Takes a line."""
        if line.startswith("//! ") and not self.begun:
            self.head.append(f"{line}\n")
        elif line.startswith("== "):
            self.end()
            self.begin(line.split())
        elif line.startswith("-- ") and self.begun and not self.lines:
            self.shows.append(line[3:])
        elif self.begun:
            self.lines.append(self.pair(line))
        elif line:
            self.wrong("this line is of no row")

    def begin(self, words: list[str]) -> None:
        """Begins a row."""
        if not (len(words) > 2 and re.fullmatch("[A-Z][A-Z0-9_]*", words[1])
                and re.fullmatch("[a-z][a-z0-9_]*", words[2])):
            self.wrong("a row has two names")
        self.begun, self.shows, self.lines = words, [], []

    def pair(self, line: str) -> tuple[str, str]:
        """Reads a line of a script with its answer."""
        text, divided, answer = line.partition(" => ")
        if divided:
            text = text.rstrip(" ")
        for spelled, shown in SPELLED.items():
            text = text.replace(spelled, shown)
        if is_skipped(text.encode()) == bool(answer):
            self.wrong("this line answers nothing" if answer else "what does this line answer?")
        return text, answer

    def end(self) -> None:
        """Ends a row, if one is read. The empty line above the next row is none of this one."""
        if not self.begun:
            return
        _, name, theorem, *rest = self.begun
        if self.lines and not self.lines[-1][0]:
            self.lines.pop()
        if not self.shows:
            self.wrong(f"what does {name} show?")
        paths = [word for word in rest if word != "unended"]
        path = paths[-1] if paths else f"suite/{name.lower().replace('_', '-')}"
        self.rows.append(Row(name, theorem, path, "unended" in rest, " ".join(self.shows),
                             self.lines))
        self.begun = []


def subjects(folder: str) -> list[Subject]:
    """Reads the subjects of a folder of suite/."""
    return [Reader(path).read() for path in sorted((TOP / "suite" / folder).glob("*.rows"))]


# ---- how they stand as theorems

def wrapped(words: str, before: str) -> str:
    """Gives words over lines of at most 100 columns, each line after the same beginning."""
    lines = [before]
    for word in words.split():
        if len(lines[-1]) + 1 + len(word) > WIDTH:
            lines.append(before)
        lines[-1] += f" {word}"
    return "".join(f"{line}\n" for line in lines)


def spelled(row: Row, text: str) -> str:
    """Gives a line as a text of Rust has it, between its quotation marks."""
    if '"' in text or "\\" in text:
        fail(f"{row.name}: a line has a quotation mark or a backslash")
    return text.replace("\t", "\\t").replace("\r", "\\r")


def quoted(row: Row, text: str, column: int) -> str:
    """Gives a text of Rust, over as many lines of at most 100 columns as it needs."""
    text, room, found = spelled(row, text), WIDTH - 2 - column, ""
    if len(text) >= room and "\\" in text:
        fail(f"{row.name}: a long line has a TAB or a CR")
    while len(text) >= room:
        at = text.rfind(" ", 0, room) + 1 or room
        found += f"{text[:at]}\\\n{' ' * (column + 1)}"
        text = text[at:]
    return f'"{found}{text}"'


def pair_of(row: Row, line: str, answer: str) -> str:
    """Lays a line and its answer out as `rt fmt` does."""
    both = f'{quoted(row, line, 0)}, "{answer}"'
    if len(both) <= SHORT:
        return f"    ({both}),\n"
    return f'    (\n        {quoted(row, line, 8)},\n        "{answer}",\n    ),\n'


def pairs_of(row: Row) -> str:
    """Lays out all lines of a row with their answers."""
    all_in_one = ", ".join(f'("{spelled(row, line)}", "{answer}")' for line, answer in row.lines)
    if len(all_in_one) <= SHORT:
        return f"[{all_in_one}]"
    if len(row.lines) == 1:
        fail(f"{row.name}: a row of one long line: add a second line")
    return "[\n" + "".join(pair_of(row, *pair) for pair in row.lines) + "]"


def theorem_of(row: Row) -> str:
    """Gives the constant of a row, and its theorem."""
    script = "unended_script_of" if row.is_unended else "script_of"
    clause = f"answers ({script} {row.name})"
    # The clause in one line, or in two: 30 characters stand around the two sides of it.
    between = "\n        " if len(clause + row.name) + 30 > WIDTH else " "
    return THEOREM.format(shows=wrapped(row.shows, "///"), name=row.name, count=len(row.lines),
                          pairs=pairs_of(row), theorem=row.theorem,
                          clause=f"{clause}{between}≡ answers_of {row.name}")


def module_of(subject: Subject) -> str:
    """Gives the module of a subject: its theorems."""
    others = "unended_script_of, " if any(row.is_unended for row in subject.rows) else ""
    front = SUBJECT.format(head=subject.head, source=subject.source, others=others)
    return front + "\n".join(map(theorem_of, subject.rows))


# ---- the files

def scripts_of(row: Row) -> Iterator[tuple[str, str]]:
    """Gives the files of a row: its script, below a comment that says what it shows, and its
    answers. One of examples/ stands there too, and has no such comment."""
    head = wrapped(row.shows, "#") if row.path.startswith("suite/") and row.lines else ""
    script = head + "\n".join(line for line, _ in row.lines)
    script += "" if row.is_unended or not row.lines else "\n"
    out = "".join(f"{answer}\n" for line, answer in row.lines if not is_skipped(line.encode()))
    for where in (f"{DATA}/", *([""] if row.path.startswith("examples/") else [])):
        yield f"{where}{row.path}.script", script
        yield f"{where}{row.path}.out", out


def files() -> dict[str, str]:
    """Gives all files that are made of the rows, with their texts."""
    made: dict[str, str] = {}
    names: set[str] = set()
    unfolded = ", ".join((ROWS / "unfolded").read_text(encoding="utf-8").split("\n")[:-1])
    for crate, folder in CRATES.items():
        root = ROOT.format(unfolded=unfolded)
        for subject in subjects(folder):
            root += f"pub mod {subject.name};\n"
            made[f"crates/{crate}/src/rows/{subject.name}.rt"] = module_of(subject)
            for row in subject.rows:
                if row.name in names:
                    fail(f"two rows of one name: {row.name}")
                names.add(row.name)
                made.update(scripts_of(row))
        made[f"crates/{crate}/src/rows.rt"] = root
    return made
