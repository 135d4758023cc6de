"""repeats: sees that no two places of the crates say the same, but for those named with a reason.

    repeats [all | try]

Reads the code, definitions and lemmas, crates/**/*.rt and *.antt, without comments, `use` lines and
rows, and finds

    passage     a run of 70 words and marks or more that stands in two places to the letter
    lemma       two of one statement, but for the names that it binds; what a relation or a set is,
                of some `Type`, is no statement
    definition  two of one type and the same clauses, but for their own names and those they bind

docs/make/repeats.txt names what is kept, with its reason. Prints all else with its places, and each
line of that table that names nothing, and ends with status 1 where there is any; else prints how
many are named. With `all` it prints the named ones too; with `try` it first sees that it finds what
is planted, and nothing else. Not found are two that differ in form, as a lemma with its premises in
another order or code with other names, and lemmas behind a `where`, each a step of its proof, but
for what they share to the letter. It needs Python 3.10 or later, ends within ten minutes and prints
at most 2,000 lines; a table that is wrong ends it with status 2.
"""

from __future__ import annotations

import re
import signal
import sys
import tempfile
from collections import defaultdict
from fnmatch import fnmatchcase
from pathlib import Path
from typing import NamedTuple

from lemdwab import running

CRATES = running.TOP / "crates"
NAMED = running.TOP / "docs/make/repeats.txt"
LEFT_OUT = {"out", "data", "rows"}
# How many words and marks count: of a passage, of a statement, of a definition with its type.
PASSAGE, STATEMENT, DEFINITION = 70, 12, 12
LONGEST_RUN = 600
MOST_LINES = 2000
KINDS = ("passage", "lemma", "definition", "any")
MODULUS, BASE = (1 << 61) - 1, 1_000_003
RUST_TOKEN = re.compile(r'//[^\n]*|"(?:\\.|[^"\\])*"|\w+|[^\w\s]|\n')
ANTT_TOKEN = re.compile(r"--[^\n]*|[(){},;.]|[^\s(){},;.]+|\n")
RUST_USE = re.compile(r"(?m)^\s*(?:pub(?:\(crate\))? )?(?:ghost )?use [^;]*;")
ANTT_USE = re.compile(r"(?m)^\s*(?:pub )?use [^\n]*(?:\n[ \t]+[^\n]*)*$")
RUST_NAME = re.compile(r"^\s*(?:[a-z]+(?:\([a-z]+\))? |extern \"C\" )*fn (\w+)")
HEAD = re.compile(r"(?:(?:abbrev|unfoldable|inductive|pub) )*([^\s:=(){}]+) : (.*)")
RECORD = re.compile(r"(?:pub |inductive )*(?:record|data) (\S+)(.*)")
WORD = re.compile(r"[a-z_][\w'-]*$")
# Words on the left of a clause that it does not bind.
CONSTANTS = {"zero", "suc", "true", "false", "refl", "tt", "where", "_"}


class Place(NamedTuple):
    """Where something stands: a file below crates/, a line, and the declaration around it."""

    file: str
    line: int
    name: str


class Repeat(NamedTuple):
    """What stands in several places: its kind, its length in words and marks, and where."""

    kind: str
    length: int
    places: tuple[Place, ...]

    def shown(self) -> tuple[str, str]:
        """Gives the first line that prints it, and the others."""
        where = "".join(f"\n    {one.file}:{one.line} {one.name}".rstrip() for one in self.places)
        return f"{self.kind} of {self.length}", where


def sources(crates: Path) -> list[str]:
    """Lists the files that are read, by their paths below crates/."""
    paths = [path for end in ("rt", "antt") for path in crates.rglob(f"*.{end}")]
    below = [path.relative_to(crates) for path in paths]
    return sorted(str(path) for path in below if not LEFT_OUT.intersection(path.parts[:-1]))


def text_of(crates: Path, file: str) -> str:
    """Gives the text of a file, with its `use` lines empty."""
    text = (crates / file).read_text(encoding="utf-8")
    pattern = RUST_USE if file.endswith(".rt") else ANTT_USE
    return pattern.sub(lambda match: "\n" * match.group().count("\n"), text)


# ---- passages


def tokens(crates: Path, file: str) -> list[tuple[str, Place]]:
    """Gives the words and marks of a file, with the place of each."""
    is_rust, text = file.endswith(".rt"), text_of(crates, file)
    names, name = [], ""
    for line in text.split("\n"):
        head = RUST_NAME.match(line) if is_rust else HEAD.match(line) or RECORD.match(line)
        name = head.group(1) if head else name
        names.append(name)
    found, at = [], 0
    for token in (RUST_TOKEN if is_rust else ANTT_TOKEN).findall(text):
        if token == "\n":
            at += 1
        elif not token.startswith("//" if is_rust else "--"):
            found.append((token, Place(file, at + 1, names[at])))
    return found


def all_tokens(crates: Path, files: list[str]) -> tuple[list[int], list[Place]]:
    """Gives the tokens of all files as numbers, with one of its own at the end of each file, and
    the place of each."""
    numbers: dict[str | tuple[str, str], int] = {}
    codes, places = [], []
    for file in files:
        for token, place in tokens(crates, file):
            codes.append(numbers.setdefault(token, len(numbers) + 1))
            places.append(place)
        codes.append(numbers.setdefault((file, "end"), len(numbers) + 1))
        places.append(Place(file, 0, ""))
    return codes, places


def same_starts(codes: list[int]) -> dict[int, list[int]]:
    """Gives, for each start of a run that stands in several places, all starts of that run."""
    high, value, at = pow(BASE, PASSAGE, MODULUS), 0, defaultdict(list)
    for end, code in enumerate(codes):
        value = (value * BASE + code) % MODULUS
        if end >= PASSAGE:
            value = (value - codes[end - PASSAGE] * high) % MODULUS
        if end >= PASSAGE - 1:
            at[value].append(end - PASSAGE + 1)
    return {start: starts for starts in at.values() if len(starts) > 1 for start in starts}


def passages(crates: Path, files: list[str]) -> list[Repeat]:
    """Lists the runs that stand in several places, each as long as it stands in all of them."""
    codes, places = all_tokens(crates, files)
    groups, found, taken = same_starts(codes), [], set()
    for first in sorted(starts[0] for start, starts in groups.items() if start == starts[0]):
        if first in taken:
            continue
        starts, more = groups[first], 0
        while groups.get(first + more + 1) == [start + more + 1 for start in starts]:
            more += 1
            taken.add(first + more)
        apart = starts[:1]
        for start in starts[1:]:
            if start - apart[-1] >= PASSAGE + more:
                apart.append(start)
        if len(apart) > 1:
            where = tuple(places[start] for start in apart)
            found.append(Repeat("passage", PASSAGE + more, where))
    return found


# ---- lemmas and definitions


def declarations(crates: Path, file: str) -> list[tuple[Place, str, list[str]]]:
    """Lists the declarations of a file as (place, type, clauses), each in one line; a record has no
    type, and one clause."""
    text = re.sub(r"(?m)--.*$", "", text_of(crates, file))
    found: list[tuple[Place, list[str]]] = []
    for number, line in enumerate(text.split("\n"), 1):
        head, record = HEAD.match(line), RECORD.match(line)
        if line[:1] in (" ", "\t", ""):
            if found and line:
                found[-1][1][-1] += " " + line.strip()
        elif record:
            found.append((Place(file, number, record.group(1)), ["", record.group(2)]))
        elif head and " = " not in line[: line.index(" : ")]:
            found.append((Place(file, number, head.group(1)), [head.group(2)]))
        elif found:
            found[-1][1].append(line)
    return [(place, lines[0], lines[1:]) for place, lines in found]


def bound_names(found: list[str]) -> set[str]:
    """Gives the names that parentheses, braces and λ bind among tokens."""
    names = set()
    for at, token in enumerate(found):
        end = at + 1
        while token in ("(", "{", "λ") and end < len(found) and WORD.match(found[end]):
            end += 1
        if token == "λ" or found[end:end + 1] == [":"]:
            names.update(found[at + 1:end])
    return names


def by_number(found: list[str], names: set[str]) -> tuple[str, ...]:
    """Gives tokens with the names among them numbered as they come; a name behind a field's dot
    stays."""
    numbers: dict[str, int] = {}
    said = []
    for at, token in enumerate(found):
        is_field = at > 1 and found[at - 1] == "." and WORD.match(found[at - 2])
        is_name = token in names and not is_field
        said.append(f"#{numbers.setdefault(token, len(numbers))}" if is_name else token)
    return tuple(said)


def meaning(place: Place, statement: str, clauses: list[str]) -> tuple[str, tuple[str, ...]] | None:
    """Gives the kind of a declaration and what it says, None where that is too short to count."""
    found = ANTT_TOKEN.findall(statement)
    names = bound_names(found)
    if found[-2:-1] != ["Type"] and any(found.count(name) > 1 for name in names):
        said = by_number(found, names)
        return ("lemma", said) if len(said) >= STATEMENT else None
    for clause in clauses:
        left = ANTT_TOKEN.findall(clause.partition(" = ")[0]) if statement else []
        names |= {one for one in left[1:] if WORD.match(one)} - CONSTANTS
        found += ["itself" if one == place.name else one for one in ANTT_TOKEN.findall(clause)]
    said = by_number(found, names | bound_names(found))
    return ("definition", said) if len(said) >= DEFINITION else None


def same_meanings(crates: Path, files: list[str]) -> list[Repeat]:
    """Lists the lemmas and the definitions that say the same."""
    groups: dict[tuple[str, tuple[str, ...]], list[Place]] = defaultdict(list)
    for file in files:
        for place, statement, clauses in declarations(crates, file) if file[-5:] == ".antt" else ():
            if told := meaning(place, statement, clauses):
                groups[told].append(place)
    return [Repeat(kind, len(said), tuple(places))
            for (kind, said), places in groups.items() if len(places) > 1]


# ---- what is named


def named_lines() -> list[list[str]]:
    """Gives the lines of the table that name something, as lists of words."""
    lines = NAMED.read_text(encoding="utf-8").split("\n")
    found = [line.split() for line in lines if line.startswith(" ") and line.strip()]
    wrong = [words for words in found if words[0] not in KINDS or len(words) == 1]
    if wrong:
        running.fail(f"{NAMED.name}: {' '.join(wrong[0])}")
    return found


def fits(place: Place, pattern: str) -> bool:
    """Says whether a place fits a pattern: FILE, or FILE:NAME."""
    return fnmatchcase(f"{place.file}:{place.name}", pattern if ":" in pattern else f"{pattern}:*")


def is_named_by(words: list[str], repeat: Repeat) -> bool:
    """Says whether a line names a repeat: each place fits a pattern, and each pattern a place."""
    kind, *patterns = words
    return (kind in (repeat.kind, "any")
            and all(any(fits(place, one) for one in patterns) for place in repeat.places)
            and all(any(fits(place, one) for place in repeat.places) for one in patterns))


def repeats(crates: Path) -> list[Repeat]:
    """Lists all that stands in several places, the longest first."""
    files = sources(crates)
    found = same_meanings(crates, files) + passages(crates, files)
    return sorted(found, key=lambda one: (-one.length, one))


# ---- what is planted

# Two files, and the kinds that are found in them.
RUN = " ".join(f"let x{number} = y.at({number});" for number in range(9))
PLANTED = [
    ("pub a : (x y : ℕ) → x < y → x ≢ y\na x y l = p",
     "b : (n m : ℕ) → n < m → n ≢ m\nb n m l = q", ["lemma"]),
    ("pub a : (x y : ℕ) → x < y → x ≢ y\na x y l = p",
     "b : (n m : ℕ) → n < m → m ≢ n\nb n m l = p", []),
    ("abbrev pub a : List ℕ → List ℕ\n-- as it is\na [] = []\na (x ∷ xs) = suc x ∷ a xs",
     "b : List ℕ → List ℕ\nb [] = []\nb (k ∷ ks) =\n    suc k ∷ b ks", ["definition"]),
    ("abbrev pub a : List ℕ → List ℕ\na [] = []\na (x ∷ xs) = suc x ∷ a xs",
     "b : List ℕ → List ℕ\nb [] = []\nb (k ∷ ks) = k ∷ suc k ∷ b ks", []),
    ("a : (x y : ℕ) → IsIn x y → Type 0\na x y i = P x",
     "b : (n m : ℕ) → IsIn n m → Type 0\nb n m i = P m", []),
    ("a : (x y : ℕ) → IsIn x y → Type 0\na x y i = P x",
     "b : (n m : ℕ) → IsIn n m → Type 0\nb n m i = P n", ["definition"]),
    ("pub record A (x : ℕ) : Type 0 where\n  pub near : x ≤ 7\n  pub more : P x\n  pub all : Q x",
     "record B (n : ℕ) : Type 0 where\n  pub near : n ≤ 7\n  pub more : P n\n  pub all : Q n",
     ["definition"]),
    (f"fn a() {{\n    {RUN}\n}}", f"fn b() {{\n    // again\n    {RUN}\n    f();\n}}", ["passage"]),
    (f"fn a() {{\n    {RUN}\n}}", f"fn b() {{\n    {RUN.replace('at(4)', 'at(5)')}\n}}", []),
    (f"use a::{{{RUN.replace(';', ',')}}};", f"use a::{{{RUN.replace(';', ',')}}};", []),
]


def see_planted() -> None:
    """Ends with status 1 where other kinds are found than those of what is planted."""
    for one, other, kinds in PLANTED:
        end = "rt" if one.startswith(("fn ", "use ")) else "antt"
        with tempfile.TemporaryDirectory() as folder:
            for crate, text in (("a", one), ("b", other)):
                (Path(folder) / crate).mkdir()
                (Path(folder) / crate / f"It.{end}").write_text(text + "\n", encoding="utf-8")
            found = [repeat.kind for repeat in repeats(Path(folder))]
        if found != kinds:
            print(f"repeats: found {found}, not {kinds}:\n{one}\n{other}")
            sys.exit(1)


def main() -> int:
    given = running.command_given("all", "try")
    signal.alarm(LONGEST_RUN)
    if given == "try":
        see_planted()
    lines, used, said, unnamed = named_lines(), [], [], 0
    found = repeats(CRATES)
    for repeat in found:
        by = [words for words in lines if is_named_by(words, repeat)]
        used += by
        unnamed += not by
        if given == "all" or not by:
            head, where = repeat.shown()
            said.append(f"{head}{', named' if by else ''}{where}")
    said += [f"names nothing: {' '.join(words)}" for words in lines if words not in used]
    is_wrong = unnamed or any(words not in used for words in lines)
    said = "\n".join(said).split("\n") if said else []
    print("\n".join(said[:MOST_LINES] + [f"{len(found) - unnamed} named, {unnamed} not"]))
    return 1 if is_wrong else 0
