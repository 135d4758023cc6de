"""names: sees that no two crates have a public type of one name, but for those with a reason.

    names [try]

Reads the code and the definitions of all crates, and takes from src/ each struct, enum, trait and
type that is `pub`, and from specs/ each record, data and abbreviation of a type that is `pub`.
docs/make/names.txt names what is kept in several crates, with its reason. Prints each other name
that stands in more than one crate, with its places, and each line of that table that does not hold,
and ends with status 1 where there is any; else prints how many names there are, and how many are
kept. With `try` it first sees that it finds what is planted, and nothing else. What is `pub(crate)`
does not count, nor does a name that a definition has which is no type. It needs Python 3.10 or
later, ends within a minute and prints at most 200 lines; a table that is wrong ends it with
status 2.
"""

from __future__ import annotations

import re
import signal
import sys
import tempfile
from collections import defaultdict
from pathlib import Path

from lemdwab import running

CRATES = running.TOP / "crates"
KEPT = running.TOP / "docs/make/names.txt"
LONGEST_RUN = 60
MOST_LINES = 200
COMMENT = re.compile(r"(?m)//.*$")
RUST_TYPE = re.compile(r"(?m)^[ \t]*pub (?:unsafe )?(struct|enum|trait|type) (\w+)")
ANTT_TYPE = re.compile(r"(?m)^(?:inductive )?pub (?:inductive )?(record|data) ([^\s:(){}]+)"
                       r"|^(abbrev|unfoldable) pub ([^\s:(){}]+) : Type 0$")
LINE = re.compile(r"(\S+): (\S+(?: \S+)+)$")


def types(crates: Path) -> defaultdict[str, list[tuple[str, str]]]:
    """Gives the public types by their names, each with its files below crates/, in order."""
    found = defaultdict(list)
    for folder, end, pattern in (("src", "rt", RUST_TYPE), ("specs", "antt", ANTT_TYPE)):
        for path in sorted(crates.glob(f"*/{folder}/**/*.{end}")):
            text = path.read_text(encoding="utf-8")
            for match in pattern.finditer(COMMENT.sub("", text) if end == "rt" else text):
                kind, name = filter(None, match.groups())
                found[name].append((str(path.relative_to(crates)), kind))
    return found


def crate(place: tuple[str, str]) -> str:
    """Gives the crate in which a place is."""
    return place[0].partition("/")[0]


def twice(found: defaultdict[str, list[tuple[str, str]]]) -> dict[str, list[tuple[str, str]]]:
    """Gives those that stand in more than one crate, each with its places."""
    return {name: places for name, places in sorted(found.items())
            if len(set(map(crate, places))) > 1}


def kept_lines() -> dict[str, list[str]]:
    """Gives the names of the table, each with its files. A reason stands above its names."""
    kept, has_reason = {}, False
    text = running.contents(KEPT).decode("utf-8", "replace")
    for number, line in enumerate(text.splitlines(), 1):
        match = LINE.match(line.strip())
        if line.startswith(" ") and line.strip():
            if not match or not has_reason or match.group(1) in kept:
                running.fail(f"{KEPT.name}, line {number}: no name with its files and a reason, or"
                             " one that stands there already")
            kept[match.group(1)] = match.group(2).split()
        elif not line.startswith("#"):
            has_reason = bool(line)
    return kept


def faults(found: defaultdict[str, list[tuple[str, str]]], kept: dict[str, list[str]]) -> list[str]:
    """Lists what is not as it should be, a line or more for each name."""
    said, several = [], twice(found)
    for name, places in several.items():
        if sorted(kept.get(name, ())) != sorted(file for file, _ in places):
            said.append(f"{name} stands in {len(set(map(crate, places)))} crates"
                        f"{', and not where it is kept' if name in kept else ''}")
            said += [f"    {file} ({kind})" for file, kind in places]
    said += [f"names nothing: {name}" for name in kept if name not in several]
    return said


# ---- what is planted

# What two files have, by their places below crates/, and the names that stand twice in them.
PLANTED: list[tuple[str, str, str, str, list[str]]] = [
    ("a/src/lib.rt", "pub struct Place {", "b/src/lib.rt", "pub enum Place {", ["Place"]),
    ("a/src/lib.rt", "    pub trait Kind: Drop {", "b/src/b.rt", "pub type Kind = u8;", ["Kind"]),
    ("a/src/lib.rt", "pub struct Hand;", "b/specs/B.antt", "pub record Hand : Type 0 where",
     ["Hand"]),
    ("a/specs/A.antt", "pub data Side : Type 0 where",
     "b/specs/B.antt", "pub record Side (x : ℕ) : Type 0 where", ["Side"]),
    ("a/src/lib.rt", "pub(crate) struct Place {", "b/src/lib.rt", "pub enum Place {", []),
    ("a/src/lib.rt", "struct Place {", "b/src/lib.rt", "pub enum Place {", []),
    ("a/src/lib.rt", "pub struct Place;", "b/src/lib.rt", "// pub enum Place {", []),
    ("a/src/lib.rt", "pub struct Place;", "b/src/lib.rt", "pub struct Places;", []),
    ("a/src/lib.rt", "pub struct Place;", "a/specs/A.antt", "pub data Place : Type 0 where", []),
    ("a/src/lib.rt", "pub struct Place;", "b/proofs/B.antt", "pub data Place : Type 0 where", []),
    ("a/specs/A.antt", "pub record Side : Type 0 where", "b/specs/B.antt",
     "record Side : Type 0 where\nabbrev Side : Type 0", []),
    ("a/specs/A.antt", "pub record Side : Type 0 where", "b/specs/B.antt",
     "abbrev pub Side : Type 0", ["Side"]),
    ("a/specs/A.antt", "pub record Side : Type 0 where", "b/specs/B.antt",
     "abbrev pub Side : ℕ → Type 0", []),
]


def see_planted() -> None:
    """Ends with status 1 where other names stand twice than those of what is planted."""
    for one, its_text, other, other_text, names in PLANTED:
        with tempfile.TemporaryDirectory() as folder:
            for file, text in ((one, its_text), (other, other_text)):
                path = Path(folder) / file
                path.parent.mkdir(parents=True, exist_ok=True)
                path.write_text(text + "\n", encoding="utf-8")
            found = types(Path(folder))
        several = list(twice(found))
        if several != names:
            print(f"names: found {several}, not {names}:\n{its_text}\n{other_text}")
            sys.exit(1)
        kept = {name: [file for file, _ in found[name]] for name in several}
        tables: list[tuple[dict[str, list[str]], bool]] = [
            (kept, False), ({}, bool(names)), ({"No": [one, other]}, True),
            ({name: [one] for name in names}, bool(names))]
        for table, is_wrong in tables:
            if bool(faults(found, table)) != is_wrong:
                print(f"names: with the table {table} it says {faults(found, table)}")
                sys.exit(1)


def main() -> int:
    given = running.command_given("try")
    signal.alarm(LONGEST_RUN)
    if given == "try":
        see_planted()
    found, kept = types(CRATES), kept_lines()
    said = faults(found, kept)
    verdict = f"{len(found)} names of public types: {len(kept)} with a reason in several crates"
    print("\n".join(said[:MOST_LINES] or [verdict]))
    return 1 if said else 0
