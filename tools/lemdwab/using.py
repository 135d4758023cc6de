"""What uses of laws cite, for suite/weaken, and how they are moved into the crate of their laws, in
a copy, so that one check tells of a law and of its uses.

A use is a function of another crate that calls a law, so that its answer may name a clause of it,
as `c.LAW.ensures.CLAUSE`. A crate of uses is one whose name ends in `_uses`, or that has a module
`uses`."""

from __future__ import annotations

import re
from functools import cache
from pathlib import Path
from typing import TYPE_CHECKING

from lemdwab import running, weakening
from lemdwab.running import TOP

if TYPE_CHECKING:
    from lemdwab.weakening import Clause

CALLED = re.compile(r"^use (\w+)::([^;]*);", re.M)
CITED = re.compile(r"\bc\.([a-z]\w*)(?:-\d+)?\.ensures(?:\.([a-z]\w*))?")
# What a use is named after in the crate of its laws: a module, and one of specs/ or proofs/.
MODULE, FILE = "use_", "Use"


@cache
def below(top: Path = TOP) -> dict[str, list[str]]:
    """Gives of each crate of crates.txt the crates that it names."""
    text = running.contents(Path(top) / "crates.txt").decode()
    return {line.group(1): line.group(2).split()
            for line in re.finditer(r"^(\w+)[^:#\n]*:([^#\n]*)", text, re.M)}


@cache
def all_below(crate: str) -> set[str]:
    """Lists the crates that a crate stands on, however far below."""
    return {name for one in below().get(crate, ()) for name in (one, *all_below(one))}


def crates_of_uses() -> list[str]:
    """Lists the crates of uses."""
    return [name for name in below() if name.endswith("_uses")
            or (TOP / "crates" / name / "src/uses.rt").is_file()]


@cache
def called(path: Path) -> dict[str, str]:
    """Gives of each law that a source file calls by name the crate that it is of."""
    return {name: crate for crate, names in CALLED.findall(weakening.text_of(path))
            for name in re.findall(r"\w+", names)}


def source_of(crate: str, answers: Path) -> tuple[Path, str]:
    """Gives the source file in which the function of some answers stands, and its path."""
    folder = answers.relative_to(TOP / "crates" / crate / "proofs").parent
    module, src = folder.parent, TOP / "crates" / crate / "src"
    while str(module) != "." and not (src / module).with_suffix(".rt").is_file():
        module = module.parent
    root = src / "lib.rt" if (src / "lib.rt").is_file() else src / "main.rt"
    path = root if str(module) == "." else (src / module).with_suffix(".rt")
    return path, "::".join((crate, *folder.parts))


@cache
def citations() -> dict[tuple[str, str, str], list[str]]:
    """Gives of each clause that is cited from outside its crate, by crate, law and name, the
    functions that cite it; of a law with one clause, which has no name, the name is empty."""
    found: dict[tuple[str, str, str], list[str]] = {}
    for crate in below():
        for answers in weakening.sources(crate, "proofs", "antt"):
            if answers.name != "Answers.antt":
                continue
            text = re.sub(r"^--.*", "", weakening.text_of(answers), flags=re.M)
            path, function = source_of(crate, answers)
            laws = called(path) if path.is_file() else {}
            for law, name in CITED.findall(text):
                if laws.get(law, "crate") not in ("crate", crate):
                    found.setdefault((laws[law], law, name), []).append(function)
    return found


def uses_of(clause: Clause) -> list[str]:
    """Lists the functions that cite a clause from outside its crate; one that has no name is all
    that its law says."""
    return sorted({use for (crate, law, name), uses in citations().items()
                   if (crate, law) == (clause.crate, clause.law)
                   and (name == clause.name or not clause.name) for use in uses})


# ---- moving them

def files_of(crate: str, module: str) -> list[Path]:
    """Lists the files of a module of a crate: its source, and the answers of its functions."""
    top = TOP / "crates" / crate
    return [top / "src" / f"{module}.rt", *sorted((top / "proofs" / module).rglob("*.antt"))]


def needed(crate: str, files: list[Path]) -> tuple[set[str], set[tuple[str, str]]]:
    """Gives which modules of a crate, and which files of its specs/ and proofs/, files name."""
    text = "".join(weakening.text_of(path) for path in files)
    modules = re.findall(rf"\bcrate::(?!specs\b|proofs\b)([a-z]\w*)"
                         rf"|\bRattle\.{crate}\.specs\.declared\.(\w+)", text)
    others = re.findall(rf"\bRattle\.{crate}\.(specs|proofs)\.([A-Z]\w*)"
                        rf"|\bcrate::(specs|proofs)::([A-Z]\w*)", text)
    return ({one or other for one, other in modules},
            {(one[0] or one[2], one[1] or one[3]) for one in others})


def closure(crate: str, module: str) -> tuple[set[str], set[tuple[str, str]]]:
    """Gives the modules that a module needs with itself, and the files of specs/ and proofs/."""
    modules: set[str] = set()
    others: set[tuple[str, str]] = set()
    # A name, and the folder where its file stands; a module has none.
    left = [(module, "")]
    while left:
        name, part = left.pop()
        if name in modules or (part, name) in others:
            continue
        if part:
            others.add((part, name))
            files = [TOP / "crates" / crate / part / f"{name}.antt"]
        else:
            modules.add(name)
            files = files_of(crate, name)
        more, more_files = needed(crate, files)
        left += [(one, "") for one in more] + [(one, of) for of, one in more_files]
    return modules, others


def movable(uses: str, laws: str) -> tuple[list[str], list[tuple[str, str]]]:
    """Gives the modules of a crate of uses that use laws of a crate, with all that they need, and
    those files; but no module that stands on what is above that crate."""
    modules: set[str] = set()
    others: set[tuple[str, str]] = set()
    allowed = {uses, laws, "crate", "std", *all_below(laws)}
    own = set(below()) - {uses}
    for path in weakening.sources(uses, "src", "rt"):
        if laws in called(path).values():
            these, files = closure(uses, path.stem)
            calls = {crate for name in these
                     for crate in called(files_of(uses, name)[0]).values() if crate in own}
            if calls <= allowed:
                modules, others = modules | these, others | files
    return sorted(modules), sorted(others)


def renamed(text: str, uses: str, laws: str) -> str:
    """Gives a text of a crate of uses with the names that it has in the crate of the laws."""
    specs, proofs = f"Rattle.{laws}.specs.", f"Rattle.{laws}.proofs."
    for old, new in ((rf"\bRattle\.{uses}\.specs\.declared\.", f"{specs}declared.{MODULE}"),
                     (rf"\bRattle\.{uses}\.(specs|proofs)\.(?=[A-Z])", rf"Rattle.{laws}.\1.{FILE}"),
                     (rf"\bRattle\.{uses}\.proofs\.(?=[a-z])", f"{proofs}{MODULE}"),
                     (r"\bcrate::(?!specs\b|proofs\b)(?=[a-z])", f"crate::{MODULE}"),
                     (r"\bcrate::(specs|proofs)::(?=[A-Z])", rf"crate::\1::{FILE}"),
                     (rf"\b{laws}::", "crate::")):
        text = re.sub(old, new, text)
    return text


def put(path: Path, text: str) -> None:
    """Writes a file, which is not there yet."""
    if path.exists():
        running.fail(f"{path} is there already")
    path.parent.mkdir(parents=True, exist_ok=True)
    path.write_text(text, encoding="utf-8")


def add(path: Path, line: str) -> None:
    """Adds a line to a file."""
    had = path.read_text(encoding="utf-8") if path.exists() else ""
    path.parent.mkdir(parents=True, exist_ok=True)
    path.write_text(f"{had}{line}\n", encoding="utf-8")


def movable_files(uses: str, laws: str) -> list[Path]:
    """Lists the files of the uses that can be moved."""
    modules, others = movable(uses, laws)
    return ([path for module in modules for path in files_of(uses, module)]
            + [TOP / "crates" / uses / part / f"{name}.antt" for part, name in others])


def move(copy: Path, uses: str, laws: str) -> None:
    """Moves the uses of a crate's laws into that crate, in a copy of the repository."""
    modules, others = movable(uses, laws)
    crate, top = Path(copy) / "crates" / laws, TOP / "crates" / uses
    for module in modules:
        for path in files_of(uses, module):
            text = renamed(weakening.text_of(path), uses, laws)
            place = path.relative_to(top).as_posix()
            put(crate / re.sub(r"^(src|proofs)/", rf"\1/{MODULE}", place), text)
        add(crate / "src/lib.rt", f"pub mod {MODULE}{module};")
    for part, name in others:
        text = renamed(weakening.text_of(top / part / f"{name}.antt"), uses, laws)
        put(crate / part / f"{FILE}{name}.antt", text)
        add(crate / part / "Lib.antt", f"{'pub ' if part == 'specs' else ''}mod {FILE}{name}")
    if modules:
        stand_on(copy, uses, laws)


def beside(uses: str, laws: str) -> list[str]:
    """Lists what the uses of a crate's laws stand on beside what it stands on itself, but for it
    and what is above it."""
    return [name for name in below()[uses]
            if name != laws and name not in below()[laws] and laws not in all_below(name)]


def wanted(laws: str) -> set[str]:
    """Gives the crates that a copy wants, in which the uses of a crate's laws stand in it."""
    names = {laws, *(name for uses in crates_of_uses() if movable(uses, laws)[0]
                     for name in beside(uses, laws))}
    return names | {name for one in names for name in all_below(one)}


def stand_on(copy: Path, uses: str, laws: str) -> None:
    """Has the crate of the laws stand on what its uses stand on."""
    path = Path(copy) / "crates.txt"
    more = beside(uses, laws)
    text = path.read_text(encoding="utf-8")
    path.write_text(re.sub(rf"^({laws}[^:#\n]*:[^#\n]*)", " ".join((r"\1", *more)), text,
                           flags=re.M), encoding="utf-8")


def is_use(laws: str, place: str) -> bool:
    """Says whether a function or a file of proofs of the crate of the laws, with uses in it, is one
    of a use, or of what is worked there."""
    first = place.partition("::")[0]
    return first.startswith((MODULE, FILE)) or first in weakening.WORKED.get(laws, ())
