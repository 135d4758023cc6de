"""Says what carries README's sentences on what is proved, and which definitions that rests on.

docs/make/proved.txt says which laws, clauses and definitions carry a sentence; of the library for C
its calls and laws are added. They rest on all definitions that they name, and that those name in
turn, down to names of libraries. Where docs/make/definitions.order says in words what a module has
(`@passed`) nothing further is looked at.
"""

from __future__ import annotations

from collections.abc import Iterator, Sequence
from functools import cache
from typing import TYPE_CHECKING

from lemdwab.documents.antt import read_module
from lemdwab.documents.functions import functions, source_files
from lemdwab.documents.naming import (all_definitions, by_name, crates, inside, keys_of,
                                      meaning_of_file, named, rests_on, with_generics)
from lemdwab.documents.order import PASSED, placed
from lemdwab.running import TOP

if TYPE_CHECKING:
    from lemdwab.documents.antt import Group
    from lemdwab.documents.functions import Function
    from lemdwab.documents.naming import Meaning

PROVED = TOP / "docs/make/proved.txt"
HEADLINE = ("aia_replay", "run", ("done", "all"))
# The crate whose calls are the library for C, and how a name of a call begins.
LIBRARY, CALL = "aia_c", "aia_"
# Of the first words of a sentence the references that carry it, each in its words.
Rows = dict[str, list[tuple[str, ...]]]


# ---- laws and calls

@cache
def all_functions() -> list[Function]:
    """Lists the laws of all crates, and the public functions that have clauses."""
    return [one for crate in crates() for file in source_files(crate)
            for one in functions(crate, file)
            if one.clauses() and (one.is_law or one.is_public)]


@cache
def meaning(one: Function) -> Meaning:
    """Gives what the names of a function mean: one of a trait may name what that has."""
    found = with_generics(meaning_of_file(one.crate, one.file), "\n".join(one.text))
    owner = by_name(one.crate).get(one.owner)
    if owner and owner.lines[0].startswith("pub trait"):
        found.names = inside(owner) | found.names
    return found


@cache
def keys_in(one: Function, names: tuple[str, ...] = ()) -> tuple[str, ...]:
    """Gives the keys of what the clauses of a function name: of all, or of those of these names and
    of what it requires."""
    found = []
    for clause in one.clauses():
        if not names or clause.name in names or clause.kind == "requires":
            text = "\n".join(one.text[clause.first:clause.last + 1])
            found += [leads for _, _, leads in named(text, meaning(one))]
    return keys_of(found)


# ---- what carries a sentence

def proved() -> Rows:
    """Gives what docs/make/proved.txt says: of the first words of a sentence, which laws, clauses
    and definitions carry it, each as the words of a reference."""
    found: Rows = {}
    now: list[tuple[str, ...]] = []
    for line in PROVED.read_text(encoding="utf-8").split("\n"):
        if line.startswith(" "):
            now.append(tuple(line.split()))
        elif line and not line.startswith("#"):
            now = found.setdefault(line, [])
    return found


def carried_by(reference: tuple[str, ...]) -> tuple[str, list[str]]:
    """Gives the crate and the keys of what a reference of docs/make/proved.txt names."""
    if reference == ("theorem",):
        reference = (*HEADLINE[:2], *HEADLINE[2])
    crate, name, *names = reference
    keys = [key for one in all_functions() if (one.crate, one.called()) == (crate, name)
            for key in keys_in(one, tuple(names))]
    key = " ".join(reference)
    return crate, keys or [key] * (key in all_definitions())


def all_carriers() -> Iterator[tuple[str, str, Sequence[str]]]:
    """Lists what carries README's sentences, and the calls and laws of the library: each in words,
    with its crate and the keys that it names."""
    for words, references in proved().items():
        for reference in references:
            yield (f"README's '{words}', by {' '.join(reference)},", *carried_by(reference))
    for one in all_functions():
        if one.crate == LIBRARY and (one.is_law or one.name.startswith(CALL)):
            yield f"the library's {one.called()}", LIBRARY, keys_in(one)


# ---- what that rests on

@cache
def passed() -> set[tuple[str, str, str]]:
    """Lists the modules that are said in words where a crate names them, as (crate, crate of the
    module, module)."""
    return {(crate, of, module) for crate, _, of, module in placed(PASSED)}


def goes_on(crate: str, key: str) -> bool:
    """Says whether what a crate names by a key has to stand in part I itself."""
    one = all_definitions().get(key)
    return one is not None and (crate, one.crate, one.module) not in passed()


def below(crate: str, keys: Sequence[str]) -> set[str]:
    """Gives the definitions that keys named in a crate rest on, themselves among them."""
    found, open_ = set(), [key for key in keys if goes_on(crate, key)]
    while open_:
        if (key := open_.pop()) not in found:
            found.add(key)
            own = all_definitions()[key].crate
            open_ += [other for other in rests_on(key) if goes_on(own, other)]
    return found


@cache
def rested_on() -> frozenset[str]:
    """Gives the keys of all that README's sentences and the library's calls rest on."""
    return frozenset(key for _, crate, keys in all_carriers() for key in below(crate, keys))


# ---- modules in two parts

def is_rested_on(crate: str, module: str, group: Group) -> bool:
    """Says whether something rests on a definition under a comment."""
    return any(f"{crate} {module} {name}" in rested_on() for name in group.names())


def in_parts(crate: str, module: str) -> tuple[list[Group], list[Group]]:
    """Cuts a module into the groups on which something rests and the others. A heading stands
    before each of its groups' sides, and a comment within a definition stays with that."""
    rested: list[Group] = []
    others: list[Group] = []
    headings: dict[int, Group] = {}
    side = rested
    for group in read_module(crate, module)[1]:
        if not group.code:
            headings = {id(rested): group, id(others): group}
            continue
        if group.names():
            side = rested if is_rested_on(crate, module, group) else others
        heading = headings.pop(id(side), None)
        side += [heading, group] if heading else [group]
    return rested, others
