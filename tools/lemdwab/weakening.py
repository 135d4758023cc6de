"""What suite/weaken plants: the clauses of laws, the definitions of their crate with the places
where they stand, and what each is made so that the law says less.

A definition stands somewhere *below* where the law says less once it holds of less, as in a
premise, and *above* where it says less once it holds of more, as in what follows from them. A
`not`, and a premise within a premise, turn this round; in an equation of two values it stands both
ways. So it goes on from a definition to those that it names."""

from __future__ import annotations

import re
from collections.abc import Iterator, Sequence
from functools import cache
from pathlib import Path
from typing import NamedTuple

from lemdwab.running import TOP, sure

PREMISE, DROPPED, NARROWER, WIDER = KINDS = ("premise", "dropped", "narrower", "wider")
BELOW, ABOVE = -1, 1
# Modules of crates of laws that are none: they work the definitions at examples, and so use them.
WORKED = {"aia_isolation": ("instances",)}
LAW = re.compile(r"^pub fn (\w+)\(\)\n((?:    .*\n)+)\{\}$", re.M)
CLAUSE = re.compile(r"^    ensures (?:(\w+) )?\{ (.*?) \}\n(?=    ensures|\Z)", re.M | re.S)
HEAD = re.compile(r"^(?:abbrev |unfoldable )*pub (record |data )?([^\s:]+)")
IMPORT = re.compile(r"^(?:ghost )?use Rattle\.(\w+)\.specs\.(\w+)\.\{([^}]*)\}", re.M)
TOKEN = re.compile(r'"[^"]*"|[(){}\[\],;]|[^\s(){}\[\],;."]+(?:\.[^\s(){}\[\],;."]+)*|\.')
# What holds of more where what it is given does.
GROWING = {"list_any", "list_all", "option_map_or"}
# Words, and groups of words within brackets.
Words = list["str | Words"]
RELATIONS = {"≡", "≢", "≤", "<", "×", "⊎", "¬"}


class Clause(NamedTuple):
    """A clause of a law, by its name or `ensures`, where it stands, and what it says."""

    crate: str
    module: str
    law: str
    name: str
    says: str

    def shown(self) -> str:
        """Names it as its answer does."""
        return f"{self.module}::{self.law}.{self.name or 'ensures'}"


class Part(NamedTuple):
    """A part of a definition, by what stands to its left, its text, and where that begins."""

    left: str
    text: str
    at: int


class Definition(NamedTuple):
    """A definition of a crate's specs: what it gives, `Type`, `Bool`, `record` or something else,
    its equations or fields, and where a field more would stand."""

    module: str
    name: str
    gives: str
    parts: tuple[Part, ...]
    head: int


class Plant(NamedTuple):
    """A weakening of a law or of a definition: what is made of what, in a file of the crate's
    specs, or of no file where it is one of a clause."""

    crate: str
    kind: str
    of: str
    name: str
    file: str = ""
    at: int = 0
    old: str = ""
    new: str = ""
    clause: Clause | None = None


@cache
def text_of(path: Path) -> str:
    """Gives the text of a file."""
    return path.read_text(encoding="utf-8")


def sources(crate: str, part: str, ending: str) -> list[Path]:
    """Lists the files of a part of a crate, in order."""
    return sorted((TOP / "crates" / crate / part).rglob(f"*.{ending}"))


def module_of(crate: str, path: Path) -> str:
    """Names the module of a source file of a crate."""
    return "::".join(path.relative_to(TOP / "crates" / crate / "src").with_suffix("").parts)


@cache
def clauses(crate: str) -> list[Clause]:
    """Lists the clauses of the laws of a crate: functions that take nothing and do nothing."""
    found: list[Clause] = []
    for path in sources(crate, "src", "rt"):
        module = module_of(crate, path)
        for law in LAW.finditer(text_of(path)) if module not in WORKED.get(crate, ()) else ():
            found += [Clause(crate, module, law.group(1), clause.group(1) or "", clause.group(2))
                      for clause in CLAUSE.finditer(law.group(2))]
    return found


# ---- definitions

def blocks(text: str) -> Iterator[tuple[int, str]]:
    """Yields where the definitions of a text begin, and the text of each, to the next empty
    line."""
    for head in re.finditer(HEAD.pattern, text, re.M):
        yield head.start(), text[head.start():].partition("\n\n")[0].rstrip("\n")


def equations(name: str, block: str, at: int) -> tuple[Part, ...]:
    """Lists the equations of a definition, each with its right side."""
    begin = [found.start() for found in re.finditer(rf"^{re.escape(name)}(?=[ \n])", block, re.M)]
    found = []
    for first, last in zip(begin, [*begin[1:], len(block)]):
        text = block[first:last].partition("\n--")[0].rstrip("\n")
        sign = sure(re.search(r" =\s+", text))
        found.append(Part(" ".join(text[:sign.start()].split()), text[sign.end():],
                          at + first + sign.end()))
    return tuple(found)


def fields(block: str, at: int) -> tuple[Part, ...]:
    """Lists the fields of a record, each with its type."""
    return tuple(Part(field.group(1), field.group(2).rstrip(), at + field.start(2)) for field in
                 re.finditer(r"^  pub (\w+) : ((?:.|\n    )*)", block, re.M))


def definition(module: str, at: int, block: str) -> Definition | None:
    """Reads a definition of a module; None where it is data."""
    head = sure(HEAD.match(block))
    name = head.group(2)
    if head.group(1) == "record ":
        line = at + block.find("\n") + 1
        return Definition(module, name, "record", fields(block, at), line)
    if head.group(1):
        return None
    parts = equations(name, block, at)
    of = block[head.end():sure(re.search(rf"\n{re.escape(name)}(?=[ \n])", block)).start()]
    result = split(tokens(of.partition(":")[2]), "→")[-1]
    given = str(result[0]) if result[:1] in (["Type"], ["Bool"]) else "other"
    return Definition(module, name, given, parts, at)


@cache
def definitions(crate: str) -> dict[tuple[str, str], Definition]:
    """Gives the definitions of a crate's specs, by module and name."""
    found = {}
    for path in sources(crate, "specs", "antt"):
        if path.stem == "Lib":
            continue
        for at, block in blocks(text_of(path)):
            one = definition(path.stem, at, block)
            if one:
                found[one.module, one.name] = one
    return found


def imported(crate: str, text: str) -> dict[str, str]:
    """Gives which names a text takes from the specs of a crate, with their modules."""
    return {name.strip(): module for of, module, names in IMPORT.findall(text) if of == crate
            for name in names.split(",")}


# ---- where they stand

def tokens(text: str) -> Words:
    """Reads a text as words, and groups of words within brackets."""
    groups: list[Words] = [[]]
    for token in TOKEN.findall(text):
        if token in "([{":
            groups.append([])
        elif token in ")]}":
            group = groups.pop()
            groups[-1].append(group)
        else:
            groups[-1].append(token)
    return groups[0]


def split(items: Words, *signs: str) -> list[Words]:
    """Divides words at the signs between them."""
    parts: list[Words] = [[]]
    for item in items:
        if isinstance(item, str) and item in signs:
            parts.append([])
        else:
            parts[-1].append(item)
    return parts


def bare(items: Words) -> Words:
    """Takes off the brackets around all of the words, but of a variable with its type that type."""
    while len(items) == 1 and isinstance(items[0], list):
        items = items[0]
        if ":" in items:
            items = items[items.index(":") + 1:]
    return items


def both(items: Sequence[str | Words]) -> Iterator[tuple[str, int]]:
    """Yields the names in words, wherever they stand, both ways."""
    for item in items:
        if isinstance(item, list):
            yield from both(item)
        else:
            yield from ((item, BELOW), (item, ABOVE))


def in_type(items: Words, way: int) -> Iterator[tuple[str, int]]:
    """Yields the names in a type, with the way in which they stand there."""
    items = bare(items)
    *premises, last = split(items, "→")
    parts = split(items, "×", "⊎")
    sides = split(items, "≡")
    if premises:
        for premise in premises:
            yield from in_type(premise, -way)
        yield from in_type(last, way)
    elif len(parts) > 1:
        for part in parts:
            yield from in_type(part, way)
    elif items[:1] == ["¬"]:
        yield from in_type(items[1:], -way)
    elif len(sides) == 2:
        yield from in_equation(sides, way)
    else:
        yield from in_call(items, way)


def in_equation(sides: list[Words], way: int) -> Iterator[tuple[str, int]]:
    """Yields those in an equation: of a value that holds, of one that does not, or of two."""
    for side, other in (sides, sides[::-1]):
        if bare(other) in (["true"], ["false"]):
            yield from in_value(side, way if bare(other) == ["true"] else -way)
            return
    yield from both(sides)


def otherwise(items: Words, then: int) -> int:
    """Gives where the `else` stands that belongs to a `then`."""
    depth = 1
    for at in range(then + 1, len(items)):
        depth += (items[at] == "if") - (items[at] == "else")
        if not depth:
            return at
    return len(items)


def in_value(items: Words, way: int) -> Iterator[tuple[str, int]]:
    """Yields those in a value that is true or false, where `true` stands that way."""
    items = bare(items)
    parts = split(items, "&&", "||")
    if items[:1] == ["if"]:
        then = items.index("then")
        other = otherwise(items, then)
        yield from both(items[1:then])
        yield from in_value(items[then + 1:other], way)
        yield from in_value(items[other + 1:], way)
    elif items[:1] == ["λ"]:
        yield from in_value(items[items.index(".") + 1:], way)
    elif len(parts) > 1:
        for part in parts:
            yield from in_value(part, way)
    elif items[:1] == ["not"]:
        yield from in_value(items[1:], -way)
    elif isinstance(items[0], str) and items[0] in GROWING:
        for item in items[1:]:
            is_function = isinstance(item, list) and bare([item])[:1] == ["λ"]
            yield from in_value([item], way) if is_function else both([item])
    else:
        yield from in_call(items, way)


def in_call(items: Words, way: int) -> Iterator[tuple[str, int]]:
    """Yields the first name of words that way, and those that it is given both ways."""
    if items and isinstance(items[0], str):
        yield items[0], way
        items = items[1:]
    yield from both(items)


def named_by(one: Definition, way: int) -> Iterator[tuple[str, int]]:
    """Yields the names that a definition names, where it stands that way itself."""
    for part in one.parts:
        items = tokens(part.text)
        if one.gives in ("Type", "record"):
            yield from in_type(items, way)
        else:
            yield from in_value(items, way) if one.gives == "Bool" else both(items)


@cache
def ways(crate: str) -> dict[tuple[str, str], set[int]]:
    """Gives in which ways each definition of a crate stands in its laws, by module and name."""
    every = definitions(crate)
    found: dict[tuple[str, str], set[int]] = {}
    left: list[tuple[tuple[str, str], int]] = []

    def note(names: Iterator[tuple[str, int]], places: dict[str, str], module: str) -> None:
        for name, way in names:
            key = (places.get(name, module), name)
            if key in every and way not in found.setdefault(key, set()):
                found[key].add(way)
                left.append((key, way))

    for path in sources(crate, "src", "rt"):
        module = module_of(crate, path)
        places = imported(crate, text_of(path))
        for clause in clauses(crate):
            if clause.module == module:
                note(in_type(tokens(clause.says), ABOVE), places, "")
    while left:
        key, way = left.pop()
        path = TOP / "crates" / crate / "specs" / f"{key[0]}.antt"
        note(named_by(every[key], way), imported(crate, text_of(path)), key[0])
    return found


# ---- plants

def of_clauses(crate: str) -> Iterator[Plant]:
    """Yields the plants of the clauses of a crate's laws."""
    for clause in clauses(crate):
        for kind in (PREMISE, DROPPED):
            yield Plant(crate, kind, clause.law, clause.shown(), clause=clause)


def values(one: Definition, way: int) -> str:
    """Gives what an equation is made, so that less or more holds."""
    if one.gives == "Type":
        return "⊥" if way == BELOW else "Unit {0}"
    return "false" if way == BELOW else "true"


def is_said(text: str) -> bool:
    """Says whether the type of a field is something that holds or not, and no set of values."""
    items = split(tokens(text), "→")[-1]
    first = items[0] if items and isinstance(items[0], str) else ""
    return bool(RELATIONS & {item for item in items if isinstance(item, str)}) or (
        len(items) > 1 and first[:1].isupper() and first not in ("List", "Option"))


def of_definition(crate: str, one: Definition, way: int) -> Iterator[Plant]:
    """Yields the plants of a definition that stands in its laws that way."""
    kind, file = (NARROWER if way == BELOW else WIDER), f"specs/{one.module}.antt"
    if one.gives == "record" and way == BELOW:
        yield Plant(crate, kind, one.name, f"{one.module}: {one.name}, never : ⊥", file, one.head,
                    "", "  pub never : ⊥\n")
    elif one.gives == "record":
        for part in one.parts:
            if is_said(part.text):
                yield Plant(crate, kind, one.name,
                            f"{one.module}: {one.name}, {part.left} : Unit {{0}}", file, part.at,
                            part.text, "Unit {0}")
    elif one.gives != "other":
        value = values(one, way)
        for part in one.parts:
            if part.text != value:
                yield Plant(crate, kind, one.name, f"{one.module}: {part.left} = {value}", file,
                            part.at, part.text, value)


def of_definitions(crate: str) -> Iterator[Plant]:
    """Yields the plants of the definitions that stand in the laws of a crate, in their order."""
    for key, one in definitions(crate).items():
        for way in sorted(ways(crate).get(key, ())):
            yield from of_definition(crate, one, way)


def plants(crate: str, kinds: tuple[str, ...]) -> list[Plant]:
    """Lists the plants of these kinds in a crate."""
    return [plant for plant in (*of_clauses(crate), *of_definitions(crate)) if plant.kind in kinds]


def planted(text: str, plant: Plant) -> str:
    """Gives the text of a file with a plant in it, which names what it needs."""
    made = text[:plant.at] + plant.new + text[plant.at + len(plant.old):]
    names = {name.strip() for words in re.findall(r"^use Rattle\.std\.specs\.Prelude\.\{([^}]*)\}",
                                                  text, re.M) for name in words.split(",")}
    if plant.new in ("true", "false") and plant.new not in names:
        first = re.search(r"^use ", made, re.M)
        at = first.start() if first else 0
        made = f"{made[:at]}use Rattle.std.specs.Prelude.{{{plant.new}}}\n{made[at:]}"
    return made
