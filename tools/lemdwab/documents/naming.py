"""Says where each name in a definition or a contract is defined, and which names each definition
has: of modules of specs/, by their `use` lines, and of items of src/."""

from __future__ import annotations

import re
from collections.abc import Iterable, Iterator
from functools import cache
from typing import NamedTuple

from lemdwab.documents.antt import all_modules, module_path, read_item, read_module
from lemdwab.documents.functions import dedented, source_files, source_lines
from lemdwab.running import TOP

USE = re.compile(r"(?m)^[ \t]*(?:ghost )?use Rattle\.(\w+)\.([^;\n]*);?$")
HANDED_ON = re.compile(r"(?m)^pub use Rattle\.(\w+)\.([\w.]*)\.\{([^}]*)\}")
RUST_USE = re.compile(r"(?m)^[ \t]*(?:pub(?:\([a-z]+\))? )?use ([^;]*);")
DEFINED = re.compile(
    r"(?:(?:abbrev|unfoldable|inductive) )*(?:pub |(?<=abbrev ))(data |record )?(\S+)")
ITEM = re.compile(r"(pub )?(?:pub\([a-z]+\) )?(?:enum|struct|const|trait) (\w+)")
MEMBER = re.compile(r"^  (?:pub )?((?:[^\s:()]+ )+): ?")
MEMBER_LINE = re.compile(r"(?m)^  (?:pub )?((?:[^\s:()]+ )+):")
RUST_MEMBER = re.compile(
    r"^    (?:pub(?:\([a-z]+\))? |ghost )?([A-Za-z]\w*)(?:: |,|\(| \{|$)")
TOKEN = re.compile(r"(?P<comment>--[^\n]*|//[^\n]*)|(?P<text>\"(?:\\.|[^\"\\])*\")"
                   r"|(?P<name>[^\W\d][\w']*(?:(?:\.|::)[\w']+)*)|(?P<number>\d\w*(?:\.\d+)?)"
                   r"|(?P<sign>\[\]|[^\w\s(){}\[\],;.\"'`]+)")
# What stands for itself on the left of a clause, and what no `use` names.
CONSTANTS = {"true", "false", "tt", "zero", "suc", "refl"}
WORDS = {"abbrev", "pub", "data", "record", "where", "unfoldable", "inductive", "Type", "let", "in",
         "do", "λ", "infixl", "infixr", "requires", "ensures", "ghost", "result", "self", "Self",
         "fn", "enum", "struct", "const", "trait", "impl", "for", "mut", "use", "use Rattle"}


class Target(NamedTuple):
    """Where a name leads: the key of a definition and its place in the site, or, of a name of a
    library, `library name` and no place."""

    key: str
    place: str = ""


class Definition(NamedTuple):
    """A definition of a module, or an item of a source file: its lines, and its comment."""

    key: str
    crate: str
    module: str
    name: str
    place: str
    comment: list[str]
    lines: list[str]
    members: tuple[str, ...]
    is_item: bool


def spec_page(crate: str, module: str) -> str:
    """Gives the page of a module of definitions."""
    return f"definitions/{crate}/{module}.html"


def code_page(crate: str) -> str:
    """Gives the page of the items of a crate."""
    return f"code/{crate}.html"


@cache
def crates() -> list[str]:
    """Lists the crates of the repository."""
    return sorted(path.name for path in (TOP / "crates").iterdir() if (path / "src").is_dir())


# ---- what is defined

def members_of(lines: list[str]) -> tuple[str, ...]:
    """Lists the parts of a record, or the forms of a type."""
    found: list[str] = []
    for line in lines:
        match = MEMBER.match(line.split("  --")[0] + " ")
        found += match[1].split() if match else []
    return tuple(found)


@cache
def defined(crate: str, module: str) -> list[Definition]:
    """Lists the definitions of a module, in order."""
    found = []
    for group in read_module(crate, module)[1]:
        for line in group.code:
            head = DEFINED.match(line)
            if head:
                name, page = head[2], spec_page(crate, module)
                kind = (head[1],) if head[1] else ()
                found.append(Definition(f"{crate} {module} {name}", crate, module, name,
                                        f"{page}#{name}", group.comment, [], kind, False))
            if found and not line.startswith("infix"):
                found[-1].lines.append(line)
    return [one._replace(members=members_of(one.lines[1:]) if one.members else ())
            for one in found]


@cache
def items(crate: str) -> list[Definition]:
    """Lists the enums, structs, constants and traits of a crate that others see, or that
    definitions name."""
    return [item(crate, file, head[2]) for file in source_files(crate)
            for head in map(ITEM.match, source_lines(crate, file))
            if head and (head[1] or (crate, head[2]) in named_in_specs())]


def item(crate: str, file: str, name: str) -> Definition:
    """Gives an item of a source file."""
    text = read_item(crate, file, name)
    body = [one for one in text if not one.startswith("///")]
    comment = [one[3:].removeprefix(" ") for one in text if one.startswith("///")]
    parts = [match[1] for match in map(RUST_MEMBER.match, body[1:]) if match]
    stem = file.removeprefix("src/").removesuffix(".rt").replace("/", ".")
    return Definition(f"{crate} {file} {name}", crate, file, name,
                      f"{code_page(crate)}#{stem}.{name}", comment,
                      [*body, *shown_as(crate, file, name)], tuple(parts), True)


@cache
def named_in_specs() -> set[tuple[str, str]]:
    """Gives the items that `use` lines of definitions name, each with its crate."""
    found: set[tuple[str, str]] = set()
    for crate, module in all_modules():
        for of, path in USE.findall("\n".join(read_module(crate, module)[2])):
            if path.startswith(("specs.declared.", "specs.contracts.")):
                found |= {(of, word) for word in re.findall(r"\w+", path)}
    return found


def shown_as(crate: str, file: str, name: str) -> list[str]:
    """Gives what a contract sees of a struct: its `impl Model`, if it has one."""
    lines = source_lines(crate, file)
    head = re.compile(rf"impl(?:<[^>]*>)? Model for {name}\b")
    at = next((i for i, line in enumerate(lines) if head.match(line)), None)
    if at is None:
        return []
    end = next(i for i in range(at, len(lines)) if lines[i].startswith("}"))
    kept = [line for line in lines[at:end + 1] if " use Rattle." not in line]
    return ["", *(line for i, line in enumerate(kept) if line or i == 0 or kept[i - 1][-1:] != "{")]


@cache
def all_definitions() -> dict[str, Definition]:
    """Gives every definition and item by its key."""
    found = [one for crate, module in all_modules() for one in defined(crate, module)]
    found += [one for crate in crates() for one in items(crate)]
    return {one.key: one for one in found}


@cache
def by_name(crate: str) -> dict[str, Definition]:
    """Gives the items of a crate by their names."""
    return {one.name: one for one in items(crate)}


# ---- what names mean

def target(one: Definition, member: str = "") -> Target:
    """Gives the target of a definition, or of a part of it."""
    return Target(one.key, f"{one.place}.{member}" if member else one.place)


def inside(one: Definition) -> dict[str, Target]:
    """Gives what may stand behind a type's name and a dot: its forms or parts."""
    return {member: target(one, member) for member in one.members}


@cache
def in_module(crate: str, module: str) -> dict[str, Target]:
    """Gives all that a module defines, forms and parts too."""
    found = {one.name: one for one in defined(crate, module)}
    forms = {form: target(one, form) for one in found.values()
             for form in one.members if not one.lines[0].startswith("pub record")}
    return forms | {name: target(one) for name, one in found.items()}


def item_of(crate: str, file: str, name: str) -> Definition | None:
    """Gives an item of a source file, by the file that a `use` line names; None where there is
    none."""
    key = f"{crate} src/{file}.rt {name}"
    definitions = all_definitions()
    if key in definitions:
        return definitions[key]
    return by_name(crate).get(name)


def space(crate: str, path: list[str]) -> dict[str, Target] | None:
    """Gives what a path below a crate offers: each of its names with its target."""
    if crate not in crates() or path[0] != "specs":
        return None
    _, first, *rest = path
    if first not in ("declared", "contracts"):
        if not rest:
            return handed_on(crate, first) | in_module(crate, first)
        return inside(next(one for one in defined(crate, first) if one.name == rest[0]))
    if rest[-1] == "TheConstants":
        return {one.name: target(one) for one in items(crate)
                if one.module == f"src/{'/'.join(rest[:-1])}.rt"}
    names = [name for name in rest if name not in ("TheVariants", "TheInside")]
    one = item_of(crate, "/".join(names[:-1]), names[-1])
    if one is None:
        return None
    return inside(one) if rest[-1] == "TheVariants" else {one.name: target(one), "": target(one)}


def handed_on(crate: str, module: str) -> dict[str, Target]:
    """Gives the names of other modules that a module offers as its own, by its `pub use`."""
    text = module_path(crate, module).read_text(encoding="utf-8")
    found: dict[str, Target] = {}
    for of, path, names in HANDED_ON.findall(text):
        offered = space(of, path.split(".")) or {}
        found |= {name: offered[name] for name in re.split(r"[,\s]+", names) if name in offered}
    return found


def library(crate: str) -> str:
    """Names what a leaf comes from."""
    return "std" if crate in ("std", "core") else crate


class Meaning:
    """What the names of a file mean: plain ones, and those behind another one and a dot."""

    def __init__(self) -> None:
        self.names: dict[str, Target] = {}
        self.spaces: dict[str, tuple[dict[str, Target] | None, str]] = {}
        self.imported: list[tuple[str, str]] = []

    def take(self, crate: str, text: str) -> None:
        """Takes a `use` line, without its beginning."""
        front, _, braced = text.partition(".{")
        front, _, alias = front.partition(" as ")
        path = front.split(".")
        offered = space(crate, path)
        if alias:
            self.spaces[alias] = (offered, f"{library(crate)} {'.'.join(path[1:])}")
            self.imported.append((alias, alias))
            return
        for word in re.findall(r"[^,{}]+", braced):
            name, _, other = word.strip().partition(" as ")
            if offered is None:
                leads = Target(f"{library(crate)} {name}")
            else:
                leads = offered.get(name) or offered.get("") or Target(f"? {name}")
            self.names[other or name] = leads
            self.imported.append((other or name, name))

    def take_rust(self, crate: str, text: str) -> None:
        """Takes what a `use` item of Rust names of the repository's crates."""
        of = re.match(r"(\w+)::", text)
        if not of:
            return
        crate = crate if of[1] == "crate" else of[1]
        if crate not in crates():
            return
        for name in re.findall(r"[A-Z]\w*", text):
            one = offered_by(crate, name) or elsewhere(name)
            if one:
                self.names.setdefault(name, target(one))

    def of(self, name: str) -> tuple[Target | None, int]:
        """Gives the target of a name, and how much of it that target is of."""
        first, *rest = re.split(r"\.|::", name)
        if first in self.spaces and rest:
            offered, where = self.spaces[first]
            leads = (offered or {}).get(rest[0]) or (offered or {}).get("")
            return leads or Target(f"{where}.{rest[0]}"), len(first) + 1 + len(rest[0])
        leads = self.names.get(first)
        one = all_definitions().get(leads.key) if leads else None
        if leads and one and rest and rest[0] in one.members and leads.place == one.place:
            dots = 2 if "::" in name else 1
            return target(one, rest[0]), len(first) + dots + len(rest[0])
        return leads, len(first)

    def of_sign(self, sign: str) -> Target | None:
        """Gives the target of an operator, or of a part of one."""
        return self.names.get(f"◌{sign}◌") or self.names.get(sign)


@cache
def offered_by(crate: str, name: str) -> Definition | None:
    """Gives the item that a crate offers under a name: its own, or one of another crate that it
    hands on; None where there is none."""
    if name in by_name(crate):
        return by_name(crate)[name]
    root = next((f for f in source_files(crate) if f in ("src/lib.rt", "src/main.rt")), None)
    text = "\n".join(source_lines(crate, root)) if root else ""
    for of, words in re.findall(r"(?m)^pub use (\w+)::([^;]*);", text):
        if of in crates() and of != crate and re.search(rf"\b{name}\b", words):
            return offered_by(of, name)
    return None


@cache
def elsewhere(name: str) -> Definition | None:
    """Gives the one item of that name in all crates; None where there are more, or none."""
    found = [one for crate in crates() for one in items(crate) if one.name == name]
    return found[0] if len(found) == 1 else None


@cache
def meaning_of_module(crate: str, module: str) -> Meaning:
    """Gives what the names of a module mean."""
    meaning = Meaning()
    for use in read_module(crate, module)[2]:
        match = USE.match(use)
        if match:
            meaning.take(*match.groups())
    meaning.names |= in_module(crate, module)
    return meaning


@cache
def meaning_of_file(crate: str, file: str) -> Meaning:
    """Gives what the names of a source file mean."""
    text = "\n".join(source_lines(crate, file))
    meaning = Meaning()
    for use in RUST_USE.findall(text):
        if not use.startswith("Rattle"):
            meaning.take_rust(crate, use)
    for match in USE.finditer(text):
        meaning.take(*match.groups())
    for one in items(crate):
        if one.module == file:
            meaning.names[one.name] = target(one)
    return meaning


def with_generics(meaning: Meaning, text: str) -> Meaning:
    """Gives what names mean where `S: Source` makes S a name for what that trait has."""
    found = Meaning()
    found.names, found.spaces = meaning.names, dict(meaning.spaces)
    for letter, trait in re.findall(r"\b([A-Z]): ([A-Z]\w*)", text):
        leads = meaning.names.get(trait)
        one = all_definitions().get(leads.key) if leads else None
        if one:
            found.spaces[letter] = (inside(one) | {"": target(one)}, "")
    return found


# ---- names in a text

def bound(block: str) -> dict[str, int]:
    """Gives the names that a block of code binds itself, each with the place from which on."""
    code = re.sub(r"--[^\n]*|//[^\n]*", "", block)
    found = set()
    clause = re.match(r"([^\s:=(){}]+) ([^=:]*?) ?=(?!=)\s", code)
    if clause:
        found |= set(re.findall(r"(?<![\w.])[a-z_][\w']*(?![\w.'])", clause[2])) - CONSTANTS
    for names in re.findall(r"λ\s*([^.:=]*?)\.\s", code):
        found |= set(re.findall(r"[^\W\d][\w']*", names))
    for names in re.findall(r"[({]\s*((?:[^\W\d][\w']*\s+)+):\s", code):
        found |= set(names.split())
    found |= set(re.findall(r"\blet ([\w']+) =", code))
    found |= set(re.findall(r"([\w']+) ←", code))
    places = dict.fromkeys(found, 0)
    if re.match(r"(?:inductive )?pub record ", code):
        # The name of a part means that part in those after it.
        parts = [(match.start(), match[1]) for match in re.finditer(MEMBER_LINE, block)]
        for (_, names), (past, _) in zip(parts, parts[1:]):
            places |= dict.fromkeys(set(names.split()) - found, past)
    return places


def labels(block: str) -> set[int]:
    """Gives the places of a block where the name of a part stands, as in `record { n = 63 }`."""
    return {match.start(1) for match in re.finditer(r"[{;]\s*([\w']+)\s*=(?![=>])", block)}


def is_bracket(block: str, match: re.Match[str]) -> bool:
    """Says whether a sign is a bracket of a type of Rust, as in `Vec<u8>`, and no operator."""
    return set(match["sign"]) <= set("<>&") and block[match.start() - 1:match.start()] != " "


def named(block: str, meaning: Meaning) -> Iterator[tuple[int, int, Target]]:
    """Lists what names in a block of code lead to: each with its place, its length and its
    target."""
    hidden, parts = bound(block), labels(block)
    for match in TOKEN.finditer(block):
        if match["name"]:
            first = re.split(r"\.|::", match["name"])[0]
            is_hidden = hidden.get(first, len(block)) <= match.start()
            if is_hidden or match["name"] in WORDS or match.start() in parts:
                continue
            leads, length = meaning.of(match["name"])
            if leads is None and match["name"] in ("if", "then", "else"):
                leads, length = meaning.names.get("if◌then◌else◌"), len(match["name"])
            if leads:
                yield match.start(), length, leads
        elif match["sign"] and not is_bracket(block, match):
            leads = meaning.of_sign(match["sign"])
            if leads:
                yield match.start(), len(match["sign"]), leads


def blocks(lines: list[str]) -> list[str]:
    """Cuts lines into blocks: a line that is not moved in, and those that go on from it."""
    found: list[list[str]] = []
    for line in lines:
        if not found or (line and not line.startswith((" ", "\t"))):
            found.append([line])
        else:
            found[-1].append(line)
    return ["\n".join(block) for block in found]


def item_blocks(lines: list[str]) -> list[str]:
    """Gives an item as one block."""
    return ["\n".join(dedented(lines))]


def meaning_of(one: Definition) -> Meaning:
    """Gives what names mean where a definition stands."""
    if one.is_item:
        return meaning_of_file(one.crate, one.module)
    return meaning_of_module(one.crate, one.module)


@cache
def rests_on(key: str) -> tuple[str, ...]:
    """Lists what a definition names: other definitions and, last, names of libraries."""
    one = all_definitions()[key]
    cut = item_blocks(one.lines) if one.is_item else blocks(one.lines)
    return keys_of((leads for block in cut for _, _, leads in named(block, meaning_of(one))), key)


def keys_of(targets: Iterable[Target], own: str = "") -> tuple[str, ...]:
    """Gives the keys of targets, each once: those of definitions and, last, those of libraries."""
    found = list(dict.fromkeys(leads.key for leads in targets if leads.key != own))
    definitions = all_definitions()
    return tuple([key for key in found if key in definitions]
                 + [key for key in found if key not in definitions])
