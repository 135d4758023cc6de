"""Reads the functions of src/ with their contracts, and which of them other crates can call."""

from __future__ import annotations

import re
from collections.abc import Sequence
from functools import cache
from typing import NamedTuple

from lemdwab.running import TOP

FUNCTION = re.compile(r"(?: {4})?(?:pub(?:\([^)]*\))? )?(?:const |unsafe |extern \"C\" )*fn (\w+)")
# What a function stands in: `impl Source for MemSource`, `impl<T> Bank<T>`, `pub trait Source`.
BLOCK = re.compile(r"(?:pub )?(impl|trait)\b(?:<[^>]*>)? ?(?:([\w<>, ]+?) for )?([A-Z]\w*)")
CLAUSE = re.compile(r"(?m)^\s*(requires|ensures\*?)(?: (\w+))? \{")
LAW = re.compile(r"(?m)^pub fn (\w+)\([^)]*\)\n(?:    .*\n)*\{\}$")


class Clause(NamedTuple):
    """One clause of a contract, with the lines of the contract, from 0, at which it begins and
    ends."""

    kind: str
    name: str
    first: int
    last: int


class Function(NamedTuple):
    """A function of a source file: what it belongs to, its comment, and its lines down to the body,
    which are its words and its contract."""

    crate: str
    file: str
    line: int
    owner: str
    name: str
    comment: tuple[str, ...]
    text: tuple[str, ...]
    is_law: bool
    is_public: bool

    def called(self) -> str:
        """Names it within its crate."""
        return f"{self.owner}::{self.name}" if self.owner else self.name

    def module(self) -> str:
        """Gives the module of the crate that it stands in; nothing for the root."""
        return module_of(self.file)

    def clauses(self) -> list[Clause]:
        """Lists the clauses of its contract."""
        text = "\n".join(self.text)
        found = []
        for match in CLAUSE.finditer(text):
            end = closing(text, match.end() - 1)
            first = text.count("\n", 0, match.start(1))
            found.append(Clause(match[1].rstrip("*"), match[2] or "", first,
                                text.count("\n", 0, end)))
        return found


def closing(text: str, at: int) -> int:
    """Gives the place of the brace that closes the one at a place."""
    depth = 0
    for place in range(at, len(text)):
        depth += {"{": 1, "}": -1}.get(text[place], 0)
        if depth == 0:
            return place
    raise SystemExit(f"a brace is not closed: {text[at:at + 60]}")


def module_of(file: str) -> str:
    """Gives the module of a source file, as rows::files; nothing for the root of its crate."""
    inner = file.removeprefix("src/").removesuffix(".rt").removesuffix("/mod")
    return "" if inner in ("lib", "main") else inner.replace("/", "::")


def source_files(crate: str) -> list[str]:
    """Lists the source files of a crate, as src/file.rt."""
    folder = TOP / "crates" / crate
    return [str(path.relative_to(folder)) for path in sorted((folder / "src").glob("**/*.rt"))]


@cache
def source_lines(crate: str, file: str) -> list[str]:
    """Gives the lines of a source file."""
    return (TOP / "crates" / crate / file).read_text(encoding="utf-8").split("\n")


@cache
def exported(crate: str) -> tuple[set[str], set[str]]:
    """Gives what the root of a crate lets others see: names, and its public modules."""
    root = next((f for f in source_files(crate) if f in ("src/lib.rt", "src/main.rt")), None)
    text = "\n".join(source_lines(crate, root)) if root else ""
    names = set()
    for use in re.findall(r"(?m)^pub use ([^;]*);", text):
        names |= set(re.findall(r"\w+(?=\s*[,}]|$)", use))
    return names, set(re.findall(r"(?m)^pub mod (\w+);", text))


def is_seen(crate: str, file: str, name: str) -> bool:
    """Says whether other crates see an item of a file."""
    names, modules = exported(crate)
    module = module_of(file)
    return name in names or not module or module.split("::")[0] in modules


def is_for_c(line: str) -> bool:
    """Says whether a function with this first line is a call for C, which sees it in any module."""
    return line.startswith('pub extern "C" fn ')


def head_end(lines: list[str], at: int) -> int:
    """Gives the line after the last one of a function's words and contract: where its body begins,
    or, of a function of a trait, after its end."""
    indent = " " * (len(lines[at]) - len(lines[at].lstrip()))
    depth = 0
    for place in range(at, len(lines)):
        line = lines[place].rstrip()
        depth += line.count("{") - line.count("}")
        if line in (indent + "{", indent + "{}") or re.match(rf"{indent}\{{.*\}}$", line):
            return place
        if line.endswith(";") and depth == 0 or (place == at and line.endswith(("{", "{}"))):
            return place + 1
        if re.match(rf"{indent}\).*\{{$", line):
            return place + 1
    raise SystemExit(f"no end of {lines[at]}")


def comment_above(lines: list[str], at: int) -> list[str]:
    """Gives the comment above an item, without its marks."""
    first = at
    while first and lines[first - 1].lstrip().startswith(("///", "#[")):
        first -= 1
    above = [line.strip() for line in lines[first:at]]
    return [line[3:].removeprefix(" ") for line in above if line.startswith("///")]


def functions(crate: str, file: str) -> list[Function]:
    """Lists the functions of a source file that others see or that are part of a trait."""
    return functions_in(crate, file, source_lines(crate, file))


def functions_in(crate: str, file: str, lines: list[str]) -> list[Function]:
    """Lists those of a source file with these lines."""
    laws = set(LAW.findall("\n".join(lines)))
    found, owner, is_trait = [], "", False
    for at, line in enumerate(lines):
        if line.startswith("}"):
            owner, is_trait = "", False
        if (block := BLOCK.match(line)) and not line.startswith(" "):
            owner, is_trait = block[3], block[1] == "trait" or bool(block[2])
        head = FUNCTION.match(line)
        if not head or line.startswith(" ") != bool(owner):
            continue
        is_public = line.lstrip().startswith("pub ") or is_trait
        text = lines[at:head_end(lines, at)]
        if text[-1].endswith("{"):
            text = [*text[:-1], text[-1].removesuffix("{").rstrip()]
        found.append(Function(
            crate, file, at + 1, owner, head[1], tuple(comment_above(lines, at)), tuple(text),
            not owner and head[1] in laws,
            is_public and (is_for_c(line) or is_seen(crate, file, owner or head[1]))))
    return found


def dedented(lines: Sequence[str]) -> list[str]:
    """Gives lines without what all of them are moved in by."""
    least = min((len(line) - len(line.lstrip()) for line in lines if line.strip()), default=0)
    return [line[least:] for line in lines]
