"""Reads definitions: modules of specs/ in antt, and items of src/ in Rattle."""

from __future__ import annotations

import re
from functools import cache
from pathlib import Path

from lemdwab.running import TOP

HEAD = re.compile(r"(?:abbrev |unfoldable |inductive )*pub (?:data |record )?(\S+)")
USES = ("use ", "pub use ")


class Group:
    """A comment and the definitions under it, or a heading within a module."""

    def __init__(self, comment: list[str]) -> None:
        self.comment = comment
        self.code: list[str] = []

    def names(self) -> list[str]:
        """Gives the names of the definitions, in order."""
        heads = [HEAD.match(line) for line in self.code]
        return [h.group(1) for h in heads if h]


def module_path(crate: str, module: str) -> Path:
    """Gives the file of a specs module."""
    return TOP / "crates" / crate / "specs" / f"{module}.antt"


def all_modules() -> list[tuple[str, str]]:
    """Lists every specs module as (crate, module), but those that only list others."""
    found = []
    for path in sorted(TOP.glob("crates/*/specs/*.antt")):
        if path.stem != "Lib":
            found.append((path.parts[-3], path.stem))
    return found


def read_module(crate: str, module: str) -> tuple[list[str], list[Group], list[str]]:
    """Gives (comment of the module, groups, lines of `use`)."""
    lines = module_path(crate, module).read_text(encoding="utf-8").split("\n")
    uses = [line.removeprefix("pub ") for line in lines if line.startswith(USES)]
    head = []
    while lines and lines[0].startswith("--") and not lines[0].startswith("-- ----"):
        head.append(lines.pop(0)[2:].removeprefix(" "))
    groups, comment = [], []
    for line in lines:
        if line.startswith(USES):
            continue
        if line.startswith("--"):
            comment.append(line)
            continue
        if comment:
            groups.append(Group(comment))
            comment = []
        if not groups and line:
            groups.append(Group([]))
        if groups and (line or groups[-1].code):
            groups[-1].code.append(line)
    # An operator's `infixl` stands before the comment of its definition.
    for group, later in zip(groups, groups[1:]):
        if group.code and group.code[-1].startswith("infix"):
            later.code.insert(0, group.code.pop())
    for group in groups:
        while group.code and not group.code[-1]:
            group.code.pop()
    return head, [g for g in groups if g.code or g.comment], uses


def prose(comment: list[str]) -> list[str]:
    """Gives a comment as lines of a document, a heading within a module as a bold line."""
    lines = []
    for line in comment:
        heading = re.match(r"-- ---- (.*)", line)
        lines.append(f"**{heading.group(1).strip()}**\n" if heading else line[2:].removeprefix(" "))
    return lines


def read_item(crate: str, file: str, name: str) -> list[str]:
    """Gives the text of an enum, struct, const or trait of a source file, its comment included."""
    path = TOP / "crates" / crate / file
    lines = path.read_text(encoding="utf-8").split("\n")
    head = re.compile(rf"(?:pub(?:\([a-z]+\))? )?(?:enum|struct|const|trait) {name}\b")
    at = next((i for i, line in enumerate(lines) if head.match(line)), None)
    if at is None:
        raise SystemExit(f"{crate}/{file} has no {name}")
    first = at
    while lines[first - 1].startswith(("///", "#[")):
        first -= 1
    last = at
    if not lines[at].rstrip().endswith(";"):
        while not lines[last].startswith(("}", "]")) and not lines[last].endswith('";'):
            last += 1
    text = lines[first:last + 1]
    return [line for line in text if not line.startswith("#[")]


@cache
def joined(crate: str, module: str) -> str:
    """Gives a module without its comments, each clause in one line."""
    text = module_path(crate, module).read_text(encoding="utf-8")
    return re.sub(r"\n[ \t]+", " ", re.sub(r"(?m)--.*$", "", text))


def has_clauses(crate: str, module: str, name: str) -> bool:
    """Says whether a module defines a name by clauses."""
    return bool(re.search(rf"(?m)^{re.escape(name)}(?: [^=\n]*?)? = ", joined(crate, module)))


def clauses(crate: str, module: str, name: str) -> list[tuple[str, str]]:
    """Gives the clauses of a definition by patterns, as (patterns as text, right side as text)."""
    found = []
    for line in joined(crate, module).split("\n"):
        match = re.match(rf"{re.escape(name)}((?: [^=]*?)?) = (.*)", line)
        if match:
            found.append((match.group(1).strip(), match.group(2).strip()))
    if not found:
        raise SystemExit(f"{crate} {module} has no clauses of {name}")
    return found
