"""Makes docs/DEFINITIONS.md of the definitions, in the order of definitions.order: of a module of
part I what README's sentences and the library's calls rest on (lemdwab.documents.carried), of all
others their words and what these mean."""

from __future__ import annotations

from collections import Counter
from collections.abc import Callable, Iterator, Sequence
from typing import TYPE_CHECKING

from lemdwab.documents.antt import all_modules, module_path, prose, read_item, read_module
from lemdwab.documents.carried import in_parts
from lemdwab.documents.markdown import anchor
from lemdwab.documents.order import (CONTENTS, FIRST, FULL, ITEM, OTHERS, PASSED, SECOND, TABLE,
                                     order_lines, placed)
from lemdwab.running import TOP

if TYPE_CHECKING:
    from lemdwab.documents.antt import Group

TARGET = TOP / "docs/DEFINITIONS.md"
# The most lines that part I may have, and what stands in the order for how many it has.
MOST_LINES, COUNT = 8000, "COUNT"
# What stands before the name of a module of part I where part II has what is left of it.
OTHERS_OF = "The other words of "


def fenced(lang: str, lines: list[str]) -> list[str]:
    """Gives lines as a block of code."""
    return [f"```{lang}", *lines, "```"]


def heading(crate: str, module: str, words: str = "") -> list[str]:
    """Gives the heading of a module, with words before its name, and what its comment says."""
    path = f"../crates/{crate}/specs/{module}.antt"
    head = read_module(crate, module)[0]
    return [f"### {words}{module} ([`{crate}`]({path}))", "", *head, ""]


def believed_module(crate: str, module: str) -> list[str]:
    """Gives of a module, with their text, the definitions on which something rests."""
    return [*heading(crate, module), *blocks(in_parts(crate, module)[0])]


def blocks(groups: list[Group]) -> list[str]:
    """Gives groups as blocks of code in which each comment stands as in the source: one for each
    part of a module that has a heading."""
    out: list[str] = []
    block: list[str] = []
    for group in groups:
        if group.code:
            block += [*([""] if block else []), *group.comment, *group.code]
        else:
            out += [*closed(block), *prose(group.comment)]
            block = []
    return [*out, *closed(block)]


def closed(block: list[str]) -> list[str]:
    """Gives definitions as a block of code with a blank line behind it; nothing of none."""
    return [*fenced("text", block), ""] if block else []


def cell(comment: list[str]) -> str:
    """Gives a comment as one cell of a table."""
    lines = [line[2:].strip() for line in comment if not line.startswith("-- ----")]
    if not lines:
        lines = [line[8:].strip() for line in comment]
    return " ".join(lines).replace("|", "\\|")


def table(groups: list[Group]) -> list[str]:
    """Gives definitions as a table of their words and what their comments say."""
    out = ["| Word | Meaning |", "|---|---|"]
    for group in groups:
        words = ", ".join(f"`{name}`" for name in group.names())
        if words:
            out.append(f"| {words} | {cell(group.comment)} |")
    return [*out, ""]


def module_table(crate: str, module: str) -> list[str]:
    """Gives a module of part II as a table."""
    return [*heading(crate, module), *table(read_module(crate, module)[1])]


def others_table(crate: str, module: str) -> list[str]:
    """Gives as a table what part I leaves out of a module, on which nothing rests."""
    title, *_ = heading(crate, module, OTHERS_OF)
    return [title, "", *table(in_parts(crate, module)[1])]


def items(crate: str, file: str, *names: str) -> list[str]:
    """Gives enums, structs and constants of a source file with their text."""
    path = f"../crates/{crate}/{file}"
    shown = ", ".join(f"`{name}`" for name in names)
    out = [f"### {shown} ([`{crate}`, {file}]({path}))", ""]
    text = []
    for name in names:
        text += [*read_item(crate, file, name), ""]
    return [*out, *fenced("rust", text[:-1]), ""]


# What becomes of a line of the order, by its mark.
GIVES: dict[str, Callable[..., list[str]]] = {
    FULL: believed_module, TABLE: module_table, OTHERS: others_table, ITEM: items}
MODULES = (FULL, TABLE, OTHERS)


def contents() -> list[str]:
    """Gives the chapters of the document with the modules of each."""
    out = ["## Contents", ""]
    lines = order_lines()
    for line in lines[lines.index(CONTENTS) + 1:]:
        if line.startswith("# "):
            out += ["", f"*{line[2:]}*", ""]
        elif line.startswith("## "):
            out.append(f"- [{line[3:]}](#{anchor(line[3:])}):")
        elif line.startswith(MODULES):
            mark, crate, module = line.split()
            words = OTHERS_OF if f"{mark} " == OTHERS else ""
            comma = "" if out[-1].endswith(":") else ","
            out[-1] += f"{comma} [{module}](#{anchor(f'{words}{module} ({crate})')})"
    return [*out, ""]


def is_there(line: str) -> bool:
    """Says whether the module is there that a line of the order names; so it is where it names
    none."""
    return not line.startswith(MODULES) or module_path(*line.split()[1:]).exists()


def given(lines: Sequence[str]) -> Iterator[str]:
    """Gives the lines that lines of the order become, no two blank ones in a row."""
    before = ""
    for line in lines:
        mark = next((mark for mark in GIVES if line.startswith(mark)), "")
        if mark and is_there(line):
            found = GIVES[mark](*line[len(mark):].split())
        elif line == CONTENTS:
            found = contents()
        else:
            found = [] if mark or line.startswith(PASSED) else [line]
        for one in "\n".join(found).split("\n") if found else ():
            if one or before:
                yield one
            before = one


def rendered() -> str:
    """Gives the whole document."""
    made = ("<!-- Made by `suite/documents make` of the definitions, in the order of"
            " docs/make/definitions.order. -->")
    title, *rest = given(order_lines())
    text = "\n".join([title, "", made, *rest]) + "\n"
    return text.replace(COUNT, f"{count_in(text):,}")


def first_lines(text: str) -> list[str]:
    """Gives the lines of part I of the document."""
    lines = text.split("\n")
    first, last = (next((at for at, line in enumerate(lines) if line.startswith(mark)), len(lines))
                   for mark in (FIRST, SECOND))
    return lines[first:last]


def count_in(text: str) -> int:
    """Counts the lines of part I, blank ones among them."""
    return len(first_lines(text))


def unplaced() -> Iterator[str]:
    """Says which modules, or words of one, stand nowhere in the order, and which stand there twice
    or are not there."""
    full, table_, others = placed(FULL), placed(TABLE), placed(OTHERS)
    where = "docs/make/definitions.order"
    for crate, module in all_modules():
        if (crate, module) not in full + table_:
            yield f"{crate}/specs/{module}.antt stands nowhere in {where}"
    for (crate, module), count in Counter(full + table_).items():
        if count > 1:
            yield f"{where} has {crate} {module} {count} times"
        if not module_path(crate, module).exists():
            yield f"{where} names {crate} {module}, which is not there"
    for crate, module in sorted({at for at in full + others if module_path(*at).exists()}):
        rested, left = in_parts(crate, module)
        wanted = ((crate, module) in full) * bool(left)
        if (crate, module) in full and not rested:
            yield f"{where} has {crate} {module} in part I, and nothing rests on it"
        if others.count((crate, module)) != wanted:
            yield (f"{where} has the other words of {crate} {module}"
                   f" {others.count((crate, module))} times, and needs them {int(wanted)} times")


def drifts() -> Iterator[str]:
    """Says where docs/DEFINITIONS.md and the definitions differ, and whether part I is too long."""
    yield from unplaced()
    text = rendered()
    if (count := count_in(text)) > MOST_LINES:
        yield f"part I of docs/DEFINITIONS.md has {count} lines, and may have {MOST_LINES}"
    wanted = text.split("\n")
    stands = TARGET.read_text(encoding="utf-8").split("\n") if TARGET.exists() else []
    if wanted != stands:
        at = next((i for i, (a, b) in enumerate(zip(wanted, stands)) if a != b), len(stands))
        near = next((w[4:] for w in reversed(wanted[: at + 1]) if w.startswith("### ")), "its head")
        yield (f"docs/DEFINITIONS.md drifts from the definitions, first at line {at + 1}, in"
               f" {near}: suite/documents make writes it anew")


def make() -> None:
    """Writes the document."""
    TARGET.write_text(rendered(), encoding="utf-8")
