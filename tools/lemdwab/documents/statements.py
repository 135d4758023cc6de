"""Makes docs/promises/statements-*.md: for each page of docs/promises the contracts that it has in
words, as they stand in src/."""

from __future__ import annotations

import re
from collections.abc import Iterator

from lemdwab.documents.claims import PAGES, STATEMENTS, pages, sections, told_of
from lemdwab.documents.functions import dedented
from lemdwab.documents.markdown import documents, read
from lemdwab.running import TOP, sure

MADE = "<!-- Made by `suite/documents make` of the contracts in src/. -->"
HEAD = """\
# {title}: the statements

{made}

The contracts that [{page}]({page}) has in words, as they stand in the source: the words of each
function and law, what it requires, and each clause of what it ensures.
[DEFINITIONS.md](../DEFINITIONS.md) has the words that they are made of.
"""


def name_for(page: str) -> str:
    """Names the page of the statements that a page has in words."""
    return page.replace(PAGES, STATEMENTS)


def contracts_of(crate: str) -> dict[str, list[str]]:
    """Gives the contracts of a crate under their names, those of one name together."""
    found: dict[str, list[str]] = {}
    for name, one in told_of(crate):
        text = "\n".join(line.rstrip() for line in dedented(one.text)).rstrip("\n;")
        found.setdefault(name, []).append(text)
    return found


def rendered(page: str) -> str:
    """Gives the whole page of the statements that a page has in words."""
    own = page.removeprefix(PAGES)
    title = sure(re.match(r"# (.*)", read(page)))[1]
    parts = [HEAD.format(title=title, made=MADE, page=own)]
    for crate, _ in sections(page):
        parts.append(f"## `{crate}`\n\n[In words]({own}#{crate})\n")
        for name, texts in contracts_of(crate).items():
            code = "\n\n".join(texts)
            parts.append(f"### `{name}`\n\n```rust\n{code}\n```\n")
    return "\n".join(parts)


def made() -> list[str]:
    """Lists the pages of statements that are there."""
    return [name for name in documents() if name.startswith(STATEMENTS)]


def unlinked(page: str) -> Iterator[str]:
    """Says under which heading of a page its statements are not linked."""
    own = name_for(page).removeprefix(PAGES)
    for crate, body in sections(page):
        if f"]({own}#{crate})" not in body:
            yield f"{page} does not link to {own}#{crate} under the heading of {crate}"


def drifts() -> Iterator[str]:
    """Says which pages of statements are not those of the contracts."""
    wanted = {name_for(page): rendered(page) for page in pages()}
    for name in sorted({*made(), *wanted}):
        if name not in wanted:
            yield f"{name} is there, and no page that has these statements in words"
        elif name not in made() or read(name) != wanted[name]:
            yield f"{name} drifts from the contracts: suite/documents make writes it anew"
    for page in pages():
        yield from unlinked(page)


def make() -> None:
    """Writes the pages, and takes away those that no page has in words."""
    wanted = {name_for(page): rendered(page) for page in pages()}
    for name in set(made()) - set(wanted):
        (TOP / name).unlink()
    for name, text in wanted.items():
        (TOP / name).write_text(text, encoding="utf-8")
