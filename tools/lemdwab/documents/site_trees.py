"""What laws, clauses and the theorem rest on, as lists of the site that unfold: each definition
with the first sentence of its comment and, unfolded, its text; down to words of libraries."""

from __future__ import annotations

import json
import re
from collections.abc import Sequence
from html import escape
from typing import TYPE_CHECKING

from lemdwab.documents import words
from lemdwab.documents.antt import prose
from lemdwab.documents.naming import all_definitions, meaning_of, rests_on
from lemdwab.documents.site_definitions import code_of, library_words, word_links
from lemdwab.documents.site_pages import WORDS, Prose, first_sentence, link, way, word_place

if TYPE_CHECKING:
    from lemdwab.documents.naming import Definition
    from lemdwab.documents.site_pages import Site

# Where the texts of a page's definitions stand for the trees of other pages, and what stands there
# before a place of the site.
TEXTS, ROOT = "texts", "^"
# The longest sentence beside a name.
MOST = 200


def tree(keys: tuple[str, ...]) -> dict[str, list[str]]:
    """Gives each definition that keys rest on below the one that names it first, breadth first:
    for each key the keys below it that stand there first."""
    definitions = all_definitions()
    level = [key for key in keys if key in definitions]
    below, seen = {}, set(level)
    while level:
        following = []
        for key in level:
            below[key] = [other for other in rests_on(key)
                          if other in definitions and other not in seen]
            seen |= set(below[key])
            following += below[key]
        level = following
    return below


def shown_comment(one: Definition) -> list[str]:
    """Gives a definition's comment as the lines of its prose."""
    return one.comment if one.is_item else prose(one.comment)


def beside(one: Definition) -> str:
    """Gives what stands beside a definition's name: the first sentence of its comment, or the
    heading under which it stands where it has no other."""
    lines = shown_comment(one)
    text = first_sentence([line for line in lines if not line.startswith("**")])
    text = text or " ".join(lines).replace("*", "").strip()
    return text if len(text) <= MOST else f"{text[:MOST].rpartition(' ')[0]} .."


def text_of(page: str, one: Definition) -> str:
    """Gives the text of a definition with its comment."""
    comment = Prose.of("\n".join(shown_comment(one)), page, meaning_of(one))
    return comment + code_of(page, one, ids=False)


class Tree:
    """What some keys rest on, as lists that unfold, down to words of libraries. With `has_code` the
    text of each definition stands in the page; else it is fetched as its row is unfolded."""

    def __init__(self, page: str, keys: tuple[str, ...], has_code: bool = False) -> None:
        self.page, self.has_code = page, has_code
        self.below = tree(keys)
        self.numbers = {key: number for number, key in enumerate(self.below)}
        self.keys = keys
        self.places = {escape(way(page, place)): f"#t{number}"
                       for key, number in self.numbers.items() if has_code
                       for place in places_of(all_definitions()[key])}

    def html(self) -> str:
        """Gives the tree as HTML."""
        return f'<ul class="tree">{self.rows(self.keys, self.keys)}</ul>'

    def rows(self, keys: tuple[str, ...], own: Sequence[str]) -> str:
        """Gives the rows of what something names: those that stand here first unfold."""
        definitions = all_definitions()
        found = "".join(self.row(key) for key in keys if key in own and key in definitions)
        again = [key for key in keys if key in definitions and key not in own]
        if again:
            names = " ".join(f'<a href="#t{self.numbers[key]}">{escape(definitions[key].name)}</a>'
                             for key in again)
            found += f'<li class="again">{names}</li>'
        ends = [key for key in keys if key not in definitions]
        return found + "".join(f'<li class="leaves">{one}</li>'
                               for one in word_links(self.page, ends))

    def row(self, key: str) -> str:
        """Gives one definition, with what it names below it."""
        one = all_definitions()[key]
        where = one.crate if one.is_item else f"{one.module} of {one.crate}"
        named_keys = rests_on(key)
        inner = self.rows(named_keys, self.below[key])
        is_open = " open" if self.has_code and key in self.keys else ""
        code = self.with_rows(text_of(self.page, one)) if self.has_code else ""
        head = f"<b>{escape(one.name)}</b> <small>{escape(beside(one))}</small>"
        at = f'<p class="at">{link(self.page, one.place, where)}</p>'
        rest = f"<ul>{inner}</ul>" if inner else '<p class="leaves">names nothing</p>'
        return (f'<li id="t{self.numbers[key]}"><details{is_open}><summary>{head}</summary>{at}'
                f'<div class="text">{code}</div>{rest}</details></li>')

    def with_rows(self, code: str) -> str:
        """Leads the names in a definition's text to their rows in this tree."""
        return re.sub(r'href="([^"]*)"',
                      lambda m: f'href="{self.places.get(m[1], m[1])}"', code)


def places_of(one: Definition) -> list[str]:
    """Gives the places of a definition and of its parts."""
    return [one.place, *(f"{one.place}.{member}" for member in one.members)]


# ---- the texts that trees fetch

def write_texts(site: Site) -> None:
    """Writes the texts of all definitions, as a script for each page that has some: trees of pages
    without a server can fetch nothing else."""
    of_pages: dict[str, dict[str, str]] = {}
    for one in all_definitions().values():
        page, _, name = one.place.partition("#")
        text = re.sub(r'href="', f'href="{ROOT}', text_of("", one))
        of_pages.setdefault(page, {})[name] = text
    for page, texts in of_pages.items():
        data = json.dumps({page: texts}, ensure_ascii=False).replace("<", "\\u003c")
        place = f"{TEXTS}/{page.removesuffix('.html')}.js"
        site.files[place] = f"takes({data});\n".encode()


# ---- the words of libraries

def words_page(site: Site) -> None:
    """Writes the page of the words of libraries."""
    body = ["<h1>Words of the standard library</h1>",
            '<p class="note">Each tree of definitions ends in these words: of the toolchain\'s'
            " standard library <code>std</code>, and of libraries that are ported to it. A row says"
            " how a word is written, what it means, and in which module of the toolchain its own"
            " definition stands. That they mean this is trusted: this project defines none of"
            " them.</p>"]
    of_libraries: dict[str, list[str]] = {}
    for key, word in words.rows().items():
        name = escape(word_place(key).partition("#")[2])
        of_libraries.setdefault(word.library, []).append(
            f'<tr id="{name}"><td><code>{escape(word.written)}</code></td>'
            f"<td>{told(word.meaning)}</td>"
            f"<td><code>{word.library}.specs.{words.module_of(key)}</code></td></tr>")
    for of in sorted(of_libraries, key=lambda one: (one != "std", one)):
        rows = "".join(of_libraries[of])
        name = library_words(of)
        body.append(f"<h2>{name[0].upper()}{name[1:]}</h2>\n<table><thead><tr><th>Word</th>"
                    f"<th>What it means</th><th>Module</th></tr></thead><tbody>{rows}</tbody>"
                    "</table>")
    site.write(WORDS, "Words of the standard library", "\n".join(body),
               "docs/DEFINITIONS.html")


def told(meaning: str) -> str:
    """Gives a sentence as HTML, with what it has as code."""
    return re.sub(r"`([^`]*)`", r"<code>\1</code>", escape(meaning, quote=False))


def make(site: Site) -> None:
    """Writes the texts that trees fetch, and the page of the words of libraries."""
    write_texts(site)
    words_page(site)
