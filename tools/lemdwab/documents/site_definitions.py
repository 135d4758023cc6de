"""The pages of the site on definitions: a page a module, a page for the items of each crate, the
definitions by chapters, and an index of names."""

from __future__ import annotations

from collections.abc import Callable, Iterator, Sequence
from functools import partial
from html import escape
from typing import TYPE_CHECKING

from lemdwab.documents.antt import all_modules, prose, read_module
from lemdwab.documents.carried import in_parts
from lemdwab.documents.definitions import COUNT, OTHERS_OF, TARGET, count_in
from lemdwab.documents.markdown import anchor
from lemdwab.documents.naming import (all_definitions, blocks, code_page, crates, defined,
                                      item_blocks, items, meaning_of, meaning_of_file,
                                      meaning_of_module, rests_on, spec_page)
from lemdwab.documents.order import (CONTENTS, FULL, ITEM as PLACED_ITEM, OTHERS, PASSED, TABLE,
                                     order_lines)
from lemdwab.documents.site_pages import (Prose, first_sentence, link, linked_code, pandoc,
                                          shown_file, word_place)
from lemdwab.documents.words import shown

if TYPE_CHECKING:
    from lemdwab.documents.functions import Function
    from lemdwab.documents.naming import Definition
    from lemdwab.documents.site_pages import Site

DEFINITIONS = "docs/DEFINITIONS.html"


def comments() -> Iterator[str]:
    """Lists all comments that are prose of pages here."""
    for crate, module in all_modules():
        head, groups, _ = read_module(crate, module)
        yield "\n".join(head)
        for group in groups:
            yield "\n".join(prose(group.comment))
    for crate in crates():
        for one in items(crate):
            yield "\n".join(one.comment)


def links(page: str, keys: list[str]) -> str:
    """Gives keys of definitions and of words of libraries as links."""
    definitions = all_definitions()
    found = [link(page, definitions[key].place, escape(definitions[key].name))
             for key in keys if key in definitions]
    found += [f'<span class="leaves">{one}</span>'
              for one in word_links(page, [key for key in keys if key not in definitions])]
    return ", ".join(found)


def word_links(page: str, keys: Sequence[str]) -> list[str]:
    """Gives words of libraries as links to what they mean, those of each library after its name."""
    of_libraries: dict[str, list[str]] = {}
    for key in keys:
        of, _, name = key.partition(" ")
        of_libraries.setdefault(of, []).append(link(page, word_place(key), escape(shown(name))))
    return [f"{library_words(of)}: {' '.join(found)}" for of, found in of_libraries.items()]


def library_words(of: str) -> str:
    """Says in words what a name comes from that is no definition here."""
    return "the standard library" if of == "std" else f"the library {escape(of)}"


def around(page: str, one: Definition, namers: dict[str, list[str | tuple[str, str]]]) -> str:
    """Gives what a definition names and what names it, folded."""
    parts = []
    for words, keys in (("rests on", rests_on(one.key)), ("is named by", namers.get(one.key, ()))):
        if keys:
            parts.append(f"<details><summary>{words} {len(keys)}</summary>"
                         f"<p>{named_by(page, keys)}</p></details>")
    return f'<div class="around">{"".join(parts)}</div>' if parts else ""


def named_by(page: str, keys: Sequence[str | tuple[str, str]]) -> str:
    """Gives what names a definition as links: definitions by their keys, laws and calls by their
    places and names."""
    others = [link(page, key[0], escape(key[1]), "law") for key in keys if isinstance(key, tuple)]
    own = links(page, [key for key in keys if not isinstance(key, tuple)])
    return ", ".join(part for part in (own, *others) if part)


def code_of(page: str, one: Definition, ids: bool = True) -> str:
    """Gives a definition's lines with links."""
    cut = item_blocks(one.lines) if one.is_item else blocks(one.lines)
    html = "\n".join(linked_code(block, meaning_of(one), page, one.place) for block in cut)
    name = escape(one.place.partition("#")[2], quote=True)
    if ids:
        marks = "".join(f'<a id="{name}.{escape(part)}"></a>' for part in one.members)
        return f'<pre id="{name}">{marks}{html.rstrip()}</pre>'
    return f"<pre>{html.rstrip()}</pre>"


def module_page(site: Site, crate: str, module: str,
                namers: dict[str, list[str | tuple[str, str]]]) -> None:
    """Writes the page of a module."""
    page = spec_page(crate, module)
    head, groups, _ = read_module(crate, module)
    meaning = meaning_of_module(crate, module)
    by_head = {one.lines[0]: one for one in defined(crate, module)}
    source = link(page, f"docs/DEFINITIONS.html#{anchor(f'{module} ({crate})')}", "Definitions")
    body = [f'<p class="path">{source} / {crate}</p>', f"<h1>{module}</h1>",
            Prose.of("\n".join(head), page, meaning)]
    for group in groups:
        body.append(Prose.of("\n".join(prose(group.comment)), page, meaning))
        for line in group.code:
            if line in by_head:
                one = by_head[line]
                body += ['<section class="one">', code_of(page, one),
                         around(page, one, namers), "</section>"]
            elif line.startswith("infix"):
                body.append(f"<pre>{escape(line)}</pre>")
    site.write(page, f"{module} of {crate}", "\n".join(body), DEFINITIONS)


def items_page(site: Site, crate: str, namers: dict[str, list[str | tuple[str, str]]]) -> None:
    """Writes the page of the items of a crate, folded by file."""
    page = code_page(crate)
    body = [f'<p class="path">{link(page, DEFINITIONS, "Definitions")} / {crate}</p>',
            f"<h1>Enums, structs, constants and traits of {crate}</h1>",
            "<p>What definitions and contracts name of the code, as it stands in <code>src/</code>,"
            " in Rattle. Of a struct that contracts see by a model, the model stands below it.</p>"]
    for file in dict.fromkeys(one.module for one in items(crate)):
        stem = shown_file(crate, file).partition("#")[2]
        own = [one for one in items(crate) if one.module == file]
        body.append(f'<details open id="{stem}"><summary>{file}</summary>')
        for one in own:
            body += ['<section class="one">',
                     Prose.of("\n".join(one.comment), page, meaning_of_file(crate, file)),
                     code_of(page, one), around(page, one, namers), "</section>"]
        body.append("</details>")
    site.write(page, f"Items of {crate}", "\n".join(body), DEFINITIONS)


# ---- by chapters

def folded(crate: str, module: str, names: Sequence[str], words: str = "") -> str:
    """Gives some names of a module as one line that unfolds, with words before its name: what its
    comment says, and the names."""
    head = read_module(crate, module)[0]
    page = spec_page(crate, module)
    own = ", ".join(link(DEFINITIONS, one.place, escape(one.name))
                    for one in defined(crate, module) if one.name in names)
    return (f'<details class="module" id="{anchor(f"{words}{module} ({crate})")}"><summary>'
            f"{link(DEFINITIONS, page, words + module)} <small>{crate}:"
            f" {escape(first_sentence(head))}</small></summary>"
            f"{Prose.of(chr(10).join(head))}<p>{own}</p></details>")


def folded_whole(crate: str, module: str) -> str:
    """Gives a module of part II."""
    return folded(crate, module, [one.name for one in defined(crate, module)])


def folded_part(crate: str, module: str, at: int, words: str = "") -> str:
    """Gives what part I has of a module, or what it leaves out."""
    return folded(crate, module, [name for group in in_parts(crate, module)[at]
                                  for name in group.names()], words)


def placed_items(crate: str, file: str, *names: str) -> str:
    """Gives links to items, and the anchor that the document has for them."""
    shown = ", ".join(link(DEFINITIONS, f"{shown_file(crate, file)}.{name}", name)
                      for name in names)
    of = anchor(", ".join(names) + f" ({crate}, {file})")
    return f'<p id="{of}">{shown} <small>{crate}, {file}</small></p>'


def by_chapters(site: Site) -> None:
    """Writes the definitions by chapters, in the order in which they are read."""
    body: list[str] = []
    text: list[str] = []
    gives: list[tuple[str, Callable[..., str]]] = [
        (TABLE, folded_whole), (FULL, partial(folded_part, at=0)), (PLACED_ITEM, placed_items),
        (OTHERS, partial(folded_part, at=1, words=OTHERS_OF))]
    count = count_in(TARGET.read_text(encoding="utf-8"))

    def said() -> None:
        html = pandoc("\n".join(text)) if "".join(text).strip() else ""
        body.append(site.linked(html, "docs/DEFINITIONS.md", DEFINITIONS))
        text.clear()

    for line in order_lines():
        for mark, give in gives:
            if line.startswith(mark):
                said()
                body.append(give(*line[len(mark):].split()))
                break
        else:
            if not line.startswith(PASSED) and line != CONTENTS:
                text.append(line.replace(COUNT, f"{count:,}"))
    said()
    code = ", ".join(link(DEFINITIONS, code_page(crate), crate) for crate in crates()
                     if items(crate))
    body.append(f"<h2>What stands in the code</h2>\n<p>{code}</p>")
    site.write(DEFINITIONS, "The definitions", "\n".join(body))


# ---- names

def names_page(site: Site, functions: list[tuple[Function, str]]) -> None:
    """Writes the index of names, folded by their first letter."""
    found = []
    for one in all_definitions().values():
        found.append((one.name, one.place, one.module if not one.is_item else one.crate))
        found += [(part, f"{one.place}.{part}", one.name) for part in one.members]
    found += [(one.called(), place, f"{one.crate}, {'law' if one.is_law else 'call'}")
              for one, place in functions]
    letters: dict[str, list[str]] = {}
    for name, place, of in sorted(found, key=lambda row: (row[0].lower(), row)):
        letter = name[0].upper() if name[0].isalpha() else "operators"
        letters.setdefault(letter, []).append(
            f'<li>{link("names.html", place, escape(name))} <small>{escape(of)}</small></li>')
    body = ["<h1>Names</h1>", "<p>Every definition, each part and form of one, each law and each"
            " public call.</p>", '<p><input id="find" type="search" placeholder="part of a name"'
            ' aria-label="part of a name"></p>']
    for letter, rows in letters.items():
        body.append(f'<details class="letter"><summary>{letter} <small>{len(rows)}</small>'
                    f'</summary><ul class="names">{"".join(rows)}</ul></details>')
    site.write("names.html", "Names", "\n".join(body))


def namers_of(functions: list[tuple[Function, str, tuple[str, ...]]]
              ) -> dict[str, list[str | tuple[str, str]]]:
    """Gives what names each definition: keys of definitions, and places and names of functions."""
    found: dict[str, list[str | tuple[str, str]]] = {}
    for key in all_definitions():
        for named_key in rests_on(key):
            found.setdefault(named_key, []).append(key)
    for one, place, keys in functions:
        for key in keys:
            found.setdefault(key, []).append((place, one.called()))
    return found


def make(site: Site, functions: list[tuple[Function, str, tuple[str, ...]]]) -> None:
    """Writes all pages of definitions; functions are the laws and calls, each with its place and
    the keys of what its clauses name."""
    namers = namers_of(functions)
    for crate, module in all_modules():
        module_page(site, crate, module, namers)
    for crate in crates():
        if items(crate):
            items_page(site, crate, namers)
    by_chapters(site)
    names_page(site, [(one, place) for one, place, _ in functions])
