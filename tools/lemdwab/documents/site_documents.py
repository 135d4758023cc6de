"""The pages of the site that are documents of the repository: README, whose sentences on what is
proved lead to their laws and clauses, and all others."""

from __future__ import annotations

import re
from collections.abc import Iterator
from html import escape, unescape
from typing import TYPE_CHECKING

from lemdwab.documents import carried
from lemdwab.documents.carried import all_functions
from lemdwab.documents.markdown import documents, read, section
from lemdwab.documents.naming import all_definitions
from lemdwab.documents.site_definitions import DEFINITIONS
from lemdwab.documents.site_laws import anchor_of, place_of
from lemdwab.documents.site_pages import document_page, link, pandoc
from lemdwab.documents.site_theorem import THEOREM
from lemdwab.running import TOP

if TYPE_CHECKING:
    from lemdwab.documents.site_pages import Site

README, HEADING = "README.md", "What is proved"
# What follows the sentences that something carries.
PAST = "**What it does not say"
PLAIN = ("LICENSE", "NOTICE")
MARK = "the-laws-of-sentence-{}-stand-here"


def plain(text: str) -> str:
    """Gives a text without the marks of Markdown."""
    text = re.sub(r"\[([^\]]*)\]\([^)]*\)", r"\1", text)
    return " ".join(re.sub(r"[*`]", "", text).split())


def sentences(text: str) -> Iterator[list[str]]:
    """Cuts a text into its paragraphs and points, and each of these into its sentences."""
    for part in re.split(r"\n\s*\n|\n(?=- )", text.strip()):
        line = " ".join(part.split())
        yield re.sub(r"([.:]\*{0,2}) ", "\\1\n", line).split("\n") if line else []


def claims() -> list[str]:
    """Lists the sentences of README on what is proved, as plain text: those before it says what is
    not."""
    proved_, _, _ = section(README, HEADING).partition(f"\n{PAST}")
    return [plain(one) for part in sentences(proved_) for one in joined(part)]


def joined(pieces: list[str]) -> list[str]:
    """Joins pieces that belong to one sentence: what follows a colon, or begins with no capital."""
    found: list[str] = []
    for piece in pieces:
        begins = plain(piece).lstrip("- ")[:1]
        if found and (found[-1].rstrip("*").endswith(":") or not (begins.isupper() or not begins)):
            found[-1] += f" {piece}"
        else:
            found.append(piece)
    return found


def carriers(sentence: str) -> list[tuple[str, ...]]:
    """Gives the references of a sentence; nothing where none is named."""
    rows = [rest for words, rest in carried.proved().items()
            if sentence.removeprefix("- ").startswith(words)]
    return rows[0] if len(rows) == 1 else []


def leads_to(reference: tuple[str, ...]) -> tuple[str, str] | None:
    """Gives the place that a reference names, with its name: `crate function [clause]`, or
    `crate Module name` of a definition, or `theorem`; None where it names nothing."""
    if reference == ("theorem",):
        return THEOREM, "the theorem"
    crate, name, *rest = reference
    for one in all_functions():
        if one.crate == crate and one.called() == name:
            if not rest:
                return place_of(one), name
            if rest[0] in {clause.name for clause in one.clauses()}:
                place = place_of(one).partition("#")[0]
                return f"{place}#{anchor_of(one)}.{rest[0]}", f"{name}: {rest[0]}"
    key = " ".join(reference)
    if key in all_definitions():
        return all_definitions()[key].place, rest[0]
    return None


class Notes:
    """What README's sentences lead to, numbered."""

    def __init__(self) -> None:
        self.numbers: dict[tuple[str, str], int] = {}

    def marks(self, sentence: str) -> str:
        """Gives the links behind a sentence."""
        found = []
        for reference in carriers(plain(sentence)):
            leads = leads_to(reference)
            if leads:
                number = self.numbers.setdefault(leads, len(self.numbers) + 1)
                found.append(f'<a href="{escape(leads[0])}" title="{escape(leads[1])}">'
                             f"{number}</a>")
        return f'<sup class="laws">{" ".join(found)}</sup>' if found else ""

    def listed(self) -> str:
        """Lists all of them."""
        rows = "".join(f'<li>{link("index.html", place, escape(name))}</li>'
                       for place, name in self.numbers)
        return (f'<details class="notes" open><summary>The laws and clauses behind these sentences'
                f"</summary><ol>{rows}</ol></details>")


def start_page(site: Site) -> None:
    """Writes the start page: README, with what its sentences on what is proved rest on."""
    text, notes, marks = without_comments(read(README)), Notes(), []
    whole = section(README, HEADING)
    parts = []
    for part in sentences(whole):
        pieces = []
        for sentence in joined(part):
            marks.append(notes.marks(sentence))
            pieces.append(f"{sentence} {MARK.format(len(marks) - 1)}")
        parts.append(" ".join(pieces))
    marked = re.sub(r"\n\n(?=- )", "\n", "\n\n".join(parts)).replace("\n- ", "\n- ")
    html = pandoc(text.replace(whole, f"\n{marked}\n\nthe-notes-stand-here\n\n"))
    html = re.sub(r"\s*" + MARK.format("([0-9]+)"), lambda m: marks[int(m[1])], html)
    html = html.replace("<p>the-notes-stand-here</p>", notes.listed())
    site.write("index.html", "Lemdwab", site.linked(html, README, "index.html"))


def without_comments(text: str) -> str:
    """Gives a document without its comments."""
    return re.sub(r"(?s)<!--.*?-->", "", text)


# ---- names of laws, calls and clauses in documents

def with_laws(html: str, page: str) -> str:
    """Gives the HTML of a document with a link at each name of a law that stands in it as code."""
    laws = {one.name: one for one in all_functions() if one.is_law}

    def leads(match: re.Match[str]) -> str:
        one = laws.get(match[1].split("::")[-1])
        return link(page, place_of(one), match[0]) if one else match[0]
    return re.sub(r"<code>([\w:]+)</code>(?!</a>)", leads, html)


def with_calls(html: str, page: str) -> str:
    """Gives the HTML of a page of docs/promises with links at functions and clauses: the crate is
    that of the heading above."""
    found = []
    for part in re.split(r"(?=<h2)", html):
        heading = re.match(r"<h2[^>]*><code>(\w+)</code>", part)
        found.append(with_rows(part, page, heading[1]) if heading else part)
    return "".join(found)


def with_rows(html: str, page: str, crate: str) -> str:
    """Gives the rows of a crate's tables with links at functions and their clauses."""
    of = {name: one for one in all_functions() if one.crate == crate
          for name in (one.called(), one.name, f"{one.module()}::{one.called()}")}
    now = []

    def function(match: re.Match[str]) -> str:
        one = of.get(re.sub(r"\(.*", "", unescape(match[1])))
        if one:
            now.append(one)
        return link(page, place_of(one), match[0]) if one else match[0]

    def clause(match: re.Match[str]) -> str:
        one = next((one for one in now if match[1] in {c.name for c in one.clauses()}), None)
        if not one:
            return match[0]
        place = place_of(one).partition("#")[0]
        return link(page, f"{place}#{anchor_of(one)}.{match[1]}", match[0])

    def row(match: re.Match[str]) -> str:
        cells = re.split(r"(?=<td)", match[0])
        if "<code>" in cells[1]:
            now.clear()
            cells[1] = re.sub(r"<code>([^<]*)</code>", function, cells[1])
        if len(cells) > 2:
            cells[2] = re.sub(r"<code>([^<]*)</code>", clause, cells[2])
        return "".join(cells)
    return re.sub(r"(?s)<tr[^>]*>\s*<td.*?</tr>", row, html)


def document(site: Site, path: str) -> None:
    """Writes the page of a document."""
    page = document_page(path)
    html = pandoc(without_comments(read(path)))
    if path.startswith("docs/promises/"):
        html = with_calls(html, page)
    if path == "docs/PEERS.md":
        html = re.sub(r"(?s)(?<=<td>)(.*?)(?=</td>)", lambda m: with_scripts(m[0], page), html)
    html = with_laws(site.linked(html, path, page), page)
    if path == "docs/README.md":
        html += others(page)
    title = re.search(r"<h1[^>]*>(.*?)</h1>", html)
    site.write(page, unescape(re.sub(r"<[^>]*>", "", title[1])) if title else path, html,
               "docs/README.html")


def with_scripts(html: str, page: str) -> str:
    """Gives a cell of docs/PEERS.md with links at least scripts."""
    def leads(match: re.Match[str]) -> str:
        is_there = any((TOP / f"peers/{peer}/known/{match[1]}.script").exists()
                       for peer in ("qemu", "kvm"))
        return link(page, f"peers.html#{match[1]}", match[0]) if is_there else match[0]
    return re.sub(r"<code>([\w-]+)</code>", leads, html)


def others(page: str) -> str:
    """Lists the documents that stand outside docs/."""
    found = ["README.md", "CHANGELOG.md", *PLAIN]
    found += [name for name in documents() if "/" in name and not name.startswith("docs/")]
    rows = ", ".join(link(page, document_page(name), escape(name)) for name in found)
    return f"\n<h2>Outside this folder</h2>\n<p>{rows}</p>\n"


def make(site: Site) -> None:
    """Writes all documents but docs/DEFINITIONS.md, which has pages of its own."""
    start_page(site)
    for path in documents():
        if document_page(path) not in ("index.html", DEFINITIONS):
            document(site, path)
    for path in PLAIN:
        text = (TOP / path).read_text(encoding="utf-8")
        site.write(document_page(path), path, f"<pre>{escape(text)}</pre>", "docs/README.html")
