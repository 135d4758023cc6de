"""What the pages of the site share: their frame, prose made of Markdown, code with links, and where
a file of the repository stands in the site."""

from __future__ import annotations

import posixpath
import re
import shutil
import subprocess
from collections.abc import Sequence
from functools import cache, partial
from html import escape, unescape
from pathlib import Path
from typing import TYPE_CHECKING

from lemdwab.documents.markdown import documents
from lemdwab.documents.naming import code_page, named, spec_page
from lemdwab.running import TOP

if TYPE_CHECKING:
    from lemdwab.documents.naming import Meaning

ASSETS = ("site.css", "site.js")
# The page of the words of libraries.
WORDS = "words.html"
# What stands at the head of each page: places with their names.
ROAD = (("index.html", "Start"), ("theorem.html", "The theorem"), ("laws/index.html", "Laws"),
        ("calls/index.html", "Calls"), ("docs/DEFINITIONS.html", "Definitions"),
        ("names.html", "Names"), ("moves/index.html", "Moves"), ("peers.html", "Peers"),
        ("docs/README.html", "Documents"))
# How Markdown is read: as the forge of the repository reads it, without HTML of its own.
PANDOC = ("pandoc", "--from", "gfm-raw_html", "--to", "html5", "--wrap", "preserve",
          "--columns", "100000", "--no-highlight")
LONGEST = 120
# How a text is cut from the next one where many are made at once.
CUT = "the-text-{}-of-the-site-begins-here"
PICTURES = (".svg", ".png")


class Site:
    """The site that is made: its files, by their places in it, until all are written at once."""

    def __init__(self) -> None:
        self.files: dict[str, bytes] = {}

    def write(self, place: str, title: str, body: str, where: str = "") -> None:
        """Writes a page; `where` is the place at its head that it belongs to."""
        up = "../" * place.count("/")
        road = "".join(
            f'<a href="{up}{at}"{" class=here" if at == (where or place) else ""}>{name}</a>'
            for at, name in ROAD)
        text = (f'<!doctype html>\n<html lang="en">\n<head>\n<meta charset="utf-8">\n'
                f'<meta name="viewport" content="width=device-width, initial-scale=1">\n'
                f"<title>{escape(title)} - Lemdwab</title>\n"
                f'<link rel="stylesheet" href="{up}site.css">\n'
                f'<script src="{up}site.js" defer></script>\n</head>\n<body>\n'
                f"<nav>{road}</nav>\n<main>\n{body}\n</main>\n</body>\n</html>\n")
        self.files[place] = text.encode()

    def put(self, folder: Path) -> None:
        """Writes all files into a folder."""
        for place, data in self.files.items():
            path = folder / place
            path.parent.mkdir(parents=True, exist_ok=True)
            path.write_bytes(data)

    def place_of(self, path: str) -> str | None:
        """Gives the place of a file of the repository in the site, which is written for it where it
        has no page of its own; None where there is no such file."""
        found = re.fullmatch(r"crates/(\w+)/specs/(\w+)\.antt", path)
        if found and found[2] != "Lib":
            return spec_page(*found.groups())
        if path in known() or path in ("LICENSE", "NOTICE"):
            return document_page(path)
        if not (TOP / path).is_file():
            return None
        place = path if path.endswith(PICTURES) else f"files/{path}.html"
        if place not in self.files:
            self.copy(path, place)
        return place

    def copy(self, path: str, place: str) -> None:
        """Writes a file of the repository: a picture as it is, and else a page with its text."""
        data = (TOP / path).read_bytes()
        if path.endswith(PICTURES):
            self.files[place] = data
            return
        text = data.decode("utf-8", errors="replace")
        self.write(place, path, f"<h1>{escape(path)}</h1>\n<pre>{escape(text, quote=False)}</pre>")

    def linked(self, html: str, path: str, page: str) -> str:
        """Leads the links of a document's HTML to the site's pages."""
        def leads(match: re.Match[str]) -> str:
            link = unescape(match[2])
            if re.match(r"[a-z]+:", link):
                return match[0]
            to, _, anchor = link.partition("#")
            if not to:
                return match[0]
            there = posixpath.normpath(posixpath.join(posixpath.dirname(path), to))
            place = self.place_of(there)
            if place is None:
                return match[0]
            return f'{match[1]}="{escape(way(page, place, anchor))}"'
        return re.sub(r'\b(href|src)="([^"]*)"', leads, html)


@cache
def known() -> frozenset[str]:
    """Gives the documents of the repository, which are listed once."""
    return frozenset(documents())


def document_page(path: str) -> str:
    """Gives the place of a document."""
    return "index.html" if path == "README.md" else f"{path.removesuffix('.md')}.html"


@cache
def between(page: str, place: str) -> str:
    """Gives the way from a page to another one, or to itself."""
    return "" if place == page else posixpath.relpath(place, posixpath.dirname(page) or ".")


def way(page: str, place: str, anchor: str = "") -> str:
    """Gives the way from a page to a place."""
    place, _, inner = place.partition("#")
    anchor, to = anchor or inner, between(page, place)
    return f"{to}#{anchor}" if anchor else to or posixpath.basename(place)


def link(page: str, place: str, words: str, kind: str = "") -> str:
    """Gives a link from a page to a place, of words that are HTML already."""
    of = f' class="{kind}"' if kind else ""
    return f'<a{of} href="{escape(way(page, place))}">{words}</a>'


def word_place(key: str) -> str:
    """Gives the place of a word of a library."""
    return f"{WORDS}#{key.replace(' ', '.')}"


# ---- prose

def pandoc(text: str) -> str:
    """Gives Markdown as HTML."""
    try:
        ran = subprocess.run(PANDOC, input=text, capture_output=True, text=True, timeout=LONGEST,
                             encoding="utf-8")
    except subprocess.TimeoutExpired:
        raise SystemExit(f"pandoc took more than {LONGEST} seconds") from None
    if ran.returncode:
        raise SystemExit(f"pandoc ended with status {ran.returncode}: {ran.stderr[:300]}")
    return ran.stdout


class Prose:
    """Comments as HTML, each made once, all of them at one time."""

    made: dict[str, str] = {}

    @classmethod
    def make(cls, texts: list[str]) -> None:
        """Makes many texts."""
        texts = list(dict.fromkeys(text for text in texts if text and text not in cls.made))
        whole = "".join(f"\n\n{CUT.format(i)}\n\n{text}\n" for i, text in enumerate(texts))
        cut = re.split(rf"<p>{CUT.format('[0-9]+')}</p>\n?", pandoc(whole))
        if len(cut) != len(texts) + 1:
            raise SystemExit(f"{len(texts)} comments became {len(cut) - 1} pieces of HTML")
        cls.made |= dict(zip(texts, cut[1:]))

    @classmethod
    def of(cls, text: str, page: str = "", meaning: Meaning | None = None) -> str:
        """Gives a text as HTML; names that it has as code lead to where they are defined."""
        html = cls.made.get(text, "") if text else ""
        if meaning is None:
            return html
        html = re.sub(r"\[(<code>[^<]*</code>)\]", r"\1", html)
        lead = partial(named_code, page=page, meaning=meaning)
        return re.sub(r"<code>([^<\s]*)</code>", lead, html)


def named_code(match: re.Match[str], page: str, meaning: Meaning) -> str:
    """Gives a name in a comment with a link, if it is one that leads somewhere."""
    leads, length = meaning.of(unescape(match[1]))
    if leads and leads.place and length == len(unescape(match[1])):
        return link(page, leads.place, match[0])
    return match[0]


def prepared() -> bool:
    """Says whether the package is there that makes HTML."""
    return shutil.which("pandoc") is not None


# ---- code

def linked_code(block: str, meaning: Meaning, page: str, own: str = "") -> str:
    """Gives a block of code as HTML, each name with a link to where it is defined; those of the
    definition itself stay plain."""
    found, at = [], 0
    for first, length, leads in sorted(named(block, meaning)):
        found.append(escape(block[at:first], quote=False))
        words = escape(block[first:first + length], quote=False)
        if leads.place and leads.place != own:
            words = link(page, leads.place, words)
        elif not leads.place:
            words = link(page, word_place(leads.key), words, "word")
        found.append(words)
        at = first + length
    found.append(escape(block[at:], quote=False))
    return shaded("".join(found))


def shaded(html: str) -> str:
    """Marks the comments in a block of code."""
    return re.sub(r"(?m)((?:^|(?<=\s))(?://|--).*)$", r'<span class="said">\1</span>', html)


def first_sentence(lines: Sequence[str]) -> str:
    """Gives the first sentence of a comment, as plain text."""
    text = " ".join(line[2:].strip() if line.startswith("--") else line for line in lines
                    if not line.startswith("-- ----"))
    return re.split(r"(?<=\.) ", text, maxsplit=1)[0].rstrip(".").replace("`", "")


def shown_file(crate: str, file: str) -> str:
    """Gives the page that shows the items of a source file, with its anchor."""
    stem = file.removeprefix("src/").removesuffix(".rt").replace("/", ".")
    return f"{code_page(crate)}#{stem}"
