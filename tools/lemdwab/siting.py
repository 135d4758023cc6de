"""What suite/site looks for in a site: links that lead somewhere, laws that are reached, and
answers that are the program's. lemdwab.walking has what it looks for on a prover's walk."""

from __future__ import annotations

import json
import posixpath
import re
from collections.abc import Iterator
from html import unescape
from pathlib import Path
from typing import TYPE_CHECKING
from urllib.parse import unquote

from lemdwab import answers, running
from lemdwab import walking
from lemdwab.documents import carried, site_documents, site_laws, site_scripts
from lemdwab.documents.antt import USES, all_modules, module_path
from lemdwab.documents.functions import dedented
from lemdwab.documents.naming import spec_page

if TYPE_CHECKING:
    from lemdwab.running import Workers

TAG = re.compile(r"<(\w+)((?:\s+[\w-]+(?:=\"[^\"]*\")?)*)\s*/?>")
VALUE = re.compile(r"([\w-]+)=\"([^\"]*)\"")
LEADING = {"a": "href", "link": "href", "img": "src", "script": "src"}
FIRST = "index.html"
# How many faults of one kind are printed.
MOST = 10


class Page:
    """A page: its anchors, and its links as (tag, place, anchor), outer ones apart."""

    def __init__(self, place: str, text: str) -> None:
        self.place, self.text = place, text
        self.anchors: set[str] = set()
        self.links: list[tuple[str, str, str]] = []
        self.outer: list[tuple[str, str]] = []
        for tag, rest in TAG.findall(text):
            values = dict(VALUE.findall(rest))
            if "id" in values:
                self.anchors.add(unescape(values["id"]))
            link = values.get(LEADING.get(tag, ""))
            if link is not None:
                self.take(tag, unescape(link))

    def take(self, tag: str, link: str) -> None:
        """Takes a link, by the place to which it leads."""
        if re.match(r"[a-z]+:|//", link):
            self.outer.append((tag, link))
            return
        to, _, anchor = link.partition("#")
        folder = posixpath.dirname(self.place)
        place = posixpath.normpath(posixpath.join(folder, unquote(to))) if to else self.place
        self.links.append((tag, place, unquote(anchor)))


class Pages:
    """A site in a folder, which is read once."""

    def __init__(self, folder: Path) -> None:
        self.folder = Path(folder)
        self.files = {str(path.relative_to(self.folder)) for path in self.folder.rglob("*")
                      if path.is_file()}
        self.pages: dict[str, Page] = {}
        for place in sorted(self.files):
            if place.endswith(".html"):
                self.read(place)
        self.seen = self.reached()
        self.code, self.owner = codes(self)
        # The texts that trees fetch, by their files; lemdwab.walking reads them.
        self.fetched: dict[Path, dict[str, str]] = {}

    def read(self, place: str) -> None:
        """Reads a page."""
        text = (self.folder / place).read_text(encoding="utf-8")
        self.pages[place] = Page(place, text)

    def reached(self) -> set[str]:
        """Gives the places to which links lead from the start page."""
        seen, open_ = {FIRST}, [FIRST]
        while open_:
            page = self.pages.get(open_.pop())
            for _, place, _ in page.links if page else ():
                if place not in seen:
                    seen.add(place)
                    open_.append(place)
        return seen


# ---- links

def dead_links(site: Pages) -> Iterator[str]:
    """Says which links lead to no file or no anchor, and which want a network."""
    for page in site.pages.values():
        for tag, place, anchor in page.links:
            if place not in site.files:
                yield f"{page.place} links to {place}, which is not there"
            elif anchor and place in site.pages and anchor not in site.pages[place].anchors:
                yield f"{page.place} links to {place}#{anchor}, and there is no such place"
        for tag, link in page.outer:
            if tag != "a":
                yield f"{page.place} loads {link}"


def out_of_reach(site: Pages) -> Iterator[str]:
    """Says which pages no links lead to from the start page."""
    for place in sorted(set(site.pages) - site.seen):
        yield f"no links lead from the start page to {place}"


# ---- laws

def laws(site: Pages) -> Iterator[str]:
    """Says which sentence of README has no law, and which law is not reached from the start
    page."""
    claims, rows = site_documents.claims(), carried.proved()
    for sentence in claims:
        if not site_documents.carriers(sentence):
            yield f"docs/make/proved.txt has no row, or two, of README's '{sentence[:70]}'"
    for words, references in rows.items():
        if not any(one.removeprefix("- ").startswith(words) for one in claims):
            yield f"docs/make/proved.txt has a row '{words}', and README no such sentence"
        for reference in references:
            leads = site_documents.leads_to(reference)
            if leads is None:
                yield f"docs/make/proved.txt names {' '.join(reference)}, which is not there"
            else:
                yield from stands(site, leads[0], f"README's law {leads[1]}")
    for one in carried.all_functions():
        if one.is_law:
            yield from stands(site, site_laws.place_of(one), f"the law {one.name} of {one.crate}")


def stands(site: Pages, place: str, what: str) -> Iterator[str]:
    """Says where a place is not there, or no links lead to its page."""
    page, _, anchor = place.partition("#")
    if page not in site.pages or anchor and anchor not in site.pages[page].anchors:
        yield f"{what} has no place in the site"
    elif page not in site.seen:
        yield f"{what} is not reached from the start page"


def linked_sentences(site: Pages) -> Iterator[str]:
    """Says which sentence of README has no link to what carries it on the start page."""
    marks = "".join(re.findall(r'(?s)<sup class="laws">.*?</sup>', site.pages[FIRST].text))
    there = {(place, anchor) for _, place, anchor in Page(FIRST, marks).links}
    for sentence in site_documents.claims():
        for reference in site_documents.carriers(sentence):
            leads = site_documents.leads_to(reference)
            place, _, anchor = leads[0].partition("#") if leads else ("", "", "")
            if leads and (place, anchor) not in there:
                yield f"the start page has no link to {leads[1]}, of '{sentence[:60]}'"


# ---- lines

def shown_lines(page: Page) -> list[str]:
    """Gives the blocks of code of a page as text."""
    blocks = re.findall(r"(?s)<pre[^>]*>(.*?)</pre>", page.text)
    return [unescape(re.sub(r"<[^>]*>", "", block)) for block in blocks]


def whole_modules(site: Pages) -> Iterator[str]:
    """Says which module's page lacks a line of its definitions."""
    for crate, module in all_modules():
        page = site.pages.get(spec_page(crate, module))
        there = {line for block in shown_lines(page) for line in block.split("\n")} if page else ()
        for line in module_path(crate, module).read_text(encoding="utf-8").split("\n"):
            if line and not line.startswith(("--", *USES)) and line.rstrip() not in there:
                yield f"{spec_page(crate, module)} does not show the line {line}"


def whole_contracts(site: Pages) -> Iterator[str]:
    """Says which law or public call does not stand in the site as in its source."""
    shown = {}
    for one in carried.all_functions():
        place = site_laws.place_of(one).partition("#")[0]
        if place in site.pages and place not in shown:
            shown[place] = set(shown_lines(site.pages[place]))
        if "\n".join(dedented(one.text)) not in shown.get(place, ()):
            yield f"{place} does not show {one.called()} as its source has it"


def codes(site: Pages) -> tuple[dict[str, str], dict[str, str]]:
    """Gives the lines of each definition by its place, and of each place the definition that it is
    of, parts of it too."""
    code, owner = {}, {}
    for place, page in site.pages.items():
        if not place.startswith(("definitions/", "code/")):
            continue
        for name, lines in re.findall(r'(?s)<pre id="([^"]*)">(.*?)</pre>', page.text):
            at = f"{place}#{unescape(name)}"
            code[at] = lines
            owner[at] = at
            owner |= {f"{place}#{unescape(part)}": at
                      for part in re.findall(r'<a id="([^"]*)"></a>', lines)}
    return code, owner


# ---- sliders

def data_of(page: Page) -> list[list[int | str]] | None:
    """Gives the data of a slider; None where the page has none."""
    found = re.search(r'(?s)<script id="slides" type="application/json">(.*?)</script>', page.text)
    return json.loads(found[1]) if found else None


def answered(path: Path, workers: Workers) -> list[list[int | str]]:
    """Gives the lines of an example that have an answer, as the program answers them now: each with
    its number, its text and the answer; nothing where it fails."""
    command, _ = site_scripts.answering()
    script = path.read_bytes()
    ran = workers.submit(running.run, command, script, site_scripts.LONGEST,
                         answers.most_output(script)).result()
    running.check_started(ran, command)
    lines, said = answers.lines(script), answers.answers(ran.output)
    if ran.fault() or len(lines) != len(said):
        return []
    return [[line.number, line.text, one] for line, one in zip(lines, said)]


def sliders(site: Pages, workers: Workers) -> Iterator[str]:
    """Says which slider does not show what answers the program gives to the example."""
    for path in site_scripts.examples():
        page = site.pages.get(f"moves/{path.stem}.html")
        data = data_of(page) if page else None
        if not data:
            yield f"{path.name} has no slider"
            continue
        wanted, shown = answered(path, workers), [slide[:3] for slide in data]
        if shown != wanted:
            at = next((a for a, b in zip(shown, wanted) if a != b), shown[-1])
            yield f"the slider of {path.name} is not what the program answers, first at {at}"


# ---- all of it

def faults(site: Pages, workers: Workers) -> dict[str, list[str]]:
    """Gives all that is wrong with a site, by its kind."""
    return {"links": list(dead_links(site)), "reach": list(out_of_reach(site)),
            "laws": [*laws(site), *linked_sentences(site)],
            "lines": [*whole_modules(site), *whole_contracts(site)], **walking.faults(site),
            "sliders": list(sliders(site, workers))}


def tell(found: dict[str, list[str]]) -> int:
    """Prints what is wrong, the first few of each kind; gives how many there are."""
    for lines in found.values():
        for line in lines[:MOST]:
            print(line)
        if len(lines) > MOST:
            print(f".. and {len(lines) - MOST} more of this kind")
    return sum(map(len, found.values()))
