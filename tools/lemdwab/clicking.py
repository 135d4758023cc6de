"""What suite/site looks for in a browser: links of each page that lead somewhere, the laws of
README reached by clicks, trees that unfold down to their ends, and sliders that show the
answers."""

from __future__ import annotations

import time
from collections.abc import Iterator
from pathlib import Path
from typing import TYPE_CHECKING, Any
from urllib.parse import unquote, urlsplit

from lemdwab import siting
from lemdwab.browsing import Browser
from lemdwab.documents import site_documents, site_scripts
from lemdwab.documents.site_theorem import THEOREM

if TYPE_CHECKING:
    from lemdwab.running import Workers
    from lemdwab.siting import Pages

# How long all of it may take, in seconds.
LONGEST = 600
# The pages that are looked at on a small screen, in light and dark.
LAW, SLIDER = "laws/aia_laws/no_notice_is_lost.html", "moves/stores-in-flight.html"
FITTING = ("index.html", THEOREM, LAW, SLIDER, "names.html", "peers.html", "words.html",
           "lines.html")
# How often a row is looked at until its text is there, a tenth of a second apart.
SHOWN = 50
# What a page says of itself: where its links and what it loads lead, and its places.
LINKS = """(() => [[...new Set([...document.querySelectorAll(
    'a[href], link[href], script[src], img[src]')].map((one) => one.href || one.src))],
  [...document.querySelectorAll('[id]')].map((one) => one.id)])()"""
# Unfolds a tree by a click on each of its rows, which fetch no texts then, and says what is wrong
# with it.
UNFOLD = """(() => {
  const tree = document.querySelector('.tree');
  if (!tree) return null;
  tree.addEventListener('click', (event) => event.stopPropagation());
  for (const fold of tree.querySelectorAll('details'))
    if (!fold.open) fold.querySelector(':scope > summary').click();
  const wrong = [];
  // The list of what a row names stands last in it; one before that is of its comment.
  const rows = document.querySelectorAll('.tree > li, .tree details > ul:last-child > li');
  for (const row of rows) {
    const fold = row.querySelector(':scope > details');
    const name = row.textContent.trim().slice(0, 40);
    if (row.offsetHeight === 0) wrong.push(`${name} is not seen`);
    else if (!fold && !row.matches('.again, .leaves')) wrong.push(`${name} does not unfold`);
    else if (fold && !fold.open) wrong.push(`${name} stays folded`);
    else if (fold && !fold.querySelector(':scope > ul > li, :scope > .leaves'))
      wrong.push(`${name} has nothing below it`);
  }
  for (const link of tree.querySelectorAll('.again a'))
    if (!tree.contains(document.getElementById(link.getAttribute('href').slice(1))))
      wrong.push(`${link.textContent} stands nowhere in it`);
  return [rows.length, wrong];
})()"""
# Says how a row of a tree stands: whether it is unfolded and shows its text, and how many names in
# that lead to rows of the tree.
ROW = """((id) => { const fold = document.querySelector(`#${id} > details`);
  const code = fold.querySelector(':scope > .text pre');
  const names = fold.querySelectorAll(':scope > .text pre a[href^="#t"]');
  return [fold.open, Boolean(code && code.offsetHeight), names.length]; })"""
# Goes over all lines of a slider by its button, and lists what it shows of each.
SLIDE = """(() => {
  const of = (id) => document.getElementById(id), found = [];
  const show = () => {
    const text = of('text').textContent, cut = text.indexOf(': ');
    found.push([Number(text.slice(0, cut)), text.slice(cut + 2), of('answer').textContent]);
  };
  show();
  for (let at = 1; at <= Number(of('slide').max); at += 1) { of('on').click(); show(); }
  return found;
})()"""
EDGE = "(document.querySelector('.veil') || {style: {left: null}}).style.left"
# Says whether the place that the address names is seen.
SEEN = """(() => { const at = document.getElementById(decodeURIComponent(location.hash.slice(1)));
  const box = (at && (at.offsetHeight ? at : at.closest('pre')) || document.body);
  return (location.hash === '' || at !== null) && box.getClientRects().length > 0; })()"""


class Session:
    """A site in a browser."""

    def __init__(self, site: Pages, browser: Browser) -> None:
        self.site, self.browser = site, browser
        self.root = site.folder.resolve()
        # Of each page that was opened the places that it has, and all links, each with its page.
        self.places: dict[str, set[str]] = {}
        self.links: dict[str, str] = {}
        self.counts = {"pages": 0, "laws": 0, "trees": 0, "rows of trees": 0, "lines of sliders": 0}

    def address(self, place: str) -> str:
        """Gives the address of a place of the site."""
        page, _, anchor = place.partition("#")
        return (self.root / page).as_uri() + (f"#{anchor}" if anchor else "")

    def place(self, address: str) -> tuple[str, str] | None:
        """Gives the page and the place in it of an address; None of one outside the site."""
        parts = urlsplit(address)
        path = Path(unquote(parts.path))
        if parts.scheme != "file" or not path.is_relative_to(self.root):
            return None
        return str(path.relative_to(self.root)), unquote(parts.fragment)

    # ---- laws

    def laws(self) -> Iterator[str]:
        """Goes from the start page by a press of the mouse to each law, clause and definition that
        carries a sentence of README."""
        wanted = {leads for sentence in site_documents.claims()
                  for reference in site_documents.carriers(sentence)
                  if (leads := site_documents.leads_to(reference))}
        for place, name in sorted(wanted):
            self.browser.opens(self.address(siting.FIRST))
            if not self.browser.leads(f'sup.laws a[href="{place}"]'):
                yield f"no press on the start page leads to {name}"
                continue
            self.counts["laws"] += 1
            at = self.place(self.browser.says("location.href"))
            if at is None or "#".join(filter(None, at)) != place:
                yield f"a press on {name} on the start page leads to {at}"
            elif not self.browser.says(SEEN):
                yield f"{place} is not seen behind a press on the start page"

    # ---- a prover's walk

    def walk(self) -> Iterator[str]:
        """Goes by presses of the mouse from the headline to what has to be believed, and down the
        tree of a law: a row that is pressed shows its text, and a name in that its own row."""
        self.browser.opens(self.address(siting.FIRST))
        if not self.browser.leads(f'sup.laws a[href="{THEOREM}"]'):
            yield f"no press on the start page leads to {THEOREM}"
        elif not self.browser.says("document.querySelector('.believed').offsetHeight > 0"):
            yield f"{THEOREM} does not show what has to be believed"
        self.browser.opens(self.address(LAW))
        yield from self.row("t0", ".tree > li > details > summary")
        name = "#t0 > details > .text pre a[href^='#t']"
        link = self.browser.says(f"(document.querySelector(\"{name}\") || {{}}).hash || ''")
        if not link:
            yield f"no name in the text of a row of {LAW} leads to a row"
        else:
            yield from self.row(link[1:], name)

    def row(self, row: str, selector: str) -> Iterator[str]:
        """Presses something, and says where a row of a tree does not show its text then."""
        if not self.browser.presses(selector):
            yield f"nothing in {LAW} can be pressed by {selector}"
        for _ in range(SHOWN):
            is_open, is_shown, _ = self.browser.says(f"{ROW}('{row}')")
            if is_open and is_shown:
                return
            time.sleep(0.1)
        yield f"a press in {LAW} on {selector} does not show the text of {row}"

    # ---- pages

    def pages(self) -> Iterator[str]:
        """Opens each page: takes its links and places, and unfolds its tree."""
        for place in self.site.pages:
            self.browser.opens(self.address(place))
            self.counts["pages"] += 1
            links, places = self.browser.says(LINKS)
            self.places[place] = set(places)
            yield from (f"{place} has two places {one}" for one in sorted(set(places))
                        if places.count(one) > 1)
            for address in links:
                self.links.setdefault(address, place)
            yield from self.tree(place)

    def tree(self, place: str) -> Iterator[str]:
        """Unfolds the tree of the page that is open, if it has one; says where it has no end."""
        found = self.browser.says(UNFOLD)
        if found:
            count, wrong = found
            self.counts["trees"] += 1
            self.counts["rows of trees"] += count
            yield from (f"the tree of {place}: {words}" for words in wrong)

    def dead_links(self) -> Iterator[str]:
        """Says which links of the pages that were opened lead nowhere in the site."""
        for address, page in self.links.items():
            at = self.place(address)
            if at is None:
                if address.startswith("file:"):
                    yield f"{page} links to {address}, outside the site"
            elif at[0] not in self.site.files:
                yield f"{page} links to {at[0]}, which is not there"
            elif at[1] and at[0] in self.places and at[1] not in self.places[at[0]]:
                yield f"{page} links to {at[0]}#{at[1]}, and there is no such place"

    # ---- sliders

    def sliders(self, workers: Workers) -> Iterator[str]:
        """Goes over each slider line by line; says where it shows no answer of the program."""
        for path in site_scripts.examples():
            place = f"moves/{path.stem}.html"
            if place in self.site.pages:
                yield from self.slider(place, siting.answered(path, workers))

    def slider(self, place: str, wanted: list[list[int | str]]) -> Iterator[str]:
        """Goes over one slider, first by two presses of the mouse."""
        self.browser.opens(self.address(place))
        for at, button in ((1, "#on"), (0, "#back")):
            if not self.browser.presses(button) or self.number() != at:
                yield f"{place} shows line {self.number()} after a press on {button}"
        first = self.browser.says(EDGE)
        shown = self.browser.says(SLIDE)
        self.counts["lines of sliders"] += len(shown)
        if shown != wanted:
            at = next((a for a, b in zip(shown, wanted) if a != b), shown[-1])
            yield f"{place} shows what the program does not answer, first at {at}"
        if first is not None and self.browser.says(EDGE) == first:
            yield f"{place} draws no more of its picture at its end"

    def number(self) -> Any:
        """Gives the number of the line at which a slider stands, counted from 0."""
        return self.browser.says("Number(document.getElementById('slide').value)")

    # ---- screens

    def fits(self, place: str) -> Iterator[str]:
        """Says where a page is wider than a small screen, or looks the same in the dark."""
        self.browser.sized(360, 740)
        self.browser.opens(self.address(place))
        width = self.browser.says("document.documentElement.scrollWidth")
        if width > 360:
            yield f"{place} is {width} pixels wide where the screen has 360"
        color = "getComputedStyle(document.body).backgroundColor"
        light = self.browser.says(color)
        self.browser.sized(360, 740, is_dark=True)
        if self.browser.says(color) == light:
            yield f"{place} has one background in light and in the dark"
        self.browser.sized(1100, 800)

    def asked(self) -> Iterator[str]:
        """Says which scripts of the site failed, and what was asked for outside it."""
        for words in dict.fromkeys(self.browser.thrown):
            yield f"a script of the site fails: {words}"
        for address in dict.fromkeys(self.browser.asked):
            if not address.startswith(("file:", "about:", "data:")):
                yield f"a page asks for {address}"


def faults(site: Pages, program: str, folder: Path, workers: Workers
           ) -> tuple[dict[str, list[str]], dict[str, int]]:
    """Gives what is wrong in a browser, by its kind, and how much was looked at."""
    with Browser(program, folder, LONGEST) as browser:
        browser.sized(1100, 800)
        session = Session(site, browser)
        found = {"laws by clicks": list(session.laws()), "walk": list(session.walk()),
                 "sliders": list(session.sliders(workers)),
                 "screens": [line for place in FITTING for line in session.fits(place)],
                 "pages": list(session.pages())}
        found["links"] = list(session.dead_links())
        found["asked"] = list(session.asked())
    return found, session.counts
