"""What suite/site looks for on the walk of somebody who asks what has to be believed: trees that
end, in words that have their sentence, with the text of each definition; the box of what has to be
believed, with its counts of lines; and the forms of lines with their answers."""

from __future__ import annotations

import json
import posixpath
import re
from collections.abc import Iterator
from functools import cache
from html import unescape
from typing import TYPE_CHECKING

from lemdwab.documents import words
from lemdwab.documents.antt import all_modules
from lemdwab.documents.carried import all_functions
from lemdwab.documents.forms import LINES, refusals
from lemdwab.documents.naming import all_definitions
from lemdwab.documents.site_pages import WORDS
from lemdwab.documents.site_theorem import LINES as LINES_PAGE, OTHERS, THEOREM
from lemdwab.running import TOP

if TYPE_CHECKING:
    from lemdwab.siting import Page, Pages

# Where the links of the box of what has to be believed lead besides the chapters of part I.
BESIDES = ("theorem.html#lines", "theorem.html#program", "theorem.html#trusted", WORDS,
           "docs/DEFINITIONS.html#how-to-read-antt", "docs/DECISIONS.html")
# The head of a row of a tree, with what it says beside a name, and the place of the definition.
ROW = re.compile(r'<summary><b>[^<]*</b> <small>([^<]*)</small></summary>'
                 r'<p class="at"><a href="([^"]*)"')


def walked(site: Pages) -> Iterator[Page]:
    """Lists the pages that have trees: of laws, of worked scripts, and of the theorem."""
    for page in site.pages.values():
        is_law = is_of_rows(page) or re.fullmatch(r"laws/\w+/\w+\.html", page.place)
        if is_law or page.place == THEOREM:
            yield page


def is_of_rows(page: Page) -> bool:
    """Says whether a page is one of worked scripts."""
    return re.fullmatch(r"laws/aia_\w+\.html", page.place) is not None


def plain(html: str) -> str:
    """Gives HTML as text."""
    return unescape(re.sub(r"<[^>]*>", "", html))


def leads(page: str, link: str) -> str:
    """Gives the place to which a link of a page leads."""
    to, _, anchor = unescape(link).partition("#")
    place = posixpath.normpath(posixpath.join(posixpath.dirname(page), to)) if to else page
    return f"{place}#{anchor}" if anchor else place


# ---- trees

def tree_of(page: Page) -> str:
    """Gives the part of a page that is a tree; nothing where there is none."""
    return page.text.partition('<ul class="tree">')[2].partition("</main>")[0]


def is_ended(text: str) -> bool:
    """Says whether each list of a tree has something in it, and each fold ends."""
    depth, empty = [], 0
    for end, tag in re.findall(r"<(/?)(ul|li|details)\b", '<ul class="tree">' + text):
        if not end:
            depth.append([tag, 0])
            continue
        if not depth or depth[-1][0] != tag:
            return False
        tag, inner = depth.pop()
        empty += tag == "ul" and inner == 0
        if depth:
            depth[-1][1] += 1
        else:
            break
    folds = text.count("<details>") + text.count("<details open>")
    ends = text.count("</div><ul>") + text.count("names nothing</p>")
    return not depth and not empty and folds == ends


def definitions_of(text: str) -> list[str]:
    """Gives the definitions that the rows of a tree unfold, by their places."""
    return re.findall(r'</summary><p class="at"><a href="([^"]+)">', text)


def trees(site: Pages) -> Iterator[str]:
    """Says which law has no tree, or one that does not end or lacks what its lines name."""
    for page in walked(site):
        is_row = is_of_rows(page)
        text = tree_of(page)
        if not text:
            yield f"{page.place} has no tree"
            continue
        if not is_ended(text):
            yield f"the tree of {page.place} does not end"
        # A page of rows has the tree of what all of them name.
        yield from () if is_row else left_out(site, page, text)


def left_out(site: Pages, page: Page, text: str) -> Iterator[str]:
    """Says what a tree leaves out that the lines of its law, or of a definition in it, name."""
    folder = posixpath.dirname(page.place)
    rows = [posixpath.normpath(posixpath.join(folder, unescape(link)))
            for link in definitions_of(text)]
    if len(rows) != len(set(rows)):
        yield f"the tree of {page.place} unfolds a definition twice"
    there = set(rows)
    code = re.search(r"(?s)<pre[^>]*>(.*?)</pre>", page.text)
    wanted = [(page.place, code[1] if code else "")]
    wanted += [(place.partition("#")[0], site.code.get(place, "")) for place in rows]
    for at, lines in wanted:
        for link in re.findall(r'<a href="([^"]+)">', lines):
            place = posixpath.normpath(posixpath.join(posixpath.dirname(at), unescape(link)))
            place = f"{at}{unescape(link)}" if link.startswith("#") else place
            leads = site.owner.get(place)
            if leads and leads not in there:
                yield f"the tree of {page.place} leaves out {leads}, which {at} names"


# ---- the words in which trees end

def ends(site: Pages) -> Iterator[str]:
    """Says which end of a tree does not lead to the row of its word, and which word has no row, or
    none with a sentence and a module."""
    there = rows_of_words(site)
    for key in words.ends():
        if key.replace(" ", ".") not in there:
            yield f"{WORDS} has no row of {key}"
    for name, cells in there.items():
        if len(cells) != 3 or not cells[1].endswith(".") or ".specs." not in cells[2]:
            yield f"{WORDS} has no sentence or no module of {name}"
    # Ends of pages in one folder that read the same are the same.
    right: set[tuple[str, str]] = set()
    for page in walked(site):
        folder = posixpath.dirname(page.place)
        for end in set(re.findall(r'<li class="leaves">(.*?)</li>', tree_of(page))):
            if (folder, end) in right:
                continue
            right.add((folder, end))
            if not is_end(page.place, end, there):
                right.discard((folder, end))
                yield f"the tree of {page.place} ends in words without a row: {plain(end)[:60]}"


def is_end(page: str, end: str, there: dict[str, list[str]]) -> bool:
    """Says whether an end of a tree is words of one library, each of which leads to its row."""
    places = [leads(page, link).partition("#")
              for link in re.findall(r'<a href="([^"]*)">[^<]+</a>', end)]
    of = re.sub(r'<a href="[^"]*">[^<]+</a>', "", end).strip()
    is_led = all(place == WORDS and name in there for place, _, name in places)
    return bool(places) and is_led and bool(
        re.fullmatch(r"the (standard )?library( \w+)?:", of))


def rows_of_words(site: Pages) -> dict[str, list[str]]:
    """Gives the rows of the page of words, by their places, each as its cells."""
    text = site.pages[WORDS].text if WORDS in site.pages else ""
    return {unescape(name): [plain(cell) for cell in re.findall(r"(?s)<td>(.*?)</td>", row)]
            for name, row in re.findall(r'(?s)<tr id="([^"]*)">(.*?)</tr>', text)}


# ---- the texts of definitions in trees

def texts(site: Pages) -> Iterator[str]:
    """Says which row of a tree has no sentence though its definition has a comment, and which
    definition's text is not there to be shown as its row is unfolded."""
    for one in all_definitions().values():
        place, _, name = one.place.partition("#")
        found = fetched(site, place).get(name)
        if found is None:
            yield f"no tree can show the text of {one.place}"
        elif one.place in site.code and plain(site.code[one.place]) not in plain(found):
            yield f"trees show another text of {one.place} than its page"
    commented = {one.place for one in all_definitions().values() if "".join(one.comment).strip()}
    for page in walked(site):
        for said, link in ROW.findall(tree_of(page)):
            if not said and leads(page.place, link) in commented:
                yield f"the tree of {page.place} says nothing beside {leads(page.place, link)}"


def fetched(site: Pages, page: str) -> dict[str, str]:
    """Gives the texts that trees fetch of a page of definitions, by their names."""
    path = site.folder / "texts" / page.replace(".html", ".js")
    if path not in site.fetched:
        found = re.fullmatch(r"takes\((.*)\);\n", path.read_text(encoding="utf-8"), re.S) \
            if path.is_file() else None
        site.fetched[path] = json.loads(found[1]).get(page, {}) if found else {}
    return site.fetched[path]


# ---- what has to be believed

@cache
def chapter_counts() -> dict[str, int]:
    """Counts the lines of each chapter of part I, by its heading."""
    text = (TOP / "docs/DEFINITIONS.md").read_text(encoding="utf-8")
    part = text[text.index("\n# I. ") + 1:text.index("\n# II. ") + 1]
    cut = re.split(r"(?m)^## ", part)[1:]
    return {one.partition("\n")[0]: one.count("\n") for one in cut}


def believed(site: Pages) -> Iterator[str]:
    """Says what is wrong with the box of what has to be believed: a row that leads to nothing of
    it, a chapter with another count of lines, or one that is missing; and which function that leads
    to the program is not named there."""
    page = site.pages.get(THEOREM)
    box = re.search(r'(?s)<table class="believed">.*?</table>', page.text) if page else None
    if not page or not box:
        yield f"{THEOREM} has no box of what has to be believed"
        return
    links = {leads(THEOREM, link) for link in re.findall(r'href="([^"]*)"', box[0])}
    yield from (f"the box of {THEOREM} does not lead to {place}" for place in BESIDES
                if place not in links)
    counts = chapter_counts()
    named = set()
    for cells in re.findall(r"<tr><td>(.*?)</td><td>(.*?)</td><td>(.*?)</td></tr>", box[0]):
        heading = plain(cells[0]).removeprefix("Definitions, ")
        named.add(heading)
        if heading in counts and cells[1].replace(",", "") != str(counts[heading]):
            yield f"the box of {THEOREM} says that {heading} has {cells[1]} lines"
    places = {leads(THEOREM, link) for link in definitions_of(tree_of(page))}
    for heading in counts:
        modules = [f"definitions/{crate}/{module}.html" for crate, module in all_modules()
                   if f"### {module} ([`{crate}`]" in chapter_text(heading)]
        is_rested = any(place.startswith(f"{module}#") for module in modules for place in places)
        if is_rested and heading not in named:
            yield f"the box of {THEOREM} has no row of {heading}"
    shown = [plain(code) for code in re.findall(r"(?s)<pre[^>]*>(.*?)</pre>", page.text)]
    for name, clauses in OTHERS:
        one = next(one for one in all_functions() if one.called() == name
                   and one.crate == "aia_replay")
        text = "\n".join(one.text)
        wanted = [line for clause in one.clauses() if clause.name in clauses
                  for line in text.split("\n")[clause.first:clause.last + 1]]
        if not any(f"fn {name}" in code and all(line.strip() in code for line in wanted)
                   for code in shown):
            yield f"{THEOREM} does not show {', '.join(clauses)} of {name}"


@cache
def chapter_text(heading: str) -> str:
    """Gives the text of a chapter of part I."""
    text = (TOP / "docs/DEFINITIONS.md").read_text(encoding="utf-8")
    return text.partition(f"\n## {heading}\n")[2].partition("\n## ")[0]


# ---- the forms of lines

def forms(site: Pages) -> Iterator[str]:
    """Says which form of line the page of forms lacks, or shows with other refusals than the
    definitions have; and whether the theorem leads there."""
    page, first = site.pages.get(LINES_PAGE), site.pages.get(THEOREM)
    if not page or not first or LINES_PAGE not in {place for _, place, _ in first.links}:
        yield f"{THEOREM} does not lead to {LINES_PAGE}"
        return
    told: dict[str, list[str]] = {}
    for row in re.findall(r"(?s)<tr[^>]*>(.*?)</tr>", page.text):
        cells = [re.findall(r"<code>([^<]*)</code>", cell)
                 for cell in re.findall(r"(?s)<td[^>]*>(.*?)</td>", row)]
        told |= {text: cells[3] for text in cells[0] if len(cells) == 4} if cells else {}
    for text, line in LINES.items():
        wanted = [word for word in refusals()[line] if word != "nomachine"]
        if told.get(text) != wanted:
            yield f"{LINES_PAGE} says of {text} {told.get(text)}, and the definitions {wanted}"


def faults(site: Pages) -> dict[str, list[str]]:
    """Gives all that is wrong on the walk, by its kind."""
    return {"trees": list(trees(site)), "ends": list(ends(site)), "texts": list(texts(site)),
            "believed": list(believed(site)), "forms": list(forms(site))}
