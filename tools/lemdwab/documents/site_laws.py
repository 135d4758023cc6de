"""The pages of the site on what is proved: the laws, each with the definitions that it rests on,
and the clauses of public calls."""

from __future__ import annotations

from collections import Counter
from functools import cache
from html import escape
from typing import TYPE_CHECKING

from lemdwab.documents.carried import all_functions, keys_in, meaning
from lemdwab.documents.functions import dedented
from lemdwab.documents.site_pages import Prose, first_sentence, link, linked_code
from lemdwab.documents.site_trees import Tree

if TYPE_CHECKING:
    from lemdwab.documents.functions import Clause, Function
    from lemdwab.documents.site_pages import Site

LAWS, CALLS = "laws/index.html", "calls/index.html"
# Crates whose laws are worked scripts, each law one row: they stand together, and rest on what the
# answers of a script rest on.
WORKED = ("aia_guest_vectors", "aia_vectors")
# Crates whose laws are of the definitions alone (docs/promises/laws.md).
FOR_USERS = ("aia_laws", "aia_isolation", "aia_model")
# What stands at the head of the two lists.
OF_LAWS = ("Functions that do nothing, whose clauses were proved of the definitions. Each page has"
           " a law's clauses, and what they rest on. Beside a name stands only the first sentence"
           " of its comment: if others bound it, they stand on the page.")
OF_CALLS = ("What each crate offers to others, with the clauses of its contract. Beside a name"
            " stands only the first sentence of its comment.")


def is_worked(one: Function) -> bool:
    """Says whether a law is of a row: that the answers of a script are those beside its lines."""
    return one.is_law and one.crate in WORKED and one.module().startswith("rows::")


@cache
def place_of(one: Function) -> str:
    """Gives the place of a law or a call."""
    if one.is_law and not is_worked(one):
        return f"laws/{one.crate}/{one.name}.html"
    folder = "laws" if one.is_law else "calls"
    return f"{folder}/{one.crate}.html#{anchor_of(one)}"


@cache
def counts() -> Counter[tuple[str, str]]:
    """Gives how many functions of a crate have a name."""
    return Counter((one.crate, one.called()) for one in all_functions())


def anchor_of(one: Function) -> str:
    """Gives the anchor of a function on its page; two of one name may stand in two modules."""
    name = one.called().replace("::", ".")
    if counts()[one.crate, one.called()] == 1:
        return name
    return f"{one.module().replace('::', '.')}.{name}"


def comments() -> list[str]:
    """Lists all comments that are prose of pages here."""
    return ["\n".join(one.comment) for one in all_functions()]


def contract(page: str, one: Function, names: tuple[str, ...] = ()) -> str:
    """Gives the words and the contract of a function with links, and an anchor for each clause; of
    what it ensures only the clauses of these names, if there are any."""
    begins = places_of(one)
    hidden = set()
    for clause in one.clauses():
        if names and clause.name not in names and clause.kind != "requires":
            hidden |= set(range(clause.first, clause.last + 1))
    first = min((clause.first for clause in one.clauses()), default=len(one.text))
    lines = dedented(one.text)
    found = []
    for at, line in enumerate(lines):
        is_beside = names and at >= first and not line.strip().startswith(("ensures", "requires"))
        if at in hidden or (is_beside and (not line.strip() or line.strip().startswith("//"))):
            continue
        found.append((at, line))
    text = "\n".join(line for _, line in found)
    html = linked_code(text, meaning(one), page).split("\n")
    of = anchor_of(one)
    return "\n".join(clause_mark(begins.get(at), of, part) for (at, _), part in zip(found, html))


def places_of(one: Function) -> dict[int, Clause]:
    """Gives the lines that get an anchor, each with its clause: of clauses of one name the first
    that ensures something, or else the first."""
    found: dict[str, Clause] = {}
    for clause in sorted(reversed(one.clauses()), key=lambda each: each.kind != "requires"):
        found[clause.name] = clause
    return {clause.first: clause for clause in found.values()}


def clause_mark(clause: Clause | None, of: str, html: str) -> str:
    """Gives the first line of a clause an anchor."""
    if not clause or not clause.name:
        return html
    return f'<a id="{of}.{clause.name}"></a>{html}'


# ---- pages

def law_page(site: Site, one: Function) -> None:
    """Writes the page of a law."""
    page = place_of(one)
    rests = Tree(page, keys_in(one))
    body = [f'<p class="path">{link(page, LAWS, "Laws")} / {one.crate}'
            f"{' / ' + one.module() if one.module() else ''}</p>",
            f"<h1>{one.name}</h1>", Prose.of("\n".join(one.comment), page, meaning(one)),
            f"<pre>{contract(page, one)}</pre>",
            f'<p class="note">A law does nothing: its clauses are what was proved of the'
            f" definitions. <code>crates/{one.crate}/{one.file}</code>, line {one.line}.</p>",
            "<h2>What it rests on</h2>",
            f'<p class="note">{len(rests.below)} definitions, each below the one that names it'
            " first. A click on a name unfolds its text and what it names. If it is named again, it"
            " is a plain link there.</p>", rests.html()]
    site.write(page, one.name, "\n".join(body), LAWS)


def section(page: str, one: Function) -> str:
    """Gives a function on the page of its crate."""
    of = anchor_of(one)
    return (f'<section class="one" id="{of}"><h3><a href="#{of}">{escape(one.called())}</a></h3>'
            f'{Prose.of(chr(10).join(one.comment), page, meaning(one))}'
            f"<pre>{contract(page, one)}</pre></section>")


def crate_page(site: Site, crate: str, own: list[Function], folder: str, title: str, note: str,
               more: str = "") -> None:
    """Writes a page of functions of one crate, folded by module, with more behind them."""
    page, of = f"{folder}/{crate}.html", f"{folder}/index.html"
    body = [f'<p class="path">{link(page, of, folder.capitalize())} / {crate}</p>',
            f"<h1>{title}</h1>", f'<p class="note">{note}</p>']
    for module in dict.fromkeys(one.module() for one in own):
        inner = [section(page, one) for one in own if one.module() == module]
        body += [f"<details open><summary>{module or crate} <small>{len(inner)}</small></summary>",
                 *inner, "</details>"]
    site.write(page, title, "\n".join([*body, more]), of)


def listed(site: Site, page: str, title: str, note: str,
           chapters: dict[str, dict[str, list[Function]]]) -> None:
    """Writes a list of functions, by chapters and crates; the first chapter is unfolded where it
    has a heading."""
    body = [f"<h1>{title}</h1>", f'<p class="note">{note}</p>']
    seen: set[str] = set()
    for heading, of_crates in chapters.items():
        body += [f"<h2>{heading}</h2>"] if heading else []
        is_open = " open" if heading == next(iter(chapters)) != "" else ""
        for crate, own in of_crates.items():
            rows = "".join(
                f"<li>{link(page, place_of(one), escape(one.called()))}"
                f" <small>{escape(first_sentence(one.comment))}</small></li>" for one in own)
            name = "" if crate in seen else f' id="{crate}"'
            seen.add(crate)
            body.append(f"<details{is_open}{name}><summary>{crate} <small>{len(own)}</small>"
                        f"</summary><ul>{rows}</ul></details>")
    site.write(page, title, "\n".join(body))


def shared_tree(crate: str, own: list[Function]) -> str:
    """Gives the tree of what all clauses of some laws of a crate name."""
    shared = tuple(key for key in keys_in(own[0]) if all(key in keys_in(one) for one in own))
    rests = Tree(f"laws/{crate}.html", shared)
    return ("<h2>What they rest on</h2>\n"
            f'<p class="note">What all of these clauses name, with {len(rests.below)} definitions;'
            f" besides, each names its script.</p>\n{rests.html()}")


def make(site: Site) -> None:
    """Writes all pages on what is proved."""
    laws: dict[str, list[Function]] = {}
    worked: dict[str, list[Function]] = {}
    calls: dict[str, list[Function]] = {}
    for one in all_functions():
        of = calls if not one.is_law else worked if is_worked(one) else laws
        of.setdefault(one.crate, []).append(one)
    for own in laws.values():
        for one in own:
            law_page(site, one)
    for crate, own in worked.items():
        crate_page(site, crate, own, "laws", f"Worked scripts of {crate}",
                   "Each is a theorem whose one clause the checker computes: the answers of the"
                   " script are those beside its lines.", shared_tree(crate, own))
    for crate, own in calls.items():
        crate_page(site, crate, own, "calls", f"Public calls of {crate}",
                   "Each with its contract, as it stands in its source: what it requires and what"
                   " was proved that it ensures.")
    listed(site, LAWS, "Laws", OF_LAWS,
           {"Of the definitions": {crate: laws[crate] for crate in FOR_USERS},
            "Of parts of the program": {crate: own for crate, own in laws.items()
                                        if crate not in FOR_USERS},
            "Worked scripts": worked})
    listed(site, CALLS, "Public calls", OF_CALLS, {"": calls})
