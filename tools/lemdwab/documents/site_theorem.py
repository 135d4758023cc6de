"""The pages of the site on the theorem: the clauses of `run` that carry it, what has to be believed
of them, in reading order with counts of lines, and all below them; and the forms of lines."""

from __future__ import annotations

import re
from collections.abc import Iterator
from html import escape
from typing import TYPE_CHECKING, NamedTuple

from lemdwab.documents import words
from lemdwab.documents.carried import HEADLINE, all_functions, keys_in
from lemdwab.documents.definitions import TARGET, first_lines
from lemdwab.documents.forms import HEADING, REFERENCE
from lemdwab.documents.markdown import anchor, read, section
from lemdwab.documents.naming import all_definitions
from lemdwab.documents.order import FULL, ITEM, first_part
from lemdwab.documents.site_definitions import DEFINITIONS
from lemdwab.documents.site_laws import contract, place_of
from lemdwab.documents.site_pages import WORDS, Prose, link, pandoc
from lemdwab.documents.site_trees import Tree, shown_comment, told
from lemdwab.running import TOP

if TYPE_CHECKING:
    from lemdwab.documents.functions import Function
    from lemdwab.documents.site_pages import Site

THEOREM, LINES = "theorem.html", "lines.html"
PROMISES, DECISIONS = "docs/PROMISES.html", "docs/DECISIONS.html"
READING = "how-to-read-antt"
# What leads from `run` to the program: functions with the clauses of theirs that are shown.
OTHERS = (("command", ("done", "all")), ("start", ("number",)))


def function(name: str) -> Function:
    """Gives a function of the crate of the headline."""
    return next(one for one in all_functions()
                if one.crate == HEADLINE[0] and one.called() == name)


def headline_words() -> str:
    """Gives what docs/PROMISES.md says in words of the theorem."""
    text = (TOP / "docs/PROMISES.md").read_text(encoding="utf-8")
    return text.partition("### The headline\n\n")[2].partition("\n\n")[0]


# ---- chapters of part I

class Chapter(NamedTuple):
    """A chapter of part I: its heading, the first sentence under it, how many lines it has, and how
    many definitions of it the theorem rests on."""

    heading: str
    says: str
    lines: int
    rested: int


def chapters(rested: set[str]) -> Iterator[Chapter]:
    """Lists the chapters of part I, given the keys of the definitions that something rests on."""
    counts = chapter_lines()
    for part in re.split(r"(?m)^## ", "\n".join(first_part()))[1:]:
        heading, _, text = part.partition("\n")
        if heading in counts:
            said = re.split(r"(?<=[.])\s", " ".join(text.split("\n@")[0].split()), maxsplit=1)[0]
            yield Chapter(heading, said, counts[heading], len(keys_of_chapter(text) & rested))


def keys_of_chapter(text: str) -> set[str]:
    """Gives the keys of the definitions of which a chapter of the order has the text."""
    found = set()
    for line in text.split("\n"):
        mark = next((mark for mark in (FULL, ITEM) if line.startswith(mark)), None)
        if mark == FULL:
            crate, module = line.split()[1:]
            found |= {key for key in all_definitions() if key.startswith(f"{crate} {module} ")}
        elif mark:
            crate, file, *names = line[len(mark):].split()
            found |= {f"{crate} {file} {name}" for name in names}
    return found


def chapter_lines() -> dict[str, int]:
    """Gives how many lines each chapter of part I of docs/DEFINITIONS.md has."""
    found: dict[str, int] = {}
    heading = ""
    for line in first_lines(TARGET.read_text(encoding="utf-8")):
        if line.startswith("## "):
            heading = line[3:]
        if heading:
            found[heading] = found.get(heading, 0) + 1
    return found


def lines_of(keys: set[str]) -> int:
    """Counts the lines of definitions with their comments; one that several share counts once."""
    comments = {(one.crate, one.module, *shown_comment(one))
                for key in keys for one in (all_definitions()[key],)}
    return (sum(len(all_definitions()[key].lines) for key in keys)
            + sum(len(comment) - 2 for comment in comments))


def ends_of(keys: set[str]) -> int:
    """Counts the words of libraries in which definitions end."""
    return len({key for key, named in words.ends().items() if not keys.isdisjoint(named)})


# ---- what has to be believed

def row(what: str, lines: str, why: str) -> str:
    """Gives a row of the box."""
    return f"<tr><td>{what}</td><td>{lines}</td><td>{why}</td></tr>"


def believed(one: Function, names: tuple[str, ...], rests: Tree) -> str:
    """Gives the box of what has to be believed, in the order in which it is read."""
    keys = set(rests.below)
    clauses = sum(clause.last - clause.first + 1 for clause in one.clauses()
                  if clause.name in names)
    reading = read("docs/DEFINITIONS.md").partition("## How to read antt\n")[2]
    rows = [row(link(THEOREM, f"{THEOREM}#lines", "The lines above"), str(clauses),
                "what is claimed of a run"),
            row(link(THEOREM, f"{DEFINITIONS}#{READING}", "How to read them"),
                str(reading.partition("\n@")[0].partition("\n## ")[0].count("\n")),
                "the small language in which they, and all definitions, are written")]
    for chapter in chapters(keys):
        if chapter.rested:
            place = f"{DEFINITIONS}#{anchor(chapter.heading)}"
            rows.append(row(f"Definitions, {link(THEOREM, place, escape(chapter.heading))}",
                            f"{chapter.lines:,}", told(chapter.says)))
    rows += [row(link(THEOREM, WORDS, "The words of libraries"), f"{ends_of(keys)} words",
                 "in these all definitions end: a sentence for each"),
             row(link(THEOREM, f"{THEOREM}#program", "From these lines to the program"), "",
                 "what no clause says of <code>start</code>, which is <code>main</code>"),
             row(link(THEOREM, f"{THEOREM}#trusted", "What is trusted besides"), "",
                 "the prover, the rest of the toolchain, libraries, and that a real machine"
                 " behaves so"),
             row(link(THEOREM, DECISIONS, "The choices"), "",
                 "what the definitions choose where the standard leaves a choice")]
    return ('<table class="believed"><thead><tr><th>In this order</th><th>Lines</th>'
            f"<th>What it is</th></tr></thead><tbody>{''.join(rows)}</tbody></table>")


def not_believed(rests: Tree) -> str:
    """Says what need not be believed."""
    others = [link(THEOREM, f"{DEFINITIONS}#{anchor(chapter.heading)}", escape(chapter.heading))
              for chapter in chapters(set(rests.below)) if not chapter.rested]
    count = sum(one.lines for one in chapters(set(rests.below)) if one.rested)
    return (f'<p class="note">These chapters have {count:,} lines. The lines above rest on'
            f" {len(rests.below)} of their definitions, in {lines_of(set(rests.below)):,} lines"
            " with comments: the tree below has just these. The other chapters of part I are for"
            f" what else README says: {', '.join(others)}. The program, its proofs, and part II of"
            " the definitions need not be believed: the prover checks them.</p>")


# ---- pages

def program() -> list[str]:
    """Gives what leads from `run` to the program."""
    body = ['<h2 id="program">From these lines to the program</h2>',
            '<p>The lines above are about <code>run</code>, for every source and every sink of'
            " bytes. Two more functions lead from it to the program <code>aia</code>.</p>"]
    said = {"command": "reads the words of the command line, calls <code>run</code>, and gives the"
            " exit status. Its clauses say of status 0 what those of <code>run</code> say of"
            " <code>Done</code>; its others say what each other status means.",
            "start": "is all that <code>main</code> does. It takes the words of the command line,"
            " makes a source of the standard input and a sink of the standard output, and calls"
            " <code>command</code>. Its clause says only that the exit status is one of the"
            " program's."}
    for name, names in OTHERS:
        one = function(name)
        body += [f"<p>{link(THEOREM, place_of(one), f'<code>{name}</code>')} {said[name]}</p>",
                 f"<pre>{contract(THEOREM, one, names)}</pre>"]
    tested = link(THEOREM, f"{PROMISES}#what-is-only-tested", "stored runs")
    body.append(f"<p>So this stays trusted: that <code>start</code> hands on the program's own"
                " words and the standard streams, and ends with the status that"
                f" <code>command</code> gives. No clause can say it; {tested} show it. And that the"
                " standard input gave the bytes that were sent, and the standard output shows what"
                " was written: these two do not tell which bytes they moved.</p>")
    return body


def trusted(site: Site) -> str:
    """Gives what docs/PROMISES.md says is trusted."""
    html = site.linked(pandoc(section("docs/PROMISES.md", "What is trusted")), "docs/PROMISES.md",
                       THEOREM)
    again = link(THEOREM, "index.html#try-it", "<code>./check</code>")
    return (f'<h2 id="trusted">What is trusted besides</h2>\n{html}<p>{again} has the prover check'
            " all of this again.</p>")


def theorem(site: Site) -> None:
    """Writes the page of the theorem: the clauses of `run` that carry it, and all below them."""
    crate, name, names = HEADLINE
    one = function(name)
    rests = Tree(THEOREM, keys_in(one, names), has_code=True)
    premises = link(THEOREM, f"{PROMISES}#premises-and-limits", "what is told")
    lines = link(THEOREM, LINES, "The forms of lines")
    body = ["<h1>The theorem</h1>", Prose.of(headline_words()),
            f'<pre id="lines">{contract(THEOREM, one, names)}</pre>',
            f'<p class="note">Two of the clauses of {link(THEOREM, place_of(one), "run")}'
            f" (<code>{crate}</code>), as they stand in its source; its other clauses say why a run"
            " ends otherwise, and what is written then. <code>S.supply source.old</code> is what"
            " the source has left before the run, <code>K.taken sink.new</code> what the sink has"
            " taken after it. Of a source that does not tell its bytes, as the standard input does"
            f" not, these lines say nothing: {premises}.</p>",
            f'<p class="note">{lines}, each with what it does and what it may answer, are on one'
            " page: the definitions come to that.</p>",
            '<h2 id="believed">What you have to believe</h2>', believed(one, names, rests),
            not_believed(rests), *program(), trusted(site), "<h2>Walking down</h2>",
            f'<p class="note">All that the lines at the top are made of, down to words of'
            f" libraries: {len(rests.below)} definitions, each below the one that names it first. A"
            " click on a name unfolds it; a name in its text leads to its row here.</p>",
            rests.html()]
    site.write(THEOREM, "The theorem", "\n".join(body))


def lines_page(site: Site) -> None:
    """Writes the page of the forms of lines, with what each answers: the table of the reference, of
    which suite/documents sees that the definitions say the same."""
    def definition(module: str, name: str) -> str:
        """Gives a definition of aia_model as a link."""
        return link(LINES, all_definitions()[f"aia_model {module} {name}"].place,
                    f"<code>{name}</code>")
    html = site.linked(pandoc(section(REFERENCE, HEADING)), REFERENCE, LINES)
    html = html.replace('href="#', 'href="docs/REFERENCE.html#')
    body = [f'<p class="path">{link(LINES, THEOREM, "The theorem")}</p>',
            "<h1>The forms of lines</h1>",
            f'<p class="note">By the definitions: {definition("Forms", "forms")} are the forms,'
            f" {definition('Answer', 'accepted_answer')} is what an accepted line answers, and"
            f" {definition('Refusal', 'refusals')} are the refusals with their conditions."
            " <code>suite/documents</code> reads the last two columns off these.</p>", html]
    site.write(LINES, "The forms of lines", "\n".join(body), THEOREM)


def make(site: Site) -> None:
    """Writes both pages."""
    theorem(site)
    lines_page(site)
