"""The pages of the site on scripts: examples, drawn, with a slider over their lines, and the least
scripts of what other implementations answer otherwise, beside both answers."""

from __future__ import annotations

import json
import os
import sys
from html import escape
from pathlib import Path
from typing import TYPE_CHECKING, NamedTuple

from lemdwab import answers, drawing, running
from lemdwab.documents.markdown import read, rows
from lemdwab.documents.site_pages import link
from lemdwab.running import TOP

if TYPE_CHECKING:
    from lemdwab.answers import Line
    from lemdwab.apart.moves import VirtualHart
    from lemdwab.documents.site_pages import Site
    from lemdwab.drawing import Shown
    from lemdwab.running import Workers

MOVES, PEERS = "moves/index.html", "peers.html"
MODEL = TOP / "peers/apart/model.py"
# The longest that answering an example may take, in seconds.
LONGEST = 60
NAMES = {"qemu": "QEMU", "kvm": "KVM"}


def examples() -> list[Path]:
    """Lists the examples' scripts."""
    return sorted((TOP / "examples").glob("*.script"))


def answering() -> tuple[list[str], str]:
    """Gives the command that answers scripts, and how it is called: the program of the variable
    PROGRAM, or the model written apart."""
    program = os.environ.get("PROGRAM")
    if program:
        is_ours = not os.path.exists(program) and (TOP / program).is_file()
        path = str(TOP / program) if is_ours else program
        return [path, "replay"], "the program"
    return [sys.executable, "-B", str(MODEL)], "the independent Python model, which is not proved"


def check_program() -> None:
    """Ends with status 2 where the variable PROGRAM names none that can be run."""
    if os.environ.get("PROGRAM") and not os.access(answering()[0][0], os.X_OK):
        running.fail(f"PROGRAM is {os.environ['PROGRAM']}, which can't be run")


def answered(workers: Workers, command: list[str], script: bytes) -> list[tuple[Line, str]]:
    """Gives the lines of a script that have an answer, each with its answer."""
    ran = workers.submit(running.run, command, script, LONGEST,
                         answers.most_output(script)).result()
    running.check_started(ran, command)
    if ran.stopped or ran.status:
        running.fail(f"{' '.join(command)}: {ran.fault()}")
    said = answers.answers(ran.output)
    lines = answers.lines(script)
    if len(said) != len(lines):
        running.fail(f"{' '.join(command)} gives {len(said)} answers to {len(lines)} lines")
    return list(zip(lines, said))


# ---- examples

def states(found: list[Shown], names: dict[VirtualHart, str]) -> dict[int, tuple[int, str, str]]:
    """Gives of each line that is drawn its column, what it did, and where each virtual hart is."""
    harts = drawing.harts_of(found) if found else []
    told = {}
    for at, (before, shown) in enumerate(zip([None, *found], found)):
        parts = [f"{names[hart]}: {said}" for hart in harts
                 if (said := drawing.cell(hart, shown, before))]
        parts += [f"the host is told {hart.slot + 1}" for hart in shown.told]
        now = [f"{names[hart]} {drawing.at_home(hart, shown)}" for hart in harts
               if hart in shown.homes]
        told[shown.number] = (at + 1, "; ".join(parts), "; ".join(now))
    return told


class Slide(NamedTuple):
    """What the slider shows of a line with an answer: its number, its text, the answer, how many
    columns of the picture are drawn by then, what it did, and where all are then."""

    number: int
    text: str
    answer: str
    column: int
    did: str
    now: str


def slides(script: bytes, said: list[tuple[Line, str]]
           ) -> tuple[list[Slide], list[Shown], dict[VirtualHart, str]]:
    """Gives the data of the slider, what is drawn, and the names of virtual harts."""
    found, names = drawing.watched(script, 1, 1 << 30)
    told, column, now = states(found, names), 0, ""
    slides_ = []
    for line, answer in said:
        column, did, now = told.get(line.number, (column, "", now))
        slides_.append(Slide(line.number, line.text, answer, column, did, now))
    return slides_, found, names


def listing(script: bytes, slides_: list[Slide]) -> str:
    """Gives the script as a table: each line with its answer, comments among them."""
    by_number = {slide.number: (at, slide) for at, slide in enumerate(slides_)}
    found = []
    for number, text in enumerate(script.decode().rstrip("\n").split("\n"), 1):
        if number in by_number:
            at, slide = by_number[number]
            found.append(f'<tr data-at="{at}"><td>{number}</td><td>{escape(text)}</td>'
                         f"<td>{escape(slide.answer)}</td></tr>")
        else:
            found.append(f'<tr class="said"><td>{number}</td><td colspan="2">{escape(text)}</td>'
                         "</tr>")
    return f'<table class="script"><tbody>{"".join(found)}</tbody></table>'


def example_page(site: Site, workers: Workers, path: Path, command: list[str],
                 by: str) -> tuple[str, bool]:
    """Writes the page of an example."""
    script = path.read_bytes()
    slides_, found, names = slides(script, answered(workers, command, script))
    page = f"moves/{path.stem}.html"
    picture = ""
    if found:
        picture = ('<div class="picture"><div class="sheet">'
                   f"{drawing.in_svg(found, names, path.name)}"
                   f'<div class="veil" data-left="{drawing.LEFT}" data-cell="{drawing.CELL}">'
                   "</div></div></div>")
    data = json.dumps(slides_, ensure_ascii=False).replace("<", "\\u003c")
    body = [f'<p class="path">{link(page, MOVES, "Moves")}</p>', f"<h1>{path.stem}</h1>",
            f'<p class="note">{escape(path.name)}, answered by {by}. The slider goes over the lines'
            " that have an answer; what comes later is veiled.</p>",
            '<div class="slider"><button id="back" aria-label="one line back">&#8592;</button>'
            f'<input id="slide" type="range" min="0" max="{len(slides_) - 1}" value="0"'
            ' aria-label="line"><button id="on" aria-label="one line on">&#8594;</button></div>',
            '<p id="told"><code id="text"></code> <b id="answer"></b> <span id="did"></span></p>',
            '<p id="now" class="note"></p>', picture, listing(script, slides_),
            f'<script id="slides" type="application/json">{data}</script>']
    site.write(page, path.stem, "\n".join(body), MOVES)
    return page, bool(found)


def make_examples(site: Site, workers: Workers) -> None:
    """Writes the pages of all examples, and their list."""
    command, by = answering()
    drawn: dict[bool, list[str]] = {}
    for path in examples():
        page, is_drawn = example_page(site, workers, path, command, by)
        said = " ".join(one.removeprefix("#").strip()
                        for one in answers.head_comment(path.read_bytes()))
        first = said.split(". ")[0].rstrip(".").replace("`", "")
        drawn.setdefault(is_drawn, []).append(
            f"<li>{link(MOVES, page, path.stem)} <small>{escape(first)}</small></li>")
    body = ["<h1>Examples, line by line</h1>",
            f'<p class="note">The scripts of examples/, answered by {by}.</p>',
            "<h2>With a picture of the moves</h2>", f'<ul>{"".join(drawn.get(True, []))}</ul>',
            "<h2>Without virtual harts</h2>", f'<ul>{"".join(drawn.get(False, []))}</ul>']
    site.write(MOVES, "Examples", "\n".join(body))


# ---- peers

def differences() -> list[tuple[str, list[str], list[tuple[str, str]]]]:
    """Lists the rows of docs/PEERS.md that have least scripts: the heading above, the names of the
    scripts, and the other cells as (head, text)."""
    found, heading = [], ""
    heads: list[str] = []
    for line in read("docs/PEERS.md").split("\n"):
        if line.startswith("#"):
            heading = line.lstrip("# ")
        cells = rows(f"| x |\n|---|\n{line}\n")
        if not line.startswith("|"):
            heads = []
        elif not heads:
            heads = [cell.strip() for cell in line.strip("|").split("|")]
        elif cells and heads[0] == "Least script":
            scripts = [name.strip("`") for name in cells[0][0].split(", ")]
            found.append((heading, scripts, list(zip(heads[1:], cells[0][1:]))))
    return found


def known(name: str) -> list[tuple[str, Path]]:
    """Lists the peers that have a least script of this name, with its path."""
    return [(peer, TOP / f"peers/{peer}/known/{name}.script") for peer in NAMES
            if (TOP / f"peers/{peer}/known/{name}.script").exists()]


def beside(peer: str, path: Path) -> str:
    """Gives a least script with the answers of the model and of the peer."""
    script = path.read_bytes()
    mine = answers.answers(path.with_suffix(".aia").read_bytes())
    theirs = answers.answers(path.with_suffix(f".{peer}").read_bytes())
    found = []
    for line, model, other in zip(answers.lines(script), mine, theirs, strict=True):
        kind = "" if model == other else ' class="differs"'
        found.append(f"<tr{kind}><td>{escape(line.text)}</td><td>{escape(model)}</td>"
                     f"<td>{escape(other)}</td></tr>")
    return ('<div class="wide"><table class="beside"><thead><tr><th>Line</th><th>The model</th>'
            f"<th>{NAMES[peer]}</th></tr></thead><tbody>{''.join(found)}</tbody></table></div>")


def cell_html(text: str) -> str:
    """Gives a cell of a table as HTML."""
    parts = escape(text, quote=False).split("`")
    code = "".join(f"<code>{part}</code>" if at % 2 else part for at, part in enumerate(parts))
    emphasis = code.split("*")
    return "".join(f"<em>{part}</em>" if at % 2 and len(emphasis) % 2 else part
                   for at, part in enumerate(emphasis))


def make_peers(site: Site) -> None:
    """Writes the page of differences, folded by least script."""
    document = link(PEERS, "docs/PEERS.html", "docs/PEERS.md")
    body = ["<h1>What QEMU and KVM answer otherwise</h1>",
            f'<p class="note">The least script of each row of {document}, which says what was held'
            " against the model and how the tables are read.</p>"]
    before = None
    for heading, scripts, cells in differences():
        if heading != before:
            body.append(f"<h2>{escape(heading)}</h2>")
            before = heading
        said = "".join(f"<dt>{escape(head)}</dt><dd>{cell_html(text)}</dd>"
                       for head, text in cells)
        for name in scripts:
            inner = "".join(beside(*one) for one in known(name))
            body.append(f'<details class="module" id="{name}"><summary><code>{name}</code> <small>'
                        f"{', '.join(NAMES[peer] for peer, _ in known(name))}</small></summary>"
                        f"<dl>{said}</dl>{inner}</details>")
    site.write(PEERS, "Peers", "\n".join(body))
