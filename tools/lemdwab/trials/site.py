"""Tries suite/site, as suite/tools does: each function takes its Trial. A site is made once, and
then has faults planted, each of which has to be told."""

from __future__ import annotations

import os
import shutil
import sys
from collections.abc import Callable, Iterable
from pathlib import Path
from typing import TYPE_CHECKING
from unittest import mock

from lemdwab import browsing, clicking, siting, walking
from lemdwab.documents import carried
from lemdwab.documents.site_pages import WORDS
from lemdwab.documents.site_theorem import LINES, THEOREM
from lemdwab.running import TOP, sure

if TYPE_CHECKING:
    from lemdwab.commands.tools import Trial, Word
    from lemdwab.running import Workers

# What looks at a site, and lists what is wrong there.
Check = Callable[[siting.Pages], Iterable[str]]
SITE, MAKER = TOP / "suite/site", TOP / "docs/make/site"
LAW, SCRIPT = "laws/aia_laws/no_notice_is_lost.html", "definitions/aia_model/Script.html"
# What the makers need of a path; without pandoc and a browser.
COMMANDS = ("env", "python3", "git", "bash")
# How long the site may take to be made, in seconds.
LONGEST = 300


def without(trial: Trial) -> str:
    """Gives a path on which there is no pandoc and no browser."""
    folder = trial.folder / "without-pandoc"
    if not folder.exists():
        folder.mkdir()
        for command in COMMANDS:
            found = sys.executable if command == "python3" else shutil.which(command)
            (folder / command).symlink_to(sure(found))
    return f"PATH={folder}"


def refuses_to_make(trial: Trial) -> None:
    """docs/make/site without pandoc, and with words and folders that are wrong: status 2."""
    full, new = trial.folder / "full", trial.folder / "new"
    full.mkdir()
    (full / "file").touch()
    cases: list[tuple[str, list[Word]]] = [
        ("pandoc is missing", ["env", without(trial), MAKER, new]),
        ("pandoc is missing", ["env", without(trial), SITE]),
        ("FOLDER", [MAKER]), ("FOLDER", [MAKER, new, new]),
        ("there is no site in", [SITE, full]), ("FOLDER", [SITE, new, new])]
    for said, words in cases:
        ran = trial.run(*words)
        trial.sees(ran.status == 2 and said in ran.errors and not new.exists(),
                   f"{words[-2:]} ends with {ran.status}: {ran.errors[-80:]}")
    if shutil.which("pandoc"):
        for folder, said in ((full, "is no empty folder"),
                             (Path("/nosuch/folder"), "there is no folder"),
                             (TOP / "VERSION", "is no empty folder")):
            ran = trial.run(MAKER, folder)
            trial.sees(ran.status == 2 and said in ran.errors,
                       f"docs/make/site {folder} ends with {ran.status}: {ran.errors[-80:]}")


class Planted:
    """A site in which faults are planted one after another, each taken back."""

    def __init__(self, trial: Trial, folder: Path) -> None:
        self.trial, self.site = trial, siting.Pages(folder)

    def looks(self, *checks: Check) -> list[str]:
        """Gives what checks say of the site as it stands."""
        self.site.seen = self.site.reached()
        return [line for check in checks for line in check(self.site)]

    def tells(self, said: str, place: str, old: str, new: str, *checks: Check) -> None:
        """Plants other text into a page wherever the old one stands, and sees that it is told."""
        path = self.site.folder / place
        text = path.read_text(encoding="utf-8")
        self.trial.sees(old in text, f"{place} has no {old!r}, where a fault was to be planted")
        path.write_text(text.replace(old, new), encoding="utf-8")
        self.site.read(place)
        found = self.looks(*checks)
        self.trial.sees(any(said in line for line in found),
                        f"{new!r} in {place} is not told: {found[:3]}")
        path.write_text(text, encoding="utf-8")
        self.site.read(place)

    def lacks(self, said: str, place: str, *checks: Check) -> None:
        """Takes a page away, and sees that checks tell it."""
        page = self.site.pages.pop(place)
        self.site.files.discard(place)
        found = self.looks(*checks)
        self.trial.sees(any(said in line for line in found), f"no {place} is not told: {found[:3]}")
        self.site.pages[place] = page
        self.site.files.add(place)


def plants(planted: Planted, workers: Workers) -> None:
    """Plants a fault of each kind."""
    def sliders(site: siting.Pages) -> Iterable[str]:
        """Looks at the sliders of a site."""
        return siting.sliders(site, workers)
    planted.tells("docs/PROMISE.html, which is not there", "docs/README.html",
                  'href="PROMISES.html"', 'href="PROMISE.html"', siting.dead_links)
    planted.tells("#no-such-heading, and there is no such place", "docs/README.html",
                  'href="PROMISES.html"', 'href="PROMISES.html#no-such-heading"', siting.dead_links)
    planted.tells("loads https://", "docs/README.html", "<main>",
                  '<main><img src="https://lemdwab.example/a.png">', siting.dead_links)
    planted.tells("the start page has no link to no_notice_is_lost: sent", "index.html",
                  f'href="{LAW}#no_notice_is_lost.sent"', f'href="{LAW}"', siting.linked_sentences)
    planted.lacks("the law no_notice_is_lost of aia_laws has no place", LAW, siting.laws)
    planted.lacks(f"links to {LAW}, which is not there", LAW, siting.dead_links)
    planted.tells(f"{LAW} does not show no_notice_is_lost as its source has it", LAW,
                  "true</a> }", "false</a> }", siting.whole_contracts)
    planted.tells("Script.html does not show the line text_answer h", SCRIPT,
                  "text_answer h (", "text_answer k (", siting.whole_modules)
    planted.tells(f"the tree of {LAW} does not end", LAW, "</div><ul>", "</div>", walking.trees)
    planted.tells(f"the tree of {LAW} leaves out", LAW, '<p class="at"><a href="../../definitions/',
                  '<p class="at"><a href="../../definition/', walking.trees)
    planted.tells(f"the tree of {LAW} ends in words without a row", LAW,
                  f'href="../../{WORDS}#std.', 'href="../../names.html#std.', walking.ends)
    planted.tells(f"{WORDS} has no row of std Appends", WORDS, 'id="std.Appends"',
                  'id="std.Append"', walking.ends)
    planted.tells(f"the tree of {LAW} says nothing beside", LAW,
                  "<small>What has happened, the newest first</small>", "<small></small>",
                  walking.texts)
    planted.tells("has no box of what has to be believed", THEOREM, 'class="believed"',
                  'class="believe"', walking.believed)
    planted.tells(f"the box of {THEOREM} does not lead to {WORDS}", THEOREM,
                  f'<td><a href="{WORDS}">', "<td><a>", walking.believed)
    planted.tells("does not show number of start", THEOREM, "ensures number", "ensures numbers",
                  walking.believed)
    planted.tells(f"{THEOREM} does not lead to {LINES}", THEOREM, f'href="{LINES}"',
                  'href="names.html"', walking.forms)
    planted.tells(f"{LINES} says of ld A", LINES, "<code>guarded</code>", "<code>fault</code>",
                  walking.forms)
    text = next((planted.site.folder / "texts/definitions/aia_laws").iterdir())
    text.rename(text.with_suffix(".kept"))
    planted.site.fetched.clear()
    found = planted.looks(walking.texts)
    planted.trial.sees(any("no tree can show the text of" in line for line in found),
                       f"no {text.name} is not told: {found[:3]}")
    text.with_suffix(".kept").rename(text)
    planted.site.fetched.clear()
    planted.tells("the slider of stores-in-flight.script", "moves/stores-in-flight.html",
                  '"0x0000000000000000"', '"0x0000000000000001"', sliders)
    planted.lacks("claim.script has no slider", "moves/claim.html", sliders)


def rows_are_missed(planted: Planted) -> None:
    """A sentence of README without its row, a row without its sentence, and one that names no
    law."""
    rows = carried.proved()
    words = next(iter(rows))
    other = dict(list(rows.items())[1:])
    for wrong, said in ((other, "has no row, or two, of README's"),
                        (rows | {"No such sentence": []}, "and README no such sentence"),
                        (rows | {words: [("aia_laws", "no_such_law")]}, "which is not there")):
        with mock.patch.object(carried, "proved", return_value=wrong):
            found = planted.looks(siting.laws)
        planted.trial.sees(any(said in line for line in found), f"not told: {said}: {found[:3]}")


def is_out_of_reach(planted: Planted) -> None:
    """A page to which no link leads."""
    planted.site.pages["alone.html"] = siting.Page("alone.html", "<h1>alone</h1>")
    found = planted.looks(siting.out_of_reach)
    planted.trial.sees(found == ["no links lead from the start page to alone.html"],
                       f"a page that is alone is not told: {found[:3]}")
    del planted.site.pages["alone.html"]


# What is planted for the browser: into which file, which text for which, and what is to be told.
ENDS = "stays as it is"
SEEN_IN_A_BROWSER = [
    ("site.js", "", "", ENDS),
    ("site.js", 'say("answer", answer)', 'say("answer", text)', "shows what the program does not"),
    ("site.js", "go(Number(slide.value) + 1)", "go(slide.max)", "after a press on #on"),
    ("site.js", "veil.style.left = `${edge}px`;", "", "draws no more of its picture at its end"),
    ("site.css", "", "sup.laws { display: none }\n", "no press on the start page leads to"),
    ("site.css", "", "main { width: 900px }\n", "pixels wide where the screen has 360"),
    ("index.html", f'href="{LAW}#no_notice_is_lost.sent"', f'href="{LAW}"', "no press on the"),
    (LAW, 'id="no_notice_is_lost.sent"', "", "is not seen behind a press"),
    (LAW, '<li class="leaves">', "<li>", "does not unfold"),
    ("site.js", "if (head) fill(head.parentElement);", "", "does not show the text of t0"),
    ("site.js", "if (row) link.setAttribute(", "if (!row) link.setAttribute(", "leads to a row"),
    (THEOREM, 'class="believed"', 'class="believed" style="display: none"',
     "does not show what has to be"),
    (LAW, '<li class="again"><a href="#t', '<li class="again"><a href="#u', "stands nowhere in it"),
    (LAW, "<main>", '<main><p id="twice"></p><p id="twice"></p>', "has two places twice"),
    (LAW, "<main>", '<main><a href="nosuch.html">x</a>', "nosuch.html, which is not there"),
    (LAW, "<main>", '<main><a href="#nosuch">x</a>', "#nosuch, and there is no such place"),
    (LAW, "<main>", "<main><script>nosuch()</script>", "a script of the site fails"),
]
# The pages that are opened there.
OPENED = ("index.html", THEOREM, LAW, clicking.SLIDER)


def in_a_browser(trial: Trial, folder: Path) -> None:
    """A site as it is made, and one with each fault that shows in a browser; and a browser that
    ends at once. Of what the browser writes nothing is left."""
    program = browsing.installed()
    if not program:
        print("chromium is not installed: no fault was looked for in a browser", flush=True)
        return
    site = siting.Pages(folder)
    site.pages = {place: site.pages[place] for place in OPENED}
    with mock.patch.object(clicking, "FITTING", ("index.html",)):
        for place, old, new, said in SEEN_IN_A_BROWSER:
            path = folder / place
            text = path.read_text(encoding="utf-8")
            trial.sees(old in text, f"{place} has no {old!r}, where a fault was to be planted")
            path.write_text(text.replace(old, new) if old else text + new, encoding="utf-8")
            found, _ = clicking.faults(site, program, trial.folder / "browser", trial.workers)
            path.write_text(text, encoding="utf-8")
            lines = [line for of in found.values() for line in of]
            trial.sees(not lines if said == ENDS else any(said in line for line in lines),
                       f"in a browser {new!r} in {place} is not told: {lines[:3]}")
    fake = trial.folder / "fake"
    fake.mkdir()
    (fake / "chromium").write_text("#!/bin/sh\nexit 0\n", encoding="utf-8")
    (fake / "chromium").chmod(0o755)
    ran = trial.run("env", f"PATH={fake}:{os.environ['PATH']}", SITE, folder, seconds=LONGEST)
    trial.sees(ran.status == 2 and "the browser ended" in ran.errors,
               f"with a browser that ends at once suite/site ends with {ran.status}: {ran.errors}")


def tells_faults(trial: Trial) -> None:
    """A site as it is made is right, and each fault that is planted in it is told."""
    if not shutil.which("pandoc"):
        print("pandoc is not installed: no site was made", flush=True)
        return
    folder = trial.folder / "site"
    ran = trial.run(MAKER, folder, seconds=LONGEST)
    trial.sees(ran.status == 0, f"docs/make/site ends with {ran.status}: {ran.errors}")
    if ran.status:
        return
    planted = Planted(trial, folder)
    for kind, lines in siting.faults(planted.site, trial.workers).items():
        trial.sees(not lines, f"a site as it is made has wrong {kind}: {lines[:3]}")
    plants(planted, trial.workers)
    rows_are_missed(planted)
    is_out_of_reach(planted)
    in_a_browser(trial, folder)
    (folder / "docs/PROMISES.html").unlink()
    ran = trial.run("env", without(trial), SITE, folder, seconds=LONGEST)
    said = ran.output.decode()
    trial.sees(ran.status == 1 and "docs/PROMISES.html, which is not there" in said
               and "no page was opened in a browser" in said,
               f"suite/site of a site without a page ends with {ran.status}: {said[-200:]}")
    ran = trial.run("env", "PROGRAM=/nosuch/program", SITE, folder)
    trial.sees(ran.status == 2 and ran.errors, f"suite/site with no program: {ran.status}")


PARTS = (refuses_to_make, tells_faults)
