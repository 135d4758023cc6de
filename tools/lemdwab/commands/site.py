"""site: sees that docs/make/site makes a site whose links lead somewhere.

    site [FOLDER]      makes a site in a folder of its own, or takes the one that stands in FOLDER

Looks for dead links and anchors, and for what a page loads from elsewhere; that links lead from the
start page to each page, each law, and what carries each sentence of README's 'What is proved'
(docs/make/proved.txt); that each module, law and public call stands there as in its source; that
the tree of each law and of the theorem ends, and leaves out nothing that its lines name; that each
word in which a tree ends leads to its row, and each row of a tree has its sentence and its text;
that the theorem's page has the box of what has to be believed, with each chapter's count of lines,
and leads to the forms of lines with their answers; and that the sliders show what the program
answers. The program is that of the variable PROGRAM, or without one peers/apart/model.py, as the
site has it.

Where chromium is installed all this is looked at in it too, without a window: each page is opened,
its links are followed to a place, and its tree is unfolded by clicks down to its ends; a press of
the mouse on the start page has to lead to each law and clause that carries a sentence of README,
and to what has to be believed; rows of a law's tree that are pressed show their texts;
each slider is moved over all its lines, and shows what the program answers; eight pages fit a small
screen, in light and dark; no script fails, and nothing outside the site is asked for. Where it is
not installed it says so. The browser has ten minutes, and what it writes is taken away.

Prints a line for each thing that is wrong, how much was looked at in the browser, and how many
things are wrong. Takes some five minutes. Ends with status 1 where something is wrong, 2 where it
could not look: words are wrong, a package is missing, or the browser ends or takes too long. Needs
Python 3.10 or later, git, and pandoc; Debian has chromium too.
"""

from __future__ import annotations

import tempfile
from pathlib import Path

from lemdwab import browsing, clicking, running, siting
from lemdwab.documents import site_scripts
from lemdwab.running import TOP

MAKER = TOP / "docs/make/site"
# How long the site may take to be made, in seconds.
LONGEST = 300


def made(workers: running.Workers, folder: Path) -> Path:
    """Makes a site in a folder; gives that."""
    ran = workers.submit(running.run, [str(MAKER), str(folder)], b"", LONGEST, 1 << 16).result()
    if ran.stopped or ran.status:
        running.fail(ran.errors.removeprefix("site: ") or ran.fault())
    return folder


def main() -> int:
    _, rest, _ = running.words("")
    if len(rest) > 1 or rest and not (Path(rest[0]) / "index.html").is_file():
        running.usage("one FOLDER at most is wanted" if len(rest) > 1
                      else f"there is no site in {rest[0]}")
    site_scripts.check_program()
    with running.Workers(1) as workers, tempfile.TemporaryDirectory() as own:
        folder = Path(rest[0]) if rest else made(workers, Path(own) / "site")
        site = siting.Pages(folder)
        found = siting.faults(site, workers)
        program = browsing.installed()
        if program:
            more, counts = clicking.faults(site, program, Path(own) / "browser", workers)
            found |= {f"{kind} in the browser": lines for kind, lines in more.items()}
            print("in the browser: " + ", ".join(f"{n} {what}" for what, n in counts.items()))
        else:
            print("chromium is not installed: no page was opened in a browser")
        wrong = siting.tell(found)
    print(f"{len(site.pages)} pages, {running.counted(wrong, 'thing')} wrong")
    return 1 if wrong else 0
