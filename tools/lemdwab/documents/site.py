"""site: writes the documents, definitions, laws and examples as a site of pages with links.

    docs/make/site FOLDER

FOLDER is empty, or not there yet in a folder that is. FOLDER/index.html is the start page. The
pages need no network and no server, and scripts of theirs only for the sliders, to find names, and
to show the texts of definitions in trees.

What stands in a page is read off the repository: the documents, the definitions of crates/*/specs,
the laws and public calls of crates/*/src with their clauses, and the examples. These are answered
by the program of the variable PROGRAM or, without one, by peers/apart/model.py, and each page says
by which. Takes half a minute or so. Ends with status 2 where it can't write the site: where words
are wrong, or a package is missing. Needs Python 3.10 or later, git, and pandoc (Debian: apt-get
install pandoc).
"""

from __future__ import annotations

import sys
from pathlib import Path
from typing import TYPE_CHECKING

from lemdwab import running
from lemdwab.documents import (site_definitions, site_documents, site_laws, site_pages,
                               site_scripts, site_theorem, site_trees)
from lemdwab.documents.carried import all_functions, keys_in
from lemdwab.running import TOP

if TYPE_CHECKING:
    from lemdwab.documents.site_pages import Site

HERE = TOP / "docs/make"


def checked(word: str) -> Path:
    """Gives the folder that a word names, where a site may be written into it."""
    folder = Path(word)
    if not folder.parent.is_dir():
        running.fail(f"there is no folder {folder.parent}")
    if folder.exists() and (not folder.is_dir() or any(folder.iterdir())):
        running.fail(f"{folder} is no empty folder")
    return folder


def made() -> Site:
    """Gives the site, of which nothing is written yet."""
    site = site_pages.Site()
    for name in site_pages.ASSETS:
        site.files[name] = (HERE / name).read_bytes()
    site_pages.Prose.make([*site_definitions.comments(), *site_laws.comments(),
                           site_theorem.headline_words()])
    site_documents.make(site)
    site_laws.make(site)
    site_theorem.make(site)
    site_trees.make(site)
    functions = [(one, site_laws.place_of(one), keys_in(one)) for one in all_functions()]
    site_definitions.make(site, functions)
    with running.Workers(1) as workers:
        site_scripts.make_examples(site, workers)
    site_scripts.make_peers(site)
    return site


def main() -> int:
    _, rest, _ = running.words("")
    if len(rest) != 1:
        running.usage("one FOLDER is wanted")
    if not site_pages.prepared():
        running.fail("pandoc is missing, which makes HTML of the documents; Debian has it:"
                     " apt-get install pandoc")
    site_scripts.check_program()
    folder = checked(rest[0])
    try:
        site = made()
    except SystemExit as wrong:
        running.fail(wrong.code) if isinstance(wrong.code, str) else sys.exit(wrong.code)
    site.put(folder)
    pages = sum(place.endswith(".html") for place in site.files)
    print(f"{pages} pages; the first is {folder / 'index.html'}")
    return 0
