"""Writes the file PROVED of a release: of which commit and by which toolchain it is made, what was
proved of what it holds, and what is trusted with it. It is made of the documents, and says no more.

    proved.py VERSION COMMIT 0|1 TOOLCHAIN FOLDER NAME=built|given..

1 says that the tree had changes; TOOLCHAIN is what `rt version` prints, or nothing. FOLDER has what
is released; each NAME, of aia, plans and library, was built by the release, or given to it.
"""

from __future__ import annotations

import hashlib
import os
import re
import sys
import textwrap
import time
from collections.abc import Iterator
from pathlib import Path

from lemdwab.documents.checks import CRATES, libraries
from lemdwab.documents.markdown import read, rows, section

# What each name stands for: its files, the crate that it is built of, and its launcher.
BUILT = {"aia": (["lib/lemdwab/aia"], "aia"), "plans": (["lib/lemdwab/plans"], "plans"),
         "library": (["lib/libaia.a", "lib/libaia.so.1"], "aia_c")}


def told(text: str, indent: str = "") -> str:
    """Gives a text in lines of a hundred columns."""
    return textwrap.fill(" ".join(text.split()), 100, initial_indent=indent,
                         subsequent_indent=indent, break_long_words=False, break_on_hyphens=False)


def unlinked(text: str) -> str:
    """Gives a text of a document without its pictures, and links as what they are called."""
    text = re.sub(r"(?m)^!\[[^\]]*\]\([^)]*\)\n*", "", text)
    return re.sub(r"\[([^\]]*)\]\([^)]*\)", r"\1", text).strip()


def order_of(crate: str, uses: dict[str, list[str]]) -> list[str]:
    """Lists the crates on which one stands, each after those that it uses, and last itself."""
    found = []

    def visit(each: str) -> None:
        if each in uses and each not in found:
            for used in sorted(uses[each]):
                visit(used)
            found.append(each)

    visit(crate)
    return found


def head(version: str, commit: str, is_dirty: bool, toolchain: str) -> Iterator[str]:
    """Says which version of which commit it is, and by which toolchain."""
    day = time.strftime("%Y-%m-%d", time.gmtime(int(os.environ["SOURCE_DATE_EPOCH"])))
    yield f"Lemdwab {version}: what was proved of this release\n"
    yield f"Version    {version}"
    yield f"Commit     {commit}, of {day}"
    if is_dirty:
        yield "           and the tree had changes that no commit has, which are in this release"
    yield "Toolchain  " + (f"{toolchain}, as `rt version` said where this was packed" if toolchain
                           else "no rt was on the path where this was packed; README.md names one")


def files(folder: Path, origins: dict[str, str]) -> Iterator[str]:
    """Says of each built file which one it is, and how it came here."""
    yield "\nTHE BUILT FILES\n"
    for name, origin in origins.items():
        for file in BUILT[name][0]:
            yield f"{hashlib.sha256((folder / file).read_bytes()).hexdigest()}  {file}"
        yield told(f"built from this tree by ./{name}, which proves its crates first, and builds"
                   " nothing of one that is not proved" if origin == "built" else
                   "given to the maker of the release, who did not see of which commit it was"
                   " built, nor that it was proved", "    ") + "\n"
    yield told("The programs stand here byte for byte as the toolchain made them. libaia.a has its"
               " libaia_c.a, and its calls of the C library, liblibc_c.a. cc and ld, no part of it,"
               " made libaia.so.1 of these.")


def crates(origins: dict[str, str]) -> Iterator[str]:
    """Says which crates are in what is built, and what each promises."""
    uses = libraries()
    said: dict[str, list[str]] = {}
    for row in rows(section(CRATES, "The crates")):
        for name in re.findall(r"`(\w+)`", row[0]):
            said.setdefault(name, row)
    yield "\nTHE CRATES\n"
    seen = []
    for name in origins:
        order = order_of(BUILT[name][1], uses)
        yield told(f"{name} is built of these {len(order)}, in an order in which each stands after"
                   f" those that it uses: {', '.join(order)}.") + "\n"
        seen += [each for each in order if each not in seen]
    yield f"What each promises, as {CRATES} has it; docs/promises has every clause:\n"
    for each in seen:
        does, promises = [*said[each][1:], ""][:2]
        yield f"{each}\n{told(unlinked(promises or does), '    ')}"
    others = [each for each in uses if each not in seen]
    yield "\n" + told(
        "Not in what is built are the crates that look at these alone: "
        f"{', '.join(others)}. Some have laws of the definitions. The gate of the repository, `rt"
        " ci`, proves them, and the tests. To make a release is not to run it: nothing is said here"
        " of whether it was.")


def main() -> None:
    version, commit, dirty, toolchain, folder, *named = sys.argv[1:]
    origins = dict(each.split("=") for each in named)
    parts = [*head(version, commit, dirty == "1", toolchain), *files(Path(folder), origins),
             *crates(origins)]
    parts.append("\nWHAT IS PROVED, as README.md has it\n")
    parts.append(unlinked(section("README.md", "What is proved")))
    parts.append("\nWHAT IS TRUSTED, as docs/PROMISES.md has it\n")
    parts.append(unlinked(section("docs/PROMISES.md", "What is trusted")))
    parts.append("\nEACH STATEMENT\n")
    parts.append(unlinked(read("docs/PROMISES.md").split("\n## ")[0].partition("\n")[2]))
    print("\n".join(parts))


if __name__ == "__main__":
    main()
