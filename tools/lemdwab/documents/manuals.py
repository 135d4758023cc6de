"""Makes a manual page of what the launchers, the library's header and the documents say.

    manuals.py aia|plans|libaia VERSION TIME

TIME is the day of the page, in seconds since 1970. A page begins with its launcher's help, and goes
on with a document: nothing is written for the page alone. Prints it, in the macros of `man`.
"""

from __future__ import annotations

import re
import subprocess
import sys
import time
from typing import NamedTuple

from lemdwab.documents.markdown import read
from lemdwab.documents.troff import Page, taken
from lemdwab.running import TOP

HEADER = "include/aia.h"


class Source(NamedTuple):
    """What a page is made of: its section, its launcher, and a document."""

    section: int
    launcher: str
    document: str


SOURCES = {"aia": Source(1, "aia", "docs/REFERENCE.md"),
           "plans": Source(1, "plans", "docs/PLANS.md"),
           "libaia": Source(3, "library", "docs/LIBRARY.md")}


def help_of(launcher: str) -> tuple[str, list[list[str]], str]:
    """Gives a launcher's help: what it is in one line, its forms with what each does, and the
    paragraphs below them."""
    said = subprocess.run([str(TOP / launcher), "--help"], capture_output=True, text=True,
                          check=True, timeout=60).stdout
    first, _, rest = said.partition("\n")
    table, _, below = rest.strip("\n").partition("\n\n")
    forms = []
    for line in table.split("\n"):
        form, _, does = line[4:].partition("  ")
        if form:
            forms.append([form, does.strip()])
        else:
            forms[-1][1] += " " + does.strip()
    return first.partition(": ")[2], forms, below


def pieces(text: str) -> list[tuple[str, list[str]]]:
    """Gives the comments of a header, each with the declarations that stand below it."""
    found: list[tuple[str, list[str]]] = []
    lines = text.split("\n")
    while lines:
        line = lines.pop(0)
        if line.startswith("/*"):
            said = [line]
            while "*/" not in said[-1]:
                said.append(lines.pop(0))
            found.append((uncommented(said), []))
        elif line.startswith("#define ") and " " in line[8:]:
            found[-1][1].append(line)
        elif re.match(r"[a-z]", line) and not line.startswith("extern"):
            found[-1][1].append("\n".join([line, *taken_to_end(line, lines)]))
    return found


def taken_to_end(line: str, lines: list[str]) -> list[str]:
    """Takes the rest of a declaration off the front of lines."""
    if line.endswith(";"):
        return []
    return [*taken(lines, lambda each: not re.match(r".*\);$|\};$", each)), lines.pop(0)]


def uncommented(lines: list[str]) -> str:
    """Gives the text of a comment of C, as a document has it."""
    text = "\n".join(lines).removeprefix("/*").removesuffix("*/")
    return re.sub(r"(?m)^ \*(?: |$)", "", text).strip()


def put_constants(page: Page, said: str) -> None:
    """Puts the constants of an enumeration, each with its comment; all of it as it stands where
    they have none."""
    rows = re.findall(r"(\w+ = \d+),?\s*/\* (.*?) \*/", said)
    if not rows:
        page.block(said.split("\n"))
    for constant, means in rows:
        page.tagged(f"`{constant}`", means)


def put_calls(page: Page, found: list[tuple[str, list[str]]]) -> None:
    """Puts the calls of the library, with what the header says of each."""
    page.section("Calls")
    for said, declared in found:
        if said.startswith("----"):
            page.subsection(said.strip("- ").partition(":")[0])
            page.paragraph(said.partition(": ")[2])
        elif len(declared) == 1 and "{" in declared[0]:
            page.document(said)
            put_constants(page, declared[0])
        else:
            for each in declared:
                page.tagged(f"`{' '.join(each.split())}`", said)


def put_library(page: Page, what: str) -> None:
    """Puts the page of the library: its calls, and its document."""
    head, *rest = pieces(read(HEADER))
    calls = re.findall(r"(?m)^\w[\w ]*[ *](aia_\w+)\(", read(HEADER))
    page.section("Name")
    page.lines.append(f"{', '.join(['libaia', *calls])} \\- {what}")
    page.section("Synopsis")
    page.block(["#include <aia.h>", "", "cc PROGRAM.c $(pkg-config --cflags --libs aia)"])
    page.section("Description")
    page.document(head[0].partition("\n\n")[2])
    put_calls(page, rest)


def put_program(page: Page, name: str, what: str, forms: list[list[str]], below: str) -> None:
    """Puts the page of a program, by its launcher's help."""
    page.section("Name")
    page.lines.append(f"{name} \\- {what}")
    page.section("Synopsis")
    page.block([form for form, _ in forms])
    page.section("Description")
    for form, does in forms:
        if does:
            page.tagged(f"`{form}`", does)
    page.document(below)


def main() -> None:
    name, version, seconds = sys.argv[1:]
    source = SOURCES[name]
    day = time.strftime("%Y-%m-%d", time.gmtime(int(seconds)))
    page = Page(name, source.section, day, f"Lemdwab {version}")
    what, forms, below = help_of(source.launcher)
    if name == "libaia":
        put_library(page, what)
    else:
        put_program(page, name, what, forms, below)
    title, _, text = read(source.document).partition("\n")
    page.section(title.strip("# "))
    page.document(text)
    sys.stdout.write(page.text())


if __name__ == "__main__":
    main()
