"""draw: prints a script's moves as a picture.

    draw [--svg] [--lines FIRST-LAST] SCRIPT

A line of the picture is a line of the script that moved a virtual hart, asked it for something, or
told the host; a column is a virtual hart, named by its VM and its number, as 0.1. It says where the
virtual hart is, each step of its moves by its name (docs/MOVES.md has these), the identity that
each store asks for and where the store went, what it claims, and which identity told the host. With
--svg it is turned on its side, a row a virtual hart, and printed as SVG. With --lines it begins and
ends at lines of these numbers, though all lines before are run. Refused lines do nothing and are
not drawn.

The answers are those of the model written apart (peers/README.md), which is watched as it runs: no
program is needed. Ends with status 2 where words are wrong, SCRIPT can't be read, or moves nothing
there. Needs Python 3.10 or later.
"""

from __future__ import annotations

import re
from pathlib import Path

from lemdwab import drawing, running


def main() -> int:
    given, rest, _ = running.words("", "svg", "lines=")
    span = re.fullmatch("([0-9]{1,9})-([0-9]{1,9})", given.get("lines", "1-999999999"))
    if not span:
        running.usage(f"--lines is FIRST-LAST, as 31-49, and not {given['lines']!r}")
    if len(rest) != 1:
        running.usage(f"one SCRIPT is wanted, and not {len(rest)}")
    script = running.contents(rest[0])
    found, names = drawing.watched(script, int(span[1]), int(span[2]))
    if not found:
        is_dos = 0 < script.count(b"\n") == script.count(b"\r\n")
        running.fail(f"no line of {rest[0]} there is about a virtual hart"
                     + ": each line ends in CR, and so none is read" * is_dos)
    if "svg" in given:
        print(drawing.in_svg(found, names, Path(rest[0]).name), end="")
    else:
        print(drawing.in_text(found, names), end="")
    return 0
