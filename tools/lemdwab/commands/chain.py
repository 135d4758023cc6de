"""chain: sees that no chain of crates is longer than eight.

    chain

Reads crates.txt: each crate stands on those behind its name, and of a chain each crate stands on
the one before it. For each crate on which no other stands, a program, a library or a crate of
tests, it prints how many crates its longest chain has, and one such chain, the lowest crate first.
Ends with status 1 where one has more than eight, and with 2 where crates.txt can't be read, names a
crate twice, or has a ring of crates. It needs Python 3.10 or later, reads that one file, ends
within a minute and prints at most 200 lines.
"""

from __future__ import annotations

import signal

from lemdwab import running

MOST = 8
LONGEST_RUN = 60
MOST_LINES = 200


def below_each(text: str) -> dict[str, list[str]]:
    """Gives the crates, in order, each with those of them on which it stands."""
    found = {}
    for number, line in enumerate(text.splitlines(), 1):
        name, colon, others = line.partition("#")[0].partition(":")
        if not name.strip():
            continue
        crate = name.split()[0]
        if not colon or crate in found:
            running.fail(f"crates.txt, line {number}: no crate, or one that stands there already")
        found[crate] = others.split()
    if not found:
        running.fail("crates.txt names no crate")
    return {crate: [other for other in others if other in found] for crate, others in found.items()}


def chains(below: dict[str, list[str]]) -> dict[str, list[str]]:
    """Gives the longest chain of each crate, the lowest crate first."""
    found: dict[str, list[str]] = {}
    begun: list[str] = []

    def chain(crate: str) -> list[str]:
        if crate in begun:
            ring = " ".join(begun[begun.index(crate):])
            running.fail(f"crates.txt: these stand on one another: {ring}")
        if crate not in found:
            begun.append(crate)
            found[crate] = max(map(chain, below[crate]), key=len, default=[]) + [crate]
            begun.pop()
        return found[crate]

    for crate in below:
        chain(crate)
    return found


def main() -> int:
    running.command_given()
    signal.alarm(LONGEST_RUN)
    below = below_each(running.contents(running.TOP / "crates.txt").decode("utf-8", "replace"))
    longest = chains(below)
    lower = {other for others in below.values() for other in others}
    ends = sorted((c for c in below if c not in lower), key=lambda c: (-len(longest[c]), c))
    said = [f"{len(longest[c])} {c}: {' '.join(longest[c])}" for c in ends]
    most = max(map(len, longest.values()))
    verdict = f"the longest chain has {most} crates, of {MOST} at most"
    print("\n".join(said[:MOST_LINES - 1] + [verdict]))
    return 1 if most > MOST else 0
