"""What each script of the suite and of the examples tests, as suite/classes.txt has it, and which
of them a machine of given sizes can be asked."""

from __future__ import annotations

from collections.abc import Iterator
from pathlib import Path
from typing import TYPE_CHECKING, NamedTuple

from lemdwab.running import TOP, fail, sure

if TYPE_CHECKING:
    from lemdwab.comparing import Options

TABLE = TOP / "suite/classes.txt"
SUITE, EXAMPLES = TOP / "crates/aia_script_tests/data/suite", TOP / "examples"
STANDARD, CLASSES = "standard", ("standard", "profile", "text")
DELIVERIES = {"direct": "direct delivery", "msis": "delivery by MSIs"}
MOST_BITS = 8
PARTS = ("harts", "guest files", "identities", "sources")


class Needs(NamedTuple):
    """What a machine has to have at least: its sizes, a delivery or any, the bits of a priority."""

    sizes: tuple[int, int, int, int]
    delivery: str
    bits: int

    def lacks(self, has: Needs | Options) -> str:
        """Says what a machine that has this lacks; nothing where it has all."""
        for part, wanted, found in zip(PARTS, self.sizes, has.sizes or self.sizes):
            if wanted > found:
                return f"more {part}"
        if self.delivery and has.delivery not in ("", self.delivery):
            return DELIVERIES[self.delivery]
        return "more bits of priorities" if self.bits > has.bits else ""


def needs_of(words: str) -> Needs | None:
    """Reads what a standard script needs, None where the words say no such thing."""
    found = words.split()
    sizes, rest = found[:4], found[4:]
    delivery = rest.pop(0) if rest[:1] and rest[0] in DELIVERIES else ""
    bits = rest or ["1"]
    if len(sizes) < 4 or len(bits) > 1 or not all(map(str.isdecimal, [*sizes, *bits])):
        return None
    harts, files, greatest, sources = map(int, sizes)
    return Needs((harts, files, greatest, sources), delivery, int(bits[0]))


def scripts() -> dict[str, Path]:
    """Lists all scripts by their names in the table."""
    return {("examples/" if folder is EXAMPLES else "") + path.stem: path
            for folder in (SUITE, EXAMPLES) for path in sorted(folder.glob("*.script"))}


def rows(text: str) -> Iterator[list[str]]:
    """Lists the rows of the table: a name, a class, and words."""
    for line in text.splitlines():
        if line and not line.startswith("#"):
            yield ([*line.split(None, 2), "", ""])[:3]


def drifts(text: str | None = None) -> Iterator[str]:
    """Says where the table is wrong: each script has one row, and each row a script, a class and
    words that say why, or what the script needs."""
    names, seen = scripts(), set()
    for name, kind, words in rows(TABLE.read_text(encoding="ascii") if text is None else text):
        if name in seen:
            yield f"suite/classes.txt: {name} stands in it twice"
        seen.add(name)
        if name not in names:
            yield f"suite/classes.txt: there is no script {name}"
        if kind not in CLASSES:
            yield f"suite/classes.txt: {name}: {kind or 'nothing'} is no class"
        elif not words or kind == STANDARD and not needs_of(words):
            yield f"suite/classes.txt: {name}: it says not {'what it needs' if words else 'why'}"
    for name in names:
        if name not in seen:
            yield f"suite/classes.txt: {name} has no row"


def standard() -> dict[Path, Needs]:
    """Gives what each script needs that every right machine answers alike, by its path."""
    for wrong in drifts():
        fail(wrong)
    names = scripts()
    return {names[name]: sure(needs_of(words))
            for name, kind, words in rows(TABLE.read_text(encoding="ascii")) if kind == STANDARD}
