"""What the tools share that have the prover try plants: what came of each, and how it is kept from
one run to the next."""

from __future__ import annotations

import os
import re
import shutil
import time
from collections.abc import Iterable
from pathlib import Path
from typing import TYPE_CHECKING, NamedTuple

from lemdwab import running
from lemdwab.running import TOP

if TYPE_CHECKING:
    from lemdwab.documents.strength import Edit
    from lemdwab.weakening import Plant

UNTRIED = "not tried"
# How much of what was named is printed.
MOST_NAMED = 160


class Verdict(NamedTuple):
    """What came of a plant, and what was named, or why it was not tried."""

    kind: str
    named: str

    def shown(self) -> str:
        """Gives it in words."""
        return f"{self.kind}: {self.named}" if self.named else self.kind

    def shortened(self) -> str:
        """Gives it in words on one line, cut where it is long."""
        shown = " ".join(self.shown().split())
        return shown if len(shown) <= MOST_NAMED else shown[:MOST_NAMED - 2].rstrip() + ".."


def words_of_kept(line: str, kinds: tuple[str, ...]) -> tuple[str, str, str, Verdict] | None:
    """Reads a line of what was tried: the crate, the plant, the sum, and a verdict of these kinds;
    or nothing."""
    cells = line.split("\t")
    if len(cells) != 7 or cells[4] not in kinds:
        return None
    return cells[1], cells[2], cells[3], Verdict(cells[4], cells[6])


class Kept:
    """What was tried, in a file of lines."""

    def __init__(self, folder: Path, is_anew: bool, kinds: tuple[str, ...]) -> None:
        self.path = folder / "tried.txt"
        self.found: dict[tuple[str, str, str], Verdict] = {}
        if self.path.exists() and not is_anew:
            for line in running.contents(self.path).decode(errors="replace").splitlines():
                if read := words_of_kept(line, kinds):
                    self.found[read[:3]] = read[3]

    def of(self, plant: Edit | Plant, total: str) -> Verdict | None:
        """Gives what came of a plant before, where all has the same sum; or nothing."""
        return self.found.get((plant.crate, plant.name, total))

    def add(self, plant: Edit | Plant, total: str, verdict: Verdict, seconds: float) -> None:
        """Writes a line of a plant that was tried."""
        if verdict.kind == UNTRIED:
            return
        self.path.parent.mkdir(parents=True, exist_ok=True)
        at = time.strftime("%Y-%m-%d %H:%M:%S")
        named = " ".join(verdict.named.split())
        with self.path.open("a", encoding="utf-8") as file:
            file.write("\t".join((at, plant.crate, plant.name, total, verdict.kind,
                                  f"{seconds:.0f}", named)) + "\n")


def kept_folder(given: dict[str, str], name: str) -> Path:
    """Gives the folder where what was tried is kept: the one that is given, or one of a name."""
    if "kept" in given:
        return Path(given["kept"] or running.usage("a FOLDER is wanted behind --kept"))
    caches = os.environ.get("XDG_CACHE_HOME") or Path.home() / ".cache"
    return Path(caches) / name


def bounds_of(given: dict[str, str], at_once: str, most: int, seconds: str) -> dict[str, int]:
    """Reads how many plants are tried at once, for how many minutes, and for how many seconds each;
    `at_once` and `seconds` are what they are where they are not given."""
    return {name: running.number(given.get(name, usual), f"--{name}", least, greatest)
            for name, usual, least, greatest in (("at-once", at_once, 1, most),
                                                 ("minutes", "60", 0, 10_000),
                                                 ("seconds", seconds, 1, 86_400))}


def check_rt() -> None:
    """Ends the tool where there is no rt."""
    if not shutil.which("rt"):
        running.fail("there is no rt on the path, which proves and refuses")


def crate_named(word: str, every: Iterable[str]) -> str | None:
    """Gives the crate of these that a word names, or None; a folder is one."""
    name = word.rstrip("/").removeprefix("./").removeprefix("crates/")
    return name if name in every else None


def copied(place: Path, only: Iterable[str] = ()) -> None:
    """Copies the crates, or some only, into a folder, without edits and what was built."""
    for crate in sorted(path for path in (TOP / "crates").iterdir() if path.is_dir()):
        if not only or crate.name in only:
            shutil.copytree(crate, place / "crates" / crate.name, symlinks=True,
                            ignore=shutil.ignore_patterns("out", "data", "must-fail", "more-fail"))
    if (TOP / "HANDLES").is_file():
        shutil.copy(TOP / "HANDLES", place / "HANDLES")
    lines = running.contents(TOP / "crates.txt").decode().splitlines(keepends=True)
    kept = [line for line in lines if not only or re.split(r"\W", line, 1)[0] in ("", *only)]
    (place / "crates.txt").write_text("".join(kept), encoding="utf-8")
