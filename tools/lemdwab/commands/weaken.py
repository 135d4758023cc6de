"""weaken: plants weakenings of laws and of their definitions, and says which are noticed.

    weaken [OPTION..] [CRATE [NAME..]]..  those of these crates; unless told of aia_laws,
                                          aia_isolation, plans_rules and each other crate whose laws
                                          have uses; behind a CRATE those alone of the laws and the
                                          definitions of these names
    weaken --list [CRATE [NAME..]]..      lists them, and what came of each before

A law that says less is still proved, and nothing that stands on it need fail. So it has uses: the
functions of crates that end in `_uses`, and of modules called `uses`, call it, and their answers
apply its clauses. Four kinds are planted:

    premise    a clause has a premise more, that never holds
    dropped    a clause says nothing
    narrower   a definition holds of less, where the laws say less then, as in a premise: each
               equation never holds, or is false, and a record has a field more that there never is
    wider      one holds of more, as in what follows: each equation always holds, or is true, and
               what a field of a record says is nothing

The first two need no proof: a use that cites the clause notices, and no other. The others are
planted in a copy of the crates, in which the uses are moved into the crate of the laws, so that one
`rt check` tells of a law and of its uses. Of each plant is said that it is `noticed`, and by which
uses; `OWN PROOF ALONE`, where the law's own proof is refused and no use: whoever weakens a law
mends its proof; `UNNOTICED`, where nothing is refused; or that it was not tried, and why. What was
tried is kept by the sums of the crate's own files, of its uses and of the plant, so that a second
run goes on where the first stopped. A change of a crate below is not seen: --anew tries all again.

    --kind KIND,..   plants of these kinds alone
    --at-once N      so many side by side, each in a copy of its own, 1 unless told
    --minutes N      begins no check after so many minutes, 60 unless told
    --seconds N      stops the check of a plant after so many seconds, 900 unless told
    --anew           tries again what was tried before
    --kept FOLDER    keeps what was tried in FOLDER/tried.txt; unless told in the folder
                     lemdwab-weaken of $XDG_CACHE_HOME, or of ~/.cache

A plant takes a quarter of a minute or more, once the copy is proved. Ends with status 0 where a use
notices each, 1 where none notices one, 2 where it could not look: words are wrong, there is no rt,
the crate is not proved with nothing planted, or one was not tried. Needs Python 3.10 or later.
"""

from __future__ import annotations

import hashlib
import re
import tempfile
import time
from collections.abc import Iterator
from concurrent.futures import FIRST_COMPLETED, Future, wait
from pathlib import Path
from typing import TYPE_CHECKING, NamedTuple

from lemdwab import running, using, weakening
from lemdwab.keeping import (UNTRIED, Kept, Verdict, bounds_of, check_rt, copied, crate_named,
                             kept_folder)
from lemdwab.running import TOP

if TYPE_CHECKING:
    from lemdwab.weakening import Plant

ALWAYS = ("aia_laws", "aia_isolation", "plans_rules")
NOTICED, OWN, UNNOTICED = KINDS = ("noticed", "OWN PROOF ALONE", "UNNOTICED")
# How many bytes a check may write.
MOST = 1 << 22
ERROR = re.compile(r"^(?:\./)?(\S+?):\d+:\d+: error: (.*)", re.M)
LOGIC = re.compile(r"^logic=(\S+)", re.M)
OPEN = re.compile(r"^fn \w+::(\S+): no proof: expected answers", re.M)


class Plan(NamedTuple):
    """How plants are tried: so many side by side, until when and how long."""

    at_once: int
    until: float
    seconds: int


# ---- what is asked for

def law_crates() -> list[str]:
    """Lists the crates whose laws are looked at unless told, in the order of crates.txt."""
    return [name for name in using.below() if name in ALWAYS
            or any(using.uses_of(clause) for clause in weakening.clauses(name))]


def read_words(words: list[str]) -> dict[str, set[str]]:
    """Reads of which crates, and of which laws and definitions of each, plants are asked for."""
    asked: dict[str, set[str]] = {}
    crate = None
    for word in words:
        if of := crate_named(word, using.below()):
            if not weakening.clauses(of):
                running.usage(f"crate {of} has no law")
            crate, _ = of, asked.setdefault(of, set())
        elif crate and any(plant.of == word for plant in weakening.plants(crate, weakening.KINDS)):
            asked[crate].add(word)
        else:
            running.usage(f"there is no crate {word!r}" + (
                f", and no law or definition of that name to weaken in {crate}" if crate else ""))
    return asked


def chosen(words: list[str], kinds: tuple[str, ...]) -> list[tuple[str, list[Plant]]]:
    """Lists the plants that are asked for, by crate."""
    asked = read_words(words) or {name: set() for name in law_crates()}
    return [(crate, [plant for plant in weakening.plants(crate, kinds)
                     if not names or plant.of in names])
            for crate, names in asked.items()]


def read_kinds(given: dict[str, str]) -> tuple[str, ...]:
    """Reads which kinds are asked for."""
    kinds = tuple(given.get("kind", ",".join(weakening.KINDS)).split(","))
    for kind in kinds:
        if kind not in weakening.KINDS:
            running.usage(f"there is no kind {kind!r}: there are {', '.join(weakening.KINDS)}")
    return kinds


# ---- what is known

def sum_of(crate: str) -> str:
    """Gives a sum of what tells of a crate's plants: its own files, and those of its uses."""
    made = hashlib.sha256()
    uses = [path for name in using.crates_of_uses() for path in using.movable_files(name, crate)]
    own = [path for part in ("src", "specs", "proofs")
           for path in weakening.sources(crate, part, "*")]
    for path in (*own, *uses):
        made.update(f"{path.relative_to(TOP)}\0".encode() + path.read_bytes() + b"\0")
    return made.hexdigest()[:32]


def total_of(total: str, plant: Plant) -> str:
    """Gives a sum of a plant, and of what tells of it."""
    return hashlib.sha256(f"{total}\0{plant.file}\0{plant.at}\0{plant.old}\0{plant.new}".encode()
                          ).hexdigest()[:32]


def of_clause(plant: Plant) -> Verdict:
    """Gives what comes of a plant of a clause: it is noticed by those that cite it."""
    uses = using.uses_of(running.sure(plant.clause))
    return Verdict(NOTICED, ", ".join(uses)) if uses else Verdict(UNNOTICED, "")


def sorted_out(crate: str, plants: list[Plant],
               kept: Kept) -> tuple[list[tuple[Plant, Verdict]], list[tuple[Plant, str]]]:
    """Divides the plants of a crate: those of which it is known what comes of them, and those to be
    tried, with their sums."""
    known, left, total = [], [], ""
    for plant in plants:
        if plant.clause:
            known.append((plant, of_clause(plant)))
            continue
        total = total or sum_of(crate)
        if before := kept.of(plant, total_of(total, plant)):
            known.append((plant, before))
        else:
            left.append((plant, total_of(total, plant)))
    return known, left


# ---- trying

def place_of(file: str) -> str:
    """Gives the module whose answers a file of proofs has, or the lemma file that it is."""
    parts = Path(file).with_suffix("").parts
    parts = parts[1:] if parts[:1] == ("proofs",) else parts
    return "::".join(parts[:-1] if parts[-1] == "Answers" else parts)


def is_dependent(said: str) -> bool:
    """Says whether an error only says that something else was refused."""
    return "which was not admitted" in said


def verdict_of(crate: str, ran: running.Ran) -> Verdict:
    """Gives what a check says of a plant."""
    text = ran.output.decode(errors="replace")
    errors = [error for error in ERROR.findall(text) if not is_dependent(error[1])]
    misread = [f"{file}: {said}" for file, said in errors if not file.startswith("proofs/")]
    places = {place_of(file): None for file, _ in errors} | dict.fromkeys(OPEN.findall(text))
    uses = [name.removeprefix(using.MODULE) for name in places if using.is_use(crate, name)]
    if ran.stopped:
        return Verdict(UNTRIED, ran.stopped)
    if misread:
        return Verdict(UNTRIED, f"it is not read: {misread[0]}")
    if not ran.status and LOGIC.findall(text)[-1:] == ["proved"]:
        return Verdict(UNNOTICED, "")
    if uses:
        return Verdict(NOTICED, ", ".join(uses))
    if places:
        return Verdict(OWN, ", ".join(places))
    said = [line for line in (text + "\n" + ran.errors).split("\n") if line.strip()]
    return Verdict(UNTRIED, f"rt ended with status {ran.status}" + (
        f": {said[-1].strip()}" if said else ""))


def check(copy: Path, crate: str, seconds: int) -> running.Ran:
    """Has rt check a crate in a copy; called by a worker."""
    return running.run(["env", "-C", str(copy / "crates" / crate), "rt", "check", "--jobs", "1"],
                       b"", seconds, MOST)


def made_ready(workers: running.Workers, crate: str, number: int, place: Path) -> list[Path]:
    """Makes copies, in which a crate has its uses; each is proved first with nothing planted."""
    copies = [place / f"{crate}-{at}" for at in range(number)]
    for copy in copies:
        copy.mkdir()
        copied(copy, using.wanted(crate))
        for uses in using.crates_of_uses():
            using.move(copy, uses, crate)
        ran = workers.submit(check, copy, crate, running.BUILDING).result()
        running.check_started(ran, ["rt"])
        if verdict_of(crate, ran).kind != UNNOTICED:
            running.fail(f"{crate} is not proved with its uses and nothing planted: "
                         + verdict_of(crate, ran).shown())
    return copies


def attempt(copy: Path, plant: weakening.Plant, seconds: int) -> tuple[Verdict, float]:
    """Plants in a copy, has it checked, and takes the plant out again; called by a worker. Gives
    what came of it, and how long it took."""
    path, began = copy / "crates" / plant.crate / plant.file, time.monotonic()
    text = path.read_text(encoding="utf-8")
    path.write_text(weakening.planted(text, plant), encoding="utf-8")
    try:
        ran = check(copy, plant.crate, seconds)
    finally:
        path.write_text(text, encoding="utf-8")
    return verdict_of(plant.crate, ran), time.monotonic() - began


def tried(workers: running.Workers, copies: list[Path], left: list[tuple[weakening.Plant, str]],
          plan: Plan, pace: running.Pace) -> Iterator[tuple[weakening.Plant, str, Verdict, float]]:
    """Yields each plant that is tried, its sum, what came of it and how long it took."""
    crate, left, done = left[0][0].crate, list(left), 0
    busy: dict[Future[tuple[Verdict, float]], tuple[Path, tuple[weakening.Plant, str]]] = {}
    while busy or (left and time.monotonic() < plan.until):
        free = [copy for copy in copies if copy not in [held for held, _ in busy.values()]]
        for copy in free if time.monotonic() < plan.until else ():
            if left:
                plant, total = left.pop(0)
                busy[workers.submit(attempt, copy, plant, plan.seconds)] = copy, (plant, total)
        ended, _ = wait(busy, timeout=max(1, pace.left()), return_when=FIRST_COMPLETED)
        for future in ended:
            _, (plant, total) = busy.pop(future)
            done += 1
            yield plant, total, *future.result()
        pace.tell(f"at {crate}, {done} tried")


def try_left(workers: running.Workers, left: list[tuple[weakening.Plant, str]], plan: Plan,
             pace: running.Pace) -> Iterator[tuple[weakening.Plant, str, Verdict, float]]:
    """Yields the same of plants of one crate, in copies that are made first and removed then."""
    if left and time.monotonic() < plan.until:
        crate, number = left[0][0].crate, min(plan.at_once, len(left))
        with tempfile.TemporaryDirectory(prefix="weaken-") as place:
            copies = made_ready(workers, crate, number, Path(place))
            yield from tried(workers, copies, left, plan, pace)


class Counts:
    """How many plants of each kind of each crate came to what."""

    def __init__(self) -> None:
        self.found: dict[tuple[str, str], dict[str, int]] = {}
        self.late = 0

    def add(self, plant: Plant, verdict: Verdict) -> None:
        """Counts a plant, and says what came of it."""
        row = self.found.setdefault((plant.crate, plant.kind), dict.fromkeys((*KINDS, UNTRIED), 0))
        row[verdict.kind] += 1
        print(f"{plant.crate} {plant.kind} {plant.name}: {verdict.shortened()}", flush=True)

    def total(self, kind: str) -> int:
        """Gives how many came to that."""
        return sum(row[kind] for row in self.found.values())

    def told(self) -> int:
        """Says how many came to what; gives the status."""
        for (crate, kind), row in self.found.items():
            print(f"{crate} {kind}: " + ", ".join(f"{count} {of}" for of, count in row.items()))
        print(", ".join(f"{self.total(of)} {of}" for of in (*KINDS, UNTRIED))
              + (f", {self.late} left for another run, since the minutes are over" if self.late
                 else ""))
        if self.total(OWN) or self.total(UNNOTICED):
            return 1
        return 2 if self.total(UNTRIED) or self.late else 0


def try_all(crates: list[tuple[str, list[weakening.Plant]]], kept: Kept, plan: Plan) -> int:
    """Tries the plants of crates, and says what came of each; gives the status."""
    counts, pace = Counts(), running.Pace()
    with running.Workers(plan.at_once) as workers:
        for crate, plants in crates:
            known, left = sorted_out(crate, plants, kept)
            for plant, verdict in known:
                counts.add(plant, verdict)
            counts.late += len(left)
            for plant, total, verdict, seconds in try_left(workers, left, plan, pace):
                counts.late -= 1
                kept.add(plant, total, verdict, seconds)
                counts.add(plant, verdict)
    return counts.told()


def list_all(crates: list[tuple[str, list[Plant]]], kept: Kept) -> int:
    """Lists the plants, and what came of each before; gives the status."""
    number = 0
    for crate, plants in crates:
        known, left = sorted_out(crate, plants, kept)
        found = {plant: verdict.shortened() for plant, verdict in known}
        for plant in plants:
            print(f"{crate} {plant.kind} {plant.name}" + (
                f": {found[plant]}" if plant in found else ""))
        number += len(known) + len(left)
    print(running.counted(number, "plant"))
    return 0


def main() -> int:
    given, names, _ = running.words("", "list", "anew", "kept=", "kind=", "at-once=", "minutes=",
                                    "seconds=")
    bounds = bounds_of(given, "1", 64, "900")
    crates = chosen(names, read_kinds(given))
    kept = Kept(kept_folder(given, "lemdwab-weaken"), "anew" in given, KINDS)
    if "list" in given:
        return list_all(crates, kept)
    if any(not plant.clause for _, plants in crates for plant in plants):
        check_rt()
    plan = Plan(bounds["at-once"], time.monotonic() + 60 * bounds["minutes"], bounds["seconds"])
    return try_all(crates, kept, plan)
