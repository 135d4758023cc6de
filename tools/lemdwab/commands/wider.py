"""wider: tries the planted bugs of crates/*/more-fail, which the gate leaves out for its minutes.

    wider [OPTION..] [CRATE [EDIT..]]..  those of these crates, or of all, the lowest crate first;
                                         behind a CRATE some of its edits, by name, and no others
    wider --list [CRATE [EDIT..]]..      lists them, which can be made, and which were refused
                                         before

Each is a bug that the prover must refuse. They are given to `rt must-fail` some at a time, in a
copy of the crates under a temporary folder, which begins with what `rt check` kept. Of each is said
that it is refused, with what the prover named first; LET THROUGH, since the crate is proved with
the bug in it; or not tried, and why. What was tried is kept by the sums of the crate's own files
and of the edit, so that a second run goes on where the first stopped. A change of a crate below is
not seen: --anew tries all again.

    --at-once N      so many of a crate in one call of rt, 8 unless told; what it found is lost
                     where it is stopped
    --jobs N         so many side by side; unless told, what rt takes the machine to hold
    --minutes N      begins no call after so many minutes, 60 unless told
    --seconds N      stops a call after so many seconds, 3,600 unless told
    --anew           tries again what was tried before
    --kept FOLDER    keeps what was tried in FOLDER/tried.txt; unless told in the folder
                     lemdwab-wider of $XDG_CACHE_HOME, or of ~/.cache

An edit takes half a minute or more, and all some hours: run it where nothing else proves. Ends with
status 0 where all are refused, 1 where one is let through, 2 where it could not look: words are
wrong, there is no rt, or one was not tried. Needs Python 3.10 or later.
"""

from __future__ import annotations

import hashlib
import re
import shutil
import tempfile
import time
from concurrent.futures import Future, TimeoutError as StillRuns
from pathlib import Path
from typing import TYPE_CHECKING, NamedTuple

from lemdwab import running
from lemdwab.documents import strength
from lemdwab.keeping import (UNTRIED, Kept, Verdict, bounds_of, check_rt, copied, crate_named,
                             kept_folder)
from lemdwab.running import TOP

if TYPE_CHECKING:
    from lemdwab.documents.strength import Edit

PARTS = ("src", "specs", "proofs")
REFUSED, THROUGH = "refused", "LET THROUGH"
# How many bytes a call may write.
MOST = 1 << 22
TOLD = re.compile(r"(?:rt: )?must-fail (\w+)/([\w-]+)\.edit: (.*)")
BY_HEAD = (("refused, as it must be", REFUSED), ("NOT REFUSED", THROUGH),
           ("BAD EDIT", UNTRIED), ("NOT TRIED", UNTRIED))


class Plan(NamedTuple):
    """How edits are tried: so many in a call, so many side by side, until when and how long."""

    at_once: int
    jobs: str
    until: float
    seconds: int


def sum_of(top: Path, edit: Edit) -> str:
    """Gives a sum of a crate's own files and of an edit."""
    made, crate = hashlib.sha256(), top / "crates" / edit.crate
    for path in sorted(path for part in PARTS for path in (crate / part).rglob("*")):
        if path.is_file():
            made.update(f"{path.relative_to(crate)}\0".encode() + path.read_bytes() + b"\0")
    made.update(repr(edit.changes).encode())
    return made.hexdigest()[:32]


def layers() -> list[str]:
    """Lists the crates, those first that others stand on."""
    lines = running.contents(TOP / "crates.txt").decode().splitlines()
    return [match.group(1) for line in lines if (match := re.match(r"(\w+)[^#]*:", line))]


def read_words(words: list[str], every: dict[str, list[Edit]]) -> dict[str, list[str]]:
    """Reads which edits are asked for: of each crate the names behind it, all if there are none."""
    asked: dict[str, list[str]] = {}
    crate = None
    for word in words:
        name = word.rpartition("/")[2].removesuffix(".edit")
        if of := crate_named(word, {*every, *layers()}):
            if of not in every:
                running.usage(f"crate {of} has no edit in crates/{of}/{strength.WIDER}")
            crate, _ = of, asked.setdefault(of, [])
        elif crate is None:
            running.usage(f"there is no crate {word!r}")
        elif name in (edit.name for edit in every[crate]):
            asked[crate].append(name)
        else:
            running.usage(f"there is no crate {word!r}, and no edit of that name in"
                          f" crates/{crate}/{strength.WIDER}")
    return asked


def chosen(words: list[str]) -> list[tuple[str, list[Edit]]]:
    """Lists the edits that words ask for, or all where there are none, by crate."""
    every: dict[str, list[Edit]] = {}
    for edit in strength.edits(strength.WIDER):
        every.setdefault(edit.crate, []).append(edit)
    asked = read_words(words, every)
    order = {name: at for at, name in enumerate(layers())}
    crates = sorted(asked or every, key=lambda name: (order.get(name, len(order)), name))
    return [(name, [edit for edit in every[name]
                    if not asked.get(name) or edit.name in asked[name]]) for name in crates]


def named_in(said: str) -> str:
    """Gives the place and the goal that the prover named, or what else was said of a refusal."""
    said = said.removeprefix(":").strip()
    match = re.match(r"(?:note: )?(\S+:\d+:\d+): [^(]*(\(`[^`]*`\))", said)
    return f"{match.group(1)} {match.group(2)}" if match else said


def verdicts(crate: str, ran: running.Ran) -> dict[str, Verdict]:
    """Gives what a call of rt said of the edits of a crate, by their names."""
    found = {}
    for line in ran.output.decode(errors="replace").splitlines():
        match = TOLD.match(line)
        if match and match.group(1) == crate:
            for head, kind in BY_HEAD:
                if match.group(3).startswith(head):
                    said = match.group(3) if kind == UNTRIED else match.group(3)[len(head):]
                    found[match.group(2)] = Verdict(kind, named_in(said))
    return found


def waited_for(future: Future[running.Ran], pace: running.Pace, how_far: str) -> running.Ran:
    """Waits for a call, and says meanwhile how far the tool is."""
    while True:
        try:
            return future.result(timeout=max(1, pace.left()))
        except StillRuns:
            pace.tell(how_far)


def why_untold(ran: running.Ran) -> str:
    """Says why rt told nothing of an edit."""
    if ran.stopped:
        return ran.stopped
    lines = (ran.output.decode(errors="replace") + "\n" + ran.errors).split("\n")
    said = [line for line in lines if line.strip()]
    return f"rt ended with status {ran.status} and said nothing of it" + (
        f": {said[-1].strip()}" if said else "")


def call(workers: running.Workers, copy: Path, crate: str, edits: list[Edit], plan: Plan,
         how_far: tuple[running.Pace, str]) -> dict[str, Verdict]:
    """Has rt try some edits of a crate in the copy; gives the verdict on each, by its name."""
    place = copy / "crates" / crate / strength.TRIED
    shutil.rmtree(place, ignore_errors=True)
    place.mkdir()
    for edit in edits:
        shutil.copy(TOP / edit.path(), place)
    jobs = [f"RT_JOBS={plan.jobs}"] if plan.jobs else []
    command = ["env", "-C", str(copy), *jobs, "rt", "must-fail", crate]
    future = workers.submit(running.run, command, b"", plan.seconds, MOST)
    ran = waited_for(future, *how_far)
    running.check_started(ran, ["rt"])
    found = verdicts(crate, ran)
    return {edit.name: found.get(edit.name, Verdict(UNTRIED, why_untold(ran))) for edit in edits}


def tell(edit: Edit, verdict: Verdict) -> None:
    """Prints what came of an edit."""
    print(f"{edit.crate}/{edit.name}: {verdict.shortened()}", flush=True)


def sorted_out(copy: Path, edits: list[Edit], kept: Kept
               ) -> tuple[list[tuple[Edit, Verdict]], list[tuple[Edit, str]]]:
    """Divides the edits of a crate: the verdicts that are known, as kept or since they can't be
    made, and those to be tried, with their sums."""
    known, left = [], []
    for edit in edits:
        total = sum_of(copy, edit)
        if why := strength.misfit(edit.crate, edit.changes):
            known.append((edit, Verdict(UNTRIED, why)))
        elif before := kept.of(edit, total):
            known.append((edit, before))
        else:
            left.append((edit, total))
    return known, left


def try_all(workers: running.Workers, copy: Path, crates: list[tuple[str, list[Edit]]], kept: Kept,
            plan: Plan) -> tuple[dict[str, int], int]:
    """Tries the edits of crates; gives how many of each kind there are, and how many are left."""
    counts, late, pace = dict.fromkeys((REFUSED, THROUGH, UNTRIED), 0), 0, running.Pace()
    for crate, edits in crates:
        known, left = sorted_out(copy, edits, kept)
        for edit, verdict in known:
            counts[verdict.kind] += 1
            # What was refused before is counted alone.
            if verdict.kind != REFUSED:
                tell(edit, verdict)
        before = sum(verdict.kind == REFUSED for _, verdict in known)
        if before:
            print(f"{crate}: {running.counted(before, 'edit')} refused before", flush=True)
        for at in range(0, len(left), plan.at_once):
            some = left[at:at + plan.at_once]
            if time.monotonic() >= plan.until:
                late += len(some)
                continue
            began = time.monotonic()
            found = call(workers, copy, crate, [edit for edit, _ in some], plan,
                         (pace, f"at {crate}, {sum(counts.values())} told"))
            seconds = (time.monotonic() - began) / len(some)
            for edit, total in some:
                verdict = found[edit.name]
                counts[verdict.kind] += 1
                kept.add(edit, total, verdict, seconds)
                tell(edit, verdict)
    return counts, late


def list_all(crates: list[tuple[str, list[Edit]]], kept: Kept) -> int:
    """Lists the edits, whether they can be made, and whether they were refused before; gives the
    status."""
    faults = number = 0
    for crate, edits in crates:
        for edit in edits:
            why = strength.misfit(crate, edit.changes)
            faults, number = faults + bool(why), number + 1
            before = kept.of(edit, sum_of(TOP, edit))
            said = f"can't be made: {why}" if why else "can be made"
            said += f", {before.kind} before" if before and not why else ""
            print(f"{crate}/{edit.name}: {said}")
    print(f"{running.counted(number, 'edit')}, of which {faults} can't be made")
    return 2 if faults else 0


def told(counts: dict[str, int], late: int) -> int:
    """Says how many there are of each kind; gives the status."""
    line = ", ".join(f"{count} {kind}" for kind, count in counts.items())
    print(line + (f", {late} left for another run, since the minutes are over" if late else ""))
    return 1 if counts[THROUGH] else 2 if counts[UNTRIED] or late else 0


def main() -> int:
    given, names, _ = running.words("", "list", "anew", "kept=", "at-once=", "jobs=", "minutes=",
                                    "seconds=")
    bounds = bounds_of(given, "8", 100, "3600")
    jobs = given.get("jobs", "")
    if "jobs" in given:
        running.number(jobs, "--jobs", 1, 64)
    crates = chosen(names)
    kept = Kept(kept_folder(given, "lemdwab-wider"), "anew" in given, (REFUSED, THROUGH))
    if "list" in given:
        return list_all(crates, kept)
    check_rt()
    plan = Plan(bounds["at-once"], jobs, time.monotonic() + 60 * bounds["minutes"],
                bounds["seconds"])
    with running.Workers(1) as workers, tempfile.TemporaryDirectory(prefix="wider-") as folder:
        copied(Path(folder))
        return told(*try_all(workers, Path(folder), crates, kept, plan))
