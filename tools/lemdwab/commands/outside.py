"""outside: runs what looks at the files beside the proofs, as ./check does after the gate.

    outside [--jobs NUMBER] [NAME..]

    documents     the documents are in step with the tree, and keep to their limits
    repeats       no two places of the crates say the same
    chain         no chain of crates is too long
    names         no two crates have a public type of one name
    step-numbers  no number of a step stands outside the plans
    linters       shellcheck, the C compiler, ruff or flake8, and mypy, where they are installed
    units         the unit tests of tools/lemdwab
    statuses      the exit statuses of the programs
    isolation     a VM is answered as if it were alone: 200 pairs of scripts
    migrations    an image carries a guest on: 64 guests
    from-memory   a guest is answered from memory as in a guest file: 320 guests
    no-sense      lines of no sense are answered as the grammar says: 20,000 lines
    suite         the scripts of the suite, and that its files are as its rows make them
    examples      the examples, their plans, and those of hypervisors
    c-library     the library for C in a short form, and its examples
    tools         what the tools say and do, part by part: suite/tools

Runs all of these, or those named, NUMBER at a time, else 2, and prints a line as each ends: its
status, and how long it took. Of one that does not end with 0 it also prints what that printed, its
last 100 lines. The programs are those of the variables PROGRAM and PLANS, and the library is in the
folder of the variable LIBRARY, which ./library made; else they are those of this repository, which
are built first where they have to be. All of it takes some nine minutes of processor time, and so
less than ten on two processors that do nothing else: of tools edges takes 85 seconds, compare 60,
hunt 50 and classes 25, suite 33, linters and units 30 each, isolation 18, documents 17 and repeats
13. Each may take half an hour, and is ended then.

Ends with the first status that is not 0, in the order above, or with 2 where one was ended, words
are wrong, or a program can't be built. Needs Python 3.10 or later.
"""

import os
import sys
import tempfile
import time
from collections.abc import Sequence
from concurrent.futures import Future
from pathlib import Path
from typing import NamedTuple

from lemdwab import running
from lemdwab.running import TOP

SUITE = str(TOP / "suite")
# How long each may take, in seconds, how many bytes it may print, and how many lines are shown.
LONGEST, MOST, SHOWN = 1800, 1 << 24, 100
# The parts of suite/tools, the longest first. `hunts` takes as long as all of them.
TOOLS = ("edges", "compare", "hunt", "site", "classes", "launchers", "words", "lint-try", "lint",
         "random", "wider", "weaken", "documents", "stops", "draw", "code", "release", "examples")
# What each name stands for: commands, of which the first that fails says how it ended.
CHECKS: dict[str, list[list[str]]] = {
    "documents": [[f"{SUITE}/documents"]],
    "repeats": [[f"{SUITE}/repeats"]],
    "chain": [[f"{SUITE}/chain"]],
    "names": [[f"{SUITE}/names"]],
    "step-numbers": [[f"{SUITE}/step-numbers"]],
    "linters": [[f"{SUITE}/linters"]],
    "units": [[sys.executable, "-B", "-m", "unittest", "discover", "-q", "-s",
               str(TOP / "tools/tests"), "-t", str(TOP / "tools")]],
    "statuses": [[f"{SUITE}/statuses"]],
    "isolation": [[f"{SUITE}/isolation", "200"]],
    "migrations": [[f"{SUITE}/migrations", "64"]],
    "from-memory": [[f"{SUITE}/from-memory", "320"]],
    "no-sense": [[f"{SUITE}/no-sense", "20000"]],
    "suite": [[f"{SUITE}/check"]],
    "examples": [[str(TOP / "examples" / name)] for name in
                 ("check", "plans/check", "hypervisors/check")],
    "c-library": [[f"{SUITE}/c-library", "--short"], [str(TOP / "examples/check-library")]],
    "tools": [[f"{SUITE}/tools", part] for part in TOOLS],
}
OF_THE_LIBRARY = "c-library"
# Those that run no program.
OF_FILES = {"documents", "repeats", "chain", "names", "step-numbers", "linters", "units"}


class Ended(NamedTuple):
    """How a command ended: its words, its status, how long it took, and what it printed."""

    command: list[str]
    status: int
    seconds: float
    said: str


def looked(command: list[str]) -> Ended:
    """Runs a command; called by a worker."""
    begun = time.monotonic()
    ran = running.run(command, b"", LONGEST, MOST)
    said = ran.output.decode(errors="backslashreplace").splitlines()
    said += [line for line in (ran.stopped, *ran.errors.splitlines()) if line]
    status = 2 if ran.stopped or ran.status < 0 else ran.status
    return Ended(command, status, time.monotonic() - begun, "\n".join(said[-SHOWN:]))


def built(workers: running.Workers, names: Sequence[str], folder: Path) -> str:
    """Builds the programs where they are wanted and not given; gives the folder of the library."""
    if set(names) <= OF_FILES:
        return ""
    os.environ["PROGRAM"] = os.path.abspath(running.model_command(workers)[0])
    if not os.environ.get("PLANS"):
        text = running.contents(TOP / "examples/hypervisors/core-leave.plan")
        made(workers, [str(TOP / "plans"), "judge"], text)
        os.environ["PLANS"] = str(TOP / "crates/plans/out/plans")
    library = os.environ.get("LIBRARY", "")
    if OF_THE_LIBRARY in names and not library:
        library = str(folder / "library")
        made(workers, [str(TOP / "library"), library], b"")
    return library


def made(workers: running.Workers, command: list[str], text: bytes) -> None:
    """Builds something by a launcher, or ends with 2."""
    ran = workers.submit(running.run, command, text, running.BUILDING, MOST, True).result()
    if ran.fault():
        running.fail(f"{command[0]} can't build what it runs: {ran.fault()}")


def commands_of(name: str, library: str) -> list[list[str]]:
    """Lists the commands of a name; those of the library are told where it stands."""
    given = [library] if name == OF_THE_LIBRARY else []
    found = [[*command, *given] for command in CHECKS[name]]
    if name == "examples":
        found[-1].append(os.environ["PLANS"])
    return found


def tell(ended: Ended) -> None:
    """Says how a command ended, and where it failed what it printed."""
    words = [Path(ended.command[0]).name, *ended.command[1:]]
    name = " ".join(words).replace(f"{TOP}/", "")
    print(f"{ended.status} {name}, {ended.seconds:.0f} seconds", flush=True)
    if ended.status:
        print("\n".join(f"    {line}" for line in ended.said.splitlines()), flush=True)


def main() -> int:
    given, names, _ = running.words("", "jobs=")
    jobs = running.number(given.get("jobs", "2"), "--jobs", 1, 16)
    unknown = [name for name in names if name not in CHECKS]
    if unknown:
        running.usage(f"there is no check {unknown[0]!r}: there are {', '.join(CHECKS)}")
    names = [name for name in CHECKS if not names or name in names]
    os.environ["PYTHONPATH"] = str(TOP / "tools")
    with running.Workers(jobs) as workers, tempfile.TemporaryDirectory() as folder:
        library = built(workers, names, Path(folder))
        # What takes long begins first, so that the last to end is short.
        order = sorted(names, key=lambda name: -len(CHECKS[name]))
        ends: dict[str, list[Future[Ended]]] = {
            name: [workers.submit(looked, one) for one in commands_of(name, library)]
            for name in order}
        for name in order:
            for end in ends[name]:
                tell(end.result())
        statuses = [end.result().status for name in names for end in ends[name]]
    wrong = [status for status in statuses if status]
    print(f"{len(statuses)} commands, {len(wrong)} of them failed")
    return wrong[0] if wrong else 0
