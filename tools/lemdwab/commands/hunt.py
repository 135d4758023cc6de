"""hunt: looks for a script that a command answers otherwise than the model, and shrinks it.

    hunt [OPTIONS] COMMAND..

Runs COMMAND and the model over random scripts, those of suite/random by the numbers 1, 2 and so on,
until one is answered otherwise. Of that it leaves out lines, makes whole moves of steps, and a
smaller machine, as long as the same line differs in the same way, and prints what is left, each
line with the model's answer and, where it differs, with mine: that of COMMAND; and which answers
are missing or spare. COMMAND reads a script on its standard input and prints its answers, and
nothing else. The model is that of the variable PROGRAM with the word `replay`, else ./aia replay of
this repository.

A script with fewer lines is shrunk sooner. A script that differs is run again. If the difference
comes now and then, hunt says how often it did. If it is seldom, or another one comes, hunt shrinks
nothing, and keeps the whole script: in the file of --into, else in hunt-NUMBER.script of the folder
where it was started. How far it is stands on standard error: a line every ten seconds on a
terminal, else one a minute, and none with --find that writes to no terminal. At the end it says
there which patterns no line fits, if all scripts were tried, or 100.

    --scripts NUMBER  how many scripts are tried at most, else 2,000
    --seed SEED       the number of the first, else 1
    --lines COUNT     how many lines a script has, else 350
    --jobs NUMBER     how many processes try scripts at a time, else 1; what is found is the same
    --each SECONDS    how long each of the two may take over one script, else 10
    --into FILE       writes what is left of the script there, also while it gets shorter
    --find            prints the number of the first that differs alone, and shrinks nothing
    --known FILE      leaves out what is known, as suite/compare does
    --mood, --only, --without, --machine, --refused, --begin
                      what the scripts are about and have, as suite/random has it; what each begins
                      with is never left out

Ends with status 0 where all are answered the same, 1 where one is not, 2 where it could not look:
words are wrong, COMMAND can't be started, fails over an empty script or answers - to every line,
the file of --into can't be written, or the model does not end with status 0. COMMAND and the file
are tried before anything is built. Where a signal stops it, it says where what is left so far
stands, kept as above, and ends with 128 and the signal's number: 130 for an interrupt, 143 for
SIGTERM. Needs Python 3.10 or later. """

from __future__ import annotations

import math
import os
import sys
from pathlib import Path
from typing import TYPE_CHECKING

from lemdwab import answers, hunting, running, scripts
from lemdwab.running import TOP

if TYPE_CHECKING:
    from lemdwab.hunting import Hunt, Progress
    from lemdwab.running import Pace, Ran, Workers
    from lemdwab.scripts import Draw

NUMBERS = {"scripts": ("2000", 1, 1_000_000), "seed": ("1", 0, scripts.SEEDS),
           "lines": ("350", 1, scripts.MOST_LINES), "jobs": ("1", 1, 64),
           "each": ("10", 1, 3600)}
# What is told to each process that looks through a range.
TOLD = ("lines", "each", "known", *(name[:-1] for name in scripts.LINES))
OPTIONS = ("known=", "into=", "find", *(f"{name}=" for name in NUMBERS), *scripts.LINES)


def read_words() -> tuple[dict[str, str], list[str], dict[str, int]]:
    """Reads the options and the command."""
    given, command, is_divided = running.words("", *OPTIONS)
    if not command:
        running.usage("a COMMAND is wanted")
    mine = {f"--{name.rstrip('=')}" for name in OPTIONS}
    for word in command[1:]:
        if not is_divided and word.partition("=")[0] in mine:
            print(f"hunt: {word} stands behind the command, and so goes to it; options of hunt come"
                  " first", file=sys.stderr)
    numbers = {name: running.number(given.get(name, default), f"--{name}", least, most)
               for name, (default, least, most) in NUMBERS.items()}
    if numbers["seed"] + numbers["scripts"] - 1 > scripts.SEEDS:
        running.fail("--seed and --scripts: a number is below 2^64")
    return given, command, numbers


def greeted(ran: Ran) -> None:
    """Says that a command prints something where there is nothing to answer."""
    print("the empty script differs")
    verdict = answers.Verdict(b"", b"", ran.output, answers.Known())
    for line in verdict.uneven():
        print(answers.printable(line))
    print("a command prints answers and nothing else: no greeting and no prompt")


def first_that_differs(given: dict[str, str], command: list[str], numbers: dict[str, int],
                       hunt: Hunt, draw: Draw) -> int | None:
    """Gives the number of the first script that differs, None where none does."""
    first, count, jobs = numbers["seed"], numbers["scripts"], numbers["jobs"]
    if jobs == 1:
        return hunt.search(range(first, first + count), numbers["lines"], draw)
    os.environ["PROGRAM"] = hunt.model[0]
    words = [f"--{name}={given[name]}" for name in TOLD if name in given]
    said = hunting.search_by(jobs, str(TOP / "suite/hunt"), [*words, "--", *command],
                             numbers["each"], first, count, hunt.pace)
    if said is None:
        return None
    if not said.strip().isdigit():
        print(said, end="")
        sys.exit(1)
    return int(said)


def tell_left(hunt: hunting.Hunt, left: hunting.Left, seed: int, into: str | None) -> bytes:
    """Prints what is left of a script; gives what goes into the file that was asked for."""
    whole = hunt.whole(left.script)
    if not left.found:
        if left.shrinking:
            print(f"what was left of it came no more in {left.runs} runs: {hunting.CHANGES}")
        path = into or hunting.keep(whole, seed)
        print(f"the whole script is kept in {path}" if path else
              "the whole script can't be written here; the words above print it")
        return whole
    lines = running.counted(len(answers.lines(whole)), "line")
    print(f"shrunk to {lines}, in {running.counted(left.shrinking, 'run')} of both:")
    for line in hunt.told(left.script, left.found):
        print(line)
    if left.seen < left.runs:
        print(f"seen {hunting.times(left.seen, left.runs)} of these lines: {hunting.CHANGES}")
    return whole


def tell_unmet(given: dict[str, str], numbers: dict[str, int], hunt: Hunt, draw: Draw,
               last: int) -> None:
    """Says which patterns no line fits of the scripts that were tried, up to a number."""
    if "find" in given:
        return
    left, count = scripts.unmet(draw, hunt.known, range(numbers["seed"], last + 1),
                                numbers["lines"])
    for name, pattern in left:
        print(f"hunt: --{name} {pattern}: no line of the first {running.counted(count, 'script')}"
              " fits it", file=sys.stderr)


def try_command(command: list[str], each: int, workers: Workers) -> bool:
    """Runs a command over the empty script; says whether it prints nothing. Ends the tool where it
    fails."""
    ran = running.tried(workers, command, each)
    if ran.fault():
        running.fail(f"over an empty script {ran.fault()}: a command answers, and ends where its"
                     " input does" if ran.stopped else f"over an empty script {ran.fault()}")
    if ran.output:
        greeted(ran)
    return not ran.output


def search(given: dict[str, str], command: list[str], numbers: dict[str, int], workers: Workers,
           progress: Progress) -> tuple[int, bytes]:
    """Hunts, and prints what was found; gives the exit status, and what is left of the script."""
    known, draw = answers.Known(given.get("known")), scripts.draw_of(given)
    into, first, count = given.get("into"), numbers["seed"], numbers["scripts"]
    if into is not None:
        hunting.check_writable(into)
    if not try_command(command, numbers["each"], workers):
        return 1, b""
    hunt = hunting.Hunt(command, running.model_command(workers), numbers["each"], known, draw.begin,
                        pace_of(given))
    seed = workers.submit(first_that_differs, given, command, numbers, hunt, draw).result()
    if seed is None:
        tried = (scripts.script_of(number, numbers["lines"], draw)
                 for number in range(first, first + count))
        if all(workers.submit(hunt.is_unseen, script).result() for script in tried):
            running.fail("nothing was compared: the command answered - to every line")
        print(f"{running.counted(count, 'script')} same, by the numbers {first} to"
              f" {first + count - 1}", flush=True)
        tell_unmet(given, numbers, hunt, draw, first + count - 1)
        return 0, b""
    if "find" in given:
        print(seed)
        return 1, hunt.whole(scripts.script_of(seed, numbers["lines"], draw))
    options = "".join(f"--{name[:-1]} '{given[name[:-1]]}' " for name in scripts.LINES
                      if name[:-1] in given)
    print(f"the script of suite/random {options}{seed} {numbers['lines']} differs", flush=True)
    script = scripts.script_of(seed, numbers["lines"], draw)
    progress.begin(hunt, seed, script)
    left = workers.submit(hunting.left_of, hunt, script, bool(draw.sizes), print,
                          progress).result()
    whole = tell_left(hunt, left, seed, into)
    # Of fewer scripts a pattern that no line fits says little.
    if seed - first + 1 >= min(count, scripts.LOOKED):
        tell_unmet(given, numbers, hunt, draw, seed)
    return 1, whole


def pace_of(given: dict[str, str]) -> Pace:
    """Gives what says how far the hunt is. One that is part of another says nothing: what it says
    on standard error is why it failed."""
    pace = running.Pace()
    if "find" in given and not sys.stderr.isatty():
        pace.every = math.inf
    return pace


def main() -> int:
    given, command, numbers = read_words()
    if "find" in given:
        # One that is ended by another has to be done before that is.
        running.State.grace = running.GRACE / 3
    progress = hunting.Progress(given.get("into"))
    try:
        with running.Workers(1) as workers:
            status, script = search(given, command, numbers, workers, progress)
    except SystemExit:
        if running.State.is_stopping:
            progress.tell_stopped()
        raise
    if status and "into" in given:
        Path(given["into"]).write_bytes(script)
    return status
