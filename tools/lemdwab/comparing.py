"""A command held against the answers of the model, over the scripts of the suite and of examples.

What the model answers to these stands in a file beside each. Where a machine's sizes are replaced
the model answers anew, and scripts that need one of others are left out."""

from __future__ import annotations

from collections import Counter
from collections.abc import Iterator
from fnmatch import fnmatchcase
from pathlib import Path
from typing import TYPE_CHECKING, NamedTuple

from lemdwab import answers, classes, running
from lemdwab.running import TOP

if TYPE_CHECKING:
    from lemdwab.answers import Verdict
    from lemdwab.running import Ran, Workers

# How long a command may take over one script, in seconds.
EACH = 60
# How many differences of a script are printed.
MOST = 5
# After so many scripts that a command had to be stopped over, no more are tried.
STOPPED = 3
# Words of lines about interrupt files.
OF_FILES = (("sireg", "sireg"), ("mireg", "mireg"), ("stopei", "stopei"), ("mtopei", "mtopei"),
            ("csrrs", "csrrs"), ("csrrc", "csrrc"), ("vm", "guest file"))
UNSEEN = f"nothing was compared: the command answered {answers.NOT_SHOWN} to every line"
HINT = ("each script ended with status 2: the command refuses its words, perhaps for want of"
        " `replay`")


class Options(NamedTuple):
    """What a comparison over scripts is told."""

    pattern: str = ""
    only: set[str] | None = None
    sizes: tuple[int, int, int, int] | None = None
    each: int = EACH
    most: int = MOST
    known: answers.Known = answers.Known()
    is_strict: bool = False
    is_standard: bool = False
    delivery: str = ""
    bits: int = classes.MOST_BITS


class Tally:
    """How many scripts were answered the same, and not, of how many no answer was looked at, and
    how those ended that differ; how many answers were held against the model's, and how many not;
    and how many scripts were left out, by what they need."""

    def __init__(self) -> None:
        self.same = self.differ = self.known = self.stopped = self.unseen = 0
        self.compared = self.not_shown = 0
        self.statuses: set[int] = set()
        self.left_out: Counter[str] = Counter()
        self.words: Counter[str] = Counter()

    def take(self, script: bytes) -> None:
        """Counts the words of a script that was run, each once."""
        self.words.update({word for line in answers.lines(script) for word in line.text.split(" ")})

    def look(self, ran: Ran, verdict: Verdict) -> bool:
        """Counts what came of a script; says whether it differs."""
        self.statuses.add(ran.status)
        self.stopped += bool(ran.stopped)
        self.compared += verdict.compared()
        self.not_shown += verdict.not_shown
        if ran.fault() or verdict.count():
            self.differ += 1
            return True
        if verdict.is_unseen():
            self.unseen += 1
        else:
            self.same += 1
            self.known += bool(verdict.known)
        return False

    def told_reach(self) -> str:
        """Says in how many of the scripts which word about interrupt files is."""
        had = ", ".join(f"{what} in {self.words[word]}" if self.words[word] else f"no {what}"
                        for word, what in OF_FILES)
        return f"little of an IMSIC was looked at; of these scripts: {had}"

    def told_left_out(self) -> Iterator[str]:
        """Says how many scripts were left out, and what they need; nothing where none was."""
        count = sum(self.left_out.values())
        if count:
            needs = ", ".join(f"{what} ({number})" for what, number in self.left_out.items())
            need = "which needs" if count == 1 else "which need"
            yield f"{running.counted(count, 'script')} left out, {need} {needs}"

    def summary(self) -> Iterator[str]:
        """Says how many scripts and answers are the same, and not, and were not looked at."""
        known = f", {self.known} by what is known alone" if self.known else ""
        unseen = f", {self.unseen} not looked at" if self.unseen else ""
        yield f"{self.same} scripts same, {self.differ} differ{known}{unseen}"
        yield (f"{running.counted(self.compared, 'answer')} compared,"
               f" {self.not_shown} not looked at")


def scripts(options: Options) -> list[tuple[Path, bytes]]:
    """Lists the scripts whose names and forms of line are asked for, each with its text."""
    # The pattern is one of a shell's.
    found = [(path, path.read_bytes()) for path in classes.scripts().values()
             if fnmatchcase(path.stem, f"*{options.pattern}*")]
    if not found:
        running.fail(f"no script's name has {options.pattern} within it")
    if options.only:
        found = [(path, text) for path, text in found
                 if {answers.form(line.text) for line in answers.lines(text)} <= options.only]
        if not found:
            running.fail(f"no script has the forms {','.join(sorted(options.only))} alone")
    return found


def asked(options: Options, tally: Tally) -> Iterator[tuple[Path, bytes]]:
    """Lists the scripts that the machine can be asked, and counts those that it can't."""
    needs = classes.standard() if options.is_standard else {}
    for path, script in scripts(options):
        if not options.is_standard:
            yield path, script
        elif path in needs:
            lack = needs[path].lacks(options)
            if lack:
                tally.left_out[lack] += 1
            else:
                yield path, script


def wanted(path: Path, script: bytes, options: Options, model: list[str] | None) -> bytes:
    """Gives what the model answers to a script."""
    if not options.sizes:
        stands = path.with_suffix(".out")
        return stands.read_bytes() if stands.exists() else b""
    ran = running.run(running.sure(model), script, options.each, answers.most_output(script))
    if ran.fault():
        running.fail(f"the model has no answers to {path.name}: {ran.fault()}")
    return ran.output


def needs_others(path: Path, script: bytes, anew: bytes) -> bool:
    """Says whether a script needs a machine of other sizes: a line that its own takes is refused
    anew, or it asks for sizes that no machine has."""
    if answers.asks_for_none(script):
        return True
    own = answers.answers(path.with_suffix(".out").read_bytes())
    return any(answers.is_refused(line.text, new) and not answers.is_refused(line.text, old)
               for line, old, new in zip(answers.lines(script), own, answers.answers(anew)))


def held(path: Path, script: bytes, command: list[str], options: Options,
         model: list[str] | None) -> tuple[Ran, Verdict] | str:
    """Runs a command over one script; gives how it ended, and what came of it, or what the script
    needs that the machine has not."""
    if options.sizes:
        script = answers.with_sizes(script, options.sizes)
    answer = wanted(path, script, options, model)
    if options.sizes and needs_others(path, script, answer):
        return "a machine of other sizes"
    ran = running.run(command, script, options.each, answers.most_output(script))
    running.check_started(ran, command)
    return ran, answers.Verdict(script, answer, ran.output, options.known, options.is_strict)


def tell(path: Path, ran: Ran, verdict: Verdict, options: Options) -> None:
    """Prints what is wrong with a script's answers."""
    print(f"{path.relative_to(TOP)} differs")
    if ran.fault():
        print("  " + answers.printable(ran.fault()))
    for line in verdict.told(options.most, "  "):
        print(line)


def over_suite(command: list[str], options: Options, workers: Workers,
               model: list[str] | None = None) -> bool:
    """Holds a command against the model over the scripts; prints each that differs. Gives whether
    none does."""
    tally, pace = Tally(), running.Pace()
    found = list(asked(options, tally))
    for at, (path, script) in enumerate(found):
        pace.tell(f"{at} of {running.counted(len(found), 'script')}")
        came = workers.submit(held, path, script, command, options, model).result()
        if isinstance(came, str):
            tally.left_out[came] += 1
            continue
        ran, verdict = came
        if not verdict.is_unseen():
            tally.take(script)
        if tally.look(ran, verdict):
            tell(path, ran, verdict, options)
        if tally.stopped == STOPPED:
            print(f"the command had to be stopped {STOPPED} times: the rest is left out")
            break
    for line in tally.told_left_out():
        print(line)
    if not tally.same and not tally.differ and not tally.unseen:
        running.fail("no script is left that can be asked")
    for line in tally.summary():
        print(line)
    if options.is_standard and tally.compared:
        print(tally.told_reach())
    if tally.statuses == {2}:
        print(HINT)
    if tally.not_shown and not tally.compared and not tally.differ:
        running.fail(UNSEEN)
    return not tally.differ
