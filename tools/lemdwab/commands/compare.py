"""compare: holds answers, or a command, against those of the model, line by line.

    compare [OPTIONS] SCRIPT ANSWERS [MODEL..]   the answers in a file, to a script of yours
    compare [OPTIONS] SCRIPT -- COMMAND..        what a command answers to a script of yours
    compare [OPTIONS] -- COMMAND..               and to each script of the suite and of examples

A command reads a script on its standard input and prints its answers, one a line. The model is the
command MODEL, else that of the variable PROGRAM with the word `replay`, else ./aia replay of this
repository; over the suite its answers stand in files. Where an answer is `-` any is right but
`bad`, `nomachine`, `again` and `range`, by which the model says that the script is no trace. Where
each answer to a script is `-` nothing of it is looked at.

Prints each answer that differs, with the three lines before it that have one, the model's answers
to these, and the comment at the script's head; how many are missing or spare; and how many were the
same, not looked at, known, and differ. Of the suite it prints how many scripts are the same, how
many differ, and of how many no answer was looked at, each being `-`; and how many answers were
compared, and not looked at. How far it is stands on standard error, each ten seconds on a terminal,
else each minute.

    --known FILE      leaves out what is known: rows LINE | MODEL | MINE | REASON, the first three
                      patterns of a shell's for a line and both answers; LINE may fit a line as it
                      stands, or with its numbers in decimal below 65,536, and in hexadecimal from
                      there on; says how often each was met
    --machine SIZES   has all scripts begin with a machine of these sizes, as '1 7 255 96', and
                      the model answer them anew; over the suite scripts that need others, or ask
                      for sizes that no machine has, are left out, and counted
    --only-standard   over the suite: only scripts that every right machine with the AIA answers
                      alike, behind a bridge that translates lines and addresses; suite/classes.txt
                      has them, and examples/fixed-machine.py is such a bridge; they look at little
                      of an IMSIC, and the last line says at how little
    --delivery KIND   with --only-standard: the APLIC has one delivery alone, direct or msis
    --priority-bits N with --only-standard: how many bits a priority of the APLIC has, else 8
    --only FORMS      over the suite: only scripts that have these forms of line alone, as st,ld,h,
                      and `machine`
    -k PATTERN        over the suite: only scripts whose names have a shell's pattern within them
    --each SECONDS    how long COMMAND may take over one script, else 60; after that it is stopped,
                      and so it is where it writes more than answers have; over the suite, where
                      that came three times, the rest is left out; the model may take two hours,
                      since it may have to be built
    --show NUMBER     how many differences of a script are printed, else 5
    --strict          takes a line that is `bad` for a difference, whatever both answer

Ends with status 0 where nothing differs but what is known; 1 where something does, or COMMAND ends
with another status than 0; 2 where words are wrong, a file can't be read, COMMAND can't be started,
the model does not end with status 0, no line is one of a script, or no answer was compared, since
each is `-`; and where nobody reads on what it prints. Needs Python 3.10 or later.
"""

from __future__ import annotations

import os
import shutil
from typing import TYPE_CHECKING

from lemdwab import answers, classes, comparing, running

if TYPE_CHECKING:
    from lemdwab.comparing import Options
    from lemdwab.running import Workers

ALL_BAD = ("all lines are bad: look for capital digits, two spaces, leading zeros, or another"
           " language; suite/lint says which")
DIVIDED = "for a command put -- before it"


def read_options(given: dict[str, str]) -> Options:
    """Reads the options."""
    forms, sizes, delivery = given.get("only"), given.get("machine"), given.get("delivery", "")
    if delivery and delivery not in classes.DELIVERIES:
        running.fail(f"there is no delivery {delivery!r}: it is {' or '.join(classes.DELIVERIES)}")
    return comparing.Options(
        given.get("k", ""), answers.forms_of(forms) if forms is not None else None,
        answers.sizes_of(sizes) if sizes is not None else None,
        running.number(given.get("each", str(comparing.EACH)), "SECONDS", 1, 86400),
        running.number(given.get("show", str(comparing.MOST)), "NUMBER", 1, 1000000),
        answers.Known(given.get("known")), "strict" in given, "only-standard" in given, delivery,
        running.number(given.get("priority-bits", "8"), "N", 1, classes.MOST_BITS))


def run_model(model: list[str], script: bytes, seconds: int) -> bytes:
    """Runs the model over a script, and gives what it answers."""
    ran = running.run(model, script, seconds, answers.most_output(script), True)
    running.check_started(ran, model)
    if ran.fault():
        running.fail(f"the model: {ran.fault()}")
    return ran.output


def no_script(script: bytes) -> str:
    """Says why a script, all of whose lines are bad if it has any, is none."""
    lines = answers.lines(script)
    if not lines:
        return "it has no line" + " but comments" * bool(script.strip())
    return "each line ends in CR" if all(line.text.endswith("\r") for line in lines) else ALL_BAD


def meant(path: str, mine: bytes) -> str:
    """Says what a file of answers may be, if it seems to have none; nothing if it has."""
    if mine.startswith(b"#!") or os.access(path, os.X_OK):
        return f"{path} is a program: {DIVIDED}"
    if answers.is_trace(mine):
        return f"{path} is a script: the SCRIPT stands before its ANSWERS"
    if mine and not any(map(answers.is_answer, answers.answers(mine))):
        return f"no line of {path} has the form of an answer: {DIVIDED}"
    return ""


def answers_in(path: str) -> bytes:
    """Gives the bytes of a file of answers."""
    if not os.path.exists(path) and shutil.which(path):
        running.fail(f"{path} is no file here, and a command: {DIVIDED}")
    return running.contents(path)


def over_one(name: str, command: list[str], path: str | None, options: Options, workers: Workers,
             model: list[str]) -> bool:
    """Holds answers, of a command or in a file, against the model's over one script."""
    script = running.contents(name)
    if options.sizes:
        script = answers.with_sizes(script, options.sizes)
    fault = ""
    if command:
        ran = workers.submit(running.run, command, script, options.each,
                             answers.most_output(script)).result()
        running.check_started(ran, command)
        mine, fault = ran.output, ran.fault()
    else:
        mine = answers_in(running.sure(path))
    wanted = workers.submit(run_model, model, script, running.BUILDING).result()
    verdict = answers.Verdict(script, wanted, mine, options.known, options.is_strict)
    is_same = not verdict.count() and not fault
    hint = meant(path, mine) if path and not is_same else ""
    if verdict.is_of_no_script():
        running.fail("; ".join(filter(None, [
            f"nothing was compared: {name} is no script: {no_script(script)}", hint])))
    for line in verdict.told(options.most):
        print(line)
    if fault:
        print(answers.printable(fault))
    if hint:
        print(hint)
    if verdict.has_no_machine():
        print("no line makes a machine, so that no other is answered as one: suite/lint says why")
    print(verdict.summary())
    if is_same and verdict.is_unseen():
        running.fail(f"nothing was compared: all answers in {path} are {answers.NOT_SHOWN}" if path
                     else comparing.UNSEEN)
    return is_same


def wrong_words(rest: list[str], is_divided: bool, files: list[str], given: dict[str, str]) -> str:
    """Says what is wrong with the words; nothing where they are right."""
    of_suite = {"k", "only", "only-standard"} & set(given)
    of_standard = {"delivery", "priority-bits"} & set(given)
    # The model is no option: these stand before the script.
    if is_divided and not rest or rest[-1:] == ["--"]:
        return "a COMMAND is wanted behind --"
    late = next((word for word in files[:3] if word.startswith("-")), None)
    if late:
        return f"{late} stands behind the script: options come first"
    if not is_divided and len(rest) < 2:
        return "ANSWERS are wanted behind the SCRIPT, or `-- COMMAND`; over the suite `-- COMMAND`"
    if files and of_suite:
        option = min(of_suite)
        return (f"-{'-' * (len(option) > 1)}{option} is of the suite's scripts, and not of one of"
                " yours")
    if of_standard and "only-standard" not in given:
        return f"--{min(of_standard)} goes with --only-standard"
    return ""


def compare() -> int:
    given, rest, is_divided = running.words(
        "k:", "known=", "machine=", "only=", "each=", "show=", "strict", "only-standard",
        "delivery=", "priority-bits=")
    command = rest if is_divided else rest[2:] if rest[1:2] == ["--"] else []
    files = [] if is_divided else rest[:1] if command else rest
    reason = wrong_words(rest, is_divided, files, given)
    if reason:
        running.usage(reason)
    options = read_options(given)
    with running.Workers(1) as workers:
        if not files:
            model = running.model_command(workers) if options.sizes else None
            is_same = comparing.over_suite(command, options, workers, model)
        else:
            model = files[2:] or running.model_command(workers)
            path = None if command else files[1]
            is_same = over_one(files[0], command, path, options, workers, model)
    for line in options.known.told():
        print(line)
    return 0 if is_same else 1
