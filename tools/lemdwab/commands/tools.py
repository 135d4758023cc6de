"""tools: tries the tools of suite and of examples, the launchers, and where ./release refuses.

    tools                     each of them, in some nine minutes
    tools PART..              these parts alone, and says of each how long it took:
        code       that each script in Python compiles
        words      wrong words, the words of docs/REFERENCE.md, output that can't be written
        compare    suite/compare and suite/check
        random     suite/random and suite/gen-script
        hunt       suite/hunt
        lint       suite/lint
        lint-try   suite/lint held against the program
        draw       examples/draw
        stops      tools that are stopped by a signal
        examples   the examples' own check
        launchers  ./aia, ./plans and ./library, with a toolchain that only pretends
        rows       that suite/README.md and suite/classes.txt have each script of the suite
        classes    the same, and machines of fixed sizes
        edges      the help and the statuses of every script
        release    where ./release refuses
        site       the site of documents
        wider      suite/wider, with an rt that only pretends, and what is seen of planted bugs
        weaken     suite/weaken, with an rt that only pretends, and which plants it finds
        documents  what suite/documents sees of statements that change under their sentences, of
                   definitions that a sentence rests on, and of include/aia.h
    tools [--jobs N] hunts    suite/hunt over 20 errors planted in the model written apart, one
                              after the other: each has to be found within 2,000 scripts, and shrunk
                              to 15 lines or fewer; takes some seven minutes; N scripts at a time
    tools bugs                plants 25 bugs into the tools, one a tool, one after the other in a
                              copy of the tree: the tool's own test has to fail with each, and not
                              without; takes some eight minutes

The program is that of the variable PROGRAM, else ./aia of this repository, which is proved and
built first where it is older than its sources: an hour and more the first time. In `compare`,
`hunt`, `site` and hunts peers/apart/model.py can stand for it. `code`, `lint`, `draw`, `rows`,
`wider`, `weaken` and `documents` need no program.

Prints a line for each thing that is not as it should be, and at the end how many are. Ends with
status 1 where one is not, 2 where words are wrong or there is no such program. Needs Python 3.10 or
later, and tries with `shellcheck`, `cc`, `pandoc` and `chromium` what needs them, where they are.
"""

from __future__ import annotations

import os
import re
import shutil
import signal
import subprocess
import sys
import tempfile
import time
from collections.abc import Sequence
from pathlib import Path
from typing import TYPE_CHECKING
from xml.etree import ElementTree

from lemdwab import answers, comparing, running
from lemdwab.apart import model
from lemdwab.running import TOP
from lemdwab.trials import (bugs, classes, documents, edges, hunts, launchers, lint, release, site,
                            weaken, wider)

if TYPE_CHECKING:
    from lemdwab.running import Ran, Workers

SUITE, EXAMPLES, APART = TOP / "suite", TOP / "examples", TOP / "peers/apart"
TOOLS = [SUITE / name for name in ("compare", "check", "random", "gen-script", "hunt", "tools")]
TOOLS.append(EXAMPLES / "draw")
# The longest that a tool may take, in seconds, and how many bytes it may print.
LONGEST, MOST = 100, 1 << 24
# The steps of a leave with files of one word, by the table of docs/MOVES.md.
LEAVE = ("TakeDelivery", "WriteNotice", "WriteEntry", "Fence", "Map", "GFence",
         "TakePending 0", "PutPending 0", "TakeEnables 0", "PutEnables 0", "Look 0",
         "TakeThreshold", "Post")
# What a command is made of.
Word = Path | int | str


class Trial:
    """The tools, run with a program and in a folder, and what was seen of them."""

    def __init__(self, workers: Workers, program: str, folder: Path) -> None:
        self.workers, self.program, self.folder = workers, program, folder
        self.right = self.wrong = 0

    def sees(self, is_right: object, what: str) -> None:
        """Counts whether something is as it should be, and says where it is not."""
        if is_right:
            self.right += 1
        else:
            self.wrong += 1
            print(f"not as it should be: {what}", flush=True)

    def run(self, *command: Word, text: bytes = b"", seconds: int = LONGEST) -> Ran:
        """Runs a tool; gives how it ended. Says where it had to be stopped, since its status then
        tells of the signal alone."""
        words = [str(word) for word in command]
        ran = self.workers.submit(running.run, words, text, seconds, MOST).result()
        if ran.stopped:
            self.sees(False, f"{' '.join(words)}: {ran.stopped}; it has {seconds} seconds")
        return ran

    def prints(self, status: int, wanted: Sequence[str], *command: Word) -> str:
        """Sees that a tool ends with a status, and that all of these texts stand in what it prints,
        in this order."""
        ran = self.run(*command)
        at, said = 0, answers.shown(ran.output)
        for text in wanted:
            found = said.find(text, at)
            self.sees(found >= 0, f"{' '.join(map(str, command))} prints no {text!r} there")
            at = max(at, found)
        self.sees(ran.status == status, f"{' '.join(map(str, command))} ends with {ran.status}")
        return said

    def file(self, name: str, text: str) -> Path:
        """Writes a file into the folder."""
        path = self.folder / name
        path.write_text(text, encoding="utf-8")
        return path


def looked_at(trial: Trial) -> None:
    """The scripts as their languages' own checkers see them."""
    python = [*(TOP / "tools").rglob("*.py"), *APART.glob("*.py"), *EXAMPLES.glob("*.py"), *TOOLS,
              *(TOP / "docs/make").glob("*.py"), TOP / "docs/make/site", SUITE / "site",
              SUITE / "names", SUITE / "weaken", SUITE / "wider"]
    # What it compiles goes into the folder that is left behind empty.
    ran = trial.run("env", f"PYTHONPYCACHEPREFIX={trial.folder}/compiled", sys.executable, "-W",
                    "error", "-m", "py_compile", *python)
    trial.sees(ran.status == 0, f"this does not compile: {ran.errors}")
    if shutil.which("shellcheck"):
        ran = trial.run("shellcheck", EXAMPLES / "check")
        trial.sees(ran.status == 0, f"shellcheck: {answers.shown(ran.output)}")


def wrong_words(trial: Trial) -> None:
    """Wrong words, which each tool refuses with a message and status 2."""
    script = str(EXAMPLES / "claim.script")
    cases: list[tuple[Path, list[list[str]]]] = [
        (TOOLS[0], [[], [script], [script, "--"], ["--"], ["--x"], ["--", "/nosuch/command"],
                    ["--only", "x", "--", "cat"], ["--machine", "1 2 3", "--", "cat"],
                    ["--each", "0", "--", "cat"], [script, "/nosuch"],
                    ["-k", "nosuch", "--", "cat"], ["--known", script, script, script],
                    [script, script, "--known", script], [script, script, "--", "cat"]]),
        (TOOLS[1], [["-k"], ["-k", "nosuch"], ["--x"], ["-k", ""]]),
        (TOOLS[2], [[], ["1"], ["x", "1"], ["1", "0"], ["1", "1", "1"], ["-1", "5"],
                    [str(1 << 64), "5"], ["1", "100001"], ["--mood", "x", "1", "1"],
                    ["--refused", "81", "1", "1"], ["--machine", "5 1 63 1", "1", "1"],
                    ["--begin", "/nosuch", "1", "1"]]),
        (TOOLS[3], [[], ["1"], ["100001", "1"], ["1", str(1 << 64)], ["x", "1"], ["1", "1", "x"]]),
        (TOOLS[4], [[], ["--jobs", "0", "cat"], ["--jobs"], ["--scripts", "x", "cat"],
                    ["/nosuch/command"], ["--only", "x", "cat"], ["--known", "/nosuch", "cat"],
                    ["--begin", "/nosuch", "cat"]]),
        (TOOLS[5], [["x"], ["hunts", "x"], ["--jobs", "x", "hunts"], ["code", "x"],
                    ["code", "hunts"], ["--jobs", "2", "code"]]),
        (TOOLS[6], [[], ["/nosuch"], ["--lines", "x", script], [script], [script, script]])]
    for tool, all_words in cases:
        for words in all_words:
            ran = trial.run(tool, *words)
            trial.sees(ran.status == 2 and ran.errors and not ran.output,
                       f"{tool.name} {words} ends with {ran.status}: {ran.errors[:60]!r}")


def words_of_reference(trial: Trial) -> None:
    """The words of refusals and the forms of line, as docs/REFERENCE.md has them in its tables."""
    text = (TOP / "docs/REFERENCE.md").read_text(encoding="utf-8")
    refusals = set(re.findall(r"(?m)^\| `(\w+)` \| refused: ", text))
    trial.sees(refusals | {"notvalid"} == answers.REFUSALS, "REFUSALS of lemdwab.answers")
    table = text.partition("\n## Lines\n")[2].partition("\n## ")[0]
    forms = {word for cell in re.findall(r"(?m)^\| ([^|]*) \|", table)
             for word in re.findall(r"`(\w+)", cell)}
    trial.sees(forms == set(answers.FORMS), f"the forms of line are {forms}")


def block_after(text: str, marker: str) -> str:
    """Gives the block that stands after a marker, and after the end of the marker's own."""
    _, _, rest = text.partition(marker)
    return rest.split("```\n")[1]


def documented(trial: Trial) -> list[Path]:
    """What docs/TRACES.md and suite/TOOLS.md say that three of the tools print. Gives the two files
    of the former."""
    text = "".join((TOP / name).read_text(encoding="utf-8")
                   for name in ("docs/TRACES.md", "suite/TOOLS.md"))
    files = []
    for name in ("mine.script", "mine.out"):
        _, _, rest = text.partition(f"cat > {name} <<'END'\n")
        files.append(trial.file(name, rest.partition("END\n")[0]))
    drawn = "--lines 31-49 examples/stores-in-flight.script"
    words = drawn.replace("examples/", f"{EXAMPLES}/").split()
    commands: list[tuple[str, Path, list[Word]]] = [
        ("suite/compare mine.script mine.out\n```", TOOLS[0], [*files]),
        ("a_priority_of_0_is_kept` prints", TOOLS[4],
         [APART / "plants.py", "a_priority_of_0_is_kept"]),
        (f"{drawn}\n```", TOOLS[6], [*words])]
    for marker, tool, given in commands:
        ran = trial.run(tool, *given)
        trial.sees(answers.shown(ran.output) == block_after(text, marker),
                   f"{tool.name} does not print what the documents say")
    return files


def failing_ends(trial: Trial) -> None:
    """Output that can't be written, which is said in one line, and output that nobody reads."""
    for tool in (f"{TOOLS[2]} 1 50000", f"{TOOLS[3]} 50000 1", f"{TOOLS[0]} -k claim -- true"):
        ran = trial.run("bash", "-c", f"{tool} > /dev/full")
        trial.sees(ran.status == 2 and len(ran.errors.splitlines()) == 1,
                   f"{tool} > /dev/full ends with {ran.status}: {ran.errors}")
        ran = trial.run("bash", "-c", f"{tool} | head -n 1")
        trial.sees(not ran.errors, f"{tool} | head -n 1: {ran.errors}")


def compares(trial: Trial) -> None:
    """suite/compare over a script, with answers that are known, missing, spare or not shown."""
    tool = TOOLS[0]
    script, mine = documented(trial)
    known = trial.file("known", "# what we know\nh 0 csrr stopei | *50005 | *30003 | a bug\n")
    said = mine.read_text(encoding="utf-8")
    trial.prints(0, ["5 answers same, 2 not looked at, 1 known, 0 differ",
                     "known, met 1 time: a bug"], tool, "--known", known, script, mine)
    short = trial.file("short.out", said[:said.index("0x")])
    trial.prints(1, ["3 answers missing, from line 9 on: h 0 csrr stopei"], tool, script, short)
    one = trial.file("one.out", "ok\n-\n-\nok\n" + said[said.index("0x"):])
    trial.prints(1, ["the answer to line 7 is missing: st 0x28000004 0x03000000\n"], tool,
                 "--known", known, script, one)
    spare = trial.file("spare.out", said + "ok\nok\n")
    trial.prints(1, ["2 answers spare, the first: ok"], tool, script, spare)
    trial.prints(0, ["8 answers same, 0 not looked at, 0 differ"], tool, script, "--",
                 trial.program, "replay")
    bad = trial.file("bad.script", "machine 1 0 63 1\nWIRE 1 1\n")
    same = trial.file("bad.out", "ok\nbad\n")
    trial.prints(0, ["2 answers same"], tool, bad, same)
    trial.prints(1, ["line 2: WIRE 1 1", "(--strict)"], tool, "--strict", bad, same)
    for other in ("0X0000000000050005", "0x50005", "0x00050005 "):
        spelled = trial.file("spelled.out", f"{said[:-19]}{other}\n")
        trial.prints(1, ["its spelling alone differs"], tool, script, spelled)
    endless = trial.file("endless.out", "x" * 1000 + "\n")
    trial.prints(1, ["mine:  xxx", "xxx.. (1000 characters)\n"], tool, script, endless)
    decimal = trial.file("decimal.script", "machine 1 0 63 1\nst 671088644 5\n")
    fault = trial.file("fault.out", "ok\nfault\n")
    known = trial.file("known-place", "st 0x28* | ok | fault | no such page\n")
    trial.prints(0, ["1 known, 0 differ"], tool, "--known", known, decimal, fault)
    for said, why in (("no board\\nat all", "no board"), ("Traceback ..\\nno board", "no board")):
        trial.prints(1, [f"the command ended with status 3: {why}\n"], tool, script, "--", "bash",
                     "-c", f"printf '{said}' >&2; exit 3")


def compares_no_script(trial: Trial) -> None:
    """suite/compare over what is no script, which it can't look at whatever is answered."""
    answered = trial.file("answered.out", "ok\nbad\n")
    for name, text, why in (
            ("empty", "", "it has no line"), ("comments", "# a\n\n# b\n", "it has no line"),
            ("dos", "machine 1 0 63 1\r\n# a\r\npins 0\r\n", "each line ends in CR"),
            ("garbage", "garbage\n", "all lines are bad"),
            ("plan", (EXAMPLES / "plans/leave.plan").read_text(encoding="utf-8"),
             "all lines are bad")):
        script = trial.file(f"{name}.script", text)
        for words in ([str(answered)], [os.devnull], ["--", trial.program, "replay"]):
            ran = trial.run(TOOLS[0], script, *words)
            trial.sees(ran.status == 2 and f"{script} is no script: {why}" in ran.errors
                       and not ran.output, f"compare {name}.script {words}: {ran}")


def compares_unseen(trial: Trial) -> None:
    """suite/compare with answers of which each, or each to a script, is `-`."""
    tool = TOOLS[0]
    script = trial.file("two.script", "machine 1 0 63 1\n# so\npins 0\n")
    none = trial.file("none.script", "pins 0\nland 0 0\n")
    dashes = trial.file("dashes.out", "-\n-\n")
    unseen = trial.file("unseen", "#!/bin/sh\ngrep -v -e '^#' -e '^$' | sed 's/.*/-/'\n")
    unseen.chmod(0o755)
    said = "nothing was compared: the command answered - to every line"
    cases: list[tuple[str, str, list[Word]]] = [
        (" 0 scripts same, 0 differ, 16 not looked at\n0 answers compared, ", said,
         ["--only-standard", "--", unseen]),
        ("0 answers same, 2 not looked at", said, [script, "--", unseen]),
        # Also of a script that no machine answers.
        ("0 answers same, 2 not looked at", said, [none, "--", unseen]),
        ("0 answers same, 2 not looked at", f"answers in {dashes} are -", [script, dashes])]
    for wanted, reason, words in cases:
        ran = trial.run(tool, *words)
        trial.sees(ran.status == 2 and reason in ran.errors
                   and wanted in " " + answers.shown(ran.output), f"compare {words}: {ran}")
    # An answer that is shown is compared, though all others are not.
    some = trial.file("some", "#!/bin/sh\necho ok\ngrep -v -e '^#' -e '^$' | sed '1d; s/.*/-/'\n")
    some.chmod(0o755)
    trial.prints(0, ["2 scripts same, 0 differ\n2 answers compared, "], tool, "--only-standard",
                 "-k", "claim", "--", some)


def compares_meant(trial: Trial) -> None:
    """suite/compare with a program, a script or a command in the place of a file of answers."""
    script = trial.file("meant.script", "machine 1 0 63 1\npins 0\n")
    toy = trial.file("toy.py", "#!/usr/bin/env python3\nprint('ok')\n")
    plain, run = trial.file("toy.txt", "print('ok')\n"), trial.file("toy", "ok\n")
    run.chmod(0o755)
    right = trial.file("right.out", "ok\npins 0 0 0 0\n")
    for other in (toy, plain, run):
        trial.prints(1, ["for a command put -- before it\n"], TOOLS[0], script, other)
    trial.prints(1, [f"{script} is a script: the SCRIPT stands before"], TOOLS[0], script, script)
    wrong = trial.file("wrong.out", "ok\nfault\n")
    said = trial.prints(1, ["1 answers same, 0 not looked at, 1 differ"], TOOLS[0], script, wrong)
    trial.sees("put --" not in said, "compare hints at a command beside answers")
    cases: list[tuple[list[Word], str]] = [
        ([script, "--"], "a COMMAND is wanted behind --"),
        ([right, script], f"{script} is a script: the SCRIPT stands before"),
        ([script, "python3", toy], "for a command put -- before it")]
    for words, hint in cases:
        ran = trial.run(TOOLS[0], *words)
        trial.sees(ran.status == 2 and hint in ran.errors, f"compare {words}: {ran}")


def compares_suite(trial: Trial) -> None:
    """suite/compare and suite/check over the suite, with commands that are right and wrong."""
    tool, model = TOOLS[0], APART / "model.py"
    trial.prints(0, ["scripts same, 0 differ"], TOOLS[1], trial.program, "replay")
    trial.prints(0, ["2 scripts same, 0 differ"], tool, "-k", "migration", "--", model)
    trial.prints(0, [" 0 differ"], tool, "--machine", "1 7 255 96", "--only", "st,ld,h,pins", "--",
                 model)
    trial.prints(0, ["2 scripts left out, which need a machine of other sizes (2)\n", " 0 differ"],
                 tool, "--machine", "1 0 63 1", "--only", "st,h", "--", model)
    trial.prints(1, ["examples/claim.script differs\n", "# One interrupt, from a device's store to",
                     "line 25: h 0 csrr stopei", "model: 0x0000000000000000",
                     "mine:  0x0000000000050005"], tool, "-k", "claim", "--", APART / "plants.py",
                 "a_threshold_lets_itself_through")
    trial.prints(1, [comparing.HINT], tool, "-k", "claim", "--", "bash", "-c", "exit 2")
    trial.prints(1, ["it wrote more than answers have", "3 times: the rest is left out"], tool,
                 "--", "yes")
    trial.prints(1, ["it took too long, and was stopped", "3 times: the rest is left out"], tool,
                 "--each", "1", "--", "sleep", "1000")


def told(script: bytes) -> tuple[int, int, set[str]]:
    """Gives how many lines of a script have an answer, how many are refused, and its forms."""
    lines, said = answers.lines(script), answers.answers(answers_of(script))
    refused = sum(answers.is_refused(line.text, one) for line, one in zip(lines, said))
    return len(lines), refused, {answers.form(line.text) for line in lines}


def answers_of(script: bytes) -> bytes:
    """Gives what the model written apart answers."""
    return model.answers(script)


def randoms(trial: Trial) -> None:
    """suite/random: the same script for the same words, and what its options ask for."""
    tool = TOOLS[2]
    one, same, other = (trial.run(tool, seed, 500).output for seed in (5, 5, 6))
    trial.sees(one == same != other, "random prints another script for the same words")
    trial.sees(one.count(b"\n") in (499, 500), "random prints another number of lines")
    forms = set()
    for seed in range(12):
        forms |= told(trial.run(tool, seed, 2000).output)[2]
    trial.sees(forms >= set(answers.FORMS), f"random says no {set(answers.FORMS) - forms}")
    for percent in (0, 20, 60):
        lines, refused, _ = told(trial.run(tool, "--refused", percent, 3, 1000).output)
        trial.sees(abs(100 * refused / lines - percent) < 2,
                   f"random --refused {percent}: {refused} of {lines} lines are")
    found = trial.run(tool, "--only", "st,ld,h", "--machine", "1 7 255 96", 9, 600).output
    trial.sees(told(found)[2] == {"machine", "st", "ld", "h"} and
               found.startswith(b"machine 1 7 255 96\n"), "random --only, --machine")
    left = answers.lines(trial.run(tool, "--refused", 0, "--only", "st,h", "--without",
                                   "st 0xc*,h * hgeip", 9, 600).output)
    trial.sees(len(left) > 500 and not any(
        "hgeip" in line.text or answers.form(line.text) == "st" and
        int(line.text.split(" ")[1], 0) >> 24 == 0xc for line in left), "random --without")
    begin = trial.file("begin.script", "# a comment\nst 0xc000000 4\n")
    words = ["--begin", str(begin), "--only", "h", "--machine", "1 7 255 96"]
    found = trial.run(tool, *words, 9, 60).output
    trial.sees(found.startswith(b"machine 1 7 255 96\nst 0xc000000 4\nh "), "random --begin")
    for mood, form in (("aplic", "wire"), ("passes", "pass"), ("majors", "hvictl"),
                       ("moves", "step"), ("images", "save"), ("running", "enter")):
        found = trial.run(tool, "--mood", mood, 1, 2000).output
        trial.sees(form in told(found)[2], f"random --mood {mood} says no {form}")


def gen_scripts(trial: Trial) -> None:
    """suite/gen-script: what the program counts in its own script, counted in this one."""
    for count, seed in ((0, 1), (1000, 7), (20000, 42), (5000, (1 << 64) - 1)):
        script = trial.run(TOOLS[3], count, seed).output
        said = answers.answers(trial.run(trial.program, "replay", text=script).output)
        lines = answers.lines(script)
        claims = [int(one, 16) & 0x7ff for line, one in zip(lines, said)
                  if " stopei " in line.text and one.startswith("0x") and int(one, 16)]
        ran = trial.run(trial.program, "gen", count, seed)
        wanted = dict(one.split() for one in answers.answers(ran.output))
        mine = {"lines": len(lines), "claims": len(claims), "sum": sum(claims)}
        trial.sees(all(int(wanted[name]) == value for name, value in mine.items()),
                   f"gen-script {count} {seed}: {mine}, and gen has {wanted}")


def draws(trial: Trial) -> None:
    """examples/draw: a leave whose steps stand in the order of docs/MOVES.md."""
    script = trial.file("leave.script", "\n".join([
        "machine 1 1 63 1", "vm 1 0x8 0", "arrive 0 0 0", "g 0 0 csrrw siselect 0xc0",
        "g 0 0 csrrw sireg 0x28", "msi 0 0x28000000 5", "begin leave 0 0", *["step 0 0"] * 4,
        "msi 0 0x28000000 3", *["step 0 0"] * 9, "begin leave 0 0"]))
    # By the rules: before the fence a store goes to the file, after it to memory; the post tells
    # the host of both, by the number of the virtual hart counted from 1; the last line is refused.
    trial.prints(0, ["in file 1 of hart 0", "5 to file 1 of hart 0", "begin leave, moves",
                     *LEAVE[:4], "3 to memory", *LEAVE[4:], "in memory", "told 1\n"],
                 EXAMPLES / "draw", script)
    ends = trial.file("dos-leave.script", script.read_text(encoding="utf-8").replace("\n", "\r\n")
                      + "\r\n")
    ran = trial.run(EXAMPLES / "draw", ends)
    trial.sees(ran.status == 2 and "each line ends in CR" in ran.errors, f"draw of CR LF: {ran}")
    said = trial.prints(0, LEAVE[6:], EXAMPLES / "draw", "--lines", "12-22", script)
    trial.sees("Fence," not in said and len(said.splitlines()) == 11, "draw --lines")
    for path in [script, *(EXAMPLES / f"{name}.script" for name in
                           ("step-by-step", "passed-wire", "more-guests-than-files"))]:
        ran = trial.run(EXAMPLES / "draw", "--svg", path)
        is_picture = ElementTree.fromstring(ran.output).tag.endswith("svg")
        trial.sees(is_picture, f"draw --svg {path.name} is no picture")


def stops(trial: Trial) -> None:
    """Each tool that runs something, stopped by a signal: it ends, with all that it has started,
    and leaves no file."""
    hangs = trial.file("hangs", "#!/bin/sh\necho $$ >> \"$0.pids\"\nsleep 1000 &\n"
                                "echo $! >> \"$0.pids\"\nwait\n")
    hangs.chmod(0o755)
    script, pids = EXAMPLES / "claim.script", trial.folder / "hangs.pids"
    cases: list[tuple[Path, list[Word]]] = [
        (TOOLS[0], ["--", hangs]), (TOOLS[0], [script, "--", hangs]),
        (TOOLS[0], [script, trial.program, hangs]), (TOOLS[1], [hangs]), (TOOLS[4], [hangs]),
        (TOOLS[4], ["--jobs", "3", hangs]), (EXAMPLES / "check", [])]
    for tool, words in cases:
        command = [str(word) for word in (tool, *words)]
        for each in (signal.SIGINT, signal.SIGTERM):
            pids.unlink(missing_ok=True)
            status, left = stopped(command, each, pids, trial, hangs)
            trial.sees(status == 128 + each and not left,
                       f"{' '.join(command)}, stopped by {each.name}, ends with {status}"
                       f" and leaves {left}")


def leaves_behind(trial: Trial) -> None:
    """A command that ends by itself, and leaves a process: a tool ends that too."""
    leaves = trial.file("leaves", "#!/bin/sh\nsleep 1000 > /dev/null 2>&1 &\n"
                                  "echo $! > \"$0.pid\"\nexec cat\n")
    pid = trial.folder / "leaves.pid"
    leaves.chmod(0o755)
    trial.run(TOOLS[0], EXAMPLES / "claim.script", "--", leaves)
    time.sleep(0.1)
    is_left = hunts.is_alive(int(pid.read_text(encoding="ascii")))
    trial.sees(not is_left, "a process is left behind")


def stopped(command: list[str], each: signal.Signals, pids: Path, trial: Trial,
            hangs: Path) -> tuple[int, list[str]]:
    """Starts a tool, stops it once its command hangs, and gives its status and what it leaves."""
    is_examples = Path(command[0]).name == "check" and len(command) == 1
    folder = trial.folder / "tmp"
    folder.mkdir(exist_ok=True)
    program = str(hangs if is_examples else trial.program)
    tool = subprocess.Popen(
        command, stdout=subprocess.DEVNULL, stderr=subprocess.DEVNULL,
        env={**os.environ, "TMPDIR": str(folder), "PROGRAM": program},
        preexec_fn=lambda: signal.signal(signal.SIGINT, signal.SIG_DFL))
    try:
        for _ in range(200):
            if pids.exists() and pids.read_text(encoding="ascii").count("\n") >= 2:
                break
            time.sleep(0.05)
        tool.send_signal(each)
        status = tool.wait(20)
    finally:
        # Where this is stopped meanwhile, the tool still has to end what it has started.
        tool.terminate()
        try:
            tool.wait(20)
        finally:
            tool.kill()
    time.sleep(0.1)
    alive = [pid for pid in pids.read_text(encoding="ascii").split()
             if hunts.is_alive(int(pid))]
    return status, alive + [path.name for path in folder.iterdir()]


def examples(trial: Trial) -> None:
    """The examples' own check, with the two programs in lockstep."""
    trial.prints(0, ["lockstep.py: same", "lockstep.c: "], EXAMPLES / "check")
    for program, status in ((f"{APART}/model.py", 1), ("/nosuch/program", 2)):
        ran = trial.run(EXAMPLES / "lockstep.py", program)
        trial.sees(ran.status == status, f"lockstep.py {program} ends with {ran.status}")


def parts_of_tools(trial: Trial) -> None:
    """This itself: a part alone, the parts of its help, and programs that are not ./aia."""
    for part in ("draw", "rows"):
        said = trial.prints(0, [f"{part}: ", " seconds\n", " are not\n"], "env",
                            f"PROGRAM={edges.NO_PROGRAM}", TOOLS[5], part)
        trial.sees(said.count("\n") == 2, f"tools {part} prints {said}")
    helped = re.findall(r"(?m)^ {8}(\S+)  ", answers.shown(trial.run(TOOLS[5], "-h").output))
    trial.sees(helped == list(PARTS), f"tools -h names the parts {helped}")
    for other in (APART / "model.py", shutil.which("true"), shutil.which("cat")):
        ran = trial.run("env", f"PROGRAM={other}", TOOLS[5], "words", seconds=20)
        trial.sees(ran.status == 2 and "is not the program" in ran.errors and not ran.output,
                   f"tools with {other} ends with {ran.status}: {ran.errors}")


# Of each part what it tries, in their order.
PARTS = {
    "code": (looked_at,),
    "words": (wrong_words, words_of_reference, failing_ends),
    "compare": (compares, compares_no_script, compares_unseen, compares_meant, compares_suite),
    "random": (randoms, gen_scripts),
    "hunt": hunts.PARTS,
    "lint": tuple(one for one in lint.PARTS if one is not lint.lints_with_the_program),
    "lint-try": (lint.lints_with_the_program,),
    "draw": (draws,),
    "stops": (stops, leaves_behind),
    "examples": (examples,),
    "launchers": launchers.PARTS,
    "rows": (classes.classes_of_scripts,),
    "classes": classes.PARTS,
    "edges": (*edges.PARTS, parts_of_tools),
    "release": release.PARTS,
    "site": site.PARTS,
    "wider": wider.PARTS,
    "weaken": weaken.PARTS,
    "documents": documents.PARTS,
}
WITHOUT_PROGRAM = {"code", "lint", "draw", "rows", "wider", "weaken", "documents"}
# For which the model apart serves too.
BY_MODEL = {"compare", "hunt", "hunts", "site"}


def program_for(workers: Workers, words: list[str]) -> str:
    """Gives the program that parts are tried with, which is built first where it has to be; ends
    with status 2 where there is none, or another than ./aia."""
    if words and set(words) <= WITHOUT_PROGRAM:
        return edges.NO_PROGRAM
    program = os.path.abspath(running.model_command(workers)[0])
    if not os.access(program, os.X_OK):
        running.fail(f"there is no program {program}")
    ran = workers.submit(running.run, [program, "gen", "0", "1"], b"", 20, 1 << 16).result()
    is_other = ran.fault() or not ran.output.startswith(b"lines ")
    if is_other and not (words and set(words) <= WITHOUT_PROGRAM | BY_MODEL):
        running.fail(f"{program} is not the program ./aia: it has no command `gen`")
    return program


def try_parts(trial: Trial, names: list[str]) -> None:
    """Tries these parts, and says how long each took; or all of them, where none is named."""
    # What `rows` sees `classes` sees too.
    for name in names or [name for name in PARTS if name != "rows"]:
        begun = time.monotonic()
        for part in PARTS[name]:
            part(trial)
        if names:
            print(f"{name}: {time.monotonic() - begun:.0f} seconds", flush=True)


def main() -> int:
    given, rest, _ = running.words("", "jobs=")
    jobs = running.number(given.get("jobs", "1"), "--jobs", 1, 64)
    unknown = [word for word in rest if word not in PARTS]
    if rest not in (["hunts"], ["bugs"]) and unknown or given and rest != ["hunts"]:
        running.usage(f"there is no part {unknown[0]!r}" if unknown and not given
                      else "--jobs is for hunts alone")
    with running.Workers(1) as workers, tempfile.TemporaryDirectory() as folder:
        program = os.environ["PROGRAM"] = program_for(workers, rest)
        trial = Trial(workers, program, Path(folder))
        if rest == ["hunts"]:
            hunts.all_plants(trial, jobs)
        elif rest == ["bugs"]:
            bugs.all_bugs(trial)
        else:
            try_parts(trial, rest)
        print(f"{trial.right} things are as they should be, {trial.wrong} are not")
    return 1 if trial.wrong else 0
