"""What suite/tools tries of suite/hunt."""

from __future__ import annotations

import os
import shlex
import signal
import subprocess
import sys
import time
from pathlib import Path
from typing import TYPE_CHECKING

from lemdwab import answers, hunting
from lemdwab.apart import model
from lemdwab.running import TOP, sure

if TYPE_CHECKING:
    from lemdwab.commands.tools import Trial, Word

HUNT, RANDOM, APART = TOP / "suite/hunt", TOP / "suite/random", TOP / "peers/apart"
COMPARE = TOP / "suite/compare"
LONGEST = 1800
# Errors of each subject, as plants.py calls them: running from memory, files, routes and notices,
# moves, passes, the APLIC, majors, what lines name, images.
PLANTS = (
    "exit_always_sends_a_notice", "sip_is_answered_from_memory",
    "a_threshold_lets_itself_through", "an_odd_select_number_reads_0",
    "seteipnum_be_is_not_swapped",
    "an_ipi_goes_by_the_entry", "a_store_in_flight_lands_where_the_entry_leads_then",
    "notices_go_to_hart_0", "no_notice_where_the_identity_was_pending",
    "a_fence_lands_nothing", "the_greatest_free_file_is_taken",
    "guards_stand_without_passes", "a_pass_is_known_by_its_rank",
    "a_claim_clears_a_level_source", "ithreshold_lets_itself_through", "genmsi_needs_ie",
    "ties_go_to_the_majors_before_the_external_one", "stopi_shows_256",
    "the_mask_is_packed_the_other_way",
    "load_of_a_word_sends_no_notice",
)


def command(trial: Trial, name: str, body: str, runs: str | Path = "/dev/null") -> Path:
    """Writes a command that answers as the program, but for what a body in awk makes of each
    answer, given the line that it is of as `text`. A file keeps a line for each of its `runs`."""
    path = trial.file(name, f"""#!/bin/bash
[ ! -s /dev/stdin ] || echo >> {runs}
"$PROGRAM" replay < /dev/stdin | awk -v script=/proc/$$/fd/0 -v run="$(wc -l < {runs})" '
  function next_text() {{
    do text = ""; while ((getline text < script) > 0 && (text == "" || text ~ /^#/))
  }}
  {{ next_text() }}
  {body}'
""")
    path.chmod(0o755)
    return path


def listed(said: str) -> list[str]:
    """Gives the lines of the listing that stands in what hunt printed, with the model's answers."""
    return [line.split("  => ")[0].strip() for line in said.splitlines() if "  => " in line]


def finds_plant(trial: Trial, plant: str, *options: str | int | Path, most: int = 15) -> int | None:
    """Sees that a planted error is found and shrunk."""
    ran = trial.run(HUNT, *options, APART / "plants.py", plant, seconds=LONGEST)
    words = answers.shown(ran.output).split()
    fewest = int(words[words.index("to") + 1]) if "shrunk" in words else None
    trial.sees(ran.status == 1 and fewest and fewest <= most,
               f"hunt {plant} ends with {ran.status}, and {fewest} lines: {ran.errors}")
    return fewest


def hunts(trial: Trial) -> None:
    """suite/hunt: a command that is right, one that is wrong, and what is left of the script."""
    left = trial.folder / "left.script"
    trial.prints(0, ["30 scripts same, by the numbers 1 to 30\n"], HUNT, "--scripts", 30, "--jobs",
                 2, trial.program, "replay")
    finds_plant(trial, "sip_is_answered_from_memory", "--into", left)
    differs = model.answers(left.read_bytes()) != trial.run(
        APART / "plants.py", "sip_is_answered_from_memory", text=left.read_bytes()).output
    trial.sees(differs, "what hunt wrote is answered the same")
    trial.prints(1, ["shrunk to 1 line,", "(nothing)", "the answer to line 1 is missing: "], HUNT,
                 "--scripts", 1, "true")
    begin = trial.file("begin.script", "st 0xc000000 4\n")
    trial.prints(1, ["shrunk to 2 lines,", "machine", "st 0xc000000 4"], HUNT, "--begin", begin,
                 "--scripts", 1, "head", "-n", 2)
    ran = trial.run(HUNT, "--each", 1, "--lines", 2, "sleep", 1000)
    trial.sees(ran.status == 2 and "over an empty script it took too long" in ran.errors,
               f"hunt says of a command that never ends {ran.errors}")


def hunts_by_processes(trial: Trial) -> None:
    """The same is found, and printed, by one process and by three: the least number that differs;
    what a process says against the words is said once."""
    plant = (APART / "plants.py", "guards_stand_without_passes")
    one, three = (trial.run(HUNT, "--jobs", jobs, *plant) for jobs in (1, 3))
    trial.sees((one.output, one.status) == (three.output, three.status) and one.status == 1,
               f"hunt --jobs 3 prints {three}, and not {one}")
    words = answers.shown(one.output).split()
    seed, fewest = (words[words.index(word) + 1] for word in ("suite/random", "to"))
    trial.sees(int(fewest) <= 2, f"hunt shrinks {plant[1]} to {fewest} lines")
    trial.prints(1, [f"{seed}\n"], HUNT, "--jobs", 3, "--find", *plant)
    trial.prints(0, ["same, by the numbers 1 to "], HUNT, "--scripts", int(seed) - 1, "--jobs", 3,
                 *plant)
    trial.prints(1, [f"suite/random {seed} 350 differs"], HUNT, "--seed", seed, "--scripts", 2,
                 "--jobs", 2, *plant)
    ends = trial.file("ends", "#!/bin/sh\necho no board >&2\nexit 3\n")
    ends.chmod(0o755)
    ran = trial.run("env", f"PROGRAM={ends}", HUNT, "--jobs", 3, "true")
    trial.sees(ran.status == 2 and ran.errors == "hunt: the model: the command ended with status 3:"
               " no board", f"hunt with a model that ends so: {ran}")


def hunts_ranges(trial: Trial) -> None:
    """The ranges that processes look through: each number once, in order, and not too many."""
    for first, count, jobs in ((1, 2000, 4), (7, 1, 64), (0, 30, 2), (5, 4, 3), (1, 100_000, 8)):
        ranges = list(hunting.units(first, count, jobs))
        tried = [number for begin, size in ranges for number in range(begin, begin + size)]
        trial.sees(tried == list(range(first, first + count)) and len(ranges) < 50 * jobs + 400,
                   f"{count} numbers from {first} on, by {jobs} processes: {ranges}")


def hunts_kinds(trial: Trial) -> None:
    """Answers that are missing and spare, a greeting, and an end: each is named as what it is, and
    what is left shows it."""
    short = (HUNT, "--lines", 30, "--only")
    greets = command(trial, "greets", 'BEGIN { print "READY" } 1')
    trial.prints(1, ["the empty script differs\n", "1 answer spare, the first: READY\n"], HUNT,
                 greets)
    script = trial.file("two.script", "machine 1 0 63 1\npins 0\n")
    trial.prints(1, ["1 answer spare, before all others, the first: READY\n",
                     "2 answers same, 0 not looked at, 1 differ"], COMPARE, script, "--", greets)
    spare = command(trial, "spare", '1; text ~ /^wire / { print "wired" }')
    said = trial.prints(1, ["shrunk to 1 line,", "wire ", "1 answer spare, the first: wired\n"],
                        *short, "wire,h", spare)
    trial.sees("mine:" not in said, f"of a spare answer is printed {said}")
    dumb = command(trial, "dumb", "text !~ /^pins /")
    trial.prints(1, ["shrunk to 2 lines,", "machine ", "pins ", "mine: (nothing)",
                     "the answer to line 2 is missing: pins"], *short, "pins,h", dumb)
    three = trial.file("three.script", "machine 1 0 63 1\npins 0\nh 0 hgeip\n")
    trial.prints(1, ["the answer to line 2 is missing: pins 0\n", "2 answers same"], COMPARE,
                 three, "--", dumb)
    ends = command(trial, "ends", "1; text ~ /^wire/ { status = 3 } END { exit status }")
    trial.prints(1, ["shrunk to 1 line,", "wire ", "the command ended with status 3\n"], *short,
                 "wire,h", ends)
    # Only a whole script of 6 lines is answered otherwise, and in its first line.
    whole = command(trial, "whole", '{ all[NR] = $0 } END { if (NR >= 6) all[1] = "fault";'
                                    ' for (k = 1; k <= NR; k++) print all[k] }')
    trial.prints(1, ["shrunk to 6 lines,", "mine: fault"], *short, "wire,h", whole)


def hunts_now_and_then(trial: Trial) -> None:
    """A difference that comes now and then: how often it does is said, nothing is printed that was
    not seen, and where it is seldom the whole script is kept."""
    runs = trial.file("runs", "")
    once = command(trial, "once", 'run == 3 && text ~ /^h / { $0 = "wrong" } 1', runs)
    seldom = ["suite/random 3 40 differs", "seen once in 40 runs: the command's answers change"]
    into = trial.folder / "kept.script"
    said = trial.prints(1, [*seldom, f"the whole script is kept in {into}\n"], HUNT, "--lines", 40,
                        "--into", into, once)
    trial.sees("shrunk" not in said and "=>" not in said, "hunt shrinks what came once")
    wanted = trial.run(RANDOM, 3, 40).output
    trial.sees(into.read_bytes() == wanted, "the script that hunt kept is another one")
    folder = trial.folder / "here"
    folder.mkdir()
    for name in ("hunt-3.script", "hunt-3-2.script"):
        trial.file("runs", "")
        trial.prints(1, [*seldom, f"the whole script is kept in {name}\n"], "env", "-C", folder,
                     HUNT, "--lines", 40, once)
        trial.sees((folder / name).read_bytes() == wanted, f"{name} is another script")
    trial.file("runs", "")
    # In every other run, so in each second try of what still differs.
    other = command(trial, "other", 'run % 2 && text == "pins 0" { $0 = "pins 2 0 0 0" } 1', runs)
    said = trial.prints(1, ["seen in 20 of 40 runs: the command's answers change", "shrunk to 2",
                            "machine", "mine: pins 2 0 0 0", " of 39 runs of these lines: "], HUNT,
                        "--only", "pins,h", "--lines", 30, other)
    trial.sees(listed(said)[-1:] == ["pins 0"], f"of every other run is left {said}")


def hunts_changing(trial: Trial) -> None:
    """A command of which another answer is wrong in each run: nothing is shrunk. One that is wrong
    in one line of many that are alike: that line is kept."""
    into, runs = trial.folder / "changing.script", trial.file("runs", "")
    changes = command(trial, "changes", 'NR == 5 + run * 7 % 30 { $0 = "wrong" } 1', runs)
    said = trial.prints(1, ["suite/random 1 40 differs\n", "differs in 4 ways in 4 runs: the"
                            " command's answers change", f"whole script is kept in {into}\n"], HUNT,
                        "--lines", 40, "--into", into, changes)
    trial.sees("shrunk" not in said and into.read_bytes() == trial.run(RANDOM, 1, 40).output,
               f"of answers that change is left {said}")
    values = command(trial, "values", 'text == "pins 0" { $0 = "pins " run } 1', runs)
    trial.prints(1, ["differs in 4 ways in 4 runs: the command's answers change"], HUNT, "--only",
                 "pins,h", "--lines", 30, "--into", into, values)
    # The first line differs only as long as a line before it is there.
    third = command(trial, "third", '/^pins/ && ++seen >= 3 { $0 = "pins 2 0 0 0" } 1')
    said = trial.prints(1, ["shrunk to 4 lines,", "machine", "mine: pins 2 0 0 0\n"], HUNT,
                        "--only", "pins", "--lines", 30, third)
    trial.sees(said.count("mine:") == 1, f"of the third of some lines is left {said}")


def hunts_words(trial: Trial) -> None:
    """A command that fails over an empty script, an option behind the command, and patterns that no
    line fits."""
    ran = trial.run(HUNT, "bash", "-c", "echo no board >&2; echo two >&2; exit 4")
    trial.sees(ran.status == 2 and not ran.output and ran.errors == "hunt: over an empty script the"
               " command ended with status 4: no board", f"hunt over a command that fails: {ran}")
    ran = trial.run(HUNT, "bash", "-c", "echo ok; kill -SEGV $$")
    trial.sees(ran.status == 2 and not ran.output and "over an empty script" in ran.errors
               and "SIGSEGV" in ran.errors, f"hunt over a command that crashes: {ran}")
    for jobs, forms in ((1, "--refused 0 --only st,h"), (2, "")):
        ran = trial.run(HUNT, "--scripts", 2, *forms.split(), "--jobs", jobs,
                        command(trial, "dash", '{ print "-" }'))
        trial.sees(ran.status == 2 and not ran.output and ran.errors.startswith(
            "hunt: nothing was compared: the command answered - to every line"),
            f"hunt over a command that answers -: {ran}")
    takes = trial.file("takes", f"#!/bin/sh\nexec '{trial.program}' replay\n")
    takes.chmod(0o755)
    known = trial.file("known", "h 7 * | * | * | no such hart\nh * | a | b | one\n")
    cases: list[tuple[list[Word], list[str]]] = [
        ([takes, "--jobs", "2"], ["hunt: --jobs stands behind the command, and so goes to it;"
                                  " options of hunt come first"]),
        (["--", takes, "--jobs=2"], []),
        (["--only", "st,h", "--without", "st 0xnosuch,h * hgeip", "--known", known, takes],
         ["hunt: --without st 0xnosuch: no line of the first 2 scripts fits it",
          "hunt: --known h 7 *: no line of the first 2 scripts fits it"])]
    for words, said in cases:
        ran = trial.run(HUNT, "--scripts", "2", "--lines", "40", *words)
        trial.sees(ran.status == 0 and ran.errors.splitlines() == said, f"hunt {words}: {ran}")
    # The first of many scripts differs: of one that fits no pattern nothing is known.
    ran = trial.run(HUNT, "--lines", "2", "--without", "st 0xnosuch", "head", "-n", "0")
    trial.sees(ran.status == 1 and not ran.errors, f"hunt that ends early says {ran.errors}")


def paces(trial: Trial) -> None:
    """How far a tool is stands on standard error, once it is time to."""
    said = trial.run("env", f"PYTHONPATH={TOP}/tools", sys.executable, "-B", "-c",
                     "from lemdwab import running; pace = running.Pace();"
                     " pace.tell('never'); pace.every = 0; pace.tell('7 of 9 scripts')").errors
    trial.sees(said == "-c: 7 of 9 scripts, 0 seconds", f"a pace says {said!r}")


def hunts_first(trial: Trial) -> None:
    """The command and the file of --into are tried before the model is asked for, and the file is
    as it was, or not there, until there is something to write."""
    mark = trial.folder / "asked"
    model = trial.file("model", f"#!/bin/sh\ntouch {shlex.quote(str(mark))}\nexit 3\n")
    model.chmod(0o755)
    notes = trial.file("notes", "#!/nosuch/interpreter\n")
    notes.chmod(0o755)
    into = trial.file("full.script", "as it was\n")
    free = trial.folder / "free.script"
    cases: list[tuple[int, list[Word]]] = [
        (2, ["/nosuch/command"]), (2, [notes]), (2, [into]), (2, ["bash", "-c", "nosuch-command"]),
        (2, ["--into", "/nosuch/file", "true"]), (2, ["--into", trial.folder, "true"]),
        (1, ["echo", "READY"])]
    for status, words in cases:
        ran = trial.run("env", f"PROGRAM={model}", HUNT, *words)
        trial.sees(ran.status == status and not mark.exists(),
                   f"hunt {words} ends with {ran.status}, and asks for the model: {mark.exists()}")
    for path in (into, free):
        trial.run(HUNT, "--scripts", 1, "--into", path, trial.program, "replay")
    trial.sees(into.read_text(encoding="utf-8") == "as it was\n" and not free.exists(),
               "hunt writes a file, and nothing differs")
    ran = trial.run(HUNT, "--help")
    trial.sees(ran.status == 0 and ran.output.startswith(b"hunt: ") and not ran.errors,
               f"hunt --help ends with {ran.status}")


def hunts_stopped(trial: Trial) -> None:
    """hunt with processes of its own, stopped: it ends with all that these have started."""
    hangs = trial.file("hangs-later", "#!/bin/sh\n[ -s /dev/stdin ] || exit 0\n"
                                      "echo $$ >> \"$0.pids\"\nsleep 1000 &\n"
                                      "echo $! >> \"$0.pids\"\nwait\n")
    hangs.chmod(0o755)
    pids, folder = trial.folder / "hangs-later.pids", trial.folder / "tmp-of-hunt"
    folder.mkdir()
    for each in (signal.SIGINT, signal.SIGTERM):
        pids.unlink(missing_ok=True)
        tool = subprocess.Popen(
            [HUNT, "--jobs", "3", hangs], stdout=subprocess.DEVNULL, stderr=subprocess.PIPE,
            env={**os.environ, "TMPDIR": str(folder), "PROGRAM": str(trial.program)},
            preexec_fn=lambda: signal.signal(signal.SIGINT, signal.SIG_DFL))
        for _ in range(200):
            if pids.exists() and pids.read_text(encoding="ascii").count("\n") >= 6:
                break
            time.sleep(0.05)
        tool.send_signal(each)
        try:
            _, errors = tool.communicate(timeout=20)
        finally:
            tool.kill()
        time.sleep(0.1)
        started = pids.read_text(encoding="ascii").split()
        alive = [pid for pid in started if is_alive(int(pid))]
        trial.sees(tool.returncode == 128 + each and len(started) >= 6 and not alive
                   and errors == f"hunt: stopped by {each.name}: no script that differs was found"
                   " so far\n".encode() and not list(folder.iterdir()),
                   f"hunt --jobs 3, stopped by {each.name}, ends with {tool.returncode}, leaves"
                   f" {alive} of {started}, and says {errors!r}")


def hunts_stopped_later(trial: Trial) -> None:
    """hunt stopped while it shrinks: it says so, says nothing of the model, and what is left so far
    stands in the file that it names."""
    slow = trial.file("slow", "#!/bin/sh\n[ -s /dev/stdin ] || exit 0\nsleep 0.2\nhead -n 5\n")
    slow.chmod(0o755)
    folder = trial.folder / "stopped"
    folder.mkdir()
    for each, words in ((signal.SIGTERM, ""), (signal.SIGINT, "--into into")):
        tool = subprocess.Popen(
            [HUNT, "--lines", "60", *words.split(), slow], cwd=folder, stdout=subprocess.PIPE,
            stderr=subprocess.PIPE, env={**os.environ, "PROGRAM": str(trial.program)},
            start_new_session=True,
            preexec_fn=lambda: signal.signal(signal.SIGINT, signal.SIG_DFL))
        try:
            # It says which script differs before it runs that again.
            sure(tool.stdout).readline()
            time.sleep(0.5)
            os.killpg(tool.pid, each)
            _, errors = tool.communicate(timeout=20)
        finally:
            tool.kill()
        path = folder / ("into" if words else "hunt-1.script")
        lines = len(answers.lines(path.read_bytes())) if path.exists() else 0
        trial.sees(tool.returncode == 128 + each and lines and errors.decode() ==
                   f"hunt: stopped by {each.name}: what is left so far, {lines} lines, stands in"
                   f" {path.name}\n", f"hunt stopped by {each.name}: {tool.returncode}, {lines},"
                   f" {errors!r}")


def hunts_signals(trial: Trial) -> None:
    """A command that a signal ends: the signal is named."""
    for number, name in ((11, "SIGSEGV"), (9, "SIGKILL")):
        ran = trial.run(HUNT, "bash", "-c", f"kill -{number} $$")
        trial.sees(ran.status == 2 and ran.errors == "hunt: over an empty script the command was"
                   f" killed by signal {number} ({name})", f"hunt over a killed command: {ran}")


def hunts_a_file_alone(trial: Trial) -> None:
    """The recipe of suite/TOOLS.md for the supervisor file of one hart finds that eidelivery is
    ignored."""
    text = (TOP / "suite/TOOLS.md").read_text(encoding="utf-8")
    _, _, recipe = text.partition("suite/hunt --refused 0 ")
    words = shlex.split(recipe.partition("./mine")[0].replace("\\\n", " "))
    ignores = trial.file("ignores", f"""#!{sys.executable}
import sys
sys.dont_write_bytecode = True
sys.path.insert(0, {str(TOP / "tools")!r})
from lemdwab.apart import interrupt_file, model
interrupt_file.InterruptFile.signals = lambda self: self.top() != 0
model.replay()
""")
    ignores.chmod(0o755)
    ran = trial.run(HUNT, "--find", "--scripts", "20", "--refused", "0", *words, ignores)
    trial.sees(ran.status == 1 and ran.output.strip().isdigit(),
               f"hunt {words} over an ignored eidelivery: {ran}")


def is_alive(pid: int) -> bool:
    """Says whether a process runs; one that has ended and waits for its parent does not."""
    try:
        stat = Path(f"/proc/{pid}/stat").read_text(encoding="ascii", errors="replace")
    except OSError:
        return False
    return stat.rpartition(")")[2].split()[0] not in "ZX"


def all_plants(trial: Trial, jobs: int) -> None:
    """suite/hunt over all planted errors."""
    for plant in PLANTS:
        began = time.monotonic()
        fewest = finds_plant(trial, plant, "--jobs", jobs)
        print(f"{plant}: {fewest} lines, {time.monotonic() - began:.0f} seconds", flush=True)


PARTS = (hunts, hunts_ranges, hunts_by_processes, hunts_kinds, hunts_now_and_then, hunts_changing,
         hunts_words, paces, hunts_first, hunts_stopped, hunts_stopped_later,
         hunts_signals, hunts_a_file_alone)
