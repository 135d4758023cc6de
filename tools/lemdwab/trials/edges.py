"""Tries how the tools end, as suite/tools does: each function takes its Trial. Help is printed with
status 0; 0 says that all is the same, 1 that something differs, 2 that a tool could not look."""

from __future__ import annotations

import os
import shutil
import stat
import sys
from collections.abc import Iterator
from pathlib import Path
from typing import TYPE_CHECKING

from lemdwab import answers
from lemdwab.running import TOP, sure

if TYPE_CHECKING:
    from lemdwab.commands.tools import Trial, Word

FOLDERS = ("suite", "peers", "examples", "bench", "docs/make")
APART = TOP / "peers/apart"
NO_PROGRAM = "/nosuch/program"
# What no tool runs where it is asked for help.
BUILDERS = ("rt", "cc", "c++", "gcc", "rustc", "valgrind", "qemu-riscv64", "qemu-system-riscv64",
            "riscv64-linux-gnu-gcc")
# Programs that end before their time, or answer wrongly, by their names: lines of a shell.
ENDING = {
    "true": ("exec true", 2), "false": ("exec false", 2), "cat": ("exec head -n 1", 1),
    "one": ("read -r line; echo ok", 2), "half": ("printf ok; exit 3", 2),
    "silent": ("exec >&-; exec sleep 30", 2), "deaf": ("exec <&-; sleep 1", 2),
    "killed": ("kill -9 $$", 2)}


def executables() -> Iterator[Path]:
    """Lists the scripts of the tools: files that may be run and begin with a line that says how."""
    for folder in FOLDERS:
        for path in sorted((TOP / folder).rglob("*")):
            if path.is_file() and path.stat().st_mode & stat.S_IXUSR and "out" not in path.parts:
                with path.open("rb") as file:
                    if file.read(2) == b"#!":
                        yield path


def program(trial: Trial, name: str, lines: str) -> Path:
    """Writes a program of some lines of a shell."""
    path = trial.file(name, f"#!/bin/bash\n{lines}\n")
    path.chmod(0o755)
    return path


def planted(trial: Trial, plant: str) -> Path:
    """Writes a program that answers as the model does with an error in it."""
    return program(trial, plant, f'exec "{APART}/plants.py" {plant}')


def helps(trial: Trial) -> None:
    """Each script prints its own help, with status 0, and builds or runs nothing."""
    folder = trial.folder / "builders"
    folder.mkdir()
    noted = trial.folder / "noted"
    for name in (*BUILDERS, "program"):
        path = folder / name
        path.write_text(f'#!/bin/sh\necho "$0" >> "{noted}"\nexit 1\n', encoding="ascii")
        path.chmod(0o755)
    found = list(executables())
    trial.sees(len(found) > 40, f"there are {len(found)} scripts alone")
    where = f"PATH={folder}:{os.environ['PATH']}"
    for script in found:
        for word in ("-h", "--help"):
            ran = trial.run("env", where, f"PROGRAM={folder}/program", script, word, seconds=20)
            said = answers.shown(ran.output)
            trial.sees(ran.status == 0 and not ran.errors and len(said) > 80,
                       f"{script.relative_to(TOP)} {word} ends with {ran.status}: {ran.errors}")
            trial.sees("set -" not in said and "#!" not in said and "import " not in said,
                       f"{script.relative_to(TOP)} {word} prints more than its head comment")
    trial.sees(not noted.exists(), "help is asked for, and something is run")


def refused_words(trial: Trial) -> Iterator[tuple[Path, list[list[Word]]]]:
    """Lists words that are wrong, by the tool."""
    for name in ("between-steps", "majors-table", "make", "documents", "step-numbers", "isolation",
                 "from-memory", "migrations", "no-sense", "want-of-memory", "repeats",
                 "names", "chain"):
        yield TOP / "suite" / name, [["--x"], ["a", "b", "c"]]
    for name in ("isolation", "from-memory", "migrations", "no-sense"):
        yield TOP / "suite" / name, [["0"], ["x"], ["1", "x"]]
    for name in ("any_plans.py", "generated.py", "judge.py", "plans.py", "sweeps.py", "compare.py",
                 "plants_told.py", "random_scripts.py", "plants.py", "run"):
        yield APART / name, [["--x"], ["a", "x", "y"]]
    yield APART / "plants.py", [[], ["a_priority_of_0_is_kep"], ["gfault_comes_before_away", "x"]]
    yield APART / "plants_told.py", [["1", "2", "nosuch"]]
    for peer in ("qemu", "kvm"):
        yield TOP / "peers" / peer / "build", [[], ["/nosuch"]]
        yield TOP / "peers" / peer / "scripts.py", [[], ["x", "1", "1"], ["moves", "x", "1"]]
        yield TOP / "peers" / peer / f"compare_{peer}.py", [[], ["a", "b", "c", "d"]]
        yield TOP / "peers" / peer / "run", [["a", "x"], ["a", "1", "1", "1"]]
    yield TOP / "peers/qemu/bridge.py", [[], ["/nosuch"], [APART / "model.py", "--x"]]
    yield TOP / "peers/replay_known.py", [[], ["x", "y", "z"], ["kvm", NO_PROGRAM, "x"]]
    yield TOP / "peers/hold", [[], ["x", "y", "1", "--"]]
    linux = TOP / "peers/linux"
    for name in ("build", "kernel/edit.py", "traces.py", "convert.py", "hold.py", "moves.py"):
        yield linux / name, [[], ["/nosuch"]]
    yield linux / "record", [[], ["/nosuch", "x"]]
    yield linux / "run", [["--x"], ["a", "b"], ["--held"], ["--held", "/nosuch"]]
    for name in ("check", "plans/check", "hypervisors/check", "check-library"):
        yield TOP / "examples" / name, [["--x"], ["a", "b"]]
    yield TOP / "examples/migrate", [[], ["0"], ["a", "b"]]
    yield TOP / "examples/library.py", [[], ["a"], [NO_PROGRAM, "x"]]
    yield TOP / "examples/lockstep.py", [["a", "b"], [NO_PROGRAM]]
    yield TOP / "examples/fixed-machine.py", [["nosuch"]]
    yield TOP / "bench/run", [["x"], ["0"], ["1", "2"]]
    yield TOP / "bench/scripts", [[], ["--x"], ["/nosuch"], [trial.folder, "nosuch"]]
    yield TOP / "bench/plot", [["--x"], ["a", "b"]]


def words_are_refused(trial: Trial) -> None:
    """Wrong words, and files that are not there: status 2, and a message on standard error."""
    for tool, cases in refused_words(trial):
        for words in cases:
            ran = trial.run("env", f"PROGRAM={trial.program}", tool, *words, seconds=30)
            trial.sees(ran.status == 2 and ran.errors and not ran.output,
                       f"{tool.relative_to(TOP)} {words} ends with {ran.status}:"
                       f" {ran.errors[:80]!r}{ran.output[:40]!r}")
    said = trial.run(APART / "plants.py", "a_priority_of_0_is_kep").errors
    trial.sees("the nearest is a_priority_of_0_is_kept\n" in said, "plants.py says no nearest name")
    said = answers.shown(trial.run(APART / "plants.py", "-h").output)
    trial.sees("\n    a_priority_of_0_is_kept\n" in said, "plants.py -h lists no plants")


def reasons(trial: Trial) -> None:
    """Where words are wrong a tool says what is, in few lines, and no more of its help."""
    script = str(TOP / "examples/claim.script")
    for words, said in (
            (["suite/random", "7"], "SEED and COUNT are wanted, and not 1 word"),
            (["suite/gen-script", "7"], "COUNT and SEED are wanted, and not 1 word"),
            (["examples/draw", "--lines", "5", script],
             "--lines is FIRST-LAST, as 31-49, and not '5'"),
            (["examples/draw"], "one SCRIPT is wanted, and not 0"),
            (["suite/hunt"], "a COMMAND is wanted"),
            (["suite/compare", script], "ANSWERS are wanted behind the SCRIPT, or `-- COMMAND`;"
                                        " over the suite `-- COMMAND`"),
            (["suite/check", "-k", ""], "a PATTERN is wanted behind -k"),
            (["examples/lockstep.py", "--foo"], "there is no option '--foo'"),
            (["examples/lockstep.py", "a", "b"], "one PROGRAM at most is wanted, and not 2 words")):
        ran, name = trial.run(TOP / words[0], *words[1:]), words[0].rpartition("/")[2]
        trial.sees(ran.status == 2 and ran.errors == f"{name}: {said}\n{name} -h says more",
                   f"{' '.join(words)} says {ran.errors}")
    for words, said in ((["statuses", NO_PROGRAM], f"statuses: there is no program {NO_PROGRAM}"),
                        (["c-library", "/nosuch"], "c-library: there is no folder /nosuch"),
                        (["documents", "mak"],
                         "documents: there is no command 'mak': there are make and claims"),
                        (["documents", "claims"], "documents: claims wants at least one FUNCTION"),
                        (["step-numbers", "tri"],
                         "step-numbers: there is no command 'tri': there is try"),
                        (["make", "a", "b"], "make: one FOLDER at most is wanted, and not 2 words"),
                        (["isolation", "x"],
                         "isolation: PAIRS is a number from 1 to 999999, and not 'x'"),
                        (["from-memory", "x"],
                         "from-memory: GUESTS is a number from 1 to 999999, and not 'x'"),
                        (["migrations", "1", "x"], "migrations: SEED is a number from 0 to 999999,"
                                                   " and not 'x'"),
                        (["no-sense", "x"],
                         "no-sense: LINES is a number from 1 to 999999999, and not 'x'")):
        ran = trial.run("env", "-u", "PLANS", TOP / "suite" / words[0], *words[1:])
        trial.sees(ran.status == 2 and ran.errors.splitlines()[:1] == [said],
                   f"{' '.join(words)} says {ran.errors}")
    lines = trial.run(TOP / "examples/migrate", "x", "1").errors.splitlines()
    trial.sees(lines[-1].startswith("migrate: the numbers of a VM"), f"migrate x 1 says {lines}")
    for tool in ("examples/fixed-machine.py", "peers/apart/model.py"):
        said = answers.shown(trial.run(TOP / tool, "-h").output)
        trial.sees(" with status 2 " in said or " with 2 " in said, f"{tool} -h says no 2")
    trial.sees(answers.shown(trial.run(TOP / "examples/fixed-machine.py", "-h").output).startswith(
        "fixed-machine.py: "), "fixed-machine.py -h begins without its name")


def judges_nothing(trial: Trial) -> None:
    """Where plans can't be judged the checks of examples say that, and never that one differs."""
    fails = program(trial, "fails", "echo no judge >&2; exit 126")
    for tool, one in (("plans/check", APART / "model.py"), ("plans/check", fails),
                      ("hypervisors/check", APART / "model.py"), ("hypervisors/check", fails)):
        given = [one] if tool == "hypervisors/check" else []
        ran = trial.run("env", f"PROGRAM={one}", TOP / "examples" / tool, *given)
        trial.sees(ran.status == 2 and not ran.output and "check: could not look: " in ran.errors,
                   f"{tool} with {one.name} ends with {ran.status}: {ran.output!r}")


def without_toolchain(trial: Trial) -> None:
    """Without the toolchain and a program each tool says what serves in its place."""
    path = f"PATH={os.path.dirname(sys.executable)}:/usr/bin:/bin"
    if shutil.which("rt", path=path.partition("=")[2]) or list(TOP.glob("crates/*/out")):
        return
    for tool in ("suite/isolation", "suite/from-memory", "suite/migrations", "suite/no-sense",
                 "suite/statuses", "examples/check", "examples/plans/check", "peers/apart/run",
                 "suite/compare"):
        words = f"{TOP}/examples/claim.script -- cat".split() if tool == "suite/compare" else []
        ran = trial.run("env", "-u", "PROGRAM", path, TOP / tool, *words)
        trial.sees(ran.status == 2 and "PROGRAM=" in ran.errors,
                   f"{tool} without a program ends with {ran.status}: {ran.errors}")
    ran = trial.run("env", "-u", "PROGRAM", path, TOP / "examples/lockstep.py")
    trial.sees(ran.status == 2 and "lockstep.py peers/apart/model.py" in ran.errors,
               f"lockstep.py without a program says {ran.errors}")


def could_not_look(trial: Trial) -> None:
    """No program, or one that can't be run, no compiler, no place to write: status 2."""
    here = TOP / "examples"
    own = [TOP / "suite" / name for name in ("isolation", "from-memory", "migrations", "no-sense",
                                             "check")]
    own += [here / "check", here / "plans/check"]
    own.append(TOP / "suite/tools")
    cases: list[list[Word]] = [["env", f"PROGRAM={no}", tool]
                               for tool in own for no in (NO_PROGRAM, TOP / "VERSION")]
    unseen = program(trial, "unseen", "grep -v -e '^#' -e '^$' | sed 's/.*/-/'")
    cases += [["env", f"PROGRAM={one}", TOP / "suite" / tool, "1"]
              for one in (shutil.which("false"), shutil.which("true"), unseen)
              for tool in ("isolation", "from-memory", "migrations")]
    cases += [[here / "hypervisors/check", NO_PROGRAM], [APART / "run", NO_PROGRAM],
              [TOP / "peers/qemu/run", NO_PROGRAM], [TOP / "peers/kvm/run", NO_PROGRAM],
              [TOP / "suite/want-of-memory", NO_PROGRAM],
              ["env", "CC=/nosuch/cc", TOP / "suite/want-of-memory", trial.program],
              [here / "check-library", trial.folder]]
    cases += [[TOP / "suite" / name, "/proc/nosuch"] for name in ("make", "majors-table",
                                                                  "between-steps")]
    cases += [["env", "-u", "PLANS", TOP / "suite/statuses", NO_PROGRAM],
              ["env", f"PLANS={NO_PROGRAM}", TOP / "suite/statuses", trial.program],
              [TOP / "suite/c-library", "/nosuch"]]
    for name in ("compare.py", "sweeps.py", "plans.py", "any_plans.py"):
        cases.append([APART / name, NO_PROGRAM, "1", "1"])
    cases.append([APART / "any_plans.py", sure(shutil.which("true")), "1", "1"])
    for words in cases:
        ran = trial.run(*words)
        trial.sees(ran.status == 2 and ran.errors and "Traceback" not in ran.errors,
                   f"{' '.join(map(str, words))} ends with {ran.status}: {ran.errors[-80:]!r}")


def same_and_different(trial: Trial) -> None:
    """The tools that hold a program against something end with 0 where it is right, and with 1
    where it has an error."""
    suite, here, right = TOP / "suite", TOP / "examples", trial.program
    all_bad = program(trial, "all_bad", "exec sed 's/.*/bad/'")
    claims = planted(trial, "a_claim_from_memory_clears_the_word")
    joins = planted(trial, "load_of_an_image_leaves_the_select_number")
    cuts = planted(trial, "an_odd_select_number_reads_0")
    lets = planted(trial, "a_threshold_lets_itself_through")
    plans = program(trial, "plans", "cat > /dev/null; echo accepted")
    cases: list[tuple[Path, Path, list[Word]]] = [
        (suite / "from-memory", claims, [32]),
        (suite / "migrations", joins, [32]), (suite / "no-sense", all_bad, [2000]),
        (here / "check", lets, []), (here / "plans/check", plans, []),
        (suite / "check", lets, ["-k", "claim"])]
    for tool, wrong, words in cases:
        for one, status in ((right, 0), (str(wrong), 1)):
            given = [one, "replay"] if tool.name == "check" and words else []
            ran = trial.run("env", f"PROGRAM={one}", tool, *words, *given)
            trial.sees(ran.status == status, f"{tool.name} over {one} ends with {ran.status}:"
                       f" {ran.errors[-80:]!r}")
    for leak, status in ((0, 0), (1, 1)):
        trial.sees(trial.run(suite / "isolation", 3, leak, seconds=400).status == status,
                   f"isolation with the leak {leak}")
    plant = ("--plant", "a_claim_clears_a_level_source")
    for numbers, status in ((["1", "4"], 0), (["1", "40", *plant], 1)):
        ran = trial.run(APART / "compare.py", right, *numbers)
        trial.sees(ran.status == status, f"compare.py {numbers} ends with {ran.status}")
    for one, status in ((right, 0), (str(cuts), 1)):
        trial.sees(trial.run(APART / "sweeps.py", one, 1, 1).status == status, "sweeps.py")
    for one, status in ((right, 0), (str(plans), 1)):
        trial.sees(trial.run(APART / "plans.py", one, 1, 20).status == status, "plans.py")
    trial.sees(trial.run(here / "hypervisors/check", plans).status == 1, "hypervisors/check")
    trial.prints(0, ["no number of a step stands outside the plans\n"], suite / "step-numbers")
    trial.prints(0, [" names of public types: "], suite / "names", "try")


def short_of_time(trial: Trial, name: str, seconds: str) -> Path:
    """Writes an example anew, with a second for each answer."""
    text = (TOP / "examples" / name).read_text(encoding="utf-8")
    trial.sees(f"SECONDS{seconds}" in text, f"{name} has no SECONDS")
    return trial.file(f"hasty-{name}",
                      text.replace(f"SECONDS{seconds}", f"SECONDS{seconds.replace('60', '1')}"))


def locksteps(trial: Trial) -> None:
    """examples/lockstep.py, and lockstep.c where there is a compiler, with programs that end before
    their time, or close their output: status 2 and a message, and never a traceback."""
    tools, hasty = [TOP / "examples/lockstep.py"], [short_of_time(trial, "lockstep.py", " = 60")]
    hasty[0].chmod(0o755)
    if shutil.which("cc"):
        made = trial.folder / "lockstep"
        trial.run("cc", "-std=c11", "-o", made, TOP / "examples/lockstep.c")
        tools.append(made)
        hasty.append(trial.folder / "hasty")
        trial.run("cc", "-std=c11", "-o", hasty[1], short_of_time(trial, "lockstep.c", " 60"))
    hangs = program(trial, "hangs", "exec sleep 100")
    for tool in hasty:
        ran = trial.run(tool, hangs, seconds=20)
        trial.sees(ran.status == 2 and "machine 1 0 63 1: the model " in ran.errors,
                   f"{tool.name} over a model that hangs: {ran}")
    for name, (lines, status) in ENDING.items():
        ends = program(trial, f"ends-{name}", lines)
        for tool in tools:
            for _ in range(20 if name == "true" else 2):
                ran = trial.run(tool, ends, seconds=20)
                if name == "killed" and tool.suffix == ".py":
                    trial.sees("the model was killed by signal 9 (SIGKILL)" in ran.errors,
                               f"lockstep.py names no signal: {ran.errors}")
                trial.sees(ran.status == status and len(ran.errors.splitlines()) == 1,
                           f"{tool.name} {name} ends with {ran.status}: {ran.errors[:80]!r}")


PARTS = (helps, words_are_refused, reasons, judges_nothing, without_toolchain, could_not_look,
         same_and_different, locksteps)
