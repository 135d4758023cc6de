"""Tries the launchers ./aia, ./plans and ./library: what they say before the program runs, and
after it. They run in a tree of their own, with a toolchain and programs that only pretend."""

from __future__ import annotations

import os
import random
import re
import shutil
import signal
import subprocess
import time
from pathlib import Path
from typing import TYPE_CHECKING

from lemdwab.running import TOP, sure
from lemdwab.trials.hunts import is_alive

if TYPE_CHECKING:
    from lemdwab.commands.tools import Trial
    from lemdwab.running import Ran

PLAN, SCRIPT = "examples/hypervisors/core-leave.plan", "examples/claim.script"
AUDITED = "examples/plans/leave.plan"
# What the launchers need of a tree, and of a path without the toolchain.
FILES = ("aia", "plans", "library", "VERSION", "crates.txt", "include/aia.h", "suite/launcher.sh",
         "suite/stale", PLAN, SCRIPT, AUDITED)
COMMANDS = ("bash", "sh", "env", "dirname", "readlink", "find", "mktemp", "awk", "tail",
            "nproc", "mkdir", "rm", "touch", "sleep", "cat", "chmod", "ar", "cc")
# Of each launcher the crate that it builds, what that makes, and its status where it can't.
BUILT = {"aia": ("aia", "aia", 1), "plans": ("plans", "plans", 126),
         "library": ("aia_c", "libaia_c.a", 1)}
RIGHT = {"aia": ("replay",), "plans": ("judge",), "library": ("library-folder",)}
# Words that are refused, and what is said of them.
WRONG = (
    ("aia", (), "a word is wanted"),
    ("aia", ("replai",), "there is no command 'replai'"),
    ("aia", ("judge",), "judge is a command of plans: ./plans judge < PLAN"),
    ("aia", ("audit", "leave", "VERSION"),
     "'VERSION' is a file: have it read from standard input, as ./aia audit leave W < VERSION"),
    ("aia", ("--verison",), "there is no option '--verison': there are --help and --version"),
    ("aia", ("VERSION",), "'VERSION' is a file: have it read from standard input"),
    ("aia", ("replay", "VERSION"), "'VERSION' is a file: have it read from standard input"),
    *((name, words, f"'{file}' is a file: have it read from standard input, as ./{read} < {file}")
      for name, words, file, read in (
          ("aia", (PLAN,), PLAN, "plans judge"), ("plans", ("judge", PLAN), PLAN, "plans judge"),
          ("aia", ("audit", "leave", PLAN), PLAN, "plans judge"),
          ("aia", (AUDITED,), AUDITED, "aia audit leave 1"),
          ("aia", ("audit", "shift", "2", AUDITED), AUDITED, "aia audit shift 2"),
          ("plans", (AUDITED,), AUDITED, "aia audit leave 1"),
          ("plans", (SCRIPT,), SCRIPT, "aia replay"))),
    ("aia", ("replay", "x"), "replay has no word behind it, and not 'x'"),
    ("aia", ("gen",), "two numbers are wanted behind gen, COUNT and SEED, and 0 given"),
    ("aia", ("gen", "1"), "two numbers are wanted behind gen, COUNT and SEED, and 1 given"),
    ("aia", ("gen", "100001", "1"), "COUNT of gen is a number up to 100000, and not '100001'"),
    ("aia", ("gen", "1", str(1 << 64)), f"SEED of gen is a number below 2^64, and not '{1 << 64}'"),
    ("aia", ("audit", "leave"), "two words are wanted behind audit, KIND and W, and 1 given"),
    ("aia", ("audit", "go", "1"), "KIND of audit is leave, arrive or shift, and not 'go'"),
    ("aia", ("audit", "leave", "3"), "W of audit is 1, 2, 4, 8, 16 or 32, and not '3'"),
    ("aia", ("audit", "leave", "4", "VERSION"),
     "'VERSION' is a file: have it read from standard input, as ./aia audit leave 4 < VERSION"),
    ("plans", (), "a word is wanted"),
    ("plans", ("jugde",), "there is no command 'jugde'"),
    ("plans", ("judge", "VERSION"),
     "'VERSION' is a file: have it read from standard input, as ./plans judge < VERSION"),
    ("plans", ("audit", "leave", "1"), "audit is a command of aia: ./aia --help says more"),
    ("plans", ("replay",), "replay is a command of aia"),
    ("library", (), "one folder is wanted, and 0 words given"),
    ("library", ("a", "b"), "one folder is wanted, and 2 words given"),
    ("library", ("-x",), "there is no option '-x'"),
    ("library", ("",), "a folder is wanted, and not an empty word"),
    ("library", ("VERSION",), "'VERSION' is no folder"),
)
# Words of which command lines are made at random.
WORDS = ("replay", "gen", "audit", "leave", "arrive", "shift", "0", "1", "3", "32", "33", "+5",
         "007", "100000", "100001", str((1 << 64) - 1), str(1 << 64), "--", "-1", "x", "", "0x1",
         "1 1")
SENTENCES = {3: "the input could not be read to its end",
             4: "the output could not be written to its end", 5: "there was not enough memory",
             6: "the input has more than 16,777,216 bytes", 8: "there is no plan in the input"}


class Tree:
    """A tree with the launchers, a path with a toolchain that pretends, and one without."""

    def __init__(self, trial: Trial, name: str) -> None:
        self.trial, self.folder = trial, trial.folder / name
        for file in FILES:
            (self.folder / file).parent.mkdir(parents=True, exist_ok=True)
            shutil.copy(TOP / file, self.folder / file)
        self.calls, self.bare = self.folder / "calls", self.folder / "bare"
        self.path = self.folder / "bin"
        self.bare.mkdir()
        self.path.mkdir()
        for command in COMMANDS:
            found = shutil.which(command)
            if found:
                (self.bare / command).symlink_to(found)
        crates = (TOP / "crates.txt").read_text(encoding="utf-8")
        for crate in re.findall(r"(?m)^(\w+)", crates):
            (self.folder / "crates" / crate / "src").mkdir(parents=True)

    def pretend(self, status: int, program: str = "exec cat") -> None:
        """Puts a toolchain on the path that says much, makes a program, and ends with a status."""
        rt = self.path / "rt"
        rt.write_text(
            f"#!/bin/sh\necho \"$*\" >> '{self.calls}'\n"
            "for crate in aia_regs plans_rules plans_counterexamples; do\n"
            "  echo \"rt: chose --jobs 4 for $crate\"\n  echo flood flood flood >&2\n"
            "  sleep 1.2\n  echo \"crate $crate: modules loaded=1 checked=1\"\ndone\n"
            f"mkdir -p out\nprintf '#!/bin/sh\\n{program}\\n' > out/${{PWD##*/}}\n"
            f"chmod +x out/*\nexit {status}\n", encoding="ascii")
        rt.chmod(0o755)

    def put(self, launcher: str, program: str) -> None:
        """Puts a program where the launcher has one built."""
        crate, name, _ = BUILT[launcher]
        built = self.folder / "crates" / crate / "out" / name
        built.parent.mkdir(exist_ok=True)
        built.write_text(f"#!/bin/sh\n{program}\n", encoding="ascii")
        built.chmod(0o755)

    def run(self, launcher: str, *words: str, path: Path | None = None) -> Ran:
        """Runs a launcher in the tree; gives how it ended."""
        searched = f"{path or self.path}:{self.bare}" if path != self.bare else self.bare
        return self.trial.run("env", "-C", self.folder, f"PATH={searched}",
                              self.folder / launcher, *words)

    def has_built(self) -> bool:
        """Says whether the toolchain was called."""
        return self.calls.exists()


def launchers_speak(trial: Trial) -> None:
    """Help, the version and wrong words, of which nothing is built."""
    tree = Tree(trial, "speak")
    tree.pretend(0)
    version = (TOP / "VERSION").read_text(encoding="ascii").strip()
    for launcher in BUILT:
        for word in ("-h", "--help", "help"):
            ran = tree.run(launcher, word)
            trial.sees(ran.status == 0 and ran.output.decode().startswith(f"{launcher}: ")
                       and not ran.errors, f"{launcher} {word} ends with {ran.status}")
        for word in ("--version", "-V"):
            ran = tree.run(launcher, word)
            trial.sees(ran.output.decode() == f"{launcher} {version}\n" and not ran.status,
                       f"{launcher} {word} prints {ran.output!r}")
    said = tree.run("plans", "--help").output.decode()
    trial.sees("env -C crates/plans rt try -- judge < PLANS\n" in said and "18 minutes" in said,
               "plans --help does not say how a plan is judged without a proof")
    for launcher, words, said in WRONG:
        ran = tree.run(launcher, *words)
        trial.sees(ran.status == 2 and not ran.output and said in ran.errors
                   and f"usage: {launcher} " in ran.errors,
                   f"{launcher} {words} ends with {ran.status}: {ran.errors}")
    ran = trial.run("bash", "-c", f"'{tree.folder}/plans' --help > /dev/full")
    trial.sees(ran.status == 4 and ran.errors == f"plans: {SENTENCES[4]}",
               f"plans --help > /dev/full ends with {ran.status}: {ran.errors}")
    trial.sees(not tree.has_built(), "a launcher builds before it has looked at its words")


def versions_agree(trial: Trial) -> None:
    """One version in the file VERSION, in the header and in the library."""
    major, minor, patch = map(int, (TOP / "VERSION").read_text(encoding="ascii").split("."))
    number = 10_000 * major + 100 * minor + patch
    header = (TOP / "include/aia.h").read_text(encoding="utf-8")
    library = (TOP / "crates/aia_c/src/version.rt").read_text(encoding="utf-8")
    trial.sees(f"#define AIA_VERSION {number}\n" in header, "AIA_VERSION of include/aia.h")
    trial.sees(re.search(rf"VERSION: u32 = {number:_};", library), "VERSION of aia_c")
    changes = (TOP / "CHANGELOG.md").read_text(encoding="utf-8")
    trial.sees(sure(re.search(r"(?m)^## (\S+)", changes))[1] == f"{major}.{minor}.{patch}",
               "the first version of CHANGELOG.md")


def files_are_licensed(trial: Trial) -> None:
    """Each file that is meant to be copied says its licence, and each of the READMEs for users."""
    files = [TOP / "include/aia.h", TOP / "README.md", TOP / "suite/README.md",
             TOP / "peers/README.md", *sorted((TOP / "examples").glob("*.[cpr]*")),
             TOP / "examples/migrate"]
    for file in files:
        trial.sees("Apache-2.0" in file.read_text(encoding="utf-8"), f"{file.name} has no licence")
    trial.sees("Apache License" in (TOP / "LICENSE").read_text(encoding="utf-8")[:200], "LICENSE")


def launchers_refuse_as_programs(trial: Trial) -> None:
    """Words at random, which ./aia refuses where the program does."""
    tree, draw = Tree(trial, "words"), random.Random(7)
    tree.put("aia", "exit 0")
    lists = [["replay", "--"], ["gen", "--", "+1", "007"], ["audit", "leave", "--", "+032"]]
    lists += [[draw.choice(WORDS[:3]), *draw.choices(WORDS, k=draw.randrange(4))]
              for _ in range(200)]
    for words in lists:
        refused = tree.run("aia", *words).status == 2
        trial.sees(refused == (trial.run(trial.program, *words).status == 2),
                   f"aia {words} is refused by the launcher or by the program alone")


def launchers_without_toolchain(trial: Trial) -> None:
    """No toolchain on the path: a sentence says so, and what there is without it."""
    tree = Tree(trial, "without")
    for launcher, (_, _, status) in BUILT.items():
        ran = tree.run(launcher, *RIGHT[launcher], path=tree.bare)
        trial.sees(ran.status == status and not ran.output and len(ran.errors.splitlines()) == 1
                   and ran.errors.startswith(f"{launcher}: rt, the toolchain") and
                   "; without it" in ran.errors,
                   f"{launcher} without rt ends with {ran.status}: {ran.errors}")
    for words, said in ((("replay",), "peers/apart/model.py < SCRIPT"),
                        (("gen", "7", "8"), "peers/apart/generated.py 7 8"),
                        (("audit", "leave", "1"), "nothing here judges a plan")):
        ran = tree.run("aia", *words, path=tree.bare)
        trial.sees(said in ran.errors, f"aia {words} without rt says {ran.errors}")
    tree.put("aia", "echo here")
    ran = tree.run("aia", "replay", path=tree.bare)
    trial.sees(ran.output == b"here\n" and not ran.status, "aia is built, and wants rt")


def launchers_build(trial: Trial) -> None:
    """A first build: what is said before it, how it goes on, and where it failed."""
    for launcher, (crate, _, status) in list(BUILT.items())[:2]:
        tree = Tree(trial, f"build-{launcher}")
        tree.pretend(0, "exec cat")
        ran = tree.run(launcher, *RIGHT[launcher])
        said = ran.errors.splitlines()
        trial.sees(ran.status == 0 and " minutes of processor time" in said[0],
                   f"{launcher} says before a first build {said[:1]}")
        goes = (r"looks at what is proved|crate \d+ of \d+|all \d+ crates are proved, and it is"
                " compiled")
        is_quiet = all(re.fullmatch(rf"{launcher}: ({goes}), 0 min so far", line)
                       for line in said[1:])
        trial.sees(is_quiet and len(said) > 2, f"{launcher} builds with {said[1:]}")
        log = tree.folder / "out" / f"build-{launcher}.log"
        trial.sees("flood" in log.read_text(encoding="ascii"), f"{log.name} has no flood")
        trial.sees(tree.calls.read_text(encoding="ascii").startswith("run -- "), "another build")
        tree.pretend(7)
        source = tree.folder / "crates" / crate / "src/main.rt"
        source.touch()
        os.utime(source, (time.time() + 60, time.time() + 60))
        ran = tree.run(launcher, *RIGHT[launcher])
        trial.sees(ran.status == status and "sources have changed" in ran.errors
                   and f"rt ended with status 7, and {log} has what it said" in ran.errors,
                   f"{launcher} that fails to build ends with {ran.status}: {ran.errors}")


def launchers_say_statuses(trial: Trial) -> None:
    """The statuses of a program, which a launcher keeps and, of failures, says in a sentence."""
    tree = Tree(trial, "statuses")
    for launcher in ("aia", "plans"):
        for status in range(10):
            tree.put(launcher, f"cat > /dev/null; exit {status}")
            ran = tree.run(launcher, *RIGHT[launcher])
            wanted = f"{launcher}: {SENTENCES[status]}" if status in SENTENCES else ""
            trial.sees(ran.status == status and ran.errors == wanted and not ran.output,
                       f"{launcher} of status {status} ends with {ran.status}: {ran.errors!r}")


def ended(tree: Tree, each: signal.Signals, pid: Path) -> tuple[int, bool]:
    """Starts ./aia replay in a tree, tells it to end once a process has said its number, and gives
    its status and whether that process is still there."""
    pid.unlink(missing_ok=True)
    tool = subprocess.Popen(
        [str(tree.folder / "aia"), "replay"], stdin=subprocess.PIPE, stdout=subprocess.DEVNULL,
        stderr=subprocess.DEVNULL, start_new_session=True,
        env={**os.environ, "PATH": f"{tree.path}:{tree.bare}"})
    for _ in range(100):
        if pid.exists() and pid.read_text(encoding="ascii").endswith("\n"):
            break
        time.sleep(0.05)
    if each == signal.SIGKILL:
        os.killpg(tool.pid, each)
    else:
        tool.send_signal(each)
    status = tool.wait(20)
    sure(tool.stdin).close()
    time.sleep(0.1)
    return status, is_alive(int(pid.read_text(encoding="ascii")))


def on_terminal(tree: Tree, seconds: float) -> str:
    """Starts ./plans judge in a tree with a terminal for standard error, tells it to end after so
    many seconds, and gives what the terminal shows."""
    ours, its = os.openpty()
    tool = subprocess.Popen([str(tree.folder / "plans"), "judge"], stdin=subprocess.DEVNULL,
                            stdout=subprocess.DEVNULL, stderr=its, start_new_session=True,
                            env={**os.environ, "PATH": f"{tree.path}:{tree.bare}"})
    os.close(its)
    time.sleep(seconds)
    tool.send_signal(signal.SIGTERM)
    tool.wait(20)
    shown = b""
    try:
        while some := os.read(ours, 4096):
            shown += some
    except OSError:
        # That is how a terminal ends on which nobody writes any more.
        pass
    os.close(ours)
    return shown.decode()


def launchers_on_terminal(trial: Trial) -> None:
    """A build on a terminal: its line moves each second, and what is said at its end stands in a
    line of its own."""
    tree = Tree(trial, "terminal")
    tree.path.joinpath("rt").write_text("#!/bin/sh\nexec sleep 1000\n", encoding="ascii")
    tree.path.joinpath("rt").chmod(0o755)
    shown = on_terminal(tree, 3.5)
    moments = set(re.findall(r"\rplans: looks at what is proved, 0 min (\d\d) s so far", shown))
    trial.sees(len(moments) >= 2, f"the line of a build does not move: {shown!r}")
    trial.sees("so far\r\nplans: ended; what is proved" in shown,
               f"what is said at the end stands in the line of the build: {shown!r}")


def launchers_end(trial: Trial) -> None:
    """A launcher that is told to end, which ends its program, or the build of it."""
    tree = Tree(trial, "end")
    tree.path.joinpath("rt").write_text(f"#!/bin/sh\necho $$ > {tree.folder}/rt.pid\n"
                                        "exec sleep 1000\n", encoding="ascii")
    tree.path.joinpath("rt").chmod(0o755)
    for each in (signal.SIGTERM, signal.SIGINT, signal.SIGHUP, signal.SIGKILL):
        status, is_there = ended(tree, each, tree.folder / "rt.pid")
        trial.sees(not is_there and status,
                   f"aia that builds, told {each.name}, ends with {status}")
    tree.put("aia", "echo $$ > \"$0.pid\"\nexec sleep 1000")
    for each in (signal.SIGTERM, signal.SIGINT, signal.SIGHUP, signal.SIGKILL):
        status, is_there = ended(tree, each, tree.folder / "crates/aia/out/aia.pid")
        trial.sees(not is_there and status, f"aia told {each.name} ends with {status}")


PARTS = (launchers_speak, versions_agree, files_are_licensed, launchers_refuse_as_programs,
         launchers_without_toolchain, launchers_build, launchers_on_terminal,
         launchers_say_statuses, launchers_end)
