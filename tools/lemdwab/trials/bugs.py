"""Bugs that are planted into the tools, one a tool: the tool's own test, which is right without it,
has to fail with it. `suite/tools bugs` plants them in a copy of the tree, one after another."""

from __future__ import annotations

import shutil
import sys
import time
from pathlib import Path
from typing import TYPE_CHECKING, NamedTuple

from lemdwab.running import TOP

if TYPE_CHECKING:
    from lemdwab.commands.tools import Trial

# What is copied of the tree; what is only read there is linked.
COPIED = ("suite", "tools", "peers", "examples", "bench", "docs", "include", ".shellcheckrc", "aia",
          "plans", "library", "release", "check", "VERSION", "README.md", "crates.txt",
          "CHANGELOG.md")
LINKED = ("crates", "NOTICE", "LICENSE", "HANDLES")
# A test: a module of the unit tests, or words behind suite/.
DRAWN, TABLES, SHARED, COMMANDS = ("tests.test_drawn", "tests.test_tables", "tests.test_shared",
                                   "tests.test_commands")
LONGEST = 600


class Bug(NamedTuple):
    """A bug: the tool, the file of tools/lemdwab, a text that stands there once and what is made of
    it, and the test that has to fail."""

    tool: str
    file: str
    old: str
    new: str
    test: str


BUGS = (
    Bug("compare", "answers.py", "max(0, spare):]", "0:]", SHARED),
    Bug("check", "commands/check.py",
        "not stands.exists() or stands.read_bytes() != (folder / path).read_bytes()",
        "not stands.exists()", COMMANDS),
    Bug("random", "scripts.py", "if self.draw.only and form not in self.draw.only:",
        "if self.draw.only and form in self.draw.without:", "tools random"),
    Bug("gen-script", "apart/generated.py", "draw // 80 % 64", "draw // 80 % 63", DRAWN),
    Bug("hunt", "shrinking.py", "before = sum(at < self.target for at in places)", "before = 0",
        SHARED),
    Bug("lint", "linting.py", 'if word[1] == "X":', 'if word[1] == "Y":', "tools lint"),
    Bug("draw", "drawing.py", "self.stores.append(Store(hart, place, identity))", "pass", SHARED),
    Bug("isolation", "isolating.py", 'if str(vm) != words[1]:', 'if str(vm) == words[1]:', DRAWN),
    Bug("from-memory", "commands/from_memory.py", "if pair[0] != pair[1]]", "if not pair[0]]",
        COMMANDS),
    Bug("migrations", "commands/migrations.py", "if told != there:", "if len(told) != len(there):",
        COMMANDS),
    Bug("no-sense", "nosense.py", "if len(line) > LINE_BYTES:", "if len(line) >= LINE_BYTES:",
        DRAWN),
    Bug("make", "rows.py", 'script += "" if row.is_unended or not row.lines else "\\n"',
        'script += "\\n"', TABLES),
    Bug("majors-table", "majors_table.py", "at[name] = placed(iprio) if dpr else iprio",
        "at[name] = placed(iprio)", TABLES),
    Bug("step-numbers", "step_numbers.py", "        tail = \"\".join(", "        said = \"\".join(",
        TABLES),
    Bug("names", "commands/names.py", "if len(set(map(crate, places))) > 1}",
        "if len(places) > 1}", "names try"),
    Bug("repeats", "commands/repeats.py", "is_name = token in names and not is_field",
        "is_name = False", "repeats try"),
    Bug("chain", "commands/chain.py", "key=len, default=[]) + [crate]",
        "key=str, default=[]) + [crate]", COMMANDS),
    Bug("wider", "keeping.py", "return self.found.get((plant.crate, plant.name, total))",
        "return None", "tools wider"),
    Bug("weaken", "weakening.py", "zip(begin, [*begin[1:], len(block)])", "zip(begin, begin[1:])",
        "tools weaken"),
    Bug("documents", "documents/claims.py",
        "yield f\"{what} is new to docs/make/claims.txt: {again}\"", "continue", "tools documents"),
    Bug("release", "released.py", "if names != sorted(names):", "if not names:", "tools release"),
    Bug("bench/scripts", "benches.py", "draw // 40 % 2", "draw // 50 % 2", DRAWN),
    Bug("linters", "commands/linters.py", 'return "bash" if path.suffix == ".sh"',
        'return "" if path.suffix == ".sh"', COMMANDS),
    Bug("outside", "commands/outside.py", "return wrong[0] if wrong else 0",
        "return wrong[-1] if wrong else 0", COMMANDS),
    Bug("what runs all of them", "running.py", '"it wrote more than answers have, and was stopped"',
        '""', SHARED),
)


class Copy:
    """A copy of the tree, in which a bug is planted and taken back."""

    def __init__(self, trial: Trial, folder: Path) -> None:
        self.trial, self.folder = trial, folder
        for name in COPIED:
            source, target = TOP / name, folder / name
            if source.is_dir():
                shutil.copytree(source, target, symlinks=True,
                                ignore=shutil.ignore_patterns("__pycache__"))
            else:
                shutil.copy(source, target)
        for name in LINKED:
            (folder / name).symlink_to(TOP / name)

    def run(self, test: str) -> int:
        """Runs a test; gives its status."""
        if test.startswith("tests."):
            words = ["env", "-C", f"{self.folder}/tools", sys.executable, "-B", "-m", "unittest",
                     "-q", test]
        else:
            tool, *parts = test.split()
            words = [f"{self.folder}/suite/{tool}", *parts]
        return self.trial.run(*words, seconds=LONGEST).status

    def status_with(self, bug: Bug) -> int | None:
        """Gives the status of a bug's test with the bug; None where its text stands there no
        more."""
        path = self.folder / "tools/lemdwab" / bug.file
        text = path.read_text(encoding="utf-8")
        if text.count(bug.old) != 1:
            return None
        path.write_text(text.replace(bug.old, bug.new), encoding="utf-8")
        try:
            return self.run(bug.test)
        finally:
            path.write_text(text, encoding="utf-8")


def all_bugs(trial: Trial) -> None:
    """Plants all of them."""
    copy = Copy(trial, trial.folder / "bugs")
    for test in dict.fromkeys(bug.test for bug in BUGS):
        trial.sees(copy.run(test) == 0, f"{test} fails without a bug")
    for bug in BUGS:
        began = time.monotonic()
        status = copy.status_with(bug)
        trial.sees(status == 1,
                   f"{bug.tool}: with a bug in {bug.file} {bug.test} ends with {status}")
        print(f"{bug.tool}: {bug.test} ends with {status}, {time.monotonic() - began:.0f} seconds",
              flush=True)
