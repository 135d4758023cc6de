"""Commands: what they look for, and how they end, with the model written apart as the program."""

import os
import subprocess
import sys
import tempfile
import unittest
from collections.abc import Iterator
from contextlib import contextmanager, redirect_stderr
from io import StringIO
from pathlib import Path
from unittest import mock

from lemdwab.commands import chain, check, from_memory, linters, outside
from lemdwab.running import TOP

MODEL, PLANTS = TOP / "peers/apart/model.py", TOP / "peers/apart/plants.py"


def ended(program: str, tool: str, *words: str) -> subprocess.CompletedProcess[str]:
    """Runs a tool of the suite with a program; gives how it ended."""
    return subprocess.run([TOP / "suite" / tool, *words], env={**os.environ, "PROGRAM": program},
                          capture_output=True, text=True, check=False, timeout=300)


@contextmanager
def planted(plant: str) -> Iterator[str]:
    """Gives a program that answers as the model does with an error in it."""
    with tempfile.TemporaryDirectory() as folder:
        path = Path(folder) / plant
        path.write_text(f'#!/bin/sh\nexec "{PLANTS}" {plant}\n', encoding="ascii")
        path.chmod(0o755)
        yield str(path)


class ByTheModel(unittest.TestCase):
    """Tools that hold a program against something end with 0 where it is right, and with 1 where it
    has an error."""

    def sees(self, tool: str, words: list[str], plant: str) -> None:
        """Sees both."""
        right = ended(str(MODEL), tool, *words)
        self.assertEqual((right.returncode, right.stderr), (0, ""), right.stdout)
        with planted(plant) as program:
            wrong = ended(program, tool, *words)
        self.assertEqual((wrong.returncode, wrong.stderr), (1, ""), wrong.stdout)

    def test_from_memory(self) -> None:
        """from-memory sees that a claim from memory clears a whole word."""
        self.sees("from-memory", ["12"], "a_claim_from_memory_clears_the_word")

    def test_migrations(self) -> None:
        """migrations sees that a load leaves the select number."""
        self.sees("migrations", ["12"], "load_of_an_image_leaves_the_select_number")

    def test_no_sense(self) -> None:
        """no-sense sees a program that answers `bad` to all lines."""
        right = ended(str(MODEL), "no-sense", "2000")
        self.assertEqual((right.returncode, right.stderr), (0, ""), right.stdout)
        self.assertIn("lines 2000\n", right.stdout)
        with tempfile.TemporaryDirectory() as folder:
            path = Path(folder) / "bad"
            path.write_text("#!/bin/sh\nexec sed 's/.*/bad/'\n", encoding="ascii")
            path.chmod(0o755)
            self.assertEqual(ended(str(path), "no-sense", "500").returncode, 1)


class FromMemory(unittest.TestCase):
    """What from-memory counts and compares."""

    def test_differences(self) -> None:
        """A run that is answered otherwise is told, by its place."""
        same = [("g 0 0 csrr stopei", "0x0000000000000000")]
        other = [("g 0 0 csrr stopei", "0x0000000000050005")]
        all_same = {"resident": same, "memory": same, "both": same}
        self.assertEqual(from_memory.differences(1, all_same), [])
        found = from_memory.differences(1, {"resident": same, "memory": same, "both": other})
        self.assertEqual(found[0], "the machine of the number 1 differs where guests are in both"
                                   " places:")
        self.assertEqual(len(found), 3)
        longer = from_memory.differences(1, {"resident": same, "memory": same * 2, "both": same})
        self.assertEqual(len(longer), 3)

    def test_counts(self) -> None:
        """Claims are of stopei and of an identity; a read of it is none."""
        counts = from_memory.Counts()
        counts.add([("g 0 0 csrrw stopei 0", "0x0000000000050005"),
                    ("g 0 0 csrrw stopei 0", "0x0000000000000000"),
                    ("g 0 0 csrr stopei", "0x0000000000050005"), ("g 0 0 csrr sireg", "virtual"),
                    ("g 0 0 ipi 0 5", "ok")])
        self.assertEqual((counts.lines, counts.read, counts.claims, counts.refused), (5, 3, 1, 1))


class Check(unittest.TestCase):
    """suite/check over files that drift."""

    def test_drifts(self) -> None:
        """A file that is other, one that is missing and one of no row are each told."""
        with tempfile.TemporaryDirectory() as one, tempfile.TemporaryDirectory() as two:
            top, made = Path(one), Path(two)
            for name in check.FOLDERS:
                for folder in (top, made):
                    (folder / name).mkdir(parents=True)
                (made / name / "a.script").write_text("pins 0\n", encoding="ascii")
                (top / name / "a.script").write_text("pins 0\n", encoding="ascii")
            self.assertEqual(list(check.drifts(top, made)), [])
            (top / "examples/a.script").write_text("pins 1\n", encoding="ascii")
            (top / "examples/b.out").write_text("ok\n", encoding="ascii")
            (made / "examples/c.out").write_text("ok\n", encoding="ascii")
            self.assertEqual(list(check.drifts(top, made)), [
                "examples/a.script is not what the scripts of suite make",
                "examples/c.out is not what the scripts of suite make",
                "examples/b.out is of no row"])


class Chain(unittest.TestCase):
    """suite/chain over lists of crates."""

    def test_longest(self) -> None:
        """The longest chain of a crate, whatever the order of the lines."""
        below = chain.below_each("high: mid low\nmid: low # a comment\nlow:\nffi staticlib: low\n")
        self.assertEqual(chain.chains(below)["high"], ["low", "mid", "high"])
        self.assertEqual(chain.chains(below)["ffi"], ["low", "ffi"])

    def test_rings(self) -> None:
        """Crates that stand on one another, and lines that name none, are refused."""
        for wrong in ("a: b\nb: a\n", "a\n", "a:\na:\n", ""):
            with self.assertRaises(SystemExit) as end, redirect_stderr(StringIO()):
                chain.chains(chain.below_each(wrong))
            self.assertEqual(end.exception.code, 2)


class Linters(unittest.TestCase):
    """Which linter looks at what."""

    def test_languages(self) -> None:
        """A script is of the language that its first line names, or its ending."""
        for name, language in (("aia", "bash"), ("suite/launcher.sh", "bash"),
                               ("suite/hunt", "python3"), ("examples/lockstep.py", "python3"),
                               ("tools/lemdwab/running.py", "python3"), ("README.md", "")):
            self.assertEqual(linters.language(TOP / name), language, name)

    def test_each_has_files(self) -> None:
        """Each linter has something to look at."""
        files = [TOP / name for name in ("aia", "examples/library.c", "suite/hunt",
                                         "tools/lemdwab/running.py")]
        for name in linters.LINTERS:
            self.assertTrue(list(linters.commands_of(name, files)), name)

    def test_in_its_place(self) -> None:
        """flake8 looks at Python where it is installed and ruff is not."""
        for there, looks in (({"ruff", "flake8"}, "ruff"), ({"flake8"}, "flake8"), (set(), "ruff")):
            with mock.patch("shutil.which", lambda name, there=there: name in there):
                found = list(linters.commands_of("ruff", [TOP / "suite/hunt"]))
            self.assertEqual([command[0] for command in found], [looks], there)


class Outside(unittest.TestCase):
    """What ./check runs after the gate."""

    def test_each_is_there(self) -> None:
        """Each command is one of the repository, and each name stands in the help."""
        for name, commands in outside.CHECKS.items():
            self.assertIn(f"\n    {name} ", outside.__doc__ or "")
            for command in commands:
                self.assertTrue(Path(command[0]).is_file(), command[0])

    def test_all_parts_of_tools(self) -> None:
        """All parts of suite/tools are run, but for those that others have, and those by hand."""
        from lemdwab.commands import tools  # which imports what it tries
        self.assertEqual(set(outside.TOOLS) | {"rows"}, set(tools.PARTS))

    def test_ends(self) -> None:
        """How a command ended is kept, with what it printed."""
        found = outside.looked([sys.executable, "-c", "print('a'); raise SystemExit(3)"])
        self.assertEqual((found.status, found.said), (3, "a"))

    def test_first_status(self) -> None:
        """It ends with the status of the first that fails, in its order."""
        code = ("import sys; from lemdwab import running; from lemdwab.commands import outside;"
                "from lemdwab.running import State;"
                "outside.CHECKS = {name: [['sh', '-c', f'exit {status}']] for name, status in"
                " (('a', 0), ('b', 3), ('c', 1))}; sys.argv = ['outside'];"
                "running.main(outside.main)")
        ran = subprocess.run([sys.executable, "-B", "-c", code], capture_output=True, text=True,
                             check=False, timeout=60,
                             env={**os.environ, "PYTHONPATH": str(TOP / "tools"),
                                  "PROGRAM": str(MODEL), "PLANS": str(MODEL)})
        self.assertEqual(ran.returncode, 3, ran.stderr)
        self.assertIn("3 commands, 2 of them failed\n", ran.stdout)


if __name__ == "__main__":
    unittest.main()
