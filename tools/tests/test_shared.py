"""What the tools share: how scripts and answers are read, commands run, scripts shrunk, and how far
the package keeps to what is said of it."""

import ast
import sys
import time
import unittest
from collections.abc import Iterator
from contextlib import redirect_stderr
from io import StringIO
from pathlib import Path

from lemdwab import answers, drawing, replaying, running, shrinking
from lemdwab.apart import model, reading
from lemdwab.apart.interrupt_file import requested, swapped
from lemdwab.hunting import Found
from lemdwab.trials.hunts import is_alive

PACKAGE = running.TOP / "tools/lemdwab"


def verdict(script: bytes, wanted: bytes, mine: bytes, known: answers.Known | None = None
            ) -> answers.Verdict:
    """Holds answers against those of the model."""
    return answers.Verdict(script, wanted, mine, known or answers.Known())


class Answers(unittest.TestCase):
    """Lines and answers."""

    SCRIPT = b"# a\nmachine 1 0 63 1\n\nst 0x28000000 5\nh 0 csrr stopei\npins 0\n"
    SAID = b"ok\nok\n0x0000000000050005\npins 0 0 0 1\n"

    def test_lines(self) -> None:
        """Comments and empty lines have no answer, and lines keep their numbers."""
        self.assertEqual([line.number for line in answers.lines(self.SCRIPT)], [2, 4, 5, 6])
        self.assertEqual(answers.head_comment(self.SCRIPT), ["# a"])

    def test_same_and_different(self) -> None:
        """Answers are the same, differ, are missing or spare, each counted as what it is."""
        self.assertEqual(verdict(self.SCRIPT, self.SAID, self.SAID).count(), 0)
        other = self.SAID.replace(b"50005", b"60006")
        found = verdict(self.SCRIPT, self.SAID, other)
        self.assertEqual((found.same, found.count(), found.first()), (3, 1, ("answer", 2)))
        short = verdict(self.SCRIPT, self.SAID, b"ok\nok\npins 0 0 0 1\n")
        self.assertEqual((short.missing, short.first()), (1, ("missing", 2)))
        long = verdict(self.SCRIPT, self.SAID, b"READY\n" + self.SAID)
        self.assertEqual((long.spare, long.first()), (["READY"], ("spare", 0)))

    def test_not_shown(self) -> None:
        """An answer that is not shown is no difference, unless the script is wrong there."""
        hidden = verdict(self.SCRIPT, self.SAID, b"ok\n-\n-\npins 0 0 0 1\n")
        self.assertEqual((hidden.count(), hidden.not_shown), (0, 2))
        self.assertTrue(verdict(self.SCRIPT, self.SAID, b"-\n-\n-\n-\n").is_unseen())

    def test_numbers(self) -> None:
        """Great numbers are spelled as addresses are, and sizes are those of a machine."""
        self.assertEqual(answers.spelled_plainly("st 671088640 0x5"), "st 0x28000000 5")
        self.assertTrue(answers.fits("st 671088640 5", "st 0x28* 5"))
        self.assertEqual(answers.sizes_of("1 7 255 96"), (1, 7, 255, 96))
        with self.assertRaises(SystemExit), redirect_stderr(StringIO()):
            answers.sizes_of("5 7 255 96")

    def test_refusals(self) -> None:
        """`notvalid` of an entry is no refusal."""
        self.assertTrue(answers.is_refused("g 0 0 csrr stopei", "away"))
        self.assertFalse(answers.is_refused("entry 0 0", "notvalid"))
        self.assertTrue(answers.is_refused("entry 0", "bad"))


class Reading(unittest.TestCase):
    """The grammar, and what a store names."""

    def test_numbers(self) -> None:
        """A number is decimal without leading zeros, or hexadecimal of 16 digits at most."""
        for word, value in ((b"0", 0), (b"0x0f", 15), (b"18446744073709551615", (1 << 64) - 1),
                            (b"18446744073709551616", None), (b"01", None), (b"0xF", None),
                            (b"0x" + b"0" * 17, None), (b"-1", None), (b"", None)):
            self.assertEqual(reading.number(word), value, word)

    def test_byte_orders(self) -> None:
        """A store at offset 4 is of the other byte order; one that names no identity is nothing."""
        self.assertEqual(swapped(5), 0x05000000)
        self.assertEqual(requested(63, 4, 0x05000000), 5)
        self.assertFalse(requested(63, 0, 64))


class Running(unittest.TestCase):
    """Commands within bounds."""

    def ran(self, *command: str, text: bytes = b"", seconds: int = 20, most: int = 1000
            ) -> running.Ran:
        """Runs a command by a worker."""
        with running.Workers(1) as workers:
            return workers.submit(running.run, list(command), text, seconds, most).result()

    def test_ends(self) -> None:
        """How a command ends, and what it said."""
        self.assertEqual(self.ran("cat", text=b"a\n"), running.Ran(b"a\n", 0, "", ""))
        failed = self.ran("sh", "-c", "echo no board >&2; exit 3")
        self.assertEqual(failed.fault(), "the command ended with status 3: no board")
        self.assertEqual(self.ran("/nosuch/command").status, 127)
        self.assertIn("SIGKILL", self.ran("sh", "-c", "kill -9 $$").fault())

    def test_bounds(self) -> None:
        """A command that takes too long, or writes too much, is stopped."""
        self.assertIn("took too long", self.ran("sleep", "100", seconds=1).stopped)
        self.assertIn("wrote more", self.ran("yes").stopped)

    def test_nothing_is_left(self) -> None:
        """What a command leaves behind is ended with it."""
        found = self.ran("sh", "-c", "sleep 1000 > /dev/null 2>&1 & echo $!")
        for _ in range(100):
            if not is_alive(int(found.output)):
                return
            time.sleep(0.05)
        self.fail("a process is left behind")

    def test_pieces(self) -> None:
        """A count is divided, and nothing is left of it."""
        self.assertEqual(replaying.pieces(70, 32), [(0, 32), (1, 32), (2, 6)])
        self.assertEqual(replaying.pieces(32, 32), [(0, 32)])

    def test_numbers(self) -> None:
        """A number is decimal, and within its bounds."""
        self.assertEqual(running.number("7", "N", 0, 9), 7)
        for wrong in ("x", "10", "-1", "", "0x1"):
            with self.assertRaises(SystemExit), redirect_stderr(StringIO()):
                running.number(wrong, "N", 0, 9)


class Shrinking(unittest.TestCase):
    """Scripts get short, and stay different."""

    @staticmethod
    def first(script: bytes) -> Found | None:
        """The first difference of a program that answers `pins` wrongly."""
        said = model.answers(script).decode().splitlines()
        for at, (line, answer) in enumerate(zip(answers.lines(script), said)):
            if line.text.startswith("pins") and answer.startswith("pins"):
                return Found("answer", at, answer, "", b"", running.Ran(b"", 0, "", ""))
        return None

    def test_two_lines_are_left(self) -> None:
        """Of many lines the machine and the one that differs are left."""
        script = b"machine 4 31 2047 1023\n" + b"wire 1 1\nwire 1 0\n" * 20 + b"pins 3\nh 0 hgeip\n"
        one = shrinking.Shrinker(script, self.first)
        self.assertTrue(one.begin())
        while one.leave_out():
            pass
        self.assertEqual([text.split(b" ")[0] for text in one.texts], [b"machine", b"pins"])


class Drawing(unittest.TestCase):
    """Pictures of moves."""

    def test_a_whole_move(self) -> None:
        """An arrival and a store for the virtual hart are drawn, in its file."""
        script = b"machine 1 1 63 1\nvm 1 8 0\narrive 0 0 0\nmsi 0 0x28000000 5\n"
        found, names = drawing.watched(script, 1, 4)
        said = drawing.in_text(found, names)
        self.assertIn("in file 1 of hart 0", said)
        self.assertIn("5 to file 1 of hart 0", said)


def unsaid(function: ast.FunctionDef) -> list[str]:
    """Lists the arguments of a function of which no type is said, and `return` where none is."""
    given = function.args
    named = [*given.posonlyargs, *given.args, *given.kwonlyargs, given.vararg, given.kwarg]
    found = [one.arg for one in named
             if one and not one.annotation and one.arg not in ("self", "cls")]
    return found + ["return"] * (function.returns is None)


class Package(unittest.TestCase):
    """What is said of the package."""

    def modules(self) -> Iterator[tuple[Path, ast.Module]]:
        """Reads each module."""
        for path in sorted(PACKAGE.rglob("*.py")):
            yield path, ast.parse(path.read_text(encoding="utf-8"))

    def test_standard_library_alone(self) -> None:
        """No module imports another package than the standard library's and this one."""
        for path, tree in self.modules():
            for node in ast.walk(tree):
                names = ([alias.name for alias in node.names] if isinstance(node, ast.Import) else
                         [node.module or ""] if isinstance(node, ast.ImportFrom) else [])
                for name in names:
                    first = name.split(".")[0]
                    self.assertTrue(first == "lemdwab" or first in sys.stdlib_module_names,
                                    f"{path.name} imports {name}")

    def test_apart_stays_apart(self) -> None:
        """The model itself imports nothing but its own modules."""
        for name in ("model", "aplic", "interrupt_file", "majors", "moves", "reading", "refusals"):
            tree = ast.parse((PACKAGE / f"apart/{name}.py").read_text(encoding="utf-8"))
            for node in ast.walk(tree):
                if isinstance(node, ast.ImportFrom) and (node.module or "").startswith("lemdwab"):
                    self.assertTrue(node.module.startswith("lemdwab.apart"), f"{name} imports it")

    def test_types_are_said(self) -> None:
        """Of each function the types of what it takes and gives are said."""
        for path, tree in self.modules():
            for node in ast.walk(tree):
                if isinstance(node, ast.FunctionDef):
                    self.assertEqual(unsaid(node), [], f"{path.name}: {node.name}")

    def test_no_path_is_changed(self) -> None:
        """No module changes where others are found."""
        for path, tree in self.modules():
            for node in ast.walk(tree):
                self.assertFalse(isinstance(node, ast.Attribute) and node.attr == "path"
                                 and isinstance(node.value, ast.Name) and node.value.id == "sys",
                                 f"{path.name} changes sys.path")


if __name__ == "__main__":
    unittest.main()
