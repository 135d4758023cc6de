"""What is made of rows, of the rule of majors and of edits, and which lines count steps."""

import tempfile
import unittest
from contextlib import redirect_stderr
from io import StringIO
from pathlib import Path

from lemdwab import majors_table, rows, running, step_numbers
from lemdwab.apart import model
from lemdwab.apart.majors import Majors
from lemdwab.documents import strength

ROW = """\
//! Rows for a test.

== SOME_ROW a_row
-- Shows something.
machine 1 0 63 1   => ok
# a comment
st 0x28000000 5 => ok

== LONG_ROW a_long_row examples/long unended
-- Shows
-- more.
machine 1 0 63 1 => ok
pins\\s0\\r => bad
"""


class Rows(unittest.TestCase):
    """How rows are read and laid out."""

    def setUp(self) -> None:
        self.folder = tempfile.TemporaryDirectory(dir=running.TOP / "suite")
        self.addCleanup(self.folder.cleanup)

    def read(self, text: str) -> rows.Subject:
        """Reads a file of rows."""
        path = Path(self.folder.name) / "some.rows"
        path.write_text(text, encoding="utf-8")
        return rows.Reader(path).read()

    def test_rows_are_read(self) -> None:
        """Lines go up to the spaces before their answers; a path and `unended` may follow names."""
        one, other = self.read(ROW).rows
        self.assertEqual(one.lines, [("machine 1 0 63 1", "ok"), ("# a comment", ""),
                                     ("st 0x28000000 5", "ok")])
        self.assertEqual((one.path, one.is_unended, one.shows),
                         ("suite/some-row", False, "Shows something."))
        self.assertEqual((other.path, other.is_unended, other.shows),
                         ("examples/long", True, "Shows more."))
        self.assertEqual(other.lines[1], ("pins 0\r", "bad"))

    def test_files_of_a_row(self) -> None:
        """A script of the suite has a comment at its head; one of examples/ stands twice."""
        one, other = self.read(ROW).rows
        self.assertEqual(dict(rows.scripts_of(one)), {
            "crates/aia_script_tests/data/suite/some-row.script":
                "# Shows something.\nmachine 1 0 63 1\n# a comment\nst 0x28000000 5\n",
            "crates/aia_script_tests/data/suite/some-row.out": "ok\nok\n"})
        made = dict(rows.scripts_of(other))
        self.assertEqual(made["examples/long.script"], "machine 1 0 63 1\npins 0\r")
        self.assertEqual(len(made), 4)

    def test_wrong_rows_are_refused(self) -> None:
        """A line of no row, one name alone, no comment, and a line with no answer."""
        for wrong in ("pins 0 => bad\n", "== SOME_ROW\n", "== SOME_ROW a_row\npins 0 => bad\n",
                      "== SOME_ROW a_row\n-- Shows.\npins 0\n",
                      "== SOME_ROW a_row\n-- Shows.\n# a comment => ok\n"):
            with self.assertRaises(SystemExit) as ended, redirect_stderr(StringIO()):
                self.read(wrong)
            self.assertEqual(ended.exception.code, 2)

    def test_theorems(self) -> None:
        """A theorem names its row, and stands within 100 columns."""
        text = rows.module_of(self.read(ROW))
        self.assertIn("pub const SOME_ROW: [(&str, &str); 3] = [\n", text)
        self.assertIn("{ answers (unended_script_of LONG_ROW) ≡ answers_of LONG_ROW }", text)
        self.assertLessEqual(max(map(len, text.splitlines())), 100)

    def test_rows_by_the_model(self) -> None:
        """The model written apart answers each row as it says."""
        for folder in rows.CRATES.values():
            for subject in rows.subjects(folder):
                for row in subject.rows:
                    made = dict(rows.scripts_of(row))
                    front = f"{rows.DATA}/{row.path}"
                    said = model.answers(made[f"{front}.script"].encode()).decode()
                    self.assertEqual(said, made[f"{front}.out"], row.name)


class MajorsTable(unittest.TestCase):
    """The table of majors, held against the model written apart."""

    def test_stopi_by_the_model(self) -> None:
        """What stopi reads in each combination of the table's is what the model reads."""
        wanted = []
        for set_ in majors_table.SETS:
            for ipriom in (0, 1):
                for first, second, third in majors_table.BYTES:
                    for top in majors_table.IDENTITIES:
                        majors = Majors()
                        present = majors_table.members(set_)
                        bits = sum(1 << major for major in present)
                        majors.injected = majors.enabled = bits & ~(1 << 9)
                        majors.enabled |= bits & 1 << 9
                        majors.hviprio1 = first << 8 | second << 24 | third << 40
                        majors.hvictl = ipriom << 8
                        wanted.append(majors.stopi(top, 9 in present))
        self.assertEqual(list(majors_table.pending()), wanted)

    def test_file_stands(self) -> None:
        """The file of the repository is the one that is made."""
        path = running.TOP / "crates/aia_tests/src/majors_table.rt"
        self.assertEqual(path.read_text(encoding="utf-8"), majors_table.text())


class StepNumbers(unittest.TestCase):
    """Which lines count steps."""

    def test_lists(self) -> None:
        """Each line of its own list is found, and none of the other."""
        self.assertEqual(list(step_numbers.faults()), [])

    def test_comments_over_lines(self) -> None:
        """A number that stands at the end of one line and its word in the next is found there."""
        found = list(step_numbers.found("a.antt", "-- after seven\n-- steps it is done\n"))
        self.assertEqual([number for number, _ in found], [2])

    def test_left_out(self) -> None:
        """The plans' own files are not looked through, and others are."""
        names = {str(path.relative_to(running.TOP)) for path in step_numbers.files(running.TOP)}
        self.assertFalse([name for name in names if "_tests/" in name])
        self.assertNotIn("crates/aia_vcpu/proofs/PlanLemmas.antt", names)
        self.assertIn("crates/aia_move/src/lib.rt", names)


class Edits(unittest.TestCase):
    """What the table of edits shows of a line that an edit turns."""

    def test_differing(self) -> None:
        """The words that differ stand with one that both lines have on each side."""
        for old, new, wanted in (
            ("    let a = b + c;", "    let a = b - c;", ("b + c;", "b - c;")),
            ("b == 0", "c == 0", ("b ==", "c ==")),
            ("a && b", "a", ("a && b", "a")),
            ("a a", "a a a", ("a", "a a")),
            ("gone", "", ("gone", "")),
        ):
            self.assertEqual(strength.differing(old, new), wanted)


if __name__ == "__main__":
    unittest.main()
