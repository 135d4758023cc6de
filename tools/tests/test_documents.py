"""What part I of the definitions is made of: what is called from C, modules in two parts, and
headings that are found."""

import unittest
from collections import Counter

from lemdwab.documents import carried, definitions, header
from lemdwab.documents.antt import Group, all_modules, read_module
from lemdwab.documents.markdown import anchor


class Carried(unittest.TestCase):
    """What README's sentences and the library's calls rest on."""

    def test_calls_for_c(self) -> None:
        """Each call that the header declares has clauses that are looked at."""
        known = {one.name for one in carried.all_functions() if one.crate == carried.LIBRARY}
        self.assertEqual(set(header.declared()) - known, set())

    def test_requires(self) -> None:
        """A clause rests on what its function requires, too."""
        judge = next(one for one in carried.all_functions()
                     if (one.crate, one.called()) == ("plans_judge", "judge"))
        self.assertIn("plans_rules Safe IsInFile", carried.keys_in(judge, ("safe",)))

    def test_below(self) -> None:
        """What is rested on is closed: what one of it names is among it, or is said in words."""
        found = carried.rested_on()
        self.assertEqual(carried.below("aia_model", ["aia_model Script answers"]) - found, set())
        self.assertIn("aia_model Answer answer", found)
        self.assertNotIn("aia_audit PlanText audit_text", found)


class Parts(unittest.TestCase):
    """Modules in two parts."""

    def test_nothing_is_lost(self) -> None:
        """Each definition of a module is in one part of it, in the module's order; a comment
        within a definition stays behind that, and headings stand before something."""
        for crate, module in all_modules():
            whole = [group.code for group in read_module(crate, module)[1] if group.code]
            found = []
            for part in carried.in_parts(crate, module):
                own = [group.code for group in part if group.code]
                self.assertEqual(own, [code for code in whole if code in own])
                self.assertTrue(all(group.code or later.code for group, later
                                    in zip(part, part[1:])), f"{crate} {module}")
                self.assertTrue(not part or part[-1].code, f"{crate} {module}")
                found += own
            self.assertEqual(sorted(found), sorted(whole))

    def test_a_blank_line_between(self) -> None:
        """A block has its comments as the source has them, with one blank line between two."""
        groups = [Group(["-- ---- numbers"]), Group(["-- One."]), Group(["-- Two.", "-- It is."])]
        groups[1].code, groups[2].code = ["abbrev pub one : ℕ"], ["abbrev pub two : ℕ"]
        self.assertEqual(definitions.blocks(groups), [
            "**numbers**\n", "```text", "-- One.", "abbrev pub one : ℕ", "", "-- Two.", "-- It is.",
            "abbrev pub two : ℕ", "```", ""])


class Document(unittest.TestCase):
    """The document that is made of all."""

    def test_headings(self) -> None:
        """No two headings have one anchor, so each is found."""
        in_code, found = False, []
        for line in definitions.rendered().split("\n"):
            in_code ^= line.startswith("```")
            if line.startswith("#") and not in_code:
                found.append(anchor(line.lstrip("# ")))
        self.assertEqual([one for one, count in Counter(found).items() if count > 1], [])

    def test_lines_of_part_one(self) -> None:
        """The lines of part I are counted from its heading to that of part II."""
        self.assertEqual(definitions.count_in("a\n# I. One\n\nb\n# II. Two\nc\n"), 3)


if __name__ == "__main__":
    unittest.main()
