"""Anybody's plans on the machine written apart: what is found of those of the examples and of the
document, that each run that is told is a bad one, and how files of plans are read."""

import random
import subprocess
import unittest
from collections.abc import Iterator
from pathlib import Path

from lemdwab.apart import any_plans, judging
from lemdwab.apart.judging import Plan, answer, plans_of
from lemdwab.apart.plan_machine import Setting
from lemdwab.apart.plan_runs import is_losing_shown, is_untold_shown
from lemdwab.running import TOP

EXAMPLES = TOP / "examples/hypervisors"
JUDGE = TOP / "peers/apart/judge.py"
SECONDS = 20
RULES = ("routes", "words", "blank", "numbers", "freeing")

# A plan into memory that leaves a store untold which was in flight as its route was switched.
IN_FLIGHT = """\
fresh
memory
producer routed
numbers old old
take enabled 0
join enabled 0
switch 0
take pending 0
join pending 0
tell
fence 0
take pending 0
join pending 0
"""
# One that the rule on notices refuses, though its host is told: the threshold that was put in the
# end lets through no more than that which the tell has heeded.
ASKED_FOR_MORE = """\
fresh
memory
heeds
zero new threshold
take threshold
take delivery
put delivery
take pending 0
join pending 0
take enabled 0
join enabled 0
tell
put threshold
"""


def read(text: str) -> list[Plan]:
    """Reads the plans of a file."""
    return list(plans_of(text.encode().split(b"\n")))


def answers(text: str) -> list[str]:
    """Gives what is answered of the plans of a file."""
    return [answer(plan, SECONDS)[1] for plan in read(text)]


def is_shown(plan: Plan, run: str, rules: tuple[str, ...] = RULES) -> bool:
    """Says whether a run of a plan is bad as it says: it breaks one of the rules, or leaves the
    host untold."""
    given = plan.setting, plan.steps, plan.lines, run
    return is_untold_shown(*given) or any(is_losing_shown(*given, rule) for rule in rules)


class Examples(unittest.TestCase):
    """Plans that have a verdict."""

    def examples(self) -> Iterator[tuple[Path, Plan, list[str]]]:
        """Lists the plans of the examples, each with its verdict and the run that is shown."""
        for path in sorted(EXAMPLES.glob("*.plan")):
            plan, = plans_of(path.read_bytes().split(b"\n"))
            yield path, plan, path.with_suffix(".out").read_text(encoding="ascii").splitlines()

    def test_examples(self) -> None:
        """A loss is found of each plan that is refused, and of no other one; and it is one."""
        found = list(self.examples())
        self.assertGreater(len(found), 20)
        for path, plan, (verdict, *shown) in found:
            said = answer(plan, SECONDS)[1]
            if verdict == "accepted":
                self.assertRegex(said, "^no loss found in [0-9]+ runs$", path.name)
                continue
            self.assertTrue(said.startswith("loses: "), f"{path.name}: {said}")
            self.assertTrue(is_shown(plan, said.removeprefix("loses: ")), f"{path.name}: {said}")
            run, = shown
            rule = verdict.split()[1]
            self.assertTrue(is_shown(plan, run.removeprefix("  run: "), (rule,)), path.name)

    def test_the_document(self) -> None:
        """Of the document's plan none is found, and one of each of the changes that it lists."""
        text = (TOP / "docs/PLANS.md").read_text(encoding="utf-8")
        plan = text.split("\n## A shift that is right\n")[1].split("```")[1]
        self.assertRegex(answers(plan)[0], "^no loss found")
        early = plan.replace("take pending 0 ", "#").replace("fence 0 ", "take pending 0\nfence 0 ")
        for changed in (early, plan.replace("route 0 ", "#").replace("fence 0 ", "#"),
                        plan.replace("join pending", "put pending"), plan.replace("fresh", "")):
            self.assertNotEqual(changed, plan)
            self.assertRegex(answers(changed)[0], "^loses: ", changed)

    def test_notices(self) -> None:
        """A store in flight may leave the host untold; where the rule asks for more none does."""
        self.assertEqual(answers(IN_FLIGHT), [
            "loses: identity 1 is enabled in the old place at the start; a store of producer 0 for"
            " it is sent behind line 6, and lands behind line 8, or sooner, at its fence; in the"
            " end it is pending and enabled in the new place, and the host was not told, or that"
            " was taken back"])
        self.assertRegex(answers(ASKED_FOR_MORE)[0], "^no loss found")

    def test_random_plans(self) -> None:
        """Of random plans a loss is found where a trial of all places finds one; and it is one."""
        draw = random.Random("judging")
        seeds = [*any_plans.hypervisors(1), *any_plans.hypervisors(2)]
        for _ in range(150):
            setting, steps = draw.choice(seeds)
            plan = Plan()
            plan.setting, plan.steps = setting, any_plans.edited(setting, steps, draw)
            plan.lines = [5 + 2 * at for at in range(len(plan.steps))]
            status, said = answer(plan, SECONDS)
            if status == judging.LOSES:
                self.assertTrue(is_shown(plan, said.removeprefix("loses: ")), said)
            else:
                self.assertFalse(any_plans.has_bad_run(setting, plan.steps), plan.steps)


class Shown(unittest.TestCase):
    """Runs that are told wrongly."""

    PLAN = "producer switched\nfresh\ntake pending 0\njoin pending 0\n"
    RUN = ("identity 1 is pending nowhere at the start; producer 0 stores it behind line 3 by its"
           " route in force; in the end it is in the old place, where the route of producer 0 leads"
           " still")

    def test_wrong_runs(self) -> None:
        """A run that is none, or does not end as it says, is told from one that is."""
        plan, = read(self.PLAN)
        self.assertTrue(is_shown(plan, self.RUN))
        for right, wrong in (("identity 1", "identity 64"), ("line 3", "line 2"),
                             ("producer 0 stores", "producer 1 stores"), ("nowhere", "anywhere"),
                             ("behind line 3", "before the first step"),
                             ("nowhere", "in the new place"),
                             ("in the old place, where the route of producer 0 leads still",
                              "nowhere: it is lost")):
            self.assertIn(right, self.RUN)
            self.assertFalse(is_shown(plan, self.RUN.replace(right, wrong)), wrong)
        self.assertFalse(is_shown(plan, self.RUN, ("words", "freeing")))


class Reading(unittest.TestCase):
    """How a file of plans is read, and how the search ends."""

    def test_bad_lines(self) -> None:
        """The first bad line of a plan is named, by its number in the file."""
        for text, wanted in (
                ("# a plan\nwords 2\n\ntake pending 2\nplan\nroute 0\nroute 1",
                 ["bad line 4", "bad line 6"]),
                ("words 1\nplan two\nfree\nplan again\n", ["bad line 2", "bad line 4"]),
                ("free\r\n", ["bad line 1"]), ("\tfree\n", ["bad line 1"]),
                ("free\nfresh\n", ["bad line 2"]), ("# " + "x" * 127, ["bad line 1"]),
                ("producer routed\n" * 17, ["bad line 17"]),
                ("post\n" * 4097, ["bad line 4097"])):
            self.assertEqual(answers(text)[-len(wanted):], wanted, text[:40])

    def test_plans_of_a_file(self) -> None:
        """A line `plan` ends one plan and begins the next; a last one begins a plan."""
        self.assertEqual(read("# none\n\n"), [])
        self.assertEqual(len(read("plan\nfresh\n")), 1)
        one, last = read("  words  32 # of 64\nnumbers hand new\nlook 31\nwrite notice\nplan\n")
        self.assertEqual((one.setting, one.steps, one.lines),
                         (Setting([], words=32, start="hand"), [("look", 31), ("write", "notice")],
                          [3, 4]))
        self.assertRegex(answer(last, SECONDS)[1], "^loses: identity 1 is pending in the old place")

    def test_bound(self) -> None:
        """The search stops at its bound."""
        plan, = read(IN_FLIGHT)
        self.assertEqual(answer(plan, 0),
                         (0, "no loss found in 0 runs; stopped after 0 seconds"))

    def test_statuses(self) -> None:
        """The status is that of the worst plan; of wrong words it is 2."""
        cases: list[tuple[str, list[str], int]] = [
            (ASKED_FOR_MORE, [], 0), (ASKED_FOR_MORE + "plan\n", ["--seconds", "9"], 1),
            ("nonsense\nplan\n", [], 7), ("# nothing\n", [], 8), ("", ["--seconds", "0"], 2)]
        for text, words, wanted in cases:
            ran = subprocess.run([JUDGE, *words], input=text, capture_output=True, text=True,
                                 check=False, timeout=60)
            self.assertEqual(ran.returncode, wanted, ran.stderr)


if __name__ == "__main__":
    unittest.main()
