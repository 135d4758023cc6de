"""What scripts are drawn: by which numbers, and that the model written apart takes them as
meant."""

import unittest
from itertools import islice

from lemdwab import benches, guests, isolating, nosense
from lemdwab.answers import FORMS, form, spelled_plainly
from lemdwab.apart import generated, model, reading
from lemdwab.apart.random_scripts import random_script
from lemdwab.chance import Chance


def answers_of(lines: list[str]) -> list[str]:
    """Gives what the model written apart answers."""
    return model.answers("".join(f"{line}\n" for line in lines).encode()).decode().splitlines()


class Chances(unittest.TestCase):
    """The generator of numbers."""

    def test_published_value(self) -> None:
        """From 1 on its 10,000th number is the one that its authors gave for a check."""
        chance = Chance(1)
        for _ in range(10_000):
            chance.turn()
        self.assertEqual(chance.state, 1043618065)

    def test_bounds(self) -> None:
        """Numbers are below their limit, and each below it comes."""
        chance = Chance(7)
        self.assertEqual({chance.below(5) for _ in range(200)}, set(range(5)))
        self.assertEqual({chance.rest(5) for _ in range(200)}, set(range(5)))


class Guests(unittest.TestCase):
    """What from-memory and migrations draw."""

    def test_from_memory_by_the_model(self) -> None:
        """Guests are answered alike wherever they run, and none is away; all else is accepted."""
        for seed in (1, 2, 3, 4, 5):
            drawn = guests.FromMemory(seed, 12)
            told = {}
            for run, lines in drawn.scripts.items():
                pairs = list(zip(lines, answers_of(lines)))
                self.assertEqual({answer for line, answer in pairs if not line.startswith("g ")},
                                 {"ok"}, run)
                told[run] = [pair for pair in pairs if pair[0].startswith("g ")]
                self.assertNotIn("away", {answer for _, answer in told[run]})
            self.assertEqual(told["resident"], told["memory"])
            self.assertEqual(told["resident"], told["both"])

    def test_both_places(self) -> None:
        """In the third script guests are in guest files, and run from memory."""
        forms = {form(line) for line in guests.FromMemory(1, 32).scripts["both"]}
        self.assertLessEqual({"arrive", "leave", "enter", "exit", "send", "land", "wire"}, forms)

    def test_migrations_by_the_model(self) -> None:
        """All that is saved is a part of an image, and each guest saves all parts of its own."""
        drawn = guests.Migrations(3, 8)
        said = answers_of([*drawn.before, *drawn.first])
        saved = [answer for line, answer in zip(drawn.before, said) if form(line) == "save"]
        self.assertEqual(len(saved), 8 * drawn.parts)
        self.assertEqual({answer.split(" ")[0] for answer in saved},
                         {"image", "majors", "prio", "word"})
        self.assertEqual(len(drawn.first), len(drawn.second))

    def test_no_line_is_bad(self) -> None:
        """Each line is one of a script: numbers are spelled whole."""
        for seed in range(20):
            for lines in guests.FromMemory(seed, 3).scripts.values():
                self.assertNotIn("bad", answers_of(lines))


class Isolation(unittest.TestCase):
    """What isolation draws, and which lines it leaves out."""

    def test_each_form_concerns_somebody(self) -> None:
        """Each form of line is of all, of the machine level, of a VM, of sources, or of none."""
        kinds = (isolating.OF_ALL, isolating.OF_MACHINE, isolating.OF_A_VM, isolating.OF_SOURCES,
                 isolating.OF_NONE)
        self.assertEqual(set().union(*kinds), set(FORMS))

    def test_pairs_by_the_model(self) -> None:
        """To a virtual hart both scripts of a pair say the same, and it is answered the same; it is
        never away."""
        for seed in range(1, 25):
            told = []
            for drawn, who in isolating.pair(seed):
                front = f"g {who} "
                told.append([(line.removeprefix(front), answer)
                             for line, answer in zip(drawn.lines, drawn.answers)
                             if line.startswith(front + "csr")])
            self.assertEqual(*told)
            self.assertNotIn("away", {answer for _, answer in told[0]})

    def test_leaks_are_told_by_the_model(self) -> None:
        """With each leak the virtual hart of some pair is answered otherwise, and with none
        never."""
        pairs = [isolating.pair(seed) for seed in range(1, 41)]
        for leak in range(isolating.LEAKS + 1):
            is_told = any(self.replies(leak, *one) != self.replies(leak, *other)
                          for one, other in pairs)
            self.assertEqual(is_told, leak > 0, f"the leak {leak}")

    def replies(self, leak: int, drawn: isolating.Drawn, who: isolating.Name) -> list[str]:
        """Gives the answers to a virtual hart's own instructions, with a leak between the lines."""
        leaking = list(isolating.leaking(leak, drawn.lines))
        said = answers_of([line for line, _ in leaking])
        return [answer for answer, (line, is_own) in zip(said, leaking)
                if is_own and line.startswith(f"g {who} csr")]

    def test_parts_are_answered_the_same(self) -> None:
        """Of a script of all forms the lines that concern a VM are answered the same alone, and
        with a leak that reaches other VMs they are not."""
        drawn = isolating.of_all_forms(2, 3000)
        self.assertEqual({form(line) for line in drawn.lines} - {"of"},
                         set(FORMS) - {"pass", "entry"})
        for vm in range(isolating.MACHINE_LEVEL, isolating.VMS):
            kept = [isolating.concerns(line, vm) for line in drawn.lines]
            part = [line for line, is_kept in zip(drawn.lines, kept) if is_kept]
            wanted = [answer for answer, is_kept in zip(drawn.answers, kept) if is_kept]
            self.assertEqual(answers_of(part), wanted)

    def test_scripts_that_pass_sources(self) -> None:
        """Lines that stay are answered the same, however their numbers are spelled."""
        for seed in (1, 2, 3):
            script = random_script(seed, 300, mood="passes")
            lines = [text.decode("latin-1") for text in reading.texts(script)
                     if not reading.is_skipped(text)]
            lines = [line for line in lines if line.isascii()]
            whole = answers_of(lines)
            for vm in range(isolating.MACHINE_LEVEL, isolating.VMS):
                kept = [isolating.concerns_by_sources(line, vm) for line in lines]
                part = [line for line, is_kept in zip(lines, kept) if is_kept]
                wanted = [answer for answer, is_kept in zip(whole, kept) if is_kept]
                self.assertEqual(answers_of(part), wanted)
        self.assertTrue(isolating.names("msi 0x1 0x28000000 5", 1))


class NoSense(unittest.TestCase):
    """Lines of no sense, and their reader."""

    def test_reader_agrees_with_the_grammar(self) -> None:
        """The reader by regular expressions and that of the model written apart say the same."""
        for line in nosense.NoSense(5).lines(20_000):
            wanted = reading.read(line)
            self.assertEqual(nosense.is_skipped(line), wanted is None, line)
            if wanted is not None:
                self.assertEqual(nosense.spells(line), wanted is not reading.BAD, line)

    def test_each_form_is_drawn(self) -> None:
        """Lines of each form are among those that are drawn."""
        firsts = {line.split(b" ")[0].decode("latin-1") for line in nosense.NoSense(1).lines(5000)}
        self.assertLessEqual(set(FORMS), firsts)

    def test_edges_of_numbers(self) -> None:
        """Numbers are read up to their bounds, and lines up to 128 bytes."""
        for line, is_spelled in ((b"ld 18446744073709551615", True),
                                 (b"ld 18446744073709551616", False),
                                 (b"st 0 4294967295", True), (b"st 0 4294967296", False),
                                 (b"wire 1 0x1", True), (b"wire 1 2", False), (b"ld 00", False),
                                 (b"ld 0x10000000000000000", False), (b"ld  0", False)):
            self.assertEqual(nosense.spells(line), is_spelled, line)
        for digits in (111, 112):
            # A line of 128 bytes spells one, and one of 129 does not.
            sizes = [16] * 7 if digits == 112 else [15] + [16] * 6
            words = [b"0x%0*x" % (size - 2, 1) for size in sizes]
            line = b" ".join([b"load", *words[:2], b"image", *words[2:]])
            self.assertEqual((len(line), nosense.spells(line)), (digits + 17, digits == 111))
        self.assertFalse(nosense.is_skipped(b"#" * 129))
        self.assertTrue(nosense.is_skipped(b"#" * 128))


class Benches(unittest.TestCase):
    """The scripts of the benches."""

    def test_lines_are_accepted(self) -> None:
        """The first lines of each are answered by the model, none with `bad` or `range`."""
        for name in benches.NAMES:
            lines = list(islice(benches.script(name), 400))
            self.assertFalse({"bad", "range", "nomachine"} & set(answers_of(lines)), name)

    def test_generated(self) -> None:
        """`generated` is the script that the model written apart has for `gen 100000 1`."""
        count = 2000
        wanted = [*generated.head(), *generated.body(count, 1)]
        self.assertEqual([spelled_plainly(line) for line in benches.generated(count, 1)],
                         [spelled_plainly(line) for line in wanted])

    def test_sizes(self) -> None:
        """A script that is filled up has no line more than it has to."""
        size = sum(len(line) + 1 for line in benches.script("stores-host"))
        self.assertTrue(benches.BYTES <= size < benches.BYTES + 40)


if __name__ == "__main__":
    unittest.main()
