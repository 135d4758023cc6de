"""no-sense: gives the program lines of no sense, and sees that it answers them as the grammar says.

    no-sense [LINES] [SEED]

LINES is how many there are, from 1 to 999,999,999, else 100,000, and SEED, from 0 to 999,999,999,
else 1, the number by which the first 100,000 are drawn: random bytes, NUL, CR and bytes above 0x7f
among them, lines of 127, 128 and 129 bytes, numbers of 2^64 and above, known words in wrong places,
doubled spaces, and good lines between. A reader of the grammar that is written apart, by regular
expressions, says of each line whether it is skipped, spells no line, or spells one. First no
machine stands, and each answer is compared; then one does, and of each answer whether it is `bad`.

The program is that of the variable PROGRAM, else ./aia of this repository, which is proved and
built first where it has to be. Prints how often which answer came in both parts, a line for each,
with `0x` for all numbers, and at last how many lines there were. Takes ten seconds of processor
time for 100,000 lines. Of lines that are answered otherwise it prints the first.

Ends with status 1 where a line is answered otherwise or the program fails, and 2 where words are
wrong, or there is no program. Needs Python 3.10 or later.
"""

from collections import Counter
from itertools import zip_longest

from lemdwab import nosense, replaying, running
from lemdwab.answers import answers, printable

# So many lines have less than the most bytes of a script.
MOST = 100_000
# Lines before those of no sense, so that many of these find a machine, and virtual harts: as many
# as there may be, but one.
BEGINNING = b"""machine 4 31 63 8
vm 16 0xf 0
vm 2 0x8 1
vm 2 0x8 0
vm 2 0x8 1
vm 2 0x8 0
vm 2 0x8 1
vm 2 0x8 0
vm 3 0x18 1
arrive 0 0 0
arrive 1 1 1
arrive 0 15 3
enter 0 2
enter 1 0
begin arrive 0 1 1""".split(b"\n")


class Looks:
    """What was answered, and whether all of it was right."""

    def __init__(self, program: replaying.Program) -> None:
        self.program = program
        self.counts: Counter[str] = Counter()
        self.is_right = True

    def answers(self, lines: list[bytes]) -> list[str]:
        """Gives what the program answers."""
        ran = self.program.ran(b"".join(line + b"\n" for line in lines))
        if ran.fault():
            print(f"the program: {ran.fault()}")
            self.is_right = False
        found: list[str] = answers(ran.output)
        self.counts.update("0x" if word.startswith("0x") else word.split(" ")[0] for word in found)
        return found

    def compare(self, seed: int, lines: list[bytes], pairs: tuple[list[str], list[str]],
                where: str) -> None:
        """Says where answers differ first from those that are wanted."""
        answered = [line for line in lines if not nosense.is_skipped(line)]
        for line, wanted, got in zip_longest(answered, *pairs, fillvalue=None):
            if wanted != got:
                self.is_right = False
                spelled = printable((line or b"").decode("latin-1"))
                print(f"answers where {where} differ in the lines of the number {seed}; the first:")
                print(f"  wanted: {wanted}\n  got:    {printable(str(got))}\n  line:   {spelled}")
                return

    def look(self, seed: int, count: int) -> None:
        """Looks at so many lines."""
        lines = nosense.NoSense(seed).lines(count)
        wanted = [nosense.answer(line) for line in lines if not nosense.is_skipped(line)]
        self.compare(seed, lines, (wanted, self.answers(lines)), "no machine stands")
        lines = [*BEGINNING, *lines]
        kinds = ["line" if nosense.spells(line) else "bad" for line in lines
                 if not nosense.is_skipped(line)]
        got = [answer if answer == "bad" else "line" for answer in self.answers(lines)]
        self.compare(seed, lines, (kinds, got), "a machine stands")


def main() -> int:
    count, seed = running.numbers_given(("LINES", MOST, 1, 999_999_999),
                                        ("SEED", 1, 0, 999_999_999))
    with running.Workers(1) as workers:
        looks = Looks(replaying.Program(workers))
        for at, size in replaying.pieces(count, MOST):
            looks.look(seed + at, size)
    for word, number in sorted({**looks.counts, "lines": count}.items()):
        print(printable(word), number)
    return 0 if looks.is_right else 1
