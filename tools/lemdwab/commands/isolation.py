"""isolation: holds the program against what is proved of isolation.

    isolation [PAIRS] [LEAK]

First, of a script of 20,000 lines of all forms: for each VM, and for the machine level, the lines
that concern it are answered the same where all others are left out. The same of 40 scripts of 500
lines that pass sources, in which wires, accesses to the APLIC and passes stay for each VM, and VMs,
moves and passes for the machine level. Then PAIRS pairs of scripts, from 1 to 999,999, else 2,000,
that say the same to one virtual hart and differ in all else: its CSR instructions are answered the
same. With LEAK, 1 to 11, a leak is planted before the program, as lemdwab.isolating says them; a
leak of 0 is none.

The program is that of the variable PROGRAM, else ./aia of this repository, which is proved and
built first where it has to be. Prints of each VM how many lines concern it, and how many of them
are answered otherwise; the same of the scripts that pass sources, all together; and of how many
pairs the two are answered otherwise, with the first three of these. Takes ten seconds of processor
time, and a second for 50 pairs.

Ends with status 1 where anything is answered otherwise, and 2 where it could not look: words are
wrong, there is no program, or it fails or does not answer each line. Needs Python 3.10 or later.
"""

import re
from collections.abc import Callable, Iterator

from lemdwab import isolating, replaying, running
from lemdwab.answers import lines as lines_of
from lemdwab.apart.random_scripts import random_script

LINES, SCRIPTS, OF_SOURCES = 20_000, 40, 500
# The number of the script of all forms: one of a machine with guest files for most.
ALL_FORMS = 2
# So many pairs that differ are told.
TOLD = 3
CSR = re.compile("csr[a-z]+ ")


class Looks:
    """The program, with a leak before it, and whether all was right."""

    def __init__(self, program: replaying.Program, leak: int) -> None:
        self.program, self.leak = program, leak
        self.is_right = True

    def answers(self, lines: list[str]) -> list[str]:
        """Gives the answers to lines, with what the leak puts between them."""
        if not lines:
            return []
        if not self.leak:
            return self.program.answers(lines)
        leaking = list(isolating.leaking(self.leak, lines))
        said = self.program.answers([line for line, _ in leaking])
        return [answer for answer, (_, is_own) in zip(said, leaking) if is_own]

    def parts(self, lines: list[str], concerns: Callable[[str, int], bool]
              ) -> Iterator[tuple[int, int, int]]:
        """Gives of each VM, and of the machine level, how many lines concern it, and how many of
        these are answered otherwise where the others are left out."""
        answers = self.answers(lines)
        for vm in range(isolating.MACHINE_LEVEL, isolating.VMS):
            part = [pair for pair in zip(lines, answers) if concerns(pair[0], vm)]
            alone = self.answers([line for line, _ in part])
            differ = sum(wanted != got for (_, wanted), got in zip(part, alone))
            self.is_right &= not differ
            yield vm, len(part), differ

    def whole(self) -> None:
        """Looks at the script of all forms."""
        lines = isolating.of_all_forms(ALL_FORMS, LINES).lines
        for vm, count, differ in self.parts(lines, isolating.concerns):
            what = "the machine level" if vm == isolating.MACHINE_LEVEL else f"VM {vm}"
            print(f"{what}: {count} of {len(lines)} lines, {differ} answered otherwise", flush=True)

    def by_sources(self) -> None:
        """Looks at the scripts that pass sources."""
        left = differ = 0
        for seed in range(1, SCRIPTS + 1):
            script = random_script(seed, OF_SOURCES, mood="passes")
            lines = [line.text for line in lines_of(script)]
            for _, count, wrong in self.parts(lines, isolating.concerns_by_sources):
                left, differ = left + count, differ + wrong
        print(f"{SCRIPTS} scripts that pass sources: {left} lines left,"
              f" {differ} answered otherwise", flush=True)

    def replies(self, lines: list[str], who: isolating.Name) -> list[tuple[str, str]]:
        """Gives a virtual hart's own CSR instructions, with their answers."""
        front = f"g {who} "
        said = zip(lines, self.answers(lines))
        own = [(line.removeprefix(front), one) for line, one in said if line.startswith(front)]
        return [pair for pair in own if CSR.match(pair[0])]

    def pairs(self, count: int) -> None:
        """Looks at so many pairs."""
        told = 0
        for seed in range(1, count + 1):
            (first, who), (second, other) = isolating.pair(seed)
            if self.replies(first.lines, who) != self.replies(second.lines, other):
                told += 1
                if told <= TOLD:
                    print(f"pair {seed}: virtual hart {who} of the one, {other} of the other, are"
                          " answered otherwise")
        self.is_right &= not told
        print(f"{count} pairs: {told} answered otherwise")


def main() -> int:
    pairs, leak = running.numbers_given(("PAIRS", 2000, 1, 999_999),
                                        ("LEAK", 0, 0, isolating.LEAKS))
    with running.Workers(1) as workers:
        looks = Looks(replaying.Program(workers), leak)
        looks.whole()
        looks.by_sources()
        looks.pairs(pairs)
    return 0 if looks.is_right else 1
