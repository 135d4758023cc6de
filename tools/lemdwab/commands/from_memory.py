"""from-memory: sees that a guest that runs from memory is answered as one in a guest file.

    from-memory [GUESTS] [SEED]

GUESTS is how many virtual harts there are, from 1 to 999,999, else 10,000, 32 to a machine; SEED,
from 0 to 999,999, else 1, is the number of the first machine. Each guest does some 30 random
instructions on siselect, sireg and stopei, while devices, peers and wires ask it for identities, by
stores in flight too. All are resident in one run of the program, all run from memory in another,
and in a third each is now in a guest file, now parked, now runs from memory. Then each reads its
whole file, in the first two runs once more after it was moved to the other place. All instructions
of guests have to be answered the same in the three runs.

The program is that of the variable PROGRAM, else ./aia of this repository, which is proved and
built first where it has to be. Prints at the end how many guests, machines and lines of guests
there were, how many of these read a CSR, claimed an identity, that is, took one that was pending,
and were refused, since a CSR or its value is none of the file's. Takes two minutes of processor
time, and a second for 100 guests. Of a machine that is answered otherwise it prints two of the
lines; after three such machines it looks at no more.

Ends with status 1 where a line is answered otherwise, and 2 where it could not look: words are
wrong, there is no program, or it fails or does not answer each line. Needs Python 3.10 or later.
"""

import re
from itertools import zip_longest

from lemdwab import guests, replaying, running

# After so many machines that differ no more are looked at, and so many lines are shown of each.
ENOUGH, SHOWN = 3, 2
REFUSED = {"illegal", "virtual", "gfault"}
CLAIM = re.compile("g [0-9]+ [0-9]+ csrr[wsc] stopei")
NONE = re.compile("0x0*")


class Counts:
    """How many lines of guests there were, and what they answered."""

    def __init__(self) -> None:
        self.machines = self.lines = self.read = self.claims = self.refused = 0

    def add(self, told: list[tuple[str, str]]) -> None:
        """Counts the lines of one machine."""
        self.machines += 1
        for line, answer in told:
            self.lines += 1
            self.read += answer.startswith("0x")
            self.claims += bool(CLAIM.match(line) and not NONE.fullmatch(answer))
            self.refused += answer in REFUSED


def of_guests(program: replaying.Program, lines: list[str]) -> list[tuple[str, str]]:
    """Gives the lines of guests of a script, each with its answer."""
    return [pair for pair in zip(lines, program.answers(lines)) if pair[0].startswith("g ")]


def differences(seed: int, told: dict[str, list[tuple[str, str]]]) -> list[str]:
    """Says where a run of a machine is answered otherwise than that of resident guests."""
    found = []
    for run, where in (("memory", "memory"), ("both", "both places")):
        pairs = [pair for pair in zip_longest(told["resident"], told[run]) if pair[0] != pair[1]]
        if pairs:
            found.append(f"the machine of the number {seed} differs where guests are in {where}:")
            for one, other in pairs[:SHOWN]:
                found += [f"< {' => '.join(one or ())}", f"> {' => '.join(other or ())}"]
    return found


def main() -> int:
    count, seed = running.numbers_given(("GUESTS", 10_000, 1, 999_999), ("SEED", 1, 0, 999_999))
    counts, wrong, looked = Counts(), 0, 0
    with running.Workers(1) as workers:
        program = replaying.Program(workers)
        for at, size in replaying.pieces(count, guests.MOST):
            drawn = guests.FromMemory(seed + at, size)
            told = {run: of_guests(program, lines) for run, lines in drawn.scripts.items()}
            counts.add(told["resident"])
            looked += size
            found = differences(seed + at, told)
            for line in found:
                print(line)
            wrong += bool(found)
            if wrong == ENOUGH:
                break
    print(f"{looked} guests on {counts.machines} machines: {counts.lines} lines of guests, of which"
          f" {counts.read} read a CSR, {counts.claims} claimed an identity and"
          f" {counts.refused} were refused")
    if not wrong:
        print("all are answered the same from memory as in a guest file")
    return 1 if wrong else 0
