"""migrations: sees that an image carries a guest on.

    migrations [GUESTS] [SEED]

GUESTS is how many virtual harts there are, from 1 to 999,999, else 1,000, 32 to a machine; SEED,
from 0 to 999,999, else 1, is the number of the first machine. Each guest does random instructions,
is asked for identities and is moved, then parked, and its image is saved. examples/migrate makes
lines of the answers, which load the parts of all images into other virtual harts of another
machine, in random order, one of five of them twice. Then the same happens to each guest on both
machines, and has to be answered the same, to its last image.

The program is that of the variable PROGRAM, else ./aia of this repository, which is proved and
built first where it has to be. Prints at the end how many guests and machines there were, how many
parts of images were loaded, and how many lines of guests were compared after that. Takes half a
minute of processor time, and a second for 40 guests. Of a machine that is answered otherwise it
prints three of the lines; after three such machines it looks at no more.

Ends with status 1 where a line is answered otherwise, and 2 where it could not look: words are
wrong, there is no program, or it fails or does not answer each line. Needs Python 3.10 or later,
and bash for examples/migrate.
"""

import random
import re

from lemdwab import guests, replaying, running
from lemdwab.running import TOP

ENOUGH, SHOWN = 3, 3
# Of so many parts one is loaded twice.
TWICE = 5
PART = re.compile("(?:image|majors|prio|word) ")


def loads(workers: running.Workers, saved: list[str], drawn: guests.Migrations,
          seed: int) -> list[str]:
    """Lists the lines that load the images of all guests, each part once or twice, in an order by
    the seed."""
    found: list[str] = []
    for at, name in enumerate(drawn.names):
        parts = saved[at * drawn.parts:(at + 1) * drawn.parts]
        ran = workers.submit(running.run, [str(TOP / "examples/migrate"), *name.split()],
                             "".join(f"{part}\n" for part in parts).encode(), 60, 1 << 20).result()
        if ran.fault():
            running.fail(f"examples/migrate: {ran.fault()}")
        found += ran.output.decode().splitlines()
    found += found[TWICE - 1::TWICE]
    random.Random(seed).shuffle(found)
    return found


def later(program: replaying.Program, before: list[str], lines: list[str]) -> list[str]:
    """Gives the answers to lines that stand behind others."""
    return program.answers([*before, *lines])[len(before):]


class Looks:
    """What was looked at, and how many machines differ."""

    def __init__(self, workers: running.Workers) -> None:
        self.workers, self.program = workers, replaying.Program(workers)
        self.guests = self.machines = self.parts = self.lines = self.wrong = 0

    def look(self, seed: int, size: int) -> None:
        """Looks at the guests of one machine."""
        drawn = guests.Migrations(seed, size)
        all_told = self.program.answers([*drawn.before, *drawn.first])
        told = all_told[len(drawn.before):]
        saved = [answer for answer in all_told[:len(drawn.before)] if PART.match(answer)]
        loaded = loads(self.workers, saved, drawn, seed)
        there = later(self.program, [*drawn.other, *loaded], drawn.second)
        self.guests += size
        self.machines += 1
        self.parts += len(loaded)
        self.lines += len(drawn.first)
        if told != there:
            self.wrong += 1
            print(f"the guests of the number {seed} are answered otherwise on the second machine:")
            differ = [three for three in zip(drawn.first, told, there) if three[1] != three[2]]
            for line, one, other in differ[:SHOWN]:
                print(f"{line}\t{one}\t{other}")


def main() -> int:
    count, seed = running.numbers_given(("GUESTS", 1000, 1, 999_999), ("SEED", 1, 0, 999_999))
    with running.Workers(1) as workers:
        looks = Looks(workers)
        for at, size in replaying.pieces(count, guests.MOST):
            looks.look(seed + at, size)
            if looks.wrong == ENOUGH:
                break
    print(f"{looks.guests} guests on {looks.machines} machines: {looks.parts} parts loaded,"
          f" {looks.lines} lines of guests after them")
    if not looks.wrong:
        print("all are answered the same where their images were loaded")
    return 1 if looks.wrong else 0
