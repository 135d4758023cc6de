"""Random scripts over all forms of line, mostly sensible.

    random_scripts.py SEED COUNT_OF_LINES [--without-images] [--mood MOOD]
    random_scripts.py SEED COUNT_OF_LINES --into FOLDER --scripts HOW_MANY [..]

The first writes one script to standard output, the second the scripts of HOW_MANY seeds from SEED
on, each as FOLDER/SEED.script. The seed chooses the mood: what a script is about. The generator
keeps guesses alone: which VMs there are, where each virtual hart may be, how many steps its move
has still to go. Where it saves images it asks the model what they are, so as to load them again.
"""

from __future__ import annotations

import random
import sys
from collections.abc import Mapping
from pathlib import Path
from typing import TYPE_CHECKING, TypeVar

from lemdwab.apart import model, vocabulary as say, words
from lemdwab.apart.vocabulary import Action

if TYPE_CHECKING:
    from lemdwab.scripts import Filter

MOODS = {"moves": 20, "passes": 20, "running": 14, "majors": 10, "aplic": 20, "images": 14,
         "everything": 12}
ONES = (1 << 64) - 1
# After so many times in a row an action is given up of which the filter keeps nothing.
FRUITLESS = 24
# How often a line that is refused is tried after a line, at most.
TRIES = 400


Choice = TypeVar("Choice")


class Guess:
    """Where a virtual hart may be."""

    def __init__(self, vm: int, number: int) -> None:
        self.vm, self.number = vm, number
        self.home = "parked"
        self.steps = 0  # that its move has still to go
        self.passes = 0
        self.sources: list[int] = []  # that seem to be passed to it
        self.holds: list[int] = []  # the harts of the guest files that it seems to have
        # Where its move seems to end, and the harts of the guest files that it has then.
        self.after = self.home
        self.kept: list[int] = []


class Generator:
    """One script, line by line."""

    def __init__(self, seed: int, count: int, without_images: bool = False, mood: str | None = None,
                 sizes: tuple[int, int, int, int] | None = None,
                 filter_: Filter | None = None) -> None:
        """`sizes` are those of the machine, where they are not drawn. A filter says of each line
        whether it is said (`keeps`), with its answer by a model, and whether one that is refused is
        wanted now (`wants_refused`)."""
        self.random = random.Random(seed)
        self.fixed, self.filter = sizes, filter_
        moods = {name: share for name, share in MOODS.items() if name != "images"
                 or not without_images}
        self.mood = mood or self.weighted(moods)
        self.without_images = without_images
        self.count = count
        self.lines: list[bytes] = []
        self.vms: list[tuple[int, int, int]] = []  # (how many virtual harts, mask, notice hart)
        self.guesses: list[Guess] = []
        self.passed: list[int] = []  # sources
        self.missed = False  # whether the newest name of a virtual hart is another one
        self.supervisor_base = 0x28000  # the page that MSIs of the child are mostly meant for
        self.groups = False  # whether MSIs are meant for groups of harts
        self.flight: dict[int, int] = {}  # how many stores of a VM seem to be in flight
        self.twin = model.Script() if self.mood == "images" or filter_ else None
        self.saved: list[str] = []  # parts of images, as they were printed
        # How often in a row an action said nothing that the filter keeps.
        self.fruitless: dict[Action, int] = {}

    # Numbers and choices.

    def chance(self, probability: float) -> bool:
        return self.random.random() < probability

    def pick(self, *choices: Choice) -> Choice:
        return self.random.choice(choices)

    def below(self, limit: int) -> int:
        return self.random.randrange(limit)

    def weighted(self, table: Mapping[Choice, int]) -> Choice:
        return self.random.choices(list(table), weights=list(table.values()))[0]

    def number(self, value: int, hexadecimal: bool = False) -> str:
        """A number, now and then spelled in the other way."""
        if self.chance(0.05):
            hexadecimal = not hexadecimal
        if not hexadecimal:
            return str(value)
        return "0x%0*x" % (self.pick(2, 8, 16) if self.chance(0.04) else 1, value)

    def astray(self, value: int, limit: int) -> int:
        """A number that mostly is the one given, and now and then one beside what is there."""
        if self.chance(0.985):
            return value
        return self.pick(limit, limit + 1, value + (1 << 32), 1 << 32, ONES, value + (1 << 63), 0)

    # Emission.

    def say(self, *words: int | str | tuple[int]) -> None:
        """A line of words; an int is a number in decimal, a pair (value,) one in hexadecimal. Lines
        that are refused follow where a filter wants them."""
        spelled = [self.number(*word, hexadecimal=True) if isinstance(word, tuple)
                   else self.number(word) if isinstance(word, int) else word for word in words]
        self.put(" ".join(spelled).encode())
        tries = TRIES if self.filter else 0
        while tries and self.filter and self.filter.wants_refused():
            say.wrong(self)
            tries -= 1

    def put(self, text: bytes) -> str | None:
        """A line, unless a filter leaves it out; gives its answer where there is a model."""
        if self.filter:
            is_kept, answer = self.filter.keeps(text)
            if is_kept:
                self.lines.append(text)
            return answer
        self.lines.append(text)
        if self.twin:
            return self.twin.answer(text)
        return None

    # What the script is about.

    def hart(self) -> int:
        return self.astray(self.below(self.harts), self.harts)

    def guess(self, *homes: str) -> Guess:
        """A virtual hart that may be at one of these homes, if there is one."""
        fitting = [one for one in self.guesses if one.home in homes] if homes else self.guesses
        return self.random.choice(fitting or self.guesses)

    def named(self, one: Guess) -> tuple[int, int]:
        """The words by which a line names a virtual hart; now and then it misses."""
        words = self.astray(one.vm, len(self.vms)), self.astray(one.number, self.vms[one.vm][0])
        self.missed = words != (one.vm, one.number)
        return words

    def identity(self) -> int:
        if self.chance(0.85):
            return self.random.choice(self.favourites)
        return self.pick(0, 1, self.greatest, self.greatest + 1, self.below(self.greatest) + 1,
                         self.below(64), 32 + self.below(18), self.below(1 << 32), 2047, 1 << 31)

    def source(self) -> int:
        if self.chance(0.97):
            return self.random.choice(self.sources_used)
        return self.pick(0, 1, self.sources, self.sources + 1, 1023, 1024, 1 << 32, (1 << 32) + 1)

    def set_word(self) -> int:
        """A word of a set of identities or of sources."""
        ones = 0
        for _ in range(self.below(3) + 1):
            ones |= 1 << self.random.choice(self.favourites) % 64
        return self.pick(ONES, ONES, 0, ones, ones, ones, ~ones & ONES, self.random.getrandbits(64))

    def set_sizes(self) -> None:
        """The machine's sizes, by the mood."""
        self.harts = self.pick(1, 2, 2, 3, 4)
        self.guests = self.pick(1, 1, 2, 2, 3, 3, 5, 31, self.pick(0, 1))
        self.greatest = self.weighted({63: 44, 127: 22, 255: 14, 511: 8, 1023: 6, 2047: 6})
        self.sources = self.pick(1, 4, 8, 8, 31, 32, 33, 40, 64, 100, 1023)
        if self.mood == "passes":
            self.sources = max(self.sources, self.pick(8, 40))
            self.guests = max(self.guests, 1)
        if self.mood == "aplic":
            self.harts = self.pick(1, 2, 3, 4)
        if self.fixed:
            self.harts, self.guests, self.greatest, self.sources = self.fixed
        words = (self.greatest + 1) // 64
        self.favourites = [self.pick(1, 2, 3, 5, 7), self.greatest - self.below(3)]
        for _ in range(4):
            self.favourites.append(min(64 * self.below(words) + self.below(12) + 1, self.greatest))
        many = 18 if self.mood == "passes" and self.chance(0.3) else 3
        self.sources_used = [1, self.sources] + [self.below(self.sources) + 1 for _ in range(many)]

    def plan_length(self, kind: str, passes: int) -> int:
        words = (self.greatest + 1) // 64
        return {"leave": 8 + 5 * words, "arrive": 6 + 4 * words,
                "shift": 8 + 4 * words}[kind] + passes

    def make(self) -> None:
        """The beginning of a script: the machine and its VMs."""
        self.set_sizes()
        if self.chance(0.1) and not self.fixed:
            say.before_the_machine(self)
        self.say("machine", self.harts, self.guests, self.greatest, self.sources)
        self.crowded = self.chance(0.08)
        for _ in range(self.pick(4, 6, 10) if self.chance(0.06) or self.crowded
                       else self.pick(1, 1, 2, 2, 3)):
            say.new_vm(self)
        if not self.vms:
            say.new_vm(self, plainly=True)
        for hart in range(self.harts):
            self.open_host_file(hart)
        if self.mood == "passes" or self.mood == "everything" and self.chance(0.4):
            say.ready_sources(self)
        if self.mood == "aplic":
            say.ready_domains(self)
        for one in self.guesses:
            if self.chance(0.8 if len(self.guesses) < 12 else 0.3):
                say.set_up_guest(self, one)
            elif self.chance(0.5):
                say.begin(self, whole=True, one=one)

    def open_host_file(self, hart: int) -> None:
        """The host sees what comes: all is enabled in its file, and sireg then shows eip."""
        self.say("h", hart, "csrrw", "siselect", (0xc0,))
        self.say("h", hart, "csrrw", "sireg", (ONES,))
        if self.chance(0.5):
            self.say("h", hart, "csrrw", "siselect", (0x70,))
            self.say("h", hart, "csrrw", "sireg", (1,))
        self.say("h", hart, "csrrw", "siselect", (0x80,))

    def finish(self) -> None:
        """The end of a script: each move goes to its end, and all that is there is looked at."""
        for one in self.guesses:
            if one.home == "moving":
                for _ in range(min(one.steps, 60)):
                    self.say("step", one.vm, one.number)
            if one.home == "parked" and self.guests:
                self.say("arrive", one.vm, one.number, self.below(self.harts))
            for select in (0xc0, 0x80):
                self.say("g", one.vm, one.number, "csrrw", "siselect", (select,))
                self.say("g", one.vm, one.number, "csrr", "sireg")
            self.say("g", one.vm, one.number, "csrr", "stopei")
        for hart in range(self.harts):
            self.say("h", hart, "csrr", "sireg")
            self.say("h", hart, "hgeip")
            self.say("pins", hart)

    def act(self, action: Action, weights: dict[Action, float]) -> None:
        """An action; of a filtered script, one that says nothing again and again is given up."""
        said = len(self.lines)
        action(self)
        if not self.filter:
            return
        self.fruitless[action] = self.fruitless.get(action, 0) + 1 if len(self.lines) == said else 0
        if self.fruitless[action] == FRUITLESS:
            weights.pop(action, None)

    def script(self) -> bytes:
        """The bytes of the whole script."""
        self.make()
        weights = say.weights_of(self.mood, self.without_images)
        room = 5 * len(self.guesses) + 3 * self.harts
        room = room if self.chance(0.7) and room < self.count // 3 and not self.filter else 0
        while len(self.lines) < self.count - room and weights:
            for action in self.random.choices(list(weights), list(weights.values()), k=16):
                self.act(action, weights)
        if room:
            self.finish()
        text = b"\n".join(self.lines[:max(self.count, 1)])
        return text if self.chance(0.05) else text + b"\n"


def random_script(seed: int, count: int, without_images: bool = False,
                  mood: str | None = None) -> bytes:
    """The script of a seed, of so many lines."""
    return Generator(seed, count, without_images, mood).script()


def main() -> None:
    reader = words.parser(__doc__)
    reader.add_argument("seed", type=int)
    reader.add_argument("count", type=int)
    reader.add_argument("--without-images", action="store_true")
    reader.add_argument("--mood", choices=MOODS)
    reader.add_argument("--into", type=Path)
    reader.add_argument("--scripts", type=int, default=1)
    given = reader.parse_args()
    for seed in range(given.seed, given.seed + given.scripts):
        script = random_script(seed, given.count, given.without_images, given.mood)
        if given.into:
            given.into.mkdir(parents=True, exist_ok=True)
            (given.into / f"{seed}.script").write_bytes(script)
        else:
            sys.stdout.buffer.write(script)
