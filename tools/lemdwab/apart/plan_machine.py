"""The machine on which anybody's plan is tried, told a second time from docs/PLANS.md: two places
with a pending and an enabled set each, a hand, threshold and delivery in each of the three,
producers with routes, and their stores in flight."""

from __future__ import annotations

from collections.abc import Callable, Iterable
from dataclasses import dataclass

# A step, by its words and numbers; and an identity, by its word and its number there.
Step = tuple[int | str, ...]
Bit = tuple[int, int]
# What the numbers are at the start where they are declared to be. Elsewhere they are others.
AS_IT_WAS = {'threshold': 9, 'delivery': 1}


@dataclass
class Setting:
    """What is declared: kinds of producers, words, and what the new place is."""

    producers: list[str]
    words: int = 1
    fresh: bool = False
    memory: bool = False
    heeds: bool = False
    start: str = 'old'
    end: str = 'new'
    unset: bool = False
    inherited: bool = False

    def declare(self, name: str, *rest: str) -> None:
        """Takes a declaration, by its words."""
        if name == 'words':
            self.words = int(rest[0])
        elif name == 'producer':
            self.producers.append(rest[0])
        elif name == 'numbers':
            self.start, self.end = rest
        else:
            setattr(self, 'unset' if name == 'notices' else name, True)

    def lines(self) -> list[str]:
        """Gives the declarations, as lines of a plan file."""
        out = ['plan', f'words {self.words}', f'numbers {self.start} {self.end}']
        out += [f'producer {kind}' for kind in self.producers]
        for name in ('fresh', 'memory', 'heeds', 'inherited'):
            if getattr(self, name):
                out.append(name)
        return out + ['notices unset'] * self.unset


class Machine:
    """One run: sets are sets of (word, identity). At the start nothing stands anywhere, and nobody
    has seen or was told anything."""

    def __init__(self, setting: Setting) -> None:
        self.setting = setting
        self.old: dict[str, set[Bit]] = {'pending': set(), 'enabled': set()}
        self.new: dict[str, set[Bit]] = {'pending': set(), 'enabled': set()}
        self.hand: dict[str, set[Bit]] = {'pending': set(), 'enabled': set()}
        # What has to stand in the new place in the end.
        self.due: dict[str, set[Bit]] = {'pending': set(), 'enabled': set()}
        self.number = {'old': {'threshold': 66, 'delivery': 67},
                       'hand': {'threshold': 77, 'delivery': 78},
                       'new': {'threshold': 1, 'delivery': 0}}
        self.number[setting.start] = dict(AS_IT_WAS)
        self.written = ['old'] * len(setting.producers)
        self.force = ['old'] * len(setting.producers)
        self.paused = [False] * len(setting.producers)
        self.flights: list[tuple[int, str, Bit]] = []
        self.freed = self.strayed = self.seen = self.told = False
        self.notices_reach_the_host = not setting.unset

    def begin_with(self, place: str, bank: str, bits: Iterable[Bit]) -> None:
        """Has identities stand in a set of a place, at the start."""
        if place == 'old':
            self.old[bank].update(bits)
            self.due[bank].update(bits)
        else:
            self.new[bank].update(bits)

    def lets_out(self, identity: int) -> bool:
        if not self.setting.heeds:
            return True
        number = self.number['new']
        threshold = number['threshold']
        return number['delivery'] == 1 and (threshold == 0 or identity < threshold)

    def out(self, word: int) -> bool:
        both = self.new['pending'] & self.new['enabled']
        return any(w == word and self.lets_out(i) for w, i in both)

    def land(self, place: str, what: Bit) -> None:
        if place == 'old':
            self.strayed |= self.freed
            self.old['pending'].add(what)
        else:
            if self.notices_reach_the_host and what in self.new['enabled']:
                self.told |= self.lets_out(what[1])
            self.new['pending'].add(what)
        self.due['pending'].add(what)

    def store(self, producer: int, by_written: bool, what: Bit) -> None:
        if not self.paused[producer]:
            self.land((self.written if by_written else self.force)[producer], what)

    def send(self, producer: int, by_written: bool, what: Bit) -> None:
        route = (self.written if by_written else self.force)[producer]
        if not self.paused[producer]:
            self.flights.append((producer, route, what))

    def land_first(self) -> None:
        if self.flights:
            _, place, what = self.flights.pop(0)
            self.land(place, what)

    def step(self, step: Step) -> None:
        getattr(self, f'do_{step[0]}')(*step[1:])

    def do_route(self, p: int) -> None:
        self.written[p] = 'new'

    def do_switch(self, p: int) -> None:
        self.written[p] = self.force[p] = 'new'

    def wait_for(self, p: int) -> None:
        """Has what is in flight of a producer land."""
        for q, place, what in self.flights:
            if q == p:
                self.land(place, what)
        self.flights = [f for f in self.flights if f[0] != p]

    def do_fence(self, p: int) -> None:
        self.wait_for(p)
        self.force[p] = self.written[p]

    def do_pause(self, p: int) -> None:
        self.wait_for(p)
        self.paused[p] = True

    def do_resume(self, p: int) -> None:
        self.paused[p] = False

    @staticmethod
    def of_word(bits: set[Bit], word: int) -> set[Bit]:
        return {b for b in bits if b[0] == word}

    def do_zero(self, place: str, what: str, word: int | None = None) -> None:
        if place == 'old':
            self.strayed |= self.freed
        if word is None:
            self.number[place][what] = 0
        else:
            sets = self.old if place == 'old' else self.new
            sets[what] -= self.of_word(sets[what], word)

    def do_take(self, what: str, word: int | None = None) -> None:
        self.do_copy(what, word)
        if word is None:
            self.number['old'][what] = 0
        else:
            self.old[what] -= self.of_word(self.old[what], word)

    def do_copy(self, what: str, word: int | None = None) -> None:
        self.strayed |= self.freed
        if word is None:
            self.number['hand'][what] = self.number['old'][what]
        else:
            self.hand[what] -= self.of_word(self.hand[what], word)
            self.hand[what] |= self.of_word(self.old[what], word)

    def do_join(self, bank: str, word: int) -> None:
        held = self.of_word(self.hand[bank], word)
        self.new[bank] |= held
        self.hand[bank] -= held

    def do_put(self, what: str, word: int | None = None) -> None:
        if word is None:
            self.number['new'][what] = self.number['hand'][what]
        else:
            self.new[what] -= self.of_word(self.new[what], word)
            self.do_join(what, word)

    def do_look(self, word: int) -> None:
        self.seen |= self.out(word)

    def do_post(self) -> None:
        self.told |= self.seen

    def do_tell(self) -> None:
        self.told |= any(self.out(w) for w in range(self.setting.words))

    def do_untell(self) -> None:
        self.told = self.told and self.seen

    def do_write(self, what: str) -> None:
        self.notices_reach_the_host = True

    def do_free(self) -> None:
        self.strayed |= self.freed
        self.freed = True

    def left_numbers(self) -> list[str]:
        """Lists the numbers that the next owner of an old place, which takes it as it is, finds
        there."""
        if not (self.setting.inherited and self.freed):
            return []
        return [name for name, value in self.number['old'].items() if value]

    def misplaced_numbers(self) -> list[str]:
        """Lists the numbers that are not where they have to be in the end, as they were."""
        found = self.number[self.setting.end]
        return [name for name, value in AS_IT_WAS.items() if found[name] != value]

    def is_untold(self) -> bool:
        """Says whether something stands out in the new place, and the host was not told."""
        return not self.told and any(self.out(w) for w in range(self.setting.words))

    def is_bad(self) -> bool:
        """Says whether a run that ends so loses, doubles, or leaves something behind, or untold."""
        return (self.new != self.due or bool(self.old['pending'] or self.old['enabled'])
                or self.strayed or bool(self.misplaced_numbers())
                or 'old' in self.written or 'old' in self.force
                or any(place == 'old' for _, place, _ in self.flights)
                or bool(self.left_numbers()) or (self.setting.memory and self.is_untold()))


# What happens behind so many steps.
Event = tuple[int, Callable[[Machine], None]]


def stored(producer: int, by_written: bool, what: Bit) -> Callable[[Machine], None]:
    """Makes a store of a producer, by its written route or by that in force."""
    return lambda machine: machine.store(producer, by_written, what)


def sent(producer: int, by_written: bool, what: Bit) -> Callable[[Machine], None]:
    """Makes a store that is sent so, and lands later."""
    return lambda machine: machine.send(producer, by_written, what)


def run(machine: Machine, plan: list[Step], events: list[Event]) -> None:
    """Makes the steps of a plan on a machine, with these events between them."""
    for at, step in enumerate([*plan, None]):
        for before, act in events:
            if before == at:
                act(machine)
        if step:
            machine.step(step)
