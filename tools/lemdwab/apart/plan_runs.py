"""Runs of anybody's plan that follow one identity, with one store at most: how docs/PLANS.md has
them told in words, and what comes of them on the machine of plan_machine.py."""

from __future__ import annotations

import re
from collections.abc import Iterator, Sequence
from typing import NamedTuple

from lemdwab.apart.plan_machine import Bit, Event, Machine, Setting, Step, run, sent, stored

PLACES = {'old': 'in the old place', 'hand': 'in the hand', 'new': 'in the new place'}
NOWHERE = 'nowhere'
# Where an identity is at the start of a run that loses it.
BEGINS = {'old': PLACES['old'], 'new': PLACES['new'], NOWHERE: NOWHERE}


class Store(NamedTuple):
    """A store of a producer with so many steps before it: one that lands at once, by the written
    route or by that in force; or one by the route in force that lands later, where `lands` says how
    many steps are before that."""

    producer: int
    before: int
    by_written: bool = False
    lands: int | None = None


class Losing(NamedTuple):
    """A run that loses an identity of a set, which begins in a place or nowhere."""

    what: Bit
    bank: str
    begin: str
    store: Store | None = None

    def begun(self, setting: Setting) -> Machine:
        """Gives the machine at its start."""
        machine = Machine(setting)
        if self.begin != NOWHERE:
            machine.begin_with(self.begin, self.bank, [self.what])
        return machine

    def front(self, lines: Sequence[int]) -> str:
        """Tells how it begins, and its store, of a plan whose steps stand on these lines."""
        return (f'identity {number_of(self.what)} is {self.bank} {BEGINS[self.begin]} at the start'
                + (store_text(self.store, lines) if self.store else ''))


class Untold(NamedTuple):
    """A run that leaves the host untold of an identity, which is enabled in the old place at the
    start, and pending there if it has no store. Where numbers are heeded, delivery is 1 in one
    place and the threshold is 0 in one, or in none."""

    what: Bit
    store: Store | None
    delivery: str
    threshold: str | None

    def begun(self, setting: Setting) -> Machine:
        """Gives the machine at its start."""
        machine = Machine(setting)
        machine.begin_with('old', 'enabled', [self.what])
        if not self.store:
            machine.begin_with('old', 'pending', [self.what])
        for name in PLACES:
            machine.number[name] = {'threshold': int(self.threshold != name),
                                    'delivery': int(self.delivery == name)}
        return machine

    def told(self, setting: Setting, lines: Sequence[int]) -> str:
        """Tells it, of a plan whose steps stand on these lines."""
        shut = f'0 {PLACES[self.threshold]} and 1 elsewhere' if self.threshold else '1 everywhere'
        store = store_text(self.store, lines) if self.store else ', and pending there'
        numbers = (f'; at the start delivery is 1 {PLACES[self.delivery]} and 0 elsewhere, and the'
                   f' threshold is {shut}') if setting.heeds else ''
        out = 'pending, enabled and let through' if setting.heeds else 'pending and enabled'
        return (f'identity {number_of(self.what)} is enabled in the old place at the start{store}'
                f'{numbers}; in the end it is {out} in the new place, and the host was not told, or'
                ' that was taken back')


def number_of(what: Bit) -> int:
    """Gives the number of an identity in its file."""
    return 64 * what[0] + what[1]


def behind(before: int, lines: Sequence[int]) -> str:
    """Tells where so many steps are done."""
    return f'behind line {lines[before - 1]}' if before else 'before the first step'


def store_text(store: Store, lines: Sequence[int]) -> str:
    """Tells a store."""
    producer, before, by_written, lands = store
    if lands is None:
        route = 'written route' if by_written else 'route in force'
        return f'; producer {producer} stores it {behind(before, lines)} by its {route}'
    return (f'; a store of producer {producer} for it is sent {behind(before, lines)},'
            f' and lands {behind(lands, lines)}, or sooner, at its fence')


def made(setting: Setting, plan: list[Step], tried: Losing | Untold) -> Machine:
    """Gives the machine at the end of a run."""
    machine, store = tried.begun(setting), tried.store
    events: list[Event] = []
    if store and store.lands is None:
        events.append((store.before, stored(store.producer, store.by_written, tried.what)))
    elif store and store.lands is not None:
        events.append((store.before, sent(store.producer, store.by_written, tried.what)))
        events.append((store.lands, Machine.land_first))
    run(machine, plan, events)
    return machine


# ---- how it ends


def left_by(machine: Machine, plan: list[Step], lines: Sequence[int], tried: Losing) -> str:
    """Tells why what a run follows is left in the old place."""
    taking = (('take', tried.bank, tried.what[0]), ('zero', 'old', tried.bank, tried.what[0]))
    if tried.store and machine.force[tried.store.producer] == 'old':
        why = f'where the route of producer {tried.store.producer} leads still'
    elif not any(step in taking for step in plan):
        why = 'since nothing takes its word'
    else:
        last = max(at for at, step in enumerate(plan) if step in taking)
        why = f'since line {lines[last]} takes its word too early'
    return f'in the end it is in the old place, {why}'


def losses(machine: Machine, plan: list[Step], lines: Sequence[int], tried: Losing
           ) -> Iterator[tuple[str, str]]:
    """Lists what a run that has ended shows: each rule of safety that is seen to be broken, and the
    words for what becomes of the identity."""
    what, bank = tried.what, tried.bank
    in_old, in_new = what in machine.old[bank], what in machine.new[bank]
    is_due = what in machine.due[bank]
    if machine.strayed:
        yield 'freeing', 'the old place is reached after it was given back'
    if in_old:
        rule = 'routes' if bank == 'pending' else 'words'
        yield rule, left_by(machine, plan, lines, tried)
    if is_due and not in_old and not in_new:
        where = 'in the hand alone' if what in machine.hand[bank] else 'nowhere'
        for rule in ('words', 'blank'):
            yield rule, f'in the end it is {where}: it is lost'
    if in_new and not is_due:
        yield 'blank', 'in the end it is in the new place, where nobody asked for it'
    for number in machine.misplaced_numbers():
        yield 'numbers', f'in the end {number} is not where it has to be, as it was'
    for number in machine.left_numbers():
        yield 'freeing', f'in the end {number} is left in the old place for its next owner'
    if tried.begin == NOWHERE and not tried.store:
        for producer, place in enumerate(machine.force):
            if place == 'old':
                yield 'routes', (f'in the end the route in force of producer {producer} leads to'
                                 ' the old place still')


def leaves_untold(machine: Machine, tried: Untold) -> bool:
    """Says whether a run that has ended leaves the host untold of the identity."""
    return machine.is_untold() and all(tried.what in machine.new[bank] for bank in machine.new)


def shown(setting: Setting, plan: list[Step], lines: Sequence[int], tried: Losing | Untold
          ) -> str:
    """Tells a run that is bad, of a plan whose steps stand on these lines; nothing of another."""
    machine = made(setting, plan, tried)
    if isinstance(tried, Untold):
        return tried.told(setting, lines) if leaves_untold(machine, tried) else ''
    for _, fate in losses(machine, plan, lines, tried):
        return f'{tried.front(lines)}; {fate}'
    return ''


# ---- runs that are shown

BEHIND = r'(?:before the first step|behind line (?P<{}>\d+))'
STORE = (r'; producer (?P<storer>\d+) stores it ' + BEHIND.format('behind')
         + r' by its (?P<route>written route|route in force)'
         r'|; a store of producer (?P<sender>\d+) for it is sent ' + BEHIND.format('sent')
         + ', and lands ' + BEHIND.format('landing') + ', or sooner, at its fence')
LOSING = re.compile(
    r'identity (?P<identity>\d+) is (?P<bank>pending|enabled) '
    rf'(?P<begin>{"|".join(BEGINS.values())}) at the start(?:{STORE})?; (?P<fate>.*)')
SPOT = '|'.join(PLACES.values())
UNTOLD = re.compile(
    r'identity (?P<identity>\d+) is enabled in the old place at the start'
    rf'(?:, and pending there|{STORE})'
    rf'(?:; at the start delivery is 1 (?P<delivery>{SPOT}) and 0 elsewhere, and the threshold is '
    rf'(?:1 everywhere|0 (?P<threshold>{SPOT}) and 1 elsewhere))?; in the end .*')


def named(words: str | None, names: dict[str, str]) -> str | None:
    """Gives the place that words tell of; None where they tell of none."""
    return next((name for name, said in names.items() if said == words), None)


def store_read(setting: Setting, lines: Sequence[int], found: re.Match[str]) -> Store | None:
    """Reads the store of a run that is shown, where a plan can have it; else ValueError says why
    not."""
    def before(name: str) -> int:
        return lines.index(int(found[name])) + 1 if found[name] else 0

    if not (found['storer'] or found['sender']):
        return None
    producer = int(found['storer'] or found['sender'])
    if producer >= len(setting.producers):
        raise ValueError('nobody is there to store it')
    if found['storer']:
        return Store(producer, before('behind'), found['route'] == 'written route')
    if setting.producers[producer] != 'routed':
        raise ValueError('nothing of it is in flight')
    return Store(producer, before('sent'), lands=before('landing'))


def is_losing_shown(setting: Setting, plan: list[Step], lines: Sequence[int], text: str, rule: str
                    ) -> bool:
    """Says whether a run that is shown, of a plan whose steps stand on these lines, is one, and
    shows as it says that a rule is broken."""
    found = LOSING.fullmatch(text)
    if not found:
        return False
    what, begin = divmod(int(found['identity']), 64), named(found['begin'], BEGINS) or NOWHERE
    if what[0] >= setting.words or (begin == 'new' and setting.fresh):
        return False
    try:
        tried = Losing(what, found['bank'], begin, store_read(setting, lines, found))
    except ValueError:
        return False
    machine = made(setting, plan, tried)
    return machine.is_bad() and (rule, found['fate']) in losses(machine, plan, lines, tried)


def is_untold_shown(setting: Setting, plan: list[Step], lines: Sequence[int], text: str) -> bool:
    """Says whether a run that is shown, of a plan whose steps stand on these lines, is one, and
    leaves the host untold."""
    found = UNTOLD.fullmatch(text)
    if not found:
        return False
    what = divmod(int(found['identity']), 64)
    if what[0] >= setting.words:
        return False
    try:
        tried = Untold(what, store_read(setting, lines, found),
                       named(found['delivery'], PLACES) or 'old',
                       named(found['threshold'], PLACES))
    except ValueError:
        return False
    return (tried.told(setting, lines) == text
            and leaves_untold(made(setting, plan, tried), tried))
