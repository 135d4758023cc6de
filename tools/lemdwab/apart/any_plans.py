"""any_plans.py PROGRAM COUNT SEED: random plans, judged by a program and tried by this machine.

The machine is that of plan_machine.py, told a second time from docs/PLANS.md. A plan is one of a
hypervisor's with some edits. It is tried with one store, or one in flight, at every place, from
several starts; and where the program shows a run, that run is made: one that loses something, or,
of a plan that the rule on notices alone refuses, one that leaves the host untold. Prints how many
accepted plans had a bad run, how many refused ones had none, and how many runs that were shown were
good or missing, and ends with 1 if any was, and with 2 if the words are wrong or PROGRAM can't be
run. A plan into memory that heeds its numbers, or leaves all producers paused, may be refused by
the rule on notices though no run of it leaves the host untold: none is shown then. Where notices
are declared unset, no store tells the host before the plan writes where they go. """

from __future__ import annotations

import random
import re
import subprocess
from collections.abc import Iterator, Sequence

from lemdwab.apart import words as command_line
from lemdwab.apart.plan_machine import Event, Machine, Setting, Step, run, sent, stored
from lemdwab.apart.plan_runs import is_losing_shown, is_untold_shown

# Which identities are pending, and which are enabled, at the start.
Start = tuple[tuple[int, ...], tuple[int, ...]]


def both_sets(words: int, verb: str) -> list[Step]:
    return [(verb, bank, w) for w in range(words) for bank in ('pending', 'enabled')]


def hypervisors(words: int) -> Iterator[tuple[Setting, list[Step]]]:
    """Lists the plans from which random ones are made, each with its setting."""
    lead: list[Step] = [('route', 0), ('fence', 0), ('route', 1), ('fence', 1)]
    core: list[Step] = [(v, b, w) for b in ('pending', 'enabled') for w in range(words)
                        for v in ('take', 'join')]
    zeroed: list[Step] = [('zero', 'new', 'delivery'), ('zero', 'new', 'threshold')]
    zeroed += [('zero', 'new', b, w) for w in range(words) for b in ('pending', 'enabled')]
    swapped: list[Step] = [('take', 'delivery'), ('take', 'threshold'), *both_sets(words, 'take')]
    joined = both_sets(words, 'join')
    put: list[Step] = [('put', 'threshold'), ('put', 'delivery')]
    routed, host = ['routed', 'routed'], ['switched', 'routed']
    yield (Setting(routed, words, True, True, False, 'old', 'hand', True),
           [('take', 'delivery'), ('write', 'notice'), *lead, *core,
            *(('look', w) for w in range(words)), ('take', 'threshold'), ('post',), ('free',)])
    yield (Setting(routed, words, True, False, False, 'hand', 'new'), [*lead, *core, *put])
    yield (Setting(routed, words, True, False, False, 'old', 'new'),
           [('take', 'delivery'), *lead, *core, ('take', 'threshold'), *put, ('free',)])
    kvm: list[Step] = [('route', 1), ('fence', 1), ('switch', 0)]
    yield (Setting(host, words, False, False, False, 'old', 'new'),
           [*zeroed, *kvm, *swapped, *joined, *put])
    yield (Setting(host, words, False, False, False, 'old', 'new'),
           [*zeroed, *kvm, *swapped, ('free',), *joined, *put])
    copied: list[Step] = [('copy', 'delivery'), ('copy', 'threshold'), *both_sets(words, 'copy')]
    cleared: list[Step] = [('zero', 'old', 'delivery'), ('zero', 'old', 'threshold')]
    cleared += [('zero', 'old', b, w) for w in range(words) for b in ('pending', 'enabled')]
    yield (Setting(host, words, False, False, False, 'old', 'new', False, True),
           [*zeroed, *kvm, *copied, *cleared, *joined, *put, ('free',)])
    yield (Setting(host, words, True, False, False, 'hand', 'new', False, True),
           [*kvm, *copied[2:], *joined, *cleared, *put, ('free',)])
    yield (Setting(host, words, True, True, False, 'old', 'hand', False, True),
           [*copied[:2], *kvm, *copied[2:], *joined, *cleared, ('tell',), ('free',)])
    yield (Setting(host, words, True, True, True, 'old', 'new'),
           [('switch', 0), ('route', 1), ('fence', 1), *swapped, ('put', 'delivery'),
            ('put', 'threshold'), *joined, ('tell',), ('free',)])
    yield (Setting(host, words, True, True, False, 'old', 'hand'),
           [*kvm, *swapped, *joined, ('untell',), *(('look', w) for w in range(words)), ('post',),
            ('free',)])
    yield (Setting(host, words, True, True, True, 'old', 'new', True),
           [('switch', 0), ('route', 1), ('fence', 1), *swapped, ('put', 'delivery'),
            ('put', 'threshold'), *joined, ('write', 'notice'), ('tell',), ('free',)])
    all_resumed: list[Step] = [('resume', 0), ('resume', 1)]
    for resumed in (all_resumed, all_resumed[:0]):
        yield (Setting(host, words, True, False, False, 'old', 'new'),
               [('pause', 0), ('pause', 1), *swapped, *both_sets(words, 'put'), *put, *kvm,
                ('free',), *resumed])
    yield (Setting(routed, words, True, False, False, 'old', 'new'),
           [('switch', 0), ('pause', 0), ('pause', 1), ('switch', 1), *swapped, *joined,
            ('resume', 1), *put, ('resume', 0)])
    yield (Setting(host, words, True, True, False, 'old', 'hand'),
           [*kvm, *swapped, *joined, ('pause', 0), ('pause', 1),
            *(('look', w) for w in range(words)), ('post',), ('untell',), ('resume', 0), ('free',),
            ('resume', 1)])


def all_steps(setting: Setting) -> list[Step]:
    """Lists every step that a plan of a setting may have."""
    out: list[Step] = [('post',), ('tell',), ('untell',), ('write', 'notice'), ('free',)]
    for p in range(len(setting.producers)):
        out += [(verb, p) for verb in ('route', 'fence', 'switch', 'pause', 'resume')]
    for w in range(setting.words):
        out.append(('look', w))
        for bank in ('pending', 'enabled'):
            out += [(verb, bank, w) for verb in ('take', 'copy', 'join', 'put')]
            out += [('zero', place, bank, w) for place in ('old', 'new')]
    for number in ('threshold', 'delivery'):
        out += [('take', number), ('copy', number), ('put', number)]
        out += [('zero', place, number) for place in ('old', 'new')]
    return out


def edited(setting: Setting, plan: list[Step], rng: random.Random) -> list[Step]:
    """Gives a plan with one to three steps taken out, moved, added or replaced."""
    plan = list(plan)
    for _ in range(rng.choice((1, 1, 2, 3))):
        chance = rng.random()
        if chance < 0.3 and plan:
            plan.pop(rng.randrange(len(plan)))
        elif chance < 0.7 and plan:
            step = plan.pop(rng.randrange(len(plan)))
            plan.insert(rng.randrange(len(plan) + 1), step)
        elif chance < 0.85 or not plan:
            plan.insert(rng.randrange(len(plan) + 1), rng.choice(all_steps(setting)))
        else:
            plan[rng.randrange(len(plan))] = rng.choice(all_steps(setting))
    return plan


def begun(setting: Setting, start: Start) -> Machine:
    """Gives a machine on which these identities of each word stand in the old place, and one in a
    new place that is not fresh."""
    machine = Machine(setting)
    left = () if setting.fresh else (7,)
    for bank, numbers in zip(('pending', 'enabled'), start):
        for place, standing in (('old', numbers), ('new', left)):
            machine.begin_with(place, bank,
                               [(w, number) for w in range(setting.words) for number in standing])
    return machine


def is_bad_run(setting: Setting, plan: list[Step], start: Start, events: list[Event]) -> bool:
    """Says whether the run with these events, each with so many steps before it, is bad."""
    machine = begun(setting, start)
    run(machine, plan, events)
    return machine.is_bad()


def runs(setting: Setting, plan: list[Step]) -> Iterator[list[Event]]:
    """Lists the events of every run that is tried: none, one store, one in flight."""
    yield []
    for p, kind in enumerate(setting.producers):
        for at in range(len(plan) + 1):
            for by_written in (False, True):
                for w in range(setting.words):
                    for identity in (3, 4):
                        yield [(at, stored(p, by_written, (w, identity)))]
                    if kind == 'routed':
                        send = (at, sent(p, by_written, (w, 3)))
                        yield [send]
                        if at == 0:
                            for landing in range(at, len(plan) + 1):
                                yield [send, (landing, Machine.land_first)]


def has_bad_run(setting: Setting, plan: list[Step]) -> bool:
    starts: tuple[Start, ...] = (((2,), (0, 1, 3)), ((0, 2), (0, 1, 3)))
    return any(is_bad_run(setting, plan, start, events)
               for start in starts for events in runs(setting, plan))


SHOWN = '  run: '
NONE = re.compile(r'none was found among those that are tried'
                  r'(; the rule may ask for more than that the host is told)?')


def shown_of(setting: Setting, plan: list[Step], lines: Sequence[int], verdict: str,
             text: str) -> str:
    """Says what is shown of a plan: a run that is what its verdict asks for, or is not; or that
    none was found."""
    is_notice = verdict == 'refused notice'
    none = NONE.fullmatch(text)
    if none:
        return 'none found' if bool(none.group(1)) == is_notice else 'wrongly shown'
    if is_notice:
        is_right = is_untold_shown(setting, plan, lines, text)
    else:
        is_right = is_losing_shown(setting, plan, lines, text, verdict.split()[1])
    return 'shown' if is_right else 'wrongly shown'


def verdicts(program: str, plans: list[tuple[Setting, list[Step]]]) -> list[tuple[str, str]]:
    """Gives what a program answers of each plan: the first two words, and what is shown."""
    text: list[str] = []
    lines = []
    for setting, plan in plans:
        text += setting.lines()
        lines.append(range(len(text) + 1, len(text) + len(plan) + 1))
        text += [' '.join(map(str, step)) for step in plan]
    done = subprocess.run([program, 'judge'], input='\n'.join(text) + '\n', capture_output=True,
                          text=True)
    if done.returncode not in (0, 1):  # 1 where it refuses a plan
        command_line.fail(f'{program} ended with status {done.returncode}')
    answers: list[tuple[str, str]] = []
    for answer in done.stdout.splitlines():
        if answer.startswith(' '):
            setting, plan = plans[len(answers) - 1]
            verdict = answers[-1][0]
            shown = shown_of(setting, plan, lines[len(answers) - 1], verdict,
                             answer.removeprefix(SHOWN))
            answers[-1] = (verdict, shown)
        else:
            answers.append((' '.join(answer.split()[:2]), 'none shown'))
    if len(answers) != len(plans):
        command_line.fail(f'{program} judges {len(answers)} of {len(plans)} plans')
    return answers


def main() -> int:
    program, *numbers = command_line.given(
        __doc__, lambda given: len(given) == 3 and command_line.are_numbers(given[1:]))
    count, seed = map(int, numbers)
    rng = random.Random(seed)
    seeds = [list(hypervisors(words)) for words in (1, 2)]
    tally: dict[tuple[str, str, str], int] = {}
    for begin in range(0, count, 500):
        plans = []
        for _ in range(min(500, count - begin)):
            setting, plan = rng.choice(rng.choice(seeds))
            plans.append((setting, edited(setting, plan, rng)))
        for (setting, plan), (verdict, shown) in zip(plans, verdicts(program, plans), strict=True):
            bad = has_bad_run(setting, plan)
            key = (verdict, 'a bad run' if bad else 'no bad run', shown)
            if setting.memory and key == ('refused notice', 'no bad run', 'none found'):
                key = (verdict, 'no bad run' + where_more_is_asked(setting, plan), shown)
            tally[key] = tally.get(key, 0) + 1
            if not is_right(key):
                print(key, setting.lines(), plan)
    for key in sorted(tally):
        print(*key, tally[key])
    return 0 if all(map(is_right, tally)) else 1


def where_more_is_asked(setting: Setting, plan: list[Step]) -> str:
    """Says why the rule on notices may refuse a plan that tells its host; nothing if it may not."""
    if setting.heeds:
        return ', with numbers that are heeded'
    machine = Machine(setting)
    run(machine, plan, [])
    return ', with all paused in the end' if all(machine.paused) else ''


def is_right(key: tuple[str, str, str]) -> bool:
    """Says whether a verdict, what this machine found, and what was shown agree."""
    verdict, found, shown = key
    if verdict == 'accepted':
        return (found, shown) == ('no bad run', 'none shown')
    if verdict == 'refused notice':
        # Where numbers are heeded, or all are paused in the end, the rule on notices asks for more
        # than that the host is told; and a run that is shown may begin with other numbers than
        # those that are tried here.
        return shown == 'shown' or (found.startswith('no bad run, with') and shown == 'none found')
    return verdict.startswith('refused') and (found, shown) == ('a bad run', 'shown')
