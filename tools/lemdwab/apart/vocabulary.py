"""What random scripts say: actions, each of which puts a few lines into a script, and how often
each mood takes which."""

from __future__ import annotations

import re
from collections.abc import Callable
from typing import TYPE_CHECKING

from lemdwab.apart.interrupt_file import swapped

if TYPE_CHECKING:
    from lemdwab.apart.random_scripts import Generator, Guess

# Puts a few lines into a script.
Action = Callable[..., object]

ONES = (1 << 64) - 1
ROOT, CHILD = 0x0c000000, 0x0c008000
SOURCE_WORDS = {"setip": 0x1c00, "in_clrip": 0x1d00, "setie": 0x1e00, "clrie": 0x1f00}
SOURCE_NUMBERS = {"setipnum": 0x1cdc, "clripnum": 0x1ddc, "setienum": 0x1edc, "clrienum": 0x1fdc,
                  "setipnum_le": 0x2000, "setipnum_be": 0x2004}
CONTROLS = {"idelivery": 0, "iforce": 4, "ithreshold": 8, "topi": 0x18, "claimi": 0x1c}
ADDRESSES = {"mmsiaddrcfg": 0x1bc0, "mmsiaddrcfgh": 0x1bc4, "smsiaddrcfg": 0x1bc8,
             "smsiaddrcfgh": 0x1bcc}


# Machines and VMs.

ONE_OF_EACH = re.findall(r"[^;\s][^;]*", """
machine 0 0 63 1; vm 1 0x8 0; wire 1 1; ld 0xc000000; st 0x24000000 1; msi 0 0x28000000 1;
send 0 0x28000000 1; land 0 0; refetch 0 0; pass 1 0 0 1; arrive 0 0 0; leave 0 0; shift 0 0 0;
begin arrive 0 0 0; begin leave 0 0; begin shift 0 0 0; step 0 0; enter 0 0; exit 0 0;
inject 0 0 9 1; hvictl 0 0 0; hviprio 0 0 0; g 0 0 csrr stopi; g 0 0 csrrw sip 0; g 0 0 ipi 0 1;
m 0 csrr mtopei; h 0 csrrs sireg 1; h 0 hgeip; pins 0; entry 0x7 0x0; ld 0x1; st 0x3 0;
hvictl 9 9 0x40000000; wire 0 0; load; save 0 0; vm 0 0 0""")


def before_the_machine(script: Generator) -> None:
    """Lines that no machine answers, and machines that may not be."""
    for _ in range(script.pick(0, 1, 3, 10)):
        script.put(script.random.choice(ONE_OF_EACH).encode())
    for _ in range(script.below(3)):
        sizes = [script.harts, script.guests, script.greatest, script.sources]
        sizes[script.below(4)] = script.pick(0, 5, 32, 64, 1024, 2048, 4095, 1 << 32, (1 << 32) + 1,
                                             ONES)
        script.say("machine", *sizes)


def again(script: Generator) -> None:
    script.say("machine", script.pick(0, 1, 9), 1, 63, 8)


def new_vm(script: Generator, plainly: bool = False) -> None:
    """A VM, of a mask with 1 to 4 ones."""
    from lemdwab.apart.random_scripts import Guess
    ones = 1 if plainly else script.pick(3, 4) if script.crowded else script.pick(1, 1, 2, 2, 3, 4)
    mask = 0x8 if plainly else sum(1 << place for place in script.random.sample(range(15), ones))
    count = 1 + script.below(min(1 << ones, 16 if script.crowded else script.pick(2, 4, 4, 16)))
    hart = script.below(script.harts)
    if not plainly and script.chance(0.05):
        count, mask, hart = script.pick(
            (0, mask, hart), ((1 << ones) + 1, mask, hart), (count, mask | 1 << 15, hart),
            (count, 0, hart), (count, 0x7fff, hart), (count, mask, script.harts),
            (17, 0x1f, hart), (count, mask + (1 << 32), hart), (count + (1 << 32), mask, hart))
        script.say("vm", count, (mask,), hart)
        return
    script.say("vm", count, (mask,), hart)
    if len(script.vms) < 8 and len(script.guesses) + count <= 32:
        script.vms.append((count, mask, hart))
        script.guesses += [Guess(len(script.vms) - 1, number) for number in range(count)]


# Stores of devices and of virtual harts.

def offset_and_value(script: Generator) -> tuple[int, int]:
    """Where in a page a store goes, and what it asks for."""
    identity = script.identity() % (1 << 32)
    way = script.random.random()
    if way < 0.9:
        return 0, identity
    if way < 0.96:
        return 4, swapped(identity) if script.chance(0.8) else identity
    return script.pick(8, 0x7fc, 0xffc, 1, 2, 5, 0x104, 0xc), identity


def device_address(script: Generator, one: Guess) -> int:
    """An MSI address of a virtual hart, or something like it."""
    count, mask, _ = script.vms[one.vm]
    number = one.number if script.chance(0.96) else script.below(18)
    page, left = 0x28000, number
    for place in range(15):
        if mask >> place & 1:
            page |= (left & 1) << place
            left >>= 1
    if script.chance(0.02):
        page = script.pick(page ^ 1 << script.below(30), page + (1 << 20), page + (1 << 50), 0,
                           0x24000, page | 1 << 16)
    return page << 12


def device_store(script: Generator, word: str = "msi", homes: tuple[str, ...] = ()) -> Guess:
    one = script.guess(*homes)
    offset, value = offset_and_value(script)
    vm = script.astray(one.vm, len(script.vms))
    script.say(word, vm, (device_address(script, one) + offset & ONES,), value)
    return one


def send(script: Generator) -> None:
    one = device_store(script, "send", ("moving",) if script.chance(0.4) else ())
    script.flight[one.vm] = min(script.flight.get(one.vm, 0) + 1, 8)


def sends(script: Generator) -> None:
    """Stores until no more may be in flight, or nearly."""
    vm = script.guess().vm
    for _ in range(script.pick(3, 8, 9)):
        one = script.random.choice([one for one in script.guesses if one.vm == vm])
        script.say("send", vm, (device_address(script, one),), script.identity() % (1 << 32))
        script.flight[vm] = min(script.flight.get(vm, 0) + 1, 8)


def land(script: Generator) -> None:
    """A store lands, of a VM of which some seem to be in flight."""
    flying = [vm for vm, count in script.flight.items() if count]
    if not flying and script.chance(0.8):
        send(script)
        return
    vm = script.random.choice(flying) if flying and script.chance(0.95) else script.guess().vm
    count = script.flight.get(vm, 0)
    plainly = count and script.chance(0.95)
    number = script.below(count) if plainly else script.pick(0, 1, count, 7, 8)
    script.say("land", script.astray(vm, len(script.vms)), script.astray(number, 8))
    script.flight[vm] = max(count - 1, 0)


def refetch(script: Generator) -> None:
    script.say("refetch", *script.named(script.guess("moving") if script.chance(0.8)
                                        else script.guess()))


def ipi(script: Generator, to: Guess | None = None) -> None:
    one = to or script.guess()
    peers = [other for other in script.guesses if other.vm == one.vm and
             other.home in ("resident", "entered")] or [one]
    sender = script.random.choice(peers)
    number = script.astray(one.number, script.vms[one.vm][0])
    script.say("g", *script.named(sender), "ipi", number, script.identity() % (1 << 32))


# Moves.

def holders(script: Generator, hart: int) -> int:
    """How many guest files of a hart are held, as it seems."""
    return sum(one.holds.count(hart) for one in script.guesses)


def has_room(script: Generator) -> bool:
    """Whether a guest file of some hart seems to be free."""
    return any(holders(script, hart) < script.guests for hart in range(script.harts))


def movable(script: Generator) -> Guess:
    """A virtual hart that is at rest and, where it is parked, seems to have a file to go to."""
    homes = ("parked", "resident") if has_room(script) else ("resident",)
    return script.guess(*homes)


def begin(script: Generator, whole: bool = False, one: Guess | None = None) -> Guess:
    """A move of a virtual hart, whole or begun."""
    one = one or (movable(script) if script.chance(0.9) else script.guess())
    if one.home != "resident" and not has_room(script) and script.chance(0.8):
        return one
    kinds = {"parked": ("arrive",), "resident": ("leave", "leave", "shift")}
    kind = script.pick(*kinds.get(one.home, ("arrive", "leave", "shift")))
    if script.chance(0.03):
        kind = script.pick("arrive", "leave", "shift")
    hart = script.below(script.harts)
    if holders(script, hart) >= script.guests and script.chance(0.8):
        hart = min(range(script.harts), key=lambda hart: holders(script, hart))
    rest = [] if kind == "leave" else [script.astray(hart, script.harts)]
    script.say(*([] if whole else ["begin"]), kind, *script.named(one), *rest)
    if script.missed or rest not in ([], [hart]):
        return one
    if one.home not in ("parked", "resident") or (kind == "arrive") != (one.home == "parked"):
        return one
    if rest and holders(script, hart) >= script.guests:
        return one
    one.after = "parked" if kind == "leave" else "resident"
    one.kept = [] if kind == "leave" else [hart]
    if whole:
        one.home, one.holds = one.after, one.kept
        return one
    one.holds = one.holds + one.kept
    one.home, one.steps = "moving", script.plan_length(kind, one.passes)
    return one


def whole(script: Generator) -> None:
    begin(script, whole=True)


def step(script: Generator, one: Guess | None = None) -> Guess:
    """One step, of a virtual hart that seems to be moved."""
    if not one and all(other.home != "moving" for other in script.guesses) and script.chance(0.9):
        begin(script)
    one = one or script.guess("moving")
    script.say("step", *script.named(one))
    if one.home == "moving" and not script.missed:
        one.steps -= 1
        if one.steps <= 0:
            one.home, one.holds = one.after, one.kept
    return one


def steps(script: Generator) -> None:
    """Some steps in a row, the more the longer the move."""
    one = step(script)
    burst = script.pick(0, 0, 0, 1, 2, 4, script.below(one.steps + 1) if one.home == "moving"
                        else 0)
    for _ in range(min(burst, 60)):
        if one.home == "moving":
            step(script, one)


def store_to(script: Generator, one: Guess, word: str) -> None:
    """A store of a device for one virtual hart, mostly of an identity that it has enabled."""
    oddly = script.chance(0.2)
    offset, value = (offset_and_value(script) if oddly
                     else (0, script.random.choice(script.favourites)))
    script.say(word, one.vm, (device_address(script, one) + offset & ONES,), value)
    if word == "send":
        script.flight[one.vm] = min(script.flight.get(one.vm, 0) + 1, 8)


def something(script: Generator, one: Guess) -> None:
    """What may come between two steps of a move of a virtual hart."""
    what = script.pick("msi", "msi", "send", "ipi", "ipi", "refetch", "pass", "pass",
                       "land" if script.flight.get(one.vm) else "msi")
    if what == "pass" and one.sources:
        source = script.random.choice(one.sources)
        if script.chance(0.6):
            pulse(script, source)
        else:
            script.say("ld", (CHILD + 0x3000 + 4 * source,))
    elif what == "ipi":
        ipi(script, one)
    elif what == "land":
        script.flight[one.vm] -= 1
        script.say("land", one.vm, 0)
    elif what in ("msi", "send"):
        store_to(script, one, what)
    else:
        script.say("refetch", one.vm, one.number)
        if script.chance(0.6):
            store_to(script, one, script.pick("msi", "msi", "send"))
        if script.chance(0.3) and script.flight.get(one.vm):
            script.flight[one.vm] -= 1
            script.say("land", one.vm, 0)


def moments_of(script: Generator, length: int, passes: int) -> set[int]:
    """Before which steps of a move something comes: all of its beginning or of its end, or some."""
    early = min(length, 7 + passes)
    late = min(length, (script.greatest + 1) // 64 + 4)
    way = script.pick("early", "early", "early", "late", "late", "single", "scattered")
    if way == "early":
        return set(range(script.below(3), early))
    if way == "late":
        return set(range(length - late + script.below(3), length))
    if way == "single":
        return {length - 1 - script.below(late)}
    return {script.below(length) for _ in range(script.pick(1, 2, 3, 5))}


def drill(script: Generator) -> None:
    """A move with something before some of its steps, and a look at the host and the guest."""
    one = movable(script)
    while one.home == "moving" and one.steps < 40:
        step(script, one)
    if script.chance(0.4):
        store_to(script, one, "send")
    if one.home == "resident" and script.chance(0.4):
        for _ in range(script.pick(2, 4)):
            script.say("g", one.vm, one.number, "csrrw", "stopei", (0,))
    begin(script, one=one)
    if one.home != "moving":
        return
    length = one.steps
    moments = moments_of(script, length, one.passes)
    cut = length if length < 60 or script.chance(0.2) else max(moments) + 1
    for done in range(cut):
        if done in moments:
            something(script, one)
            if script.chance(0.8):
                host_look(script, script.vms[one.vm][2])
        step(script, one)
    script.flight[one.vm] = 0
    host_look(script, script.vms[one.vm][2])
    guest_look(script, one)


# Virtual harts' CSRs.

def select_number(script: Generator) -> int:
    words = (script.greatest + 1) // 64
    word = 2 * script.below(words)
    first = script.random.choice(script.favourites) // 64 * 2
    return script.pick(0x70, 0x72, 0x80 + first, 0xc0 + first, 0x80 + word, 0xc0 + word, 0x80, 0xc0,
                       0x80 + first, 0xc0 + first,
                       script.pick(0x71, 0x73, 0x7f, 0x81, 0xc1, 0xff, 0x6f, 0x100, 0x30, 0xbe,
                                   0xfe,
                                   0x10c0, 0x1070, ONES, script.below(0x1100)))


def register_value(script: Generator, select: int) -> int:
    if select == 0x70:
        return script.pick(0, 1, 1, 1, 2, 3, 0x40000000)
    if select == 0x72:
        return script.pick(0, 0, 1, script.identity(), script.identity() + 1, script.greatest,
                           script.greatest + 1, script.random.getrandbits(64))
    return script.set_word()


def mnemonic(script: Generator) -> str:
    return script.pick("csrrw", "csrrw", "csrrs", "csrrc")


def access(script: Generator, who: tuple[int | str, ...], names: tuple[str, str, str],
           reads: float = 0.4) -> None:
    """An access by the names of a level's CSRs: of the selected register mostly after a choice."""
    select_name, register_name, top_name = names
    what = script.random.random()
    if what < 0.3:
        if script.chance(0.5):
            script.say(*who, "csrr", top_name)
        else:
            script.say(*who, mnemonic(script), top_name, (script.pick(0, 0, 1, ONES),))
        return
    select = select_number(script)
    if what < 0.85:
        script.say(*who, "csrrw", select_name, (select,))
    elif what < 0.9:
        script.say(*who, mnemonic(script), select_name, (script.below(0x1100),))
    elif what < 0.93:
        script.say(*who, "csrr", select_name)
    if script.chance(reads):
        script.say(*who, "csrr", register_name)
    else:
        script.say(*who, mnemonic(script), register_name, (register_value(script, select),))


def guest(script: Generator) -> None:
    one = script.guess("resident", "entered") if script.chance(0.93) else script.guess()
    access(script, ("g", *script.named(one)), ("siselect", "sireg", "stopei"))


def guest_look(script: Generator, one: Guess | None = None) -> None:
    """A claim of a guest, or a look at what is pending or enabled."""
    one = one or script.guess("resident", "entered")
    who = ("g", *script.named(one))
    if script.chance(0.5):
        script.say(*who, "csrrw", "stopei", (0,))
    else:
        word = script.random.choice(script.favourites) // 64
        script.say(*who, "csrrw", "siselect", (script.pick(0x80, 0x80, 0xc0) + 2 * word,))
        script.say(*who, "csrr", "sireg")


def host(script: Generator) -> None:
    access(script, ("h", script.hart()), ("siselect", "sireg", "stopei"))


def host_look(script: Generator, hart: int | None = None) -> None:
    """The host sees its notices, and mostly clears them."""
    who = ("h", script.hart() if hart is None else hart)
    way = script.random.random()
    if way < 0.4:
        script.say(*who, "csrrw", "stopei", (0,))
    elif way < 0.8:
        script.say(*who, "csrrw", "siselect", (0x80,))
        script.say(*who, "csrrw", "sireg", (0,))
    else:
        script.say(*who, "csrr", script.pick("sireg", "stopei"))


def machine_level(script: Generator) -> None:
    access(script, ("m", script.hart()), ("miselect", "mireg", "mtopei"))


def hgeip(script: Generator) -> None:
    script.say("h", script.hart(), "hgeip")


def pins(script: Generator) -> None:
    script.say("pins", script.hart())


def set_up_guest(script: Generator, one: Guess) -> None:
    """It arrives, or runs from memory, and enables some of its identities."""
    if script.chance(0.85) and has_room(script):
        begin(script, whole=True, one=one)
    if one.home == "parked":
        enter(script, one)
    who = ("g", one.vm, one.number)
    for word in sorted({identity // 64 for identity in script.favourites})[:4]:
        script.say(*who, "csrrw", "siselect", (0xc0 + 2 * word,))
        script.say(*who, "csrrw", "sireg", (script.pick(ONES, ONES, script.set_word()),))
    if script.chance(0.6):
        script.say(*who, "csrrw", "siselect", (0x70,))
        script.say(*who, "csrrw", "sireg", (1,))
    if script.chance(0.2):
        script.say(*who, "csrrw", "siselect", (0x72,))
        script.say(*who, "csrrw", "sireg", (script.identity(),))
    if one.home == "resident" and script.chance(0.35):
        begin(script, whole=True, one=one)
    if one.home == "entered" and script.chance(0.7):
        leave_memory(script, one)


# Running from memory.

def enter(script: Generator, one: Guess | None = None) -> None:
    one = one or script.guess("parked")
    script.say("enter", *script.named(one))
    if one.home == "parked" and not script.missed:
        one.home = "entered"


def leave_memory(script: Generator, one: Guess | None = None) -> None:
    one = one or script.guess("entered")
    script.say("exit", *script.named(one))
    if one.home == "entered" and not script.missed:
        one.home = "parked"


def run(script: Generator) -> None:
    """Some while from memory, with stores and claims, and its end."""
    one = script.guess("parked")
    enter(script, one)
    for _ in range(script.below(8)):
        choices: tuple[Action, ...] = (
            lambda s: s.say("msi", one.vm, (device_address(s, one),), s.identity() % (1 << 32)),
            lambda s: guest_look(s, one), lambda s: ipi(s, one), guest,
            lambda s: host_look(s, s.vms[one.vm][2]))
        script.pick(*choices)(script)
    if script.chance(0.8):
        host_look(script, script.vms[one.vm][2])
        script.say("exit", one.vm, one.number)
        one.home = "parked" if one.home == "entered" else one.home
        host_look(script, script.vms[one.vm][2])


# Majors.

def priority(script: Generator) -> int:
    return script.pick(0, 1, 2, 254, 255, script.random.choice(script.favourites) & 0xff,
                       script.below(256))


def inject(script: Generator) -> None:
    script.say("inject", *script.named(script.guess()),
               script.pick(1, 5, 9, 13, script.astray(9, 2)),
               script.pick(0, 1, 1))


def hvictl(script: Generator) -> None:
    vti = script.chance(0.4)
    iid = script.pick(1, 5, 9, 9, 13, 3, 63, script.pick(0, 64, 100, 4095, script.below(4096)))
    value = vti << 30 | iid << 16 | script.below(4) << 8 | priority(script)
    if script.chance(0.1):
        value |= script.random.getrandbits(64) & ~0x4fff03ff
    script.say("hvictl", *script.named(script.guess()), (value,))


def hviprio(script: Generator) -> None:
    value = priority(script) << 8 | priority(script) << 24 | priority(script) << 40
    if script.chance(0.15):
        value |= script.random.getrandbits(64) & ~0x0000ff00ff00ff00
    script.say("hviprio", *script.named(script.guess()), (value,))


def major_access(script: Generator) -> None:
    one = script.guess("resident") if script.chance(0.9) else script.guess()
    who = ("g", *script.named(one))
    csr = script.pick("sip", "sie", "sie", "stopi", "stopi", "stopi")
    if csr == "stopi" and script.chance(0.97) or script.chance(0.4):
        script.say(*who, "csrr", csr)
    else:
        value = script.pick(0x2222, 0x2222, 0x2222, ONES, 0, script.random.getrandbits(14),
                            1 << script.pick(1, 5, 9, 13))
        script.say(*who, mnemonic(script), csr, (value,))


# The APLIC.

def domain(script: Generator) -> int:
    return script.pick(ROOT, CHILD)


def pulse(script: Generator, source: int | None = None) -> None:
    """A wire, which mostly changes its level."""
    source = script.source() if source is None else source
    for level in script.pick((0,), (1,), (1, 0), (0, 1)):
        script.say("wire", source, level)


def sourcecfg(script: Generator, where: int) -> int:
    mode = script.pick(1, 4, 4, 5, 6, 6, 7, script.pick(0, 2, 3))
    if where == ROOT:
        return script.pick(0x400, 0x400, mode,
                           script.pick(0x401, 0x406, 0x7ff, 0x806, 0xfffff400, 0))
    return script.pick(mode, mode, mode, mode, script.pick(0x400, 0x404, 0xfffffbf8 | mode, 0x7ff))


def target(script: Generator) -> int:
    hart = script.below(script.harts) if script.chance(0.9) else script.pick(script.harts, 4, 16383)
    low = script.pick(script.identity() & 0x7ff, priority(script), script.below(4), script.below(4))
    return hart << 18 | (script.below(64) << 12 if script.chance(0.1) else 0) | low | (
        script.pick(0, 0x800, 0x300) if script.chance(0.1) else 0)


def address_value(script: Generator, name: str) -> int:
    if script.groups:
        return {"mmsiaddrcfg": script.pick(0x20000, 0x24000),
                "smsiaddrcfg": script.pick(0x20000, 0x28000),
                "mmsiaddrcfgh": script.pick(0x2010000, 0x3010000, 0x2011000, 0x10000, 0x11000,
                                            0x21000),
                "smsiaddrcfgh": script.pick(0, 0x500000, 0x600000)}[name]
    plain = {"mmsiaddrcfg": 0x24000, "mmsiaddrcfgh": 0x2000, "smsiaddrcfg": script.supervisor_base,
             "smsiaddrcfgh": 0x500000}[name]
    if script.chance(0.75):
        return plain
    odd = [plain ^ 1 << script.below(32), script.random.getrandbits(32), 0x24001, 0x28001, 0x28001,
           0x28002]
    if name == "mmsiaddrcfgh":
        odd = odd[:2] + [0x1000, 0x3000, 0x11000, 0x11000, 0x21000, 0x111000, 0x10000, 0x20000,
                         0x102000,
                         0x502000, 0x1f012000, 0x1011000, 0x80002000, 0x80002000]
    return script.random.choice(odd)


def register(script: Generator) -> tuple[int, int]:
    """The offset of a register, and a value that it may get."""
    where = domain(script)
    kind = script.weighted({"sourcecfg": 16, "target": 14, "words": 14, "numbers": 14,
                            "domaincfg": 9,
                            "controls": 14, "addresses": 7, "genmsi": 5, "else": 3})
    if kind == "sourcecfg":
        return where + 4 * (script.source() % 1024), sourcecfg(script, where)
    if kind == "target":
        return where + 0x3000 + 4 * (script.source() % 1024), target(script)
    if kind == "words":
        source = script.source() % 1024
        value = script.pick(1 << source % 32, 1 << source % 32, 0xffffffff,
                            script.random.getrandbits(32))
        return where + script.random.choice(list(SOURCE_WORDS.values())) + source // 32 * 4, value
    if kind == "numbers":
        name = script.random.choice(list(SOURCE_NUMBERS))
        source = script.source() % (1 << 32)
        return where + SOURCE_NUMBERS[name], swapped(source) if name == "setipnum_be" else source
    if kind == "domaincfg":
        return where, script.pick(0x100, 0x104, 0x104, 0x100, 0, 4, 0xffffffff, 0x1fb)
    if kind == "controls":
        offset = script.random.choice(list(CONTROLS.values()))
        plainly = script.chance(0.95)
        hart = script.below(script.harts) if plainly else script.pick(4, 511, script.harts)
        value = script.pick(0, 1, 1, 1, 2, 3, 4, 256, priority(script))
        return where + 0x4000 + 32 * hart + offset, value
    if kind == "addresses":
        name = script.random.choice(list(ADDRESSES))
        return script.pick(ROOT, ROOT, ROOT, CHILD) + ADDRESSES[name], address_value(script, name)
    if kind == "genmsi":
        return where + 0x3000, target(script)
    return where + 4 * script.below(0x2000), script.random.getrandbits(32)


def aplic_store(script: Generator) -> None:
    address, value = register(script)
    script.say("st", (address,), (value,))
    if script.chance(0.2):
        script.say("ld", (address,))


def aplic_load(script: Generator) -> None:
    address, _ = register(script)
    if script.chance(0.3):
        control = domain(script) + 0x4000 + 32 * script.below(script.harts)
        address = control + script.pick(0x18, 0x1c, 0x1c)
    elif script.chance(0.3):
        words = domain(script) + script.pick(0x1c00, 0x1c00, 0x1d00, 0x1e00)
        address = words + script.source() % 1024 // 32 * 4
    script.say("ld", (address,))


def elsewhere(script: Generator) -> None:
    """A store or a load of the host outside of the control regions, or at their edges."""
    hart, number = script.below(5), script.below(34)
    base = script.pick(0x24000000 + hart * 0x1000, 0x28000000 + hart * 0x20000,
                       0x28000000 + hart * 0x20000, 0x28000000 + hart * 0x20000,
                       0x28000000 + hart * 0x20000 + number * 0x1000,
                       0x80000000 + 0x200 * script.below(33), 0x80003ffc, 0x80004000, 0x8000bffc,
                       0x8000c000, 0x7ffffffc, 0x0bfffffc, 0x0c010000, 0x0c00fffc, 0x0c007ffc,
                       0x23fffffc, 0, script.random.getrandbits(40))
    offset, value = offset_and_value(script)
    address = base + offset + (script.pick(1 << 32, 1 << 36) if script.chance(0.03) else 0)
    if script.chance(0.75):
        script.say("st", (address & ONES,), (value,))
    else:
        script.say("ld", (address & ONES,))


def host_file_store(script: Generator) -> None:
    """An MSI for a file of the host, of a device of its own."""
    hart = script.below(script.harts)
    offset, value = offset_and_value(script)
    script.say("st", (script.pick(0x24000000 + hart * 0x1000, 0x28000000 + hart * 0x20000) + offset,
                      ), (value,))


def force(script: Generator) -> None:
    """An interrupt that is forced or on top, and loads of topi and claimi."""
    control = domain(script) + 0x4000 + 32 * script.below(script.harts)
    for offset, value in ((0, 1), (4, script.below(2)), (8, script.below(5))):
        if script.chance(0.6):
            script.say("st", (control + offset,), (value,))
    for _ in range(script.below(4)):
        script.say("ld", (control + script.pick(4, 0x18, 0x1c, 0x1c),))
        if script.chance(0.3):
            pins(script)


def ready_domains(script: Generator) -> None:
    """Sources of both domains with modes, targets and enables; files that take their MSIs."""
    script.groups = script.chance(0.15)
    script.supervisor_base = 0x28001 if script.chance(0.15) else 0x28000
    for name in ADDRESSES:
        script.say("st", (ROOT + ADDRESSES[name],), (address_value(script, name),))
    script.say("st", (ROOT,), (script.pick(0x100, 0x104, 0, 4),))
    script.say("st", (CHILD,), (script.pick(0x100, 0x104, 0, 4),))
    for source in script.sources_used:
        where = domain(script)
        if where == CHILD:
            script.say("st", (ROOT + 4 * source,), (0x400,))
        script.say("st", (where + 4 * source,), (script.pick(1, 4, 5, 6, 6, 7),))
        script.say("st", (where + 0x3000 + 4 * source,), (target(script),))
        script.say("st", (where + 0x1edc,), (source,))
    for hart in range(script.harts):
        script.say("st", (domain(script) + 0x4000 + 32 * hart,), (1,))
        script.say("m", hart, "csrrw", "miselect", (0xc0,))
        script.say("m", hart, "csrrw", "mireg", (script.pick(ONES, script.set_word()),))
        script.say("m", hart, "csrrw", "miselect", (0x80,))


# Passes.

def ready_sources(script: Generator) -> None:
    """Sources that may be passed, and mostly signal."""
    for source in script.sources_used:
        script.say("st", (ROOT + 4 * source,), (0x400,))
        script.say("st", (CHILD + 4 * source,), (script.pick(1, 4, 4, 5, 6, 6, 7),))
    high = script.pick(0x2000, 0x2000, 0x2000, 0x1f702fff, 0x502000)
    script.say("st", (ROOT + 0x1bc4,), (high,))
    script.say("st", (ROOT + 0x1bc8,), (0x28000,))
    script.say("st", (ROOT + 0x1bcc,), (0x500000,))
    script.say("st", (CHILD,), (script.pick(0x104, 0x104, 0x104, 4),))
    for source in script.sources_used:
        if script.chance(0.85):
            script.say("st", (CHILD + 0x1edc,), (source,))
        if script.chance(0.7):
            pass_source(script, source)


def pass_source(script: Generator, source: int | None = None) -> None:
    fresh = [one for one in script.sources_used if one not in script.passed]
    if source is None:
        source = script.random.choice(fresh) if fresh and script.chance(0.8) else script.source()
    one = script.guess("parked", "resident", "entered") if script.chance(0.95) else script.guess()
    if script.chance(0.4) and script.guesses[0].home != "moving":
        one = script.guesses[0]
    script.say("pass", source, *script.named(one), script.identity())
    if not script.missed and source not in script.passed and one.home != "moving":
        script.passed.append(source)
        one.passes += 1
        one.sources.append(source)


def passed_wire(script: Generator) -> None:
    pulse(script, script.random.choice(script.passed) if script.passed else None)


def passed_registers(script: Generator) -> None:
    """What the host may still do about a passed source, and what it may not."""
    source = script.random.choice(script.passed or [1])
    name = script.pick("look", "look", "enable", "disable", "set", "clear", "ie", "redirect")
    if name == "look":
        script.say("ld", (CHILD + script.pick(0x3000, 0x3000, 0) + 4 * source,))
    elif name in ("enable", "disable", "set", "clear"):
        offset = {"enable": 0x1edc, "disable": 0x1fdc, "set": 0x1cdc, "clear": 0x1ddc}[name]
        script.say("st", (CHILD + offset,), (source,))
    elif name == "ie":
        script.say("st", (CHILD,), (script.pick(4, 0x104, 0x104, 0),))
    else:
        offset = script.pick(0x1bc0, 0x1bc4, 0x1bc8, 0x1bcc, 4 * source, 0x3000 + 4 * source)
        script.say("st", (domain(script) + offset,), (script.pick(0, 0x400, 4, 0x2000, 0x28000),))


# Images.

def random_part(script: Generator) -> list[int | str | tuple[int]]:
    words = (script.greatest + 1) // 64
    part = script.pick("image", "majors", "prio", "word", "word", "word")
    if part == "image":
        return [part, script.astray(1, 2), script.astray(script.greatest, 64), script.pick(0, 1),
                script.pick(0, script.identity() % (1 << 32)),
                (script.pick(select_number(script), 0xfff, 0x1000),)]
    if part == "majors":
        return [part, *((script.pick(0, 0x2222, 1 << script.pick(1, 5, 9, 13), script.below(0x4000)
                                     & script.pick(0x2222, 0x2222, 0x3fff)),) for _ in range(2))]
    if part == "prio":
        value = priority(script) << 8 | priority(script) << 24 | priority(script) << 40
        control = script.pick(0, 0x40090100, script.below(1 << 10), 0x40000000, 0x403f0000,
                              1 << 30 | script.below(80) << 16 | script.below(1 << 10))
        if script.chance(0.05):
            value, control = script.pick((1, control), (value, 1 << 10), (value, 1 << 31),
                                         (ONES, 0))
        return [part, (value,), (control,)]
    word = script.random.choice(script.favourites) // 64
    even = 1 if script.chance(0.05) or word else 2
    pending, enabled = (value - value % even for value in (script.set_word(), script.set_word()))
    return [part, script.astray(word, words), (pending,), (enabled,)]


def load_random(script: Generator) -> None:
    one = script.guess("parked") if script.chance(0.9) else script.guess()
    script.say("load", *script.named(one), *random_part(script))


def save(script: Generator, one: Guess | None = None) -> Guess:
    """Some part of an image; what it was is kept, where a model is there to say it."""
    one = one or (script.guess("parked") if script.chance(0.9) else script.guess())
    words = (script.greatest + 1) // 64
    part = script.astray(script.below(words + 3), words + 3)
    script.say("save", *script.named(one), part)
    return one


def copy_image(script: Generator) -> None:
    """All parts of an image, saved, and loaded into another virtual hart in any order."""
    one, other = script.guess("parked"), script.guess("parked")
    words = (script.greatest + 1) // 64
    if not script.twin or words > 8 and script.chance(0.7):
        save(script)
        return
    order = list(range(words + 3))
    script.random.shuffle(order)
    parts = [script.put(b"save %d %d %d" % (one.vm, one.number, part)) for part in order]
    if script.chance(0.3):
        device_store(script)
    script.random.shuffle(parts)
    for part in parts[:script.pick(len(parts), len(parts), script.below(len(parts)) + 1)]:
        if part and " " in part:
            script.put(f"load {other.vm} {other.number} {part}".encode())
    host_look(script, script.vms[other.vm][2])
    save(script, other)


# Other lines, and those that are refused or bad.

def entry(script: Generator) -> None:
    word0 = script.pick(7, 3, 3, 1, 5, 6) | script.random.getrandbits(54) << 10
    word1 = script.random.getrandbits(64)
    if script.chance(0.85):
        word0 &= (1 << 54) - 1
        word1 &= 0x103fffffffffffff
    if script.chance(0.2):
        word0 |= 1 << script.below(64)
    if script.chance(0.2):
        word1 |= 1 << script.below(64)
    script.say("entry", (word0 & ~(0x3f8 if script.chance(0.8) else 0),), (word1,))


def sample(script: Generator) -> bytes:
    """A line that was said before, or a plain one."""
    text = script.random.choice(script.lines) if script.lines else b"pins 0"
    return text if text and len(text) < 100 else b"wire 1 1"


def bad(script: Generator) -> None:
    """A text that spells no line, or is skipped, or looks as if."""
    text = sample(script)
    words = text.split(b" ")
    place = script.below(len(words))
    ways = [text.replace(b" ", b"  ", 1), text + b" ", b" " + text, text + b"\r", text.upper(),
            b" ".join(words[:-1]), text + b" 0", b"# a comment", b"", b"#", b" #", b"# \r",
            b"#" * 128, b"#" * 129, text.replace(b"0x", b"0X"), text.replace(b" ", b"\t", 1),
            text + b"\x00", b"\xff\xfe" + text, text[:-1], text * 9, words[0], b"loadx 0 0",
            b"begin", b"begin step 0 0", b"g", b"h 0", b"m 0 csrr sireg", b"h 0 csrr mireg",
            b"g 0 0 csrr vsip", b"h 0 csrr stopi", b"h 0 csrrwi sireg 1", b"g 0 0 ipi 0", b"exit 0",
            b"wire 1 2", b"wire 1 0x1", b"wire 1 0x0000000000000000", b"inject 0 0 1 2",
            b"st 0 0x100000000",
            b"msi 0 0x28000000 4294967296", b"h 0 hgeip 0", b"h 0 csrr sireg 0", b"h 0 csrrw sireg",
            b"save 0 0", b"save 0 0 0 0",
            b"load 0 0", b"load 0 0 majors 0", b"load 0 0 words 0 0 0",
            b"load 0 0 image 1 63 2 0 0", b"load 0 0 word 0 0",
            b"load 0 0 image 4294967297 63 0 0 0", b"load 0 0 image 1 63 0 4294967296 0",
            b"load 0 majors 0 0"]
    numbers = [b"00", b"01", b"0x", b"0x00000000000000001", b"18446744073709551616", b"0xABC",
               b"-1",
               b"+1", b"1_0", b"0b1", b"1.0", b"18446744073709551615", b"0xffffffffffffffff",
               b"0x0g",
               b"9" * 60, b"", b"\xd9\xa3", b"1 ", b"0o7", b"1e3"]
    if script.chance(0.5):
        words[place] = script.random.choice(numbers)
        script.put(b" ".join(words))
    else:
        script.put(script.random.choice(ways))


def wrong(script: Generator) -> None:
    """A line that is mostly refused: no line, one of another machine, or one with a wild number."""
    way = script.below(3)
    if way == 0:
        bad(script)
    elif way == 1:
        script.put(script.random.choice(ONE_OF_EACH).encode())
    else:
        words = sample(script).split(b" ")
        words[-1 if len(words) < 3 else script.pick(1, 2)] = b"%d" % script.pick(ONES, 99, 1 << 32)
        script.put(b" ".join(words))


def repeat(script: Generator) -> None:
    """A line that was said before, once more."""
    script.put(sample(script))


BACKGROUND: dict[Action, float] = {
              device_store: 4, guest: 4, guest_look: 3, host_look: 3, ipi: 2, whole: 3, begin: 1.5,
              steps: 3,
              send: 1, sends: 0.1, land: 1, refetch: 0.7, hgeip: 1.5, pins: 1.5, host: 1.5,
              machine_level: 1, enter: 1,
              leave_memory: 1, run: 0.6, inject: 0.8, hvictl: 0.6, hviprio: 0.6, major_access: 1.5,
              pulse: 1.5,
              aplic_store: 1.5, aplic_load: 1.5, elsewhere: 1, host_file_store: 1, pass_source: 0.6,
              passed_registers: 0.6, entry: 0.8, bad: 1.2, again: 0.1, repeat: 1, new_vm: 0.25}
IMAGES: dict[Action, float] = {save: 1, load_random: 1.2, copy_image: 0.3}
MOOD_WEIGHTS: dict[str, dict[Action, float]] = {
    "moves": {drill: 36, steps: 24, begin: 6, device_store: 18, send: 8, sends: 1, land: 6,
              refetch: 6, ipi: 10,
              host_look: 14, guest_look: 10, hgeip: 5, whole: 6},
    "passes": {drill: 30, steps: 16, begin: 5, whole: 8, passed_wire: 30, passed_registers: 14,
               host_look: 16,
               guest_look: 14, pass_source: 6, run: 3, device_store: 6, host_file_store: 5,
               hgeip: 3},
    "running": {run: 20, enter: 10, leave_memory: 10, guest: 22, guest_look: 16, device_store: 24,
                ipi: 12,
                host_look: 20, send: 4, land: 4, whole: 6, drill: 1},
    "majors": {inject: 16, hvictl: 14, hviprio: 8, major_access: 60, device_store: 14,
               guest_look: 8, guest: 14,
               whole: 5},
    "aplic": {force: 12, aplic_store: 60, aplic_load: 45, pulse: 40, host_look: 10,
              machine_level: 14, pins: 16, host: 8,
              host_file_store: 4},
    "images": {copy_image: 8, save: 16, load_random: 14, device_store: 16, whole: 14, guest: 14,
               guest_look: 8,
               host_look: 14, run: 4, inject: 3, major_access: 6, hvictl: 3, hviprio: 2, enter: 2,
               leave_memory: 2, pulse: 2, drill: 1},
    "everything": {action: 4 * weight for action, weight in BACKGROUND.items()},
}


def weights_of(mood: str, without_images: bool) -> dict[Action, float]:
    """How often each action is taken."""
    weights = {action: weight * 0.7 for action, weight in BACKGROUND.items()}
    if not without_images:
        weights.update(IMAGES)
    for action, weight in MOOD_WEIGHTS[mood].items():
        weights[action] = weights.get(action, 0) + weight
    return weights
