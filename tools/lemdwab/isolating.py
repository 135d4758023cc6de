"""Scripts of which suite/isolation holds lines against one another: what each is said to a virtual
hart, or concerns a VM, and what else happens beside it.

They are drawn with the model written apart beside them, which takes each line as it is drawn: it
says where each virtual hart is, how long its moves are and which guest files are free.
"""

import random
from collections.abc import Iterator
from typing import NamedTuple

from lemdwab.answers import form
from lemdwab.apart import model, reading
from lemdwab.apart.interrupt_file import swapped
from lemdwab.apart.moves import ENTERED, PARKED, RESIDENT, VirtualHart
from lemdwab.apart.refusals import Refused
from lemdwab.running import sure

# Which lines concern whom, by their forms: all; the machine level alone; the VM that they name; and
# in a script that passes sources those of wires, of accesses to the APLIC and of passes too.
OF_ALL = {"machine", "vm", "arrive", "leave", "shift", "begin", "step", "enter", "exit"}
OF_MACHINE = {"machine", "wire", "ld", "st", "m"}
OF_A_VM = {"msi", "send", "land", "refetch", "save", "load", "g", "inject", "hvictl", "hviprio"}
OF_SOURCES = {"pass", "wire"}
OF_NONE = {"h", "pins", "entry"}
OF_APLIC = range(0x0c000000, 0x0c010000)
MACHINE_LEVEL = -1
VMS = 8

BITS, WIDTHS = (1, 5, 9, 13), (63, 127, 255)
SELECTS = (112, 114, 128, 130, 192, 194, 255, 113, 48)
OPERATIONS = ("csrr", "csrrw", "csrrs", "csrrc")
REGISTERS = ("siselect", "sireg", "stopei", "stopi", "sip", "sie")
# Values of hvictl that are accepted: VTI, IID, DPR, IPRIOM and IPRIO, each at some place.
CONTROLS = (0, 256, 1073807621, 1074332421, 512, 1073938688, 1073742080, 511)
# A script says so much to its virtual hart; that is how many virtual harts a machine has.
SAID, ROOM = 60, 32


class Name(NamedTuple):
    """A virtual hart, by its VM and its number there."""

    vm: int
    number: int

    def __str__(self) -> str:
        return f"{self.vm} {self.number}"


class Said(NamedTuple):
    """What is said to the virtual hart in both scripts of a pair: a form of line, or `did`, an
    instruction of its own, or `ask`, an identity that it is asked for; and the rest of the line."""

    kind: str
    rest: str


# ---- which lines concern whom

def first_number(line: str) -> int | None:
    """Gives the number that the second word of a line spells; None where it spells none."""
    words = line.encode(errors="surrogateescape").split(b" ")
    return reading.number(words[1]) if len(words) > 1 else None


def of_the_aplic(line: str) -> bool:
    """Says whether a load or a store is one of the APLIC."""
    return first_number(line) in OF_APLIC


def names(line: str, vm: int) -> bool:
    """Says whether a line is of a VM alone."""
    return form(line) in OF_A_VM and first_number(line) == vm


def concerns(line: str, vm: int) -> bool:
    """Says whether a line of a script that passes no source concerns a VM, or the machine level."""
    if vm == MACHINE_LEVEL:
        return form(line) in OF_MACHINE
    return form(line) in OF_ALL or names(line, vm)


def concerns_by_sources(line: str, vm: int) -> bool:
    """Says the same of a script that passes sources."""
    if form(line) in OF_ALL | OF_SOURCES:
        return True
    if vm == MACHINE_LEVEL:
        return form(line) in OF_MACHINE
    return names(line, vm) or form(line) in ("ld", "st") and of_the_aplic(line)


# ---- leaks that are planted before the program

def others(keyword: str, words: list[str]) -> Iterator[str]:
    """The same line of all other VMs."""
    for vm in range(VMS):
        if str(vm) != words[1]:
            yield " ".join([keyword, str(vm), *words[2:]])


def everybody(keyword: str, rest: str) -> Iterator[str]:
    """A line of all virtual harts that there may be."""
    for vm in range(VMS):
        for number in range(2 * VMS):
            yield f"{keyword} {vm} {number} {rest}"


def leaks_before(leak: int, line: str) -> Iterator[str]:
    """What a leak puts before a line: a leave, or the end of running from memory, claims what is on
    top."""
    if (leak, form(line)) in ((5, "leave"), (11, "exit")):
        vm, number = line.split(" ")[1:3]
        yield f"g {vm} {number} csrrw stopei 0"


def leaks_after(leak: int, line: str) -> Iterator[str]:
    """What it puts after a line: what devices, the hypervisor or a virtual hart do at one VM is
    done at others too (1 to 4, 10), an arrival enables the timer (6), a claim of the host is one of
    all virtual harts (7), a wire that rises injects a timer (8), and a step an overflow of a
    counter (9)."""
    words = line.split(" ")
    first = words[0]
    if (leak, first) in ((1, "msi"), (2, "inject"), (3, "hviprio"), (4, "hvictl")):
        yield from others(first, words)
    elif (leak, first) == (6, "arrive"):
        yield f"g {words[1]} {words[2]} csrrs sie 0x20"
    elif (leak, first) == (7, "h") and words[3:4] == ["stopei"]:
        yield from everybody("g", "csrrw stopei 0")
    elif (leak, first) == (8, "wire") and words[2] == "1":
        yield from everybody("inject", "5 1")
    elif (leak, first) == (9, "step"):
        yield f"inject {words[1]} {words[2]} 13 1"
    elif (leak, first) == (10, "g") and words[4:5] == ["sie"] and len(words) == 6:
        yield from others(first, words)


LEAKS = 11


def leaking(leak: int, lines: list[str]) -> Iterator[tuple[str, bool]]:
    """Lists the lines of a script with those of a leak between them, and says of each whether it is
    the script's own."""
    for line in lines:
        yield from ((more, False) for more in leaks_before(leak, line))
        yield line, True
        yield from ((more, False) for more in leaks_after(leak, line))


# ---- a script as it is drawn

class Drawn:
    """A script by chance, and the model written apart, which has taken its lines."""

    def __init__(self, chance: random.Random, greatest: int) -> None:
        self.chance, self.greatest = chance, greatest
        self.lines: list[str] = []
        self.answers: list[str] = []
        self.twin = model.Script()
        self.harts = self.files = 0

    def below(self, limit: int) -> int:
        """A number from 0 on, below a limit."""
        return self.chance.randrange(limit)

    def put(self, line: str) -> None:
        """Puts a line."""
        self.lines.append(line)
        self.answers.append(self.twin.answer(line.encode()) or "")

    @property
    def machine(self) -> model.Machine:
        """The machine that stands."""
        return sure(self.twin.machine)

    def hart(self, who: Name) -> VirtualHart:
        """A virtual hart, as the model has it."""
        return self.machine.vms[who.vm].harts[who.number]

    def everyone(self) -> list[Name]:
        """Names all virtual harts."""
        return [Name(at, number) for at, vm in enumerate(self.machine.vms)
                for number in range(len(vm.harts))]

    def anyone(self) -> Name:
        """Names one of them."""
        return self.chance.choice(self.everyone())

    # -- the machine and its VMs

    def begin(self) -> None:
        """Makes a machine, and VMs."""
        self.harts = 1 + self.below(4)
        self.files = 3 + self.below(29 if self.below(2) else 5)
        self.put(f"machine {self.harts} {self.files} {self.greatest} {1 + self.below(1023)}")
        for _ in range(1 + self.below(VMS)):
            self.add_vm()

    def add_vm(self) -> None:
        """Makes a VM that leaves room for a virtual hart of each that may be after it; or, where as
        many stand as there may be, one that is refused."""
        ones, vms = 1 + self.below(4), len(self.machine.vms)
        room = ROOM - VMS + 1 + vms - len(self.machine.virtual_harts)
        count = 1 + self.below(1 << ones)
        mask = sum(1 << place for place in self.chance.sample(range(15), ones))
        self.put(f"vm {count if vms == VMS else min(count, room)} {mask} {self.below(self.harts)}")

    def address(self, who: Name, offset: int = 0) -> int:
        """The address of a store for a virtual hart's file: the bits of its number stand where the
        mask of its VM has ones."""
        ones = self.machine.vms[who.vm].ones
        page = model.PATTERN + sum((who.number >> at & 1) << one for at, one in enumerate(ones))
        return page << 12 | offset

    # -- where virtual harts are

    def step(self, who: Name) -> None:
        """Makes a step of a move, or all that are left of it."""
        self.put(f"step {who}")

    def finish(self, who: Name) -> None:
        """Makes all steps that are left of a move."""
        while self.hart(who).is_moving():
            self.step(who)

    def run(self, who: Name) -> None:
        """Has a parked virtual hart run from memory, and one that does cease to."""
        self.put(f"{'exit' if self.hart(who).home == ENTERED else 'enter'} {who}")

    def has_room(self, hart: int) -> bool:
        """Says whether a guest file of a hart is free."""
        try:
            self.machine.free_file(hart)
        except Refused:
            return False
        return True

    def move(self, who: Name, is_whole: bool) -> None:
        """Goes on with where a virtual hart is: a step, a move where there is room, or running."""
        home = self.hart(who).home
        if self.hart(who).is_moving():
            self.step(who)
        elif home == ENTERED or home == PARKED and self.below(3) == 0:
            self.run(who)
        else:
            kind = "arrive" if home == PARKED else "leave" if self.below(2) else "shift"
            free = [hart for hart in range(self.harts) if self.has_room(hart)]
            if kind == "leave" or free:
                where = "" if kind == "leave" else f" {self.chance.choice(free)}"
                self.put(f"{'' if is_whole else 'begin '}{kind} {who}{where}")

    def settle(self, who: Name, may_be_entered: bool = False) -> None:
        """Has a virtual hart run, whatever it is doing: from memory where that may be, else in a
        guest file; others leave where there is no room."""
        self.finish(who)
        if may_be_entered and self.hart(who).home == PARKED and self.below(2):
            self.run(who)
        if may_be_entered and self.hart(who).home == ENTERED:
            return
        while self.hart(who).home != RESIDENT:
            self.move(who, bool(self.below(2)))
            self.finish(who)
            if self.hart(who).home == PARKED:
                self.make_room(who)

    def make_room(self, who: Name) -> None:
        """Has one of the others that holds a guest file leave it, if there is one."""
        holding = [other for other in self.everyone() if other != who
                   and (self.hart(other).is_moving() or self.hart(other).home == RESIDENT)]
        if holding:
            other = self.chance.choice(holding)
            self.finish(other)
            if self.hart(other).home == RESIDENT:
                self.put(f"leave {other}")

    # -- words of lines

    def word(self) -> str:
        """A number of 64 bits: a small one, or digits of which one of three is not 0."""
        if self.below(2):
            return str(self.below(65536))
        digits = [self.chance.choice("0123456789abcdef") if self.below(3) == 0 else "0"
                  for _ in range(16)]
        return "0x" + "".join(digits)

    def instruction(self) -> str:
        """An instruction of a guest on one of its CSRs."""
        operation, register = self.chance.choice(OPERATIONS), self.chance.choice(REGISTERS)
        if operation == "csrr":
            looked = ("stopei", "stopi")[self.below(2)]
            return f"csrr {looked if self.below(2) else register}"
        value = str(self.chance.choice(SELECTS)) if register == "siselect" else self.word()
        return f"{operation} {register} {value}"

    def injected(self) -> str:
        """The bit of a major, and its level."""
        return f"{self.chance.choice(BITS)} {self.below(2)}"

    def part(self) -> str:
        """A part of an image: its majors, or a word of its sets."""
        if self.below(3):
            return f"word {self.below(2)} {2 * self.below(65536)} {self.word()}"
        return "majors 0x202 0x2222"

    # -- lines beside what is said to a virtual hart

    def fly(self, who: Name) -> None:
        """A store in flight of a device, which lands at some time; or the VM's entry is read."""
        self.put(self.chance.choice((
            f"send {who.vm} {self.address(who)} {self.below(self.greatest)}",
            f"land {who.vm} {self.below(3)}", f"refetch {who}")))

    def of_host(self) -> str:
        """A line of the host, a device, a wire, or of no sense."""
        hart = self.below(self.harts)
        source = 0x0c000000 + 4 * self.below(9000)
        still = [one for one in self.everyone() if not self.hart(one).is_moving()]
        idle = self.chance.choice(still) if still else "9 9"
        return self.chance.choice((
            f"h {hart} csrrw siselect {self.chance.choice(SELECTS)}",
            f"h {hart} csrrw {self.chance.choice(('sireg', 'stopei'))} {self.word()}",
            f"m {hart} csrrw {self.chance.choice(('mireg', 'miselect'))} {self.word()}",
            f"st {0x28000000 + 0x20000 * hart + 4 * self.below(2)} {self.below(65536)}",
            f"wire {1 + self.below(9)} {self.below(2)}", f"st {source} {self.below(65536)}",
            f"pins {hart}" if self.below(2) else f"h {hart} hgeip",
            f"step {idle}" if self.below(2) else "of no sense"))

    def of_other(self, other: Name, who: Name) -> None:
        """A line of another virtual hart."""
        kind = self.below(6)
        if kind == 0 and other.vm != who.vm and self.below(2):
            self.fly(other)
            return
        self.put((f"msi {other.vm} {self.address(other)} {self.below(self.greatest)}",
                  f"inject {other} {self.injected()}", f"hviprio {other} {self.word()}",
                  f"hvictl {other} {self.chance.choice(CONTROLS)}",
                  f"save {other} {self.below(6)}" if self.below(2) else
                  f"load {other} {self.part()}", f"g {other} {self.instruction()}")[kind])

    def beside(self, who: Name) -> None:
        """A line beside what is said to a virtual hart: anybody moves, the host or another one does
        something."""
        other, kind = self.anyone(), self.below(20)
        if kind < 6:
            self.move(other if self.below(3) else who, bool(self.below(2)))
        elif kind < 14:
            self.put(self.of_host())
        elif kind == 14:
            self.add_vm()
        elif other == who:
            load = f"ld {0x0c000000 + 4 * self.below(9000)}"
            self.put(f"refetch {who}" if self.below(2) else load)
        else:
            self.of_other(other, who)

    # -- what is said to it

    def draw_said(self, count: int) -> list[Said]:
        """Draws what is said to a virtual hart; first it enables what it has."""
        said = [Said("did", rest) for rest in (
            "csrrw siselect 192", "csrrw sireg 0xfffffffffffffffe", "csrrw siselect 112",
            "csrrw sireg 1", "csrrw sie 0x2222")]
        while len(said) < count:
            kind = self.below(10)
            said.append(Said("ask", str(self.below(self.greatest + 4))) if kind < 3 else
                        Said("inject", self.injected()) if kind == 3 else
                        Said("hviprio", self.word()) if kind == 4 else
                        Said("hvictl", str(self.chance.choice(CONTROLS))) if kind == 5 else
                        Said("did", self.instruction()))
        return said[:count]

    def ask_in_flight(self, who: Name, identity: int) -> None:
        """A device asks for something by a store that is in flight for a while, the only one of its
        VM, and lands by a line or before the fence of a leave."""
        self.put(f"send {who.vm} {self.address(who)} {identity}")
        for _ in range(self.below(3)):
            hart = self.below(self.harts)
            self.put(f"refetch {who}" if self.below(2) else f"h {hart} hgeip")
        is_still = self.hart(who).home == RESIDENT
        self.put(f"leave {who}" if is_still and self.below(2) else f"land {who.vm} 0")

    def ask(self, who: Name, identity: int) -> None:
        """Asks for an identity: by a peer, a store in flight, or one in either byte order. One that
        no file has is nothing, so in one script it may be missing."""
        if not 0 < identity <= self.greatest and self.below(2):
            return
        if self.below(3) == 0:
            peer = Name(who.vm, self.below(len(self.machine.vms[who.vm].harts)))
            self.settle(peer, True)
            self.put(f"g {peer} ipi {who.number} {identity}")
        elif self.below(3) == 0:
            self.ask_in_flight(who, identity)
        elif self.below(2):
            self.put(f"msi {who.vm} {self.address(who, 4)} {swapped(identity)}")
        else:
            self.put(f"msi {who.vm} {self.address(who)} {identity}")

    def say(self, who: Name, said: Said) -> None:
        """Says it, by the way that this script takes."""
        if said.kind == "did":
            register = said.rest.split(" ")[1]
            self.settle(who, register in ("siselect", "sireg", "stopei"))
            self.put(f"g {who} {said.rest}")
        elif said.kind == "ask":
            self.ask(who, int(said.rest))
        else:
            self.put(f"{said.kind} {who} {said.rest}")


def rendered(seed: str, greatest: int, said: list[Said]) -> tuple[Drawn, Name]:
    """Gives a script in which this is said to a virtual hart, and which that is."""
    drawn = Drawn(random.Random(seed), greatest)
    drawn.begin()
    who = drawn.anyone()
    for one in said:
        for _ in range(drawn.below(6)):
            drawn.beside(who)
        drawn.say(who, one)
    return drawn, who


def pair(seed: int) -> tuple[tuple[Drawn, Name], tuple[Drawn, Name]]:
    """Gives two scripts that say the same to one virtual hart, and differ in all else: the
    machine's size but for its identities, the VMs, who asks and how, the host's and other guests'
    lines, and the moves of all virtual harts, whole and by steps."""
    chance = random.Random(f"pair {seed}")
    greatest = chance.choice(WIDTHS)
    said = Drawn(chance, greatest).draw_said(SAID)
    return (rendered(f"first {seed}", greatest, said), rendered(f"second {seed}", greatest, said))


def of_all_forms(seed: int, count: int) -> Drawn:
    """Gives a script of some lines of all forms, and those that make its machine and VMs."""
    chance = random.Random(f"one {seed}")
    drawn = Drawn(chance, chance.choice(WIDTHS))
    drawn.begin()
    while len(drawn.machine.vms) < VMS:
        drawn.add_vm()
    for who in drawn.everyone():
        drawn.settle(who)
        for one in drawn.draw_said(5):
            drawn.put(f"g {who} {one.rest}")
    for _ in range(count):
        who = drawn.anyone()
        vm = drawn.machine.vms[who.vm]
        if drawn.below(3):
            drawn.beside(who)
        elif drawn.below(4) == 0:
            peer = drawn.below(len(vm.harts) + 1)
            drawn.put(f"g {who} ipi {peer} {drawn.below(drawn.greatest)}")
        elif drawn.below(4) == 0:
            drawn.put(f"msi {who.vm} {drawn.address(who)} {drawn.below(drawn.greatest)}")
        elif drawn.below(4) == 0:
            drawn.fly(who)
        else:
            drawn.put(f"g {who} {drawn.instruction()}")
    return drawn
