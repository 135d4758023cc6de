"""The machine that `aia replay` models, told a second time, by docs/REFERENCE.md and part I of
docs/DEFINITIONS.md, with the images of parked virtual harts (`save`, `load`).

    model.py < script > answers

It takes the word `replay` too, as the program does. Ends with status 0, and with 2 where a word is
wrong.
"""

from __future__ import annotations

import sys
from collections.abc import Callable
from typing import TYPE_CHECKING

from lemdwab.apart import reading
from lemdwab.apart.aplic import Aplic, field, register_at
from lemdwab.apart.interrupt_file import InterruptFile, requested
from lemdwab.apart.majors import HVICTL, HVIPRIO1, MAJORS, is_hvictl, is_injectable
from lemdwab.apart.moves import (ARRIVING, ENTERED, LEAVING, PARKED, RESIDENT, SHIFTING, Pass,
                                 VirtualHart, word_mask)
from lemdwab.apart.refusals import Refused, unless
from lemdwab.apart.words import fail, given

if TYPE_CHECKING:
    from lemdwab.apart.aplic import Domain

ROOT_DOMAIN, CHILD_DOMAIN, DOMAINS_END = 0x0c000000, 0x0c008000, 0x0c010000
MEMORY, MEMORY_END = 0x80000000, 0x8000c000
PATTERN = 0x28000
GREATEST = (63, 127, 255, 511, 1023, 2047)


class Vm:
    """A VM: its virtual harts, the mask of its MSI addresses, its stores in flight."""

    def __init__(self, mask: int, harts: list[VirtualHart]) -> None:
        self.mask = mask
        self.ones = [place for place in range(15) if mask >> place & 1]
        self.harts = harts
        # (virtual hart, place, offset, value), the oldest first
        self.flight: list[tuple[VirtualHart, tuple[int, int] | None, int, int]] = []

    def has_address(self, address: int) -> bool:
        return address >> 12 | self.mask == PATTERN | self.mask

    def file_number(self, address: int) -> int:
        """The bits of the page number at the ones of the mask, packed."""
        page = address >> 12
        return sum((page >> place & 1) << index for index, place in enumerate(self.ones))


class Machine:
    """The machine that stands, with one method for each form of line, which gives its answer or
    raises Refused."""

    def __init__(self, harts: int, guests: int, greatest: int, sources: int) -> None:
        self.harts, self.guests, self.greatest, self.sources = harts, guests, greatest, sources
        self.words = (greatest + 1) // 64
        self.machine_files = [InterruptFile(greatest) for _ in range(harts)]
        self.supervisor_files = [InterruptFile(greatest) for _ in range(harts)]
        self.aplic = Aplic(harts, sources)
        self.vms: list[Vm] = []
        self.virtual_harts: list[VirtualHart] = []  # of all VMs, by their slots
        self.passes: list[Pass] = []
        self.passed: dict[int, Pass] = {}  # by source

    # What lines name.

    def check_hart(self, hart: int) -> None:
        unless(hart < self.harts, "range")

    def vm_named(self, number: int) -> Vm:
        unless(number < len(self.vms), "range")
        return self.vms[number]

    def hart_named(self, vm: int, number: int) -> VirtualHart:
        """The virtual hart of a VM."""
        harts = self.vm_named(vm).harts
        unless(number < len(harts), "range")
        return harts[number]

    # Stores and notices.

    def spot(self, address: int) -> tuple[str, int, int]:
        """The file in whose page an address lies: its kind, its hart, its number."""
        page = address >> 12
        if 0x24000 <= page < 0x24000 + self.harts:
            return "machine", page - 0x24000, 0
        hart, number = divmod(page - PATTERN, 32)
        if 0 <= hart < self.harts and number <= self.guests:
            return ("guest" if number else "supervisor"), hart, number
        return "nowhere", 0, 0

    def notify(self, hart: VirtualHart) -> None:
        """The notice of a virtual hart: its number over all VMs, counted from 1."""
        self.supervisor_files[hart.notice_hart].ask(hart.slot + 1)

    def store_for(self, hart: VirtualHart, place: tuple[int, int] | None, offset: int,
                  value: int) -> None:
        """A store for a virtual hart that goes to a place: in its slot it sends a notice where the
        identity is enabled and watched."""
        identity = requested(self.greatest, offset, value)
        if identity:
            hart.file.ask(identity)
            if place is None and (hart.file.enabled & hart.watched) >> identity & 1:
                self.notify(hart)

    def deliver_msis(self) -> None:
        """All that the APLIC has ready is sent; an MSI of a passed source that reaches the notice
        hart is given on."""
        for address, value, source in self.aplic.take_msis():
            one = self.passed.get(source)
            kind, hart, _ = self.spot(address)
            if kind == "guest" and one:
                one.hart.file.ask(one.identity)
            elif kind == "machine":
                self.machine_files[hart].store(0, value)
            elif kind == "supervisor":
                self.supervisor_files[hart].store(0, value)
            if one and one.reach is None:
                self.relay(one)

    def relay(self, one: Pass) -> None:
        """The hypervisor takes the identity of a pass at its notice hart, and stores the pass's
        own in the slot."""
        self.supervisor_files[one.hart.notice_hart].pending &= ~(1 << 33 + one.number)
        self.store_for(one.hart, None, 0, one.identity)

    # Lines of devices and of the host.

    def vm(self, count: int, mask: int, notice_hart: int) -> str:
        ones = mask.bit_count()
        unless(1 <= ones <= 4 and mask < 1 << 15 and 1 <= count <= 1 << ones, "range")
        self.check_hart(notice_hart)
        first = len(self.virtual_harts)
        unless(len(self.vms) < 8 and count <= 16 and first + count <= 32, "full")
        harts = [VirtualHart(first + number, notice_hart, self.greatest) for number in range(count)]
        self.vms.append(Vm(mask, harts))
        self.virtual_harts += harts
        return "ok"

    def wire(self, source: int, level: int) -> str:
        unless(1 <= source <= self.sources, "range")
        self.aplic.drive(source, level)
        self.deliver_msis()
        return "ok"

    def domain_at(self, address: int) -> Domain | None:
        if ROOT_DOMAIN <= address < CHILD_DOMAIN:
            return self.aplic.root
        return self.aplic.child if CHILD_DOMAIN <= address < DOMAINS_END else None

    def place_at(self, address: int) -> tuple[Domain | None, InterruptFile | None]:
        """The domain or the file that the host reaches at an address."""
        unless(address % 4 == 0, "fault")
        domain = self.domain_at(address)
        kind, hart, _ = self.spot(address)
        is_memory = MEMORY <= address < MEMORY_END
        unless(domain or kind != "nowhere" or is_memory, "fault")
        unless(kind != "guest" and not is_memory, "guarded")
        if kind == "nowhere":
            return domain, None
        return None, (self.machine_files if kind == "machine" else self.supervisor_files)[hart]

    def redirects(self, domain: Domain, register: str, index: int, value: int) -> bool:
        """Whether a store might change where MSIs of passed sources go, or whether."""
        if not self.passes:
            return False
        if domain is self.aplic.root:
            return (register in ("mmsiaddrcfgh", "smsiaddrcfg", "smsiaddrcfgh")
                    or register == "sourcecfg" and index in self.passed)
        if register == "domaincfg":
            return bool(value >> 2 & 1) != domain.by_msi
        return register in ("sourcecfg", "target") and index in self.passed

    def ld(self, address: int) -> str:
        domain, _ = self.place_at(address)
        if not domain:
            return "0x00000000"
        return "0x%08x" % self.aplic.load(domain, *register_at(address & 0x7fff))

    def st(self, address: int, value: int) -> str:
        domain, file = self.place_at(address)
        if file:
            file.store(address & 0xfff, value)
        if not domain:
            return "ok"
        register, index = register_at(address & 0x7fff)
        unless(not self.redirects(domain, register, index, value), "guarded")
        self.aplic.store(domain, register, index, value)
        self.deliver_msis()
        return "ok"

    def device_target(self, vm: Vm, address: int) -> VirtualHart:
        """The virtual hart that a device's address names."""
        unless(address % 4 == 0, "fault")
        unless(vm.has_address(address), "other")
        number = vm.file_number(address)
        unless(number < len(vm.harts), "notvalid")
        return vm.harts[number]

    def msi(self, vm: int, address: int, value: int) -> str:
        hart = self.device_target(self.vm_named(vm), address)
        self.store_for(hart, hart.entry_in_force, address & 0xfff, value)
        return "ok"

    def send(self, vm: int, address: int, value: int) -> str:
        """Where it goes is settled as it is sent."""
        sender = self.vm_named(vm)
        unless(len(sender.flight) < 8, "full")
        hart = self.device_target(sender, address)
        sender.flight.append((hart, hart.entry_in_force, address & 0xfff, value))
        return "ok"

    def land(self, vm: int, number: int) -> str:
        flight = self.vm_named(vm).flight
        unless(number < len(flight), "range")
        self.store_for(*flight.pop(number))
        return "ok"

    def refetch(self, vm: int, number: int) -> str:
        hart = self.hart_named(vm, number)
        hart.entry_in_force = hart.entry
        return "ok"

    def pass_(self, source: int, vm: int, number: int, identity: int) -> str:
        unless(1 <= source <= self.sources, "range")
        hart = self.hart_named(vm, number)
        unless(1 <= identity <= self.greatest, "range")
        unless(len(self.passes) < 16, "full")
        unless(not hart.is_moving(), "busy")
        unless(source not in self.passed, "passed")
        unless(self.aplic.is_passable(source), "unready")
        one = Pass(len(self.passes), source, hart, identity)
        self.passes.append(one)
        self.passed[source] = one
        hart.passes.append(one)
        self.aplic.child.targets[source] = one.target()
        return "ok"

    def m(self, hart: int, csr: str, operation: str, operand: int) -> str:
        self.check_hart(hart)
        return wide(self.machine_files[hart].access(csr, operation, operand, "illegal"))

    def h(self, hart: int, csr: str, operation: str, operand: int) -> str:
        self.check_hart(hart)
        return wide(self.supervisor_files[hart].access(csr, operation, operand, "illegal"))

    def hgeip(self, hart: int) -> str:
        self.check_hart(hart)
        signals = 0
        for one in self.virtual_harts:
            place = one.is_heard_at()
            if place and place[0] == hart and one.file.signals():
                signals |= 1 << place[1]
        return wide(signals)

    def pins(self, hart: int) -> str:
        self.check_hart(hart)
        return "pins %d %d %d %d" % (
            self.aplic.root.signals(hart), self.aplic.child.signals(hart),
            self.machine_files[hart].signals(), self.supervisor_files[hart].signals())

    def entry(self, word0: int, word1: int) -> str:
        """What the two words of an entry of an MSI page table say."""
        if not word0 & 1:
            return "notvalid"
        if word0 >> 63:
            return "custom"
        mode, reserved = field(word0, 2, 1), field(word0, 62, 54)
        if mode == 3 and not reserved and not field(word0, 9, 3):
            return "basic 0x%016x" % field(word0, 53, 10)
        if (mode == 1 and not reserved and not field(word0, 6, 3)
                and not field(word1, 59, 54) and not field(word1, 63, 61)):
            identity = field(word1, 9, 0) | field(word1, 60, 60) << 10
            return "mrif 0x%016x 0x%016x %d" % (field(word0, 53, 7) << 9, field(word1, 53, 10),
                                                identity)
        return "misconfigured"

    # Lines of virtual harts.

    def g(self, vm: int, number: int, csr: str, operation: str, operand: int) -> str:
        hart = self.hart_named(vm, number)
        is_files = csr in ("select", "reg", "topei")
        unless(hart.home == RESIDENT or hart.home == ENTERED and is_files, "away")
        if is_files:
            return wide(hart.file.access(csr, operation, operand, "virtual"))
        file, majors = hart.file, hart.majors
        if csr == "topi":
            unless(operation == "read", "illegal")
            return wide(majors.stopi(file.top(), file.signals()))
        unless(not majors.is_virtual(), "virtual")
        if csr == "sip":
            return wide(majors.access_sip(file.signals(), operation, operand))
        return wide(majors.access_sie(operation, operand))

    def ipi(self, vm: int, number: int, peer: int, value: int) -> str:
        hart = self.hart_named(vm, number)
        unless(hart.home in (RESIDENT, ENTERED), "away")
        unless(peer < len(self.vms[vm].harts), "gfault")
        to = self.vms[vm].harts[peer]
        self.store_for(to, to.stage_in_force, 0, value)
        return "ok"

    def enter(self, vm: int, number: int) -> str:
        self.parked_hart(vm, number).home = ENTERED
        return "ok"

    def exit(self, vm: int, number: int) -> str:
        hart = self.hart_named(vm, number)
        unless(hart.home == ENTERED, "idle")
        hart.home = PARKED
        if hart.is_live():
            self.notify(hart)
        return "ok"

    def inject(self, vm: int, number: int, bit: int, level: int) -> str:
        hart = self.hart_named(vm, number)
        unless(is_injectable(bit), "range")
        hart.majors.inject(bit, level)
        return "ok"

    def hvictl(self, vm: int, number: int, value: int) -> str:
        hart = self.hart_named(vm, number)
        unless(is_hvictl(value), "range")
        hart.majors.hvictl = value & HVICTL
        return "ok"

    def hviprio(self, vm: int, number: int, value: int) -> str:
        self.hart_named(vm, number).majors.hviprio1 = value & HVIPRIO1
        return "ok"

    # Moves.

    def parked_hart(self, vm: int, number: int, hart_wanted: int = 0) -> VirtualHart:
        """The virtual hart of a line that wants one parked."""
        hart = self.hart_named(vm, number)
        self.check_hart(hart_wanted)
        unless(not hart.is_moving(), "busy")
        unless(hart.home != RESIDENT, "home")
        unless(hart.home != ENTERED, "entered")
        return hart

    def resident_hart(self, vm: int, number: int, hart_wanted: int = 0) -> VirtualHart:
        """The virtual hart of a line that wants one in a guest file."""
        hart = self.hart_named(vm, number)
        self.check_hart(hart_wanted)
        unless(not hart.is_moving(), "busy")
        unless(hart.home == RESIDENT, "parked")
        return hart

    def free_file(self, hart: int) -> tuple[int, int]:
        """The least guest file of a hart that no virtual hart holds; a move has its files until
        its last step is done."""
        held = {place for one in self.virtual_harts for place in (one.origin, one.goal)}
        for number in range(1, self.guests + 1):
            if (hart, number) not in held:
                return hart, number
        raise Refused("nofile")

    def begin_arrive(self, vm: int, number: int, hart_wanted: int) -> str:
        self.parked_hart(vm, number, hart_wanted).begin(ARRIVING, self.free_file(hart_wanted))
        return "ok"

    def begin_leave(self, vm: int, number: int) -> str:
        self.resident_hart(vm, number).begin(LEAVING, None)
        return "ok"

    def begin_shift(self, vm: int, number: int, hart_wanted: int) -> str:
        self.resident_hart(vm, number, hart_wanted).begin(SHIFTING, self.free_file(hart_wanted))
        return "ok"

    def arrive(self, vm: int, number: int, hart_wanted: int) -> str:
        return self.whole(vm, number, self.begin_arrive(vm, number, hart_wanted))

    def leave(self, vm: int, number: int) -> str:
        return self.whole(vm, number, self.begin_leave(vm, number))

    def shift(self, vm: int, number: int, hart_wanted: int) -> str:
        return self.whole(vm, number, self.begin_shift(vm, number, hart_wanted))

    def whole(self, vm: int, number: int, answer: str) -> str:
        """All steps of a move that has begun."""
        while self.step(vm, number) != "done":
            pass
        return answer

    def step(self, vm: int, number: int) -> str:
        """The next step of a move: one that aims a passed source, or the next access."""
        hart = self.hart_named(vm, number)
        unless(hart.is_moving(), "idle")
        aim = hart.next_aim()
        if aim:
            hart.aims += 1
            aim.reach = hart.goal
            self.aplic.child.targets[aim.source] = aim.target()
            return "moving"
        access, _ = hart.next_access()
        if access == "Fence":
            flight = self.vms[vm].flight
            while flight:
                self.store_for(*flight.pop(0))
        if access == "Post" and hart.look_saw:
            self.notify(hart)
        if not hart.make_access():
            return "moving"
        hart.end()
        return "done"

    # Images of parked virtual harts.

    def save(self, vm: int, number: int, part: int) -> str:
        hart = self.hart_named(vm, number)
        unless(part <= self.words + 2, "range")
        self.parked_hart(vm, number)
        file, majors = hart.file, hart.majors
        if part == 0:
            return "image 1 %d %d %d 0x%016x" % (
                self.greatest, file.delivery, file.threshold, file.select)
        if part == 1:
            return "majors 0x%016x 0x%016x" % (majors.injected, majors.enabled)
        if part == 2:
            return "prio 0x%016x 0x%016x" % (majors.hviprio1, majors.hvictl)
        return "word %d 0x%016x 0x%016x" % (part - 3, *file.word(part - 3))

    def load_image(self, vm: int, number: int, version: int, greatest: int, delivery: int,
                   threshold: int, select: int) -> str:
        unless(version == 1 and greatest == self.greatest, "range")
        unless(threshold <= self.greatest and select <= 0xfff, "range")
        file = self.parked_hart(vm, number).file
        file.delivery, file.threshold, file.select = delivery, threshold, select
        return "ok"

    def load_majors(self, vm: int, number: int, injected: int, enabled: int) -> str:
        unless((injected | enabled) & ~MAJORS == 0, "range")
        majors = self.parked_hart(vm, number).majors
        majors.injected, majors.enabled = injected, enabled
        return "ok"

    def load_prio(self, vm: int, number: int, hviprio1: int, hvictl: int) -> str:
        unless(hviprio1 & ~HVIPRIO1 == 0 and hvictl & ~HVICTL == 0 and is_hvictl(hvictl), "range")
        majors = self.parked_hart(vm, number).majors
        majors.hviprio1, majors.hvictl = hviprio1, hvictl
        return "ok"

    def load_word(self, vm: int, number: int, word: int, pending: int, enabled: int) -> str:
        """Pending bits are added, enables replaced; a notice is sent where an identity of the word
        is then pending and enabled."""
        unless(word < self.words and (word or not (pending | enabled) & 1), "range")
        hart = self.parked_hart(vm, number)
        hart.file.pending |= pending << 64 * word
        hart.file.enabled = hart.file.enabled & ~word_mask(word) | enabled << 64 * word
        if hart.is_live(word_mask(word)):
            self.notify(hart)
        return "ok"


def wide(value: int) -> str:
    """What a CSR reads."""
    return "0x%016x" % value


def is_machine_size(harts: int, guests: int, greatest: int, sources: int) -> bool:
    return 1 <= harts <= 4 and guests <= 31 and greatest in GREATEST and 1 <= sources <= 1023


class Script:
    """The lines of a script, answered one after the other."""

    def __init__(self) -> None:
        self.machine: Machine | None = None

    def answer(self, text: bytes) -> str | None:
        """The answer of a text, None where it is skipped."""
        line = reading.read(text)
        if line is None or line is reading.BAD:
            return line and "bad"
        name, fields = line
        if name == "machine":
            return self.make(*fields)
        if self.machine is None:
            return "nomachine"
        try:
            return METHODS[name](self.machine, *fields)
        except Refused as refused:
            return refused.word

    def make(self, *sizes: int) -> str:
        """A `machine` line."""
        if self.machine:
            return "again"
        if not is_machine_size(*sizes):
            return "range"
        self.machine = Machine(*sizes)
        return "ok"


NAMES = [name for name, _ in reading.BY_KEYWORDS.values() if name != "machine"]
NAMES += ["m", "h", "hgeip", "g", "ipi", *("load_" + part.decode() for part in reading.PARTS)]
METHODS: dict[str, Callable[..., str]] = {
    name: getattr(Machine, "pass_" if name == "pass" else name) for name in NAMES}


def answers(script: bytes) -> bytes:
    """What is printed for the bytes of a script."""
    one = Script()
    found = [answer for answer in map(one.answer, reading.texts(script)) if answer is not None]
    return "".join(answer + "\n" for answer in found).encode()


def replay() -> None:
    """Answers each line of standard input before it reads the next one, as lockstep needs."""
    one = Script()
    for line in sys.stdin.buffer:
        answer = one.answer(line.removesuffix(b"\n"))
        if answer is not None:
            sys.stdout.buffer.write(answer.encode() + b"\n")
            sys.stdout.buffer.flush()


def main() -> int:
    """Answers the script of standard input."""
    # The word of the program that it stands in for may follow.
    for wrong in given(__doc__, lambda words: True):
        if wrong != "replay":
            fail(f"it reads standard input, as model.py < SCRIPT, and takes no word {wrong!r}")
    replay()
    return 0
