#!/usr/bin/env python3
"""traces.py LOG > TRACE: what QEMU logged of a run of the kernel that tells its accesses, as a
trace of one line for each access, in their order. Ends with status 2 where LOG can't be read.

A trace has these lines; H is a hart, or `-` where no hart did it, V and numbers are hexadecimal:

    r H A V       a load from an address of an interrupt file or of the APLIC, and what was read
    w H A V       a store
    i L           the level of the wire of the disk without PCI
    t H           hart H takes a supervisor external interrupt
    k H C O W V   the kernel does the operation O on CSR C: what is written, what was read
    g H N C O W V likewise of a guest, N its number: VM and virtual hart
    n H K N V     KVM notes of virtual hart N what kernel/edit.py has for the kind K
    p K           the workload K begins
    v K H         K VMs of H virtual harts each are made

Behind an access by `k` or `g` stands `@S` where others came between the store that tells that it
begins and the one behind it: `e S` is the line of the latter. It took effect somewhere between.
"""

import re
import sys
from typing import NamedTuple

ACCESS = re.compile(r"memory_region_ops_(read|write) cpu (-?\d+) mr \S+ addr 0x([0-9a-f]+) value "
                    r"0x([0-9a-f]+) size (\d)")
WIRE = re.compile(r"virtio_mmio_setting_irq .*?(\d+)$")
TRAP = re.compile(r"riscv_trap hart:(\d+), async:1, cause:0*9,")
TEST, TEST_END = 0x100000, 0x101000
KERNEL_PLACES, GUEST_PLACES, VM_PLACES = 0x100, 0x40, 0x200
# What is stored where, of the kernel and of each guest.
BEGIN, END, READ, READ_HIGH, WRITTEN, WRITTEN_HIGH = 0x10, 0x14, 0x18, 0x1c, 0x20, 0x24
NOTE, ONE, OTHER, WORKLOAD, VMS = 0x30, 0x34, 0x38, 0xf00, 0xf04
OPERATIONS = ("csrr", "csrrw", "csrw", "csrrs", "csrs", "csrrc", "csrc")
REGIONS = ((0xc000000, 0xc008000), (0xd000000, 0xd008000), (0x24000000, 0x2c000000))
CONTROL = set("iptve")


class Csr:
    """An access to a CSR."""

    def __init__(self, hart, guest, csr, operation):
        self.hart, self.guest, self.csr, self.operation = hart, guest, csr, operation
        self.written = self.read = 0
        self.begin = self.end = None

    def answers(self):
        """Whether it says what was read."""
        return self.operation in ("csrr", "csrrw", "csrrs", "csrrc")

    def text(self):
        who = f"k {self.hart}" if self.guest is None else f"g {self.hart} {self.guest:x}"
        return f"{who} {self.csr:x} {self.operation} {self.written:x} {self.read:x}"


class Event(NamedTuple):
    """A line of a trace: its letter, the hart, and numbers or an access to a CSR."""

    kind: str
    hart: int
    one: object = 0
    other: int = 0
    third: int = 0


class Log:
    """The lines of QEMU's log, read one after the other."""

    def __init__(self):
        self.found = []  # texts, and accesses to CSRs that are not over
        self.open = {}
        self.notes = {}
        self.lost = 0

    def line(self, text):
        match = ACCESS.search(text)
        if match:
            hart, address, value = int(match[2]), int(match[3], 16), int(match[4], 16)
            if TEST <= address < TEST_END:
                if match[1] == "write":
                    self.told(hart, address - TEST, value)
            elif any(first <= address < end for first, end in REGIONS):
                size = "" if match[5] == "4" else f" {match[5]}"
                who = "-" if hart < 0 else hart
                self.found.append(f"{match[1][0]} {who} {address:x} {value:x}{size}")
            return
        match = WIRE.search(text)
        if match:
            self.found.append(f"i {match[1]}")
            return
        match = TRAP.search(text)
        if match:
            self.found.append(f"t {match[1]}")

    def told(self, hart, place, value):
        """A store to the page of the test device."""
        if place == WORKLOAD:
            self.found.append(f"p {value:x}")
        elif place == VMS:
            self.found.append(f"v {value >> 8:x} {value & 0xff:x}")
        elif place < KERNEL_PLACES:
            self.of(hart, None, ("k", hart), place, value)
        else:
            place -= KERNEL_PLACES
            guest = place // VM_PLACES << 4 | place % VM_PLACES // GUEST_PLACES
            self.of(hart, guest, ("g", guest), place % GUEST_PLACES, value)

    def of(self, hart, guest, key, place, value):
        if place == BEGIN:
            self.lost += key in self.open
            one = self.open[key] = Csr(hart, guest, value & 0xfff, OPERATIONS[value >> 12 & 7])
            one.begin = len(self.found)
            self.found.append(one)
        elif place in (ONE, OTHER):
            self.notes[hart, place] = value
        elif place == NOTE and guest is None:
            self.found.append(f"n {hart} {value:x} {self.notes.get((hart, ONE), 0):x}"
                              f" {self.notes.get((hart, OTHER), 0):x}")
        elif key in self.open:
            one = self.open[key]
            if one.end is None:
                one.end = len(self.found)
                self.found.append(one)
            if place == READ:
                one.read |= value
            elif place == READ_HIGH:
                one.read |= value << 32
            elif place == WRITTEN:
                one.written |= value
            elif place == WRITTEN_HIGH:
                one.written |= value << 32
            elif place == END:
                del self.open[key]

    def texts(self):
        """The lines of the trace."""
        for one in self.open.values():
            one.begin = None  # it is not known what came of it
            self.lost += 1
        wide = {}
        for at, one in enumerate(self.found):
            if isinstance(one, str):
                yield one
            elif one.begin is not None and at == one.begin:
                if one.end == at + 1:
                    yield one.text()
                else:
                    wide[id(one)] = len(wide)
                    yield f"{one.text()} @{wide[id(one)]:x}"
            elif id(one) in wide:
                yield f"e {wide[id(one)]:x}"


def read(lines):
    """The events of a trace, and for each access that is wide the place where it ends."""
    events, ends, begun = [], {}, {}
    for text in lines:
        words = text.split()
        if not words or words[0].startswith("#"):
            continue
        kind = words[0]
        if kind in ("k", "g"):
            wide = words.pop() if words[-1].startswith("@") else None
            hart, *rest = words[1:]
            guest = int(rest.pop(0), 16) if kind == "g" else None
            one = Csr(int(hart), guest, int(rest[0], 16), rest[1])
            one.written, one.read = int(rest[2], 16), int(rest[3], 16)
            if wide:
                begun[wide[1:]] = len(events)
            events.append(Event(kind, one.hart, one))
        elif kind == "e":
            ends[begun.pop(words[1])] = len(events)
        elif kind in CONTROL:
            events.append(Event(kind, -1, *(int(word, 16) for word in words[1:])))
        else:
            hart = -1 if words[1] == "-" else int(words[1])
            events.append(Event(kind, hart, *(int(word, 16) for word in words[2:])))
    return events, ends


def main():
    words = sys.argv[1:]
    if words[:1] in (["-h"], ["--help"]):
        print(__doc__.strip())
        return 0
    if len(words) != 1:
        print("traces.py: one LOG is wanted\ntraces.py -h says more", file=sys.stderr)
        return 2
    log = Log()
    try:
        with open(words[0], errors="replace", encoding="ascii") as lines:
            for line in lines:
                log.line(line)
    except OSError as wrong:
        print(f"traces.py: {wrong}", file=sys.stderr)
        return 2
    for text in log.texts():
        print(text)
    if log.lost:
        print(f"traces.py: {log.lost} accesses begin and do not end", file=sys.stderr)
    return 0


if __name__ == "__main__":
    sys.exit(main())
