#!/usr/bin/env python3
# SPDX-License-Identifier: Apache-2.0
"""fixed-machine.py: a bridge to a machine whose sizes and addresses are its own.

    fixed-machine.py [CHOICE..] < script > answers

It reads lines and prints answers. The machine is that of tools/lemdwab/apart/fixed.py: two harts,
seven guest files each, the identities 1 to 255, 96 wired sources, and a map of its own. Put yours
in its place: what it wants is in the class Bridge, which has a method for each form of line. So its
answers are held against the model's, over the scripts that every right machine answers alike:

    suite/compare --only-standard --machine '2 7 255 96' -- examples/fixed-machine.py

Where the standard leaves a choice the machine does what the model does; a CHOICE, one of those of
tools/lemdwab/apart/choices.py, makes it do otherwise, and `all` takes all of them that go together.
`-h` lists them. Ends with status 2 and a message at a line of which the machine has nothing, or
where words are wrong.
"""

import sys
from pathlib import Path

sys.path.insert(0, str(Path(__file__).resolve().parents[1] / "tools"))
from lemdwab.apart import choices, fixed

# Our map, as docs/REFERENCE.md has it.
ROOT, CHILD, REGION_BYTES = 0x0c000000, 0x0c008000, 0x8000
MACHINE_PAGES, SUPERVISOR_PAGES, PAGE, DISTANCE = 0x24000000, 0x28000000, 0x1000, 0x20000
# The registers of MSI addresses: what they hold is of the map.
OF_THE_MAP = range(0x1bc0, 0x1bd0)
LEVELS = {"m": fixed.MACHINE_LEVEL, "h": fixed.SUPERVISOR}
CSRS = {"miselect": "select", "mireg": "reg", "mtopei": "topei",
        "siselect": "select", "sireg": "reg", "stopei": "topei"}
OPERATIONS = {"csrr": "read", "csrrw": "write", "csrrs": "set", "csrrc": "clear"}


class Untold(Exception):
    """A line of which the machine has nothing."""


def theirs(address):
    """Moves an address of our map to the place where the machine has the same."""
    if ROOT <= address < ROOT + REGION_BYTES:
        return address - ROOT + fixed.ROOT
    if CHILD <= address < CHILD + REGION_BYTES:
        return address - CHILD + fixed.CHILD
    hart, offset = divmod(address - MACHINE_PAGES, PAGE)
    if 0 <= hart < fixed.HARTS:
        return fixed.MACHINE_PAGES + hart * PAGE + offset
    hart, offset = divmod(address - SUPERVISOR_PAGES, DISTANCE)
    if 0 <= hart < fixed.HARTS and offset < PAGE:
        return fixed.SUPERVISOR_PAGES + hart * fixed.DISTANCE + offset
    raise Untold


class Bridge:
    """Tells the machine each line, and gives the line's answer."""

    def __init__(self):
        self.chip = None

    def answer(self, line):
        """Gives the answer to a line."""
        form, *words = line.split(" ")
        if form in LEVELS:
            return self.csr(form, *words)
        if form not in ("machine", "st", "ld", "wire", "pins"):
            raise Untold
        return getattr(self, form)(*(int(word, 0) for word in words))

    def machine(self, *_):
        """A machine out of reset; its sizes are its own, whatever the line says. All is made 0 that
        the model begins with as 0, and that the standard lets begin with anything."""
        self.chip = fixed.FixedMachine()
        for level in LEVELS.values():
            for hart in range(fixed.HARTS):
                self.clear_file(level, hart)
        for domain in (fixed.ROOT, fixed.CHILD):
            self.chip.store(domain, 0)
            for offset in (place for hart in range(fixed.HARTS) for place in fixed.controls(hart)):
                self.chip.store(domain + offset, 0)
        for source in range(1, fixed.SOURCES + 1):
            self.chip.store(fixed.ROOT + 4 * source, 0)
        for register, value in fixed.ADDRESSES.items():
            self.chip.store(fixed.ROOT + fixed.place_of(register), value)
        return "ok"

    def clear_file(self, level, hart):
        """Makes all of an interrupt file 0: eidelivery, eithreshold, eip and eie, and what is
        selected."""
        sets = [first + 2 * word for first in (0x80, 0xc0)
                for word in range((fixed.GREATEST + 1) // 64)]
        for select in (0x70, 0x72, *sets):
            self.chip.csr(level, hart, "select", "write", select)
            self.chip.csr(level, hart, "reg", "write", 0)
        self.chip.csr(level, hart, "select", "write", 0)

    def st(self, address, value):
        """A store. In the place of what a script writes to the registers of MSI addresses the
        machine's own stand there since its beginning."""
        try:
            if address - ROOT not in OF_THE_MAP:
                self.chip.store(theirs(address), value)
            self.chip.wait()
            return "ok"
        except fixed.Fault:
            return "fault"

    def ld(self, address):
        """A load."""
        if address - ROOT in OF_THE_MAP:
            raise Untold
        try:
            return f"0x{self.chip.load(theirs(address)):08x}"
        except fixed.Fault:
            return "fault"

    def wire(self, source, level):
        """A level of a wire; then its MSI has to arrive before the next line."""
        if not 1 <= source <= fixed.SOURCES:
            raise Untold
        self.chip.wire(source, level)
        self.chip.wait()
        return "ok"

    def csr(self, form, hart, instruction, csr, operand="0"):
        """A CSR instruction of a hart."""
        try:
            return "0x%016x" % self.chip.csr(LEVELS[form], int(hart, 0), CSRS[csr],
                                             OPERATIONS[instruction], int(operand, 0))
        except fixed.Trap:
            return "illegal"

    def pins(self, hart):
        """The signals of a hart."""
        return "pins " + " ".join(map(str, self.chip.signals(hart)))


def fail(message):
    """Ends with status 2 and a message."""
    print(f"fixed-machine.py: {message}", file=sys.stderr)
    sys.exit(2)


def main():
    words = sys.argv[1:]
    if words[:1] in (["-h"], ["--help"]):
        print(__doc__ + "\n" + "\n".join(choices.told()))
        return
    for word in words:
        if word not in (*choices.CHOICES, "all"):
            fail(f"there is no choice {word!r}; -h lists them")
    choices.take(words)
    bridge = Bridge()
    for text in sys.stdin:
        line = text.rstrip("\n")
        if line and not line.startswith("#"):
            try:
                print(bridge.answer(line), flush=True)
            except (Untold, KeyError, TypeError, ValueError, AttributeError):
                fail(f"the machine has nothing of this line: {line}")


if __name__ == "__main__":
    main()
