"""A machine with the AIA whose sizes are its own: two harts, seven guest files each, the identities
1 to 255, 96 wired sources, and pages at the places where QEMU's board `virt` has them.

It knows nothing of scripts: it has loads, stores, CSRs, wires and signals, as a simulated chip has.
examples/fixed-machine.py is a bridge to it. What it answers where the standard leaves a choice is
what the model chooses, unless choices.py makes it otherwise.
"""

from __future__ import annotations

from typing import TYPE_CHECKING

from lemdwab.apart.aplic import CONTROLS, REGISTERS, Aplic, register_at
from lemdwab.apart.interrupt_file import InterruptFile
from lemdwab.apart.refusals import Refused

if TYPE_CHECKING:
    from lemdwab.apart.aplic import Domain

HARTS, GUESTS, GREATEST, SOURCES = 2, 7, 255, 96
MACHINE_LEVEL, SUPERVISOR = "machine", "supervisor"
MACHINE_PAGES, SUPERVISOR_PAGES, PAGE = 0x24000000, 0x28000000, 0x1000
# Between two harts' supervisor files lie the pages of guest files, 2 to a power in all.
DISTANCE = PAGE << 3
ROOT, CHILD, REGION_BYTES = 0x0c000000, 0x0d000000, 0x8000
# What its registers of MSI addresses have to hold so that MSIs reach these pages.
ADDRESSES = {"mmsiaddrcfg": MACHINE_PAGES >> 12, "mmsiaddrcfgh": 1 << 12,
             "smsiaddrcfg": SUPERVISOR_PAGES >> 12, "smsiaddrcfgh": 3 << 20}


class Fault(Exception):
    """A load or a store where nothing is."""


class Trap(Exception):
    """An illegal instruction."""


class FixedMachine:
    """The machine, out of reset."""

    def __init__(self) -> None:
        self.files = {(level, hart): InterruptFile(GREATEST)
                      for level in (MACHINE_LEVEL, SUPERVISOR) for hart in range(HARTS)}
        self.guest_files = {(hart, number): InterruptFile(GREATEST)
                            for hart in range(HARTS) for number in range(1, GUESTS + 1)}
        self.aplic = Aplic(HARTS, SOURCES)
        self.reset()

    def reset(self) -> None:
        """All is 0; another machine may begin with anything here."""

    # Loads and stores.

    def file_at(self, address: int) -> InterruptFile | None:
        """The interrupt file in whose page an address lies."""
        page = (address - MACHINE_PAGES) // PAGE
        if 0 <= page < HARTS:
            return self.files[MACHINE_LEVEL, page]
        hart, number = divmod((address - SUPERVISOR_PAGES) // PAGE, DISTANCE // PAGE)
        if 0 <= hart < HARTS:
            return self.guest_files[hart, number] if number else self.files[SUPERVISOR, hart]
        return None

    def domain_at(self, address: int) -> Domain | None:
        """The domain of the APLIC in whose region an address lies."""
        for domain, begin in ((self.aplic.root, ROOT), (self.aplic.child, CHILD)):
            if begin <= address < begin + REGION_BYTES:
                return domain
        return None

    def load(self, address: int) -> int:
        """A load of 32 bits."""
        domain = self.domain_at(address)
        if address % 4 or not (domain or self.file_at(address)):
            raise Fault
        return self.aplic.load(domain, *register_at(address % REGION_BYTES)) if domain else 0

    def store(self, address: int, value: int) -> None:
        """A store of 32 bits."""
        domain, file = self.domain_at(address), self.file_at(address)
        if address % 4:
            raise Fault
        if file:
            file.store(address % PAGE, value)
        elif not domain:
            raise Fault
        else:
            self.aplic.store(domain, *register_at(address % REGION_BYTES), value)
        self.changed()

    # CSRs, wires, signals and time.

    def csr(self, level: str, hart: int, csr: str, operation: str, operand: int) -> int:
        """A CSR instruction on `select`, `reg` or `topei` of a level: what it read."""
        try:
            return self.files[level, hart].access(csr, operation, operand, "illegal")
        except Refused:
            raise Trap from None

    def wire(self, source: int, level: int) -> None:
        """The wire of a source gets a level."""
        self.aplic.drive(source, level)
        self.changed()

    def signals(self, hart: int) -> list[int]:
        """Which signals of a hart are high: of both domains and of both files."""
        return [int(one.signals(hart)) for one in (self.aplic.root, self.aplic.child)] + [
            int(self.files[level, hart].signals()) for level in (MACHINE_LEVEL, SUPERVISOR)]

    def changed(self) -> None:
        """Something was written: MSIs that are ready are sent at once."""
        self.wait()

    def wait(self) -> None:
        """Waits until no MSI is under way."""
        for address, value, _ in self.aplic.take_msis():
            file = self.file_at(address)
            if file:
                file.store(0, value)


def place_of(register: str, index: int = 0) -> int:
    """The offset of a register in a domain's region."""
    return next(offset for offset, found in REGISTERS.items() if found == (register, index))


def controls(hart: int) -> list[int]:
    """The offsets of a hart's delivery controls that keep what is written."""
    return [place_of(name, hart) for name in CONTROLS]
