"""The APLIC: a root domain at machine level and its one child at supervisor level.

A set of sources is an int whose bit s is source s; bit 0 is never set in one that is kept.
"""

from __future__ import annotations

from collections.abc import Callable, Iterator

from lemdwab.apart.interrupt_file import swapped

DELEGATED = 0x400
# The sets that a source is in by its mode: 0 inactive, 1 detached, 4 rising edge, 5 falling edge, 6
# high level, 7 low level.
SETS_BY_MODE = {"active": (1, 4, 5, 6, 7), "sensitive": (4, 5, 6, 7), "level": (6, 7),
                "inverted": (5, 7)}
# What a register of MSI addresses keeps.
ADDRESS_MASKS = {"mmsiaddrcfg": 0xffffffff, "mmsiaddrcfgh": 0x9f77ffff, "smsiaddrcfg": 0xffffffff,
                 "smsiaddrcfgh": 0x00700fff}
ADDRESS_REGISTERS = tuple(ADDRESS_MASKS)


def register_map() -> dict[int, tuple[str, int]]:
    """The register at each offset of a control region, with its index."""
    rows = [("sourcecfg", 0, 4, 1, 1023), ("setip", 0x1c00, 4, 0, 31),
            ("in_clrip", 0x1d00, 4, 0, 31),
            ("setie", 0x1e00, 4, 0, 31), ("clrie", 0x1f00, 4, 0, 31),
            ("target", 0x3000, 4, 1, 1023)]
    rows += [(name, 0x4000 + offset, 32, 0, 511) for name, offset in (
        ("idelivery", 0), ("iforce", 4), ("ithreshold", 8), ("topi", 0x18), ("claimi", 0x1c))]
    rows += [(name, offset, 4, 0, 0) for name, offset in (
        ("domaincfg", 0), ("mmsiaddrcfg", 0x1bc0), ("mmsiaddrcfgh", 0x1bc4),
        ("smsiaddrcfg", 0x1bc8),
        ("smsiaddrcfgh", 0x1bcc), ("setipnum", 0x1cdc), ("clripnum", 0x1ddc), ("setienum", 0x1edc),
        ("clrienum", 0x1fdc), ("setipnum_le", 0x2000), ("setipnum_be", 0x2004), ("genmsi", 0x3000))]
    return {base + stride * index: (name, index)
            for name, base, stride, first, last in rows for index in range(first, last + 1)}


REGISTERS = register_map()


def register_at(offset: int) -> tuple[str, int]:
    """The register at an offset of a control region; "nothing" where none is."""
    return REGISTERS.get(offset, ("nothing", 0))


def field(value: int, high: int, low: int) -> int:
    return value >> low & (1 << (high - low + 1)) - 1


def legal_mode(value: int) -> int:
    """SM of a sourcecfg: the reserved modes 2 and 3 become 0."""
    mode = value & 7
    return 0 if mode in (2, 3) else mode


def root_sourcecfg(value: int) -> int:
    """What the root domain keeps: with D the source is delegated to child 0, another child makes
    the register 0."""
    if value >> 10 & 1:
        return DELEGATED if field(value, 9, 0) == 0 else 0
    return legal_mode(value)


def child_sourcecfg(value: int) -> int:
    """What its child keeps, which has no child itself."""
    return 0 if value >> 10 & 1 else legal_mode(value)


def members(sources: int) -> Iterator[int]:
    """The sources of a set, the least first."""
    while sources:
        least = sources & -sources
        yield least.bit_length() - 1
        sources ^= least


class Domain:
    """One domain, with what it keeps of each source and of each hart."""

    def __init__(self, aplic: Aplic) -> None:
        self.aplic = aplic
        self.sourcecfg = [0] * 1024
        self.targets = [0] * 1024
        self.active = self.sensitive = self.level = self.inverted = 0
        self.pending = self.enabled = 0
        self.is_on = self.by_msi = False
        self.genmsi = 0
        self.genmsi_waits = False
        self.idelivery = [0] * aplic.harts
        self.iforce = [0] * aplic.harts
        self.ithreshold = [0] * aplic.harts

    # Sources: how each is configured, and what becomes of its bits.

    def inputs(self) -> int:
        """The rectified inputs that are high: of an inactive and a detached source none is."""
        return (self.aplic.wires ^ self.inverted) & self.sensitive

    def input_changed(self, source: int, was: int) -> None:
        """The wire of a source was given a level, and its rectified input was `was` before: a rise
        makes it pending, a fall of a level source clears it."""
        bit = 1 << source
        now = self.inputs() & bit
        if now and not was:
            self.pending |= bit
        elif was and not now and self.level & bit:
            self.pending &= ~bit

    def configure(self, source: int, sourcecfg: int) -> None:
        """A sourcecfg is written: the mode, and what follows from it."""
        bit = 1 << source
        mode = 0 if sourcecfg == DELEGATED else sourcecfg
        was_active = self.active & bit
        self.sourcecfg[source] = sourcecfg
        for name, modes in SETS_BY_MODE.items():
            setattr(self, name, getattr(self, name) & ~bit | (bit if mode in modes else 0))
        if mode == 0:
            self.pending &= ~bit
            self.enabled &= ~bit
            self.targets[source] = 0
            return
        if not was_active:
            self.targets[source] = self.first_target()
        if self.level & bit:
            self.pending = self.pending & ~bit | self.inputs() & bit

    def first_target(self) -> int:
        """The target of a source that becomes active, or whose delivery mode changes."""
        return 0 if self.by_msi else 1

    def set_pending(self, sources: int) -> None:
        """Registers ask: a level source hears them only by MSIs and while its input is high."""
        heard = self.active & ~self.level
        if self.by_msi:
            heard |= self.level & self.inputs()
        self.pending |= sources & heard

    def clear_pending(self, sources: int) -> None:
        """Registers clear: a level source hears them only by MSIs."""
        self.pending &= ~(sources if self.by_msi else sources & ~self.level)

    def set_enabled(self, sources: int) -> None:
        self.enabled |= sources & self.active

    def clear_enabled(self, sources: int) -> None:
        self.enabled &= ~sources

    def write_domaincfg(self, value: int) -> None:
        """IE and DM are kept; another delivery mode begins the targets anew, makes level sources
        pending just where they are high, and drops genmsi."""
        by_msi = bool(value >> 2 & 1)
        self.is_on = bool(value >> 8 & 1)
        if by_msi == self.by_msi:
            return
        self.by_msi = by_msi
        self.genmsi = 0
        for source in members(self.active):
            self.targets[source] = self.first_target()
        self.pending = self.pending & ~self.level | self.inputs() & self.level

    def hart_kept(self, value: int) -> int:
        """The hart index in bits 31:18; one that isn't there becomes 0."""
        hart = field(value, 31, 18)
        return hart << 18 if hart < self.aplic.harts else 0

    def write_target(self, source: int, value: int) -> None:
        """By MSIs an identity beside the hart, else a priority, which is not 0."""
        if not self.active >> source & 1:
            return
        low = value & 0x7ff if self.by_msi else (value & 0xff or 1)
        self.targets[source] = self.hart_kept(value) | low

    def write_genmsi(self, value: int) -> None:
        """It counts only by MSIs, and asks for one whether IE is 1 or not."""
        if self.by_msi:
            self.genmsi = self.hart_kept(value) | value & 0x7ff
            self.genmsi_waits = True

    # Direct delivery.

    def top(self, hart: int) -> int:
        """Of the pending and enabled sources aimed at a hart that its threshold lets through, the
        one with the least priority number, then the least number: what topi reads."""
        if self.by_msi:
            return 0
        threshold, best = self.ithreshold[hart], None
        for source in members(self.pending & self.enabled):
            target = self.targets[source]
            priority = target & 0xff
            if target >> 18 == hart and (not threshold or priority < threshold):
                best = min(best or (256, 0), (priority, source))
        return best[1] << 16 | best[0] if best else 0

    def claim(self, hart: int) -> int:
        """A load of claimi: what is on top is no more pending unless it is a level source; where
        nothing is, iforce falls. By MSIs it does nothing."""
        if self.by_msi:
            return 0
        top = self.top(hart)
        if top:
            self.pending &= ~(1 << (top >> 16) & ~self.level)
        else:
            self.iforce[hart] = 0
        return top

    def signals(self, hart: int) -> bool:
        """Whether it signals a hart, by direct delivery."""
        return (not self.by_msi and self.is_on and self.idelivery[hart] == 1
                and (self.iforce[hart] == 1 or self.top(hart) != 0))

    # Registers.

    def named_sources(self, register: str, index: int, value: int) -> int:
        """The sources that a store to a register of pending or enable bits names."""
        if "num" not in register:
            return value << 32 * index
        source = swapped(value) if register == "setipnum_be" else value
        return 1 << source if source <= self.aplic.sources else 0

    def write(self, register: str, index: int, value: int) -> None:
        """A store to one of its registers, but sourcecfg and those of MSI addresses."""
        if register in TOUCHES:
            TOUCHES[register](self, self.named_sources(register, index, value))
        elif register == "domaincfg":
            self.write_domaincfg(value)
        elif register == "target":
            self.write_target(index, value)
        elif register == "genmsi":
            self.write_genmsi(value)
        elif register in CONTROLS and index < self.aplic.harts:
            getattr(self, register)[index] = value & CONTROLS[register]

    def read(self, register: str, index: int) -> int:
        """A load from one of its registers, with what the load does; 0 where there is none."""
        if register in WORDS:
            return WORDS[register](self) >> 32 * index & 0xffffffff
        if register == "domaincfg":
            return 0x80000000 | self.is_on << 8 | self.by_msi << 2
        if register == "sourcecfg":
            return self.sourcecfg[index]
        if register == "target":
            return self.targets[index]
        if register == "genmsi":
            return self.genmsi
        if index < self.aplic.harts:
            if register in CONTROLS:
                numbers: list[int] = getattr(self, register)
                return numbers[index]
            if register == "topi":
                return self.top(index)
            if register == "claimi":
                return self.claim(index)
        return 0


TOUCHES = {"setip": Domain.set_pending, "setipnum": Domain.set_pending,
           "setipnum_le": Domain.set_pending, "setipnum_be": Domain.set_pending,
           "in_clrip": Domain.clear_pending, "clripnum": Domain.clear_pending,
           "setie": Domain.set_enabled, "setienum": Domain.set_enabled,
           "clrie": Domain.clear_enabled, "clrienum": Domain.clear_enabled}
CONTROLS = {"idelivery": 1, "iforce": 1, "ithreshold": 0xff}
WORDS: dict[str, Callable[[Domain], int]] = {
    "setip": lambda domain: domain.pending, "in_clrip": Domain.inputs,
    "setie": lambda domain: domain.enabled}


class Aplic:
    """Both domains, the wires, and the registers of MSI addresses, which the root domain has."""

    def __init__(self, harts: int, sources: int) -> None:
        self.harts = harts
        self.sources = sources
        self.wires = 0
        self.root = Domain(self)
        self.child = Domain(self)
        self.addresses = dict.fromkeys(ADDRESS_REGISTERS, 0)

    def drive(self, source: int, level: int) -> None:
        """The wire of a source gets a level."""
        bit = 1 << source
        before = [(domain, domain.inputs() & bit) for domain in (self.root, self.child)]
        self.wires = self.wires & ~bit | level << source
        for domain, was in before:
            domain.input_changed(source, was)

    def store(self, domain: Domain, register: str, index: int, value: int) -> None:
        if register == "sourcecfg":
            self.write_sourcecfg(domain, index, value)
        elif register in ADDRESS_REGISTERS:
            if domain is self.root:
                self.write_address(register, value)
        else:
            domain.write(register, index, value)

    def load(self, domain: Domain, register: str, index: int) -> int:
        if register in ADDRESS_REGISTERS:
            return self.addresses[register] if domain is self.root else 0
        return domain.read(register, index)

    def write_sourcecfg(self, domain: Domain, source: int, value: int) -> None:
        """The root domain's makes the child's 0, unless it delegates what is delegated already;
        the child's is there while the source is delegated."""
        if source > self.sources:
            return
        is_delegated = self.root.sourcecfg[source] == DELEGATED
        if domain is self.child:
            if is_delegated:
                self.child.configure(source, child_sourcecfg(value))
            return
        sourcecfg = root_sourcecfg(value)
        if is_delegated and sourcecfg == DELEGATED:
            return
        self.child.configure(source, 0)
        self.root.configure(source, sourcecfg)

    def write_address(self, register: str, value: int) -> None:
        """A register of MSI addresses keeps its fields, unless L locks them all."""
        if self.addresses["mmsiaddrcfgh"] >> 31:
            return
        self.addresses[register] = value & ADDRESS_MASKS[register]

    def reaches_guests(self) -> bool:
        """Whether MSIs of the child reach the supervisor and guest files of the map."""
        high = self.addresses["mmsiaddrcfgh"]
        return (field(high, 18, 16) == 0 and field(high, 15, 12) == 2
                and self.addresses["smsiaddrcfg"] == 0x28000
                and self.addresses["smsiaddrcfgh"] == 0x500000)

    def is_passable(self, source: int) -> bool:
        """Whether MSIs to guests may be made of a source."""
        return bool(self.child.active >> source & 1 and self.child.by_msi and self.reaches_guests())

    def msi_address(self, domain: Domain, target: int) -> int:
        """The address of an MSI for the hart, and of the child's the guest index, of a target."""
        low, high = ADDRESS_REGISTERS[:2] if domain is self.root else ADDRESS_REGISTERS[2:]
        shape, base, own = (self.addresses[name] for name in ("mmsiaddrcfgh", low, high))
        hart = target >> 18
        group = hart >> field(shape, 15, 12) & (1 << field(shape, 18, 16)) - 1
        member = hart & (1 << field(shape, 15, 12)) - 1
        page = field(own, 11, 0) << 32 | base
        page |= group << field(shape, 28, 24) + 12 | member << field(own, 22, 20)
        if domain is self.child:
            page |= field(target, 17, 12)
        return page << 12 & (1 << 64) - 1

    def take_msis(self) -> list[tuple[int, int, int]]:
        """All MSIs that are ready, as (address, identity, source), genmsi's first, whose source is
        0; then those of sources by rising number. What is sent is no more pending."""
        found = []
        for domain in (self.root, self.child):
            if domain.genmsi_waits:
                domain.genmsi_waits = False
                found.append((self.msi_address(domain, domain.genmsi), domain.genmsi & 0x7ff, 0))
        for domain in (self.root, self.child):
            if domain.by_msi and domain.is_on:
                ready = domain.pending & domain.enabled
                domain.pending &= ~ready
                for source in members(ready):
                    target = domain.targets[source]
                    found.append((self.msi_address(domain, target), target & 0x7ff, source))
        return found
