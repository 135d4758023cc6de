"""Choices that the standard leaves open, made otherwise than the model makes them. A machine with
any of them, or with all, is right; docs/DECISIONS.md has each.

Each is a function that changes one rule of the machine of fixed.py, for good in this process; its
name says the rule.
"""

from __future__ import annotations

import random
from collections.abc import Callable, Iterator
from typing import Any

from lemdwab.apart import aplic, fixed
from lemdwab.apart.aplic import (ADDRESS_REGISTERS, CONTROLS, DELEGATED, Aplic, Domain, field,
                                 members)
from lemdwab.apart.fixed import FixedMachine
from lemdwab.apart.interrupt_file import InterruptFile, swapped
from lemdwab.apart.plants import around
from lemdwab.apart.refusals import Refused

CHOICES: dict[str, Callable[..., Any]] = {}
# Those that go with no other of their kind: `all` takes none of them.
APART: list[str] = []
DELEGATES = 1 << 10


def choice(change: Callable[..., Any]) -> Callable[..., Any]:
    """Notes a choice."""
    CHOICES[change.__name__] = change
    return change


def apart(change: Callable[..., Any]) -> Callable[..., Any]:
    """Notes one that `all` leaves out."""
    APART.append(change.__name__)
    return choice(change)


def take(names: list[str]) -> None:
    """Makes choices, for good in this process."""
    together = [name for name in CHOICES if name not in APART]
    for name in dict.fromkeys(each for name in names
                              for each in (together if name == "all" else [name])):
        CHOICES[name]()


def told() -> Iterator[str]:
    """Says each choice in a line."""
    for name, change in CHOICES.items():
        words = " ".join((change.__doc__ or "").split())
        yield f"    {name}{' (not of all)' if name in APART else ''}\n        {words}"


# Interrupt files.

@choice
def thresholds_of_eleven_bits() -> None:
    """eithreshold keeps 11 bits."""
    setattr(InterruptFile, "kept_threshold", lambda file, value: value & 0x7ff)


@choice
def delivery_by_the_aplic() -> None:
    """eidelivery keeps 0, 1 and 0x40000000, and stays at any other number."""
    def access(file: InterruptFile, operation: str, operand: int) -> int:
        old, legal = file.delivery, (0, 1, 0x40000000)
        new = {"read": old, "write": operand, "set": old | operand,
               "clear": old & ~operand}[operation]
        file.delivery = new if new in legal else old
        return old
    setattr(InterruptFile, "access_delivery", access)


@choice
def select_numbers_of_nine_bits() -> None:
    """A select CSR keeps 9 bits."""
    def access(old: Callable[..., int], file: InterruptFile, csr: str, *words: int | str) -> int:
        read = old(file, csr, *words)
        file.select &= 0x1ff
        return read
    around(InterruptFile, "access", access)


@choice
def numbers_of_no_register_read_0() -> None:
    """An access by a select number that names no register reads 0, and raises nothing."""
    def access(old: Callable[..., int], file: InterruptFile, *words: int | str) -> int:
        try:
            return old(file, *words)
        except Refused:
            return 0
    around(InterruptFile, "access_register", access)


@choice
def registers_above_the_greatest_raise() -> None:
    """eip and eie above the greatest identity are not there."""
    def access(old: Callable[..., int], file: InterruptFile, select: int, *words: int | str) -> int:
        if 32 * (select & 0x3f) > file.greatest:
            raise Refused("illegal")
        return old(file, select, *words)
    around(InterruptFile, "access_set", access)


@choice
def no_stores_of_big_endian_numbers() -> None:
    """Neither seteipnum_be nor setipnum_be is there: the system has little-endian stores alone."""
    around(InterruptFile, "store", lambda old, file, offset, value:
           None if offset == 4 else old(file, offset, value))
    around(Domain, "write", lambda old, domain, register, index, value:
           None if register == "setipnum_be" else old(domain, register, index, value))


@choice
def operands_of_0_write_nothing() -> None:
    """The bridge tells csrrs and csrrc with an operand of 0 as instructions with x0."""
    around(FixedMachine, "csr", lambda old, chip, level, hart, csr, operation, operand:
           old(chip, level, hart, csr, operation if operand or operation == "write" else "read",
               operand))


# Sources.

def sourcecfg(change: Callable[..., Any]) -> None:
    """Changes what a write of sourcecfg does: `change` gives the number that is written in another
    one's place, None where none is."""
    def write(old: Callable[..., Any], part: Aplic, domain: Domain, source: int,
              value: int) -> None:
        new = change(part, domain, source, value)
        if new is not None:
            old(part, domain, source, new)
    around(Aplic, "write_sourcecfg", write)


@choice
def reserved_modes_change_nothing() -> None:
    """A write of a reserved mode leaves sourcecfg as it is."""
    sourcecfg(lambda part, domain, source, value:
              value if value & DELEGATES or value & 7 not in (2, 3) else None)


@choice
def any_child_index_is_the_child() -> None:
    """D with any child index delegates to the one child."""
    sourcecfg(lambda part, domain, source, value:
              DELEGATED if value & DELEGATES and domain is part.root else value)


@choice
def a_leaf_keeps_the_mode() -> None:
    """D in the child's sourcecfg is read-only zero, and the mode is kept."""
    sourcecfg(lambda part, domain, source, value:
              value if domain is part.root else value & ~DELEGATES)


@choice
def delegating_again_begins_anew() -> None:
    """A write that delegates what is delegated already makes the child's sourcecfg 0."""
    def again(part: Aplic, domain: Domain, source: int, value: int) -> int:
        if domain is part.root and value & DELEGATES and source <= part.sources:
            part.child.configure(source, 0)
        return value
    sourcecfg(again)


@choice
def inputs_are_wires() -> None:
    """in_clrip shows the wires of detached and of inactive sources as they are."""
    aplic.WORDS["in_clrip"] = lambda domain: (
        domain.inputs() | domain.aplic.wires & ~domain.sensitive)


@choice
def modes_make_edges() -> None:
    """A write of sourcecfg with an edge mode sets the pending bit where the input is high."""
    def configure(old: Callable[..., Any], domain: Domain, source: int, mode: int) -> None:
        old(domain, source, mode)
        domain.pending |= domain.inputs() & ~domain.level & 1 << source
    around(Domain, "configure", configure)


@choice
def level_modes_ask_for_nothing() -> None:
    """By MSIs a write of sourcecfg with a level mode sets no pending bit."""
    def configure(old: Callable[..., Any], domain: Domain, source: int, mode: int) -> None:
        was = domain.pending
        old(domain, source, mode)
        if domain.by_msi:
            domain.pending &= was | ~(domain.level & 1 << source)
    around(Domain, "configure", configure)


@choice
def first_targets_are_anything() -> None:
    """The target of a source that becomes active is any legal one."""
    setattr(Domain, "first_target", lambda domain: 0x40055 if domain.by_msi else 0x40007)


@choice
def modes_begin_anew() -> None:
    """From one active mode to another the enable bit becomes 0 and the target any."""
    def configure(old: Callable[..., Any], domain: Domain, source: int, mode: int) -> None:
        was_active = domain.active >> source & 1
        old(domain, source, mode)
        if was_active and domain.active >> source & 1:
            domain.enabled &= ~(1 << source)
            domain.targets[source] = domain.first_target()
    around(Domain, "configure", configure)


# Delivery.

@choice
def hart_indexes_are_kept() -> None:
    """target keeps the index of a hart that isn't there."""
    setattr(Domain, "hart_kept", lambda domain, value: field(value, 31, 18) << 18)


@choice
def guest_indexes_are_kept() -> None:
    """By MSIs a target of the child keeps a guest index."""
    def write(old: Callable[..., Any], domain: Domain, source: int, value: int) -> None:
        old(domain, source, value)
        guest = field(value, 17, 12)
        if (domain is domain.aplic.child and domain.by_msi and domain.active >> source & 1
                and guest <= fixed.GUESTS):
            domain.targets[source] |= guest << 12
    around(Domain, "write_target", write)


def priorities(bits: int) -> None:
    """Gives priorities and ithreshold so many bits."""
    most = (1 << bits) - 1

    def write(old: Callable[..., Any], domain: Domain, source: int, value: int) -> None:
        old(domain, source, value)
        if not domain.by_msi and domain.active >> source & 1:
            target = domain.targets[source]
            domain.targets[source] = target & ~0xff | (target & most or 1)
    around(Domain, "write_target", write)
    CONTROLS["ithreshold"] = most


@choice
def priorities_of_four_bits() -> None:
    """Priorities and ithreshold have 4 bits."""
    priorities(4)


@apart
def priorities_of_three_bits() -> None:
    """They have 3 bits: for --priority-bits 3."""
    priorities(3)


@apart
def priorities_of_one_bit() -> None:
    """They have one: for --priority-bits 1."""
    priorities(1)


@choice
def identities_of_few_bits() -> None:
    """By MSIs target and genmsi keep as many bits of an identity as the files have."""
    def write(old: Callable[..., Any], domain: Domain, register: str, index: int,
              value: int) -> None:
        if domain.by_msi and register in ("target", "genmsi"):
            value &= ~0x7ff | fixed.GREATEST
        old(domain, register, index, value)
    around(Domain, "write", write)


@choice
def controls_are_0_by_msis() -> None:
    """By MSIs the delivery controls of harts read 0 and ignore writes."""
    around(Domain, "read", lambda old, domain, register, index:
           0 if domain.by_msi and register in CONTROLS else old(domain, register, index))
    around(Domain, "write", lambda old, domain, register, index, value:
           None if domain.by_msi and register in CONTROLS
           else old(domain, register, index, value))


@choice
def changes_of_delivery_leave_bits() -> None:
    """A change of the delivery mode leaves pending bits, but for those of level sources in direct
    delivery, and makes targets and genmsi any legal ones."""
    def write(old: Callable[..., Any], domain: Domain, value: int) -> None:
        pending, was_by_msi = domain.pending, domain.by_msi
        old(domain, value)
        if domain.by_msi != was_by_msi:
            for source in members(domain.active):
                domain.targets[source] = 0x40003
            domain.genmsi = 0x40003 if domain.by_msi else 0
            domain.pending = pending if domain.by_msi else domain.pending
    around(Domain, "write_domaincfg", write)


@choice
def big_endian_domains() -> None:
    """BE of domaincfg is kept, and a domain with BE takes and gives its registers reversed."""
    def is_reversed(domain: Domain, register: str) -> bool:
        return getattr(domain, "is_reversed", False) and register not in (
            "setipnum_le", "setipnum_be")

    def store(old: Callable[..., Any], part: Aplic, domain: Domain, register: str, index: int,
              value: int) -> None:
        value = swapped(value) if is_reversed(domain, register) else value
        if register == "domaincfg":
            setattr(domain, "is_reversed", bool(value & 1))
        old(part, domain, register, index, value)

    def load(old: Callable[..., int], part: Aplic, domain: Domain, register: str,
             index: int) -> int:
        value = old(part, domain, register, index)
        value |= register == "domaincfg" and getattr(domain, "is_reversed", False)
        return swapped(value) if is_reversed(domain, register) else value
    around(Aplic, "store", store)
    around(Aplic, "load", load)


@choice
def fixed_msi_addresses() -> None:
    """The registers of MSI addresses are what the machine's pages ask for, and read-only."""
    def store(old: Callable[..., Any], part: Aplic, domain: Domain, register: str, index: int,
              value: int) -> None:
        if register not in ADDRESS_REGISTERS:
            old(part, domain, register, index, value)
    around(Aplic, "store", store)
    around(Aplic, "__init__", lambda old, part, *sizes:
           (old(part, *sizes), part.addresses.update(fixed.ADDRESSES)) and None)


@choice
def the_child_shows_msi_addresses() -> None:
    """The child has the registers of MSI addresses too, read-only."""
    around(Aplic, "load", lambda old, part, domain, register, index:
           old(part, part.root if register in ADDRESS_REGISTERS else domain, register, index))


@choice
def msis_go_backwards() -> None:
    """Of the MSIs that are ready the last one goes first."""
    around(Aplic, "take_msis", lambda old, part: list(reversed(old(part))))


@choice
def msis_take_their_time() -> None:
    """An MSI arrives later than the access that made it ready."""
    setattr(FixedMachine, "changed", lambda chip: None)


@apart
def deliveries_by_msis_alone() -> None:
    """DM is read-only one in both domains: for --delivery msis."""
    def begin(old: Callable[..., Any], domain: Domain, part: Aplic) -> None:
        old(domain, part)
        domain.by_msi = True
    around(Domain, "__init__", begin)
    around(Domain, "write_domaincfg", lambda old, domain, value: old(domain, value | 4))


@apart
def deliveries_to_harts_alone() -> None:
    """DM is read-only zero in both domains: for --delivery direct."""
    around(Domain, "write_domaincfg", lambda old, domain, value: old(domain, value & ~4))


# The machine.

@choice
def all_begins_with_anything() -> None:
    """Out of reset all but domaincfg is any legal number."""
    def reset(chip: FixedMachine) -> None:
        draw = random.Random("out of reset")
        for file in [*chip.files.values(), *chip.guest_files.values()]:
            file.pending, file.enabled = (draw.getrandbits(2048) & file.implemented for _ in "pe")
            file.threshold, file.delivery = draw.randrange(file.greatest + 1), draw.randrange(2)
            file.select = draw.randrange(256)
        for source in range(1, chip.aplic.sources + 1):
            begin_source(chip.aplic, source, draw)
        for domain in (chip.aplic.root, chip.aplic.child):
            for name, bits in CONTROLS.items():
                setattr(domain, name, [draw.getrandbits(8) & bits for _ in range(fixed.HARTS)])
    setattr(FixedMachine, "reset", reset)


def begin_source(part: Aplic, source: int, draw: random.Random) -> None:
    """Gives a source any mode in the domain that has it, any target, any bits that it may have."""
    part.write_sourcecfg(part.root, source, draw.choice((0, 1, 4, 5, 6, 7, DELEGATED)))
    part.write_sourcecfg(part.child, source, draw.choice((0, 1, 4, 5, 6, 7)))
    for domain in (part.root, part.child):
        own = domain.active & 1 << source
        domain.enabled |= own * draw.randrange(2)
        domain.pending |= own & ~domain.level and own * draw.randrange(2)
        domain.write_target(source, draw.getrandbits(32))


@choice
def regions_end_behind_their_harts() -> None:
    """A control region is no larger than the delivery controls of the harts that are there."""
    around(FixedMachine, "domain_at", lambda old, chip, address:
           old(chip, address) if address % fixed.REGION_BYTES < 0x5000 else None)


@apart
def identities_to_2047() -> None:
    """Its files have the identities 1 to 2047: for --machine '2 7 2047 96'."""
    fixed.GREATEST = 2047


@choice
def accesses_at_odd_places_do_nothing() -> None:
    """A load or store at no multiple of 4 is ignored."""
    def load(old: Callable[..., int], chip: FixedMachine, address: int) -> int:
        return 0 if address % 4 else old(chip, address)

    def store(old: Callable[..., Any], chip: FixedMachine, address: int, value: int) -> None:
        if address % 4 == 0:
            old(chip, address, value)
    around(FixedMachine, "load", load)
    around(FixedMachine, "store", store)
