"""An interrupt file: two sets of identities, a threshold, whether it delivers, a select number.

A set is an int whose bit i is identity i; bit 0 is never set.
"""

from __future__ import annotations

from lemdwab.apart.refusals import Refused

ALL = (1 << 64) - 1


def swapped(value: int) -> int:
    """The four bytes of a number in the other order."""
    return int.from_bytes(value.to_bytes(4, "little"), "big")


def requested(greatest: int, offset: int, value: int) -> int:
    """The identity that a 32-bit store asks for: little-endian at offset 0, big-endian at 4; else
    0, which is none."""
    if offset == 4:
        value = swapped(value)
    elif offset:
        return 0
    return value if value <= greatest else 0


def written(operation: str, operand: int, old: int) -> int:
    """What a CSR instruction writes, given what stood there: `csrrs` and `csrrc` write too where
    their operand is 0, `csrr` writes nothing."""
    if operation == "write":
        return operand
    if operation == "set":
        return old | operand
    if operation == "clear":
        return old & ~operand
    return old


class InterruptFile:
    """A file of the identities 1 to `greatest`, with nothing pending or enabled at first."""

    def __init__(self, greatest: int) -> None:
        self.greatest = greatest
        self.implemented = (1 << (greatest + 1)) - 2
        self.pending = 0
        self.enabled = 0
        self.threshold = 0
        self.delivery = 0
        self.select = 0

    def top(self) -> int:
        """The least identity that is pending, enabled and let through by the threshold; 0 where
        there is none. Delivery is no condition."""
        live = self.pending & self.enabled
        if self.threshold:
            live &= (1 << self.threshold) - 1
        return (live & -live).bit_length() - 1 if live else 0

    def top_value(self) -> int:
        """What topei reads: the identity on top in bits 26:16 and in bits 10:0."""
        return self.top() * 0x10001

    def signals(self) -> bool:
        """It delivers and has an identity on top."""
        return self.delivery == 1 and self.top() != 0

    def ask(self, identity: int) -> None:
        """An identity becomes pending; 0 is none."""
        if identity:
            self.pending |= 1 << identity

    def store(self, offset: int, value: int) -> None:
        """A 32-bit store at an offset of its page."""
        self.ask(requested(self.greatest, offset, value))

    def access(self, csr: str, operation: str, operand: int, missing: str) -> int:
        """A CSR instruction on the select number, the selected register or the identity on top:
        the value read before it. `missing` is the word for a register that isn't there."""
        if csr == "select":
            old = self.select
            self.select = written(operation, operand, old) & 0xfff
            return old
        if csr == "reg":
            return self.access_register(operation, operand, missing)
        old = self.top_value()
        if operation != "read" and old:
            self.pending &= ~(1 << (old & 0x7ff))
        return old

    def access_register(self, operation: str, operand: int, missing: str) -> int:
        """The register that the select number names: 0x70 eidelivery, 0x72 eithreshold, the other
        numbers below 0x80 reserved, the even ones from 0x80 on eip and from 0xc0 on eie."""
        select = self.select
        if not 0x70 <= select <= 0xff or (select >= 0x80 and select % 2):
            raise Refused(missing)
        if select >= 0x80:
            return self.access_set(select, operation, operand)
        if select == 0x70:
            return self.access_delivery(operation, operand)
        if select == 0x72:
            return self.access_threshold(operation, operand)
        return 0

    def access_delivery(self, operation: str, operand: int) -> int:
        """eidelivery: one bit is kept."""
        old = self.delivery
        self.delivery = written(operation, operand, old) & 1
        return old

    def access_threshold(self, operation: str, operand: int) -> int:
        """eithreshold."""
        old = self.threshold
        if operation != "read":
            self.threshold = self.kept_threshold(written(operation, operand, old))
        return old

    def kept_threshold(self, value: int) -> int:
        """What eithreshold keeps of a value: as many bits as the greatest identity has."""
        return value % (self.greatest + 1)

    def access_set(self, select: int, operation: str, operand: int) -> int:
        """eip k or eie k: the identities 32k to 32k + 63, of which those that the file has."""
        first = 32 * (select & 0x3f)
        name = "enabled" if select >= 0xc0 else "pending"
        members: int = getattr(self, name)
        old = members >> first & ALL
        if operation != "read":
            new = written(operation, operand, old) & ALL
            members = members & ~(ALL << first) | new << first
            setattr(self, name, members & self.implemented)
        return old

    def word(self, number: int) -> tuple[int, int]:
        """Word w of both sets: the identities 64w to 64w + 63."""
        return self.pending >> 64 * number & ALL, self.enabled >> 64 * number & ALL
