"""The majors of a virtual hart: 1, 5, 9 and 13 in `sip` and `sie`, with `hviprio1` and `hvictl`."""

from __future__ import annotations

from collections.abc import Iterator

from lemdwab.apart.interrupt_file import written

MAJORS = 1 << 1 | 1 << 5 | 1 << 9 | 1 << 13
GUESTS_OWN = 1 << 1 | 1 << 13
EXTERNAL = 1 << 9
HVICTL = 0x4fff03ff
HVIPRIO1 = 0x0000ff00ff00ff00
# The others than 9, each with the first bit of its byte of hviprio1 and its rank.
OTHERS = ((1, 8, 2), (5, 24, 3), (13, 40, 4))


def is_injectable(number: int) -> bool:
    """Whether a bit of `hvip` is one of the four."""
    return number in (1, 5, 9, 13)


def is_hvictl(value: int) -> bool:
    """Whether hvictl takes a value: not with VTI 1 and an IID of 0 or above 63."""
    return not value >> 30 & 1 or 1 <= value >> 16 & 0xfff <= 63


def or_256(priority: int) -> int:
    """A priority of 0 counts as 256."""
    return priority or 256


class Majors:
    """What the hypervisor and the virtual hart set."""

    def __init__(self) -> None:
        self.injected = 0
        self.enabled = 0
        self.hviprio1 = 0
        self.hvictl = 0

    def inject(self, number: int, level: int) -> None:
        self.injected = self.injected & ~(1 << number) | level << number

    def is_virtual(self) -> int:
        """VTI: sip and sie are the hypervisor's to emulate."""
        return self.hvictl >> 30 & 1

    def sip(self, signal: bool) -> int:
        """The injected ones; bit 9 is one too where the file signals."""
        return self.injected | (EXTERNAL if signal else 0)

    def access_sip(self, signal: bool, operation: str, operand: int) -> int:
        """A virtual hart writes the bits 1 and 13 of sip."""
        old = self.sip(signal)
        new = written(operation, operand, old)
        self.injected = self.injected & ~GUESTS_OWN | new & GUESTS_OWN
        return old

    def access_sie(self, operation: str, operand: int) -> int:
        old = self.enabled
        self.enabled = written(operation, operand, old) & MAJORS
        return old

    def candidates(self, top: int, signal: bool) -> Iterator[tuple[int, int, int]]:
        """Those that may be on top, as (priority number, rank, major): of one number the least
        rank comes first."""
        live = self.sip(signal) & self.enabled
        if live & EXTERNAL:
            yield or_256(top), 1, 9
        if not self.is_virtual():
            for major, low, rank in OTHERS:
                if live >> major & 1:
                    yield or_256(self.hviprio1 >> low & 0xff), rank, major
            return
        major, priority = self.hvictl >> 16 & 0xfff, self.hvictl & 0xff
        if major != 9:
            yield (or_256(priority), 2, major) if self.hvictl >> 9 & 1 else (priority, 0, major)

    def stopi(self, top: int, signal: bool) -> int:
        """The first of them, with its number where IPRIOM is 1, 255 for one above, and else 1."""
        first = min(self.candidates(top, signal), default=None)
        if first is None:
            return 0
        return first[2] << 16 | (min(first[0], 255) if self.hvictl >> 8 & 1 else 1)
