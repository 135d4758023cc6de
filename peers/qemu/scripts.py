#!/usr/bin/env python3
"""Random scripts that can be told to QEMU, by subject: those of the model written apart, with the
sizes of QEMU's machine and without the lines of which it has nothing.

    scripts.py SUBJECT SEED COUNT    prints one

SUBJECT is files, msi, direct, moves, running, images, majors, addresses or everything; SEED is a
number, and COUNT how many lines there are, at most.
"""

import random
import sys
from pathlib import Path

sys.path.insert(0, str(Path(__file__).resolve().parents[2] / "tools"))
from bridge import CHILD, GREATEST, REGION_BYTES, ROOT, SOURCES

from lemdwab import held
from lemdwab.apart import reading, vocabulary as say
from lemdwab.apart.random_scripts import Generator

HERE = Path(__file__).resolve().parent
# What each subject is about, as a mood of the generator; `addresses` has scripts of its own.
SUBJECTS = {"files": "files", "msi": "aplic", "direct": "aplic", "moves": "moves",
            "running": "running", "images": "images",
            "majors": "majors", "addresses": None, "everything": "everything"}
DIRECT_FORMS = {"machine", "st", "ld", "wire", "pins"}
UNTOLD_FORMS = {"bad", "pass", "again"}
DELIVERY_BY_MSI = 4
ADDRESS_OFFSETS = (0x1bc0, 0x1bc4, 0x1bc8, 0x1bcc)
SETUP = held.lines_of((HERE / "begin.script").read_bytes())
say.MOOD_WEIGHTS["files"] = {say.host: 40, say.machine_level: 30, say.host_file_store: 30,
                             say.pins: 14, say.host_look: 8, say.elsewhere: 4}


class Theirs(Generator):
    """A script of one subject."""

    def __init__(self, subject, seed, count):
        self.is_direct = subject == "direct"
        self.is_set_up = False
        super().__init__(seed, count, mood=SUBJECTS[subject])

    def set_sizes(self):
        """The sizes of QEMU's machine."""
        super().set_sizes()
        self.guests = self.pick(1, 1, 2, 3, 3, 5, 7)
        self.greatest, self.sources = GREATEST, SOURCES
        self.favourites = [self.pick(1, 2, 3, 5, 7), GREATEST - self.below(3)]
        self.favourites += [64 * self.below(4) + self.below(12) + 1 for _ in range(4)]
        self.sources_used = [1, SOURCES] + [self.below(SOURCES) + 1 for _ in range(3)]

    def put(self, text):
        """A line, where it can be told."""
        line = reading.read(text)
        if line is None or line[0] in UNTOLD_FORMS:
            return None
        form, fields = line
        if form == "machine":
            return self.put_machine(text, fields)
        if form == "inject" and fields[2] == 13 or form == "load_majors" and (
                (fields[2] | fields[3]) & 1 << 13):
            return None
        if not self.is_set_up or self.is_direct and not self.is_direct_line(form, fields):
            return None
        if form == "st" and ROOT <= fields[0] < CHILD + REGION_BYTES:
            return self.put_register(fields[0], fields[1])
        return super().put(text)

    def put_machine(self, text, fields):
        """The machine of this script, with what makes its domains deliver as QEMU's do."""
        if self.is_set_up or fields != [self.harts, self.guests, GREATEST, SOURCES]:
            return None
        self.is_set_up = True
        answer = super().put(text)
        for line in () if self.is_direct else SETUP:
            super().put(line)
        return answer

    def is_direct_line(self, form, fields):
        """Without interrupt files there are the APLIC's registers, wires and signals alone."""
        return form in DIRECT_FORMS and (form not in ("st", "ld")
                                         or ROOT <= fields[0] < CHILD + REGION_BYTES)

    def put_register(self, address, value):
        """DM is what QEMU has, the registers of MSI addresses stay where MSIs are sent, and no
        target of the child leads to a guest file, since whoever is there would get what the model
        gives to nobody."""
        offset = address % REGION_BYTES
        if offset in ADDRESS_OFFSETS and not self.is_direct:
            return None
        if offset == 0:
            value = value & ~DELIVERY_BY_MSI if self.is_direct else value | DELIVERY_BY_MSI
        if address > CHILD and 0x3000 < offset < 0x4000 and not self.is_direct:
            value &= ~((1 << self.guests.bit_length()) - 1 << 12)
        return super().put(f"st {address:#x} {value:#x}".encode())


def addresses_script(seed, count):
    """Stores to the registers of MSI addresses of both domains, now and then with the lock, and
    loads; no MSI is sent. A distance that is QEMU's own would be told to it as it tells ours."""
    draw = random.Random(f"addresses {seed}")
    guests = draw.choice((1, 2, 3, 7))
    lines = [f"machine 1 {guests} {GREATEST} {SOURCES}", f"st {ROOT:#x} 0x4", f"st {CHILD:#x} 0x4"]
    while len(lines) < count:
        offset = draw.choice(ADDRESS_OFFSETS)
        address = draw.choice((ROOT, ROOT, ROOT, CHILD)) + offset
        value = draw.getrandbits(32) & (0xffffffff if draw.random() < 0.02 else 0x7fffffff)
        if value >> 20 & 7 == guests.bit_length():
            value = value & ~0x700000 | 0x500000
        lines += [f"st {address:#x} {value:#x}", f"ld {address:#x}",
                  f"ld {ROOT + draw.choice(ADDRESS_OFFSETS):#x}"]
    return "".join(line + "\n" for line in lines[:count]).encode()


def random_script(subject, seed, count):
    """The script of a subject and a seed."""
    if subject == "addresses":
        return addresses_script(seed, count // 4)
    return Theirs(subject, seed, count).script()


if __name__ == "__main__":
    sys.exit(held.print_script(SUBJECTS, random_script, __doc__))
