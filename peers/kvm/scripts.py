#!/usr/bin/env python3
"""Random scripts that KVM can answer, by subject: those of the model written apart, without the
lines of which KVM has nothing, and without those that are refused.

    scripts.py SUBJECT SEED COUNT    prints one

SUBJECT is files, aplic or moves; SEED is a number, and COUNT how many lines there are, at most.
"""

import sys
from pathlib import Path

sys.path.insert(0, str(Path(__file__).resolve().parents[2] / "tools"))
from lemdwab import held
from lemdwab.apart import model, reading, vocabulary as say
from lemdwab.apart.random_scripts import Generator

HERE = Path(__file__).resolve().parent
ROOT, CHILD, REGION_BYTES = 0x0c000000, 0x0c008000, 0x8000
FILES = 0x28000000
DELIVERY_BY_MSI = 4
MOST_GUESTS, MOST_SOURCES = 7, 60
ADDRESSES = ((0x1bc0, 0x24000), (0x1bc4, 0x2000), (0x1bc8, 0x28000), (0x1bcc, 0x500000))
SUBJECTS = {
    "files": {"st", "ld", "h", "pins"},
    "aplic": {"st", "ld", "wire", "h", "pins"},
    "moves": {"vm", "arrive", "leave", "shift", "msi", "ipi", "g", "hgeip", "enter", "exit"},
}
FILE_CSRS = {"select", "reg", "topei"}
SHOWN = {"illegal", "virtual"}  # refusals that are answers of a file
say.MOOD_WEIGHTS.update({
    "kvm files": {say.host: 60, say.host_file_store: 30, say.host_look: 12, say.pins: 14},
    "kvm aplic": {say.aplic_store: 60, say.aplic_load: 45, say.pulse: 45, say.host_look: 20,
                  say.host: 8, say.pins: 10},
    "kvm moves": {say.whole: 30, say.device_store: 40, say.ipi: 22, say.guest_look: 26,
                  say.guest: 16, say.hgeip: 12, say.enter: 8, say.leave_memory: 8},
})


class Theirs(Generator):
    """A script of one subject. A twin answers it, so that refused lines can be left out."""

    def __init__(self, subject, seed, count):
        self.subject = subject
        self.levels = {}
        super().__init__(seed, count, mood="kvm " + subject)
        self.twin = model.Script()

    def set_sizes(self):
        super().set_sizes()
        self.guests = self.pick(1, 1, 2, 3, 3, 5, MOST_GUESTS)
        self.sources = min(self.sources, MOST_SOURCES)
        self.sources_used = [1, self.sources] + [self.below(self.sources) + 1 for _ in range(3)]

    def put(self, text):
        """A line, where KVM has it and it is not refused."""
        line = reading.read(text)
        if line is None or line[0] == "bad":
            return None
        form, fields = line
        if form == "machine":
            return self.put_machine(text, fields)
        if form.startswith("begin"):  # KVM makes moves whole
            form, text = form.split("_")[1], text.removeprefix(b"begin ")
        if form not in SUBJECTS[self.subject] or not self.twin.machine:
            return None
        if not self.is_told(form, fields):
            return None
        if form == "st" and fields[0] == CHILD:
            text = b"st %#x %#x" % (CHILD, fields[1] | DELIVERY_BY_MSI)
        return self.put_accepted(form, text)

    def put_machine(self, text, fields):
        if self.twin.machine or fields != [self.harts, self.guests, self.greatest, self.sources]:
            return None
        self.put_accepted("machine", text)
        if self.subject == "aplic":
            stores = [(ROOT + offset, value) for offset, value in ADDRESSES]
            stores += [(ROOT + 4 * source, 0x400) for source in range(1, self.sources + 1)]
            for address, value in stores + [(CHILD, DELIVERY_BY_MSI)]:
                self.put_accepted("st", b"st %#x %#x" % (address, value))
        return None

    def put_accepted(self, form, text):
        answer = self.twin.answer(text)
        if answer not in ("ok", *SHOWN) and not answer.startswith(("0x", "pins")):
            return None
        self.lines.append(text)
        return None

    def is_told(self, form, fields):
        """Whether KVM has what a line names."""
        if form in ("st", "ld"):
            return (CHILD <= fields[0] < CHILD + REGION_BYTES and self.subject == "aplic"
                    or fields[0] >= FILES)
        if form == "vm":
            return not self.twin.machine.vms
        if form == "g":
            return fields[2] in FILE_CSRS
        if form == "shift":
            return self.is_elsewhere(*fields)
        if form == "wire":  # a level that stands already is told to no wire
            source, level = fields
            was, self.levels[source] = self.levels.get(source, 0), level
            return was != level
        return True

    def is_elsewhere(self, vm, number, hart):
        """KVM gives no other guest file of the same hart."""
        vms = self.twin.machine.vms
        if vm >= len(vms) or number >= len(vms[vm].harts):
            return False
        place = vms[vm].harts[number].origin
        return place is not None and place[0] != hart


def random_script(subject, seed, count):
    """The script of a subject and a seed."""
    return Theirs(subject, seed, count).script()


if __name__ == "__main__":
    sys.exit(held.print_script(SUBJECTS, random_script, __doc__))
