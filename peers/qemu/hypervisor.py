"""What stands around the guest files of QEMU's harts: the VMs, their tables and slots, the moves.

QEMU has no IOMMU of RISC-V, and what a hypervisor does is software. So these are told by the model
written apart; but guest files, and all that reaches one, are QEMU's.
"""

from machine import GUEST, MACHINE_LEVEL, instruction

from lemdwab.apart.interrupt_file import requested
from lemdwab.apart.model import Machine, wide
from lemdwab.apart.moves import RESIDENT
from lemdwab.apart.refusals import unless

HSTATUS, HVIP, HVICTL, HVIPRIO1 = 0x600, 0x645, 0x609, 0x646
VSIE, VSISELECT, VSIREG = 0x204, 0x250, 0x251
GUEST_CSRS = {"select": 0x150, "reg": 0x151, "topei": 0x15c, "topi": 0xdb0, "sip": 0x144,
              "sie": 0x104}
DELIVERY, THRESHOLD, PENDING, ENABLES = 0x70, 0x72, 0x80, 0xc0
TRAPS = {2: "illegal", 22: "virtual"}
# What a step takes from the old place or puts into the new one, by which instruction; where both
# are empty in this table the step is no access of a file.
TAKES = {"TakeDelivery": DELIVERY, "TakePending": PENDING, "TakeEnables": ENABLES,
         "TakeThreshold": THRESHOLD}
PUTS = {"PutPending": (PENDING, "set"), "PutEnables": (ENABLES, "write"),
        "PutThreshold": (THRESHOLD, "write"), "PutDelivery": (DELIVERY, "write")}
NAMES = {PENDING: "pending", ENABLES: "enabled"}
WORD = (1 << 64) - 1


class Hypervisor(Machine):
    """The VMs. The file of a virtual hart here is its slot, with what has no room in one."""

    def __init__(self, bridge):
        super().__init__(bridge.harts, bridge.guests, 255, 96)
        self.bridge = bridge
        self.hands = {}  # what the move of a virtual hart has taken, and not yet put

    # Stores.

    def notify(self, hart):
        self.bridge.machine.store(self.bridge.file_address(hart.notice_hart, 0), hart.slot + 1)

    def store_for(self, hart, place, offset, value):
        if place is not None:
            self.bridge.machine.store(self.bridge.file_address(*place) + offset, value)
            return
        identity = requested(self.greatest, offset, value)
        hart.file.ask(identity)
        if identity and hart.file.enabled >> identity & 1:
            self.notify(hart)

    # Guest files.

    def reach(self, place, select, operation, value):
        """An access of the hypervisor to a register of a guest file: what it read."""
        hart, number = place
        entries = [(HSTATUS, "write", number << 12), (VSISELECT, "write", select),
                   (VSIREG, operation, value)]
        results = self.bridge.machine.run(hart, [
            (MACHINE_LEVEL, instruction(csr, how), operand) for csr, how, operand in entries])
        return results[-1][0]

    def take(self, hart, access, word):
        """A step takes a register of the old place, and leaves 0 there."""
        select = TAKES[access]
        if hart.origin is not None:
            return self.reach(hart.origin, select + 2 * word, "write", 0)
        members = getattr(hart.file, NAMES[select])
        setattr(hart.file, NAMES[select], members & ~(WORD << 64 * word))
        return members >> 64 * word & WORD

    def put(self, hart, access, word, value):
        """A step puts what was taken into the new place."""
        select, operation = PUTS[access]
        if hart.goal is not None:
            self.reach(hart.goal, select + 2 * word, operation, value)
            return
        name = NAMES[select]
        kept = getattr(hart.file, name)
        if operation == "write":
            kept &= ~(WORD << 64 * word)
        setattr(hart.file, name, kept | value << 64 * word)

    def step(self, vm, number):
        hart = self.hart_named(vm, number)
        unless(hart.is_moving(), "idle")
        access, word = hart.next_access()
        file = hart.file
        if access in ("TakeDelivery", "TakeThreshold"):
            setattr(file, access.removeprefix("Take").lower(), self.take(hart, access, word))
        elif access in TAKES:
            self.hands[hart] = self.take(hart, access, word)
        elif access in ("PutDelivery", "PutThreshold"):
            self.put(hart, access, word, getattr(file, access.removeprefix("Put").lower()))
        elif access in PUTS:
            self.put(hart, access, word, self.hands.pop(hart))
        return super().step(vm, number)

    # What a virtual hart does.

    def g(self, vm, number, csr, operation, operand):
        """Its hart gets what is the virtual hart's, does the instruction at the guest's level, and
        gives back what that may have changed."""
        hart = self.hart_named(vm, number)
        if hart.home != RESIDENT:
            return super().g(vm, number, csr, operation, operand)
        majors, place = hart.majors, hart.origin
        before = [(HSTATUS, place[1] << 12), (VSISELECT, hart.file.select),
                  (HVIP, majors.injected << 1), (HVICTL, majors.hvictl),
                  (HVIPRIO1, majors.hviprio1), (VSIE, majors.enabled)]
        entries = [(MACHINE_LEVEL, instruction(name, "write"), value) for name, value in before]
        entries.append((GUEST, instruction(GUEST_CSRS[csr], operation), operand))
        entries += [(MACHINE_LEVEL, instruction(name, "read"), 0) for name in (VSISELECT, HVIP)]
        entries.append((MACHINE_LEVEL, instruction(VSIE, "write"), 0))
        results = self.bridge.machine.run(place[0], entries)
        value, cause = results[len(before)]
        hart.file.select, injected, majors.enabled = (one[0] for one in results[-3:])
        majors.injected = injected >> 1
        return wide(value) if cause is None else TRAPS[cause]
