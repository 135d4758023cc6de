"""What the events of a trace say, as lines of scripts: one script of the whole machine, and one of
each guest file, of all that reaches it.

`Telling` is what is known at a place of the trace, with the machines that answer: the model written
apart, and the same with the rules of QEMU 7.2 and of KVM, which foresee what these answer else.
"""

import importlib.util
import sys
from collections import Counter
from pathlib import Path

import parts
from lemdwab.apart import reading
from lemdwab.apart.model import Machine
from lemdwab.apart.moves import ENTERED
from lemdwab.apart.refusals import Refused

HERE = Path(__file__).resolve().parent


def rules_of(peer):
    """The module of a peer's rules, under a name of its own."""
    name = f"{peer}_rules"
    if name not in sys.modules:
        spec = importlib.util.spec_from_file_location(name, HERE.parent / peer / "rules.py")
        sys.modules[name] = importlib.util.module_from_spec(spec)
        spec.loader.exec_module(sys.modules[name])
    return sys.modules[name]


QEMU, KVM = rules_of("qemu"), rules_of("kvm")
CSRS = {0x104: "sie", 0x144: "sip", 0x150: "siselect", 0x151: "sireg", 0x15c: "stopei",
        0xdb0: "stopi", 0x204: "vsie", 0x244: "vsip", 0x250: "vsiselect", 0x251: "vsireg",
        0x25c: "vstopei", 0xeb0: "vstopi", 0x600: "hstatus", 0x603: "hideleg", 0x604: "hie",
        0x607: "hgeie", 0x608: "hvien", 0x609: "hvictl", 0x645: "hvip", 0x646: "hviprio1",
        0x647: "hviprio2", 0xe12: "hgeip", 0x14d: "stimecmp"}
FILES_CSRS, MAJORS_CSRS = ("siselect", "sireg", "stopei"), ("stopi", "sip", "sie")
LINE_OF = {"csrr": "csrr", "csrrw": "csrrw", "csrw": "csrrw", "csrrs": "csrrs", "csrs": "csrrs",
           "csrrc": "csrrc", "csrc": "csrrc"}
ROOT, CHILD, MACHINE_FILES, FILES = 0xc000000, 0xd000000, 0x24000000, 0x28000000
OUR_CHILD, OUR_FILES_OF_HART, ADDRESSES = 0xc008000, 0x20000, range(0x1bc0, 0x1bd0)
# QEMU's machine here: four pages a hart, of which three are of guest files; the wired disk.
PAGES_OF_HART, WIRED = 0x4000, 8
SIZES = (4, 3, 255, 96)
HARTS, NOTICE_HART, VMS = 2, 3, 8
DELIVERY, THRESHOLD, EIP, EIE = 0x70, 0x72, 0x80, 0xc0
VGEIN = 12
STEPS = {"arrive": 22, "shift": 24, "leave": 28}  # of 255 identities
# What KVM notes, as kernel/edit.py has it.
TAKEN, SWITCHED, PUT, LEAVES, LEFT, ENDED = 1, 2, 3, 4, 5, 6
TO_FILE, TO_SOFTWARE, IN_SOFTWARE, COPIED, BEFORE, BEHIND = 7, 8, 9, 10, 11, 12
ROUTED, READ, FREED = 13, 14, 15
NOT_SHOWN = "-"
# A script that is as long is cut where nothing moves: the program takes no more than 16 MB.
CUT_AT, MOST_BYTES = 12_000_000, 16_777_216


class LinuxMachine(QEMU.TheirMachine):
    """The machine of QEMU; of a virtual hart in memory KVM answers."""

    def __init__(self, *sizes):
        super().__init__(False, *sizes)

    def g(self, vm, number, csr, operation, operand):
        hart = self.hart_named(vm, number)
        if hart.home != ENTERED:
            return super().g(vm, number, csr, operation, operand)
        hart.file.__class__ = KVM.SoftwareFile
        try:
            return Machine.g(self, vm, number, csr, operation, operand)
        finally:
            hart.file.__class__ = QEMU.File


class MendedMachine(LinuxMachine):
    """The same where KVM reads and writes words of 64 bits: `tell_half`."""

    def g(self, vm, number, csr, operation, operand):
        return QEMU.TheirMachine.g(self, vm, number, csr, operation, operand)


def number_of(place):
    return f"{place[0]}-{place[1]}"


def group(select):
    """What a select number names."""
    if select in (DELIVERY, THRESHOLD):
        return "eidelivery" if select == DELIVERY else "eithreshold"
    return {0x80: "eip", 0xc0: "eie", 0x00: "iprio"}.get(select & 0xc0, hex(select))


class Pair:
    """A machine of the model written apart, and one of the peers' rules."""

    def __init__(self, theirs, sizes):
        self.machines = Machine(*sizes), theirs(*sizes)

    def answers(self, text):
        name, fields = reading.read(text.encode())
        for machine in self.machines:
            try:
                yield getattr(machine, name)(*fields)
            except Refused as refused:
                yield refused.word


class Script:
    """The lines of a script, with what the trace has, what is foreseen, which bits are shown."""

    def __init__(self, name):
        self.name = name
        self.bytes = 0
        self.lines, self.wanted, self.ours, self.foreseen, self.masks = [], [], [], [], {}

    def put(self, text):
        self.lines.append(text)
        self.bytes += len(text) + 1

    def cut(self, length):
        """Forgets what came behind a place."""
        self.bytes -= sum(len(text) + 1 for text in self.lines[length:])
        for part in (self.lines, self.wanted, self.ours, self.foreseen):
            del part[length:]
        self.masks = {at: mask for at, mask in self.masks.items() if at < length}

    def known(self):
        """Where the model written apart answers otherwise than the trace."""
        for at, (wanted, ours, foreseen) in enumerate(zip(self.wanted, self.ours, self.foreseen)):
            if not fits(wanted, ours, self.masks.get(at)):
                yield f"{at}|{ours}|{foreseen}"


def fits(wanted, answer, mask=None):
    """Whether an answer is what the trace has, in the bits that are shown."""
    if wanted == NOT_SHOWN or wanted == answer:
        return True
    if mask is None or not answer.startswith("0x"):
        return False
    return int(wanted, 16) & mask == int(answer, 16) & mask


class Telling:
    """What is known at a place of the trace."""

    def __init__(self, theirs=LinuxMachine):
        self.theirs = theirs
        self.pairs = {}
        self.parts = Counter()  # of a script: how many have been begun
        self.counts = Counter()
        self.select = {}  # of (letter, hart), and of virtual harts
        self.hstatus = Counter()
        self.owner = {}  # of (hart, file): (VM, virtual hart)
        self.place = {}  # of (VM, virtual hart): parked, entered, or (hart, file)
        self.coming = {}  # of a virtual hart that moves: its old place, its new one
        self.early = {}  # of one whose move was told as done before its end: its new place
        self.quiet = set()  # those of which KVM has taken eidelivery
        self.owed = {}  # of a virtual hart: what it wrote to sie while it was in memory
        self.given_up = set()  # harts where KVM delegates nothing more
        self.on_hart = {}  # of a hart: the virtual hart last seen there
        self.told = {}  # of a hart: the virtual hart to whose file KVM is about to store
        self.left = set()  # files that KVM gave back as they stood
        self.base = self.vms = 0  # the first VM of this workload; how many there are
        self.aim = None  # where the wired disk's MSIs go: hart, identity
        self.causes = False  # whether the last event may have made the APLIC send
        self.level = 0
        self.waiting = []
        self.missed = False
        self.moved = {}  # of (VM, virtual hart, identity): a store within a move, not seen yet

    def begin(self, out):
        """The machine, and what no trace has of the firmware."""
        self.pair("host", SIZES, out)
        for address, value in ((0x1bc0, 0x24000), (0x1bc4, 0x2000), (0x1bc8, 0x28000),
                               (0x1bcc, 0x500000)):
            self.host(out, f"st {ROOT + address:#x} {value:#x}", "ok")
        for hart in range(HARTS):
            for select, line in ((THRESHOLD, "csrrw mireg 0"), (DELIVERY, "csrrw mireg 1"),
                                 (EIE, "csrrs mireg 2")):
                self.host(out, f"m {hart} csrrw miselect {select:#x}")
                self.host(out, f"m {hart} {line}")

    def pair(self, name, sizes, out):
        if name not in self.pairs:
            self.pairs[name] = Pair(self.theirs, sizes)
            self.begin_part(out, name, sizes)
        return self.pairs[name]

    def begin_part(self, out, name, sizes):
        """A script begins, or another part of one."""
        self.parts[name] += 1
        part = self.part(name)
        script = out.setdefault(part, Script(part))
        script.put("machine %d %d %d %d" % sizes)
        for column in (script.wanted, script.ours, script.foreseen):
            column.append("ok")

    def part(self, name):
        return name if self.parts[name] == 1 else f"{name}-part-{self.parts[name]}"

    def cut_where_long(self, out):
        """Another part begins of each script that is long; not while something moves or waits."""
        for name in list(self.pairs):
            size = out[self.part(name)].bytes
            if size > MOST_BYTES - 100_000:
                raise ValueError(f"{name} is too long, and was not to be cut")
            if size > CUT_AT and not self.coming and not self.early and not self.waiting:
                self.cut(out, name)

    def cut(self, out, name):
        """Another part of a script, which begins with the state so far."""
        ours, theirs = self.pairs[name].machines
        sizes = ours.harts, ours.guests, ours.greatest, ours.sources
        pair = Pair(Machine, sizes)
        lines = [(text, *pair.answers(text)) for text in parts.lines_of(ours)]
        anew = pair.machines[0]
        if parts.state_of(anew) != parts.state_of(ours):
            return  # its guest files were taken in another order than a new machine takes them
        self.begin_part(out, name, sizes)
        for text, answer, _ in lines:
            self.put(out, name, text, NOT_SHOWN, answer, answer)
        self.pairs[name].machines = anew, theirs
        self.count("cuts", name)

    def put(self, out, name, text, *answers):
        """A line of a script: what the trace has, the model's answer, and what is foreseen."""
        script = out[self.part(name)]
        script.put(text)
        for column, answer in zip((script.wanted, script.ours, script.foreseen), answers):
            column.append(answer)

    def line(self, out, name, text, wanted=NOT_SHOWN, mask=None):
        """A line of a script, with the answer of the trace."""
        script = out[self.part(name)]
        if mask is not None:
            script.masks[len(script.lines)] = mask
        ours, foreseen = self.pairs[name].answers(text)
        self.put(out, name, text, wanted, ours, foreseen)
        self.missed |= not fits(wanted, foreseen, mask)

    def host(self, out, *given):
        self.line(out, "host", *given)

    def file(self, out, place, *given):
        """A line of the script of one guest file, which stands there as a hart's own."""
        name = "file-" + number_of(place)
        self.pair(name, (1, 0, 255, 1), out)
        self.line(out, name, *given)

    def count(self, *key):
        self.counts[key] += 1

    # Events.

    def take(self, out, event):
        """An event but accesses to CSRs, whose place is chosen elsewhere."""
        causes, self.causes = self.causes, False
        getattr(self, f"take_{event.kind}")(out, event, causes)

    def take_p(self, *_):
        """A workload begins: no line."""

    def take_v(self, out, event, _):
        self.base = self.vms
        if self.vms + event.one > VMS:
            raise ValueError(f"more than {VMS} VMs, which no script has")
        for _ in range(event.one):
            self.host(out, f"vm {event.other} 0x3 {NOTICE_HART}", "ok")
            for number in range(event.other):
                self.place[self.vms, number] = "parked"
            self.vms += 1

    def take_i(self, out, event, _):
        """A level that is told again is none."""
        if event.one != self.level:
            self.level = event.one
            self.host(out, f"wire {WIRED} {self.level}", "ok")
            self.count("lines", "wire")
        self.causes = True

    def take_t(self, out, event, _):
        self.count("compared", "pins, at a trap of a supervisor external interrupt")
        self.host(out, f"pins {event.one}", "pins 0 0 0 1")

    def spot(self, address):
        """Which page an address is of: its kind, its hart, its guest file; and the offset."""
        if address >= FILES:
            hart, rest = divmod(address - FILES, PAGES_OF_HART)
            return "supervisor", hart, rest >> 12, address & 0xfff
        if address >= MACHINE_FILES:
            return "machine", address - MACHINE_FILES >> 12, 0, address & 0xfff
        return "child" if address >= CHILD else "root", 0, 0, address & 0x7fff

    def ours(self, address):
        """The same place in the model's map."""
        kind, hart, number, offset = self.spot(address)
        if kind == "supervisor":
            return FILES + hart * OUR_FILES_OF_HART + number * 0x1000 + offset
        if kind == "machine":
            return MACHINE_FILES + hart * 0x1000 + offset
        return (OUR_CHILD if kind == "child" else ROOT) + offset

    def take_r(self, out, event, _):
        kind, _, number, offset = self.spot(event.one)
        if event.third or number:
            self.count("no line", "a load of another size, or from a guest file")
            return
        is_address = kind in ("root", "child") and offset in ADDRESSES
        self.count("no line" if is_address else "compared", f"ld of {kind}")
        self.host(out, f"ld {self.ours(event.one):#x}",
                  NOT_SHOWN if is_address else f"0x{event.other:08x}")

    def take_w(self, out, event, causes):
        kind, hart, number, offset = self.spot(event.one)
        if event.third:
            self.count("no line", "a store of another size")
        elif kind in ("root", "child"):
            self.store_aplic(out, event, kind, offset)
        elif kind == "machine":
            self.count("lines", "st of machine")
            self.host(out, f"st {self.ours(event.one):#x} {event.other:#x}", "ok")
            self.host(out, f"m {hart} csrrw mtopei 0")  # the firmware's, which no trace has
        elif number:
            self.store_guest(out, event, (hart, number), offset)
        elif causes and (hart, event.other) == self.aim:
            self.count("no line", "an MSI of the APLIC itself")
            self.causes = True
        else:
            who = "device" if event.hart < 0 else "hart"
            self.count("lines", f"st of supervisor, by a {who}")
            self.host(out, f"st {self.ours(event.one):#x} {event.other:#x}", "ok")

    def store_aplic(self, out, event, kind, offset):
        self.causes = True
        if offset in ADDRESSES:
            self.count("no line", "st of a register of MSI addresses, replaced")
            return
        if kind == "child" and offset == 0x3000 + 4 * WIRED:
            self.aim = event.other >> 18, event.other & 0x7ff
        self.count("lines", f"st of {kind}")
        self.host(out, f"st {self.ours(event.one):#x} {event.other:#x}", "ok")

    def store_guest(self, out, event, place, offset):
        """A store to the page of a guest file: by KVM, by a guest, or by somebody unknown."""
        self.file(out, place, f"st {FILES + offset:#x} {event.other:#x}", "ok")
        who = self.owner.get(place)
        if who is None:
            self.count("no line", "a store to a guest file of nobody")
            return
        vm, number = who
        if who in self.coming:
            where = "new" if self.coming[who][1] == place else "old"
            self.within_move(who, event.other, f"to the {where} file")
        sender = self.on_hart.get(event.hart)
        by_kvm = self.told.pop(event.hart, None) == who
        if not by_kvm and sender and sender[0] == vm and not offset and (
                self.place[sender] != "parked" and sender not in self.coming):
            self.count("lines", "g .. ipi, by a guest itself")
            self.host(out, f"g {vm} {sender[1]} ipi {number} {event.other:#x}", "ok")
            return
        self.count("lines", "msi, by KVM" if by_kvm else
                   "msi, by a guest: at offset 4, as it moves, or not seen yet")
        self.host(out, f"msi {vm} {self.page(number) + offset:#x} {event.other:#x}", "ok")

    def page(self, number):
        """The page where a VM has the file of a virtual hart."""
        return FILES + 0x1000 * number

    def within_move(self, who, identity, where):
        """A store for a virtual hart that moves: it is followed to where its guest sees it."""
        self.count("stores within moves", where)
        if not 0 < identity < 256:
            self.count("stores within moves", "of no identity")
            return
        vm, number = who
        file = self.pairs["host"].machines[0].vms[vm].harts[number].file
        if file.pending >> identity & 1:
            self.count("stores within moves", "of one that was pending already")
        else:
            self.moved[vm, number, identity] = True

    def seen(self, who, first, bits, how):
        """Identities that a guest has seen pending."""
        for vm, number, identity in list(self.moved):
            if (vm, number) == who and identity >= first and bits >> identity - first & 1:
                del self.moved[vm, number, identity]
                self.count("stores within moves", how)

    # What KVM notes.

    def take_n(self, out, event, _):
        kind = event.one
        who = self.base + (event.other >> 4), event.other & 15
        place = event.third >> 8, event.third & 0xff
        if kind == TAKEN:
            self.move_begins(out, who, place)
        elif kind == SWITCHED:
            self.left.discard(place)  # KVM has zeroed it
        elif kind == PUT:
            self.early.pop(who, None)
            if who in self.coming:
                self.finish(out, who)
            if who in self.owed:
                self.host(out, f"g {who[0]} {who[1]} csrrw sie {self.owed.pop(who):#x}")
        elif kind == LEAVES:
            if who in self.coming:
                raise ValueError(f"virtual hart {who[1]} of VM {who[0]} leaves a file while it is"
                                 " moved: docs/PEERS.md has what KVM loses then")
            self.host(out, "begin leave %d %d" % who, "ok")
            self.coming[who] = place, "parked"
            self.count("moves", "leave")
        elif kind == LEFT:
            self.finish(out, who)
        elif kind == ENDED:
            who = self.owner.pop(place, None)
            self.left.add(place)
            if who:
                self.host(out, "leave %d %d" % who, "ok")
                self.place[who] = "parked"
                self.count("moves", "a file given back as its VM ends")
        elif kind == TO_FILE:
            self.told[event.hart] = who

    def inject(self, out, event):
        """KVM's store to a software file."""
        who = self.base + (event.other >> 4), event.other & 15
        if who in self.coming:
            self.within_move(who, event.third, "to the software file")
        self.count("lines", "msi, by KVM to a software file")
        self.host(out, f"msi {who[0]} {self.page(who[1]):#x} {event.third:#x}", "ok")

    def move_begins(self, out, who, place):
        other = self.owner.get(place)
        if other in self.coming and self.coming[other][0] == place:
            self.count("moves", "a file taken of which the old owner's move goes on")
            self.early[other] = self.coming[other][1]
            self.finish(out, other)
        if self.place[who] == "entered":
            self.host(out, "exit %d %d" % who, "ok")
            self.place[who] = "parked"
        kind = "arrive" if self.place[who] == "parked" else "shift"
        self.host(out, f"begin {kind} {who[0]} {who[1]} {place[0]}", "ok")
        self.count("moves", kind)
        self.coming[who] = self.place[who], place
        self.owner[place] = who

    def finish(self, out, who):
        """All steps of a move that are left."""
        old, new = self.coming.pop(who)
        kind = "leave" if new == "parked" else "arrive" if old == "parked" else "shift"
        for _ in range(STEPS[kind] - 1 - (who in self.quiet)):
            self.host(out, "step %d %d" % who, "moving")
        self.host(out, "step %d %d" % who, "done")
        self.quiet.discard(who)
        if isinstance(old, tuple) and self.owner.get(old) == who:
            del self.owner[old]
        self.place[who] = new

    # Accesses to CSRs: what they are to be held against, and their lines.

    def file_of(self, one):
        """The guest file that an access to `vsireg` reaches; None where there is none."""
        number = self.hstatus[one.hart] >> VGEIN & 0x3f
        return (one.hart, number) if number else None

    def instruction(self, one):
        name = CSRS[one.csr]
        operand = "" if one.operation == "csrr" else f" {one.written:#x}"
        return f"{LINE_OF[one.operation]} {name}{operand}"

    def access(self, out, one):
        """An access takes effect here."""
        (self.kernel if one.guest is None else self.guest)(out, one)

    def kernel(self, out, one):
        name, hart = CSRS[one.csr], one.hart
        shown = f"0x{one.read:016x}" if one.answers() else NOT_SHOWN
        if name in FILES_CSRS:
            if name == "siselect":
                self.select["s", hart] = one.written
            self.count("compared" if one.answers() else "lines", f"h .. {one.operation} {name}" + (
                f" of {group(self.select.get(('s', hart), 0))}" if name == "sireg" else ""))
            self.host(out, f"h {hart} {self.instruction(one)}", shown)
        elif name == "hgeip":
            self.kernel_hgeip(out, one, shown)
        else:
            self.kernel_beside(out, one, name, shown)

    def kernel_hgeip(self, out, one, shown):
        """Files that KVM left as they stood when a VM ended are hidden, and those of moves."""
        moving = {place for places in self.coming.values() for place in places}
        moving.update(self.early.values())
        left = self.left | {place for place in moving if isinstance(place, tuple)}
        hidden = {number for hart, number in left if hart == one.hart}
        mask = None
        if hidden:
            mask = (1 << 64) - 1 - sum(1 << number for number in hidden)
        if one.read & sum(1 << number for hart, number in self.left if hart == one.hart):
            self.count("seen", "hgeip shows a file of a VM that has ended")
        self.count("compared", "h .. hgeip" + (", but for files that move or are left"
                                               if hidden else ""))
        self.host(out, f"h {one.hart} hgeip", shown, mask)

    def kernel_beside(self, out, one, name, shown):
        """CSRs that have no line for a host; by `vsireg` KVM reaches a guest file."""
        hart = one.hart
        if name == "hstatus" and one.operation == "csrw":
            self.hstatus[hart] = one.written
        if name == "vsiselect" and one.operation == "csrw":
            self.select["v", hart] = one.written
        if name == "hideleg":
            (self.given_up.discard if one.written else self.given_up.add)(hart)
        place = self.file_of(one)
        if name == "vsireg" and place:
            select, who = self.select.get(("v", hart), 0), self.owner.get(place)
            if (select == DELIVERY and one.operation == "csrrw" and who not in self.quiet
                    and who in self.coming and self.coming[who][0] == place):
                self.host(out, "step %d %d" % who, "moving")
                self.quiet.add(who)
            self.count("compared" if one.answers() else "lines",
                       f"vsireg {one.operation} of {group(select)}, of a guest file alone")
            self.file(out, place, f"h 0 csrrw siselect {select:#x}")
            self.file(out, place, f"h 0 {self.instruction(one).replace('vsireg', 'sireg')}", shown)
            return
        if name == "stopi" and one.answers():
            # Linux enables 9, which comes before 5, 12 and 13: it is shown where the file signals.
            self.count("compared", "pins, at the host's stopi")
            self.host(out, f"pins {hart}", f"pins 0 0 0 {int(one.read >> 16 == 9)}")
            return
        self.count("no line", f"the host's {name}")

    def guest(self, out, one):
        who = self.base + (one.guest >> 4), one.guest & 15
        name = CSRS[one.csr]
        self.on_hart[one.hart] = who
        if name == "siselect":
            self.select[who] = one.written
        if name == "hviprio1":  # as user space set it before the guest began
            self.host(out, f"hviprio {who[0]} {who[1]} {one.written:#x}", "ok")
            return
        if name == "stimecmp":
            self.count("lines", "inject 5, at a guest's stimecmp")
            self.host(out, f"inject {who[0]} {who[1]} 5 {int(not one.written)}", "ok")
            return
        if one.hart in self.given_up and name in MAJORS_CSRS:
            self.count("no line", f"{name} of a guest that runs on after KVM has given up its hart")
            return
        if self.place[who] == "parked" and who not in self.coming:
            self.host(out, "enter %d %d" % who, "ok")
            self.place[who] = "entered"
        place = self.place[who]
        if place == "entered" and name in MAJORS_CSRS:
            self.count("no line", f"{name} of a guest in memory")
            if name == "sie" and one.operation == "csrrw":
                self.owed[who] = one.written
            return
        if who in self.coming:
            self.count("seen", "an access of a guest within its move")
        where = "memory" if place == "entered" else "a guest file"
        self.count("compared", f"g .. {one.operation} {name}, in {where}")
        shown = f"0x{one.read:016x}" if one.answers() else NOT_SHOWN
        self.host(out, "g %d %d " % who + self.instruction(one), shown)
        if isinstance(place, tuple) and name in ("sireg", "stopei"):
            if name == "sireg":
                self.file(out, place, f"h 0 csrrw siselect {self.select.get(who, 0):#x}")
            self.file(out, place, f"h 0 {self.instruction(one)}", shown)
        if name == "stopei" and one.answers() and one.operation != "csrr":
            self.seen(who, one.read & 0x7ff, int(one.read != 0), "claimed by their guest")
        elif name == "sireg" and EIP <= self.select.get(who, 0) < EIE:
            self.seen(who, 32 * (self.select[who] & 0x3f), one.read, "read by their guest")

    # Torn claims.

    def file_on_top(self, one):
        """The file that an access to `stopei` reaches, by the rules; None where KVM answers."""
        machine = self.pairs["host"].machines[1]
        if one.guest is None:
            return machine.supervisor_files[one.hart]
        who = self.base + (one.guest >> 4), one.guest & 15
        return None if self.place[who] == "entered" else machine.vms[who[0]].harts[who[1]].file

    def live(self, one):
        """The identities that may be on top."""
        file = self.file_on_top(one)
        if file is None:
            return None
        live = file.pending & file.enabled
        return live & (1 << file.threshold) - 1 if file.threshold else live

    def tear(self, out, one, before):
        """A claim of an identity although lower ones came since it began: it is taken away by
        lines that are not compared. Gives whether that may be."""
        identity, live = one.read & 0x7ff, self.live(one)
        if live is None or not live >> identity & 1 or live & before & (1 << identity) - 1:
            return False
        self.count("no line", "a torn claim, or look")
        if one.operation == "csrr":
            return True
        who = None if one.guest is None else (self.base + (one.guest >> 4), one.guest & 15)
        select = self.select.get(who or ("s", one.hart), 0)
        place = self.place[who] if who else None
        texts = [f"csrrw siselect {EIP + identity // 64 * 2:#x}",
                 f"csrrc sireg {1 << identity % 64:#x}", f"csrrw siselect {select:#x}"]
        for text in texts:
            self.host(out, ("g %d %d " % who if who else f"h {one.hart} ") + text)
        if isinstance(place, tuple):
            for text in texts[:2]:
                self.file(out, place, "h 0 " + text)
        if who:
            self.seen(who, identity, 1, "claimed by their guest")
        return True

    def peek(self, one):
        """Whether an access would read here what the trace has; True where that can't be said."""
        name, shown = CSRS[one.csr], f"0x{one.read:016x}"
        if one.guest is not None:
            who = self.base + (one.guest >> 4), one.guest & 15
            text = "g %d %d csrr " % who + name
            is_told = name in FILES_CSRS or (
                name in MAJORS_CSRS and isinstance(self.place[who], tuple))
            is_told &= self.place[who] != "parked"
        elif name == "vsireg" and self.file_of(one):
            return not one.answers() or self.peek_file(one)
        elif name == "stopi":
            # As in kernel_beside.
            text, shown = f"pins {one.hart}", f"pins 0 0 0 {int(one.read >> 16 == 9)}"
            is_told = True
        else:
            text, is_told = f"h {one.hart} csrr {name}", name in FILES_CSRS
        return not one.answers() or not is_told or (
            list(self.pairs["host"].answers(text))[1] == shown)

    def peek_file(self, one):
        name = "file-" + number_of(self.file_of(one))
        if name not in self.pairs:
            return True
        file = self.pairs[name].machines[1].supervisor_files[0]
        kept, file.select = file.select, self.select.get(("v", one.hart), 0)
        try:
            return list(self.pairs[name].answers("h 0 csrr sireg"))[1] == f"0x{one.read:016x}"
        finally:
            file.select = kept
