"""A long recording in parts: each begins with the state so far.

A program's script has at most 16 MB. Where one has grown long, another begins: by lines of the
model it brings a new machine to where the model written apart is. That it is there is looked at,
field by field. What a cut can hide: an error of a program that left its state otherwise than the
model's before the cut, and that no answer before the cut shows.
"""

from lemdwab.apart.model import Machine
from lemdwab.apart.moves import ENTERED, RESIDENT

ROOT, CHILD = 0xc000000, 0xc008000
DOMAINCFG, ADDRESSES, SETIP, CLRIP, SETIE, TARGET = 0, 0x1bc0, 0x1c00, 0x1d00, 0x1e00, 0x3000
CONTROLS = (("idelivery", 0x4000), ("iforce", 0x4004), ("ithreshold", 0x4008))
DELIVERY, THRESHOLD, EIP, EIE = 0x70, 0x72, 0x80, 0xc0
# What a virtual hart keeps of its last move counts only while one goes on.
OF_MOVES = {"steps", "aims", "look_saw", "file", "majors", "passes"}


def lines_of(machine):
    """Lines that bring a new machine of the same sizes to the state of one."""
    yield from aplic(machine.aplic)
    yield from virtual_harts(machine)
    for level, files in (("m", machine.machine_files), ("h", machine.supervisor_files)):
        for hart, file in enumerate(files):
            yield from interrupt_file(level, hart, file)


def aplic(one):
    for at, value in enumerate(one.addresses.values()):
        yield f"st {ROOT + ADDRESSES + 4 * at:#x} {value:#x}"
    for source in range(1, one.sources + 1):
        if one.wires >> source & 1:
            yield f"wire {source} 1"
    for base, domain in ((ROOT, one.root), (CHILD, one.child)):
        yield f"st {base:#x} {4 * domain.by_msi:#x}"
        yield from sources(base, domain, one.sources)
        for name, offset in CONTROLS:
            for hart in range(one.harts):
                yield f"st {base + offset + 32 * hart:#x} {getattr(domain, name)[hart]:#x}"
    for base, domain in ((ROOT, one.root), (CHILD, one.child)):
        yield f"st {base:#x} {domain.is_on << 8 | domain.by_msi << 2:#x}"


def sources(base, domain, count):
    for source in range(1, count + 1):
        if domain.sourcecfg[source]:
            yield f"st {base + 4 * source:#x} {domain.sourcecfg[source]:#x}"
            yield f"st {base + TARGET + 4 * source:#x} {domain.targets[source]:#x}"
    for word in range(count // 32 + 1):
        pending = domain.pending >> 32 * word & 0xffffffff
        yield f"st {base + CLRIP + 4 * word:#x} {~pending & 0xffffffff:#x}"
        yield f"st {base + SETIP + 4 * word:#x} {pending:#x}"
        yield f"st {base + SETIE + 4 * word:#x} {domain.enabled >> 32 * word & 0xffffffff:#x}"


def interrupt_file(level, hart, file):
    csr = {"m": "mi", "h": "si"}[level]
    values = [(THRESHOLD, file.threshold), (DELIVERY, file.delivery)]
    for word in range((file.greatest + 1) // 64):
        pending, enabled = file.word(word)
        values += [(EIP + 2 * word, pending), (EIE + 2 * word, enabled)]
    for select, value in values:
        yield f"{level} {hart} csrrw {csr}select {select:#x}"
        yield f"{level} {hart} csrrw {csr}reg {value:#x}"
    yield f"{level} {hart} csrrw {csr}select {file.select:#x}"


def virtual_harts(machine):
    """The VMs; each virtual hart is loaded while it is parked, and then goes where it is. A guest
    file is the least that is free, so those of one hart are taken in their order."""
    for vm in machine.vms:
        yield f"vm {len(vm.harts)} {vm.mask:#x} {vm.harts[0].notice_hart}"
    names = [(f"{vm} {number}", hart) for vm, one in enumerate(machine.vms)
             for number, hart in enumerate(one.harts)]
    for name, hart in names:
        file, majors = hart.file, hart.majors
        yield (f"load {name} image 1 {file.greatest} {file.delivery} {file.threshold}"
               f" 0x{file.select:016x}")
        yield f"load {name} majors 0x{majors.injected:016x} 0x{majors.enabled:016x}"
        yield f"load {name} prio 0x{majors.hviprio1:016x} 0x{majors.hvictl:016x}"
        for word in range(hart.words):
            yield "load %s word %d 0x%016x 0x%016x" % (name, word, *file.word(word))
    for place, name in sorted((hart.origin, name) for name, hart in names if hart.home == RESIDENT):
        yield f"arrive {name} {place[0]}"
    for name, hart in names:
        if hart.home == ENTERED:
            yield f"enter {name}"


def state_of(machine: Machine):
    """All that a machine keeps and that may be shown by an answer."""
    one = machine.aplic
    return (machine.harts, machine.guests, machine.greatest, machine.sources, len(machine.passes),
            [vars(file) for file in machine.machine_files + machine.supervisor_files],
            one.wires, one.addresses, *(
                {name: value for name, value in vars(domain).items() if name != "aplic"}
                for domain in (one.root, one.child)),
            [(vm.mask, len(vm.harts), vm.flight) for vm in machine.vms],
            [({name: value for name, value in vars(hart).items() if name not in OF_MOVES},
              vars(hart.file), vars(hart.majors), hart.passes) for hart in machine.virtual_harts])
