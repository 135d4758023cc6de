"""The scripts of the benches, the same ones each time; bench/README.md says what each is for."""

from collections.abc import Callable, Iterable, Iterator

from lemdwab.chance import Chance

# So many bytes has a script that is filled up: one has at most 16,777,216.
BYTES = 15_500_000
ROOT = 0x0c000000
CHILD = ROOT + 0x8000
# The page of the first file of supervisor level, and how far others are from it.
PAGE, NEXT_HART, NEXT_FILE = 0x28000, 32, 8
ALL = "0xffffffffffffffff"
NAMES = (
    "files-63 files-2047 tops-63 tops-2047 sources-8 sources-1023 topi-8 topi-1023 direct-8"
    " direct-1023 direct-random-1023 msi-8 msi-1023 stores-host stores-device devices-4 devices-32"
    " flights-0 flights-1 flights-8 guests stopei-file-63 stopei-file-2047 stopei-memory-63"
    " stopei-memory-2047 generated moves-63 moves-2047 moves-63-many steps-63-1 steps-63-4"
    " steps-63-16 steps-63-32 steps-2047-1 steps-2047-4 steps-2047-16 steps-2047-32").split()


class Bench:
    """A script by chance: its beginning, and its body, of which a line comes at a time."""

    def __init__(self) -> None:
        self.chance = Chance(1)
        self.below = self.chance.rest

    def head(self) -> Iterator[str]:
        """The lines that begin it."""
        raise NotImplementedError

    def body(self) -> Iterator[str]:
        """The lines that follow, without an end."""
        raise NotImplementedError

    def filled(self) -> Iterator[str]:
        """The script with as many lines of its body as fill it up."""
        size = 0
        for line in self.head():
            size += len(line) + 1
            yield line
        for line in self.body():
            if size >= BYTES:
                return
            size += len(line) + 1
            yield line


class Files(Bench):
    """The machine-level and supervisor files of four harts. Of 16 lines of its body, on average, 5
    store to a file, in either byte order, 5 claim, 3 read what is on top, 1 selects an enable
    register, and 2 set or clear a bit of the selected one. Between a third and a half of the claims
    and reads find nothing on top."""

    def __init__(self, greatest: int) -> None:
        super().__init__()
        self.greatest, self.words = greatest, (greatest + 1) // 64

    def head(self) -> Iterator[str]:
        yield f"machine 4 0 {self.greatest} 1"
        for hart in range(4):
            for level, csr in (("m", "mi"), ("h", "si")):
                for word in range(self.words):
                    yield f"{level} {hart} csrrw {csr}select 0x{192 + 2 * word:x}"
                    yield f"{level} {hart} csrrw {csr}reg {ALL}"

    def body(self) -> Iterator[str]:
        while True:
            hart, at_machine = self.below(4), self.below(2)
            who, level = (f"m {hart}", "m") if at_machine else (f"h {hart}", "s")
            kind = self.below(16)
            if kind < 5:
                first = 0x24000000 + hart * 0x1000 if at_machine else 0x28000000 + hart * 0x20000
                yield self.store(first, 1 + self.below(self.greatest))
            elif kind < 10:
                yield f"{who} csrrw {level}topei 0"
            elif kind < 13:
                yield f"{who} csrr {level}topei"
            elif kind < 14:
                yield f"{who} csrrw {level}iselect 0x{192 + 2 * self.below(self.words):x}"
            else:
                operation = "csrrc" if kind < 15 else "csrrs"
                yield f"{who} {operation} {level}ireg 0x{1 << self.below(64):x}"

    def store(self, page: int, identity: int) -> str:
        """A store of an identity, little-endian at offset 0 of the page or big-endian at 4."""
        if self.below(2):
            return f"st 0x{page:x} {identity}"
        return f"st 0x{page + 4:x} 0x{identity % 256:02x}{identity // 256:02x}0000"


class Sources(Bench):
    """Wired sources and both domains of the APLIC. Of 16 lines of its body, on average, 6 give a
    wire a level, 2 write and 2 read a word of sources, 3 write by number, 1 writes a target, 1 a
    sourcecfg, and 1 reads one."""

    def __init__(self, sources: int) -> None:
        super().__init__()
        self.sources = sources

    def head(self) -> Iterator[str]:
        yield f"machine 4 0 63 {self.sources}"
        for source in range(1, self.sources + 1):
            if source % 2 == 0:
                yield f"st 0x{ROOT + 4 * source:x} 0x400"
            domain = ROOT if source % 2 else CHILD
            yield f"st 0x{domain + 4 * source:x} {4 + source % 4}"

    def body(self) -> Iterator[str]:
        while True:
            domain = (ROOT, CHILD)[self.below(2)]
            source = 1 + self.below(self.sources)
            kind = self.below(16)
            if kind < 6:
                yield f"wire {source} {self.below(2)}"
            elif kind < 8:
                register = 0x1d00 + 0x200 * self.below(2) + 4 * (source // 32)
                yield f"st 0x{domain + register:x} 0x{self.below(32768):x}"
            elif kind < 10:
                yield f"ld 0x{domain + 0x1c00 + 0x100 * self.below(3) + 4 * (source // 32):x}"
            elif kind < 13:
                yield f"st 0x{domain + 0x1cdc + 0x100 * self.below(3):x} {source}"
            elif kind < 14:
                yield f"st 0x{domain + 0x3000 + 4 * source:x} {1 + self.below(255)}"
            elif kind < 15:
                own = ROOT if source % 2 else CHILD
                yield f"st 0x{own + 4 * source:x} {4 + self.below(4)}"
            else:
                yield f"ld 0x{domain + 4 * source:x}"


class Delivery(Bench):
    """Wired sources of the root domain, which rise and fall. All are rising edges and enabled, and
    aim at the one hart: by an MSI of the source's own number to the machine-level file, or
    directly, with priority 1. Of 16 lines of its body, on average, 15 change the level of a wire,
    so half of those are rises, and 1 is a claim.

    By chance each source has a priority from 1 to 255. Then each line changes the level of a wire,
    and a claim follows on nine of ten rises, on average."""

    def __init__(self, sources: int, by_msi: bool, by_chance: bool = False) -> None:
        super().__init__()
        self.sources, self.by_msi, self.by_chance = sources, by_msi, by_chance
        self.level = [0] * (sources + 1)

    def head(self) -> Iterator[str]:
        yield f"machine 1 0 2047 {self.sources}"
        if self.by_msi:
            yield f"st 0x{ROOT + 0x1bc0:x} 0x24000"  # mmsiaddrcfg: the page of the file
            yield f"st 0x{ROOT + 0x1bc4:x} 0x0"
            for register in range(0, 2 * (self.sources // 64) + 1, 2):
                yield f"m 0 csrrw miselect 0x{192 + register:x}"
                yield f"m 0 csrrw mireg {ALL}"
            yield "m 0 csrrw miselect 0x70"  # eidelivery
            yield "m 0 csrrw mireg 0x1"
        else:
            yield f"st 0x{ROOT + 0x4000:x} 1"  # idelivery
        # domaincfg: IE, and DM where it is by MSIs
        yield f"st 0x{ROOT:x} 0x{0x104 if self.by_msi else 0x100:x}"
        for source in range(1, self.sources + 1):
            yield f"st 0x{ROOT + 4 * source:x} 4"
            target = source if self.by_msi else 1 + self.below(255) if self.by_chance else 1
            yield f"st 0x{ROOT + 0x3000 + 4 * source:x} {target}"
        for word in range(32):
            yield f"st 0x{ROOT + 0x1e00 + 4 * word:x} 0xffffffff"  # setie

    def body(self) -> Iterator[str]:
        claim = "m 0 csrrw mtopei 0" if self.by_msi else f"ld 0x{ROOT + 0x401c:08x}"
        while True:
            if not self.by_chance and self.below(16) == 0:
                yield claim
                continue
            source = 1 + self.below(self.sources)
            self.level[source] = 1 - self.level[source]
            yield f"wire {source} {self.level[source]}"
            if self.by_chance and self.level[source] and self.below(10) < 9:
                yield claim


class Stores(Bench):
    """Stores of devices of some VMs, each with four virtual harts, to their slots of memory, in
    either byte order; or of the host to the supervisor files of four harts at the same addresses,
    in lines of the same length."""

    def __init__(self, vms: int, of_host: bool = False) -> None:
        super().__init__()
        self.vms, self.of_host = vms, of_host

    def head(self) -> Iterator[str]:
        yield "machine 4 0 63 1"
        for vm in range(self.vms):
            yield f"vm 4 0x60 {vm % 4}"

    def body(self) -> Iterator[str]:
        while True:
            vm = self.below(self.vms)
            where, what = stored(self.below)
            yield f"st 0x000{where} {what}" if self.of_host else f"msi {vm} 0x{where} {what}"


def stored(below: Callable[[int], int]) -> tuple[str, str]:
    """Gives the digits of an address and the value of a store, in either byte order."""
    page, order = PAGE + below(4) * NEXT_HART, below(2) * 4
    identity = 1 + below(63)
    return f"{page:05x}{order:03x}", f"0x{identity:02x}" + ("000000" if order else "")


class Flights(Bench):
    """Stores of devices of four VMs, each with four virtual harts, to their slots of memory: a
    `send` and a `land` in turn. With a count of 8 seven stores of each VM are in flight before, so
    eight are between the two lines, and any of them lands next; with 0 the same stores are `msi`
    lines, two in place of each pair."""

    PAIRS = 300_000

    def __init__(self, count: int) -> None:
        super().__init__()
        self.count = count

    def head(self) -> Iterator[str]:
        yield "machine 4 0 63 1"
        for vm in range(4):
            yield f"vm 4 0x60 {vm}"
        for vm in range(4):
            for _ in range(1, self.count):
                yield f"send {vm} {self.store()}"

    def store(self) -> str:
        """The words of a store."""
        where, what = stored(self.below)
        return f"0x{where} {what}"

    def body(self) -> Iterator[str]:
        for _ in range(self.PAIRS):
            vm = self.below(4)
            words, place = self.store(), self.below(8)
            yield f"{'send' if self.count else 'msi'} {vm} {words}"
            yield f"land {vm} {place % self.count}" if self.count else f"msi {vm} {words}"


class Guests(Bench):
    """16 virtual harts of four VMs, all resident, read and write their own files and store for each
    other; a million lines and a few to begin with."""

    def head(self) -> Iterator[str]:
        yield "machine 4 4 63 1"
        for vm in range(4):
            yield f"vm 4 0x18 {vm}"
        for vm in range(4):
            for number in range(4):
                yield f"arrive {vm} {number} {number}"
                yield f"g {vm} {number} csrrw siselect 0x80"

    def body(self) -> Iterator[str]:
        for _ in range(1_000_000):
            who = f"{self.below(4)} {self.below(4)}"
            if self.below(2):
                yield f"g {who} ipi {self.below(4)} {1 + self.below(9)}"
            else:
                yield f"g {who} csrr {'sireg' if self.below(8) else 'stopei'}"


class Moves(Bench):
    """100,000 whole moves of a virtual hart, whose identities are some of them pending and enabled;
    or of 32 virtual harts of eight VMs, with the most harts and guest files."""

    def __init__(self, greatest: int, are_many: bool) -> None:
        super().__init__()
        self.greatest = greatest
        self.vms, self.each, self.harts, self.files = (8, 4, 4, 31) if are_many else (1, 1, 1, 2)
        self.resident: set[tuple[int, int]] = set()

    def head(self) -> Iterator[str]:
        yield f"machine {self.harts} {self.files} {self.greatest} 1"
        for _ in range(self.vms):
            yield f"vm {self.each} 0x18 0"
        for vm in range(self.vms):
            for number in range(self.each):
                yield f"arrive {vm} {number} {self.below(self.harts)}"
                yield f"g {vm} {number} csrrw siselect 0xc0"
                yield f"g {vm} {number} csrrw sireg {ALL}"
                yield f"msi {vm} 0x{PAGE + number * NEXT_FILE:05x}000 7"
                self.resident.add((vm, number))

    def body(self) -> Iterator[str]:
        for _ in range(100_000):
            who = self.below(self.vms), self.below(self.each)
            name = "%d %d" % who
            if who not in self.resident:
                yield f"arrive {name} {self.below(self.harts)}"
                self.resident.add(who)
            elif self.below(2):
                yield f"leave {name}"
                self.resident.remove(who)
            else:
                yield f"shift {name} {self.below(self.harts)}"


class Steps(Bench):
    """1,000,000 lines, steps of moves of some virtual harts, which are all on their way and take
    turns: 1, 4 or 16 of up to four VMs, or 32 of eight; some of their identities are pending and
    enabled. After each four steps a device stores."""

    LINES = 1_000_000

    def __init__(self, greatest: int, count: int) -> None:
        super().__init__()
        self.greatest, self.count = greatest, count
        self.words = (greatest + 1) // 64
        self.vms = 8 if count == 32 else min(count, 4)
        self.left = [0] * count
        self.in_memory = [False] * count
        self.turns = 0

    def name(self, guest: int) -> str:
        """Names a virtual hart: its VM comes first, so that few are spread over the VMs."""
        return f"{guest % self.vms} {guest // self.vms}"

    def store(self, guest: int, value: int) -> str:
        """A store of a device for it."""
        page = PAGE + guest // self.vms * NEXT_FILE
        return f"msi {guest % self.vms} 0x{page:05x}000 {value}"

    def head(self) -> Iterator[str]:
        yield f"machine 4 31 {self.greatest} 1"
        for _ in range(self.vms):
            yield f"vm {self.count // self.vms} 0x18 0"
        for guest in range(self.count):
            yield f"arrive {self.name(guest)} {guest % 4}"  # the same hart here and later
            yield f"g {self.name(guest)} csrrw siselect 0xc0"
            yield f"g {self.name(guest)} csrrw sireg {ALL}"
            yield self.store(guest, 7)

    def body(self) -> Iterator[str]:
        line = 0
        while line < self.LINES:
            guest = line % self.count
            line += 1
            yield self.turn(guest)

    def turn(self, guest: int) -> str:
        """The next line of a virtual hart: its move begins, a device stores, or it makes a step."""
        if not self.left[guest]:
            return self.begin(guest)
        self.turns += 1
        if self.turns % 5 == 0:
            return self.store(guest, 1 + self.below(self.greatest))
        self.left[guest] -= 1
        return f"step {self.name(guest)}"

    def begin(self, guest: int) -> str:
        """Begins the move that comes next of it."""
        kind = "arrive" if self.in_memory[guest] else "shift" if self.below(2) else "leave"
        self.left[guest] = {"leave": 8 + 5 * self.words, "arrive": 6 + 4 * self.words,
                            "shift": 8 + 4 * self.words}[kind]
        self.in_memory[guest] = kind == "leave"
        return f"begin {kind} {self.name(guest)}" + ("" if kind == "leave" else f" {guest % 4}")


def again(count: int, line: str, *first: str) -> Iterator[str]:
    """The first lines, and then one line over and over."""
    yield from first
    for _ in range(count):
        yield line


def whole(bench: Bench) -> Iterator[str]:
    """A script whose body has an end."""
    yield from bench.head()
    yield from bench.body()


def generated(count: int, seed: int) -> Iterator[str]:
    """The script that `gen COUNT SEED` runs."""
    yield from ("machine 2 2 63 8", "vm 2 0x38 0", "vm 2 0x38 1")
    names = [f"g {vm} {number}" for vm in range(2) for number in range(2)]
    for name in (*names, "h 0", "h 1"):
        if name[0] == "g":
            yield f"arrive {name[2:]} {name[2]}"
        yield from (f"{name} csrrw siselect 0xc0", f"{name} csrrw sireg 0xfffffffffffffffe",
                    f"{name} csrrw siselect 0x70", f"{name} csrrw sireg 0x1")
    state = seed
    for _ in range(count):
        state = (state * 0x5851f42d4c957f2d + 0x14057b7ef767814f) % (1 << 64)
        yield generated_line(state >> 33)


def generated_line(draw: int) -> str:
    """The line of a draw."""
    form, vm, number, hart = draw % 10, draw // 10 % 2, draw // 20 % 2, draw // 40 % 2
    identity = draw // 80 % 64
    if form < 2:
        return f"msi {vm} 0x2800{8 * number}000 {identity}"
    if form < 9:
        return (f"g {vm} {number} csrrw stopei 0x0", f"g {vm} {number} ipi {1 - number} {identity}",
                f"begin leave {vm} {number}", f"begin arrive {vm} {number} {hart}",
                f"step {vm} {number}")[min(form, 6) - 2]
    return f"h {hart} csrrw stopei 0x0"


def script(name: str) -> Iterable[str]:
    """Gives the lines of the script of a name. A number in it is the greatest identity, or how many
    sources there are, how many virtual harts, or how many stores in flight."""
    kind, _, rest = name.partition("-")
    last = int(name.rpartition("-")[2]) if name[-1].isdigit() else 0
    stopei = (f"machine 1 1 {last} 1", "vm 1 0x8 0")
    made: dict[str, Callable[[], Iterable[str]]] = {
        "files": lambda: Files(last).filled(),
        # Only what is on top of an empty file is read.
        "tops": lambda: again(960_000, "h 0 csrr stopei", f"machine 1 0 {last} 1"),
        "sources": lambda: Sources(last).filled(),
        # Only topi of a hart is read, for which no source is pending.
        "topi": lambda: again(1_000_000, "ld 0x0c004018", f"machine 1 0 63 {last}"),
        "direct": lambda: Delivery(last, False, "random" in rest).filled(),
        "msi": lambda: Delivery(last, True).filled(),
        "stores": lambda: Stores(4, rest == "host").filled(),
        "devices": lambda: Stores(last // 4).filled(),
        "flights": lambda: whole(Flights(last)),
        "guests": lambda: whole(Guests()),
        # A virtual hart reads only what is on top of its empty file, in a guest file or from
        # memory.
        "stopei": lambda: again(800_000, "g 0 0 csrr stopei", *stopei,
                                "arrive 0 0 0" if "file" in rest else "enter 0 0"),
        "generated": lambda: generated(100_000, 1),
        "moves": lambda: whole(Moves(int(rest.split("-")[0]), "many" in rest)),
        "steps": lambda: whole(Steps(int(rest.split("-")[0]), last)),
    }
    return made[kind]()
