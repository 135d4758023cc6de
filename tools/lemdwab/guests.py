"""What suite/from-memory and suite/migrations draw: lines about guests, which are the same wherever
a guest is; and the scripts in which they stand.

The scripts keep of each guest only which line may follow: whether it is in a guest file, or in
which of four states. What they are right about is seen by the model written apart: it refuses none
of these lines but those that the tools mean to be refused. """

from lemdwab.apart.interrupt_file import swapped
from lemdwab.chance import Chance

# As many virtual harts as a machine has.
MOST = 32
WIDTHS = (63, 127, 255, 511, 1023, 2047)
# Select numbers beside those that name a register.
EDGES = ("0 47 48 49 63 64 111 113 115 127 129 130 191 193 194 255 256 511 4096 0x7fffffffffffffff"
         " 0x8000000000000080 0xffffffffffffffff 0x1000000c0").split()
OPERATIONS = ["csrrw", "csrrs", "csrrc"]
REGISTERS = ["siselect", "sireg", "stopei"]
FIRST_FILE, DISTANCE, OTHER_ORDER = 0x28000000, 0x8000, 4
ALL = "0xffffffffffffffff"
# How the child domain is made ready: its registers of MSI addresses, and what its domaincfg has.
READY = ("st 0x0c008000 0x104", "st 0x0c001bc4 0x2000", "st 0x0c001bc8 0x28000",
         "st 0x0c001bcc 0x500000")
ROOT, CHILD, SOURCES = 0x0c000000, 0x0c008000, 16


class Lines:
    """Lines about guests by chance, of files with the identities 1 to `greatest`."""

    def __init__(self, seed: int) -> None:
        self.chance = Chance(seed * 15485863 % 2147483646 + 1)
        self.chance.below(2)
        self.greatest = WIDTHS[seed % 6]
        self.words = (self.greatest + 1) // 64

    def word(self) -> str:
        """A number of 64 bits: none of them, all, one, some or any."""
        kind = self.chance.below(12)
        if kind == 0:
            return "0"
        if kind == 1:
            return ALL
        if kind == 2:
            return str(self.chance.below(2 * self.greatest))
        digits = [self.chance.of(list("0123456789abcdef"))
                  if kind > 6 or self.chance.below(3) == 0 else "0" for _ in range(16)]
        return "0x" + "".join(digits)

    def pair_of(self, first: int) -> str:
        """The register of some word that the file has, from a first one on."""
        return str(first + 2 * self.chance.below(self.words))

    def select(self) -> str:
        """A register number of an interrupt file, one beside it, or any."""
        kind = self.chance.below(20)
        if kind < 4:
            return self.pair_of(192)
        if kind < 7:
            return self.pair_of(128)
        if kind < 16:
            return "112" if kind < 9 else "114" if kind < 11 else "192" if kind < 14 else "128"
        if kind < 18:
            return self.chance.of(EDGES)
        return str(self.chance.below(300)) if kind == 18 else self.word()

    def identity(self) -> int:
        """An identity: of the first word, of the whole file, or beside those of the file."""
        kind = self.chance.below(10)
        if kind < 5:
            return 1 + self.chance.below(63)
        if kind < 9:
            return 1 + self.chance.below(self.greatest)
        if self.chance.below(2):
            return self.greatest + self.chance.below(5)
        return 0 if self.chance.below(2) else 1 << self.chance.below(32)

    def operation(self) -> str:
        """An instruction that writes."""
        return self.chance.of(OPERATIONS)

    def instruction(self) -> str:
        """An instruction on a CSR of the guest's interrupt file."""
        kind = self.chance.below(10)
        if kind < 1:
            return f"csrr {self.chance.of(REGISTERS)}"
        if kind < 4:
            return f"csrrw siselect {self.select()}"
        if kind < 6:
            return f"{self.operation()} stopei {self.word()}"
        if kind < 7:
            return f"{self.operation()} {self.chance.of(REGISTERS)} {self.word()}"
        return f"{self.operation()} sireg {self.word()}"

    def asked(self) -> tuple[int, int]:
        """Where in a page a store goes, and its value, in either byte order."""
        identity = self.identity()
        if self.chance.below(2):
            return 0, identity
        return OTHER_ORDER, swapped(identity)

    def store(self, number: int) -> str:
        """The address and the value of a store for the virtual hart of a number in its VM."""
        offset, value = self.asked()
        return f"{FIRST_FILE + DISTANCE * number + offset} {value}"


class FromMemory(Lines):
    """Three scripts in which so many virtual harts do the same: in `resident` all are in guest
    files, in `memory` all run from memory, and in `both` each is now here, now there."""

    RUNS = ("resident", "memory", "both")

    def __init__(self, seed: int, guests: int) -> None:
        super().__init__(seed)
        self.guests = guests
        self.scripts: dict[str, list[str]] = {run: [] for run in self.RUNS}
        # Of each guest where it is in `both`: in a file, in memory where it runs, or parked.
        self.at = [""] * guests
        self.flying = [0] * 8
        self.level = [0] * (SOURCES + 1)
        self.draw()

    def draw(self) -> None:
        """Draws all three."""
        self.begin()
        for _ in range(60 * self.guests):
            self.act(self.chance.below(self.guests))
            if self.chance.below(4) == 0:
                self.park(self.chance.below(self.guests))
        self.end()

    def put(self, line: str, *runs: str) -> None:
        """Puts a line into these scripts, or into all."""
        for run in runs or self.RUNS:
            self.scripts[run].append(line)

    def run(self, guest: int) -> None:
        """Has a guest run in `both`, in a guest file or from memory. A move would land the stores
        of its VM that are in flight before they land in the other scripts."""
        if self.at[guest]:
            return
        is_in_file = self.chance.below(2) and not self.flying[guest // 4]
        self.at[guest] = "file" if is_in_file else "memory"
        self.put(arrival(guest) if is_in_file else f"enter {who(guest)}", "both")

    def park(self, guest: int) -> None:
        """Parks a guest in `both`."""
        if self.at[guest] and not self.flying[guest // 4]:
            self.put(f"{'leave' if self.at[guest] == 'file' else 'exit'} {who(guest)}", "both")
            self.at[guest] = ""

    def begin(self) -> None:
        """Makes the machine, its sources and its VMs. Of 32 guests each holds a guest file of its
        hart at most, and a hart has 31."""
        self.put(f"machine 4 31 {self.greatest} 16")
        for line in READY:
            self.put(line)
        for source in range(1, SOURCES + 1):
            self.put(f"st {ROOT + 4 * source} 0x400")
            self.put(f"st {CHILD + 4 * source} 4")
            self.put(f"st 0x0c009edc {source}")
        for _ in range(8):
            self.put(f"vm 4 0x18 {self.chance.below(4)}")
        for guest in range(self.guests):
            self.put(arrival(guest), "resident")
            self.put(f"enter {who(guest)}", "memory")
            self.run(guest)
            self.put(f"g {who(guest)} csrrw siselect 192")
            self.put(f"g {who(guest)} csrrw sireg {ALL if self.chance.below(4) else self.word()}")
        for source in range(1, SOURCES + 1):
            name = who(self.chance.below(self.guests))
            self.put(f"pass {source} {name} {1 + self.chance.below(self.greatest)}")

    def act(self, guest: int) -> None:
        """A line about a guest: an instruction of it, or what asks it for an identity."""
        vm, kind = guest // 4, self.chance.below(20)
        if kind < 11:
            self.run(guest)
            self.put(f"g {who(guest)} {self.instruction()}")
        elif kind < 14:
            self.put(f"msi {vm} {self.store(guest % 4)}")
        elif kind < 16 and self.flying[vm] < 8:
            self.flying[vm] += 1
            self.put(f"send {vm} {self.store(guest % 4)}")
        elif kind < 18 and self.flying[vm] > 0:
            self.put(f"land {vm} {self.chance.below(self.flying[vm])}")
            self.flying[vm] -= 1
        elif kind == 18:
            self.run(guest)
            self.put(f"g {who(guest)} ipi {self.chance.below(5)} {self.identity()}")
        else:
            source = 1 + self.chance.below(SOURCES)
            self.level[source] = 1 - self.level[source]
            self.put(f"wire {source} {self.level[source]}")

    def read_all(self, guest: int) -> None:
        """A guest reads its whole file."""
        self.put(f"g {who(guest)} csrr siselect")
        self.put(f"g {who(guest)} csrr stopei")
        pairs = [register for word in range(self.words) for register in (128 + 2 * word,
                                                                         192 + 2 * word)]
        for register in (112, 114, *pairs):
            self.put(f"g {who(guest)} csrrw siselect {register}")
            self.put(f"g {who(guest)} csrr sireg")

    def end(self) -> None:
        """Each guest reads its file, is moved to the other place, and reads it again. Its moves
        land what is in flight, so all lands before, in each script."""
        for vm, count in enumerate(self.flying):
            for _ in range(count):
                self.put(f"land {vm} 0")
        self.flying = [0] * 8
        for guest in range(self.guests):
            self.run(guest)
            self.read_all(guest)
            self.put(f"leave {who(guest)}", "resident")
            self.put(f"enter {who(guest)}", "resident")
            self.put(f"exit {who(guest)}", "memory")
            self.put(arrival(guest), "memory")
            self.read_all(guest)


def who(guest: int) -> str:
    """Names a guest by its VM and its number there."""
    return f"{guest // 4} {guest % 4}"


def arrival(guest: int) -> str:
    """The line by which a guest gets a guest file, of a hart of its own choice."""
    return f"arrive {who(guest)} {guest % 4}"


def who_there(guest: int) -> str:
    """Names a guest of `Migrations` on the second machine."""
    return f"{7 - guest // 4} {(guest + 1) % 4}"


class Migrations(Lines):
    """The parts of two scripts by which so many virtual harts go from one machine to another:
    `before` is all that happens on the first machine, up to the saves; `other` makes the second
    one, on which each guest is another virtual hart; `first` and `second` are what happens after
    that, the same on both; and `names` has, for each guest, its name on the second machine. Of each
    image there are so many `parts`."""

    def __init__(self, seed: int, guests: int) -> None:
        super().__init__(seed)
        self.before: list[str] = []
        self.other: list[str] = []
        self.first: list[str] = []
        self.second: list[str] = []
        self.names = [who_there(guest) for guest in range(guests)]
        self.parts = 3 + self.words
        # Where each guest is goes round: parked, in a guest file, parked, in memory where it runs.
        self.turn = [0] * guests
        self.draw(guests)

    def draw(self, guests: int) -> None:
        """Draws all parts."""
        self.begin(guests)
        for _ in range(40 * guests):
            self.act(self.chance.below(guests), False)
        for guest in range(guests):
            self.park(guest, False)
            self.before += [f"save {who(guest)} {part}" for part in range(self.parts)]
        for guest in range(guests):
            self.go(guest, True)
        for _ in range(40 * guests):
            self.act(self.chance.below(guests), True)
        for guest in range(guests):
            self.park(guest, True)
            for part in range(self.parts):
                self.put("save", guest, f" {part}", True)

    def begin(self, guests: int) -> None:
        """Makes both machines; on the first the guests get files, and enable identities."""
        self.before.append(f"machine 4 31 {self.greatest} 1")
        self.other.append(f"machine 2 31 {self.greatest} 9")
        for _ in range(8):
            self.before.append(f"vm 4 0x18 {self.chance.below(4)}")
            self.other.append(f"vm 4 0x18 {self.chance.below(2)}")
        for guest in range(guests):
            self.go(guest, False)
            for word in range(self.words):
                self.put("g", guest, f" csrrw siselect {192 + 2 * word}", False)
                value = ALL if self.chance.below(4) else self.word()
                self.put("g", guest, f" csrrw sireg {value}", False)

    def put(self, form: str, guest: int, rest: str, is_later: bool) -> None:
        """Puts a line that is of one guest alone: a form, and what follows its virtual hart."""
        if is_later:
            self.second.append(f"{form} {who_there(guest)}{rest}")
        (self.first if is_later else self.before).append(f"{form} {who(guest)}{rest}")

    def majors_word(self) -> str:
        """A word of hvip or sie, with bits that are no major's too."""
        if self.chance.below(4) == 0:
            return self.word()
        return str(sum(bit * self.chance.below(2) for bit in (2, 32, 512, 8192)))

    def hvictl(self) -> int:
        """One with VTI 0 three times of four, else with an IID that is refused at times."""
        if self.chance.below(4):
            return self.chance.below(1024)
        return (1 << 30) + 65536 * self.chance.below(66) + self.chance.below(1024)

    def line(self) -> tuple[str, str]:
        """One of the lines about a guest: the form, and what follows its virtual hart. Those that
        want it in a guest file are refused elsewhere, on both machines."""
        kind = self.chance.below(24)
        if kind < 12:
            return "g", f" {self.instruction()}"
        if kind < 16:
            return "g", f" {self.operation()} {'sip' if kind < 14 else 'sie'} {self.majors_word()}"
        if kind < 18:
            return "g", " csrr stopi"
        if kind < 20:
            return "inject", f" {1 + 4 * self.chance.below(4)} {self.chance.below(2)}"
        if kind < 22:
            return "hvictl", f" {self.hvictl()}"
        return "hviprio", f" {self.word()}"

    def go(self, guest: int, is_later: bool) -> None:
        """Has a guest go on to where it is next."""
        self.turn[guest] = (self.turn[guest] + 1) % 4
        form = ("exit", "arrive", "leave", "enter")[self.turn[guest]]
        self.put(form, guest, f" {guest % 2}" if form == "arrive" else "", is_later)

    def park(self, guest: int, is_later: bool) -> None:
        """Has it go on until it is parked."""
        while self.turn[guest] % 2 == 1:
            self.go(guest, is_later)

    def act(self, guest: int, is_later: bool) -> None:
        """A line about a guest: it goes on, is asked for an identity, or does something."""
        kind = self.chance.below(10)
        if kind == 0:
            self.go(guest, is_later)
        elif kind < 5:
            offset, value = self.asked()
            for there, part in ((who(guest), self.first if is_later else self.before),
                                *([(who_there(guest), self.second)] if is_later else [])):
                vm, number = there.split()
                part.append(f"msi {vm} {FIRST_FILE + DISTANCE * int(number) + offset} {value}")
        else:
            form, rest = self.line()
            self.put(form, guest, rest, is_later)
