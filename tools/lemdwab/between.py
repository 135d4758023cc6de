"""The lines that suite/between-steps says between two steps of a move, what comes before them, and
what is looked at after the move."""

from __future__ import annotations

from typing import NamedTuple, TypeVar

from lemdwab.apart import moves

T = TypeVar("T")

MOVES = {"leave": moves.LEAVING, "arrive": moves.ARRIVING, "shift": moves.SHIFTING}
# Beside them where a virtual hart is at rest.
KINDS = (*MOVES, "parked", "resident")
# Lines that change nothing between any two steps, with the word that each answers.
EVERYWHERE = (
    ("bad", "step 0;step 0 0 0;begin;begin leave 0;begin 0 0;begin arrive 0 0;Step 0 0;wire 1 2"),
    ("again", "machine 2 3 63 8"),
    ("range", "step 0 3;step 3 0;step 2 16;begin leave 0 3"),
    ("range", "begin arrive 0 0 2;begin shift 0 0 2;arrive 0 3 0;leave 3 0;shift 0 0 2"),
    ("range", "msi 3 0x28000000 5;g 0 3 csrr stopei;h 2 hgeip;m 2 csrr mtopei;pins 2;wire 9 1"),
    ("range", "inject 0 0 2 1;inject 0 3 1 1;hvictl 0 0 0x40000000;hviprio 3 0 0;vm 5 0x18 0"),
    ("range", "vm 17 0x78 0"),
    ("full", "vm 13 0x78 0"),
    ("busy", "arrive 0 0 0;leave 0 0;shift 0 0 1"),
    ("busy", "begin arrive 0 0 1;begin leave 0 0;begin shift 0 0 0"),
    ("bad", "enter;enter 0;enter 0 0 0;exit;exit 0;exit 0 0 0;begin enter 0 0;Exit 0 0"),
    ("range", "enter 0 3;enter 3 0;enter 2 16;exit 0 3;exit 3 0;exit 2 16"),
    ("busy", "enter 0 0"),
    ("bad", "pass 1 0 0;pass 1 0 0 5 0"),
    ("range", "pass 0 0 0 5;pass 9 0 0 5;pass 1 3 0 5;pass 1 0 3 5;pass 1 0 0 0;pass 1 0 0 128"),
    ("busy", "pass 1 0 0 5"),
    ("unready", "pass 1 0 1 5;pass 1 0 2 63;pass 8 1 0 1"),
    ("home", "arrive 0 1 1;begin arrive 1 0 1;enter 0 1;enter 1 0"),
    ("parked", "leave 0 2;begin leave 0 2;shift 0 2 1;begin shift 0 2 1"),
    ("nofile", "arrive 0 2 0;begin arrive 0 2 0;shift 1 0 0;begin shift 0 1 0"),
    ("idle", "step 0 1;step 0 2;step 1 0;exit 0 0;exit 0 1;exit 0 2;exit 1 0"),
    ("away", "g 0 0 csrr stopei;g 0 0 csrrw stopei 0;g 0 0 csrrw sireg 0"),
    ("away", "g 0 0 csrrw siselect 0x70;g 0 0 csrr sip;g 0 2 csrr stopei"),
    ("away", "g 0 0 csrrw stopi 0;g 0 0 csrrw sie 0;g 0 0 ipi 1 5;g 0 0 ipi 3 5;g 0 2 ipi 0 5"),
    ("illegal", "g 0 1 csrrw stopi 0;m 0 csrr mireg"),
    ("fault", "st 0 0;ld 0x28000002;st 0x28007000 5;msi 0 0x28000001 5;msi 0 0x28000006 5"),
    ("guarded", "st 0x28001000 5;ld 0x28001000;st 0x28021000 5;st 0x80000000 5;ld 0x80004000"),
    ("other", "msi 0 0x24000000 5;msi 0 0x28020000 5;msi 1 0x28010000 5"),
    ("notvalid", "msi 0 0x28018000 5;entry 0 0"),
    ("bad", "send 0 0x28000000;send 0 0x28000000 5 5;land 0;land 0 0 0;refetch 0;refetch 0 0 0"),
    ("range", "send 3 0x28000000 5;land 0 0;land 1 0;land 3 0;refetch 0 3;refetch 3 0"),
    ("fault", "send 0 0x28000001 5"),
    ("other", "send 0 0x24000000 5;send 1 0x28010000 5"),
    ("notvalid", "send 0 0x28018000 5"),
    # Where no store of a device follows, it does not show which entry is in force.
    ("ok", "refetch 0 0;refetch 0 1;refetch 0 2;refetch 1 0"),
    ("gfault", "g 0 1 ipi 3 5"),
    ("0x00000000", "ld 0x28000000"),
)


class Setting(NamedTuple):
    """What a table is about: files of so many words, whether an identity is deliverable, how many
    sources are passed to the virtual hart that is moved, and when stores are sent, if any are:
    `before` the first step, or `past` the fence of the entry."""

    words: int
    is_deliverable: bool = False
    passed: int = 0
    flight: str = ""

    @property
    def greatest(self) -> int:
        """The greatest identity."""
        return 64 * self.words - 1

    def second(self, two: T, one: T) -> T:
        """Gives what differs by whether a file has a second word."""
        return two if self.words == 2 else one


def split(*groups: str) -> list[str]:
    """Lists the lines of groups, whose lines are divided by semicolons."""
    return [line for group in groups if group for line in group.split(";")]


def registers(who: str, pairs: str) -> list[str]:
    """Lists lines by which a virtual hart writes registers of its file."""
    words = pairs.split(" ")
    return [line for select, value in zip(words[::2], words[1::2])
            for line in (f"g {who} csrrw siselect {select}", f"g {who} csrrw sireg {value}")
            ] + [f"g {who} csrrw siselect 0x80"]


# ---- before the move

def sources() -> list[str]:
    """Makes the sources 1 to 4 rising edges of domain 1, of which MSIs to guests may be made, and
    enables them."""
    return [*(line for s in range(1, 5) for line in (f"st 0x{0x0c000000 + 4 * s:08x} 0x400",
                                                     f"st 0x{0x0c008000 + 4 * s:08x} 4")),
            *split("st 0x0c008000 0x104;st 0x0c001bc4 0x2000;st 0x0c001bc8 0x28000",
                   "st 0x0c001bcc 0x500000"), *(f"st 0x0c009edc {s}" for s in range(1, 5))]


def passes(setting: Setting) -> list[str]:
    """Passes one source to the virtual hart that is moved, or three; and one to another, so that
    the numbers of all passes are not those of its own. Its identity 9 is not enabled."""
    if setting.passed == 1:
        return split("pass 4 0 1 6;pass 1 0 0 5")
    if setting.passed == 3:
        return split("leave 0 0;pass 1 0 0 5;pass 4 0 1 6;arrive 0 0 0",
                     f"pass 2 0 0 {setting.second(70, 7)};pass 3 0 0 9")
    return []


def before(setting: Setting) -> list[str]:
    """Lists what comes before a move begins. Enabled are 5, 7 and 40, and of the second word 70 and
    100; pending are 12, which is not enabled, and where an identity is to be deliverable 7, or
    70."""
    is_deliverable = setting.is_deliverable
    first_word = "0x1080" if is_deliverable and setting.words == 1 else "0x1000"
    second_word = "0x40" if is_deliverable else "0x0"
    return [
        f"machine 2 3 {setting.greatest} 8", *(sources() if setting.passed else []),
        *split("vm 3 0x18 1;vm 1 0x8 0;vm 16 0x78 0",
               *(f"h {hart} csrrw siselect 0xc0;h {hart} csrrw sireg 0x1e;"
                 f"h {hart} csrrw siselect 0x80" for hart in (1, 0)),
               "arrive 0 0 0;arrive 0 1 0;arrive 1 0 0;arrive 0 2 1"),
        *(line for who in ("0 1", "1 0", "0 2") for line in registers(who, "0xc0 0x60 0x70 1")),
        *split("leave 0 2;g 0 0 csrrw sie 0x2222"),
        *(registers("0 0", f"0xc2 0x1000000040 0x82 {second_word}") if setting.words == 2 else []),
        *registers("0 0", f"0xc0 0x100000000a0 0x72 {setting.second(90, 50)} 0x70 1 0x80 "
                   f"{first_word}"),
        # What an earlier move left behind in memory would send notices too early.
        *split("leave 0 0;h 1 csrrw stopei 0;arrive 0 0 0"), *passes(setting)]


def begin(kind: str, setting: Setting, steps: int) -> list[str]:
    """Lists the beginning of a move; and where stores are to be in flight, so many first steps, and
    then the stores."""
    first = {"leave": "begin leave 0 0", "shift": "begin shift 0 0 1",
             "arrive": "leave 0 0;h 1 csrrw stopei 0;begin arrive 0 0 0",
             "parked": "leave 0 0;h 1 csrrw stopei 0", "resident": "h 1 csrrw stopei 0"}[kind]
    found = split(first) + ["step 0 0"] * steps
    if setting.flight:
        found += split("send 0 0x28000000 5;send 0 0x28008000 6;send 1 0x28000000 6",
                       f"send 0 0x28000004 0x{setting.second(70, 7):02x}000000")
    return found


# ---- after it

def after(kind: str, setting: Setting) -> list[str]:
    """Lists the looks after a move."""
    selects = setting.second("0x82 0xc0 0xc2 0x72 0x70", "0xc0 0x72 0x70").split(" ")
    hart = 1 if kind in ("arrive", "resident") else 0
    return split(
        "land 0 0", "arrive 0 0 1" if kind in ("leave", "parked") else "",
        "h 1 csrr sireg;h 0 csrr sireg;h 1 hgeip;h 0 hgeip;g 0 0 csrr stopei",
        "g 0 0 csrr sireg;g 0 0 csrr sip;g 0 0 csrr stopi;g 0 0 csrrw stopei 0",
        "g 0 0 csrr stopei",
        *(f"g 0 0 csrrw siselect {select};g 0 0 csrr sireg" for select in selects),
        "g 0 1 csrr sireg;g 0 1 csrr stopei;step 1 0;g 1 0 csrr sireg;g 1 0 csrr stopei",
        # What was left behind: in the guest file, which is another's now, and in memory.
        f"arrive 0 2 {hart};g 0 2 csrr sireg;h 0 hgeip;h 1 hgeip",
        "leave 0 0;arrive 0 0 1;g 0 0 csrr stopei;step 0 0")


# ---- between two steps

def both(identity: int) -> tuple[str, str]:
    """An identity that is enabled: by a device and by another virtual hart, each in turn the first
    one."""
    return (f"msi 0 0x28000000 {identity};h 1 csrrw stopei 0;h 0 hgeip;h 1 hgeip;"
            f"g 0 1 ipi 0 {identity}",
            f"g 0 1 ipi 0 {identity};h 1 csrrw stopei 0;h 1 csrr stopei")


def stores(setting: Setting) -> tuple[str, str, str, str, str, str]:
    """Stores that ask for what is not enabled or pending already, or for nothing."""
    above = setting.greatest + 1
    return (
        "msi 0 0x28000000 9;msi 0 0x28000004 0x0a000000;g 0 1 ipi 0 11;msi 0 0x28000000 12",
        f"msi 0 0x28000000 {above};msi 0 0x28000000 0;msi 0 0x28000000 0x05000000",
        f"msi 0 0x28000004 0x{above:02x}000000;msi 0 0x28000004 5",
        "msi 0 0x28000004 0;msi 0 0x28000008 5;msi 0 0x28000ffc 5",
        "msi 0 0x28000008 0x05000000;msi 0 0x28000ffc 0x05000000",
        f"g 0 1 ipi 0 {above};g 0 1 ipi 0 0;g 0 1 ipi 0 0x05000000")


# Lines of the host, of other virtual harts and of their moves.
OTHERS = (
    "h 1 csrrw stopei 0;h 1 csrr stopei;h 1 csrr sireg;h 0 hgeip;h 1 hgeip",
    "st 0x28020000 1;h 1 csrrw stopei 0",
    "msi 0 0x28008000 5;msi 0 0x28010000 5;g 0 1 ipi 2 6;h 1 csrrw stopei 0",
    "msi 1 0x28000000 5;g 0 1 ipi 1 6;g 1 0 ipi 0 6;h 0 hgeip",
    "begin leave 1 0;step 1 0;step 1 0;h 0 hgeip;msi 1 0x28000000 5",
    "msi 1 0x28000000 5;leave 1 0;h 0 csrr sireg;arrive 1 0 0;h 0 hgeip",
    "begin shift 1 0 1;step 1 0;msi 1 0x28000000 5;h 0 hgeip;h 1 hgeip",
    "msi 1 0x28000000 5;shift 1 0 1;h 0 hgeip;h 1 hgeip",
    "leave 0 1;msi 0 0x28008000 5;arrive 0 1 1;g 0 1 ipi 0 5",
    "begin arrive 0 2 1;msi 0 0x28010000 5;step 0 2;step 0 2;msi 0 0x28010000 6",
    "arrive 0 2 1;g 0 2 ipi 0 5",
)
# Another virtual hart runs from memory: what devices and peers ask it for, what it asks of the one
# that is moved and changes of its own, and that it is parked again, or not.
ENTERED = (
    "enter 0 2;msi 0 0x28010000 5;h 1 csrrw stopei 0;g 0 2 csrr stopei;g 0 2 ipi 0 5;"
    "h 1 csrrw stopei 0;h 0 hgeip",
    "enter 0 2;g 0 1 ipi 2 6;g 0 2 csrrw stopei 0;g 0 2 csrrw sireg 0x20;exit 0 2;"
    "h 1 csrrw stopei 0;h 1 csrr sireg",
    "enter 0 2;g 0 2 csrr sip;arrive 0 2 1;exit 0 2;h 1 csrr sireg;g 0 2 csrr stopei",
    "send 0 0x28010000 5;enter 0 2;g 0 2 csrr sireg;land 0 0;g 0 2 csrrw stopei 0",
    "leave 0 1;enter 0 1;g 0 1 ipi 0 7;h 1 csrrw stopei 0;exit 0 1;arrive 0 1 1",
    "enter 0 0;exit 0 0;enter 0 1;exit 0 1;exit 0 2;enter 0 2;enter 0 2",
)
# Stores that are sent, which land at once, at a later fence or after the move, and entries that are
# read again.
FLIGHTS = (
    "send 0 0x28000000 5;h 1 csrrw stopei 0;land 0 0;h 1 csrrw stopei 0",
    "send 0 0x28000000 5",
    "send 0 0x28000000 9;send 0 0x28000000 7;land 0 1;h 1 csrrw stopei 0",
    "refetch 0 0;msi 0 0x28000000 5;h 1 csrrw stopei 0;g 0 1 ipi 0 7;h 1 csrr sireg",
    "refetch 0 0;send 0 0x28000000 5;land 0 0;h 1 csrrw stopei 0",
    "send 0 0x28000000 5;refetch 0 0;land 0 0;h 1 csrrw stopei 0;msi 0 0x28000000 7",
    "refetch 0 0;send 0 0x28000000 5",
    "refetch 0 1;refetch 0 2;refetch 1 0;msi 0 0x28000000 5;h 1 csrrw stopei 0",
    "send 0 0x28008000 5;send 0 0x28010000 5;send 1 0x28000000 5;land 0 1;land 1 0",
    "send 0 0x28000000 5;send 1 0x28000000 6;leave 1 0;land 1 0;land 0 0;h 1 csrr sireg",
    "send 0 0x28000000 5;leave 0 1;land 0 0;h 1 csrr sireg;arrive 0 1 1",
    "send 0 0x28000000 5;begin arrive 0 2 1;step 0 2;h 1 csrr sireg;step 0 2;land 0 0",
)
# What the hypervisor says of majors.
MAJORS = (
    "inject 0 0 9 1;inject 0 0 5 1;inject 0 0 1 1;inject 0 0 1 0",
    "hvictl 0 0 0x100;hviprio 0 0 0x300;inject 0 0 1 1;msi 0 0x28000000 5",
)
# Lines where stores are in flight already: of VM 0 three, the second for virtual hart 1, and of
# VM 1 one.
LANDINGS = (
    "land 0 3;land 0 2;land 0 1;h 1 csrrw stopei 0;land 0 0;h 1 csrrw stopei 0;land 0 0",
    "land 1 1;land 1 0;land 1 0;h 0 hgeip",
    "refetch 0 0;refetch 0 1;msi 0 0x28000000 9;send 0 0x28000000 12;land 0 0",
    "refetch 0 0;send 0 0x28000000 5;land 0 3;h 1 csrrw stopei 0;send 0 0x28000000 7",
    "leave 1 0;land 1 0;land 0 0;h 1 csrr sireg;arrive 1 0 0",
    "leave 0 1;land 0 0;h 1 csrr sireg",
    "send 0 0x28000000 1;send 0 0x28000000 2;send 0 0x28000000 3;send 0 0x28000000 4;"
    "send 0 0x28000000 8;send 0 0x28000000 9;send 1 0x28000000 5;land 0 7;land 0 5",
)


def landings() -> tuple[str, ...]:
    """Lines where stores are in flight already."""
    return (*(line for k in range(3) for line in (
        f"land 0 {k};h 1 csrrw stopei 0;h 0 csrr sireg",
        f"refetch 0 0;land 0 {k};h 1 csrrw stopei 0;land 0 1")), *LANDINGS)


def wire(source: int) -> tuple[str, str]:
    """The wire of a source that is passed to the virtual hart rises; then it does so twice."""
    load = f"ld 0x{0x0c00b000 + 4 * source:08x}"
    return (f"wire {source} 1;{load};h 1 csrrw stopei 0;h 1 csrr sireg;h 0 csrr sireg;h 0 hgeip;"
            "h 1 hgeip",
            f"wire {source} 1;wire {source} 0;{load};wire {source} 1;h 1 csrrw stopei 0;"
            "h 1 csrr sireg")


def wires(setting: Setting) -> tuple[str, ...]:
    """Wires of passed sources, of each by itself, of all, and of another virtual hart's; and what
    is refused of them."""
    of_all = (
        "wire 3 1;wire 2 1;wire 1 1;ld 0x0c00b004;ld 0x0c00b008;ld 0x0c00b00c;h 1 csrrw stopei 0;"
        "h 1 csrr sireg;h 0 hgeip;h 1 hgeip",
        "wire 1 1;h 1 csrrw stopei 0;wire 2 1;h 1 csrrw stopei 0;wire 3 1;h 1 csrr sireg")
    return (
        *(line for source in range(1, setting.passed + 1) for line in wire(source)),
        *(of_all if setting.passed == 3 else ()),
        "enter 0 0;wire 1 1;h 1 csrrw stopei 0;g 0 0 csrr stopei;exit 0 0;h 1 csrr sireg",
        "wire 4 1;ld 0x0c00b010;g 0 1 csrr stopei;h 0 hgeip;h 1 csrr sireg",
        "pass 5 0 0 5;pass 1 0 1 5;pass 5 0 1 5;st 0x0c00b004 7;ld 0x0c00b004")


def all_lines(setting: Setting) -> tuple[str, ...]:
    """Lines of all kinds."""
    second = (*both(70), "msi 0 0x28000004 0x47000000;g 0 1 ipi 0 72;msi 0 0x28000000 127",
              "msi 0 0x28000000 100;h 1 csrrw stopei 0;h 1 csrr sireg")
    return ("msi 0 0x28000004 0x05000000;h 1 csrr sireg", *both(5), *setting.second(second, ()),
            *stores(setting), *OTHERS, *ENTERED, *FLIGHTS, *MAJORS)


def few_lines(setting: Setting) -> tuple[str, str, str, str, str]:
    """Those of them that a test has also where an identity is deliverable."""
    return (*both(5), *both(setting.second(70, 7)),
            "msi 0 0x28000000 9;g 0 1 ipi 0 10;h 0 hgeip;h 1 hgeip;h 1 csrrw stopei 0")


def lines(setting: Setting) -> tuple[str, ...]:
    """Lists the lines that stand between two steps."""
    if setting.passed:
        return wires(setting)
    if setting.flight:
        return landings()
    return few_lines(setting) if setting.is_deliverable else all_lines(setting)
