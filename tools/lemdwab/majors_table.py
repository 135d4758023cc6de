"""What a guest reads of its majors, found by the rule in words, as a file of Rust: what
suite/majors-table writes, which has the rule."""

from collections.abc import Iterable

MAJORS = (1, 5, 9, 13)
EXTERNAL = 9
# Where a major stands that has no number of its own.
LAST = 256
IDENTITIES = (0, 1, 255, 300)
# The bytes of hviprio1 for 1, 5 and 13: none, ties with 1 and 255, three apart, and some of both.
BYTES = ((0, 0, 0), (1, 1, 1), (255, 255, 255), (7, 3, 5), (0, 255, 1))
NAMES, IPRIOS = (1, 9, 13, 63), (0, 1, 255)
SETS = range(16)
HEAD = """\
//! What a guest reads of its majors, as `suite/majors-table` finds it. Edit that, not this.
//!
//! A set of majors is a number from 0 to 15, whose bits are for the majors 1, 5, 9 and 13.
"""
OF_PENDING = """\
What `stopi` reads where VTI is 0: by the set of those pending and enabled, IPRIOM,
/// `PRIORITIES` and `TOPS`."""
OF_NAMED = """\
What `stopi` reads where VTI is 1: by whether the external interrupt is pending and
/// enabled, DPR, IPRIOM, `NAMES`, `IPRIOS` and `TOPS`."""
WIDTH, FULL, LONG = 58, 99, 10


def members(set_: int) -> list[int]:
    """Lists the majors of a set: bit b of its number is for the b-th of them."""
    return [major for place, major in enumerate(MAJORS) if set_ >> place & 1]


def placed(number: int) -> int:
    """Gives where a major stands that has this number, or none."""
    return number or LAST


def stopi(at: dict[int, int], order: Iterable[int], ipriom: int) -> int:
    """Gives what stopi reads of the majors that stand at these numbers, by the order of a tie."""
    found = [(at[major], place, major) for place, major in enumerate(order) if major in at]
    if not found:
        return 0
    number, _, major = min(found)
    return major << 16 | (min(number, 255) if ipriom else 1)


def pending() -> Iterable[int]:
    """What stopi reads where VTI is 0."""
    for set_ in SETS:
        for ipriom in (0, 1):
            for bytes_ in BYTES:
                for identity in IDENTITIES:
                    numbers = dict(zip((1, 5, 13, EXTERNAL), (*bytes_, identity)))
                    at = {major: placed(numbers[major]) for major in members(set_)}
                    yield stopi(at, (EXTERNAL, 1, 5, 13), ipriom)


def named() -> Iterable[int]:
    """What it reads where VTI is 1."""
    for external, dpr, ipriom, name, iprio, identity in (
            (a, b, c, d, e, f) for a in (0, 1) for b in (0, 1) for c in (0, 1) for d in NAMES
            for e in IPRIOS for f in IDENTITIES):
        at = {EXTERNAL: placed(identity)} if external else {}
        if name != EXTERNAL:
            at[name] = placed(iprio) if dpr else iprio
        yield stopi(at, (EXTERNAL, name) if dpr else (name, EXTERNAL), ipriom)


def constant(text: str, name: str, values: Iterable[int]) -> str:
    """Gives a constant as `rt fmt` lays it out: on a line where its numbers have 60 columns at
    most, else in lines that are full, or one a line where one is long."""
    numbers = [f"0x{value:x}" for value in values]
    front = f"\n/// {text}\npub const {name}: [u64; {len(numbers)}] = ["
    if len(", ".join(numbers)) <= WIDTH:
        return f"{front}{', '.join(numbers)}];\n"
    is_long = any(len(number) > LONG for number in numbers)
    lines = ["   "]
    for number in numbers:
        if lines[-1].strip() and (is_long or len(lines[-1]) + len(number) + 2 > FULL):
            lines.append("   ")
        lines[-1] += f" {number},"
    return front + "\n" + "\n".join(lines) + "\n];\n"


def text() -> str:
    """Gives the whole file."""
    registers = [sum(1 << major for major in members(set_)) for set_ in SETS]
    priorities = [first << 8 | second << 24 | third << 40 for first, second, third in BYTES]
    return HEAD + "".join((
        constant("What `stopei` reads: no identity, 1, 255 and 300.", "TOPS",
                 (identity * 65537 for identity in IDENTITIES)),
        constant("Values of `hviprio1`.", "PRIORITIES", priorities),
        constant("Majors that IID of `hvictl` names.", "NAMES", NAMES),
        constant("Values of IPRIO of `hvictl`.", "IPRIOS", IPRIOS),
        constant("What `sip` or `sie` reads, by the set.", "REGISTERS", registers),
        constant(OF_PENDING, "PENDING", pending()), constant(OF_NAMED, "NAMED", named())))
