"""Lines of no sense, and a reader of the grammar that is written apart, by regular expressions of
whole lines: what suite/no-sense holds the program against."""

import re
from collections.abc import Callable

from lemdwab.chance import Chance

LINE_BYTES = 128
# Of each kind of field how it is spelled: N a number, W one below 2^32, L a level, M, H and G CSRs,
# O an instruction that writes.
NUMBER = b"(?:0|[1-9][0-9]*|0x[0-9a-f]+)"
FIELDS = {b"N": NUMBER, b"W": NUMBER, b"L": NUMBER, b"M": b"(?:miselect|mireg|mtopei)",
          b"H": b"(?:siselect|sireg|stopei)", b"G": b"(?:siselect|sireg|stopei|stopi|sip|sie)",
          b"O": b"csrr[wsc]"}
BELOW = {b"N": 1 << 64, b"W": 1 << 32, b"L": 2}
FORMS = (
    b"machine N N N N;vm N N N;wire N L;st N W;ld N;msi N N W;send N N W;land N N;refetch N N;"
    b"arrive N N N;leave N N;shift N N N;begin arrive N N N;pass N N N N;begin leave N N;"
    b"begin shift N N N;step N N;enter N N;exit N N;save N N N;load N N image W W L W N;"
    b"load N N majors N N;load N N prio N N;load N N word N N N;inject N N N L;hvictl N N N;"
    b"hviprio N N N;g N N csrr G;g N N O G N;g N N ipi N W;m N csrr M;m N O M N;h N csrr H;"
    b"h N O H N;h N hgeip;pins N;entry N N").split(b";")
# What a `machine` line has that may be accepted.
STANDS = re.compile(rb"machine (?:0x0*)?[1-4] (?:[0-9]|[12][0-9]|3[01]|0x0*1?[0-9a-f]) ")
REFUSED_MACHINE = b"machine 5 0 63 1"

FEW = b"0;1;2;3;4;0x0;0x1".split(b";")
NUMBERS = (
    b"5;7;8;9;15;16;17;31;32;33;63;64;127;255;511;1023;2047;2048;0x3f;0x28000000;0x28000004;"
    b"0x28020000;0x2807f000;0x8000bffc;0x8000c000;0x2800;0x24000000;0x0c000000;0x80000000;0xc0;"
    b"0x80;0x70;0xffffffff;4294967295;4294967296;0x100000000;0xffffffffffffffff;"
    b"18446744073709551615;0x0000000000000001;0x000000000000001;0x00000000ffffffff;"
    b"0x0000000100000000;9999999999999999999;10000000000000000000;18446744073709551599").split(b";")
WRONG = (
    b"18446744073709551616;18446744073709551620;0x10000000000000000;0x00000000000000000;"
    b"99999999999999999999;1111111111222222222233333333334444444444;"
    b"0x1111111111222222222233333333334444444444;00;01;007;0x;0X1;0xA;0xaB;x1;-1;+1;1.0;1e3;1_0;"
    b"0b1;0x 1;1h;;0x1g;'1';0x-1;36893488147419103233;18446744073709551617").split(b";")
WORDS = (
    b"machine;vm;wire;st;ld;msi;send;land;refetch;arrive;leave;shift;begin;step;enter;exit;save;"
    b"load;image;majors;prio;word;pass;inject;hvictl;hviprio;g;m;h;hgeip;pins;entry;csrr;csrrw;"
    b"csrrs;csrrc;csrrwi;siselect;sireg;stopei;stopi;sip;sie;miselect;mireg;mtopei;vstopei;ipi;#;"
    b"gen;replay;ok;bad;Step;MSI;--help;0;1;0x1").split(b";")
LEVELS = b"0;1;0x0;0x1;0x0000000000000001;0;1;2;0x2;00".split(b";")
CHOICES = {b"L": LEVELS, b"M": b"miselect;mireg;mtopei".split(b";"),
           b"H": b"siselect;sireg;stopei".split(b";"),
           b"G": b"siselect;sireg;stopei;stopi;sip;sie".split(b";"),
           b"O": b"csrrw;csrrs;csrrc".split(b";")}
KNOWN_BYTES = b"0123456789abcdefghilmnoprstvwx #-\t\r"


def pattern_of(form: bytes) -> re.Pattern[bytes]:
    """Gives the regular expression of a form of line, with a group for each number."""
    words = [b"(" + NUMBER + b")" if word in BELOW else FIELDS.get(word, re.escape(word))
             for word in form.split(b" ")]
    return re.compile(b" ".join(words))


# Of each form its regular expression, and below what each of its numbers is.
PATTERNS = [(pattern_of(form), [BELOW[word] for word in form.split(b" ") if word in BELOW])
            for form in FORMS]


def is_below(word: bytes, bound: int) -> bool:
    """Says whether a word of the form of a number is one below a bound."""
    if word.startswith(b"0x"):
        return len(word) <= 18 and int(word, 16) < bound
    return int(word) < bound


def spells(line: bytes) -> bool:
    """Says whether a line is one of a script."""
    if len(line) > LINE_BYTES:
        return False
    for pattern, bounds in PATTERNS:
        found = pattern.fullmatch(line)
        if found:
            return all(map(is_below, found.groups(), bounds))
    return False


def is_skipped(line: bytes) -> bool:
    """Says whether a line answers nothing."""
    return not line or line.startswith(b"#") and len(line) <= LINE_BYTES


def answer(line: bytes) -> str:
    """What a line answers where no machine stands."""
    if not spells(line):
        return "bad"
    return "range" if line.startswith(b"machine ") else "nomachine"


class NoSense:
    """Lines of no sense, by a number: good lines, changed ones, words and bytes by chance."""

    def __init__(self, seed: int) -> None:
        self.chance = Chance(seed % 2147483646 + 1)
        self.below = self.chance.below
        for _ in range(8):
            self.chance.turn()

    def lines(self, count: int) -> list[bytes]:
        """Gives so many. A `machine` line that may be accepted is none of them, for it would end
        what is answered where no machine stands."""
        found = [self.line() for _ in range(count)]
        return [REFUSED_MACHINE if STANDS.match(line) and spells(line) else line for line in found]

    def pick(self, choices: list[bytes]) -> bytes:
        """One of some words."""
        return choices[self.below(len(choices))]

    def number(self) -> bytes:
        """A number, mostly; now and then a word that spells none, or too great a one."""
        kind = self.below(20)
        if kind < 18:
            return self.pick(FEW if kind < 12 else NUMBERS if kind < 17 else WRONG)
        digits = [1 + self.below(9)]
        digits += [self.below(10) for _ in range(self.below(22))]
        return "".join(map(str, digits)).encode()

    def good(self) -> bytes:
        """A line of some form."""
        words = []
        for word in self.pick(FORMS).split(b" "):
            words.append(self.number() if word in (b"N", b"W") else
                         self.pick(CHOICES[word]) if word in CHOICES else word)
        return b" ".join(words)

    def byte(self) -> bytes:
        """Any byte but LF."""
        kind = 1 + self.below(255)
        return {1: b"\0", 10: b" "}.get(kind, bytes([kind]))

    def some_bytes(self, count: int) -> bytes:
        """So many bytes."""
        return b"".join([self.byte() for _ in range(count)])

    def known_byte(self) -> bytes:
        """A byte that lines have."""
        at = self.below(len(KNOWN_BYTES))
        return KNOWN_BYTES[at:at + 1]

    def changed(self, line: bytes) -> bytes:
        """A line with one thing that is other."""
        at = self.below(len(line) + 1)
        front, rest = line[:at], line[at:]
        changes: tuple[Callable[[], bytes], ...] = (
            lambda: front + rest[1:], lambda: front + self.known_byte() + rest,
            lambda: front + self.known_byte() + rest[1:], lambda: front + self.byte() + rest,
            lambda: front + b" " + rest, lambda: line + b" ", lambda: b" " + line, lambda: front,
            lambda: line + b"\r", lambda: line + b" " + self.pick(WORDS),
            lambda: front + rest.replace(b" ", b"  ", 1), lambda: front.upper() + rest)
        return changes[self.below(len(changes))]()

    def words(self, count: int) -> bytes:
        """So many known words and numbers."""
        line = b""
        for _ in range(count):
            line += (b" " if line else b"") + (self.pick(WORDS) if self.below(3) else self.number())
        return line

    def long(self) -> bytes:
        """A line of 127, 128 or 129 bytes."""
        count, kind = LINE_BYTES - 1 + self.below(3), self.below(5)
        if kind == 0:
            return self.some_bytes(count)
        if kind == 1:
            return b"#" + self.some_bytes(count - 1)
        line = self.good()
        if kind < 4:
            return (line + (b" " if kind == 2 else b"0") * count)[:count]
        return (line + b" # " + self.some_bytes(count))[:count]

    def line(self) -> bytes:
        """A line of any kind."""
        kind = self.below(100)
        if kind < 38:
            return self.good()
        if kind < 68:
            return self.changed(self.good())
        if kind < 76:
            return self.changed(self.changed(self.good()))
        if kind < 84:
            return self.words(1 + self.below(7))
        if kind < 90:
            return self.some_bytes(self.below(60))
        if kind < 96:
            return self.long()
        if kind < 98:
            return b"#" + self.some_bytes(self.below(20))
        return b"" if kind < 99 else self.byte()
