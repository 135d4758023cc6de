"""How a text of a script is read: the grammar of lines, as docs/REFERENCE.md has it.

`read(text)` gives None for a text that is skipped, BAD for one that spells no line, and else the
name of a form with its fields. A number is an int; a CSR instruction is the three fields CSR,
operation and operand.
"""

from __future__ import annotations

import re
from collections.abc import Sequence
from typing import Any

LINE_BYTES = 128
BAD = ("bad", ())
NUMBER = re.compile(rb"0|[1-9][0-9]*|0x[0-9a-f]{1,16}")
known_numbers: dict[bytes, int | None] = {}


def spelled_number(word: bytes) -> int | None:
    """The number below 2^64 that a word spells, None where it spells none."""
    if not NUMBER.fullmatch(word):
        return None
    value = int(word, 16) if word.startswith(b"0x") else int(word)
    return value if value < 1 << 64 else None


def number(word: bytes, limit: int = 1 << 64) -> int | None:
    """The same below a limit; words that were read before are kept."""
    if word not in known_numbers:
        if len(known_numbers) > 200_000:
            known_numbers.clear()
        known_numbers[word] = spelled_number(word)
    value = known_numbers[word]
    return value if value is not None and value < limit else None


# What a field is: a number, one below 2^32, or a bit.
LIMITS = {"n": 1 << 64, "w": 1 << 32, "b": 2}

# The fields that follow each keyword, or both of two.
FORMS = {
    "machine": "nnnn", "vm": "nnn", "wire": "nb", "ld": "n", "st": "nw", "msi": "nnw",
    "send": "nnw", "land": "nn", "refetch": "nn", "pass": "nnnn", "arrive": "nnn", "leave": "nn",
    "shift": "nnn",
    "begin arrive": "nnn", "begin leave": "nn", "begin shift": "nnn", "step": "nn", "enter": "nn",
    "exit": "nn", "inject": "nnnb", "hvictl": "nnn", "hviprio": "nnn", "pins": "n", "entry": "nn",
    "save": "nnn",
}
BY_KEYWORDS = {tuple(keywords.encode().split()): (keywords.replace(" ", "_"), kinds)
               for keywords, kinds in FORMS.items()}

# What follows `load VM C`, by the word that names the part of an image.
PARTS = {b"image": "wwbwn", b"majors": "nn", b"prio": "nn", b"word": "nnn"}

# The names of CSRs at each level, and the mnemonics of instructions that write.
FILE_CSRS = {b"siselect": "select", b"sireg": "reg", b"stopei": "topei"}
MACHINE_CSRS = {b"miselect": "select", b"mireg": "reg", b"mtopei": "topei"}
GUEST_CSRS = {**FILE_CSRS, b"stopi": "topi", b"sip": "sip", b"sie": "sie"}
WRITING = {b"csrrw": "write", b"csrrs": "set", b"csrrc": "clear"}


def fields(kinds: str, words: list[bytes]) -> list[int] | None:
    """The fields that words spell, one word a field; None where one of them spells none."""
    if len(words) != len(kinds):
        return None
    found = [number(word, LIMITS[kind]) for kind, word in zip(kinds, words)]
    spelled = [value for value in found if value is not None]
    return spelled if len(spelled) == len(found) else None


def instruction(csrs: dict[bytes, str], words: list[bytes]) -> list[int | str] | None:
    """A CSR instruction: the CSR, the operation and the operand."""
    if len(words) == 2 and words[0] == b"csrr" and words[1] in csrs:
        return [csrs[words[1]], "read", 0]
    if len(words) == 3 and words[0] in WRITING and words[1] in csrs:
        operand = number(words[2])
        return None if operand is None else [csrs[words[1]], WRITING[words[0]], operand]
    return None


def joined(name: str, front: list[int] | None,
           rest: Sequence[int | str] | None) -> tuple[str, Any]:
    """A line of two parts, BAD where one of them spells nothing."""
    return BAD if front is None or rest is None else (name, [*front, *rest])


def read_machine_csr(words: list[bytes]) -> tuple[str, Any]:
    return joined("m", fields("n", words[1:2]), instruction(MACHINE_CSRS, words[2:]))


def read_host(words: list[bytes]) -> tuple[str, Any]:
    front = fields("n", words[1:2])
    if words[2:] == [b"hgeip"]:
        return joined("hgeip", front, [])
    return joined("h", front, instruction(FILE_CSRS, words[2:]))


def read_guest(words: list[bytes]) -> tuple[str, Any]:
    front = fields("nn", words[1:3])
    if words[3:4] == [b"ipi"]:
        return joined("ipi", front, fields("nw", words[4:]))
    return joined("g", front, instruction(GUEST_CSRS, words[3:]))


def read_load(words: list[bytes]) -> tuple[str, Any]:
    part = words[3] if len(words) > 3 else b""
    rest = fields(PARTS[part], words[4:]) if part in PARTS else None
    return joined("load_" + part.decode("latin-1"), fields("nn", words[1:3]), rest)


READERS = {b"m": read_machine_csr, b"h": read_host, b"g": read_guest, b"load": read_load}


def is_skipped(text: bytes) -> bool:
    """Whether a text is empty or a comment, which have no answer."""
    return not text or text[0] == 35 and len(text) <= LINE_BYTES


def read(text: bytes) -> tuple[str, Any] | None:
    """What a text is: None where it is skipped, else a form and its fields."""
    if is_skipped(text):
        return None
    if len(text) > LINE_BYTES:
        return BAD
    words = text.split(b" ")
    if words[0] in READERS:
        return READERS[words[0]](words)
    keywords = tuple(words[:2 if words[0] == b"begin" else 1])
    name, kinds = BY_KEYWORDS.get(keywords, ("", ""))
    found = fields(kinds, words[len(keywords):]) if name else None
    return BAD if found is None else (name, found)


def texts(script: bytes) -> list[bytes]:
    """The texts of a script: it is cut at LF, and a last text without one counts."""
    cut = script.split(b"\n")
    return cut if cut[-1] else cut[:-1]
