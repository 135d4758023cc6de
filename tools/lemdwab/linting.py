"""Why a line spells nothing: of scripts, of plans that `audit` judges, and of plans for `judge`.

A fault is a column, counted from 1, and a reason. Which lines of a script are bad says the grammar
of lemdwab.apart.reading, and what is said here of one is true of it; each has one fault, the first
that helps.
"""

from __future__ import annotations

import string
from collections.abc import Sequence
from difflib import get_close_matches
from functools import lru_cache
from typing import NamedTuple

from lemdwab import answers
from lemdwab.apart import plans, reading

LINE_BYTES = reading.LINE_BYTES
MOST_WORDS = max(plans.WIDTHS)
# The names of the fields of each form, as docs/REFERENCE.md has them.
NAMES = {
    "machine": "H G N S", "vm": "C MASK HART", "wire": "S L", "st": "A V", "ld": "A",
    "msi": "VM A D", "send": "VM A D", "land": "VM K", "pass": "S VM C I", "refetch": "VM C",
    "arrive": "VM C H", "leave": "VM C", "shift": "VM C H", "begin arrive": "VM C H",
    "begin leave": "VM C", "begin shift": "VM C H", "step": "VM C", "enter": "VM C",
    "exit": "VM C", "save": "VM C K", "inject": "VM C BIT L", "hvictl": "VM C V",
    "hviprio": "VM C V", "pins": "H", "entry": "W0 W1",
    "image": "1 N D T S", "majors": "J E", "prio": "P V", "word": "w P E",
}
MNEMONICS = {"csrr": "CSR", **{word.decode(): "CSR V" for word in reading.WRITING}}
CSRS = {"m": reading.MACHINE_CSRS, "h": reading.FILE_CSRS, "g": reading.GUEST_CSRS}
ALL_CSRS = {word.decode() for names in CSRS.values() for word in names}
# Words that are no form, with the forms that may be meant.
MEANT = {"store": "st", "write": "st", "read": "ld, or h, m or g with csrr",
         "move": "arrive, leave, shift", "migrate": "arrive, leave, shift", "irq": "wire",
         "csr": "m, h, g", "hart": "m, h", "reset": "machine"}
# Bytes that a text of words has, whether or not it spells a line.
PLAIN = frozenset(range(0x20, 0x7f))
MARK = b"\xef\xbb\xbf"
KINDS = {"b": "is 0 or 1", "w": "is below 2^32"}


class Fault(NamedTuple):
    """What is wrong with a line, and where."""

    column: int
    reason: str


@lru_cache(1 << 16)
def nearest(word: str, known: tuple[str, ...]) -> str | None:
    """Gives the word among those that are known that one is most like, None where it is like
    none."""
    found = get_close_matches(word.lower(), known, 1) if len(word) <= 24 else []
    return found[0] if found else None


def unknown(what: str, word: str, known: Sequence[str] | set[str]) -> str:
    """Says that a word is none of those that are known, with the one that it is most like."""
    if word.lower() in known:
        return f"capital letters: {word}; {word.lower()}?"
    if what == "word" and word.lower() in MEANT and "st" in known:
        return f"unknown word {word}; {MEANT[word.lower()]}?"
    like = nearest(word, tuple(sorted(known)))
    return f"unknown {what} {word}" + (f"; {like}?" if like else "")


def misspelled(word: str) -> str | None:
    """Says why a word spells no number below 2^64."""
    hexadecimal = set(word[2:] if word[:2].lower() == "0x" else word) <= set(string.hexdigits)
    if word[:2].lower() == "0x" and hexadecimal:
        if len(word) == 2:
            return f"no digit behind 0x: {word}"
        if word[1] == "X":
            return f"a capital X in a hexadecimal number: {word}"
        if word != word.lower():
            return f"capital digits in a hexadecimal number: {word}"
        return f"more than 16 digits behind 0x: {word}"
    if word.isdigit():
        return (f"a leading zero: {word}" if word[0] == "0" else
                f"a number at or above 2^64: {word}")
    if hexadecimal:
        return f"hexadecimal digits without 0x: {word}"
    if word[0] in "+-" and word[1:].isdigit():
        return f"a sign before a number: {word}"
    return None


def bytes_of_no_text(text: bytes) -> Fault | None:
    """Finds a byte that is in no line, but in comments: a tab, a CR, another that is no text."""
    at = next((at for at, byte in enumerate(text) if byte not in PLAIN), None)
    if at is None:
        return None
    if text[at] == 9:
        return Fault(at + 1, "a tab; words stand apart by a space")
    if text[at] == 13:
        return Fault(at + 1, "a CR at the end: a line ends with LF alone" if at == len(text) - 1
                     else "a CR within the line")
    return Fault(at + 1, f"a byte that is no text here: 0x{text[at]:02x}")


def shape_fault(text: bytes) -> Fault | None:
    """Finds what is wrong with a line of a script or a plan for `audit` whatever its words are."""
    if len(text) > LINE_BYTES:
        what = "comment" if text[:1] == b"#" else "line"
        return Fault(LINE_BYTES + 1, f"a {what} of {len(text)} bytes; it has {LINE_BYTES} at most")
    if text.startswith(MARK):
        return Fault(1, "a byte order mark before the first word")
    at = text.find(b"#")
    if at > 0 and not text[:at].strip():
        return Fault(at + 1, "a comment that does not begin with the line")
    if at > 0:
        return Fault(at + 1, ("a comment behind a line; it" if text[at - 1] in b" \t" else
                              "a # within a word; a comment") + " is a line of its own")
    fault = bytes_of_no_text(text)
    if fault:
        return fault
    if not text.strip(b" "):
        return Fault(1, "spaces alone; an empty line has no byte")
    if text[:1] == b" ":
        return Fault(1, "a space before the first word")
    front = len(text.rstrip(b" "))
    two = text.find(b"  ", 0, front)
    if two >= 0:
        return Fault(two + 2, "two spaces; words stand apart by one")
    return Fault(front + 1, "a space at the end") if front < len(text) else None


class Words:
    """The words of a line, read one after the other by the names of its form."""

    def __init__(self, text: bytes) -> None:
        self.words = answers.shown(text).split(" ")
        self.columns = [1]
        for word in self.words:
            self.columns.append(self.columns[-1] + len(word) + 1)
        self.at = 1
        self.form = self.words[0]

    def word(self) -> str | None:
        """Gives the next word, None where there is none."""
        return self.words[self.at] if self.at < len(self.words) else None

    def fault(self, reason: str) -> Fault:
        """Gives a fault of the next word."""
        return Fault(self.columns[self.at], reason)

    def too_few(self) -> Fault:
        """Gives the fault that a word is missing."""
        return Fault(self.columns[-1] - 1, f"too few words: `{self.form}`")

    def end(self) -> Fault | None:
        """Gives the fault that words are left, None where none is."""
        return None if self.word() is None else self.fault(f"too many words: `{self.form}`")

    def numbers(self, kinds: str, names: Sequence[str] | str) -> Fault | None:
        """Reads numbers of these kinds; gives the fault of the first that is none."""
        for kind, name in zip(kinds, names):
            word = self.word()
            if word is None:
                return self.too_few()
            text = word.encode(errors="surrogateescape")
            if reading.number(text, reading.LIMITS[kind]) is None:
                if reading.number(text) is not None:
                    return self.fault(f"{name} of `{self.form}` {KINDS[kind]}: {word}")
                return self.fault(misspelled(word) or
                                  f"{name} of `{self.form}` is a number: {word}")
            self.at += 1
        return None

    def one_of(self, what: str, known: list[str] | set[str]) -> Fault | None:
        """Reads a word that is one of those that are known; gives the fault that it is none."""
        word = self.word()
        if word is None:
            return self.too_few()
        if word not in known:
            return self.fault(unknown(what, word, known))
        self.at += 1
        return None


def last_numbers(words: Words, kinds: str, names: str) -> Fault | None:
    """Finds what is wrong with numbers behind which nothing stands."""
    return words.numbers(kinds, names.split()) or words.end()


def of_keywords(words: Words, keywords: str) -> Fault | None:
    """Finds what is wrong with a line of a form that is keywords and numbers."""
    words.form = f"{keywords} {NAMES[keywords]}"
    return last_numbers(words, reading.FORMS[keywords], NAMES[keywords])


def of_begin(words: Words) -> Fault | None:
    """Finds what is wrong with a line that begins a move."""
    words.form = "begin leave VM C"
    moves = {keywords.split()[1] for keywords in reading.FORMS if keywords.startswith("begin ")}
    return words.one_of("move", moves) or of_keywords(words, f"begin {words.words[1]}")


def of_instruction(words: Words, front: str) -> Fault | None:
    """Finds what is wrong with a CSR instruction behind the words of a hart or virtual hart."""
    level, mnemonic = words.words[0], words.words[words.at - 1]
    words.form = f"{front} {mnemonic} {MNEMONICS[mnemonic]}"
    known = [name.decode() for name in CSRS[level]]
    csr = words.word()
    if csr in ALL_CSRS.difference(known):
        return words.fault(f"{csr} is no CSR of `{front}`, which has {', '.join(known)}")
    return words.one_of("CSR", known) or last_numbers(words, "n" * (mnemonic != "csrr"), "V")


def of_hart(words: Words, kinds: str, names: str,
            others: dict[str, tuple[str, str]]) -> Fault | None:
    """Finds what is wrong with a line that begins with a hart or virtual hart: behind it stands a
    CSR instruction, or a word of some others with the kinds and names of what follows it."""
    front = f"{words.words[0]} {names}"
    words.form = f"{front} INS"
    fault = words.numbers(kinds, names.split())
    fault = fault or words.one_of("word", {*MNEMONICS, *others})
    if fault:
        return fault
    word = words.words[words.at - 1]
    if word in MNEMONICS:
        return of_instruction(words, front)
    kinds, names = others[word]
    words.form = f"{front} {word} {names}".rstrip()
    return last_numbers(words, kinds, names)


def of_load(words: Words) -> Fault | None:
    """Finds what is wrong with a line that loads a part of an image."""
    words.form = "load VM C PART"
    known = {part.decode() for part in reading.PARTS}
    fault = words.numbers("nn", ("VM", "C")) or words.one_of("part", known)
    if fault:
        return fault
    part = words.words[words.at - 1]
    words.form = f"load VM C {part} {NAMES[part]}"
    return last_numbers(words, reading.PARTS[part.encode()], NAMES[part])


def script_fault(text: bytes) -> Fault | None:
    """Finds what is wrong with a line of a script; None where it is good or skipped."""
    if reading.read(text) is not reading.BAD:
        return None
    fault = shape_fault(text)
    if fault:
        return fault
    words = Words(text)
    first = words.words[0]
    if first == "begin":
        fault = of_begin(words)
    elif first == "m":
        fault = of_hart(words, "n", "H", {})
    elif first == "h":
        fault = of_hart(words, "n", "H", {"hgeip": ("", "")})
    elif first == "g":
        fault = of_hart(words, "nn", "VM C", {"ipi": ("nw", "C2 D")})
    elif first == "load":
        fault = of_load(words)
    elif first in reading.FORMS:
        fault = of_keywords(words, first)
    else:
        fault = Fault(1, unknown("word", first, set(answers.FORMS)))
    return fault or Fault(1, "it spells no line")


def step_fault(text: bytes, width: int | None) -> Fault | None:
    """Finds what is wrong with a line of a plan for `audit`, of files of so many words, or of as
    many as there may be."""
    if reading.is_skipped(text):
        return None
    fault = shape_fault(text)
    if fault:
        return fault
    words = Words(text)
    name = words.words[0]
    if name not in plans.OF_A_WORD:
        return (words.end() if name in plans.PLAIN else
                Fault(1, unknown("step", name, {*plans.PLAIN, *plans.OF_A_WORD})))
    words.form = f"{name} w"
    fault = words.numbers("n", "w")
    if fault:
        return fault
    word, limit = words.words[1], width or MOST_WORDS
    if reading.number(word.encode(), limit) is None:
        return Fault(words.columns[1], f"w of `{words.form}` is below {limit}: {word}")
    return words.end()


class Audit:
    """The lines of a plan for `audit`."""

    def __init__(self, width: int | None = None) -> None:
        self.width, self.count = width, 0

    def fault(self, text: bytes) -> Fault | None:
        """Finds what is wrong with the next line."""
        self.count += not reading.is_skipped(text)
        if self.count == plans.MOST_STEPS + 1 and not reading.is_skipped(text):
            return Fault(1, f"one step too many; a plan has {plans.MOST_STEPS} at most")
        return step_fault(text, self.width)


class Script:
    """The lines of a script."""

    fault = staticmethod(script_fault)
