# SPDX-License-Identifier: Apache-2.0
"""A model of the interrupt side of a RISC-V machine, by the library for C.

    from aia import Csr, Model, Op, Refused

    with Model() as model:
        model.machine(harts=1, guests=0, identities=63, sources=1)
        model.csr(0, Csr.SISELECT, Op.WRITE, 0x70)
        model.csr(0, Csr.SIREG, Op.WRITE, 1)
        model.store(0x28000000, 5)
        print(model.signals(0))
        try:
            model.pins(9)
        except Refused as refused:
            print(refused.code.name)

Each method does one line of a script, which its docstring names; docs/REFERENCE.md says what each
line does. A method whose line is refused, or which can't be answered, raises `Refused` with the
code of include/aia.h, and the model is as before. Numbers are those of the line. Here only their
size is checked, `OverflowError`; all else of them the model checks.

`Model(library)` takes the path of the shared library. Without one it is the variable LIBAIA, else
libaia.so.1 where the system finds it. A model belongs to one thread at a time.

Run by itself it answers a script on standard input: `python3 aia.py [LIBRARY] < SCRIPT`.
"""

from __future__ import annotations

import ctypes
import os
import sys
from collections.abc import Callable
from enum import IntEnum
from types import TracebackType
from typing import Any, NamedTuple

__all__ = ["Code", "Csr", "Entry", "EntryKind", "Model", "Op", "Part", "PartKind", "Refused",
           "Signals", "code_name", "version"]

# Room that is enough for any answer with its LF, in bytes; and the version that this was written
# for, as include/aia.h has both.
ANSWER, VERSION = 64, 10000


class Code(IntEnum):
    """What a call says of itself; from 16 on, what the answer to its line is."""

    DONE = 0
    NO_MEMORY = 1
    CLOSED = 2
    OPEN = 3
    NO_ROOM = 4
    NO_LINE = 5
    NO_MACHINE = 16
    AGAIN = 17
    MOVING = 18
    BAD = 19
    RANGE = 32
    FULL = 33
    BUSY = 34
    HOME = 35
    ENTERED = 36
    PARKED = 37
    NO_FILE = 38
    PASSED = 39
    UNREADY = 40
    IDLE = 41
    AWAY = 42
    ILLEGAL = 43
    VIRTUAL = 44
    FAULT = 45
    GUARDED = 46
    OTHER = 47
    NOT_VALID = 48
    G_FAULT = 49


class Op(IntEnum):
    """CSR instructions, by their funct3: READ is `csrr`, WRITE `csrrw`, SET `csrrs`, CLEAR
    `csrrc`."""

    READ = 0
    WRITE = 1
    SET = 2
    CLEAR = 3


class Csr(IntEnum):
    """CSRs, by their addresses: a hart has the first six, a virtual hart the last six."""

    MISELECT = 0x350
    MIREG = 0x351
    MTOPEI = 0x35C
    SISELECT = 0x150
    SIREG = 0x151
    STOPEI = 0x15C
    STOPI = 0xDB0
    SIP = 0x144
    SIE = 0x104


class PartKind(IntEnum):
    """Parts of an image of a virtual hart, with the numbers that each has."""

    IMAGE = 1
    """version, N, D, T, S"""
    MAJORS = 2
    """J, E"""
    PRIO = 3
    """P, V"""
    WORD = 4
    """W, P, E"""


class EntryKind(IntEnum):
    """What an entry of an MSI table says, with the numbers that each kind has."""

    BASIC = 1
    """P"""
    MRIF = 2
    """A, P, I"""
    NOT_VALID = 3
    CUSTOM = 4
    MISCONFIGURED = 5


class Part(NamedTuple):
    """One part of an image: its kind, and its numbers in the order of its line."""

    kind: PartKind
    numbers: tuple[int, ...]


class Entry(NamedTuple):
    """What an entry says: its kind, and its numbers in the order of its answer."""

    kind: EntryKind
    numbers: tuple[int, ...]


class Signals(NamedTuple):
    """What a hart is told: its pins, and `hgeip`."""

    root: bool
    """the APLIC's root domain, delivered directly"""
    child: bool
    """the APLIC's child domain, delivered directly"""
    machine: bool
    """the machine-level interrupt file"""
    supervisor: bool
    """the supervisor-level interrupt file"""
    hgeip: int
    """bit g: guest file g"""


class Refused(Exception):
    """A line was refused, or a call could not answer it."""

    def __init__(self, code: Code) -> None:
        super().__init__(code.name)
        self.code = code


PART_NUMBERS = {PartKind.IMAGE: 5, PartKind.MAJORS: 2, PartKind.PRIO: 2, PartKind.WORD: 3}
ENTRY_NUMBERS = {EntryKind.BASIC: 1, EntryKind.MRIF: 3, EntryKind.NOT_VALID: 0,
                 EntryKind.CUSTOM: 0, EntryKind.MISCONFIGURED: 0}
# What a call takes after its handle, a letter each: q 64 bits, i 32 bits, b a truth value, t a
# text, w room for a text; Q and I are written by the call.
C_TYPES: dict[str, list[Any]] = {
    "q": [ctypes.c_uint64],
    "i": [ctypes.c_uint32],
    "b": [ctypes.c_bool],
    "t": [ctypes.c_char_p, ctypes.c_size_t],
    "w": [ctypes.c_char_p, ctypes.c_size_t, ctypes.POINTER(ctypes.c_size_t)],
    "z": [ctypes.POINTER(ctypes.c_size_t)],
    "Q": [ctypes.POINTER(ctypes.c_uint64)],
    "I": [ctypes.POINTER(ctypes.c_uint32)],
}
CALLS = {
    "open": "", "reset": "", "line": "tw", "text": "tw", "replay": "tzw",
    "machine": "qqqq", "vm": "qqq", "wire": "qb", "store": "qi", "load": "qI", "pins": "qI",
    "hgeip": "qQ", "signals": "qIQ", "csr": "qiiqQ", "msi": "qqi", "send": "qqi", "land": "qq",
    "refetch": "qq", "pass": "qqqq", "guest_csr": "qqiiqQ", "ipi": "qqqi", "inject": "qqqb",
    "hvictl": "qqq", "hviprio": "qqq", "save": "qqqIQQQQQ", "load_part": "qqiqqqqq",
    "entry": "qqIQQQ", "arrive": "qqq", "leave": "qq", "shift": "qqq", "begin_arrive": "qqq",
    "begin_leave": "qq", "begin_shift": "qqq", "step": "qq", "enter": "qq", "exit": "qq",
}
SIZES = {"q": 64, "i": 32, "b": 1}
HANDLE: Any = ctypes.POINTER(ctypes.c_void_p)
LOADED: dict[str, ctypes.CDLL] = {}


def loaded(library: str | None = None) -> ctypes.CDLL:
    """Gives the shared library at a path, loaded once; `OSError` where there is none."""
    path = library or os.environ.get("LIBAIA") or "libaia.so.1"
    if path not in LOADED:
        calls = ctypes.CDLL(path)
        for name, takes in CALLS.items():
            call = getattr(calls, f"aia_{name}")  # one object for each name, as [] does not give
            call.restype = ctypes.c_int32
            call.argtypes = [HANDLE] + [of for letter in takes for of in C_TYPES[letter]]
        calls.aia_close.restype, calls.aia_close.argtypes = None, [HANDLE]
        calls.aia_version.restype, calls.aia_version.argtypes = ctypes.c_uint32, []
        calls.aia_code_name.argtypes = [ctypes.c_int32, *C_TYPES["w"]]
        LOADED[path] = calls
    return LOADED[path]


def version(library: str | None = None) -> int:
    """Gives the version of the library: 10000 is 1.0.0."""
    return int(loaded(library).aia_version())


def code_name(code: int, library: str | None = None) -> str:
    """Gives the word that answers have for a code from 16 on, `range` of RANGE; `Refused` of a
    number that is no such code."""
    name, written = ctypes.create_string_buffer(ANSWER), ctypes.c_size_t()
    found = loaded(library).aia_code_name(code, name, ANSWER, ctypes.byref(written))
    if found != Code.DONE:
        raise Refused(Code(found))
    return name.raw[:written.value].decode("ascii")


def fitting(value: int, bits: int) -> int:
    """Gives a number that the C type of so many bits has; `OverflowError` of any other."""
    if not 0 <= value < 1 << bits:
        raise OverflowError(f"{value} is no number of {bits} bits")
    return value


class Model:
    """One model. It answers `CLOSED` once it was closed."""

    def __init__(self, library: str | None = None) -> None:
        """Opens a model with no machine; `OSError` where there is no library."""
        self.calls, self.handle = loaded(library), ctypes.c_void_p()
        self.done("open")

    def __enter__(self) -> Model:
        return self

    def __exit__(self, kind: type[BaseException] | None, error: BaseException | None,
                 trace: TracebackType | None) -> None:
        self.close()

    def close(self) -> None:
        """Frees the model; it stays closed then."""
        self.calls.aia_close(ctypes.byref(self.handle))

    def reset(self) -> None:
        """Makes the model as new, with no machine."""
        self.done("reset")

    # ---- calls

    def code(self, name: str, *words: object) -> Code:
        """Makes a call, with what it takes after its handle; gives its code."""
        call: Callable[..., int] = getattr(self.calls, f"aia_{name}")
        return Code(call(ctypes.byref(self.handle), *words))

    def done(self, name: str, *words: object) -> None:
        """Makes a call; `Refused` where its code is not DONE."""
        if (code := self.code(name, *words)) != Code.DONE:
            raise Refused(code)

    def does(self, name: str, *numbers: int) -> None:
        """Makes a call that takes numbers and gives none."""
        self.done(name, *(fitting(number, SIZES[letter])
                          for number, letter in zip(numbers, CALLS[name], strict=True)))

    def gives(self, name: str, *numbers: int) -> list[int]:
        """Makes a call that takes numbers; gives those that it writes."""
        letters = CALLS[name][len(numbers):]
        out = [ctypes.c_uint32() if letter == "I" else ctypes.c_uint64() for letter in letters]
        self.done(name, *(fitting(number, SIZES[letter])
                          for number, letter in zip(numbers, CALLS[name])),
                  *map(ctypes.byref, out))
        return [number.value for number in out]

    # ---- texts

    def line(self, text: bytes | str) -> bytes:
        """Answers one line, given without its LF; gives the answer with its LF, or nothing of an
        empty line or a comment. A refusal is an answer here."""
        return self.answered("line", text)[1]

    def text(self, text: bytes | str) -> tuple[Code, bytes]:
        """Answers one line; gives the code of the answer, and the answer."""
        return self.answered("text", text)

    def answered(self, name: str, text: bytes | str) -> tuple[Code, bytes]:
        """Answers one line by either call."""
        line = text.encode() if isinstance(text, str) else text
        answer, written = ctypes.create_string_buffer(ANSWER), ctypes.c_size_t()
        code = self.code(name, line, len(line), answer, ANSWER, ctypes.byref(written))
        if Code.DONE < code < Code.NO_MACHINE:
            raise Refused(code)
        return code, answer.raw[:written.value]

    def replay(self, script: bytes) -> bytes:
        """Answers the lines of a script, the last of which may lack its LF; gives the answers. What
        comes in pieces is cut after an LF."""
        answers, at, room = b"", 0, 1 << 16
        buffer, taken = ctypes.create_string_buffer(room), ctypes.c_size_t()
        written = ctypes.c_size_t()
        while True:
            rest = script[at:]
            code = self.code("replay", rest, len(rest), ctypes.byref(taken), buffer, room,
                             ctypes.byref(written))
            answers, at = answers + buffer.raw[:written.value], at + taken.value
            if code == Code.DONE:
                return answers
            if code != Code.NO_ROOM:
                raise Refused(code)

    # ---- the machine

    def machine(self, harts: int, guests: int, identities: int, sources: int) -> None:
        """`machine H G N S`: makes the machine."""
        self.does("machine", harts, guests, identities, sources)

    def vm(self, vcpus: int, mask: int, hart: int) -> None:
        """`vm C MASK HART`: makes the next VM."""
        self.does("vm", vcpus, mask, hart)

    def wire(self, source: int, level: bool) -> None:
        """`wire S L`: drives a wired source."""
        self.does("wire", source, level)

    def store(self, addr: int, value: int) -> None:
        """`st A V`: stores 32 bits."""
        self.does("store", addr, value)

    def load(self, addr: int) -> int:
        """`ld A`: loads 32 bits."""
        return self.gives("load", addr)[0]

    def csr(self, hart: int, csr: Csr, op: Op = Op.READ, operand: int = 0) -> int:
        """`h H csrr CSR`, `m H csrr CSR` and their kin: gives what the CSR had."""
        return self.gives("csr", hart, csr, op, operand)[0]

    def pins(self, hart: int) -> int:
        """`pins H`: bit 0 is the first of its four digits."""
        return self.gives("pins", hart)[0]

    def hgeip(self, hart: int) -> int:
        """`h H hgeip`."""
        return self.gives("hgeip", hart)[0]

    def signals(self, hart: int) -> Signals:
        """`pins H` and `h H hgeip` in one call."""
        pins, hgeip = self.gives("signals", hart)
        root, child, machine, supervisor = (bool(pins >> bit & 1) for bit in range(4))
        return Signals(root, child, machine, supervisor, hgeip)

    # ---- devices of VMs

    def msi(self, vm: int, addr: int, value: int) -> None:
        """`msi VM A D`: a device stores 32 bits."""
        self.does("msi", vm, addr, value)

    def send(self, vm: int, addr: int, value: int) -> None:
        """`send VM A D`: a device sends such a store, which lands later."""
        self.does("send", vm, addr, value)

    def land(self, vm: int, k: int) -> None:
        """`land VM K`: store k in flight lands."""
        self.does("land", vm, k)

    def refetch(self, vm: int, vcpu: int) -> None:
        """`refetch VM C`: the IOMMU reads an entry again."""
        self.does("refetch", vm, vcpu)

    def pass_source(self, source: int, vm: int, vcpu: int, identity: int) -> None:
        """`pass S VM C I`: a wired source is passed to a virtual hart."""
        self.does("pass", source, vm, vcpu, identity)

    # ---- virtual harts

    def guest_csr(self, vm: int, vcpu: int, csr: Csr, op: Op = Op.READ, operand: int = 0) -> int:
        """`g VM C csrr CSR` and its kin: gives what the CSR had."""
        return self.gives("guest_csr", vm, vcpu, csr, op, operand)[0]

    def ipi(self, vm: int, vcpu: int, to: int, value: int) -> None:
        """`g VM C ipi C2 D`: a virtual hart stores to the file of another one."""
        self.does("ipi", vm, vcpu, to, value)

    def inject(self, vm: int, vcpu: int, bit: int, level: bool) -> None:
        """`inject VM C BIT L`: the hypervisor injects a major interrupt."""
        self.does("inject", vm, vcpu, bit, level)

    def hvictl(self, vm: int, vcpu: int, value: int) -> None:
        """`hvictl VM C V`."""
        self.does("hvictl", vm, vcpu, value)

    def hviprio(self, vm: int, vcpu: int, value: int) -> None:
        """`hviprio VM C V`."""
        self.does("hviprio", vm, vcpu, value)

    def save(self, vm: int, vcpu: int, k: int) -> Part:
        """`save VM C K`: gives part k of the image of a virtual hart."""
        kind, *numbers = self.gives("save", vm, vcpu, k)
        return Part(PartKind(kind), tuple(numbers[:PART_NUMBERS[PartKind(kind)]]))

    def load_part(self, vm: int, vcpu: int, part: Part) -> None:
        """`load VM C PART`: loads a part of an image into a virtual hart."""
        if len(part.numbers) != PART_NUMBERS[part.kind]:
            raise ValueError(f"{part.kind.name} has {PART_NUMBERS[part.kind]} numbers")
        filled = [*part.numbers, 0, 0, 0, 0, 0][:5]
        self.does("load_part", vm, vcpu, part.kind, *filled)

    def entry(self, word0: int, word1: int) -> Entry:
        """`entry W0 W1`: gives what an entry of an MSI table says."""
        kind, *numbers = self.gives("entry", word0, word1)
        return Entry(EntryKind(kind), tuple(numbers[:ENTRY_NUMBERS[EntryKind(kind)]]))

    # ---- moves

    def arrive(self, vm: int, vcpu: int, hart: int) -> None:
        """`arrive VM C H`: a virtual hart gets a guest file of a hart."""
        self.does("arrive", vm, vcpu, hart)

    def leave(self, vm: int, vcpu: int) -> None:
        """`leave VM C`: it gives its guest file back, and its interrupts rest in memory."""
        self.does("leave", vm, vcpu)

    def shift(self, vm: int, vcpu: int, hart: int) -> None:
        """`shift VM C H`: it goes to a guest file of another hart."""
        self.does("shift", vm, vcpu, hart)

    def begin_arrive(self, vm: int, vcpu: int, hart: int) -> None:
        """`begin arrive VM C H`: the same by steps."""
        self.does("begin_arrive", vm, vcpu, hart)

    def begin_leave(self, vm: int, vcpu: int) -> None:
        """`begin leave VM C`."""
        self.does("begin_leave", vm, vcpu)

    def begin_shift(self, vm: int, vcpu: int, hart: int) -> None:
        """`begin shift VM C H`."""
        self.does("begin_shift", vm, vcpu, hart)

    def step(self, vm: int, vcpu: int) -> bool:
        """`step VM C`: makes the next step of a move; tells whether the move goes on."""
        code = self.code("step", fitting(vm, 64), fitting(vcpu, 64))
        if code not in (Code.DONE, Code.MOVING):
            raise Refused(code)
        return code == Code.MOVING

    def enter(self, vm: int, vcpu: int) -> None:
        """`enter VM C`: it begins to run from memory."""
        self.does("enter", vm, vcpu)

    def exit(self, vm: int, vcpu: int) -> None:
        """`exit VM C`: it ceases to run from memory."""
        self.does("exit", vm, vcpu)


def main() -> None:
    """Answers a script on standard input."""
    with Model(sys.argv[1] if len(sys.argv) > 1 else None) as model:
        sys.stdout.buffer.write(model.replay(sys.stdin.buffer.read()))


if __name__ == "__main__":
    main()
