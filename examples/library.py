#!/usr/bin/env python3
# SPDX-License-Identifier: Apache-2.0
"""The library from Python: a script line by line, calls without text, and a virtual hart that is
carried to another model.

    library.py LIBRARY SCRIPT

LIBRARY is the shared object, libaia.so, in the folder that `library` fills. The module is
bindings/python/aia.py. Ends with status 2 where the words are wrong, or the library or the script
can't be opened.
"""

from __future__ import annotations

import sys
from pathlib import Path

sys.path.insert(0, str(Path(__file__).resolve().parent.parent / "bindings/python"))
from aia import Code, Csr, Model, Op, PartKind, Refused, code_name  # noqa: E402


def main() -> None:
    if sys.argv[1:2] in (["-h"], ["--help"]):
        print((__doc__ or "").strip())
        return
    if len(sys.argv) != 3:
        print((__doc__ or "").strip(), file=sys.stderr)
        sys.exit(2)
    try:
        answer(*sys.argv[1:])
        call(sys.argv[1])
        carry(sys.argv[1])
    except OSError as wrong:
        print(f"library.py: {wrong}", file=sys.stderr)
        sys.exit(2)


def answer(library: str, script: str) -> None:
    """Answers a script, line by line."""
    with Model(library) as model, open(script, "rb") as lines:
        for line in lines:
            sys.stdout.buffer.write(model.line(line.removesuffix(b"\n")))
        sys.stdout.flush()


def call(library: str) -> None:
    """Makes some calls without text."""
    with Model(library) as model:
        try:
            model.store(0x28000000, 5)
        except Refused as refused:
            print(refused.code.name, code_name(refused.code, library))
        model.machine(harts=1, guests=0, identities=63, sources=8)
        model.store(0x0C000000, 0x100)
        print(f"{model.load(0x0C000000):#x}", model.text("pins 1"))
        print(model.signals(0), model.entry(0x7, 0))  # basic mode, of page 0
        model.reset()
        print(model.text(b"pins 0")[0] == Code.NO_MACHINE)


def carry(library: str) -> None:
    """Saves a virtual hart in one model, and loads it into another."""
    with Model(library) as old, Model(library) as new:
        for model in (old, new):
            model.machine(harts=1, guests=1, identities=63, sources=1)
            model.vm(vcpus=1, mask=0x8, hart=0)
        old.arrive(0, 0, 0)
        old.guest_csr(0, 0, Csr.SISELECT, Op.WRITE, 0xC0)
        old.guest_csr(0, 0, Csr.SIREG, Op.WRITE, 0x28)
        old.msi(0, 0x28000000, 5)
        old.leave(0, 0)
        parts = [old.save(0, 0, k) for k in range(4)]
        for part in parts:
            new.load_part(0, 0, part)
        print(parts[0], [part.numbers for part in parts if part.kind == PartKind.WORD])
        new.arrive(0, 0, 0)
        print(f"{new.guest_csr(0, 0, Csr.STOPEI, Op.WRITE):#x}")


if __name__ == "__main__":
    main()
