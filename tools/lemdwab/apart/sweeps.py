"""Sweeps of a program against the model: every offset of both control regions, every select number
at each level, every bit of the words of an entry.

    sweeps.py PROGRAM FIRST_SEED LAST_SEED

Ends with status 1 where an answer differs, and 2 where the words are wrong or PROGRAM can't be run.
"""

from __future__ import annotations

import random

from lemdwab.apart import compare, model, words


def registers(draw: random.Random) -> list[str]:
    """Stores of random values at all offsets, in any order, and loads from all, between lines that
    make sources of all modes."""
    lines = ["machine 4 3 2047 1023", "vm 2 0x8 1", "arrive 0 0 0"]
    for region in (0x0c000000, 0x0c008000):
        lines += [f"st {region + 4 * source:#x} {draw.choice((0x400, 1, 4, 5, 6, 7)):#x}"
                  for source in range(1, 1024)]
    lines += [f"wire {draw.randint(1, 1023)} {draw.randint(0, 1)}" for _ in range(400)]
    lines += [f"st {region:#x} {draw.choice((0, 4, 0x100, 0x104)):#x}"
              for region in (0x0c000000, 0x0c008000)]
    offsets = list(range(0x0c000000, 0x0c010000, 4))
    draw.shuffle(offsets)
    for offset in offsets:
        values = draw.getrandbits(32), draw.getrandbits(10), 1 << draw.randrange(32)
        lines.append(f"st {offset:#x} {draw.choice(values):#x}")
    draw.shuffle(offsets)
    lines += [f"ld {offset:#x}" for offset in offsets]
    return lines + [f"pins {hart}" for hart in range(4)]


def selects(draw: random.Random) -> list[str]:
    """Each select number at each level, with an access of the register."""
    greatest = draw.choice(model.GREATEST)
    lines = [f"machine 1 1 {greatest} 1", "vm 2 0x8 0", "arrive 0 0 0"]
    if draw.random() < 0.5:
        lines += ["leave 0 0", "enter 0 0"]
    for select in range(0x1000):
        for who, names in (("m 0", ("miselect", "mireg", "mtopei")),
                           ("h 0", ("siselect", "sireg", "stopei")),
                           ("g 0 0", ("siselect", "sireg", "stopei"))):
            operation = draw.choice(("csrrw", "csrrs", "csrrc"))
            lines += [f"{who} csrrw {names[0]} {select + 4096 * draw.randrange(3)}",
                      f"{who} {operation} {names[1]} {draw.getrandbits(64):#x}",
                      f"{who} csrr {names[1]}",
                      draw.choice((f"{who} csrr {names[2]}", f"{who} csrrw {names[2]} 0"))]
    return lines


def entries(draw: random.Random) -> list[str]:
    """Entries with each bit changed, and with each two."""
    lines = ["machine 1 0 63 1"]
    for word0, word1 in ((7, 0), (3, 0), (3 | draw.getrandbits(44) << 10, draw.getrandbits(54)),
                         (1, 0), (5, 0)):
        for first in range(128):
            for second in range(first, 128):
                both = (word0 | word1 << 64) ^ (1 << first | 1 << second)
                lines.append(f"entry {both & (1 << 64) - 1:#x} {both >> 64:#x}")
    return lines


def main() -> int:
    program, first, last = words.given(
        __doc__, lambda given: len(given) == 3 and words.are_numbers(given[1:]))
    compare.check_program(program)
    answers = told = 0
    for seed in range(int(first), int(last) + 1):
        for sweep in (registers, selects, entries):
            script = "\n".join(sweep(random.Random(f"{sweep.__name__} {seed}"))).encode()
            wanted = model.answers(script)
            found, ended = compare.run(program, script)
            answers += wanted.count(b"\n")
            if found != wanted or ended:
                told += 1
                print(compare.first_difference(seed, script, wanted, found, ended)[1])
    print(f"answers {answers}, scripts that differ {told}")
    return 1 if told else 0
