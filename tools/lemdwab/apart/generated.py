"""The four numbers of `aia gen COUNT SEED`, by the model: generated.py COUNT SEED

Ends with status 2 where the words are wrong.
"""

from __future__ import annotations

from collections.abc import Iterator

from lemdwab.apart import model, words
from lemdwab.apart.moves import VirtualHart

MULTIPLIER, INCREMENT = 6364136223846793005, 1442695040888963407


def setup(who: str) -> list[str]:
    """All is enabled, and the file delivers."""
    return [f"{who} csrrw siselect 0xc0", f"{who} csrrw sireg 0xfffffffffffffffe",
            f"{who} csrrw siselect 0x70", f"{who} csrrw sireg 0x1"]


def head() -> list[str]:
    lines = ["machine 2 2 63 8", "vm 2 0x38 0", "vm 2 0x38 1"]
    for vm in range(2):
        for number in range(2):
            lines += [f"arrive {vm} {number} {vm}"] + setup(f"g {vm} {number}")
    return lines + setup("h 0") + setup("h 1")


def body(count: int, seed: int) -> Iterator[str]:
    state = seed
    for _ in range(count):
        state = (state * MULTIPLIER + INCREMENT) % 2 ** 64
        draw = state >> 33
        vm, number, hart, identity = draw // 10 % 2, draw // 20 % 2, draw // 40 % 2, draw // 80 % 64
        yield (f"msi {vm} {0x28000000 + number * 0x8000} {identity}",
               f"msi {vm} {0x28000000 + number * 0x8000} {identity}",
               f"g {vm} {number} csrrw stopei 0x0",
               f"g {vm} {number} ipi {1 - number} {identity}",
               f"begin leave {vm} {number}", f"begin arrive {vm} {number} {hart}",
               f"step {vm} {number}", f"step {vm} {number}", f"step {vm} {number}",
               f"h {hart} csrrw stopei 0x0")[draw % 10]


def tell(count: int, seed: int) -> None:
    """Runs the script, and prints its four numbers."""
    notices: list[VirtualHart] = []
    notify = model.Machine.notify

    def noted(machine: model.Machine, hart: VirtualHart) -> None:
        notices.append(hart)
        notify(machine, hart)
    setattr(model.Machine, "notify", noted)
    script, lines, claims, total = model.Script(), 0, 0, 0
    for line in [*head(), *body(count, seed)]:
        lines += 1
        answer = script.answer(line.encode()) or ""
        if line.split()[-2] == "stopei" and answer.startswith("0x") and int(answer, 16):
            claims, total = claims + 1, total + (int(answer, 16) & 0x7ff)
    print(f"lines {lines}\nclaims {claims}\nnotices {len(notices)}\nsum {total % 2 ** 64}")


def main() -> int:
    """Prints the four numbers of the script of two numbers."""
    count, seed = words.given(__doc__, lambda given: len(given) == 2 and words.are_numbers(given))
    tell(int(count), int(seed))
    return 0
