"""Reads the limits of a machine and the constants of its map, as numbers."""

from __future__ import annotations

import re
from functools import cache

from lemdwab.running import TOP

FILES = ["limits", "address_map"]
CONSTANT = re.compile(r"pub const (\w+): \w+ = ([^;]+);")


@cache
def expressions() -> dict[str, str]:
    """Gives each constant's expression, in Python's notation."""
    found = {}
    for name in FILES:
        text = (TOP / "crates/aia_regs/src" / f"{name}.rt").read_text(encoding="utf-8")
        for constant, right in CONSTANT.findall(text):
            right = re.sub(r" as \w+|(?<=\d)_(?=\d)|(?<=[0-9a-f])_(?=[0-9a-f]{4})", "", right)
            found[constant] = right.replace("/", "//")
    return found


@cache
def value(name: str) -> int:
    """Computes a constant: sums, products and shifts of numbers and of other constants."""
    right = expressions()[name]
    names = {word: value(word) for word in re.findall(r"\b[A-Z]\w+", right)}
    computed: int = eval(right, {"__builtins__": {}}, names)
    return computed


def limit(name: str) -> str:
    """Gives a limit of a machine, in digits."""
    return str(value(name))


def shown(formula: str) -> str:
    """Gives a formula over constants with their numbers: one of constants alone as its value."""
    names = re.findall(r"\b[A-Z]\w+", formula)
    if all(word in ("+", *names) for word in formula.split()):
        return f"0x{sum(value(name) for name in names):08x}"
    first = names[0]
    return re.sub(r"\b[A-Z]\w+",
                  lambda m: f"0x{value(m[0]):08x}" if m[0] == first else f"0x{value(m[0]):x}",
                  formula)
