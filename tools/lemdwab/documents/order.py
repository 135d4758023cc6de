"""Reads docs/make/definitions.order: which chapters docs/DEFINITIONS.md has, and which definitions
stand in each."""

from __future__ import annotations

from functools import cache

from lemdwab.running import TOP

ORDER = TOP / "docs/make/definitions.order"
# How a line of the order says which module or item comes next: of a module of part I what is rested
# on, a module of part II as a table, what is left of a module of part I as a table, and items of
# src/; and what part I says in words where a crate names it.
FULL, TABLE, OTHERS, ITEM, PASSED = "@ ", "@table ", "@others ", "@item ", "@passed "
CONTENTS = "@contents"
# How the headings of the two parts begin.
FIRST, SECOND = "# I. ", "# II. "


@cache
def order_lines() -> tuple[str, ...]:
    """Gives the lines of the reading order."""
    return tuple(ORDER.read_text(encoding="utf-8").rstrip("\n").split("\n"))


def first_part() -> tuple[str, ...]:
    """Gives the lines of the order up to part II."""
    lines = order_lines()
    return lines[:next(i for i, line in enumerate(lines) if line.startswith(SECOND))]


def placed(kind: str) -> list[tuple[str, ...]]:
    """Lists what stands in the order with this mark, each split into its words."""
    return [tuple(line[len(kind):].split()) for line in order_lines() if line.startswith(kind)]
