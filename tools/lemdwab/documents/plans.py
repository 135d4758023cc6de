"""Reads the plans of moves out of the definitions of aia_vcpu, and computes what stands where."""

from __future__ import annotations

import re
from collections.abc import Sequence
from dataclasses import dataclass
from functools import cache
from typing import Any

from lemdwab.documents.antt import clauses, has_clauses
from lemdwab.running import TOP

TOKEN = re.compile(r"\s*(\d+|[A-Za-z_][\w.]*|&&|\|\||[()+*\-])")
# The modules in which moves are defined.
MODULES = ("Home", "Plans", "Routes", "BySteps", "Aims")
# A kind of move: the constructor of its way, and its two places.
KINDS = {
    "leave": ("Outward", "guest file", "memory"),
    "arrive": ("Inward", "memory", "guest file"),
    "shift": ("Across", "old guest file", "new guest file"),
}
# What a definition gives: a number, a truth value, a constructor with what it is given as a tuple,
# a record, or a function of one of these. A plan's own types say which.
Value = Any
# A clause's patterns: names, and constructors with their patterns.
Patterns = list["str | Patterns"]
# What std has of numbers and truth values.
STD: dict[str, Value] = {
    "true": True,
    "false": False,
    "not": lambda a: not a,
    "nat_lt": lambda a: lambda b: a < b,
    "nat_le": lambda a: lambda b: a <= b,
    "nat_eq": lambda a: lambda b: a == b,
}


def read_patterns(text: str) -> Patterns:
    """Reads the patterns of a clause: each a name, or a constructor with its patterns, as a
    list."""
    found: list[Patterns] = [[]]
    for token in re.findall(r"[()]|[^\s()]+", text):
        if token == "(":
            found.append([])
        elif token == ")":
            found[-2].append(found.pop())
        else:
            found[-1].append(token)
    return found[0]


@cache
def definition(name: str) -> list[tuple[Patterns, str]]:
    """Gives the clauses of a definition of aia_vcpu, each as (patterns, right side)."""
    for module in MODULES:
        if has_clauses("aia_vcpu", module, name):
            found = clauses("aia_vcpu", module, name)
            return [(read_patterns(patterns), right) for patterns, right in found]
    raise SystemExit(f"the plans name {name}, which lemdwab.documents.plans does not find")


def bound(pattern: str | Patterns, value: Value) -> dict[str, Value] | None:
    """Gives what the names of a pattern stand for, or None where the value is none of it."""
    head, parts = (pattern, []) if isinstance(pattern, str) else (pattern[0], pattern[1:])
    assert isinstance(head, str)
    if not head[0].isupper():
        return {head: value}
    return all_bound(parts, value[1:]) if value[0] == head else None


def all_bound(patterns: Patterns, values: Sequence[Value]) -> dict[str, Value] | None:
    """Gives what the names of patterns stand for, or None where a value is none of its pattern."""
    found: dict[str, Value] = {}
    for pattern, value in zip(patterns, values):
        names = bound(pattern, value)
        if names is None:
            return None
        found |= names
    return found


def computed(name: str, values: Sequence[Value]) -> Value:
    """Computes a definition of aia_vcpu of some values."""
    for patterns, right in definition(name):
        names = all_bound(patterns, values)
        if names is not None:
            return Reader(right, names).value()
    raise SystemExit(f"no clause of {name} fits {values}")


class Reader:
    """Computes an expression of the small part of antt in which the plans are written."""

    def __init__(self, text: str, names: dict[str, Value]) -> None:
        self.tokens: list[str] = TOKEN.findall(text)
        self.at = 0
        self.names = names

    def peek(self) -> str | None:
        return self.tokens[self.at] if self.at < len(self.tokens) else None

    def take(self, wanted: str | None = None) -> str:
        token = self.peek()
        if token is None or (wanted and token != wanted):
            raise SystemExit(f"the plans have {token!r} where {wanted!r} was expected")
        self.at += 1
        return token

    def value(self) -> Value:
        """Gives the value of an `if`, or of an expression."""
        if self.peek() == "if":
            self.take()
            test = self.value()
            self.take("then")
            yes = self.value()
            self.take("else")
            no = self.value()
            return yes if test else no
        found = self.sum()
        while self.peek() in ("&&", "||"):
            operator = self.take()
            other = self.sum()
            found = (found and other) if operator == "&&" else (found or other)
        return found

    def sum(self) -> Value:
        found = self.product()
        while self.peek() in ("+", "-"):
            found = found + self.product() if self.take() == "+" else max(0, found - self.product())
        return found

    def product(self) -> Value:
        found = self.applied()
        while self.peek() == "*":
            self.take()
            found *= self.applied()
        return found

    def applied(self) -> Value:
        """Gives a word applied to what stands behind it: a name, a constructor or a definition."""
        token = self.peek() or ""
        if token == "(" or token.isdigit():
            return self.atom()
        head, values = self.take(), []
        while re.match(r"(?!then\b|else\b)[\w(]", self.peek() or ""):
            values.append(self.atom())
        return self.named(head, values)

    def atom(self) -> Value:
        token = self.take()
        if token == "(":
            found = self.value()
            self.take(")")
            return found
        return int(token) if token.isdigit() else self.named(token, [])

    def named(self, head: str, values: list[Value]) -> Value:
        """Gives what a name stands for, applied to some values."""
        name, _, part = head.partition(".")
        found = self.names.get(name, STD.get(name))
        if found is None and name[0].isupper():
            return (name, *values)
        if found is None:
            return computed(name, values)
        if part:
            found = found[part]
        for value in values:
            found = found(value)
        return found


@dataclass
class Move:
    """A move of one kind, of files of so many words, with so many passes to its virtual hart."""

    kind: str
    words: int
    passes: int = 0

    def home(self, steps: int = 0, aims: int = 0) -> tuple[str, tuple[str, ...], dict[str, int]]:
        """Gives the home of a virtual hart that is moved so, after so many steps and aims."""
        at = {"steps": steps, "aims": aims}
        places = {"leave": ["old"], "arrive": ["new"], "shift": ["old", "new"]}
        return ("OnWay", (KINDS[self.kind][0], *places[self.kind]), at)

    def named_place(self, place: Value) -> str:
        """Gives `old` or `new` for a guest file or, by None, for the slot."""
        if place == ("None",):
            return "new" if self.kind == "leave" else "old"
        return str(place[1])

    def place(self, name: str, steps: int) -> str:
        """Gives the place that a definition of homes names: `old` or `new`."""
        return self.named_place(computed(name, [self.home(steps)]))

    def in_force(self, stepped: str, steps: int) -> str:
        """Gives the place that is in force, by the newest fence: `old` or `new`."""
        found = computed("origin", [self.home()])
        for k in range(steps):
            found = computed(stepped, [self.home(k), found])
        return self.named_place(found)

    def states(self) -> list[tuple[int, int]]:
        """Lists how many steps and how many aims are done, from the beginning of it to its end."""
        found, steps, aims = [(0, 0)], 0, 0
        while steps < self.length():
            if computed("is_aiming", [self.passes, self.home(steps, aims)]):
                aims += 1
            else:
                steps += 1
            found.append((steps, aims))
        return found

    def turns(self) -> list[tuple[str, int | None]]:
        """Lists its accesses and aims in order, an aim as (`aim`, number of the pass)."""
        made, states = self.accesses(), self.states()
        return [made[k] if k < states[i + 1][0] else ("aim", a)
                for i, (k, a) in enumerate(states[:-1])]

    def pass_at(self, r: int, steps: int, aims: int) -> str:
        """Gives the place that the r-th pass reaches: `old` or `new`."""
        return self.named_place(computed("pass_reaches", [r, self.home(steps, aims)]))

    def length(self) -> int:
        """Gives how many steps it has, those that aim aside."""
        way = self.home()[1]
        ends = [computed(end, [way]) for end in ("old_end", "new_end")]
        return int(computed("plan_steps", [*ends, self.words]))

    def accesses(self) -> list[tuple[str, int | None]]:
        """Lists its accesses in order, as (constructor, number of the word or None)."""
        text = (TOP / "crates/aia_vcpu/src/access.rt").read_text(encoding="utf-8")
        found = {}
        for name, word in re.findall(r"(?m)^    (\w+)(\(u32\))?,$", text):
            for w in range(self.words) if word else [None]:
                if self.has(name, w):
                    found[self.step(name, w)] = (name, w)
        if sorted(found) != list(range(self.length())):
            raise SystemExit(f"the steps of a {self.kind} are not those of its plan")
        return [found[k] for k in sorted(found)]

    def ask(self, name: str, access: str, w: int | None = None, steps: int = 0) -> int:
        """Computes a definition of an access of this move."""
        made = (access,) if w is None else (access, w)
        return int(computed(name, [self.words, self.home(steps), made]))

    def has(self, access: str, w: int | None = None) -> bool:
        """Says whether its plan has an access."""
        return bool(self.ask("has_access", access, w))

    def step(self, access: str, w: int | None = None) -> int:
        """Gives the number of the step that makes an access, counted from 0."""
        return self.ask("step_of", access, w)

    def is_made(self, access: str, w: int | None, steps: int) -> bool:
        """Says whether an access is made after so many steps."""
        return bool(self.ask("is_made", access, w, steps))

    def word_at(self, take: str, w: int, steps: int) -> str:
        """Gives where a word stands that an access takes: `old`, `hand` or `new`."""
        if not self.is_made(take, w, steps):
            return "old"
        return "hand" if self.ask("is_last_made", take, w, steps) else "new"

    def number_at(self, number: str, steps: int) -> str:
        """Gives where eidelivery or eithreshold stands: `old`, `new` or `hand`, which keeps it."""
        of_words = [] if number == "delivery" else [self.words]
        if computed(f"{number}_in_own", [*of_words, self.home(steps)]):
            return "new" if self.kind == "arrive" else "old"
        if number == "threshold":
            is_next = computed("threshold_in_next", [self.words, self.home(steps)])
            return "new" if is_next else "hand"
        is_put = self.has("PutDelivery") and self.is_made("PutDelivery", None, steps)
        return "new" if is_put else "hand"

    def of_word(self, name: str, w: int, steps: int) -> bool:
        """Computes a test of word w of this move, as whether it is watched."""
        return bool(computed(name, [self.words, self.home(steps), w]))
