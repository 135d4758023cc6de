"""Tries what docs/make sees of sentences and what they stand for, as suite/tools does: each
function takes its Trial. A crate of its own, with a page that has it in words, has faults planted
one after the other, each taken back; so have the order of the definitions and the
header of the library for C."""

from __future__ import annotations

import contextlib
import io
from collections.abc import Callable
from functools import partial
from types import ModuleType
from typing import TYPE_CHECKING, Protocol
from unittest import mock

from lemdwab.documents import (believed, carried, claims, definitions, functions, header, order,
                               statements)

if TYPE_CHECKING:
    from lemdwab.commands.tools import Trial

PAGE = f"{claims.PAGES}words.md"
# A crate with a call of two clauses, a method, and a law.
SOURCE = """\
pub struct Bits;

impl Bits {
    /// Counts the bits.
    pub fn count(&self, most: u32) -> u32
        requires { most < 64 }
        ensures value { result ≡ count self.now }
        ensures few { result ≤ most } // at most
    {
        0
    }
}

/// A law.
pub fn none_is_lost()
    ensures { (b : Bits) → count b ≤ 64 }
{}
"""
WORDS = """\
# Bits

## `bits`

[Its statements](statements-words.md#bits)

| Function | Clauses | Promise |
|---|---|---|
| `Bits::count` | `value` | how many there are |
| | `few` | at most as many as are asked for |
| law `none_is_lost` | - | there are 64 at most |
"""


class Tree:
    """A tree in which there is that crate and its page, in place of the repository, while it is
    tried; a file of it is changed by `plant`."""

    def __init__(self, trial: Trial) -> None:
        self.trial, self.folder = trial, trial.folder / "words"
        self.stood: dict[tuple[ModuleType, str], object] = {}

    def __enter__(self) -> Tree:
        files = {"crates/bits/src/lib.rt": SOURCE, PAGE: WORDS}
        for name, text in files.items():
            (self.folder / name).parent.mkdir(parents=True, exist_ok=True)
            (self.folder / name).write_text(text, encoding="utf-8")
        here = {"TOP": self.folder, "LEDGER": self.folder / "claims.txt",
                "documents": self.documents,
                "read": lambda name: (self.folder / name).read_text(encoding="utf-8")}
        for module in (claims, functions, statements):
            for name in [name for name in here if hasattr(module, name)]:
                self.stood[module, name] = getattr(module, name)
                setattr(module, name, here[name])
        self.forget()
        return self

    def __exit__(self, *_: None) -> None:
        for (module, name), value in self.stood.items():
            setattr(module, name, value)
        self.forget()

    def documents(self) -> list[str]:
        """Lists the pages of the tree."""
        found = self.folder.glob("docs/**/*.md")
        return sorted(str(path.relative_to(self.folder)) for path in found)

    @staticmethod
    def forget() -> None:
        """Forgets what was read before a file changed."""
        forget(claims.pages, claims.claims, claims.told_of, functions.source_lines,
               functions.exported)

    def told(self) -> list[str]:
        """Gives what is told of the tree."""
        self.forget()
        return [*claims.drifts(), *statements.drifts()]

    def make(self) -> None:
        """Makes the pages of statements anew."""
        self.forget()
        statements.make()

    def accepted(self, *words: str) -> int:
        """Accepts functions, and gives the status."""
        self.forget()
        with contextlib.redirect_stdout(io.StringIO()):
            return claims.accept(list(words))

    def plant(self, name: str, *changes: tuple[str, str]) -> list[str]:
        """Changes a file, and gives what is told then; the file is as before after it."""
        path = self.folder / name
        stood = path.read_text(encoding="utf-8")
        text = stood
        for old, new in changes:
            self.trial.sees(old in text, f"{name} has no {old!r}, where a fault was to be planted")
            text = text.replace(old, new)
        path.write_text(text, encoding="utf-8")
        self.make()
        found = self.told()
        path.write_text(stood, encoding="utf-8")
        return found


class Cached(Protocol):
    """A function that keeps what it gave."""

    def cache_clear(self) -> None:
        """Forgets that."""


def forget(*every: Cached) -> None:
    """Has functions forget what they keep."""
    for cached in every:
        cached.cache_clear()


RT = "crates/bits/src/lib.rt"
FEW, SAID = ("result ≤ most }", "result ≤ 64 }"), ("at most as many as", "as many as")
NEW = ("        ensures few", "        ensures least { 0 ≤ result }\n        ensures few")
# What is planted into which file, and what has to be told of each; nothing of the last ones.
PLANTS: list[tuple[str, list[tuple[str, str]], list[str]]] = [
    (RT, [FEW], ["bits Bits::count few: the statement changed, its sentence did not"]),
    (RT, [("most < 64", "most < 32")],
     ["bits Bits::count few: the statement changed, its sentence did not",
      "bits Bits::count value: the statement changed, its sentence did not"]),
    (RT, [("most: u32", "most: u64")],
     ["bits Bits::count few: the statement changed", "bits Bits::count value: the statement"]),
    (RT, [NEW], [f"{PAGE} has no sentence on bits Bits::count least"]),
    (RT, [("count b ≤ 64", "count b ≤ 65")], ["bits none_is_lost -: the statement changed"]),
    (RT, [("none_is_lost", "some_are_lost")],
     ["bits none_is_lost - is gone", f"{PAGE} has no sentence on bits some_are_lost -"]),
    (RT, [("        ensures few { result ≤ most } // at most\n", "")],
     ["bits Bits::count few is gone"]),
    (PAGE, [("| | `few` | at most as many as are asked for |\n", "")],
     [f"{PAGE} has no sentence on bits Bits::count few"]),
    (PAGE, [("| law `none_is_lost` | - | there are 64 at most |\n", "")],
     [f"{PAGE} has no sentence on bits none_is_lost -"]),
    (PAGE, [("(statements-words.md#bits)", "(statements-words.md)")],
     [f"{PAGE} does not link to statements-words.md#bits"]),
    (PAGE, [SAID], []),
    (RT, [("result ≤ most } // at most", "result\n            ≤ most } // as asked")], []),
    (RT, [("Counts the bits.", "Counts them all.")], []),
]


def told_claims(trial: Trial) -> None:
    """Statements, sentences and rows that change, each alone; and that both may be accepted."""
    with Tree(trial) as tree:
        trial.sees(len(tree.told()) == 4, f"of what nobody accepted is told {tree.told()}")
        trial.sees(tree.accepted("count", "none_is_lost") == 0, "what is in step is not accepted")
        tree.make()
        trial.sees(not tree.told(), f"of what was accepted is told {tree.told()}")
        for name, changes, wanted in PLANTS:
            found = tree.plant(name, *changes)
            is_told = len(found) == len(wanted) and all(
                said.startswith(want) for said, want in zip(found, wanted))
            trial.sees(is_told, f"of {changes} in {name} is told {found}")
        tree.make()
        trial.sees(not tree.told(), f"of what is as before is told {tree.told()}")


def accepted_claims(trial: Trial) -> None:
    """A sentence that changed first hides no statement that changes after it; what has no sentence,
    and what is not named, is not accepted, and `make` accepts nothing."""
    with Tree(trial) as tree:
        tree.accepted("count", "none_is_lost")
        (tree.folder / PAGE).write_text(WORDS.replace(*SAID), encoding="utf-8")
        found = tree.plant(RT, FEW)
        trial.sees(len(found) == 1 and "its sentence too" in found[0], f"of both is told {found}")
        text = SOURCE
        for change in (FEW, NEW):
            text = text.replace(*change)
            (tree.folder / RT).write_text(text, encoding="utf-8")
            tree.make()
            trial.sees(len(tree.told()) == 1, f"made anew, of {change} is told {tree.told()}")
            tree.accepted("none_is_lost")
            trial.sees(len(tree.told()) == 1, f"another one is accepted: {tree.told()}")
            status = tree.accepted("bits::Bits::count")
            trial.sees(status == (change is NEW) and len(tree.told()) == status,
                       f"{change} is accepted with {status}: {tree.told()}")
        for word in ("nosuch", "words::count"):
            trial.sees(tree.accepted(word) == 2, f"the function {word!r} is accepted")


def shows_before(trial: Trial) -> None:
    """The statement that was accepted, as a commit has it, and none where no commit has it."""
    said = {"log": "c1\n", "grep": "c1:crates/bits/src/lib.rt\n"}
    with Tree(trial) as tree:
        tree.accepted("count", "none_is_lost")
        key = ("bits", "Bits::count", "few")
        accepted = claims.ledger()[key]
        for text, wanted in ((SOURCE, "c1"), (SOURCE.replace(*FEW), "")):
            told = {**said, "show": text}
            with mock.patch.object(claims, "git", lambda command, *_: told[command]):
                found, commit = claims.before(key, accepted)
            trial.sees(commit == wanted and (FEW[0] in found) == bool(wanted),
                       f"of the statement before is said {found!r}, at {commit!r}")


def statements_drift(trial: Trial) -> None:
    """A page of statements that is changed by hand, and one that stands for no page."""
    with Tree(trial) as tree:
        tree.accepted("count", "none_is_lost")
        tree.make()
        own = statements.name_for(PAGE)
        other = f"{claims.STATEMENTS}other.md"
        (tree.folder / own).write_text("# Bits\n", encoding="utf-8")
        (tree.folder / other).write_text("# Other\n", encoding="utf-8")
        found = tree.told()
        trial.sees(len(found) == 2 and found[0].startswith(other) and found[1].startswith(own),
                   f"of pages changed by hand is told {found}")
        tree.make()
        trial.sees(not tree.told(), f"of pages made anew is told {tree.told()}")


def placed_without(left: tuple[str, ...], kind: str) -> list[tuple[str, ...]]:
    """Lists what stands in the order with a mark, but for one row."""
    return [at for at in order.placed(kind) if left not in (at, at[2:])]


def placed_with(more: tuple[str, ...], of: str, kind: str) -> list[tuple[str, ...]]:
    """Lists what stands in the order with a mark, and one row more of one mark."""
    return [*order.placed(kind), *([more] if kind == of else [])]


def told(trial: Trial, what: str, found: list[str], *said: str) -> None:
    """Sees that this is told of what was planted, and nothing where nothing is to be told."""
    trial.sees(bool(found) == bool(said) and all(any(s in line for line in found) for s in said),
               f"of {what} is not told {said}: {found[:3]}")


def put(module: str, name: str) -> str:
    """Gives what ends part I with a definition of a module more."""
    return f"\n### {module} ([`aia_model`](..))\n```text\nabbrev pub {name} : A\n```\n# II. "


# What is planted into part I of docs/DEFINITIONS.md, as (old, new) where the old text stands first,
# and what has to be told of it; nothing of the neighbour of what is rested on.
SECOND, IDLE = "\n# II. ", "shows aia_model Notice with_notice, and nothing"
BELIEFS: list[tuple[str, str, list[str]]] = [
    ("", "", []),
    ("abbrev pub answers : ", "abbrev answered : ", ["answers of aia_model Script, which"]),
    ("pub enum Answer {", "enum Answers {", ["Answer of aia_model src/answer.rt, which"]),
    ("abbrev pub op_of : ", "abbrev ops : ", ["the library's aia_csr rests on op_of of aia_c"]),
    ("abbrev pub is_stage_closed : ", "closed : ", []),
    (SECOND, put("Notice", "with_notice"), [IDLE]),
    (SECOND, put("Script", "answers"), ["shows aia_model Script answers 2 times"]),
]


def lacks_beliefs(trial: Trial) -> None:
    """What README's sentences rest on, taken out of part I of docs/DEFINITIONS.md, and what nothing
    rests on, put into it."""
    text = definitions.TARGET.read_text(encoding="utf-8")
    for old, new, said in BELIEFS:
        trial.sees(old in text, f"the definitions have no {old!r}, where a fault was to be planted")
        told(trial, f"{old!r} as {new!r}", list(believed.amiss(text.replace(old, new, 1))), *said)
    rows = carried.proved()
    words = next(iter(rows))
    wrong: carried.Rows = {**rows, words: [("aia_laws", "nosuch")]}
    for other, line in ((wrong, "which is not there"),
                        (dict(list(rows.items())[1:]), "has nothing that carries")):
        with mock.patch.object(carried, "proved", return_value=other):
            told(trial, f"other rows of {words}", list(believed.of_sentences()), line)
    forget(carried.passed, carried.rested_on)
    with mock.patch.object(carried, "placed", partial(placed_without, ("aia_replay", "Stands"))):
        told(trial, "a module that is not passed", list(believed.amiss(text)),
             "aia_replay Stands, which")
    forget(carried.passed, carried.rested_on)


def misplaces(trial: Trial) -> None:
    """An order of definitions in which a module lacks or stands where it may not, and a part I that
    is too long."""
    notice, safe = ("aia_model", "Notice"), ("aia_plan", "Safe")
    cases: list[tuple[Callable[[str], list[tuple[str, ...]]], list[str]]] = [
        (order.placed, []),
        (partial(placed_without, notice), ["aia_model/specs/Notice.antt stands nowhere"]),
        (partial(placed_with, safe, order.FULL),
         ["aia_plan Safe 2 times", "aia_plan Safe in part I, and nothing rests on it"]),
        (partial(placed_with, notice, order.OTHERS), ["Notice 2 times, and needs them 1 times"]),
        (partial(placed_with, safe, order.OTHERS), ["Safe 1 times, and needs them 0 times"]),
        (partial(placed_with, ("aia_plan", "Nosuch"), order.TABLE), ["Nosuch, which is not"])]
    for placed, said in cases:
        with mock.patch.object(definitions, "placed", placed):
            told(trial, "an order", list(definitions.unplaced()), *said)
    with mock.patch.object(definitions, "MOST_LINES", 100):
        told(trial, "a long part I", list(definitions.drifts()), "lines, and may have 100")


# What is planted into the header of the library for C, and what has to be told of it.
HEADERS = [
    ("int32_t aia_vm(", "int32_t aia_vms(", "has the call aia_vms, which"),
    ("int32_t aia_vm(", "int32_t aia_vms(", "lacks the call aia_vm, which"),
    ("int32_t aia_refetch(", "int64_t aia_refetch(", "has the call aia_refetch as int64_t"),
    ("uint64_t addr, uint32_t value", "uint64_t addr, uint64_t value", "has the call aia_store as"),
    ("aia_load(struct aia **handle, uint64_t addr, uint32_t *value)",
     "aia_load(struct aia **handle, uint32_t *value, uint64_t addr)", "has the call aia_load as"),
    ("uint64_t source, bool level", "uint64_t source", "has the call aia_wire as"),
    ("const uint8_t *text", "uint8_t *text", "has the call aia_line as"),
    ("void aia_close(struct aia **handle)", "void aia_close(struct aia *handle)", "aia_close as"),
    ("AIA_FULL = 33", "AIA_FULL = 34", "has the code FULL as 34"),
    ("AIA_HOME = 35,       /* home */", "AIA_HOME = 35, /* busy */", "the answer of HOME as busy"),
    ("    AIA_OPEN = 3, ", "", "lacks the code OPEN"),
    ("AIA_CSRRS = 2", "AIA_CSRRS = 3", "has the instruction CSRRS as 3"),
    ("AIA_SIP = 0x144", "AIA_SIP = 0x104", "has the CSR SIP as 260"),
    ("AIA_PART_PRIO = 3", "AIA_PART_PRIO = 4", "has the kind PART_PRIO as 4"),
    ("AIA_ENTRY_CUSTOM = 4", "AIA_ENTRY_CUSTOM = 6", "has the kind ENTRY_CUSTOM as 6"),
    ("AIA_ANSWER 64", "AIA_ANSWER 63", "has the constant ANSWER as 63"),
    ("AIA_VERSION 10000", "AIA_VERSION 10001", "says the version 10001"),
]


def header_drifts(trial: Trial) -> None:
    """The header of the library for C, with something changed in it."""
    text = header.read()
    trial.sees(not list(header.drifts()), f"of the header is told {list(header.drifts())}")
    for old, new, said in HEADERS:
        trial.sees(old in text, f"the header has no {old!r}, where a fault was to be planted")
        with mock.patch.object(header, "read", return_value=text.replace(old, new, 1)):
            found = list(header.drifts())
        trial.sees(any(said in line for line in found), f"of {new!r} is told {found}")
    for given, wanted in (("&mut [u8]", ["uint8_t *at", "size_t room"]), ("Global", []),
                          ("&[u8]", ["const uint8_t *at", "size_t length"]),
                          ("u32", ["uint32_t at"]), ("&mut Handle", ["struct aia **at"])):
        trial.sees(header.in_c("at", given) == wanted, f"{given} is {header.in_c('at', given)}")


PARTS = (told_claims, accepted_claims, shows_before, statements_drift, lacks_beliefs,
         misplaces, header_drifts)
