"""Reads docs/make/words.txt: the words of libraries in which definitions end, each with a sentence
that says what it means; and sees that each such word has its row there, and each row its word."""

from __future__ import annotations

import re
from collections import Counter
from collections.abc import Iterator
from functools import cache
from typing import NamedTuple

from lemdwab.documents.antt import all_modules, module_path
from lemdwab.documents.carried import all_functions, keys_in
from lemdwab.documents.functions import source_files, source_lines
from lemdwab.documents.naming import USE, all_definitions, crates, library, rests_on
from lemdwab.running import TOP

WORDS, WHERE = TOP / "docs/make/words.txt", "docs/make/words.txt"
# What a path of a name of a library has before and within its module.
SPECS, FORMS = "specs.", ".TheVariants"


class Word(NamedTuple):
    """A word of a library: how it is written, and what it means."""

    library: str
    name: str
    written: str
    meaning: str


@cache
def rows() -> dict[str, Word]:
    """Gives the rows of words.txt, by the keys of their words."""
    found: dict[str, Word] = {}
    key = ""
    for line in WORDS.read_text(encoding="utf-8").split("\n"):
        if line.startswith(" ") and key:
            one = found[key]
            found[key] = one._replace(meaning=f"{one.meaning} {line.strip()}".strip())
        elif line and not line.startswith("#"):
            of, _, rest = line.partition(" ")
            name, _, written = rest.partition(": ")
            key = f"{of} {name}"
            found[key] = Word(of, name, written or shown(name), "")
    return found


def shown(name: str) -> str:
    """Gives a name as it is shown: of one with a path its last part."""
    return name.rpartition(".")[2] if "." in name else name


@cache
def ends() -> dict[str, list[str]]:
    """Gives the keys of the words of libraries in which definitions and clauses end, each with what
    names it."""
    definitions = all_definitions()
    found: dict[str, list[str]] = {}
    named = [(key, rests_on(key)) for key in definitions]
    named += [(f"{one.crate} {one.called()}", keys_in(one)) for one in all_functions()]
    for of, keys in named:
        for key in keys:
            if key not in definitions and not key.startswith("?"):
                found.setdefault(key, []).append(of)
    return found


@cache
def modules() -> dict[str, str]:
    """Gives the module of the toolchain from which each of these words is taken here, as most
    `use` lines name it; one that has only this word's kind comes before Prelude, which has all."""
    found: dict[str, Counter[str]] = {}
    texts = [module_path(crate, module).read_text(encoding="utf-8")
             for crate, module in all_modules()]
    texts += ["\n".join(source_lines(crate, file)) for crate in crates()
              for file in source_files(crate)]
    for of, path in (use for text in texts for use in USE.findall(text)):
        front, _, braced = path.partition(".{")
        front = front.partition(" as ")[0].removeprefix(SPECS)
        for name in re.findall(r"[^,{}]+", braced):
            key = f"{library(of)} {name.strip().partition(' as ')[0]}"
            found.setdefault(key, Counter())[front] += 1
    return {key: min(counts, key=lambda at: (at == "Prelude", -counts[at]))
            for key, counts in found.items()}


def module_of(key: str) -> str:
    """Gives the module of a word: the one that is imported, or the path of a name that has one."""
    path = key.partition(" ")[2].rpartition(".")[0] or modules().get(key, "")
    return path.removesuffix(FORMS)


def drifts() -> Iterator[str]:
    """Says which word lacks its row, which row its word, and which row its sentence."""
    for key, named in ends().items():
        if key not in rows():
            yield f"{WHERE} lacks {key}, which {named[0]} names"
        elif not module_of(key):
            yield f"of {key} no `use` line says from which module it comes"
    for key, word in rows().items():
        if key not in ends():
            yield f"{WHERE} has {key}, which no definition and no clause names"
        if not word.meaning.endswith("."):
            yield f"{WHERE} has no sentence for {key}"
