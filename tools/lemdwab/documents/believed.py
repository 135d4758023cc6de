"""Sees that part I of docs/DEFINITIONS.md has what README's sentences on what is proved, and the
calls of the library for C, rest on (lemdwab.documents.carried), and nothing else.

It reads the document as it stands. What stands there under one comment with a definition on which
something rests may stand there too.
"""

from __future__ import annotations

import re
from collections.abc import Iterator, Sequence

from lemdwab.documents import carried
from lemdwab.documents.antt import read_module
from lemdwab.documents.carried import (all_carriers, all_functions, below, goes_on, is_rested_on,
                                       keys_in, rested_on)
from lemdwab.documents.definitions import TARGET, first_lines
from lemdwab.documents.naming import DEFINED, ITEM, all_definitions, rests_on
from lemdwab.documents.site_documents import claims, leads_to

WHERE = "part I of docs/DEFINITIONS.md"
# A heading of a module, or of items of a file.
HEADING = re.compile(r"### .*?(\S+) \(\[`(\w+)`(?:, (\S+))?\]\(")


def shown(text: str) -> list[str]:
    """Lists the keys of the definitions and items that part I of the document has with their
    text."""
    found, place, in_code = [], "", False
    for line in first_lines(text):
        in_code ^= line.startswith("```")
        heading = HEADING.match(line)
        if heading and not in_code:
            module, crate, file = heading.groups()
            place = f"{crate} {file or module}"
        elif in_code:
            one = ITEM.match(line) if "src/" in place else DEFINED.match(line)
            found += [f"{place} {one[2]}"] if one else []
    return found


def lacking(what: str, keys: Sequence[str], there: set[str]) -> Iterator[str]:
    """Says which definitions of those that something rests on part I does not show."""
    for key in sorted(keys):
        one = all_definitions()[key]
        for other in rests_on(key):
            if other.startswith("?"):
                yield f"{key} names {other[2:]}, of which nobody knows where it is defined"
        if key not in there:
            yield f"{what} rests on {one.name} of {one.crate} {one.module}, which {WHERE} lacks"


def of_sentences() -> Iterator[str]:
    """Says which sentence of README nothing carries, and which reference names nothing."""
    for sentence in claims():
        if not any(sentence.removeprefix("- ").startswith(words) for words in carried.proved()):
            yield f"README.md: docs/make/proved.txt has nothing that carries '{sentence[:40]}'"
    for references in carried.proved().values():
        for reference in references:
            if not leads_to(reference):
                yield f"docs/make/proved.txt names {' '.join(reference)}, which is not there"


def of_clauses() -> Iterator[str]:
    """Says which clause of a law or a public call names something that is defined nowhere."""
    for one in all_functions():
        for key in keys_in(one):
            if key.startswith("?"):
                yield (f"{one.called()} of {one.crate} names {key[2:]}, of which nobody knows where"
                       " it is defined")


def with_neighbours() -> set[str]:
    """Gives what is rested on, and what stands under one comment with that."""
    found = set(rested_on())
    for crate, module in {tuple(key.split()[:2]) for key in rested_on()}:
        if not module.startswith("src/"):
            found |= {f"{crate} {module} {name}" for group in read_module(crate, module)[1]
                      if is_rested_on(crate, module, group) for name in group.names()}
    return found


def amiss(text: str) -> Iterator[str]:
    """Says what part I lacks, and what it shows though nothing rests on it."""
    listed = shown(text)
    there, wanted = set(listed), with_neighbours()
    for what, crate, keys in all_carriers():
        yield from lacking(what, sorted(below(crate, keys)), there)
    for key in sorted(there & wanted):
        own = key.split()[0]
        yield from lacking(key, [other for other in rests_on(key) if goes_on(own, other)], there)
    for key in sorted(there - wanted):
        yield f"{WHERE} shows {key}, and nothing that README says rests on it"
    for key in sorted(key for key in there if listed.count(key) > 1):
        yield f"{WHERE} shows {key} {listed.count(key)} times"


def drifts() -> Iterator[str]:
    """Says each definition that part I lacks, once, with what first rests on it, and each that it
    has too much."""
    seen = set()
    found = [*of_sentences(), *of_clauses(), *amiss(TARGET.read_text(encoding="utf-8"))]
    for line in found:
        lacked = line.partition(" rests on ")[2] if line.endswith(" lacks") else line
        if lacked not in seen:
            yield line
        seen.add(lacked)
