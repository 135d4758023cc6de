"""Ties each sentence of docs/promises to the statement that it is about.

docs/make/claims.txt has a line for each clause of a law or public function of the crates that these
pages are about: a sum of its statement, and one of its sentences, as they stood when somebody last
read both. A statement that changed since is told, whether its sentence changed or not; a sentence
that changed alone is not. What a statement says by the definitions that it names is no part of its
sum: these stand in docs/DEFINITIONS.md.
"""

from __future__ import annotations

import hashlib
import re
import subprocess
from collections.abc import Iterator
from functools import cache
from typing import TYPE_CHECKING, NamedTuple

from lemdwab.documents.functions import functions, functions_in, source_files
from lemdwab.documents.markdown import documents, read
from lemdwab.running import TOP

if TYPE_CHECKING:
    from lemdwab.documents.functions import Function

PAGES = "docs/promises/"
STATEMENTS = f"{PAGES}statements-"
LEDGER = TOP / "docs/make/claims.txt"
HEAD = """\
# Each clause that docs/promises has a sentence on: crate, function, clause (- of one without a
# name), a sum of its statement, and one of its sentences, as they stood when both were read.
# `suite/documents claims FUNCTION..` writes them.
"""
# What names a function in a page: `run`, `Core::host`, `guests::no_move_changes_a_guest`.
NAME = re.compile(r"`((?:\w+(?:<\w+>)?::)*[a-z_0-9]+)(?:\([^`]*\))?`")


class Passage(NamedTuple):
    """A row or a paragraph of a page, with the names in it of functions, and of a row those in its
    cell of clauses; None of a paragraph."""

    names: tuple[str, ...]
    clauses: tuple[str, ...] | None
    text: str


class Claim(NamedTuple):
    """A clause: where its sentences stand, its statement and these sentences, each as a text."""

    page: str
    statement: str
    sentence: str


# ---- sentences

@cache
def pages() -> list[str]:
    """Lists the pages that have sentences."""
    return [n for n in documents() if n.startswith(PAGES) and not n.startswith(STATEMENTS)]


def sections(name: str) -> list[tuple[str, str]]:
    """Lists the parts of a page that are about a crate, as (crate, text)."""
    return re.findall(r"(?ms)^## `(\w+)`.*?\n(.*?)(?=^## |\Z)", read(name))


def rows_of(block: str, before: tuple[str, ...]) -> Iterator[Passage]:
    """Lists the rows of a table, with the functions that the paragraph before it names: these it is
    about where no column has functions."""
    now = before
    for line in block.split("\n")[2:]:
        cells = [cell.strip() for cell in re.split(r"(?<!\\)\|", line.strip())[1:-1]]
        if len(cells) > 2 and cells[0]:
            now = tuple(NAME.findall(cells[0]))
        if len(cells) > 1:
            named = re.findall(r"`(\w+)`|(\d+|-)(?=$|,)", cells[-2])
            yield Passage(now, tuple(name or sign for name, sign in named), cells[-1])


def passages(body: str) -> Iterator[Passage]:
    """Lists the rows and paragraphs of a part of a page."""
    before: tuple[str, ...] = ()
    for block in re.split(r"\n\s*\n", body.strip()):
        if block.startswith("|"):
            yield from rows_of(block, before)
        else:
            before = tuple(NAME.findall(block))
            yield Passage(before, None, " ".join(block.split()))


def is_named(one: Function, name: str, alone: set[str]) -> bool:
    """Says whether a name of a page is that of a function. One without a type means a function
    outside all types, where there is such a one; `alone` has the names of these."""
    *owner, last = re.sub(r"<\w+>", "", name).split("::")
    if last != one.name:
        return False
    if not owner:
        return not one.owner or last not in alone
    return owner[-1] in (one.owner, one.module().split("::")[-1])


def is_on(passage: Passage, clause: str, count: int) -> bool:
    """Says whether a row is on a clause of a function that has so many: it names it, or it has `-`
    and there is no other one, or it says how many there are."""
    own = passage.clauses or ()
    return clause in own or own == ("-" if count == 1 else str(count),)


def sentences_on(one: Function, clause: str, count: int, found: list[Passage],
                 alone: set[str]) -> str:
    """Gives the sentences on a clause of a function that has so many: the rows on it, or, where no
    row is on the function, the paragraphs that name it."""
    about = [p for p in found if any(is_named(one, name, alone) for name in p.names)]
    table = [p for p in about if p.clauses is not None]
    on_it = [p for p in table if is_on(p, clause, count)] if table else about
    return "\n".join(p.text for p in on_it)


# ---- statements

def told(one: Function) -> bool:
    """Says whether docs/promises has to have a sentence on a function."""
    return bool(one.clauses()) and (one.is_law or one.is_public)


def cut(one: Function) -> tuple[str, str, dict[str, str]]:
    """Cuts a contract into the words of the function, what it requires, and each clause by its
    name, comments left out."""
    clauses = one.clauses()
    lines = [re.sub(r"//.*", "", line) for line in one.text]
    head = "\n".join(lines[: min(c.first for c in clauses)])
    required = []
    ensured: dict[str, str] = {}
    for clause in clauses:
        text = "\n".join(lines[clause.first:clause.last + 1])
        if clause.kind == "requires":
            required.append(text)
        else:
            ensured[clause.name or "-"] = "\n".join([ensured.get(clause.name or "-", ""), text])
    return head, "\n".join(required), ensured


def statements(one: Function) -> dict[str, str]:
    """Gives the statement of each clause of a function, with the function's words, and what it
    requires."""
    head, required, ensured = cut(one)
    return {name: "\n".join([head, required, text]) for name, text in ensured.items()}


def label(one: Function, others: list[Function]) -> str:
    """Names a function within its crate, its module before it where two of its name stand in two
    modules."""
    is_one = len({other.module() for other in others if other.called() == one.called()}) == 1
    return one.called() if is_one else f"{one.module()}::{one.called()}"


@cache
def told_of(crate: str) -> list[tuple[str, Function]]:
    """Lists the functions of a crate on which there has to be a sentence, each with its name."""
    found = [one for file in source_files(crate) for one in functions(crate, file) if told(one)]
    return [(label(one, found), one) for one in found]


def claims_of(page: str, crate: str, body: str) -> dict[tuple[str, str, str], Claim]:
    """Gives the claims of a crate, by their crate, function and clause."""
    listed = list(passages(body))
    claims: dict[tuple[str, str, str], Claim] = {}
    alone = {one.name for _, one in told_of(crate) if not one.owner}
    for name, one in told_of(crate):
        own = statements(one)
        for clause, text in own.items():
            key = (crate, name, clause)
            before = claims.get(key, Claim(page, "", "")).statement
            said = sentences_on(one, clause, len(own), listed, alone)
            claims[key] = Claim(page, f"{before}\n{text}".strip("\n"), said)
    return claims


@cache
def claims() -> dict[tuple[str, str, str], Claim]:
    """Gives all claims."""
    found: dict[tuple[str, str, str], Claim] = {}
    for page in pages():
        for crate, body in sections(page):
            found |= claims_of(page, crate, body)
    return found


# ---- the ledger

def short(text: str) -> str:
    """Gives a sum of a text without its spaces."""
    return hashlib.sha256("".join(text.split()).encode()).hexdigest()[:12]


def sums(claim: Claim) -> tuple[str, str]:
    """Gives the two sums of a claim."""
    return short(claim.statement), short(claim.sentence)


def ledger() -> dict[tuple[str, str, str], tuple[str, str]]:
    """Gives the sums that were accepted, by crate, function and clause."""
    text = LEDGER.read_text(encoding="utf-8") if LEDGER.exists() else ""
    rows = [line.split() for line in text.split("\n") if line and not line.startswith("#")]
    return {(row[0], row[1], row[2]): (row[3], row[4]) for row in rows}


def write(accepted: dict[tuple[str, str, str], tuple[str, str]]) -> None:
    """Writes the ledger."""
    lines = [" ".join((*key, *accepted[key])) for key in sorted(accepted)]
    LEDGER.write_text(HEAD + "\n".join(lines) + "\n", encoding="utf-8")


def compared(stands: dict[tuple[str, str, str], Claim],
             accepted: dict[tuple[str, str, str], tuple[str, str]]) -> Iterator[str]:
    """Says which clauses have no sentence, and which are not as they were accepted."""
    for key in sorted(set(stands) | set(accepted)):
        crate, name, clause = key
        what = f"{crate} {name} {clause}"
        again = f"read both, then suite/documents claims {crate}::{name}"
        if key not in stands:
            yield f"{what} is gone, and docs/make/claims.txt has it: {again}"
        elif not stands[key].sentence:
            yield f"{stands[key].page} has no sentence on {what}"
        elif key not in accepted:
            yield f"{what} is new to docs/make/claims.txt: {again}"
        elif (now := sums(stands[key]))[0] != accepted[key][0]:
            so = "its sentence did not" if now[1] == accepted[key][1] else "its sentence too"
            yield f"{what}: the statement changed, {so} ({stands[key].page}): {again}"


def drifts() -> Iterator[str]:
    """Says where statements and what was accepted of them differ."""
    return compared(claims(), ledger())


# ---- to accept

def git(*words: str) -> str:
    """Gives what git prints; nothing where it fails."""
    ran = subprocess.run(["git", "-C", str(TOP), *words], capture_output=True, text=True)
    return ran.stdout if ran.returncode == 0 else ""


def before(key: tuple[str, str, str], accepted: tuple[str, str]) -> tuple[str, str]:
    """Gives the statement that was accepted, and the commit that has it; nothing where git has
    none."""
    crate, name, clause = key
    last = name.split("::")[-1]
    row = " ".join((*key, accepted[0]))
    commits = git("log", "-n", "3", "--format=%h", f"-S{row}", "--", str(LEDGER)).split()
    for commit in [*commits, "HEAD"]:
        found = git("grep", "-lw", f"fn {last}", commit, "--", f"crates/{crate}/src").split()
        own = []
        for file in (path.partition(f"{crate}/")[2] for path in found):
            lines = git("show", f"{commit}:crates/{crate}/{file}").split("\n")
            own += [one for one in functions_in(crate, file, lines) if told(one)
                    and name in (one.called(), f"{one.module()}::{one.called()}")]
        text = "\n".join(statements(one).get(clause, "") for one in own).strip("\n")
        if short(text) == accepted[0]:
            return text, commit
    return "", ""


def shown(text: str) -> str:
    """Gives a text moved in, empty lines left out."""
    return "\n".join(f"    {line}" for line in text.split("\n") if line.strip())


def show(key: tuple[str, str, str], claim: Claim, accepted: tuple[str, str] | None) -> None:
    """Prints the sentence and the statement of a claim, and the statement before where it
    changed."""
    print(f"{' '.join(key)}, {claim.page}:\n{shown(claim.sentence)}\n  stands for:\n"
          f"{shown(claim.statement)}")
    if accepted and accepted[0] != short(claim.statement):
        text, commit = before(key, accepted)
        said = f"in place of, at {commit}:\n{shown(text)}" if text else "git has no older one"
        print(f"  {said}")


def meant(word: str, keys: list[tuple[str, str, str]]) -> list[tuple[str, str]]:
    """Lists the functions that a word names, with their crates."""
    return sorted({key[:2] for key in keys
                   if word in (key[1], f"{key[0]}::{key[1]}", key[1].split("::")[-1])})


def accept(words: list[str]) -> int:
    """Shows the claims of functions and accepts them; gives 0, 1 where one has no sentence, and 2
    where a word names no function or two."""
    stands, accepted = claims(), ledger()
    named = {word: meant(word, [*stands, *accepted]) for word in words}
    for word, found in named.items():
        if len(found) != 1:
            may = f"may be {', '.join('::'.join(one) for one in found)}" if found else "is none"
            print(f"documents: of the functions of docs/promises '{word}' {may}")
            return 2
    wanted = {found[0] for found in named.values()}
    for key in [key for key in sorted(stands) if key[:2] in wanted]:
        show(key, stands[key], accepted.get(key))
    rows = {key: sums(claim) for key, claim in stands.items()
            if key[:2] in wanted and claim.sentence}
    write({key: row for key, row in accepted.items() if key[:2] not in wanted} | rows)
    silent = [line for line in compared(stands, ledger()) if "has no sentence on" in line]
    print("\n".join([f"accepted: {len(rows)}", *silent]))
    return 1 if any(key[:2] in wanted and not stands[key].sentence for key in stands) else 0
