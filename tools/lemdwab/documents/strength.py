"""Makes the tables of docs/maintaining/EDITS.md of the edits in must-fail/, and of refusals.txt;
sees that every edit can be made, of must-fail/ and of the wider set in more-fail/, and that each of
wrong_bodies.txt is there."""

from __future__ import annotations

import re
from collections.abc import Iterator, Sequence
from functools import cache
from pathlib import Path
from typing import NamedTuple

from lemdwab.running import TOP

EDITS = "docs/maintaining/EDITS.md"
TARGET = TOP / EDITS
REFUSALS = TOP / "docs/make/refusals.txt"
WRONG_BODIES = TOP / "docs/make/wrong_bodies.txt"
# The edits that the gate tries, and those that suite/wider tries.
TRIED, WIDER = "must-fail", "more-fail"
# The most edits of a crate: the gate proves the crate once more for each.
MOST = 9
HEAD = ["| Edit | Turns | Into | Refused by |", "|---|---|---|---|"]
BEGIN, END = "<!-- edits, by `suite/documents make` -->", "<!-- /edits -->"


class Edit(NamedTuple):
    """A planted bug: where it stands, and its changes, each a file of the crate, what stands there
    and what is put there."""

    crate: str
    folder: str
    name: str
    changes: tuple[tuple[str, str, str], ...]

    def path(self) -> str:
        """Gives its file, from the top of the repository."""
        return f"crates/{self.crate}/{self.folder}/{self.name}.edit"


def changes(text: str) -> tuple[tuple[str, str, str], ...]:
    """Reads the changes of an edit's file, as the prover's tool does."""
    file, old, found = "", "", []
    for line in text.split("\n"):
        if line.startswith("file: "):
            file = line[6:].strip()
        elif line.startswith("old: "):
            old = line[5:]
        elif line.startswith("new:"):
            found.append((file, old, line[4:].removeprefix(" ")))
            old = ""
    return tuple(found)


@cache
def edits(folder: str = TRIED) -> list[Edit]:
    """Lists the edits of all crates in their folders of that name."""
    return [Edit(path.parts[-3], folder, path.stem, changes(path.read_text(encoding="utf-8")))
            for path in sorted(TOP.glob(f"crates/*/{folder}/*.edit"))]


@cache
def source(crate: str, file: str) -> str:
    """Gives the text of a file of a crate."""
    return (TOP / "crates" / crate / file).read_text(encoding="utf-8")


def rows(path: Path) -> list[str]:
    """Lists the lines of a table kept by hand, without its comments."""
    lines = path.read_text(encoding="utf-8").split("\n")
    return [line for line in lines if line and not line.startswith("#")]


def refusals() -> dict[tuple[str, str], str]:
    """Gives what each edit's refusal names, as the table kept by hand says."""
    found = {}
    for line in rows(REFUSALS):
        match = re.match(r"(\w+) (\w+): (.+)", line)
        if not match:
            raise SystemExit(f"docs/make/refusals.txt has a line of no edit: {line}")
        found[match.group(1), match.group(2)] = match.group(3)
    return found


def code(text: str) -> str:
    """Gives code as a cell of a table, cut where it is long."""
    text = text.strip()
    if len(text) > 64:
        text = text[:61].rstrip() + ".."
    return f"`{text}`".replace("|", "\\|") if text else "nothing"


def differing(old: str, new: str) -> tuple[str, str]:
    """Gives the words of two lines of code that differ, with one that they share on each side."""
    olds, news = old.split(), new.split()
    least = min(len(olds), len(news))
    first = next((i for i in range(least) if olds[i] != news[i]), least)
    last = next((i for i in range(least - first) if olds[~i] != news[~i]), least - first)
    first, last = max(0, first - 1), max(0, last - 1)
    return " ".join(olds[first:len(olds) - last]), " ".join(news[first:len(news) - last])


def type_of(head: str) -> str:
    """Gives the type of an `impl`, with the name of its trait behind it, as folders of proofs have
    it; nothing where the line begins no `impl`."""
    while (bare := re.sub(r"<[^<>]*>", "", head)) != head:
        head = bare
    match = re.match(r"(?:unsafe )?impl (?:(?:\w+::)*(\w+) for )?(\w+)", head)
    return match.group(2) + (match.group(1) or "") if match else ""


def function_at(text: str, old: str) -> tuple[str, str] | None:
    """Gives the type and the name of the function in which what stands in a text lies, by the
    layout of `rt fmt`: no type outside an `impl`, and nothing outside a function."""
    line = text[:text.find(old) + len(old) - len(old.lstrip())].count("\n")
    of, name, close = "", "", ""
    for each in text.split("\n")[:line + 1]:
        if each == "}":
            of = ""
        if name and each.startswith(close):
            name = ""
        of = type_of(each) or of
        if match := re.match(r"( *)(?:pub(?:\(.*?\))? )?(?:extern \"C\" )?fn (\w+)", each):
            close, name = match.group(1) + "}", match.group(2)
    return (of, name) if name else None


def has_written_proof(crate: str, of: str, name: str, module: str = "**") -> bool:
    """Says whether a function has a proof written by hand. That of a method stands in a folder
    named for its type, below the module of the type, wherever its `impl` stands."""
    below = f"**/{of}*" if of else module
    found = (TOP / "crates" / crate / "proofs").glob(f"{below}/{name}/*.antt")
    return any(not of or path.parts[-3].partition("+")[0] == of for path in found)


def function_refused(by: str) -> tuple[str, str]:
    """Gives the type and the name of the function that a refusal names first."""
    named = re.search(r"`(?:(\w+)::)?(\w+)`", by)
    return (named.group(1) or "", named.group(2)) if named else ("", "-")


def star(edit: Edit, by: str) -> str:
    """Gives the mark of an edit of a definition, or in a function with a hand-written proof; where
    a line stands in no function, that is the one that its refusal names."""
    if not all(file.startswith("src/") for file, _, _ in edit.changes):
        return "\\*"
    texts: dict[str, str] = {}
    for file, old, new in edit.changes:
        text = texts.get(file, source(edit.crate, file))
        module = file.removeprefix("src/").removesuffix(".rt")
        place: tuple[str, ...]
        if function := function_at(text, old):
            place = (*function, "." if module in ("lib", "main") else module)
        else:
            place = function_refused(by)
        if has_written_proof(edit.crate, *place):
            return "\\*"
        texts[file] = text.replace(old, new)
    return ""


def table() -> str:
    """Gives the table of all edits that the gate tries, by crate."""
    told, out = refusals(), ["", *HEAD]
    for edit in edits():
        olds, news = zip(*[differing(old, new) for _, old, new in edit.changes])
        turns = ", ".join(code(old) for old in olds)
        into = ", ".join(code(new) for new in news)
        words = edit.name.replace("_", " ")
        files = ", ".join(dict.fromkeys(f"{edit.crate}/{file}" for file, _, _ in edit.changes))
        by = told.get((edit.crate, edit.name), "`?`")
        by += star(edit, by)
        out.append(f"| [{words}](../../{edit.path()}) | {files}: {turns} | {into} | {by} |")
    sets = [(len(some), len({edit.crate for edit in some})) for some in (edits(), edits(WIDER))]
    head = "{} edits stand today, in {} crates; the wider set has {} more, in {}.".format(
        *sets[0], *sets[1])
    return "\n".join([BEGIN, head, *out, END])


def rendered() -> str:
    """Gives the document with its tables made anew."""
    text = TARGET.read_text(encoding="utf-8")
    if BEGIN not in text or END not in text:
        raise SystemExit(f"{EDITS} has no place for the tables of edits")
    before, rest = text.split(BEGIN, 1)
    return before + table() + rest.split(END, 1)[1]


def made(crate: str, each: Sequence[tuple[str, str, str]]) -> tuple[dict[str, str], str]:
    """Gives the files of a crate as the changes of an edit leave them, by their names, and why the
    edit can't be made, which is nothing where it can: each old text stands once in its file, as the
    changes before it left that."""
    texts: dict[str, str] = {}
    for file, old, new in each:
        if not file.startswith(("src/", "specs/", "proofs/")):
            return texts, f"a line 'file: ' names no file of src/, specs/ or proofs/: {file}"
        if not (TOP / "crates" / crate / file).is_file():
            return texts, f"there is no {file} in crates/{crate}"
        text = texts.get(file, source(crate, file))
        count = text.count(old)
        if not old.strip() or count != 1:
            why = f"its old text stands {count} times in {file}, and not once: {old.strip()}"
            return texts, why
        if old == new:
            return texts, f"what it puts there is what stands there: {old.strip()}"
        texts[file] = text.replace(old, new)
    return texts, "" if each else "it has no pair of lines 'old: ' and 'new: '"


def misfit(crate: str, each: Sequence[tuple[str, str, str]]) -> str:
    """Says why an edit can't be made; gives nothing where it can be."""
    return made(crate, each)[1]


def told_apart(found: list[Edit]) -> Iterator[str]:
    """Says which edits are the same as another, though their words or their folders differ."""
    first: dict[tuple[str, tuple[tuple[str, str], ...]], Edit] = {}
    names: dict[tuple[str, str], Edit] = {}
    for edit in found:
        texts, _ = made(edit.crate, edit.changes)
        key = edit.crate, tuple(sorted((file, " ".join(text.split()))
                                       for file, text in texts.items()))
        if other := first.get(key):
            yield f"{edit.path()}: it makes the same of the crate as {other.path()}"
        elif other := names.get((edit.crate, edit.name)):
            yield f"{edit.path()}: its name is that of {other.path()}"
        first.setdefault(key, edit)
        names.setdefault((edit.crate, edit.name), edit)


def misfits() -> Iterator[str]:
    """Says which edits can't be made, which are the same, and which crates have too many."""
    every = [*edits(TRIED), *edits(WIDER)]
    found = [f"{edit.path()}: {why}" for edit in every if (why := misfit(edit.crate, edit.changes))]
    yield from found or told_apart(every)
    crates = [edit.crate for edit in edits()]
    for crate in sorted(set(crates)):
        if (count := crates.count(crate)) > MOST:
            yield f"crates/{crate}/must-fail has {count} edits, and may have {MOST}"


def wrong_bodies() -> list[tuple[str, list[tuple[str, str]]]]:
    """Lists the wrong bodies that are to be planted: the words of each, and the edits, as crate and
    name, that plant it."""
    found = []
    for line in rows(WRONG_BODIES):
        match = re.fullmatch(r"(.+): (\w+/\w+(?:, \w+/\w+)*)", line)
        if not match:
            raise SystemExit(f"docs/make/wrong_bodies.txt has a line that names no edit: {line}")
        named = [name.partition("/") for name in match.group(2).split(", ")]
        found.append((match.group(1), [(crate, name) for crate, _, name in named]))
    return found


def unplanted() -> Iterator[str]:
    """Says which of the wrong bodies are planted by no edit that stands."""
    there = {(edit.crate, edit.name) for edit in (*edits(TRIED), *edits(WIDER))}
    for words, names in wrong_bodies():
        for crate, name in names:
            if (crate, name) not in there:
                yield (f"docs/make/wrong_bodies.txt: {crate}/{name} is no edit of {TRIED}/ or"
                       f" {WIDER}/: {words}")


@cache
def sources(crate: str) -> str:
    """Gives the text of all code of a crate."""
    files = sorted((TOP / "crates" / crate / "src").rglob("*.rt"))
    return "\n".join(path.read_text(encoding="utf-8") for path in files)


def misplaced(told: dict[tuple[str, str], str]) -> Iterator[str]:
    """Says which rows of refusals stand out of order, and which name a function that their crate
    has not got."""
    keys = list(told)
    for before, key in zip(keys, keys[1:]):
        if key < before:
            yield f"docs/make/refusals.txt: {' '.join(key)} stands behind {' '.join(before)}"
    for (of, name), by in told.items():
        function = function_refused(by)[1]
        if not re.fullmatch(r"\w+", function) or not re.search(rf"\b{function}\b", sources(of)):
            yield (f"docs/make/refusals.txt: of {of} {name} is said {by}, which names no function"
                   f" of crates/{of}/src")


def drifts() -> Iterator[str]:
    """Says where the tables differ from the edits, which edits nothing is said of, which can't be
    made, and which wrong bodies are planted by none."""
    found = list(misfits())
    yield from found
    yield from unplanted()
    if found:
        # What is made of the edits needs those that can be made.
        return
    there = {(edit.crate, edit.name) for edit in edits()}
    for of, name in sorted(there - set(refusals())):
        yield (f"docs/make/refusals.txt does not say what refuses {of} {name}: its head says how,"
               " and rt must-fail what")
    for of, name in sorted(set(refusals()) - there):
        yield f"docs/make/refusals.txt speaks of {of} {name}, which is no edit"
    yield from misplaced({key: by for key, by in refusals().items() if key in there})
    if rendered() != TARGET.read_text(encoding="utf-8"):
        yield (f"{EDITS}: its tables drift from must-fail/ or docs/make/refusals.txt:"
               " suite/documents make writes them anew")


def make() -> None:
    """Writes the tables into the document; ends where an edit can't be made."""
    if found := list(misfits()):
        raise SystemExit("\n".join(found))
    TARGET.write_text(rendered(), encoding="utf-8")
