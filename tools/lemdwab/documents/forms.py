"""Reads off the definitions what each form of line may answer, and compares docs/REFERENCE.md."""

from __future__ import annotations

import re
from collections.abc import Iterator

from lemdwab.documents.antt import clauses
from lemdwab.documents.markdown import rows, section

REFERENCE, HEADING = "docs/REFERENCE.md", "Lines"
# Each line of the table, by its form in the definitions and, of a move, its `Want`.
LINES = {
    "machine H G N S": "Machine", "vm C MASK HART": "Vm", "wire S L": "Wire", "st A V": "Store",
    "ld A": "Load", "msi VM A D": "Msi", "send VM A D": "Send", "land VM K": "Land",
    "pass S VM C I": "Pass", "refetch VM C": "Refetch", "arrive VM C H": "Move Arrive",
    "leave VM C": "Move Leave", "shift VM C H": "Move Shift", "begin arrive VM C H": "Begin Arrive",
    "begin leave VM C": "Begin Leave", "begin shift VM C H": "Begin Shift", "step VM C": "Step",
    "enter VM C": "Enter", "exit VM C": "Exit", "save VM C K": "Save", "load VM C PART": "LoadPart",
    "inject VM C BIT L": "Inject", "hvictl VM C V": "Hvictl", "hviprio VM C V": "Hviprio",
    "g VM C INS": "GuestCsr", "g VM C ipi C2 D": "Ipi", "m H INS": "MachineCsr",
    "h H INS": "HostCsr", "h H hgeip": "Hgeip", "pins H": "Pins", "entry W0 W1": "Entry"}
# What is answered by each form of answer, as the table says it.
SAID = {"Okay": "`ok`", "Narrow": "`0x` and 8 digits", "Wide": "`0x` and 16 digits",
        "if": "`moving`, `done`", "Part": "the part", "Pins": "`pins A B C D`",
        "Entry": "what the entry says"}
# Refusals that every line but one gets, which stand above the table.
SHARED = ("nomachine",)


def form_of(pattern: str) -> str:
    """Gives the form of line in the pattern of a clause, nothing where it is any line."""
    found = re.search(r"\((?:lines\.)?([A-Z]\w*)", pattern)
    return found[1] if found else ""


def by_form(name: str) -> dict[str, str]:
    """Gives the right sides of a definition of aia_model's Refusal by the forms of its clauses."""
    return {form_of(pattern): right for pattern, right in clauses("aia_model", "Refusal", name)}


def wanted(name: str) -> set[str]:
    """Gives the lines of which a definition names the virtual hart that it wants in some place."""
    found = set()
    for form, right in by_form(name).items():
        wants = {"from_memory": ("Arrive",), "from_a_file": ("Leave", "Shift")}
        of = next((kinds for word, kinds in wants.items() if word in right), None)
        if of:
            found |= {f"{form} {kind}" for kind in of}
        elif form:
            found.add(form)
        else:
            found |= {line for word in re.findall(r"wanted_\w+", right) for line in wanted(word)}
    return found


def with_a_hart() -> set[str]:
    """Gives the lines that move a virtual hart to a guest file of a hart."""
    kinds = [form_of(pattern).removesuffix("s")
             for pattern, right in clauses("aia_model", "Move", "hart_wanted") if "Some" in right]
    return {f"{form} {kind}" for form in ("Move", "Begin") for kind in kinds}


def refused_by(cell: str) -> set[str]:
    """Gives the lines that the cell of a refusal may hold of."""
    found = set()
    for form, right in by_form(cell).items():
        if right == "false":
            continue
        if form in ("Move", "Begin"):
            found |= {line for line in LINES.values() if line.startswith(form)}
        elif form:
            found.add(form)
        elif "wanted_hart" in right:
            found |= with_a_hart()
        else:
            names = re.findall(r"\bwanted_\w+", right)
            found |= {line for name in names for line in wanted(name)}
            found |= set() if names else set(LINES.values()) - set(by_form(cell))
    return found


def spelled() -> dict[str, str]:
    """Gives the spelling of each refusal, by its name in the definitions."""
    found = {}
    for module, name in (("Answer", "answer_word"), ("AnswerText", "refusal_word")):
        for pattern, right in clauses("aia_model", module, name):
            text = re.match(r'codes "(\w+)"$', right)
            if text:
                found[pattern.strip("()").split()[0].split(".")[-1]] = text[1]
    return found


def refusals() -> dict[str, list[str]]:
    """Gives of each line its refusals, in the order in which they are looked for."""
    found: dict[str, list[str]] = {line: [] for line in LINES.values()}
    table = clauses("aia_model", "Refusal", "refusals")[0][1]
    for key, cell in re.findall(r"\((?:Refused )?([\w.]+), (\w+)\)", table):
        word = spelled()[key.split(".")[-1]]
        for line in refused_by(cell):
            found[line].append(word)
    return found


def accepted() -> dict[str, str]:
    """Gives of each line what it answers if it is accepted, as the table says it."""
    by = {form_of(pattern): right.split()[0].split(".")[-1]
          for pattern, right in clauses("aia_model", "Answer", "accepted_answer")}
    return {line: SAID[by.get(line.split()[0], by[""])] for line in LINES.values()}


def drifts() -> Iterator[str]:
    """Says where the table of lines differs from the definitions in what a line may answer."""
    table = rows(section(REFERENCE, HEADING))
    told = {text: cells[2:] for cells in table for text in re.findall(r"`([^`]+)`", cells[0])}
    for text, line in LINES.items():
        words = [word for word in refusals()[line] if word not in SHARED]
        wanted_ = [accepted()[line], ", ".join(f"`{word}`" for word in words)]
        if told.get(text) != wanted_:
            yield (f"{REFERENCE}, {HEADING}, {text}: it says {told.get(text)}, and the definitions"
                   f" say {wanted_}")
