"""Sees that docs/REGISTERS.md has each register of the definitions: those of a domain and of a
hart's delivery control by their offsets and names, those of an interrupt file by their select
numbers, the CSRs by their levels and names, and the bits of an entry by its formats."""

import re
from collections.abc import Iterator

from lemdwab.documents.checks import differ, ticked
from lemdwab.documents.markdown import rows, section
from lemdwab.running import TOP

DOCUMENT = "docs/REGISTERS.md"
FILES = {"domain": "aia_regs/specs/DomainRegisters.antt",
         "file": "aia_regs/specs/FileRegisters.antt",
         "names": "aia_regs/src/domain_registers.rt", "csrs": "aia_model/specs/Grammar.antt",
         "entry": "aia_entry/specs/Format.antt"}
ROW = re.compile(r"(single|indexed) (0x[0-9a-f]+) (?:(\d+) (\d+) (\w+) )?(\w+)")
LEVELS = {"m": "Machine", "h": "Host", "g": "Guest"}
# A field, or a bit, of one of an entry's words.
FIELD = re.compile(r"field (w[01]) (\d+) (\d+)|has_bit (w[01]) (\d+)")


def source(which: str) -> str:
    """Gives the text of one of the files that say which registers there are."""
    return (TOP / "crates" / FILES[which]).read_text(encoding="utf-8")


def names() -> dict[str, str]:
    """Gives the name of each register of a domain, by its variant."""
    text = source("names").partition("pub enum DomainReg {")[2].partition("\n}")[0]
    found: dict[str, str] = {}
    name = None
    for line in text.splitlines():
        told = re.match(r"\s*/// `(\w+)`", line)
        variant = re.match(r"    (\w+)(?:\(u32\))?,", line)
        if told and name is None:
            name = told[1]
        if variant:
            found[variant[1]], name = name or "", None
    return found


def place(base: str, stride: str, first: str, last: str) -> str:
    """Gives the offset of a row as the document writes it."""
    if not stride:
        return base
    if stride == "32":
        return f"{base} + 32h"
    return f"{base} + 4{'i, i' if first == '1' else 'k, k'} {first} to {last}"


def domain_rows() -> Iterator[str]:
    """Gives each register of a domain's region: its offset and its name."""
    called = names()
    table = source("domain").partition("\ntable =")[2].partition("[]")[0]
    for _, base, stride, first, last, variant in ROW.findall(table):
        index = {"1": "[i]", "0": "[k]"}.get(first, "") if stride == "4" else ""
        yield f"{place(base, stride, first, last)} {called[variant]}{index}"


def table(heading: str) -> list[list[str]]:
    """Gives the cells of the document's rows below a heading."""
    return rows(section(DOCUMENT, heading))


def domains() -> Iterator[str]:
    """Compares the offsets and names of a domain's registers, and of delivery controls."""
    stands: list[str] = []
    for heading in ("An APLIC domain", "A hart's delivery control"):
        for cells in table(heading):
            if cells[0].startswith("0x"):
                stands.append(f"{cells[0]} {ticked(cells[1])[0]}")
    yield from differ(f"{DOCUMENT}, of an APLIC domain,", stands, list(domain_rows()))


def selects() -> Iterator[str]:
    """Compares the select numbers: what the document says of each, and what each names."""
    told: dict[int, str] = {}
    for cells in table("Interrupt files"):
        name = ticked(cells[1])[0] if ticked(cells[1]) else cells[1].partition(" ")[0]
        for number in numbers(cells[0]):
            told[number] = re.sub(r"\d+$", "", name)
    text = source("file").partition("\nregister_of select =")[2].partition("\n\n")[0]
    wanted = {number: by_definition(text, number) for number in range(0x1000)}
    for number, name in wanted.items():
        if told.get(number, "none") != name:
            yield (f"{DOCUMENT}, Interrupt files, says that {number:#x} is"
                   f" {told.get(number, 'none')}, and not {name}")
            return


def numbers(cell: str) -> list[int]:
    """Lists the select numbers that a cell names."""
    if cell == "all others":
        return []
    step = 2 if "odd" in cell or ", " in cell else 1
    found: list[int] = []
    for part in cell.replace(", odd", "").split(", "):
        ends = [int(end, 16) for end in part.split(" to ")]
        found += range(ends[0], ends[-1] + 1, step)
    return found


def by_definition(text: str, number: int) -> str:
    """Gives the register that a select number names, by the conditions of the definition."""
    kinds = {"Delivery": "eidelivery", "Threshold": "eithreshold", "Reserved": "reserved",
             "Odd": "none", "Pending": "eip", "Enable": "eie"}
    for condition, then in re.findall(r"if (.*?) then (?:\()?(\w+)", text.replace("\n", " ")):
        equal = re.match(r"nat_eq select (0x\w+)", condition)
        inside = re.match(r"is_in_range (0x\w+) (0x\w+) select", condition)
        holds = bool(equal and number == int(equal[1], 16)
                     or inside and int(inside[1], 16) <= number <= int(inside[2], 16))
        if holds and ("% 2" not in condition or number % 2 == 1):
            return kinds[then]
    return "none"


def csrs() -> Iterator[str]:
    """Compares the CSRs that lines of each level name."""
    stands = [f"{ticked(cells[0])[0]} {name}" for cells in table("CSRs")
              for name in ticked(cells[1])
              if ticked(cells[0]) and ticked(cells[0])[0] in LEVELS and name != "hgeip"]
    text = source("csrs").partition("\ncsr_names levels.Machine =")[2].partition("\n\n")[0]
    wanted: list[str] = []
    level = "m"
    letter = {of: line for line, of in LEVELS.items()}
    for word in re.findall(r'levels\.(\w+)|codes "(\w+)"', text):
        if word[0]:
            level = letter[word[0]]
        else:
            wanted.append(f"{level} {word[1]}")
    yield from differ(f"{DOCUMENT}, CSRs,", stands, wanted)


def entries() -> Iterator[str]:
    """Compares the bits of an entry's two words."""
    stands: set[str] = set()
    word = ""
    for cells in table("An entry of an MSI page table"):
        for part in re.split(r"[;,] | and ", cells[0]):
            named = re.match(r"word ([01])$", part)
            word = f"w{named[1]}" if named else word
            if not named:
                high, _, low = part.partition(":")
                stands.add(f"{word} {high}:{low or high}")
    text = source("entry").partition("-- ---- the words that say it")[0]
    wanted = {f"{word or bit} {high or at}:{low or at}"
              for word, high, low, bit, at in FIELD.findall(text)}
    yield from differ(f"{DOCUMENT}, An entry,", stands, wanted)


def drifts() -> Iterator[str]:
    """Lists what the document has otherwise than the definitions."""
    for check in (domains, selects, csrs, entries):
        yield from check()
