"""Sees that include/aia.h declares what the crate of the library exports: the same calls, with the
same parameters in the same order, and the same numbers of codes, instructions, CSRs and kinds."""

from __future__ import annotations

import re
from collections.abc import Iterator, Mapping

from lemdwab.documents.antt import clauses
from lemdwab.documents.functions import source_files, source_lines
from lemdwab.running import TOP, sure

HEADER, CRATE = "include/aia.h", "aia_c"
EXPORT = re.compile(r'#\[unsafe\(no_mangle\)\]\n(?:#\[.*\]\n)*'
                    r'pub extern "C" fn (\w+)\(([^)]*)\)(?: -> (\w+))?')
DECLARED = re.compile(r"(?m)^(\w+) (\w+)\(([^)]*)\);")
TYPES = {"u64": "uint64_t", "u32": "uint32_t", "usize": "size_t", "i32": "int32_t", "bool": "bool",
         "u8": "uint8_t", "Handle": "struct aia *", "": "void"}
# What the header names otherwise than the crate: an instruction, as its enum.
NAMES = {"funct": "op"}
# What a CSR is called behind the letter of its level, and the letter of each kind of line.
CSRS = {"Select": "ISELECT", "Reg": "IREG", "Topei": "TOPEI", "Topi": "TOPI", "Sip": "IP",
        "Sie": "IE"}
LEVELS = {"Machine": "M", "Host": "S"}
OPS = {"Read": "CSRR", "Write": "CSRRW", "Set": "CSRRS", "Clear": "CSRRC"}


def read() -> str:
    """Gives the text of the header."""
    return (TOP / HEADER).read_text(encoding="utf-8")


# ---- calls

def in_c(name: str, of: str) -> list[str]:
    """Gives what a parameter of an export is in C: a slice is two, an allocator none."""
    if of == "Global":
        return []
    match = re.fullmatch(r"(&mut |&)?(\[)?(\w+)\]?", of)
    if not match or match[3] not in TYPES:
        return [f"{name}, of a type {of} that C has not"]
    name = NAMES.get(name, name)
    pointer, is_slice, inner = match[1] or "", match[2], TYPES[match[3]]
    if not pointer:
        return [f"{inner} {name}"]
    const = "" if "mut" in pointer else "const "
    found = [f"{const}{inner}{'' if inner.endswith('*') else ' '}*{name}"]
    return found + [f"size_t {'room' if 'mut' in pointer else 'length'}"] * bool(is_slice)


def exports() -> dict[str, str]:
    """Gives what each exported call is in C, by its name."""
    found = {}
    for file in source_files(CRATE):
        for name, words, gives in EXPORT.findall("\n".join(source_lines(CRATE, file))):
            pairs = [word.strip().split(": ") for word in words.split(",") if word.strip()]
            inner = [part for pair in pairs for part in in_c(*pair)]
            found[name] = f"{TYPES[gives]} {name}({', '.join(inner) or 'void'})"
    return found


def without_mark() -> Iterator[str]:
    """Says which function of C is not exported by its name."""
    for file in source_files(CRATE):
        text = "\n".join(source_lines(CRATE, file))
        marked = {name for name, _, _ in EXPORT.findall(text)}
        for name in re.findall(r'extern "C" fn (\w+)', text):
            if name not in marked:
                yield f"{name} of {CRATE} is a function of C that is not exported by its name"


def declared() -> dict[str, str]:
    """Gives each declaration of the header, by its name."""
    text = re.sub(r"(?s)/\*.*?\*/", "", read())
    return {name: f"{gives} {name}({' '.join(words.split())})"
            for gives, name, words in DECLARED.findall(text)}


# ---- numbers

def upper(name: str) -> str:
    """Gives a name of an enum as the header writes it: NO_FILE of NoFile."""
    return re.sub(r"(?<=.)(?=[A-Z])", "_", name).upper()


def codes() -> dict[str, int]:
    """Gives the number of each code, by its name in the header."""
    found = {}
    for name in ("number", "refusal_number"):
        for pattern, right in clauses(CRATE, "Codes", name):
            if match := re.fullmatch(r"pos (\d+)", right):
                found[upper(pattern.split(".")[-1])] = int(match[1])
    return found


def answers() -> dict[str, str]:
    """Gives the word of the answer of each code that has one, by its name in the header."""
    words = {upper(pattern.split(".")[-1]): word[1]
             for name, module in (("answer_word", "Answer"), ("refusal_word", "AnswerText"))
             for pattern, right in clauses("aia_model", module, name)
             if (word := re.fullmatch(r'codes "(\w+)"', right))}
    return {name: words.get(name, "none") for name, number in codes().items() if number >= 16}


def numbered(name: str) -> list[tuple[int, list[str]]]:
    """Gives what a definition of `Access` gives for numbers, as (number, words)."""
    right = clauses(CRATE, "Access", name)[0][1]
    found = re.findall(r"nat_eq \w+ (\d+) then Some (\([^)]*\)|[\w.]+)", right)
    return [(int(number), re.findall(r"\w+", gives)) for number, gives in found]


def instructions() -> dict[str, int]:
    """Gives the number of each instruction, by its name in the header."""
    return {OPS[next(word for word in gives if word in OPS)]: number
            for number, gives in numbered("op_of")}


def addresses() -> dict[str, int]:
    """Gives the address of each CSR of a hart or of a virtual hart, by its name in the header."""
    found = {}
    for number, gives in numbered("hart_csr"):
        found[LEVELS[gives[1]] + CSRS[gives[2]]] = number
    for number, gives in numbered("guest_csr"):
        found["S" + CSRS[gives[0]]] = number
    return found


def kinds(definition: str, prefix: str) -> dict[str, int]:
    """Gives the number of each kind that a definition of `Parts` begins with, by its name in the
    header."""
    found = {}
    for pattern, right in clauses(CRATE, "Parts", definition):
        name = sure(re.search(r"\.(\w+)", pattern))[1]
        found[prefix + upper(name)] = int(sure(re.match(r"(\d+) ∷", right))[1])
    return found


def constants() -> dict[str, int]:
    """Gives the two constants that the header defines, by their names in it."""
    places = {"ANSWER": ("aia_model", "src/limits.rt", "ANSWER_BYTES"),
              "VERSION": (CRATE, "src/version.rt", "VERSION")}
    text = {name: "\n".join(source_lines(crate, file)) for name, (crate, file, _) in places.items()}
    return {name: int(sure(re.search(rf"const {places[name][2]}: \w+ = ([\d_]+);", text[name]))[1]
                      .replace("_", "")) for name in places}


def listed(name: str) -> dict[str, int]:
    """Gives the names and numbers of an enum of the header."""
    inner = re.search(rf"enum {name} \{{([^}}]*)\}}", read())
    return {word: int(number, 0)
            for word, number in re.findall(r"AIA_(\w+) = (\w+)", inner[1] if inner else "")}


def defined() -> dict[str, int]:
    """Gives the names and numbers of constants of the header."""
    return {name: int(number) for name, number in re.findall(r"#define AIA_(\w+) (\d+)", read())}


def said() -> dict[str, str]:
    """Gives the word of the answer that the header says of each code that has one."""
    found = re.findall(r"AIA_(\w+) = (\d+),?\s*/\* (\w+)", read())
    return {name: word for name, number, word in found if int(number) >= 16}


# ---- both

def differ(what: str, stands: Mapping[str, int | str], wanted: Mapping[str, int | str]
           ) -> Iterator[str]:
    """Says where the header has something else than the crate."""
    for name in sorted(set(stands) | set(wanted)):
        if name not in wanted:
            yield f"{HEADER} has {what} {name}, which {CRATE} has not"
        elif name not in stands:
            yield f"{HEADER} lacks {what} {name}, which {CRATE} has"
        elif stands[name] != wanted[name]:
            yield f"{HEADER} has {what} {name} as {stands[name]}, and {CRATE} as {wanted[name]}"


def drifts() -> Iterator[str]:
    """Says where the header does not fit the crate, and its version not the repository's."""
    yield from without_mark()
    yield from differ("the call", declared(), exports())
    yield from differ("the code", listed("aia_code"), codes())
    yield from differ("the answer of", said(), answers())
    yield from differ("the instruction", listed("aia_op"), instructions())
    yield from differ("the CSR", listed("aia_csr_address"), addresses())
    yield from differ("the kind", listed("aia_part_kind"), kinds("part_numbers", "PART_"))
    yield from differ("the kind", listed("aia_entry_kind"), kinds("entry_numbers", "ENTRY_"))
    yield from differ("the constant", defined(), constants())
    major, minor, patch = (TOP / "VERSION").read_text(encoding="utf-8").strip().split(".")
    number = 10000 * int(major) + 100 * int(minor) + int(patch)
    if defined().get("VERSION") != number:
        yield f"{HEADER} says the version {defined().get('VERSION')}, and VERSION is {number}"
