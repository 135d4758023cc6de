"""Sees that the bindings of the library for Python and Rust have each call of include/aia.h, with
the same parameters, and the same numbers of codes, CSRs and kinds."""

from __future__ import annotations

import ast
import re
from collections.abc import Iterator, Mapping

from lemdwab.documents import header
from lemdwab.running import TOP

PYTHON, RUST = "bindings/python/aia.py", "bindings/rust/src/lib.rs"
# The letters by which the Python module says what a call takes, and what each is in C.
LETTERS = {"q": ["uint64_t"], "i": ["uint32_t"], "b": ["bool"], "t": ["const uint8_t *", "size_t"],
           "w": ["uint8_t *", "size_t", "size_t *"], "z": ["size_t *"], "Q": ["uint64_t *"],
           "I": ["uint32_t *"]}
# What it loads by hand.
BY_HAND: dict[str, list[str]] = {
    "close": [], "version": [], "code_name": ["int32_t", *LETTERS["w"]]}
IN_C = {"u64": "uint64_t", "u32": "uint32_t", "usize": "size_t", "i32": "int32_t", "bool": "bool",
        "u8": "uint8_t"}
# The enums of the header, and what they are called in both bindings, by what their names lack.
ENUMS = {"aia_code": ("Code", ""), "aia_csr_address": ("Csr", ""),
         "aia_part_kind": ("PartKind", "PART_"), "aia_entry_kind": ("EntryKind", "ENTRY_")}


def read(name: str) -> str:
    """Gives the text of a file of the repository."""
    return (TOP / name).read_text(encoding="utf-8")


def in_header() -> dict[str, list[str]]:
    """Gives the types of what each call takes after its handle, by the end of its name."""
    found = {}
    for name, words in header.declared().items():
        inner = re.sub(r".*\((.*)\)", r"\1", words).split(", ")
        types = [re.sub(r"\w+$", "", word).strip() for word in inner if word != "void"]
        found[name.removeprefix("aia_")] = [of for of in types if of != "struct aia **"]
    return found


# ---- Python

def assigned(name: str) -> ast.expr:
    """Gives what a name of the Python module is at first."""
    for node in ast.parse(read(PYTHON)).body:
        targets = node.targets if isinstance(node, ast.Assign) else []
        for target in targets:
            if isinstance(target, ast.Name) and target.id == name and isinstance(node, ast.Assign):
                return node.value
            if isinstance(target, ast.Tuple) and isinstance(node, ast.Assign):
                names = [part.id for part in target.elts if isinstance(part, ast.Name)]
                if name in names and isinstance(node.value, ast.Tuple):
                    return node.value.elts[names.index(name)]
    raise ValueError(f"{PYTHON} has no {name}")


def in_python() -> dict[str, list[str]]:
    """Gives the types of what each call of the Python module takes after its handle."""
    calls: dict[str, str] = ast.literal_eval(assigned("CALLS"))
    return {name: [of for letter in letters for of in LETTERS[letter]]
            for name, letters in calls.items()} | BY_HAND


def enum_of_python(name: str) -> dict[str, int]:
    """Gives the names and numbers of an enum of the Python module."""
    for node in ast.parse(read(PYTHON)).body:
        if isinstance(node, ast.ClassDef) and node.name == name:
            return {target.id: ast.literal_eval(inner.value) for inner in node.body
                    if isinstance(inner, ast.Assign)
                    for target in inner.targets if isinstance(target, ast.Name)}
    raise ValueError(f"{PYTHON} has no class {name}")


# ---- Rust

def type_of(word: str) -> str:
    """Gives what a type of Rust's is in C."""
    match = re.fullmatch(r"(\*mut |\*const )?(\w+)", word)
    if not match or match[2] not in IN_C:
        return word
    const = "const " if match[1] == "*const " else ""
    return const + IN_C[match[2]] + (" *" if match[1] else "")


def in_rust() -> dict[str, list[str]]:
    """Gives the types of what each call of the crate takes after its handle."""
    found = {}
    for name, words in re.findall(r"pub fn aia_(\w+)\(([^)]*)\)", read(RUST)):
        types = [word.split(": ")[1].strip() for word in words.split(",") if ": " in word]
        found[name] = [type_of(of) for of in types if of != "Handle"]
    return found


def enum_of_rust(name: str) -> dict[str, int]:
    """Gives the names and numbers of an enum of the crate, as the header writes them."""
    inner = re.search(rf"pub enum {name} \{{([^}}]*)\}}", read(RUST))
    return {header.upper(word): int(number, 0)
            for word, number in re.findall(r"(\w+) = (\w+)", inner[1] if inner else "")}


# ---- both

def differ(where: str, what: str, stands: Mapping[str, object], wanted: Mapping[str, object]
           ) -> Iterator[str]:
    """Says where a binding has something else than the header."""
    for name in sorted(set(stands) | set(wanted)):
        if stands.get(name) != wanted.get(name):
            yield (f"{where} has {what} {name} as {stands.get(name)}, and {header.HEADER} as"
                   f" {wanted.get(name)}")


def drifts() -> Iterator[str]:
    """Says where a binding does not fit the header."""
    yield from differ(PYTHON, "the call", in_python(), in_header())
    yield from differ(RUST, "the call", in_rust(), in_header())
    for enum, (name, lacks) in ENUMS.items():
        wanted = {word.removeprefix(lacks): of for word, of in header.listed(enum).items()}
        yield from differ(PYTHON, f"of {name}", enum_of_python(name), wanted)
        if not lacks:
            yield from differ(RUST, f"of {name}", enum_of_rust(name), wanted)
    for constant, number in header.defined().items():
        stands = ast.literal_eval(assigned(constant))
        if stands != number:
            yield f"{PYTHON} has {constant} as {stands}, and {header.HEADER} as {number}"
