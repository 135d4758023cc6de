"""What is seen of a release that ./release made: each function looks at one thing, and gives a line
for each way in which it is not as it should be. `run` runs a command, and gives how it ended."""

from __future__ import annotations

import re
import shutil
import tarfile
from collections.abc import Callable, Iterator
from pathlib import Path

from lemdwab.running import TOP, Ran, sure

PACKAGE = "lemdwab"
# The names that the library has for others: those of the header, each with the library's version.
DECLARED = re.compile(r"(?m)^\w[\w ]*[ *](aia_\w+)\(")
EXPORTED = "AIA_1"
SONAME = "libaia.so.1"
# What an installed program is run with, where no toolchain is on the path.
BARE_PATH = "/usr/bin:/bin"


def files_of(folder: Path) -> set[Path]:
    """Lists the files of a folder by their paths in it."""
    return {path.relative_to(folder) for path in folder.rglob("*") if path.is_file()}


def differing(one: Path, other: Path) -> Iterator[str]:
    """Compares the bytes of two releases."""
    for name in sorted(files_of(one) ^ files_of(other)):
        yield f"{name} is in one of two releases alone"
    for name in sorted(files_of(one) & files_of(other)):
        if (one / name).read_bytes() != (other / name).read_bytes():
            yield f"{name} differs between two releases of one commit"


def sums(run: Callable[..., Ran], folder: Path) -> Iterator[str]:
    """Sees that SHA256SUMS of a folder has each file that is there, with its sum."""
    ran = run("env", "-C", folder, "sha256sum", "--quiet", "--strict", "-c", "SHA256SUMS")
    if ran.fault():
        yield f"{folder.name}/SHA256SUMS: {ran.fault()}"
    said = (folder / "SHA256SUMS").read_text(encoding="utf-8")
    named = {Path(line.split("  ", 1)[1]) for line in said.splitlines()}
    there = {name for name in files_of(folder) if not (folder / name).is_symlink()}
    for name in sorted(there ^ named ^ {Path("SHA256SUMS")}):
        yield f"{folder.name}/SHA256SUMS and the folder disagree on {name}"


def members(archive: Path, seconds: int) -> Iterator[str]:
    """Sees that an archive has its files in order, of nobody's name, day or mode."""
    with tarfile.open(archive) as packed:
        found = packed.getmembers()
    names = [each.name for each in found]
    if names != sorted(names, key=lambda name: name.split("/")):
        yield f"{archive.name} has its files in no order"
    for each in found:
        if (each.uid, each.gid, each.uname, each.gname, each.mtime) != (0, 0, "", "", seconds):
            yield f"{archive.name} has an owner or a day of {each.name}"
        if not each.issym() and each.mode not in (0o755, 0o644):
            yield f"{archive.name} has mode {each.mode:o} of {each.name}"


def library(run: Callable[..., Ran], tree: Path) -> Iterator[str]:
    """Sees which names the shared library has for others, and what it is called itself."""
    shared = tree / "lib" / SONAME
    declared = set(DECLARED.findall((tree / "include/aia.h").read_text(encoding="utf-8")))
    said = run("nm", "-D", "--defined-only", shared).output.decode()
    exported = {line.split()[-1] for line in said.splitlines()} - {EXPORTED}
    for name in sorted(exported ^ {f"{name}@@{EXPORTED}" for name in declared}):
        yield f"{SONAME} and its header disagree on {name}"
    head = run("readelf", "-d", shared).output.decode()
    if f"Library soname: [{SONAME}]" not in head:
        yield f"{SONAME} is called otherwise"
    if (tree / "lib/libaia.so").resolve() != shared.resolve():
        yield f"libaia.so is no link to {SONAME}"


def manuals(run: Callable[..., Ran], tree: Path) -> Iterator[str]:
    """Sees that there is a page for each program and each call, and that each is set without a
    warning."""
    calls = DECLARED.findall((tree / "include/aia.h").read_text(encoding="utf-8"))
    wanted = [*(f"man1/{path.name}.1.gz" for path in sorted((tree / "bin").iterdir())),
              *(f"man3/{name}.3.gz" for name in ["libaia", *calls])]
    for name in wanted:
        page = tree / "share/man" / name
        if not page.is_file():
            yield f"there is no {name}"
        elif not page.is_symlink():
            ran = run("bash", "-c", "set -o pipefail; zcat \"$1\" | groff -man -ww -z -Tutf8", "-",
                      page)
            if ran.fault() or ran.errors:
                yield f"{name}: {ran.errors or ran.fault()}"
    if shutil.which("man"):
        ran = run("env", f"MANPATH={tree}/share/man", "man", "aia_open")
        if b"AIA_NO_MEMORY" not in ran.output:
            yield f"man aia_open finds no page of the calls: {ran.errors}"


def claims() -> bytes:
    """Gives what examples/library.c prints, as examples/check-library has it."""
    text = (TOP / "examples/check-library").read_text(encoding="utf-8")
    return sure(re.search(r"(?m)^claims='([^']*)'$", text)).group(1).encode() + b"\n"


def builds(run: Callable[..., Ran], tree: Path, folder: Path) -> Iterator[str]:
    """Builds examples/library.c as pkg-config says, with either library, and runs it."""
    source = tree / "share/lemdwab/examples/library.c"
    asked = f"PKG_CONFIG_LIBDIR={tree}/lib/pkgconfig"
    words = run("env", asked, "pkg-config", "--cflags", "--libs", "aia")
    version = run("env", asked, "pkg-config", "--modversion", "aia").output.decode().strip()
    if words.fault() or version != (tree / "share/lemdwab/VERSION").read_text().strip():
        yield f"pkg-config says of aia: version {version!r}, {words.fault()}"
    shared = words.output.decode().split()
    static = [word for word in shared if word != "-laia"] + [str(tree / "lib/libaia.a")]
    for name, libraries in (("shared", shared), ("static", static)):
        ran = run("cc", "-std=c11", "-Wall", "-Wextra", "-Werror", source, "-o", folder / name,
                  *libraries)
        if ran.fault():
            yield f"library.c, {name}, is not built: {ran.errors}"
            continue
        ran = run("env", f"LD_LIBRARY_PATH={tree}/lib", folder / name)
        if ran.fault() or ran.output != claims():
            yield f"library.c, {name}, prints {ran.output!r}: {ran.fault()}"


def proved(tree: Path, commit: str, given: int) -> Iterator[str]:
    """Sees that PROVED names the commit, says what was given, and what is trusted."""
    said = (tree / "share/doc/lemdwab/PROVED").read_text(encoding="utf-8")
    for wanted in (commit, "WHAT IS TRUSTED", "aia_laws", "liblibc_c.a"):
        if wanted not in said:
            yield f"PROVED says nothing of {wanted}"
    if given != said.count("given to the maker of the release"):
        yield "PROVED is wrong on what was given, and what was built"
    if "the tree had changes" in said:
        yield "PROVED says that the tree had changes"
