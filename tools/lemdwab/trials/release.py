"""Tries ./release, where it refuses, and what suite/release sees of a release that is wrong."""

from __future__ import annotations

import gzip
import io
import shutil
import tarfile
from collections.abc import Iterator
from typing import TYPE_CHECKING

from lemdwab import installed, released
from lemdwab.running import TOP

if TYPE_CHECKING:
    from lemdwab.commands.tools import Trial

# What ./release needs before it begins to build.
FILES = ("release", "VERSION", "suite/launcher.sh", "aia", "examples/claim.script",
         "examples/claim.out", "examples/hypervisors/core-leave.plan")
VERSION = (TOP / "VERSION").read_text(encoding="ascii").strip()
# Words that are refused, and what is said of them.
WRONG = (
    ((), "VERSION and FOLDER are wanted, and 0 words given"),
    ((VERSION,), "VERSION and FOLDER are wanted, and 1 words given"),
    (("--dirty", VERSION), "VERSION and FOLDER are wanted, and 1 words given"),
    ((VERSION, "a", "b"), "VERSION and FOLDER are wanted, and 3 words given"),
    (("--drity", VERSION, "a"), "there is no option '--drity'"),
    ((VERSION, "-x"), "FOLDER is a folder, and not '-x'"),
    (("0.9.9", "a"), f"this is version {VERSION}, and not '0.9.9'"),
)
HEADER = "int32_t aia_open(struct aia **handle);\nvoid aia_close(struct aia **handle);\n"
CALLS = "int aia_open(void) { return 0; }\nvoid aia_close(void) { }\n"
SETTLED = ("git", "-c", "user.name=none", "-c", "user.email=none", "commit", "-q", "-m", "all")


def release_refuses(trial: Trial) -> None:
    """Help, wrong words, and a tree that is not that of a commit."""
    for word in ("-h", "--help"):
        ran = trial.run(TOP / "release", word)
        trial.sees(ran.status == 0 and ran.output.startswith(b"release: ") and not ran.errors,
                   f"release {word} ends with {ran.status}")
    for words, said in WRONG:
        ran = trial.run(TOP / "release", *words)
        trial.sees(ran.status == 2 and not ran.output and said in ran.errors,
                   f"release {words} ends with {ran.status}: {ran.errors}")
    tree = trial.folder / "released"
    for file in FILES:
        (tree / file).parent.mkdir(parents=True, exist_ok=True)
        shutil.copy(TOP / file, tree / file)
    wrong = ("env", "PROGRAM=/bin/true", "PLANS=/bin/true", "LIBRARY=/nosuch", tree / "release")
    into = tree / "made"
    ran = trial.run(*wrong, VERSION, into)
    trial.sees(ran.status == 2 and "is no repository of git" in ran.errors,
               f"release of no repository ends with {ran.status}: {ran.errors}")
    trial.run("git", "init", "-q", tree)
    trial.run("git", "-C", tree, "add", ".")
    trial.run("env", "-C", tree, *SETTLED)
    ran = trial.run(*wrong, VERSION, into)
    trial.sees(ran.status == 1 and "does not answer as the model does" in ran.errors,
               f"release of another program ends with {ran.status}: {ran.errors}")
    (tree / "aia").write_text("changed\n", encoding="ascii")
    ran = trial.run(*wrong, VERSION, into)
    trial.sees(ran.status == 2 and "the tree has changes that no commit has" in ran.errors,
               f"release of a changed tree ends with {ran.status}: {ran.errors}")
    ran = trial.run(*wrong, "--dirty", VERSION, into)
    trial.sees(ran.status == 1 and not into.exists(),
               f"release --dirty ends with {ran.status}: {ran.errors}")


def sees_only(trial: Trial, faults: Iterator[str], *wanted: str) -> None:
    """Sees that what is found is just this, in this order."""
    found = list(faults)
    trial.sees(len(found) == len(wanted) and all(map(lambda a, b: b in a, found, wanted)),
               f"of a release that is wrong {found} is said, and not {wanted}")


def release_bytes(trial: Trial) -> None:
    """Releases of which a byte, a file or a sum is wrong, and archives with an owner or a mode."""
    one, other = trial.folder / "one-release", trial.folder / "other-release"
    for folder in (one, other):
        folder.mkdir()
        (folder / "a").write_text("same\n", encoding="ascii")
    sees_only(trial, released.differing(one, other))
    (other / "a").write_text("else\n", encoding="ascii")
    (other / "b").write_text("\n", encoding="ascii")
    sees_only(trial, released.differing(one, other), "b is in one of two", "a differs between")
    sums = trial.run("env", "-C", one, "sha256sum", "a").output
    for folder in (one, other):
        (folder / "SHA256SUMS").write_bytes(sums)
    sees_only(trial, released.sums(trial.run, one))
    sees_only(trial, released.sums(trial.run, other), "SHA256SUMS: the command ended",
              "disagree on b")
    path = trial.folder / "wrong.tar.gz"
    with tarfile.open(path, "w:gz") as packed:
        for name, mode, mtime, owner in (("b", 0o644, 7, 0), ("a", 0o600, 7, 0),
                                         ("c", 0o755, 8, 0), ("d", 0o755, 7, 3)):
            member = tarfile.TarInfo(name)
            member.mode, member.mtime, member.uid = mode, mtime, owner
            packed.addfile(member, io.BytesIO())
    sees_only(trial, released.members(path, 7), "in no order", "mode 600 of a", "a day of c",
              "a day of d")


def release_files(trial: Trial) -> None:
    """A library with a name too much, one too few, or another SONAME, and pages that are not there
    or set with a warning."""
    tree = trial.folder / "release-tree"
    for name in ("include", "lib", "bin", "share/man/man1", "share/man/man3"):
        (tree / name).mkdir(parents=True)
    (tree / "include/aia.h").write_text(HEADER, encoding="ascii")
    (tree / "bin/aia").touch()
    for name, text in (("man1/aia.1", ".TH A 1\n.SH NAME\na\n"), ("man3/libaia.3", ".XX\n"),
                       ("man3/aia_open.3", ".TH A 3\n.SH NAME\nAIA_NO_MEMORY\n")):
        (tree / f"share/man/{name}.gz").write_bytes(gzip.compress(text.encode()))
    sees_only(trial, released.manuals(trial.run, tree), "libaia.3.gz: ", "no man3/aia_close.3.gz")
    if not shutil.which("cc"):
        return
    script = trial.file("exported", "AIA_1 { global: aia_*; local: *; };\n")
    cases: list[tuple[str, str, list[str]]] = [
        (CALLS, "libaia.so.1", []), (CALLS, "libaia.so", ["is called otherwise"]),
        (CALLS + "int aia_more(void) { return 0; }\n", "libaia.so.1", ["disagree on aia_more"]),
        (CALLS.splitlines()[0], "libaia.so.1", ["disagree on aia_close"])]
    for text, name, wanted in cases:
        source = trial.file("library.c", text)
        trial.run("cc", "-shared", "-fPIC", f"-Wl,-soname,{name}", f"-Wl,--version-script={script}",
                  source, "-o", tree / "lib/libaia.so.1")
        (tree / "lib/libaia.so").unlink(missing_ok=True)
        (tree / "lib/libaia.so").symlink_to("libaia.so.1")
        sees_only(trial, released.library(trial.run, tree), *wanted)
    trial.sees(installed.plain_names("aa (>= 1), b0 | c-c:any, d++") == ["aa", "b0", "c-c", "d++"],
               "the names of packages in a field")


PARTS = (release_refuses, release_bytes, release_files)
