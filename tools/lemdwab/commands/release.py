"""release: tries what ./release makes.

    release [FOLDER]

Makes a release of this repository's newest commit twice, in two places, and compares the bytes. Of
the archive, unpacked, it sees the sums, the owners, the names that the library has for others, the
manual pages, examples/library.c built by what pkg-config says, and the file PROVED. It installs the
package into a clean root folder, which is made of the files of this machine's own Debian packages
and has no toolchain, runs the programs and the suite's tools in it, and removes it: nothing is left
behind then. With FOLDER it keeps the release there.

The programs are those of the variables PROGRAM and PLANS, and the library is in the folder of the
variable LIBRARY, which ./library made; else they are those of this repository, which are built
where they have to be. Prints a line for each thing, and what is wrong with it, and takes some two
minutes. Ends with status 0 where all is right, 1 where something is not, and 2 where it could not
look: words are wrong, or no release can be made. Needs git and what ./release needs, pkg-config,
groff and, to install the package, root or `unshare --map-root-user`, else it says that this was not
tried. Needs Python 3.10 or later.
"""

from __future__ import annotations

import os
import shutil
import sys
import tempfile
from collections.abc import Iterable, Iterator
from pathlib import Path
from typing import TYPE_CHECKING

from lemdwab import installed, released, running
from lemdwab.running import TOP

if TYPE_CHECKING:
    from lemdwab.running import Workers

# How long a release may take to be made, in seconds, and how much a command may print, in bytes.
MAKING, MOST = 900, 1 << 24
SHARED = "/usr/share/lemdwab"
EXAMPLES = f"{SHARED}/examples"
MODEL = f"{SHARED}/peers/apart/model.py"
# What is run where the package is installed: the words, the file on standard input, the status, and
# a text that is printed. The first need no Python.
PLAIN_RUNS = (
    (("aia", "replay"), "examples/claim.script", 0, "0x0000000000050005"),
    (("aia", "audit", "leave", "1"), "examples/plans/leave.plan", 0, "accepted"),
    (("aia", "gen", "1000", "7"), None, 0, "notices 92"),
    (("aia", "replai"), None, 2, ""),
    (("plans", "judge"), "examples/hypervisors/kvm-shift-devices.plan", 1, "refused freeing"),
    ((f"{EXAMPLES}/plans/check",), None, 0, ""),
    ((f"{EXAMPLES}/hypervisors/check",), None, 0, ""),
    (("sh", "-c", "command -v rt"), None, 127, ""),
)
PYTHON_RUNS = (
    ((MODEL,), "examples/claim.script", 0, "0x0000000000050005"),
    ((f"{SHARED}/suite/check",), None, 0, "scripts same, 0 differ"),
    ((f"{SHARED}/suite/compare", "-k", "claim", "--", MODEL), None, 0, "scripts same, 0 differ"),
    ((f"{SHARED}/suite/hunt", "--scripts", "5", MODEL), None, 0, ""),
    ((f"{SHARED}/suite/hunt", "--find", f"{SHARED}/peers/apart/plants.py",
      "a_threshold_lets_itself_through"), None, 1, ""),
    ((f"{SHARED}/suite/lint", f"{EXAMPLES}/claim.script"), None, 0, "a script"),
    ((f"{SHARED}/suite/lint", "try", "300", "1"), None, 0, ""),
    ((f"{EXAMPLES}/check",), None, 0, "claim.script: same"),
    ((f"{EXAMPLES}/draw", f"{EXAMPLES}/step-by-step.script"), None, 0, "TakePending 0"),
    (("python3", f"{EXAMPLES}/library.py", "/usr/lib/libaia.so.1", f"{EXAMPLES}/claim.script"),
     None, 0, "0x0000000000050005"),
)


class Looks:
    """What is looked at, and whether all of it was right."""

    def __init__(self, workers: Workers) -> None:
        self.workers, self.is_right = workers, True

    def run(self, *command: str | Path, text: bytes = b"", seconds: int = 100) -> running.Ran:
        """Runs a command; gives how it ended."""
        words = [str(word) for word in command]
        return self.workers.submit(running.run, words, text, seconds, MOST).result()

    def tell(self, what: str, faults: Iterable[str]) -> None:
        """Says whether something is right, and else each way in which it is not."""
        found = list(faults)
        print(f"{what}: {'WRONG' if found else 'right'}", flush=True)
        for line in found:
            print(f"  {line}", flush=True)
        self.is_right &= not found


def built(looks: Looks, folder: Path) -> list[str]:
    """Gives the variables that name what is released, which is built where it is not given."""
    program = running.model_command(looks.workers)[0]
    plans, library = os.environ.get("PLANS"), os.environ.get("LIBRARY")
    if not plans:
        text = running.contents(TOP / "examples/hypervisors/core-leave.plan")
        ran = looks.run(TOP / "plans", "judge", text=text, seconds=running.BUILDING)
        if ran.fault():
            running.fail(f"./plans can't be built: {ran.fault()}")
        plans = str(TOP / "crates/plans/out/plans")
    if not library:
        library = str(folder / "library")
        ran = looks.run(TOP / "library", library, seconds=running.BUILDING)
        if ran.fault():
            running.fail(f"./library can't be built: {ran.fault()}")
    return [f"PROGRAM={os.path.abspath(program)}", f"PLANS={os.path.abspath(plans)}",
            f"LIBRARY={os.path.abspath(library)}"]


def made(looks: Looks, version: str, clone: Path, setting: str, variables: list[str]) -> Path:
    """Makes a release in a clone, with other settings of the shell; gives its folder."""
    ran = looks.run("git", "clone", "-q", "--shared", TOP, clone)
    if ran.fault():
        running.fail(f"no clone can be made: {ran.fault()}")
    folder = clone.parent / f"{clone.name}-made"
    ran = looks.run("env", *variables, "bash", "-c", f"{setting}; exec \"$@\"", "-",
                    clone / "release", version, folder, seconds=MAKING)
    if ran.fault():
        running.fail(f"no release can be made: {ran.errors}")
    return folder


def look_at_archive(looks: Looks, folder: Path, version: str, work: Path) -> None:
    """Looks at the archive of a release, and at what is in it."""
    archive, = folder.glob("*.tar.gz")
    commit = looks.run("git", "-C", TOP, "rev-parse", "HEAD").output.decode().strip()
    seconds = int(looks.run("git", "-C", TOP, "log", "-1", "--format=%ct").output)
    looks.tell("the sums of the release", released.sums(looks.run, folder))
    looks.tell("owners, days and modes in the archive", released.members(archive, seconds))
    looks.run("tar", "-C", work, "-xzf", archive)
    tree = work / archive.name.removesuffix(".tar.gz")
    looks.tell("the sums in the archive", released.sums(looks.run, tree))
    looks.tell("the names of the library", released.library(looks.run, tree))
    looks.tell("the manual pages", released.manuals(looks.run, tree))
    looks.tell("examples/library.c by pkg-config", released.builds(looks.run, tree, work))
    looks.tell("PROVED", released.proved(tree, commit, 3))
    ran = looks.run(tree / "bin/aia", "--version")
    is_right = ran.output.decode() == f"aia {version}\n"
    looks.tell("bin/aia where it was unpacked", [] if is_right else [ran.errors])


def runs(root: installed.Root, version: str) -> Iterator[str]:
    """Runs what is installed, and gives each that ends or prints otherwise."""
    cases = [(("aia", "--version"), None, 0, f"aia {version}\n"),
             (("plans", "--version"), None, 0, f"plans {version}\n"), *PLAIN_RUNS,
             *(PYTHON_RUNS if root.has_python else ())]
    for words, file, status, wanted in cases:
        text = running.contents(TOP / file) if file else b""
        ran = root.call(*words, text=text, seconds=300)
        if ran.status != status or wanted not in ran.output.decode(errors="replace"):
            yield f"{' '.join(words)} ends with {ran.status}: {ran.output[-200:]!r} {ran.errors}"


def own_program(root: installed.Root, work: Path) -> Iterator[str]:
    """Runs examples/library.c, built against the archive, by the library that is installed."""
    if (work / "shared").exists():
        shutil.copy(work / "shared", root.folder / "tmp/shared")
        ran = root.call("/tmp/shared")
        if ran.output != released.claims():
            yield f"it prints {ran.output!r}: {ran.errors}"


def look_at_package(looks: Looks, folder: Path, version: str, work: Path) -> None:
    """Installs the package into a clean root, looks at it there, and removes it."""
    package, = folder.glob("*.deb")
    (work / "root").mkdir()
    try:
        root = installed.Root(looks.run, work / "root")
    except installed.Missing as why:
        print(f"the package, installed: not tried: {why}")
        return
    before = root.paths()
    ran = root.dpkg("-i", package)
    looks.tell("the package is installed in a root of this machine's packages",
               [ran.errors] if ran.fault() else [])
    if ran.fault():
        return
    ran = root.dpkg("-V", released.PACKAGE)
    looks.tell("its files, by dpkg -V", [ran.output.decode()] if ran.output or ran.status else [])
    looks.tell("what is run there" + ("" if root.has_python else ", without Python"),
               runs(root, version))
    looks.tell("a program of one's own there", own_program(root, work))
    ran = root.dpkg("-r", released.PACKAGE)
    left = sorted(root.paths() - before)
    looks.tell("nothing is left of it", [ran.errors] * bool(ran.fault()) + left[:10])
    lost = sorted(before - root.paths())
    looks.tell("nothing else is removed with it", lost[:10])


def main() -> int:
    _, rest, _ = running.words("")
    if len(rest) > 1:
        running.usage("one FOLDER is wanted at most")
    version = running.contents(TOP / "VERSION").decode().strip()
    with running.Workers(1) as workers, tempfile.TemporaryDirectory() as name:
        looks, work = Looks(workers), Path(name)
        variables = built(looks, work)
        if looks.run("git", "-C", TOP, "status", "--porcelain").output:
            print("release: what is tried is the newest commit, without the tree's changes",
                  file=sys.stderr)
        one = made(looks, version, work / "one", "umask 022", variables)
        other = made(looks, version, work / "another place, further away",
                     "umask 077; export TZ=Asia/Tokyo LC_ALL=C.UTF-8", variables)
        looks.tell("two releases of one commit", released.differing(one, other))
        look_at_archive(looks, one, version, work)
        look_at_package(looks, one, version, work)
        if rest:
            shutil.copytree(one, rest[0], dirs_exist_ok=True)
    return 0 if looks.is_right else 1
