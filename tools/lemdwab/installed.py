"""A clean root folder into which a package is installed, to be looked at and removed: one made of
the files of this machine's own Debian packages, with no toolchain in it."""

from __future__ import annotations

import os
import re
import shutil
from collections.abc import Callable
from pathlib import Path

from lemdwab.running import Ran

# What is put into the root, with all on which these depend. The first are what every Debian has.
BASE = ("bash", "dash", "coreutils", "findutils", "grep", "sed", "mawk", "diffutils", "libc-bin")
PYTHON = "python3"
# Of these folders nothing is needed to run something.
LEFT_OUT = ("/usr/share/doc", "/usr/share/man", "/usr/share/locale", "/usr/share/info")
MERGED = ("bin", "sbin", "lib", "lib32", "lib64")
# Where dpkg and Python write what is their own.
OF_OTHERS = ("var/lib/dpkg/", "var/log/", "tmp/", "dev/", "usr/lib/python3")
LISTS = Path("/var/lib/dpkg/info")


class Missing(Exception):
    """Why no root can be made here."""


class Root:
    """A root folder, made in a folder, in which commands are run as in a machine of its own."""

    def __init__(self, run: Callable[..., Ran], folder: Path) -> None:
        self.run, self.folder = run, folder
        for command in ("dpkg", "dpkg-query", "tar", "chroot"):
            if not shutil.which(command):
                raise Missing(f"there is no {command}")
        self.before = [] if os.geteuid() == 0 else ["unshare", "--map-root-user"]
        if self.before and run(*self.before, "true").fault():
            raise Missing("it is for root, or for a machine where unshare --map-root-user works")
        self.has_python = bool(packages(run, [PYTHON]))
        self.fill()

    def fill(self) -> None:
        """Makes the root of the packages' files, and tells dpkg there that they are installed."""
        names = packages(self.run, [*BASE, PYTHON])
        for name in ("tmp", "dev", "usr/bin", "var/lib/dpkg/info", "var/lib/dpkg/updates",
                     "var/lib/dpkg/triggers", "var/log"):
            (self.folder / name).mkdir(parents=True)
        for name in MERGED:
            if Path("/", name).is_symlink():
                to = os.readlink(f"/{name}")
                (self.folder / to).mkdir(parents=True, exist_ok=True)
                (self.folder / name).symlink_to(to)
        listed = self.done("dpkg-query", "-L", *names).decode().splitlines()
        wanted = [name for name in dict.fromkeys(listed) if is_wanted(name)]
        files = self.folder / "tmp/files"
        files.write_text("".join(f".{name}\n" for name in wanted), encoding="utf-8")
        self.done(*self.before, "bash", "-c",
                  "set -o pipefail; tar -C / --no-recursion -cf - -T \"$1\""
                  " | tar -C \"$2\" --no-same-owner -xf -", "-", files, self.folder)
        files.unlink()
        status = self.done("dpkg-query", "-s", *names)
        (self.folder / "var/lib/dpkg/status").write_bytes(status + b"\n")
        for name in names:
            for path in [*LISTS.glob(f"{name}.list"), *LISTS.glob(f"{name}:*.list")]:
                shutil.copy(path, self.folder / "var/lib/dpkg/info")
        self.link("usr/bin/awk", "mawk")
        if self.run("mknod", "-m", "666", self.folder / "dev/null", "c", "1", "3").fault():
            (self.folder / "dev/null").touch()

    def link(self, name: str, to: str | Path) -> None:
        """Puts a link into the root where there is nothing."""
        if not (self.folder / name).exists():
            (self.folder / name).symlink_to(to)

    def done(self, *command: str | Path) -> bytes:
        """Gives what a command prints that has to do what it says."""
        ran = self.run(*command)
        if ran.fault():
            raise Missing(f"{command[0]} could not do it: {ran.fault()}")
        return ran.output

    def dpkg(self, *words: str | Path) -> Ran:
        """Runs dpkg on the root."""
        return self.run(*self.before, "env", "LC_ALL=C", "dpkg", f"--root={self.folder}", *words)

    def call(self, *command: str | Path, text: bytes = b"", seconds: int = 100) -> Ran:
        """Runs a command in the root, where no other variable than these is set."""
        return self.run(*self.before, "chroot", self.folder, "/usr/bin/env", "-i", "LC_ALL=C.UTF-8",
                        "PATH=/usr/bin:/bin", *command, text=text, seconds=seconds)

    def paths(self) -> set[str]:
        """Lists what is in the root, but for what dpkg and Python keep for themselves."""
        found = set()
        for folder, folders, files in os.walk(self.folder):
            found |= {os.path.relpath(os.path.join(folder, name), self.folder)
                      for name in [*folders, *files]}
        return {path for path in found if not path.startswith(OF_OTHERS)}


def is_wanted(path: str) -> bool:
    """Says whether a file of a package goes into the root: it is there, may be read, and is of
    use."""
    return (path.startswith("/") and path != "/." and path[1:] not in MERGED
            and not path.startswith(LEFT_OUT)
            and (os.path.islink(path) or os.access(path, os.R_OK)))


def packages(run: Callable[..., Ran], names: list[str]) -> list[str]:
    """Lists packages that are installed here, with all on which they depend; without those that are
    not installed."""
    said = run("dpkg-query", "-W", "-f",
               "${Package}\\t${db:Status-Status}\\t${Pre-Depends}, ${Depends}\\t${Provides}\\n")
    needs: dict[str, str] = {}
    gives: dict[str, str] = {}
    for line in said.output.decode().splitlines():
        name, state, depends, provides = line.split("\t")
        if state == "installed":
            needs[name] = depends
            gives |= {each: name for each in plain_names(provides)}
    found: list[str] = []
    left = list(names)
    while left:
        name = left.pop()
        name = name if name in needs else gives.get(name, "")
        if name and name not in found:
            found.append(name)
            left += plain_names(needs[name])
    return sorted(found)


def plain_names(text: str) -> list[str]:
    """Lists the packages that a field names, without versions and architectures."""
    return re.findall(r"(?:^|[,|])\s*([a-z0-9][a-z0-9+.-]+)", text)
