"""linters: has the linters look at the files beside the crates, those that are installed.

    linters [NAME..]

    shellcheck  each script of a shell, by .shellcheckrc
    cc          each file of C that this machine can compile, with -Wall -Wextra -Werror
    ruff        Python, by tools/pyproject.toml; where it is not installed flake8, by tools/.flake8
    mypy        the package tools/lemdwab and bindings/python, strictly, by tools/pyproject.toml

Runs all of these, or those named, and says of one that is not installed that it is not. What a
linter finds is printed as it says it. C that is compiled for RISC-V is looked at where
riscv64-linux-gnu-gcc is installed; what is compiled as a part of a kernel never is. Takes half a
minute. Ends with status 1 where something is found, 2 where words are wrong. Needs Python 3.10 or
later, and git.
"""

import os
import shutil
from collections.abc import Iterator
from pathlib import Path

from lemdwab import running
from lemdwab.running import TOP

CONFIGURATION = str(TOP / "tools/pyproject.toml")
LONGEST, MOST = 300, 1 << 22
WARNINGS = ["-std=gnu11", "-Wall", "-Wextra", "-Werror", "-fsyntax-only"]
# What is compiled where: on this machine, or for RISC-V by a cross compiler. The rest of peers/ is
# compiled within the sources of Linux, or with its headers.
HERE = ("examples/*.c", "suite/library/*.c")
CROSS = "riscv64-linux-gnu-gcc"
THERE = ("peers/linux/guest/guest.c",)
FLAGS = ["-I", str(TOP / "include"), "-I", str(TOP / "suite/library")]
COMPILERS: tuple[tuple[str, tuple[str, ...], list[str]], ...] = (
    ("cc", HERE, FLAGS), (CROSS, THERE, []))
# Fronts have no ending, and are of Python too.
SHELLS, PYTHON = ("sh", "bash"), "python3"
RUFF = ["ruff", "check", "--no-cache", "--config", CONFIGURATION]
IN_ITS_PLACE = ["flake8", "--config", str(TOP / "tools/.flake8")]
CACHES = ["--cache-dir", "/dev/null"]


def tracked(workers: running.Workers, *patterns: str) -> list[Path]:
    """Lists the files of the repository that fit patterns."""
    words = ["git", "-C", str(TOP), "ls-files", "-co", "--exclude-standard", "--", *patterns]
    ran = workers.submit(running.run, words, b"", LONGEST, MOST).result()
    if ran.fault():
        running.fail(f"git lists no files: {ran.fault()}")
    return [path for name in ran.output.decode().splitlines() if (path := TOP / name).is_file()]


def first_line(path: Path) -> str:
    """Gives the first line of a file, of its first hundred bytes."""
    with path.open("rb") as file:
        return file.read(100).split(b"\n")[0].decode(errors="replace")


def language(path: Path) -> str:
    """Gives what runs a script: sh, bash or python3; nothing where it says none."""
    first = first_line(path)
    if not first.startswith("#!"):
        return "bash" if path.suffix == ".sh" else PYTHON if path.suffix == ".py" else ""
    return next((word for word in (*SHELLS, PYTHON) if word in first.replace("/", " ").split()), "")


def commands_of(name: str, files: list[Path]) -> Iterator[list[str]]:
    """Lists the commands by which a linter looks at files."""
    if name == "shellcheck":
        yield ["shellcheck", *(str(path) for path in files if language(path) in SHELLS)]
    if name == "cc":
        for compiler, patterns, flags in COMPILERS:
            for path in files:
                if any(path.relative_to(TOP).match(pattern) for pattern in patterns):
                    yield [compiler, *WARNINGS, *flags, str(path)]
    if name == "ruff":
        python = [str(path) for path in files
                  if language(path) == PYTHON and "crates" not in path.parts]
        is_there = shutil.which("ruff") or not shutil.which(IN_ITS_PLACE[0])
        yield [*(RUFF if is_there else IN_ITS_PLACE), *python]
    if name == "mypy":
        yield ["mypy", "--config-file", CONFIGURATION, *CACHES, str(TOP / "tools/lemdwab"),
               str(TOP / "bindings/python/aia.py")]


LINTERS = ("shellcheck", "cc", "ruff", "mypy")


def looks(workers: running.Workers, name: str, files: list[Path]) -> int:
    """Has a linter look, and prints what it finds; gives how many of its runs found something."""
    wrong = count = 0
    missing = set()
    for command in commands_of(name, files):
        if not shutil.which(command[0]):
            missing.add(command[0])
            continue
        ran = workers.submit(running.run, command, b"", LONGEST, MOST).result()
        count += 1
        if ran.fault():
            wrong += 1
            print(ran.output.decode(errors="replace") + ran.errors, flush=True)
    for command_name in sorted(missing):
        print(f"{name}: {command_name} is not installed, and did not look", flush=True)
    if count:
        print(f"{name}: {running.counted(count, 'run')}, {wrong} found something", flush=True)
    return wrong


def main() -> int:
    _, names, _ = running.words("")
    unknown = [name for name in names if name not in LINTERS]
    if unknown:
        running.usage(f"there is no linter {unknown[0]!r}: there are {', '.join(LINTERS)}")
    # flake8 takes its exceptions for folders from where it is run.
    os.chdir(TOP)
    with running.Workers(1) as workers:
        files = tracked(workers)
        wrong = sum(looks(workers, name, files) for name in names or LINTERS)
    return 1 if wrong else 0
