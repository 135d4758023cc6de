"""check: suite/compare over the suite and the examples, and whether their files are as the rows
make them.

    check [-k PATTERN] [COMMAND..]

Runs COMMAND, else that of the variable PROGRAM with the word `replay`, else ./aia replay of this
repository, over each script of crates/aia_script_tests/data/suite and of examples, the script on
its standard input, and compares what it prints with the file NAME.out beside NAME.script. Of a
script that differs it prints the first answer that does. With -k it takes only the scripts whose
NAME has PATTERN, a pattern of a shell's, within it, as -k genmsi; without, it also says where files
differ from what suite/make makes of suite/rows, and from what suite/majors-table and
suite/between-steps write, and which script has not one row, and one class, in suite/classes.txt. A
release has no rows, and there it does not.

Ends with status 1 where anything differs, and 2 where words are wrong or nothing could be run. A
script may take a minute. Needs Python 3.10 or later.
"""

from __future__ import annotations

import tempfile
from collections.abc import Iterator
from pathlib import Path

from lemdwab import answers, classes, comparing, running
from lemdwab.running import TOP

MAKERS = ("make", "majors-table", "between-steps")
# How long each of these may take, in seconds, and how many bytes it may print.
MAKING, SAID = 600, 1 << 20
DATA = "crates/aia_script_tests/data"
FOLDERS = ("examples", f"{DATA}/examples", f"{DATA}/suite")


def make(workers: running.Workers, folder: Path) -> None:
    """Makes all that is made of the rows and the two tables, in a folder."""
    for maker in MAKERS:
        ran = workers.submit(running.run, [str(TOP / "suite" / maker), str(folder)], b"", MAKING,
                             SAID).result()
        if ran.fault():
            running.fail(f"suite/{maker} could not make its files: {ran.fault()}")


def drifts(top: Path, folder: Path) -> Iterator[str]:
    """Says which files of a repository are not those that were made in a folder."""
    made = {path.relative_to(folder) for path in folder.rglob("*") if path.is_file()}
    for path in sorted(made):
        stands = top / path
        if not stands.exists() or stands.read_bytes() != (folder / path).read_bytes():
            yield f"{path} is not what the scripts of suite make"
    for name in FOLDERS:
        for path in sorted((top / name).iterdir()):
            if path.suffix in (".script", ".out") and path.relative_to(top) not in made:
                yield f"{path.relative_to(top)} is of no row"


def check() -> int:
    given, rest, _ = running.words("k:")
    if given.get("k") == "":
        running.usage("a PATTERN is wanted behind -k")
    options = comparing.Options(given.get("k", ""), known=answers.Known(), most=1)
    with running.Workers(1) as workers:
        command = rest or running.model_command(workers)
        is_same = comparing.over_suite(command, options, workers)
        found, unsorted = [], []
        if not options.pattern and (TOP / "suite/rows").is_dir():
            unsorted = list(classes.drifts())
            with tempfile.TemporaryDirectory() as folder:
                make(workers, Path(folder))
                found = list(drifts(TOP, Path(folder)))
    if not is_same:
        print(f"above, `model` is what the rows have, and `mine` what {command[0]} answers")
    for line in [*unsorted, *found]:
        print(line)
    if found:
        print(f"{len(found)} files drift from suite/rows")
    return 0 if is_same and not found and not unsorted else 1
