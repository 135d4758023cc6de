"""scripts: makes the scripts of the benches, the same ones each time.

    scripts FOLDER [NAME..]     makes all in a folder, or those named
    scripts --names             tells their names, in the order in which bench/run takes them

bench/README.md says what each is, and lemdwab.benches of tools/ what it has. All of them have
500 MB, and take two minutes. Ends with status 2 where the words are wrong, or a script can't be
written. Needs Python 3.10 or later.
"""

from collections.abc import Iterable
from itertools import islice
from pathlib import Path

from lemdwab import benches, running

# So many lines are written at a time.
AT_ONCE = 10_000


def write(path: Path, lines: Iterable[str]) -> None:
    """Writes a script."""
    left = iter(lines)
    with path.open("w", encoding="ascii") as file:
        while piece := list(islice(left, AT_ONCE)):
            file.write("\n".join(piece) + "\n")


def main() -> int:
    given, rest, _ = running.words("", "names")
    if "names" in given:
        print("\n".join(benches.NAMES))
        return 0
    if not rest:
        running.usage("a FOLDER is wanted")
    folder, names = Path(rest[0]), rest[1:] or benches.NAMES
    if not folder.is_dir():
        running.fail(f"there is no folder {folder}")
    for name in names:
        if name not in benches.NAMES:
            running.fail(f"there is no script {name}")
    for name in names:
        write(folder / name, benches.script(name))
    return 0
