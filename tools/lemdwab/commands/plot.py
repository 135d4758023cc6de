"""plot [SVG]: what a line costs, and where it goes: the instructions of the program that ./aia
builds, counted by valgrind over the first 60,000 lines of scripts of bench/run. Draws them to SVG
(instructions.svg, beside it), and prints them as a table. It is no gate. Ends with status 2 where
the words are wrong, or the program or valgrind can't be run."""

from __future__ import annotations

import os
import re
import subprocess
import sys
import tempfile
from pathlib import Path

from lemdwab.documents.svg import GUEST, HAND, INK, MEMORY, OTHER, TOLD, Picture
from lemdwab.running import TOP

HERE = TOP / "bench"
PROGRAM = TOP / "crates/aia/out/aia"
LINES = 60_000
SECONDS = 600
SCRIPTS = (
    "files-63 sources-1023 direct-1023 direct-random-1023 msi-1023 stores-host stores-device"
    " flights-1 guests generated steps-63-1"
).split()
# The parts of a line's cost, each with the functions that are counted to it: the first that fits.
PARTS = (
    ("the search for LF", MEMORY, r"pieces::line_end"),
    ("the answer is printed", HAND, r"buffered::|aia_script::pieces"),
    ("a text is read, and its line handed on", GUEST, r"program::run|replayer::|aia_script::"),
    ("the machine and the core", OTHER, r"machine::|aia_(hyp|fabric|file|imsic|mrif|move|vcpu)"),
    ("the APLIC", TOLD, r"aia_(aplic|domain|direct|candidates|source|msiaddr)"),
)
REST = ("all else", "#9aa5b1")
LEFT, WIDTH, ROW, TOP_EDGE = 150, 620, 26, 96


def scripts_in(folder: str) -> None:
    """Makes the scripts, each cut to its first lines."""
    subprocess.run([HERE / "scripts", folder, *SCRIPTS], check=True, timeout=SECONDS)
    for name in SCRIPTS:
        script = Path(folder) / name
        with script.open("rb") as whole:
            front = [line for line, _ in zip(whole, range(LINES))]
        script.write_bytes(b"".join(front))


def counted(script: Path, folder: str) -> dict[str, int]:
    """Gives how many instructions each function makes over a script."""
    kept = Path(folder) / "counts"
    with script.open("rb") as given, open(os.devnull, "wb") as nowhere:
        subprocess.run(
            ["valgrind", "--tool=callgrind", f"--callgrind-out-file={kept}", PROGRAM, "replay"],
            stdin=given, stdout=nowhere, stderr=nowhere, check=True, timeout=SECONDS,
        )  # fmt: skip
    return own_counts(kept.read_text())


def own_counts(text: str) -> dict[str, int]:
    """Reads what callgrind wrote: the instructions of each function without those that it calls."""
    names: dict[str, str] = {}
    counts: dict[str, int] = {}
    name, called = "", False
    for line in text.splitlines():
        function = re.match(r"(fn|cfni?)=\((\d+)\)(?: (.*))?", line)
        if function and function[1] == "fn":
            name = names.setdefault(function[2], function[3])
        elif function:
            names.setdefault(function[2], function[3])
        elif line.startswith("calls="):
            called = True
        elif re.match(r"[+\-*\d]", line):
            if not called:
                counts[name] = counts.get(name, 0) + int(line.split()[1])
            called = False
    return counts


def parts_of(counts: dict[str, int], lines: int) -> list[float]:
    """Gives the instructions a line of each part, and of all else."""
    sums = [0] * (len(PARTS) + 1)
    for name, count in counts.items():
        fits = (k for k, part in enumerate(PARTS) if re.search(part[2], name or ""))
        sums[next(fits, len(PARTS))] += count
    return [count / lines for count in sums]


def drawn(rows: list[tuple[str, list[float]]]) -> str:
    """Draws a bar for each script."""
    most = max(sum(parts) for _, parts in rows)
    height = TOP_EDGE + ROW * len(rows) + 24
    picture = Picture(LEFT + WIDTH + 80, height, "Instructions a line, and where they go")
    picture.text(16, 24, "Instructions a line, and where they go", 16, bold=True)
    x: float
    x, y = 16, 44
    for words, color in [part[:2] for part in PARTS] + [REST]:
        if x + 24 + 6.6 * len(words) > LEFT + WIDTH + 80:
            x, y = 16, y + 20
        picture.box(x, y, 12, 12, color, None, 2)
        picture.text(x + 18, y + 11, words, 12)
        x += 36 + 6.6 * len(words)
    colors = [part[1] for part in PARTS] + [REST[1]]
    for k, (name, parts) in enumerate(rows):
        x, y = LEFT, TOP_EDGE + ROW * k
        picture.text(LEFT - 8, y + 15, name, 12, INK, "end", mono=True)
        for count, color in zip(parts, colors):
            width = count / most * WIDTH
            picture.box(x, y + 2, width, ROW - 8, color, None, 0)
            x += width
        picture.text(x + 6, y + 15, f"{sum(parts):.0f}", 12)
    return picture.done()


def main() -> None:
    if sys.argv[1:2] in (["-h"], ["--help"]):
        print(__doc__)
        return
    if len(sys.argv) > 2 or "".join(sys.argv[1:]).startswith("-"):
        print(__doc__, file=sys.stderr)
        sys.exit(2)
    try:
        plot()
    except (OSError, subprocess.SubprocessError) as wrong:
        print(f"plot: {wrong}", file=sys.stderr)
        sys.exit(2)


def plot() -> None:
    """Counts, draws and prints."""
    target = Path(sys.argv[1]) if len(sys.argv) > 1 else HERE / "instructions.svg"
    subprocess.run([TOP / "aia", "replay"], stdin=subprocess.DEVNULL, check=True)
    with tempfile.TemporaryDirectory() as folder:
        scripts_in(folder)
        rows = [(name, parts_of(counted(Path(folder) / name, folder), LINES)) for name in SCRIPTS]
    target.write_text(drawn(rows))
    titles = [part[0] for part in PARTS] + [REST[0]]
    print("| Script | All | " + " | ".join(titles) + " |")
    print("|---|---|" + "---|" * len(titles))
    for name, parts in rows:
        cells = [name, f"{sum(parts):.0f}", *(f"{count:.0f}" for count in parts)]
        print(f"| {' | '.join(cells)} |")
