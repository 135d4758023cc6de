"""Compares a program with the model, over the random scripts of some seeds.

    compare.py PROGRAM FIRST_SEED LAST_SEED [--without-images] [--mood MOOD] [--lines N]
               [--plant NAME] [--until-told] [--keep FOLDER] [--processes N]

For each seed the script of it, of 300 to 400 lines or of N, is given to `PROGRAM replay` and to
the model, and the answers are compared byte for byte. Of each script that differs the first
difference is printed; at the end, how many scripts and answers there were, and of each form of line
how many were accepted, refused (with which word), and differed. With `--plant` the model is changed
by one rule (plants.py); `--until-told` ends with the first difference. Ends with status 1 where an
answer differs, and 2 where the words are wrong or PROGRAM can't be run.
"""

from __future__ import annotations

import argparse
import random
from collections import Counter
from collections.abc import Iterator
from multiprocessing import Pool
from pathlib import Path
from typing import Any

from lemdwab import answers, running
from lemdwab.apart import model, plants, reading, words
from lemdwab.apart.random_scripts import MOODS, random_script

TIME_LIMIT = 20
OUTPUT_LIMIT = 16 << 20


def script_of(seed: int, options: argparse.Namespace) -> bytes:
    """The script of a seed."""
    count = options.lines or random.Random(f"length {seed}").randint(300, 400)
    return random_script(seed, count, options.without_images, options.mood)


def run(program: str, script: bytes) -> tuple[bytes, str | None]:
    """What the program prints for a script, within the limits, and how it ended."""
    ran = running.run([program, "replay"], script, TIME_LIMIT, OUTPUT_LIMIT)
    return ran.output, ran.fault() or None


def check_program(program: str) -> None:
    """Ends with status 2 where a program can't be started."""
    ran = running.run([program, "replay"], b"", TIME_LIMIT, OUTPUT_LIMIT)
    running.check_started(ran, [program])


def answered(script: bytes) -> Iterator[tuple[int, bytes, str]]:
    """The lines of a script that have an answer, with their forms."""
    for place, text in enumerate(reading.texts(script), 1):
        line = reading.read(text)
        if line is not None:
            yield place, text, line[0]


def first_difference(seed: int, script: bytes, wanted: bytes, found: bytes, ended: str | None
                     ) -> tuple[str, str]:
    """The form of the first line whose answers differ, and what to say of it."""
    difference, lines = (answers.first_difference(script, wanted, found, answers.Known()),
                         answers.lines(script))
    at = difference[0] if difference else len(lines)
    if at >= len(lines):
        return "end", (f"seed {seed}: the end differs ({ended}, {len(wanted)} and {len(found)}"
                       " bytes)")
    ours, theirs = answers.answers(wanted), [*answers.answers(found), *["(no answer)"] * len(lines)]
    form = [form for _, _, form in answered(script)][at]
    return form, answers.printable(
        f"seed {seed} line {lines[at].number}: {lines[at].text}: wanted {ours[at]}, got"
        f" {theirs[at]}" + (f" ({ended})" if ended else ""))


def compare(work: tuple[int, argparse.Namespace]
            ) -> tuple[int, Counter[Any], tuple[str, str] | None]:
    """One seed: its counts and, where there is one, its difference."""
    seed, options = work
    script = script_of(seed, options)
    wanted = model.answers(script)
    found, ended = run(options.program, script)
    counts: Counter[tuple[str, str]] = Counter()
    for (_, text, form), answer in zip(answered(script), wanted.decode().split("\n")):
        counts[form, answer if answers.is_refused(answers.shown(text), answer) else ""] += 1
    if wanted == found and not ended:
        return seed, counts, None
    if options.keep:
        options.keep.mkdir(parents=True, exist_ok=True)
        (options.keep / f"{seed}.script").write_bytes(script)
    return seed, counts, first_difference(seed, script, wanted, found, ended)


def show(counts: Counter[tuple[str, str]], differing: Counter[Any]) -> None:
    """The table by forms of line."""
    forms = sorted({form for form, _ in counts})
    for form in forms:
        words = {word: count for (other, word), count in counts.items() if other == form}
        refused = " ".join(f"{word} {count}" for word, count in sorted(words.items()) if word)
        accepted = words.pop("", 0)
        print(f"{form:13} accepted {accepted:8} refused {sum(words.values()):8}"
              f" differ {differing[form]:5}  {refused}")


def options_given() -> argparse.Namespace:
    """The options of the command line."""
    given = words.parser(__doc__)
    given.add_argument("program")
    given.add_argument("first", type=int)
    given.add_argument("last", type=int)
    given.add_argument("--without-images", action="store_true")
    given.add_argument("--mood", choices=MOODS)
    given.add_argument("--lines", type=int)
    given.add_argument("--plant", choices=plants.PLANTS, metavar="PLANT")
    given.add_argument("--until-told", action="store_true")
    given.add_argument("--keep", type=Path)
    given.add_argument("--processes", type=int, default=2, choices=range(1, 65), metavar="N")
    return given.parse_args()


def main() -> int:
    options = options_given()
    check_program(options.program)
    if options.plant:
        plants.plant(options.plant)
    counts: Counter[tuple[str, str]] = Counter()
    differing: Counter[str] = Counter()
    scripts = told = 0
    work = ((seed, options) for seed in range(options.first, options.last + 1))
    with Pool(options.processes) as pool:
        for seed, found, difference in pool.imap_unordered(compare, work, chunksize=8):
            scripts += 1
            counts += found
            if difference:
                told += 1
                differing[difference[0]] += 1
                print(difference[1], flush=True)
                if options.until_told:
                    break
        pool.terminate()
    print(f"scripts {scripts}, answers {sum(counts.values())}, scripts that differ {told}")
    if not options.until_told:
        show(counts, differing)
    return 1 if told else 0
