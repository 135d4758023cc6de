"""How many of some seeds' scripts tell each planted error from the model itself.

    plants_told.py FIRST_SEED LAST_SEED [--without-images] [PLANT ..]

Scripts and the model's own answers are made once; each error is planted in a process of its own.
Ends with status 2 where the words are wrong.
"""

from __future__ import annotations

from multiprocessing import Process, Queue
from typing import Any

from lemdwab.apart import compare, model, plants, words


def told_by(script: bytes, wanted: bytes) -> bool:
    """Whether the changed model answers otherwise, or not at all."""
    try:
        return model.answers(script) != wanted
    except Exception:
        return True


def try_plant(name: str, scripts: dict[int, bytes], answers: dict[int, bytes],
              results: Any) -> None:
    """Plants an error and counts the scripts that tell it."""
    plants.plant(name)
    told, first = 0, None
    for seed, script in scripts.items():
        if told_by(script, answers[seed]):
            told, first = told + 1, first if first is not None else seed
    results.put((name, told, first))


def main() -> None:
    given = words.parser(__doc__)
    given.add_argument("first", type=int)
    given.add_argument("last", type=int)
    given.add_argument("--without-images", action="store_true")
    given.add_argument("plants", nargs="*")
    options = given.parse_args()
    for name in options.plants:
        plants.check(name)
    options.mood = options.lines = None
    scripts = {seed: compare.script_of(seed, options)
               for seed in range(options.first, options.last + 1)}
    answers = {seed: model.answers(script) for seed, script in scripts.items()}
    names = options.plants or list(plants.PLANTS)
    results: Queue[tuple[str, int, int | None]] = Queue()
    for start in range(0, len(names), 2):
        pair = [Process(target=try_plant, args=(name, scripts, answers, results))
                for name in names[start:start + 2]]
        for one in pair:
            one.start()
        for one in pair:
            one.join()
            name, told, first = results.get()
            print(f"{told:6} {name} (first: seed {first})", flush=True)
