"""The verdict on a plan of a move, told a second time, by docs/PLANS.md; and a program held against
it over random plans: the core's own, changed a little.

    plans.py PROGRAM SEED COUNT

Ends with status 1 where a verdict differs, and 2 where the words are wrong or PROGRAM can't be run.
"""

from __future__ import annotations

import random
import subprocess
from collections.abc import Callable

from lemdwab.apart import words
from lemdwab.apart.reading import LINE_BYTES, number

MOST_STEPS = 512
WIDTHS = (1, 2, 4, 8, 16, 32)
RECORD_STEPS = {"leave": "unmap", "arrive": "map", "shift": "remap"}
PLAIN = ("quiet", "word1", "word0", "fence", "map", "unmap", "remap", "gfence", "taket", "putt",
         "post", "wake")
OF_A_WORD = ("takep", "putp", "takee", "pute", "look")
ODD_TEXTS = ("", "# a comment", "#" + "x" * 127, "#" + "x" * 128, "takep", "takep 0x0", "takep  0",
             "Fence", "fence ", "look 00", "word2", "look 0x20", "pute 18446744073709551616")


def step_of(text: str, words: int) -> tuple[str, int | None] | None:
    """The step that a text spells, with its word; None where it spells none."""
    parts = text.split(" ")
    if len(text) > LINE_BYTES:
        return None
    if len(parts) == 1 and text in PLAIN:
        return text, None
    if len(parts) == 2 and parts[0] in OF_A_WORD:
        word = number(parts[1].encode(), words)
        return None if word is None else (parts[0], word)
    return None


def keeps_routes(kind: str, steps: list[tuple[str, int | None]]) -> bool:
    """Part 1: each route is written once, and then put in force once; a leave says before where
    notices go, and no other move does."""
    places: dict[str, list[int]] = {}
    for place, (name, _) in enumerate(steps):
        places.setdefault(name, []).append(place)
    own = RECORD_STEPS[kind]
    once = ["word0", "fence", own, "gfence"] + ["word1"] * (kind == "leave")
    never = [name for name in ("map", "unmap", "remap", "word1") if name not in once]
    if any(len(places.get(name, ())) != 1 for name in once) or any(map(places.get, never)):
        return False
    order = [("word0", "fence"), (own, "gfence")] + [("word1", "word0")] * (kind == "leave")
    return all(places[first] < places[second] for first, second in order)


def takes_each(words: int, steps: list[tuple[str, int | None]]) -> bool:
    """Part 2: each pending word is taken once, after both fences."""
    begin = max(steps.index(("fence", None)), steps.index(("gfence", None)))
    taken = [word for name, word in steps[begin:] if name == "takep" and word is not None]
    return sorted(taken) == list(range(words)) and len(taken) == sum(
        name == "takep" for name, _ in steps)


def puts_at_once(take: str, put: str, steps: list[tuple[str, int | None]]) -> bool:
    """Each take of a word is followed at once by its put, and no other put stands."""
    after, before = steps[1:] + [None], [None] + steps[:-1]
    return all((step[0] != take or after[place] == (put, step[1]))
               and (step[0] != put or before[place] == (take, step[1]))
               for place, step in enumerate(steps))


def moves_enables(words: int, steps: list[tuple[str, int | None]]) -> bool:
    """Part 4: each word of the enables is taken once, and put at once."""
    taken = sorted(word for name, word in steps if name == "takee" and word is not None)
    return taken == list(range(words)) and puts_at_once("takee", "pute", steps)


def verdict(kind: str, words: int, steps: list[tuple[str, int | None]]) -> str:
    """Which part of the rule is the first that a plan breaks."""
    parts: tuple[Callable[[], bool], ...] = (
        lambda: keeps_routes(kind, steps), lambda: takes_each(words, steps),
        lambda: puts_at_once("takep", "putp", steps), lambda: moves_enables(words, steps))
    broken = next((place for place, is_kept in enumerate(parts, 1) if not is_kept()), None)
    return f"refused {broken}" if broken else "accepted"


def audit(kind: str, words: int, plan: str) -> str:
    """What is printed for the text of a plan."""
    steps: list[tuple[str, int | None]] = []
    for text in plan.split("\n"):
        if text == "" or text[0] == "#" and len(text) <= LINE_BYTES:
            continue
        step = step_of(text, words)
        if step is None or len(steps) == MOST_STEPS:
            return f"bad {len(steps) + 1}"
        steps.append(step)
    return verdict(kind, words, steps)


def moved_words(words: int) -> list[list[str]]:
    """The steps that move each word, a pair of lines each."""
    return [[f"take{which} {word}", f"put{which} {word}"]
            for word in range(words) for which in "pe"]


def core_plan(draw: random.Random, kind: str, words: int) -> list[str]:
    """A plan as the core's, with its words in any order."""
    blocks = moved_words(words)
    draw.shuffle(blocks)
    middle = [line for block in blocks for line in block]
    if kind == "leave":
        looks = [f"look {word}" for word in range(words)]
        return (["quiet", "word1", "word0", "fence", "unmap", "gfence"] + middle
                + ["taket"] + looks + ["post"])
    if kind == "arrive":
        return ["word0", "fence", "map", "gfence"] + middle + ["putt", "wake"]
    return ["quiet", "word0", "fence", "remap", "gfence"] + middle + ["taket", "putt", "wake"]


def change(draw: random.Random, words: int, lines: list[str]) -> None:
    """One line is dropped, doubled, moved, changed for another, or put in anew."""
    first, second = draw.randrange(len(lines)), draw.randrange(len(lines))
    way = draw.randrange(7)
    if way == 0:
        lines.pop(first)
    elif way == 1:
        lines.insert(second, lines[first])
    elif way == 2:
        lines[first], lines[second] = lines[second], lines[first]
    elif way == 3:
        lines.insert(second, lines.pop(first))
    elif way == 4:
        lines.insert(first, draw.choice(PLAIN))
    elif way == 5:
        lines.insert(first, f"{draw.choice(OF_A_WORD)} {draw.randrange(words + 1)}")
    else:
        lines.insert(first, draw.choice(ODD_TEXTS))


def random_plan(draw: random.Random, kind: str, words: int) -> str:
    lines = core_plan(draw, draw.choice(list(RECORD_STEPS)) if draw.random() < 0.1 else kind, words)
    for _ in range(draw.choice((0, 0, 1, 1, 1, 2, 2, 3, 5))):
        change(draw, words, lines)
    if draw.random() < 0.02:
        lines += ["look 0"] * (draw.choice((511, 512, 513)) - len(lines))
    return "\n".join(lines) + ("" if draw.random() < 0.1 else "\n")


def main() -> int:
    program, seed, count = words.given(
        __doc__, lambda given: len(given) == 3 and words.are_numbers(given[1:]))
    draw, differing = random.Random(f"plans {seed}"), 0
    counts: dict[str, int] = {}
    for _ in range(int(count)):
        kind, width = draw.choice(list(RECORD_STEPS)), draw.choice(WIDTHS)
        plan = random_plan(draw, kind, width)
        wanted = audit(kind, width, plan)
        found = subprocess.run([program, "audit", kind, str(width)], input=plan.encode(),
                               capture_output=True, timeout=20, check=False).stdout.decode()
        word = "bad" if wanted.startswith("bad") else wanted
        counts[word] = counts.get(word, 0) + 1
        if found != wanted + "\n":
            differing += 1
            print(f"audit {kind} {width}: wanted {wanted}, got {found!r}, of the plan\n{plan}")
    told = ", ".join(f"{word} {counts[word]}" for word in sorted(counts))
    print(f"plans {count}, of which differ {differing}: {told}")
    return 1 if differing else 0
