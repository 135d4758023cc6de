"""Random scripts as suite/random and suite/hunt draw them: those of lemdwab.apart.random_scripts,
with what is not wanted left out."""

from __future__ import annotations

from typing import TYPE_CHECKING, NamedTuple

from lemdwab import answers, running
from lemdwab.apart import model, random_scripts, reading

if TYPE_CHECKING:
    from lemdwab.answers import Known

LINES = ("only=", "without=", "machine=", "mood=", "refused=", "begin=")
SEEDS = (1 << 64) - 1
MOST_LINES = 100_000
# How many scripts are looked through for a line that fits a pattern, at most.
LOOKED = 100


class Draw(NamedTuple):
    """What a random script is told."""

    only: set[str] | None = None
    sizes: tuple[int, int, int, int] | None = None
    mood: str | None = None
    refused: int | None = None
    without: tuple[str, ...] = ()
    begin: tuple[bytes, ...] = ()


def draw_of(given: dict[str, str]) -> Draw:
    """Reads the options of a draw."""
    mood, refused = given.get("mood"), given.get("refused")
    if mood is not None and mood not in random_scripts.MOODS:
        running.fail(f"there is no mood {mood!r}; there are {', '.join(random_scripts.MOODS)}")
    return Draw(
        answers.forms_of(given["only"]) if "only" in given else None,
        answers.sizes_of(given["machine"]) if "machine" in given else None, mood,
        running.number(refused, "PERCENT", 0, 80) if refused is not None else None,
        tuple(given["without"].split(",")) if "without" in given else (),
        beginning(given["begin"]) if "begin" in given else ())


def beginning(path: str) -> tuple[bytes, ...]:
    """Reads the lines that stand behind the machine of each script."""
    return tuple(text for text in reading.texts(running.contents(path))
                 if not reading.is_skipped(text))


def begun(script: bytes, begin: tuple[bytes, ...]) -> tuple[bytes, int]:
    """Gives a script with these lines behind its machine, and how many lines that have an answer
    stand before them."""
    texts, before = script.split(b"\n"), 0
    for at, text in enumerate(texts):
        before += not reading.is_skipped(text)
        name, fields = reading.read(text) or ("", ())
        if name == "machine" and model.is_machine_size(*fields):
            return b"\n".join([*texts[:at + 1], *begin, *texts[at + 1:]]), before
    return script, before


class Filter:
    """Which lines of a random script are said: of some forms alone, without those that fit some
    patterns, but for `machine`, and of those that are refused a share. A line that is refused
    changes nothing, so any may be left out."""

    def __init__(self, draw: Draw) -> None:
        self.draw = draw
        self.twin = model.Script()
        self.said = self.refused = 0

    def keeps(self, text: bytes) -> tuple[bool, str | None]:
        """Says whether a line is said, and what a model answers."""
        line = answers.shown(text)
        form = answers.form(line)
        if self.draw.only and form not in self.draw.only:
            return False, None
        if form != "machine" and any(answers.fits(line, pattern) for pattern in self.draw.without):
            return False, None
        answer = self.twin.answer(text)
        if answer is None:
            return not self.draw.only, None
        is_refused = answers.is_refused(line, answer)
        percent = self.draw.refused
        if is_refused and percent is not None and (
                100 * (self.refused + 1) > percent * (self.said + 1)):
            return False, answer
        self.said += 1
        self.refused += is_refused
        return True, answer

    def wants_refused(self) -> bool:
        """Says whether a line that is refused is wanted now, so that the share is kept."""
        percent = self.draw.refused
        return percent is not None and 100 * (self.refused + 1) <= percent * (self.said + 1)


def script_of(seed: int, count: int, draw: Draw) -> bytes:
    """Gives the script of a seed, of so many lines, or of fewer where no more are wanted."""
    is_filtered = draw.only or draw.without or draw.refused is not None
    return random_scripts.Generator(seed, count, mood=draw.mood, sizes=draw.sizes,
                                    filter_=Filter(draw) if is_filtered else None).script()


def unmet(draw: Draw, known: Known, seeds: range, count: int) -> tuple[list[tuple[str, str]], int]:
    """Lists the forms and patterns of a draw, and those of what is known, that no line fits of the
    first of these scripts, with what each is of; and gives how many scripts these are."""
    left = [*(("only", form) for form in sorted((draw.only or set()) - {"machine"})),
            *(("without", pattern) for pattern in draw.without),
            *(("known", row[0]) for row in known.rows)]
    for seed in seeds[:LOOKED]:
        if not left:
            break
        script, _ = begun(script_of(seed, count, draw._replace(without=())), draw.begin)
        texts = {line.text for line in answers.lines(script)}
        left = [(name, pattern) for name, pattern in left if not any(
            answers.form(text) == pattern if name == "only" else answers.fits(text, pattern)
            for text in texts)]
    return left, len(seeds[:LOOKED])
