"""A script's moves as a picture, in text or as SVG: what each line did to which virtual hart, where
each store for it went, and when the host was told.

The model written apart answers the script, and is watched as it does.
"""

from __future__ import annotations

from itertools import groupby
from typing import TYPE_CHECKING, NamedTuple

from lemdwab import answers
from lemdwab.apart import model, moves, reading
from lemdwab.apart.interrupt_file import requested
from lemdwab.documents import svg
from lemdwab.running import sure

if TYPE_CHECKING:
    from lemdwab.apart.moves import VirtualHart
    from lemdwab.documents.svg import Picture

# The way to the model is in answers.


HOMES = {"parked": "in memory", "entered": "runs from memory", "leaving": "moves",
         "arriving": "moves", "shifting": "moves"}
COLORS = {"in memory": svg.MEMORY, "runs from memory": svg.OTHER, "moves": svg.HAND}
MOVES = ("arrive", "leave", "shift")
# Of the picture as SVG: its margins, and the width and height of a mark.
LEFT, TOP_EDGE, CELL, ROW = 128, 140, 36, 26
# What the words of its legend take.
LEAST_WIDTH = 930


class Store(NamedTuple):
    """A store for a virtual hart, and the place where it went or was sent to."""

    hart: moves.VirtualHart
    place: tuple[int, int] | None
    identity: int
    is_in_flight: bool = False


class Shown(NamedTuple):
    """What a line of a script did: the virtual hart that it is about, what it says of that, the
    stores, whom the host was told of, and where each virtual hart is then, with its place."""

    number: int
    name: str
    hart: moves.VirtualHart | None
    said: str
    stores: list[Store]
    told: list[moves.VirtualHart]
    homes: dict[moves.VirtualHart, tuple[str, tuple[int, int] | None]]


class Watched(model.Machine):
    """The model, which keeps what stores and notices it makes within a line."""

    def __init__(self, *sizes: int) -> None:
        super().__init__(*sizes)
        self.stores: list[Store] = []
        self.told: list[moves.VirtualHart] = []
        self.by_store: None = None

    def store_for(self, hart: VirtualHart, place: tuple[int, int] | None, offset: int,
                  value: int) -> None:
        if identity := requested(self.greatest, offset, value):
            self.stores.append(Store(hart, place, identity))
        super().store_for(hart, place, offset, value)

    def notify(self, hart: VirtualHart) -> None:
        self.told.append(hart)
        super().notify(hart)

    def deliver_msis(self) -> None:
        """An MSI of a passed source asks at the guest file without a store of the model's own."""
        before = {one: one.hart.file.pending for one in self.passes if one.reach}
        super().deliver_msis()
        for one, pending in before.items():
            if one.hart.file.pending & ~pending & 1 << one.identity:
                self.stores.append(Store(one.hart, one.reach, one.identity))


class Watching(model.Script):
    """A script that is answered and watched."""

    def make(self, *sizes: int) -> str:
        answer = super().make(*sizes)
        if answer == "ok":
            self.machine = Watched(*sizes)
        return answer

    def shown(self, number: int, text: bytes) -> Shown | None:
        """Gives what a line did; None where it did nothing that is drawn."""
        name, fields = sure(reading.read(text))
        about = self.about(name, fields)
        said = step_name(about) if name == "step" and about and about.is_moving() else None
        flying = sum(len(vm.flight) for vm in self.machine.vms) if self.machine else 0
        answer = sure(self.answer(text))
        if not isinstance(self.machine, Watched) or answers.is_refused(answers.shown(text), answer):
            return None
        stores, self.machine.stores = self.machine.stores, []
        told, self.machine.told = self.machine.told, []
        if name == "send" and sum(len(vm.flight) for vm in self.machine.vms) > flying:
            hart, place, offset, value = self.machine.vms[fields[0]].flight[-1]
            stores = [Store(hart, place, requested(self.machine.greatest, offset, value), True)]
        said = said or self.said(name, fields, answer)
        if not (said or stores or told or name == "vm"):
            return None
        homes = {one: (one.home, one.origin) for one in self.machine.virtual_harts}
        return Shown(number, name.replace("_", " "), about if said else None, said, stores, told,
                     homes)

    def about(self, name: str, fields: list[int | str]) -> VirtualHart | None:
        """Gives the virtual hart that a line names, if it is there."""
        if not self.machine or len(fields) < 2 or not (
                name in ("step", "enter", "exit", "g", "refetch") or name.split("_")[-1] in MOVES):
            return None
        vm, number, *_ = fields
        if not isinstance(vm, int) or not isinstance(number, int):
            return None
        harts = self.machine.vms[vm].harts if vm < len(self.machine.vms) else []
        return harts[number] if number < len(harts) else None

    @staticmethod
    def said(name: str, fields: list[int | str], answer: str) -> str:
        """Says what a line did to its virtual hart."""
        if name == "g":
            _, _, csr, operation, _ = fields
            claimed = int(answer, 16) & 0x7ff
            return f"claims {claimed}" if csr == "topei" and operation != "read" and claimed else ""
        if name in ("enter", "exit", "refetch") or name.split("_")[-1] in MOVES:
            return name.replace("_", " ")
        return ""


def step_name(hart: VirtualHart) -> str:
    """Gives the name of the step that comes next, as docs/MOVES.md has it."""
    if aim := hart.next_aim():
        return f"aim {hart.passes.index(aim)}"
    access, word = hart.next_access()
    is_of_word = access in ("TakePending", "PutPending", "TakeEnables", "PutEnables", "Look")
    return f"{access} {word}" if is_of_word else access


def watched(script: bytes, first: int, last: int) -> tuple[list[Shown], dict[VirtualHart, str]]:
    """Lists what the lines of a script did that are drawn, of those from one number to another; and
    names its virtual harts, as 0.1: 1 of VM 0."""
    one = Watching()
    found = [one.shown(number, text) for number, text in enumerate(reading.texts(script), 1)
             if not reading.is_skipped(text) and reading.read(text) is not reading.BAD]
    names = {hart: f"{number}.{place}"
             for number, vm in enumerate(one.machine.vms if one.machine else [])
             for place, hart in enumerate(vm.harts)}
    return [shown for shown in found if shown and first <= shown.number <= last], names


def harts_of(found: list[Shown]) -> list[VirtualHart]:
    """Lists the virtual harts that the lines that are drawn are about, in the order of slots."""
    harts = dict.fromkeys(hart for shown in found for hart in shown.homes)
    seen = {hart for shown in found for hart in
            [shown.hart, *shown.told, *(store.hart for store in shown.stores)]}
    return [hart for hart in harts if hart in seen]


def where(place: tuple[int, int] | None) -> str:
    """Names a place."""
    return f"file {place[1]} of hart {place[0]}" if place else "memory"


def at_home(hart: VirtualHart, shown: Shown) -> str:
    """Says where a virtual hart is."""
    home, place = shown.homes[hart]
    return f"in {where(place)}" if home == "resident" else HOMES[home]


# In text: a line of the picture a line of the script, a column a virtual hart.

def cell(hart: VirtualHart, shown: Shown, before: Shown | None) -> str:
    """Says what a line did to a virtual hart."""
    parts = [shown.said] if shown.hart is hart else []
    for store in shown.stores:
        if store.hart is hart:
            how = "sent to" if store.is_in_flight else "to"
            parts.append(f"{store.identity} {how} {where(store.place)}")
    if hart in shown.homes and shown.homes[hart] != (before.homes.get(hart) if before else None):
        parts.append(at_home(hart, shown))
    return ", ".join(parts)


def in_text(found: list[Shown], names: dict[VirtualHart, str]) -> str:
    """Gives the picture of what was watched in text."""
    harts = harts_of(found)
    rows = [["line", *(names[hart] for hart in harts), "host"]]
    for before, shown in zip([None, *found], found):
        told = ", ".join(f"told {hart.slot + 1}" for hart in shown.told)
        cells = [cell(hart, shown, before) for hart in harts]
        if any(cells) or told:
            rows.append([str(shown.number), *cells, told])
    widths = [max(len(row[at]) for row in rows) for at in range(len(rows[0]))]
    return "".join("  ".join(word.ljust(width) for word, width in zip(row, widths)).rstrip() + "\n"
                   for row in rows)


# As SVG: a row a virtual hart, a column a line of the script.

def bars(picture: Picture, hart: VirtualHart, found: list[Shown], y: int) -> None:
    """Draws where a virtual hart is, from line to line."""
    places = [at_home(hart, shown) if hart in shown.homes else None for shown in found]
    at = 0
    for place, run in groupby(places):
        count = len(list(run))
        if place:
            color = COLORS.get(place, svg.GUEST)
            x, width = LEFT + at * CELL, count * CELL
            picture.box(x + 1, y + 3, width - 2, ROW - 6, color, None, 4)
            words = place if len(place) * 7 < width else place.replace(" of hart ", "/")
            if len(words) * 6 < width:
                picture.text(x + width / 2, y + ROW / 2 + 4, words, 11, "#ffffff", "middle")
        at += count


def marks(picture: Picture, hart: VirtualHart, found: list[Shown], y: int) -> None:
    """Draws the stores for a virtual hart under its bar: the identity, in the color of the place
    where the store went, with a frame alone while it is in flight."""
    for at, shown in enumerate(found):
        mine = [store for store in shown.stores if store.hart is hart]
        for place, store in enumerate(mine):
            color = svg.GUEST if store.place else svg.MEMORY
            width = (CELL - 6) / len(mine)
            x = LEFT + at * CELL + 3 + place * width
            picture.box(x, y + 4, width - 1, ROW - 8, "#ffffff" if store.is_in_flight else color,
                        color, 9)
            picture.text(x + width / 2, y + ROW / 2 + 4, str(store.identity), 11,
                         color if store.is_in_flight else "#ffffff", "middle", True)
        if shown.hart is hart and shown.said.startswith("claims"):
            picture.text(LEFT + (at + 0.5) * CELL, y + ROW / 2 + 4, shown.said[7:], 11, svg.INK,
                         "middle", True)


def heads(picture: Picture, found: list[Shown], bottom: int) -> None:
    """Draws what each line is, above, and its number."""
    for at, shown in enumerate(found):
        x = LEFT + at * CELL
        said = "claims" if (shown.said or "").startswith("claims") else shown.said or shown.name
        picture.line([(x, TOP_EDGE - 6), (x, bottom)], svg.LINE, 1, "2 3")
        picture.text(x + CELL / 2, TOP_EDGE - 24, said, 12, svg.INK, turn=-52)
        picture.text(x + CELL / 2, TOP_EDGE - 8, str(shown.number), 11, "#52606d", "middle")
    picture.text(LEFT - 10, TOP_EDGE - 8, "line", 11, "#52606d", "end")


def legend(picture: Picture, y: int) -> None:
    """Draws what colors and marks mean."""
    x: float = 14
    for color, words in ((svg.GUEST, "in a guest file, or a store that went there"),
                         (svg.MEMORY, "in memory, or a store that went there"),
                         (svg.OTHER, "runs from memory"), (svg.HAND, "moves"),
                         (svg.TOLD, "the host is told")):
        picture.box(x, y + 6, 14, 14, color, None, 4)
        picture.text(x + 20, y + 17, words, 11.5, "#52606d")
        x += 34 + 6.3 * len(words)
    picture.text(14, y + 38, "A frame alone: a store that is in flight. A number in black: a claim."
                 " Numbers are identities.", 11.5, "#52606d")


def in_svg(found: list[Shown], names: dict[VirtualHart, str], name: str) -> str:
    """Gives the picture of what was watched as SVG, with the script's name."""
    title = f"{name}, lines {found[0].number} to {found[-1].number}"
    harts = harts_of(found)
    bottom = TOP_EDGE + (2 * len(harts) + 1) * ROW
    width = max(LEFT + len(found) * CELL + 50, LEAST_WIDTH)
    picture = svg.Picture(width, bottom + 56, title)
    picture.text(14, 26, title, 16, bold=True)
    heads(picture, found, bottom)
    for row, hart in enumerate(harts):
        y = TOP_EDGE + 2 * row * ROW
        picture.text(LEFT - 10, y + ROW / 2 + 4, f"virtual hart {names[hart]}", 12, svg.INK,
                     "end")
        picture.text(LEFT - 10, y + ROW * 1.5 + 4, "asked for", 11.5, "#52606d", "end")
        bars(picture, hart, found, y)
        marks(picture, hart, found, y + ROW)
    picture.text(LEFT - 10, bottom - ROW / 2 + 4, "the host", 12, svg.INK, "end")
    for at, shown in enumerate(found):
        for hart in shown.told:
            x = LEFT + at * CELL
            picture.box(x + 3, bottom - ROW + 4, CELL - 7, ROW - 8, svg.TOLD, None, 9)
            picture.text(x + CELL / 2, bottom - ROW / 2 + 4, str(hart.slot + 1), 11, "#ffffff",
                         "middle", True)
    legend(picture, bottom)
    return picture.done()
