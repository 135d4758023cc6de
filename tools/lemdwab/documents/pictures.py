"""Makes docs/pictures of the plans' tables and of the map, both as the definitions have them, and
of a script."""

from __future__ import annotations

import re
from collections.abc import Iterator, Sequence
from typing import TypeVar

from lemdwab import drawing
from lemdwab.documents.antt import clauses
from lemdwab.documents.constants import limit, shown
from lemdwab.documents.plans import KINDS, Move
from lemdwab.documents.svg import GUEST, HAND, INK, LINE, MEMORY, OTHER, PALE, TOLD, Picture
from lemdwab.running import TOP

T = TypeVar("T")
FOLDER = TOP / "docs/pictures"
# The script that is drawn as examples/draw does, from one line to another.
DRAWN, FIRST, LAST = TOP / "examples/stores-in-flight.script", 20, 76
# How an access is called in a picture, w being the number of a word.
ACCESSES = {
    "TakeDelivery": "take eidelivery",
    "PutDelivery": "put eidelivery",
    "WriteNotice": "write notice",
    "WriteEntry": "write entry",
    "Fence": "fence",
    "Map": "write G stage",
    "GFence": "fence G stage",
    "TakePending": "take pending",
    "PutPending": "put pending (OR)",
    "TakeEnables": "take enabled",
    "PutEnables": "put enabled",
    "Look": "look",
    "TakeThreshold": "take eithreshold",
    "PutThreshold": "put eithreshold",
    "Post": "post",
    "aim": "aim the source",
}
COLORS = {
    "guest file": GUEST,
    "old guest file": GUEST,
    "new guest file": OTHER,
    "memory": MEMORY,
    "no guest file": MEMORY,
    "each store of an enabled identity": TOLD,
}
TITLES = {
    "leave": "A leave: from a guest file to memory",
    "arrive": "An arrival: from memory to a guest file",
    "shift": "A shift: from one guest file to another",
}
BELOW = (
    "Between any two steps any line may come: stores, claims, other moves."
    " Larger files have such columns for each word of 64 identities."
)
LEFT, TOP_EDGE, CELL, ROW = 212, 170, 49, 27
# Moves are drawn of files of one word, and of a virtual hart to which one source is passed.
WORDS, PASSES = 1, 1


def runs(values: Sequence[T]) -> list[tuple[T, int, int]]:
    """Gives (value, first, past the last) for each run of the same value."""
    found: list[tuple[T, int, int]] = []
    for k, value in enumerate(values):
        first = found.pop()[1] if found and found[-1][0] == value else k
        found.append((value, first, k + 1))
    return found


def lanes(move: Move) -> list[tuple[str | None, str, list[str]]]:
    """Lists the rows of a move's picture, as (heading or None, name, a value for each state)."""
    old, new = KINDS[move.kind][1:]
    states = [steps for steps, _ in move.states()]
    kept = "kept by the hypervisor"
    named = {"old": old, "new": new, "hand": kept}
    routes = [
        ("What is written", "entry of the MSI page table",
         [move.place("entry_names", k) for k in states]),
        (None, "record of the G stage", [move.place("stage_names", k) for k in states]),
        ("What is in force", "MSIs of devices go to",
         [move.in_force("reach_stepped", k) for k in states]),
        (None, "stores of its peers go to", [move.in_force("stage_stepped", k) for k in states]),
        (None, "a passed source leads to", [move.pass_at(0, *state) for state in move.states()]),
    ]
    found = []
    for heading, name, places in routes:
        values = [named[place] for place in places]
        if name.startswith("record"):
            values = ["no guest file" if v == "memory" else v for v in values]
        found.append((heading, name, values))
    for heading, name, take in (
        ("Which sets are where", "pending identities", "TakePending"),
        (None, "enabled identities", "TakeEnables"),
    ):
        values = [move.word_at(take, 0, k) for k in states]
        found.append((heading, name, [v if v == "hand" else named[v] for v in values]))
    for name, of in (("eithreshold", "threshold"), ("eidelivery", "delivery")):
        values = [move.number_at(of, k) for k in states]
        found.append((None, name, [named[v] for v in values]))
    return found


def told(move: Move) -> list[str | None]:
    """Gives the row of notices: in which states a store to memory sends one, looks and the post."""
    states = [steps for steps, _ in move.states()]
    said = "each store of an enabled identity"
    return [said if move.of_word("is_watched", 0, k) else None for k in states]


def bar(picture: Picture, row: int, value: str, first: int, past: int) -> None:
    """Draws what stands in a row from one state to another one."""
    words = value
    x, y = LEFT + first * CELL, row
    color = COLORS.get(words, HAND)
    picture.box(x + 1.5, y + 3, (past - first) * CELL - 3, ROW - 6, color, None, 4)
    room = (past - first) * CELL - 8
    if len(words) * 7.2 > room:
        words = {"kept by the hypervisor": "kept"}.get(words, words)
    size = 11.5 if len(words) * 7.2 < room else 9.5
    if len(words) * 5.4 < room:
        middle = x + (past - first) * CELL / 2
        picture.text(middle, y + ROW / 2 + 4, words, size, "#ffffff", "middle")


def heads(picture: Picture, move: Move, bottom: int) -> None:
    """Draws the accesses above the states that they divide, and the numbers of steps done."""
    for k, ((access, _), state) in enumerate(zip(move.turns(), move.states())):
        x = LEFT + (k + 1) * CELL
        number = "" if access == "aim" else f"{state[0] + 1} "
        picture.line([(x, TOP_EDGE - 24), (x, bottom)], LINE, 1, "2 3")
        picture.text(x - 2, TOP_EDGE - 28, f"{number}{ACCESSES[access]}", 12, INK, turn=-52)
    before = None
    for k, (steps, _) in enumerate(move.states()):
        done = f"{steps}, aimed" if steps == before else str(steps)
        picture.text(LEFT + (k + 0.5) * CELL, TOP_EDGE - 8, done, 11, "#52606d", "middle")
        before = steps
    picture.text(LEFT - 10, TOP_EDGE - 8, "steps done", 11, "#52606d", "end")


def notices(picture: Picture, move: Move, y: int) -> int:
    """Draws the row of notices, with the looks and the post as marks at their steps."""
    picture.text(14, y + ROW / 2 + 4, "When a notice may go", 12, INK, bold=True)
    row = y + ROW
    if not any(told(move)):
        never = "never: no store for it goes to memory"
        picture.box(LEFT, y + 3, 250, ROW - 6, "#ffffff", None)
        picture.text(LEFT + 2, y + ROW / 2 + 4, never, 12, TOLD)
        return row
    picture.text(LEFT - 10, row + ROW / 2 + 4, "by a store to memory", 12, INK, "end")
    for value, first, past in runs(told(move)):
        if value:
            bar(picture, row, value, first, past)
    if move.kind != "leave":
        return row + ROW
    row += ROW
    picture.text(LEFT - 10, row + ROW / 2 + 4, "by the move itself", 12, INK, "end")
    look, post = (move.turns().index(of) for of in (("Look", 0), ("Post", None)))
    x = LEFT + (look + 1) * CELL
    end = LEFT + (post + 1) * CELL
    picture.line([(x, row + ROW / 2), (end - 4, row + ROW / 2)], TOLD, 2, "4 3", True)
    picture.box(x - 236, row + 3, 232, ROW - 6, "#ffffff", None)
    sees = "the look sees one pending and enabled"
    picture.text(x - 8, row + ROW / 2 + 4, sees, 11.5, TOLD, "end")
    picture.text(end + 5, row + ROW / 2 + 4, "one", 11.5, TOLD)
    return row + ROW


def picture_of(kind: str) -> str:
    """Gives the picture of a move, as the text of a file."""
    move = Move(kind, WORDS, PASSES)
    rows = lanes(move)
    count = len(rows) + sum(1 for heading, _, _ in rows if heading) + (3 if kind == "leave" else 2)
    if kind == "shift":
        count -= 1
    height = TOP_EDGE + count * ROW + 52
    width = LEFT + len(move.states()) * CELL + (30 if kind == "leave" else 46)
    picture = Picture(width, height, TITLES[kind])
    picture.text(14, 28, TITLES[kind], 17, bold=True)
    size = (f"{move.length()} steps, of files with the identities 1 to {64 * WORDS - 1};"
            " and one more, which aims it, for each source that is passed to the virtual hart")
    picture.text(14, 48, size, 12, "#52606d")
    heads(picture, move, TOP_EDGE + count * ROW)
    y = TOP_EDGE
    for heading, name, values in rows:
        if heading:
            picture.text(14, y + ROW / 2 + 4, heading, 12, INK, bold=True)
            y += ROW
        picture.text(LEFT - 10, y + ROW / 2 + 4, name, 12, INK, "end")
        for value, first, past in runs(values):
            bar(picture, y, value, first, past)
        y += ROW
    y = notices(picture, move, y)
    picture.text(14, y + 24, BELOW, 11.5, "#52606d")
    return picture.done()


def address(name: str) -> str:
    """Gives an address of the map, as the definitions have it."""
    right = shown(clauses("aia_regs", "AddressMap", name)[0][1])
    return re.sub(r"\b(hart|q|vm)\b", lambda m: {"hart": "h", "vm": "v"}.get(m[0], m[0]), right)


def part(picture: Picture, x: int, y: int, w: int, h: int, title: str, under: list[str],
         fill: str = PALE, stroke: str = LINE, dash: str | None = None) -> None:
    """Draws a part of the machine: its name and, under it, where it lies."""
    picture.box(x, y, w, h, fill, stroke, 6, dash)
    picture.text(x + 12, y + 20, title, 13, bold=True)
    for k, line in enumerate(under):
        picture.text(x + 12, y + 38 + 16 * k, line, 11.5, "#3e4c59", mono=line.startswith("0x"))


def aplic_part(picture: Picture) -> None:
    """Draws the wires and the APLIC."""
    picture.box(24, 92, 226, 208, "#ffffff", INK, 8)
    picture.text(36, 114, "APLIC", 14, bold=True)
    part(picture, 38, 126, 198, 64, "root domain", [address("root_region"), "machine level"])
    part(picture, 38, 222, 198, 64, "its child", [address("child_region"), "supervisor level"])
    picture.line([(136, 190), (136, 220)], INK, 1.4, None, True)
    picture.text(144, 210, "delegates", 11.5)
    sources = f"{int(limit('SOURCES')):,}"
    picture.text(24, 64, f"wires 1 to S, at most {sources}", 12)
    picture.line([(136, 70), (136, 90)], INK, 1.4, None, True)


def hart_part(picture: Picture) -> None:
    """Draws the interrupt files of a hart."""
    picture.box(330, 92, 268, 256, "#ffffff", INK, 8)
    picture.text(342, 114, "hart h", 14, bold=True)
    picture.text(586, 114, f"one of at most {limit('HARTS')}", 11.5, anchor="end")
    part(picture, 344, 126, 240, 58, "machine-level file", [address("machine_page")])
    part(picture, 344, 194, 240, 58, "supervisor file", [address("supervisor_page")])
    guests = f"the next pages, at most {limit('GUEST_FILES')}"
    part(picture, 344, 264, 240, 68, "guest files 1 to G", [guests, "of resident virtual harts"],
         "#e3ecf5", GUEST)
    picture.line([(252, 108), (328, 108)], INK, 1.4, None, True)
    picture.text(290, 102, "signals, or", 11.5, anchor="middle")
    picture.line([(252, 146), (342, 146)], INK, 1.4, None, True)
    picture.text(276, 140, "MSIs", 11.5, anchor="middle")
    picture.line([(252, 254), (290, 254), (290, 214), (342, 214)], INK, 1.4, None, True)
    picture.text(268, 248, "MSIs", 11.5, anchor="middle")
    picture.line([(252, 288), (342, 288)], GUEST, 1.8, None, True)
    picture.text(290, 282, "of passes", 11.5, GUEST, "middle")


def memory_part(picture: Picture) -> None:
    """Draws memory: the slots of parked virtual harts, and the MSI page tables."""
    picture.box(690, 92, 262, 256, "#ffffff", INK, 8)
    picture.text(702, 114, "memory", 14, bold=True)
    part(picture, 704, 146, 234, 58, "MSI page table of VM v", [address("table_address")])
    slots = f"slots 0 to {int(limit('VCPUS')) - 1}"
    part(picture, 704, 264, 234, 68, slots, [address("slot_address"), "of parked virtual harts"],
         "#e4f1e6", MEMORY)
    picture.line([(586, 288), (702, 288)], HAND, 2.2, None, True)
    picture.line([(702, 310), (586, 310)], HAND, 2.2, None, True)
    picture.text(644, 280, "moves", 12, HAND, "middle", True)
    picture.line([(702, 272), (640, 246), (586, 228)], TOLD, 2, "5 3", True)
    picture.text(650, 232, "notices", 12, TOLD, "middle", True)


def guests_part(picture: Picture) -> None:
    """Draws a VM with its devices, and the routes of their stores."""
    picture.box(330, 452, 622, 84, "#ffffff", INK, 8)
    picture.text(342, 474, "VM v", 14, bold=True)
    picture.text(938, 474, f"one of at most {limit('VMS')}", 11.5, anchor="end")
    part(picture, 344, 484, 278, 42, "its devices", [])
    part(picture, 642, 484, 296, 42, "its virtual harts", [])
    picture.text(926, 504, f"at most {limit('VM_VCPUS')}", 11.5, anchor="end")
    picture.box(404, 388, 196, 34, "#ffffff", INK, 6)
    picture.text(502, 409, "MSI page table, in force", 12, anchor="middle")
    picture.box(690, 388, 196, 34, "#ffffff", INK, 6)
    picture.text(788, 409, "G stage, in force", 12, anchor="middle")
    picture.line([(502, 484), (502, 424)], INK, 1.4, None, True)
    picture.text(510, 446, "MSIs", 11.5)
    picture.line([(788, 484), (788, 424)], INK, 1.4, None, True)
    picture.text(796, 446, "stores for each other", 11.5)
    picture.line([(470, 388), (470, 334)], GUEST, 1.8, None, True)
    picture.line([(560, 388), (740, 334)], MEMORY, 1.8, None, True)
    picture.line([(750, 388), (560, 334)], GUEST, 1.8, None, True)
    picture.line([(830, 388), (830, 334)], MEMORY, 1.8, None, True)


def host_part(picture: Picture) -> None:
    """Draws the host, whose lines reach the APLIC and the files of its own levels."""
    part(picture, 24, 384, 226, 92, "the host", ["loads, stores, CSR instructions,",
         "and what the hypervisor does:", "VMs, moves, passes, majors"])
    picture.line([(136, 384), (136, 302)], INK, 1.4, None, True)
    picture.line([(252, 400), (312, 400), (312, 170), (342, 170)], INK, 1.4, None, True)
    picture.line([(312, 236), (342, 236)], INK, 1.4, None, True)


def machine() -> str:
    """Gives the picture of the machine, as the text of a file."""
    picture = Picture(976, 556, "The machine")
    picture.text(24, 32, "The machine", 17, bold=True)
    aplic_part(picture)
    hart_part(picture)
    memory_part(picture)
    guests_part(picture)
    host_part(picture)
    return picture.done()


def rendered() -> dict[str, str]:
    """Gives each picture by its file's name."""
    script = drawing.in_svg(*drawing.watched(DRAWN.read_bytes(), FIRST, LAST), DRAWN.name)
    return {"machine.svg": machine(), f"{DRAWN.stem}.svg": script} | {
        f"{kind}.svg": picture_of(kind) for kind in KINDS}


def drifts() -> Iterator[str]:
    """Says which pictures are not what the definitions make."""
    for name, text in rendered().items():
        path = FOLDER / name
        if not path.exists() or path.read_text(encoding="utf-8") != text:
            yield (f"docs/pictures/{name} drifts from the plans, the map or the script:"
                   " suite/documents make writes it anew")
    for path in FOLDER.glob("*.svg"):
        if path.name not in rendered():
            yield f"docs/pictures/{path.name} is none that the scripts make"


def make() -> None:
    """Writes the pictures."""
    FOLDER.mkdir(exist_ok=True)
    for name, text in rendered().items():
        (FOLDER / name).write_text(text, encoding="utf-8")
