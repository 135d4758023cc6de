"""A few words to write a picture with, as SVG."""

from __future__ import annotations

from xml.sax.saxutils import escape

GUEST, OTHER, MEMORY = "#4c78a8", "#2b8a93", "#4f9d5b"
HAND, TOLD = "#e8913a", "#a05a9c"
SANS, MONO = "DejaVu Sans, Helvetica, sans-serif", "DejaVu Sans Mono, Menlo, monospace"
INK, PALE, LINE = "#1f2933", "#f4f6f8", "#9aa5b1"


class Picture:
    """A picture of a size, to which shapes are added in the order in which they are painted."""

    def __init__(self, width: int, height: int, title: str) -> None:
        self.width, self.height = width, height
        self.shapes = [f"<title>{escape(title)}</title>"]
        self.box(0, 0, width, height, "#ffffff", None, 0)

    def box(self, x: float, y: int, w: float, h: int, fill: str = PALE, stroke: str | None = LINE,
            round_: int = 6, dash: str | None = None) -> None:
        edge = f' stroke="{stroke}" stroke-width="1.2"' if stroke else ""
        dashed = f' stroke-dasharray="{dash}"' if dash else ""
        self.shapes.append(
            f'<rect x="{x:g}" y="{y:g}" width="{w:g}" height="{h:g}" rx="{round_}"'
            f' fill="{fill}"{edge}{dashed}/>'
        )

    def text(self, x: float, y: float, words: str, size: float = 13, fill: str = INK,
             anchor: str = "start", bold: bool = False, mono: bool = False, turn: int = 0) -> None:
        family = MONO if mono else SANS
        more = ' font-weight="bold"' if bold else ""
        more += f' transform="rotate({turn} {x:g} {y:g})"' if turn else ""
        self.shapes.append(
            f'<text x="{x:g}" y="{y:g}" font-family="{family}" font-size="{size}" fill="{fill}"'
            f' text-anchor="{anchor}"{more}>{escape(words)}</text>'
        )

    def line(self, points: list[tuple[int, float]], stroke: str = INK, width: float = 1.4,
             dash: str | None = None, arrow: bool = False) -> None:
        path = " ".join(f"{x:g},{y:g}" for x, y in points)
        more = f' stroke-dasharray="{dash}"' if dash else ""
        more += f' marker-end="url(#to-{stroke[1:]})"' if arrow else ""
        more = f'stroke="{stroke}" stroke-width="{width}"{more}'
        self.shapes.append(f'<polyline points="{path}" fill="none" {more}/>')

    def done(self) -> str:
        """Gives the text of the file."""
        heads = "".join(
            f'<marker id="to-{c[1:]}" viewBox="0 0 8 8" refX="7" refY="4" markerWidth="7"'
            f' markerHeight="7" orient="auto"><path d="M0,0 L8,4 L0,8 z" fill="{c}"/></marker>'
            for c in (INK, GUEST, HAND, MEMORY, TOLD)
        )
        return (
            f'<svg xmlns="http://www.w3.org/2000/svg" width="{self.width}" height="{self.height}"'
            f' viewBox="0 0 {self.width} {self.height}">\n<defs>{heads}</defs>\n'
            + "\n".join(self.shapes)
            + "\n</svg>\n"
        )
