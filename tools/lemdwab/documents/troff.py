"""Writes text of a document in the macros of `man`: its sections, paragraphs, lists, tables and
blocks of code."""

from __future__ import annotations

import re
from collections.abc import Callable

ESCAPES = {"\\": r"\e", "-": r"\-", "'": r"\(aq", "`": r"\(ga", "^": r"\(ha", "~": r"\(ti",
           '"': r"\(dq"}
# What is marked within a line: code, a link, a picture, strong words and words with stress.
MARKS = re.compile(r"`(?P<code>[^`]+)`|!\[[^\]]*\]\([^)]*\)|\[(?P<link>[^\]]*)\]\((?P<to>[^)]*)\)"
                   r"|\*\*(?P<strong>.+?)\*\*|\*(?P<stress>[^*]+)\*", re.S)
ITEM = re.compile(r"(?P<mark>-|\d+\.) +(?P<text>.*)")
RULE = re.compile(r"\|[-:| ]+\|")


def escaped(text: str) -> str:
    """Gives a text whose characters stand for themselves."""
    return "".join(ESCAPES.get(c, c if c.isascii() else f"\\[u{ord(c):04X}]") for c in text)


def marked(text: str) -> str:
    """Gives a text with its marks as fonts, and links as what they are called."""
    found, at = "", 0
    for mark in MARKS.finditer(text):
        found += escaped(text[at:mark.start()])
        at = mark.end()
        if mark["code"] is not None:
            found += rf"\fB{escaped(mark['code'])}\fR"
        elif mark["strong"] is not None:
            found += rf"\fB{marked(mark['strong'])}\fR"
        elif mark["stress"] is not None:
            found += rf"\fI{marked(mark['stress'])}\fR"
        elif mark["link"] is not None:
            found += marked(mark["link"])
    return found + escaped(text[at:])


def filled(text: str) -> str:
    """Gives a text that is filled into lines, none of which is taken for a request."""
    lines = marked(" ".join(text.split())).split("\n")
    return "\n".join(r"\&" + line if line[:1] in (".", "'") else line for line in lines)


def cells(line: str) -> list[str]:
    """Gives the cells of a row of a table."""
    return [each.strip().replace(r"\|", "|") for each in re.split(r"(?<!\\)\|", line.strip())[1:-1]]


class Page:
    """A manual page as it is written."""

    def __init__(self, name: str, section: int, day: str, source: str) -> None:
        self.lines = [f'.TH {name.upper()} {section} "{day}" "{source}" "{source.split()[0]}"']

    def text(self) -> str:
        """Gives the page."""
        return "\n".join(self.lines) + "\n"

    def section(self, title: str) -> None:
        """Begins a section."""
        self.lines.append(f'.SH "{escaped(title.upper())}"')

    def subsection(self, title: str) -> None:
        """Begins a part of a section."""
        self.lines.append(f'.SS "{escaped(title)}"')

    def paragraph(self, text: str) -> None:
        """Puts a paragraph, if there is anything in it."""
        text = filled(text)
        if text:
            self.lines += [".PP", text]

    def block(self, lines: list[str]) -> None:
        """Puts lines as they stand."""
        self.lines += [".PP", ".RS 4", ".EX", *(r"\&" + escaped(line) for line in lines), ".EE",
                       ".RE"]

    def tagged(self, tag: str, text: str) -> None:
        """Puts a text below a tag, which is a text with marks too."""
        self.lines += [".TP", filled(tag), filled(text)]

    def table(self, lines: list[str]) -> None:
        """Puts the rows of a table: the first cell as a tag, the others below it, and of those from
        the third on what their column is called."""
        head, _, *rows = map(cells, lines)
        for row in rows:
            self.tagged(row[0], row[1])
            for name, cell in zip(head[2:], row[2:]):
                if cell:
                    self.lines += [".br", filled(f"*{name}:* {cell}" if name else cell)]

    def item(self, mark: str, text: str) -> None:
        """Puts an item of a list."""
        self.lines += [r".IP \(bu 3" if mark == "-" else f".IP {mark} 4", filled(text)]

    def document(self, text: str) -> None:
        """Puts the text of a document, without the comments in it."""
        lines = re.sub(r"(?s)<!--.*?-->", "", text).split("\n")
        while lines:
            line = lines.pop(0)
            heading, item = re.match(r"(#+) +(.*)", line), ITEM.match(line)
            if line.startswith("```"):
                self.block(taken(lines, lambda each: not each.startswith("```")))
                lines.pop(0)
            elif line.startswith("    ") and not item:
                block = [line, *taken(lines, lambda each: each.startswith("    "))]
                self.block([each[4:] for each in block])
            elif heading:
                (self.section if len(heading[1]) < 3 else self.subsection)(plain(heading[2]))
            elif line.startswith("|"):
                self.table([line, *taken(lines, lambda each: each.startswith("|"))])
            elif item:
                more = taken(lines, lambda each: re.match(r" {2,}\S", each))
                self.item(item["mark"], " ".join([item["text"], *more]))
            else:
                self.paragraph(" ".join([line, *taken(lines, is_filled)]))


def taken(lines: list[str], fits: Callable[[str], object]) -> list[str]:
    """Takes lines off the front while they fit."""
    found = []
    while lines and fits(lines[0]):
        found.append(lines.pop(0))
    return found


def is_filled(line: str) -> bool:
    """Says whether a line goes on with the paragraph above it."""
    return bool(line.strip()) and not re.match(r"```|#+ |\||    ", line) and not ITEM.match(line)


def plain(text: str) -> str:
    """Gives a text without its marks."""
    return MARKS.sub(lambda mark: mark["code"] or mark["strong"] or mark["stress"] or mark["link"]
                     or "", text)
