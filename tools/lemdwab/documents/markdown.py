"""Reads the documents: their sections, tables, links, words and sentences."""

from __future__ import annotations

import re
import subprocess
from collections.abc import Iterator

from lemdwab.running import TOP


def documents() -> list[str]:
    """Lists the documents of the repository, by their paths."""
    found = subprocess.run(
        ["git", "-C", str(TOP), "ls-files", "-co", "--exclude-standard", "--", "*.md"],
        capture_output=True, text=True, check=True,
    ).stdout.split("\n")
    return [name for name in found if name and (TOP / name).exists()]


def read(name: str) -> str:
    """Gives the text of a document."""
    return (TOP / name).read_text(encoding="utf-8")


def section(name: str, heading: str) -> str:
    """Gives the text under a heading of the second rank."""
    found, is_in, is_code = [], False, False
    for line in read(name).split("\n"):
        if not is_code and re.match(r"##? ", line):
            is_in = line == f"## {heading}"
        elif is_in:
            found.append(line)
        is_code ^= line.startswith("```")
    if not found:
        raise SystemExit(f"{name} has no section '{heading}'")
    return "\n".join(found) + "\n"


def rows(text: str) -> list[list[str]]:
    """Gives the rows of the tables in a text, each as its cells, heads left out."""
    found, is_head = [], True
    for line in text.split("\n"):
        if not line.startswith("|"):
            is_head = True
            continue
        cells = [c.strip() for c in re.split(r"(?<!\\)\|", line.strip())[1:-1]]
        if set("".join(cells)) <= set("-: "):
            is_head = False
        elif not is_head:
            found.append(cells)
    return found


def spoken(text: str) -> str:
    """Gives a text without its blocks of code and comments."""
    text = re.sub(r"(?ms)^```.*?^```", "", text)
    return re.sub(r"(?s)<!--.*?-->", "", text)


def words(name: str) -> int:
    """Gives how many words a document has, blocks of code and rules of tables left out."""
    return len([w for w in spoken(read(name)).split() if re.search(r"\w", w)])


def sentences(name: str) -> Iterator[str]:
    """Gives the sentences of a document, cells of tables among them, each in plain letters."""
    text = re.sub(r"\]\([^)]*\)", "]", spoken(read(name)))
    text = re.sub(r"(?m)^\|(.*)\|$", lambda m: m[1].replace("|", "\n\n") + "\n\n", text)
    text = re.sub(r"(?m)^(#+ .*|[-*] )", r"\n\n\1", text)
    for piece in re.split(r"\n\s*\n|(?<=[.!?;:])\s", text):
        plain = " ".join(re.findall(r"[a-z0-9_]+", piece.lower()))
        if len(plain.split()) >= 6:
            yield plain


def anchor(heading: str) -> str:
    """Gives the anchor of a heading."""
    plain = re.sub(r"\[([^\]]*)\]\([^)]*\)", r"\1", heading).replace("`", "").lower()
    return re.sub(r"[^\w\- ]", "", plain).strip().replace(" ", "-")


def anchors(name: str) -> set[str]:
    """Gives the anchors of a document's headings."""
    return {anchor(heading) for heading in re.findall(r"(?m)^#+ (.*)$", read(name))}
