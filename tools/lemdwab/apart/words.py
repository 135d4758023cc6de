"""The words of a command line, and how a program of this folder ends: with status 2 where they are
wrong, or where it can't look."""

from __future__ import annotations

import argparse
import os
import subprocess
import sys
from collections.abc import Callable
from pathlib import Path
from typing import NoReturn


def fail(message: object) -> None:
    """Ends with status 2 and a message."""
    print(f"{Path(sys.argv[0]).name}: {message}", file=sys.stderr)
    sys.exit(2)


def given(doc: str, fits: Callable[[list[str]], object]) -> list[str]:
    """Gives the words where they fit. Else it ends: with status 0 and the head comment where that
    is asked for; where the words are wrong with 2, the head comment, and last these words."""
    words = sys.argv[1:]
    if words[:1] in (["-h"], ["--help"]):
        print(doc.strip())
        sys.exit(0)
    if not fits(words):
        print(f"{doc.strip()}\n", file=sys.stderr)
        fail(f"these words are wrong: {' '.join(words)}" if words else "words are wanted")
    return words


def are_numbers(words: list[str]) -> bool:
    """Says whether words are numbers in decimal."""
    return all(word.isascii() and word.isdigit() and len(word) <= 20 for word in words)


def parser(doc: str) -> argparse.ArgumentParser:
    """Gives a reader of options, whose help is the head comment."""
    return argparse.ArgumentParser(description=doc,
                                   formatter_class=argparse.RawDescriptionHelpFormatter)


def main(tool: Callable[[], int | None]) -> NoReturn:
    """Runs a program, a function that gives its exit status, and ends with that; with 2 where a
    command can't be run, or a file not be read or written."""
    try:
        status = tool()
        sys.stdout.flush()
    except BrokenPipeError:
        sys.stdout = open(os.devnull, "w")
        status = 2
    except (OSError, subprocess.SubprocessError) as wrong:
        fail(wrong)
    sys.exit(status)
