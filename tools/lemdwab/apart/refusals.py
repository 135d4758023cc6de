"""A line is refused with a word, and changes nothing."""

from __future__ import annotations


class Refused(Exception):
    """Raised before anything is changed."""

    def __init__(self, word: str) -> None:
        super().__init__(word)
        self.word = word


def unless(condition: object, word: str) -> None:
    """A line is refused with the word unless the condition holds."""
    if not condition:
        raise Refused(word)
