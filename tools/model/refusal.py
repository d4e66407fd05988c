"""Refusals: why a text is not accepted, and the one line that says so."""

from __future__ import annotations

from dataclasses import dataclass

LONGEST_TEXT = 1_048_576

SENTENCES = {
    "E01": "text too long",
    "E02": "byte is not ASCII",
    "E03": "no such token",
    "E04": "number too large",
    "E05": "statement has no form",
    "E06": "statement out of order",
    "E07": "block or label unmatched",
    "E08": "name declared twice: ",
    "E09": "name unknown: ",
    "E10": "wrong type",
    "E11": "wrong mode",
    "E12": "range is empty",
    "E13": "expression too wide",
    "E14": "too many ",
    "E16": "call does not fit",
}


@dataclass
class Refused(Exception):
    """A text is refused with a code at a byte; the detail is the name or the thing of which there are too many."""

    code: str
    place: int
    detail: str = ""

    def line(self) -> str:
        """The line that is printed for it."""
        return f"malpas: {self.code} at byte {self.place}: {SENTENCES[self.code]}{self.detail}\n"
