"""The bytes of a text and where they stand for people: lines and columns, both from 1."""

from __future__ import annotations

import bisect
import hashlib
from dataclasses import dataclass
from typing import TextIO


@dataclass(frozen=True, order=True)
class Position:
    """A line and a column of a file, both counted from 1."""

    line: int
    column: int


class SourceText:
    """A text as it stands in a file."""

    def __init__(self, data: bytes) -> None:
        self.data = data
        pieces = data.split(b"\n")
        self._starts = [0]
        for piece in pieces[:-1]:
            self._starts.append(self._starts[-1] + len(piece) + 1)
        self._pieces = pieces

    @property
    def letters(self) -> str:
        """The text with one character for each byte, so that a character's index is the byte's place."""
        return self.data.decode("latin-1")

    @property
    def digest(self) -> str:
        """The SHA-256 of the bytes, in hexadecimal digits."""
        return hashlib.sha256(self.data).hexdigest()

    @property
    def line_count(self) -> int:
        """The number of lines; a last newline ends a line and begins none."""
        return len(self._pieces) - (1 if len(self._pieces) > 1 and not self._pieces[-1] else 0)

    def line_of(self, place: int) -> int:
        """The line, from 1, in which the byte at `place` stands; a place past the end is on the last line."""
        return bisect.bisect_right(self._starts, min(max(place, 0), len(self.data)))

    def position(self, place: int) -> Position:
        """The line and column of the byte at `place`. A column counts characters as an editor shows them."""
        line = self.line_of(place)
        before = self.data[self._starts[line - 1] : max(place, 0)]
        return Position(line, len(before.decode("utf-8", "replace")) + 1)

    def line_text(self, line: int) -> str:
        """What stands in a line that is there, without its end, as an editor shows it."""
        return self._pieces[line - 1].decode("utf-8", "replace").rstrip("\r")


def write_letters(letters: str, out: TextIO) -> None:
    """Writes a text byte for byte."""
    binary = getattr(out, "buffer", None)
    if binary is None:
        out.write(letters)
        return
    out.flush()
    binary.write(letters.encode("latin-1"))
    binary.flush()
