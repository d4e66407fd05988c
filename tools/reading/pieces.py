"""The pieces of a file of definitions: words, brackets and separators, without comments, each with its place in its line."""

from __future__ import annotations

import re
from dataclasses import dataclass
from typing import Iterator

PIECE = re.compile(r'"(?:[^"\\]|\\.)*"|[()\[\]{};,]|[^\s()\[\]{};,"]+')
COMMENT = re.compile(r'(^|\s)--(\s.*|$)')
OPENING = {"(": ")", "[": "]", "{": "}"}
CLOSING = frozenset(OPENING.values())


@dataclass(frozen=True)
class Piece:
    """A piece: its text, the column where it stands, and whether it is the first of its line."""

    text: str
    column: int
    first: bool


Pieces = list[Piece]


def pieces_of(text: str) -> Pieces:
    """The pieces of a text, in order."""
    return [piece for line in text.splitlines() for piece in pieces_in(COMMENT.sub("", line))]


def pieces_in(line: str) -> Iterator[Piece]:
    for number, match in enumerate(PIECE.finditer(line)):
        yield Piece(match[0], match.start(), number == 0)


def closed_at(pieces: Pieces, start: int) -> int:
    """Where the bracket that opens at a place is closed."""
    depth = 0
    for place in range(start, len(pieces)):
        depth += (pieces[place].text in OPENING) - (pieces[place].text in CLOSING)
        if depth == 0:
            return place
    raise ValueError(f"a bracket {pieces[start].text} is not closed")


def levels(pieces: Pieces) -> Iterator[tuple[int, Piece, int]]:
    """Each piece with its place and with the number of brackets around it; a bracket counts as outside itself."""
    depth = 0
    for place, piece in enumerate(pieces):
        depth -= piece.text in CLOSING
        yield place, piece, depth
        depth += piece.text in OPENING


def parted(pieces: Pieces, separator: str) -> list[Pieces]:
    """The parts between the separators that stand within no bracket."""
    parts: list[Pieces] = [[]]
    for _, piece, depth in levels(pieces):
        if piece.text == separator and depth == 0:
            parts.append([])
        else:
            parts[-1].append(piece)
    return parts


def place_of(pieces: Pieces, word: str) -> int | None:
    """The first place of a word that stands within no bracket."""
    return next((place for place, piece, depth in levels(pieces) if piece.text == word and depth == 0), None)


def blocks_of(pieces: Pieces, column: int) -> list[Pieces]:
    """The blocks of lines that begin at a column or before it within no bracket, each with the lines that stand further in."""
    blocks: list[Pieces] = []
    for _, piece, depth in levels(pieces):
        begins = piece.first and piece.column <= column and depth == 0 and piece.text not in CLOSING
        if begins or not blocks:
            blocks.append([])
        blocks[-1].append(piece)
    return blocks
