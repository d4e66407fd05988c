"""Puts assertions behind the loop heads of a text, in its own layout, and leaves every other byte as it is."""

from __future__ import annotations

import re
from dataclasses import dataclass

from assess_lib.listing import Listing
from assess_lib.report import Loop
from assess_lib.source import SourceText

MARK = "[ proposed ]"
_BEHIND = frozenset("LOOP LABEL SKIP ENDIF ASSERT".split())
_REST = re.compile(r"(?:[ \t]|\[[^\]\n]*\])*(?=\r?\n|\Z)")


@dataclass(frozen=True)
class Spot:
    """Where assertions of a loop head stand: before the line `line` of the report, at the byte `place` of the text.

    `opening` and `closing` are the letters around each assertion there."""

    head: int
    line: int
    place: int
    opening: str
    closing: str


def _indent(letters: str, place: int) -> str:
    """The white space that begins the line in which the byte at `place` stands, where nothing else stands before it."""
    begin = letters.rfind("\n", 0, place) + 1
    before = letters[begin:place]
    return before if not before.strip(" \t") else before[: len(before) - len(before.lstrip(" \t"))]


def _opens_line(letters: str, place: int) -> bool:
    """Whether only white space stands before the byte at `place` in its line."""
    return not letters[letters.rfind("\n", 0, place) + 1 : place].strip(" \t")


def spot_of(source: SourceText, listing: Listing, loop: Loop) -> Spot | None:
    """The spot of a loop head: behind it and its leading assertions; None inside an expanded call."""
    letters = source.letters
    head = listing.line(loop.head)
    last = listing.line(max([loop.head, *loop.leading]))
    if head is None or last is None or head.call or last.call:
        return None
    newline = "\r\n" if "\r\n" in letters else "\n"
    if last.statement.opening not in _BEHIND:
        first = last.statement.first
        ending = newline + _indent(letters, first) if _opens_line(letters, first) else " "
        return Spot(loop.head, last.number, first, "", ending)
    after = last.statement.after
    rest = _REST.match(letters, after)
    if rest is None:
        return Spot(loop.head, last.number + 1, after, " ", "")
    following = listing.line(last.number + 1)
    if last.statement.opening == "ASSERT":
        indent = _indent(letters, last.statement.first)
    elif following is not None and not following.call and _opens_line(letters, following.statement.first):
        indent = _indent(letters, following.statement.first)
    else:
        indent = _indent(letters, last.statement.first)
    return Spot(loop.head, last.number + 1, rest.end(), newline + indent, "")


def with_assertions(letters: str, placed: list[tuple[Spot, list[str]]]) -> str:
    """The text with the assertions of each spot, in the order given."""
    pieces: list[str] = []
    done = 0
    for spot, texts in sorted(placed, key=lambda entry: entry[0].place):
        pieces.append(letters[done : spot.place])
        pieces += [f"{spot.opening}ASSERT {text}; {MARK}{spot.closing}" for text in texts]
        done = spot.place
    return "".join(pieces) + letters[done:]


def numbered(placed: list[tuple[Spot, list[str]]]) -> dict[int, tuple[int, int]]:
    """For each line of the new report that is a placed assertion, its loop head in the old one and its number there."""
    lines: dict[int, tuple[int, int]] = {}
    shift = 0
    for spot, texts in sorted(placed, key=lambda entry: entry[0].line):
        for number in range(len(texts)):
            lines[spot.line + shift + number] = (spot.head, number)
        shift += len(texts)
    return lines
