"""The listing of `malpas_literals`: the places of each procedure, and the literals of its open threats with their numbers."""

from __future__ import annotations

import re
from dataclasses import dataclass, field
from typing import Iterable, Mapping, Optional

HEAD = "MALPAS LITERALS 1"
LAST = "END"
OLD = "OLD "
RELATIONS = ("=", "/=", "<=", "<", ">=", ">")
_PLACE = re.compile(r"PLACE (\d+) (-?\d+) (-?\d+) (.+)")
_THREAT = re.compile(r"THREAT (\d+) REGION L(\d+)")
_LITERAL = re.compile(r"LITERAL (\d+) (.+)")
_PART = re.compile(r"(?:(\d+)\*)?(.+)", re.DOTALL)


class NotAListing(Exception):
    """The lines are no listing of the version that is known here."""


@dataclass(frozen=True)
class Place:
    """A place of a procedure with its range; an OLD copy has its mark in its name."""

    name: str
    least: int
    greatest: int


@dataclass(frozen=True)
class Literal:
    """A literal: how the sum of its parts compares to a bound; one that always or never holds has no relation."""

    parts: Mapping[str, int]
    relation: str
    bound: int
    never: bool = False


@dataclass
class OpenThreat:
    """An open threat: its number in its procedure, the first line of its region, and its literals in order."""

    number: int
    region: int
    literals: list[Literal] = field(default_factory=list)


@dataclass
class Listed:
    """A procedure with its places and its open threats."""

    name: str
    places: list[Place] = field(default_factory=list)
    threats: list[OpenThreat] = field(default_factory=list)
    reducible: bool = True


def _pieces(text: str) -> Iterable[str]:
    """The parts of a sum, each with its sign, cut where a sign stands outside all parentheses."""
    depth = 0
    start = 0
    for at, letter in enumerate(text):
        if letter in "()":
            depth += 1 if letter == "(" else -1
        elif depth == 0 and at > start and text[at : at + 3] in (" + ", " - "):
            yield text[start:at].strip()
            start = at
    yield text[start:].strip()


def parts_of(text: str) -> dict[str, int]:
    """The parts of a sum, each by its text, with their coefficients."""
    parts: dict[str, int] = {}
    for piece in _pieces(text):
        sign = -1 if piece.startswith("-") else 1
        match = _PART.fullmatch(piece.lstrip("+-").strip())
        if match is None:
            raise NotAListing(f"no part of a sum: {piece}")
        parts[match.group(2)] = sign * int(match.group(1) or 1)
    return parts


def literal_of(text: str) -> Literal:
    """The literal that a text says."""
    if text in ("ALWAYS", "NEVER"):
        return Literal({}, "", 0, text == "NEVER")
    words = text.rsplit(" ", 2)
    if len(words) != 3 or words[1] not in RELATIONS:
        raise NotAListing(f"no literal: {text}")
    return Literal(parts_of(words[0]), words[1], int(words[2]))


def _take(line: str, procedure: Listed) -> bool:
    """Takes a line of a procedure; answers whether it has a form."""
    threat = procedure.threats[-1] if procedure.threats else None
    place = _PLACE.fullmatch(line)
    opened = _THREAT.fullmatch(line)
    literal = _LITERAL.fullmatch(line)
    if place is not None and threat is None and int(place.group(1)) == len(procedure.places):
        procedure.places.append(Place(place.group(4), int(place.group(2)), int(place.group(3))))
    elif opened is not None:
        procedure.threats.append(OpenThreat(int(opened.group(1)), int(opened.group(2))))
    elif literal is not None and threat is not None and int(literal.group(1)) == len(threat.literals):
        threat.literals.append(literal_of(literal.group(2)))
    elif line == "IRREDUCIBLE" and threat is None:
        procedure.reducible = False
    else:
        return False
    return True


def read_listing(text: str) -> list[Listed]:
    """The procedures of a listing."""
    lines = text.split("\n")
    if len(lines) < 3 or lines[0] != HEAD or lines[-2:] != [LAST, ""]:
        raise NotAListing("no listing of this version, or one that is not whole")
    found: list[Listed] = []
    current: Optional[Listed] = None
    for line in lines[1:-2]:
        if line.startswith("PROCEDURE "):
            current = Listed(line[len("PROCEDURE ") :])
            found.append(current)
        elif current is None or not _take(line, current):
            raise NotAListing(f"no line of a listing: {line}")
    return found
