"""Checked procedures: places, expressions with their static bounds, and lines."""

from __future__ import annotations

from dataclasses import dataclass, field

Bounds = tuple[int, int]

WHOLE = "whole number"
"""The kind of what is whole; no declared name is spelt so."""


@dataclass(frozen=True)
class Place:
    """A variable, or the OLD copy of one; its kind is WHOLE, `BOOL`, or the name of its enumeration."""

    name: str
    mode: str
    kind: str
    least: int
    greatest: int
    wrap: bool = False
    old: bool = False

    def text(self) -> str:
        """How it is printed."""
        return "OLD " + self.name if self.old else self.name


@dataclass(frozen=True, eq=False)
class Expression:
    """A checked expression: `number`, `place`, `flag` (a BOOL place), `truth`, `opposite`, `NOT`, or an operator with two sides.

    What is whole has static bounds; conditions have none.
    """

    kind: str
    value: int = 0
    left: Expression | None = None
    right: Expression | None = None
    bounds: Bounds | None = None


@dataclass(frozen=True)
class Line:
    """A line: its form, its expression, the place that it assigns, and the line to which it jumps.

    A call has the number of the procedure that it calls and its arguments; those for INOUT and OUT are a place or a flag.
    """

    form: str
    expression: Expression | None = None
    place: int | None = None
    target: int | None = None
    callee: int | None = None
    arguments: tuple[Expression, ...] = ()


@dataclass(frozen=True)
class Origin:
    """The written line from which a line of an expanded procedure comes."""

    procedure: int
    line: int


@dataclass(frozen=True)
class Span:
    """The first and the last line that one of a procedure's own calls became, and the name of the procedure called."""

    first: int
    last: int
    callee: str


@dataclass
class CheckedProcedure:
    """A procedure of an accepted text; expanded, it also has the origin of each line and the span of each call."""

    name: str
    places: list[Place]
    lines: list[Line]
    origins: list[Origin] = field(default_factory=list)
    spans: list[Span] = field(default_factory=list)

    def variables(self) -> list[int]:
        """The numbers of the places that are no OLD copies."""
        return [number for number, place in enumerate(self.places) if not place.old]

    def parameters(self) -> list[int]:
        """The numbers of the IN, INOUT and OUT variables, which a call gives arguments."""
        return [number for number in self.variables() if self.places[number].mode != "LOCAL"]

    def variable_of(self, number: int) -> int:
        """For an OLD copy the number of its variable."""
        name = self.places[number].name
        return next(k for k, place in enumerate(self.places) if place.name == name and not place.old)


@dataclass
class CheckedText:
    """An accepted text."""

    title: str
    profile: int
    procedures: list[CheckedProcedure]


def quotient(left: int, right: int) -> int:
    """The quotient that leaves a remainder from 0 to |right| - 1."""
    return (left - remainder(left, right)) // right


def remainder(left: int, right: int) -> int:
    """The remainder from 0 to |right| - 1."""
    return left % abs(right)


def quotient_bounds(left: Bounds, right: Bounds) -> Bounds:
    """The static bounds of a quotient."""
    if right[0] == right[1] > 0:
        return quotient(left[0], right[0]), quotient(left[1], right[0])
    if left[0] >= 0 and right[0] >= 0:
        return 0, left[1]
    greatest = max(abs(left[0]), abs(left[1]))
    return -greatest, greatest


def bounds_of(operator: str, left: Bounds, right: Bounds) -> Bounds:
    """The static bounds of an operator with two whole sides."""
    if operator == "+":
        return left[0] + right[0], left[1] + right[1]
    if operator == "-":
        return left[0] - right[1], left[1] - right[0]
    if operator == "*":
        corners = [a * b for a in left for b in right]
        return min(corners), max(corners)
    if operator == "DIV":
        return quotient_bounds(left, right)
    return 0, max(0, max(abs(right[0]), abs(right[1])) - 1)
