"""Calls expanded in place: the text without calls for which a text with calls stands.

A call becomes assignments that give the variables of the procedure called their first values and its OLD copies those of
their variables; that procedure's own expanded lines, with PRE and POST as assertions and RETURN as a jump to the latter; and
assignments that hand INOUT and OUT parameters back. The places of the procedure called become LOCAL variables of the caller,
between its own variables and its OLD copies.
"""

from __future__ import annotations

from dataclasses import dataclass, replace
from itertools import accumulate
from typing import Callable, Iterator

from model.calling import READ, RETURNED
from model.program import CheckedProcedure, CheckedText, Expression, Line, Origin, Place, Span

INSIDE = {"PRE": "ASSERT", "ENDPROC": "ASSERT", "RETURN": "GOTO"}
"""The forms that a line of a procedure takes where the procedure is called; the others stay."""


def read(place: Place, number: int) -> Expression:
    """The value of a place, read under a number."""
    if place.kind == "BOOL":
        return Expression("flag", number)
    return Expression("place", number, bounds=(place.least, place.greatest))


def least(place: Place) -> Expression:
    """The least value of a place, which is FALSE for BOOL."""
    if place.kind == "BOOL":
        return Expression("truth", 0)
    return Expression("number", place.least, bounds=(place.least, place.least))


def renumbered(expression: Expression, number: Callable[[int], int]) -> Expression:
    """An expression whose places have other numbers."""
    if expression.kind in ("place", "flag"):
        return replace(expression, value=number(expression.value))
    left = None if expression.left is None else renumbered(expression.left, number)
    right = None if expression.right is None else renumbered(expression.right, number)
    return replace(expression, left=left, right=right)


def moved(line: Line, place: Callable[[int], int], target: Callable[[int], int]) -> Line:
    """A line whose places and lines have other numbers."""
    return Line(
        line.form,
        None if line.expression is None else renumbered(line.expression, place),
        None if line.place is None else place(line.place),
        None if line.target is None else target(line.target),
    )


def brought(place: Place, number: int) -> Place:
    """A place that the call of a number brings."""
    mark = "o" if place.old else "c"
    return replace(place, name=f"{mark}{number}_{place.name}", mode="LOCAL", old=False)


@dataclass(frozen=True)
class Callee:
    """A procedure that may be called: as it is written, and expanded."""

    written: CheckedProcedure
    expanded: CheckedProcedure

    def handed_back(self) -> list[int]:
        """The INOUT and OUT parameters."""
        return [number for number in self.written.variables() if self.written.places[number].mode in RETURNED]

    def before(self) -> int:
        """How many lines stand before its own: one for each of its written places."""
        return len(self.written.places)

    def width(self) -> int:
        """How many lines a call of it becomes."""
        return self.before() + len(self.expanded.lines) + len(self.handed_back())


class Expansion:
    """The expansion of one procedure, over those before it."""

    def __init__(self, written: CheckedProcedure, number: int, callees: list[Callee]) -> None:
        self.written = written
        self.number = number
        self.own = len(written.variables())
        self.callees = [None if line.callee is None else callees[line.callee] for line in written.lines]
        widths = [1 if callee is None else callee.width() for callee in self.callees]
        brings = [0 if callee is None else len(callee.expanded.places) for callee in self.callees]
        self.starts = list(accumulate(widths, initial=0))
        self.bases = list(accumulate(brings, initial=self.own))

    def place(self, number: int) -> int:
        """The new number of a place: its variables stand first, its OLD copies behind all that its calls bring."""
        return number if number < self.own else number + self.bases[-1] - self.own

    def places(self) -> list[Place]:
        """All places."""
        found = self.written.places[: self.own]
        calls = [callee for callee in self.callees if callee is not None]
        for number, callee in enumerate(calls, 1):
            found.extend(brought(place, number) for place in callee.expanded.places)
        return found + self.written.places[self.own :]

    def values_in(self, callee: Callee, base: int, arguments: tuple[Expression, ...]) -> Iterator[Line]:
        """The assignments before the callee's lines, in which its places are numbered from a base on."""
        left = list(arguments)
        for number in callee.written.variables():
            place = callee.written.places[number]
            argument = left.pop(0) if place.mode != "LOCAL" else None
            if argument is not None and place.mode in READ:
                yield Line("ASSIGN", renumbered(argument, self.place), base + number)
            else:
                yield Line("ASSIGN", least(place), base + number)
        copies = len(callee.written.places) - len(callee.written.variables())
        first = len(callee.expanded.places) - copies
        for index in range(copies):
            number = callee.written.variable_of(len(callee.written.variables()) + index)
            yield Line("ASSIGN", read(callee.written.places[number], base + number), base + first + index)

    def values_back(self, callee: Callee, base: int, arguments: tuple[Expression, ...]) -> Iterator[Line]:
        """The assignments behind the callee's lines."""
        for number, argument in zip(callee.written.parameters(), arguments):
            if number in callee.handed_back():
                yield Line("ASSIGN", read(callee.written.places[number], base + number), self.place(argument.value))

    def lines_of(self, index: int) -> Iterator[Line]:
        """The lines that a written line becomes."""
        line, callee = self.written.lines[index], self.callees[index]
        if callee is None:
            yield moved(line, self.place, lambda target: self.starts[target])
            return
        base = self.bases[index]
        first = self.starts[index] + callee.before()
        yield from self.values_in(callee, base, line.arguments)
        for inner in callee.expanded.lines:
            inner = moved(inner, lambda place: base + place, lambda target: first + target)
            yield replace(inner, form=INSIDE.get(inner.form, inner.form))
        yield from self.values_back(callee, base, line.arguments)

    def origins_of(self, index: int) -> list[Origin]:
        """The origins of these lines: the callee's own lines keep theirs, all others come from the call."""
        here, callee = Origin(self.number, index), self.callees[index]
        if callee is None:
            return [here]
        return [here] * callee.before() + callee.expanded.origins + [here] * len(callee.handed_back())

    def procedure(self) -> CheckedProcedure:
        """The whole expansion."""
        indices = range(len(self.written.lines))
        lines = [line for index in indices for line in self.lines_of(index)]
        origins = [origin for index in indices for origin in self.origins_of(index)]
        spans = [
            Span(self.starts[index], self.starts[index + 1] - 1, callee.written.name)
            for index, callee in enumerate(self.callees)
            if callee is not None
        ]
        return CheckedProcedure(self.written.name, self.places(), lines, origins, spans)


def expanded(text: CheckedText) -> CheckedText:
    """The text with all calls expanded."""
    callees: list[Callee] = []
    for number, written in enumerate(text.procedures):
        callees.append(Callee(written, Expansion(written, number, callees).procedure()))
    return CheckedText(text.title, text.profile, [callee.expanded for callee in callees])
