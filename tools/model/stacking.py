"""The stack machine: runs of a text with calls as it is written.

A state is a stack of frames; each is a procedure, a line of it and the values of its places. The last frame runs by the line
machine. A call pushes a frame. At the end of a pushed frame its INOUT and OUT parameters are handed back, and the frame goes.
"""

from __future__ import annotations

from dataclasses import dataclass

from model.calling import READ, RETURNED
from model.machine import DividedByZero, Evaluation, State, step
from model.program import CheckedProcedure, CheckedText, Expression, Line, Origin, Place, remainder


@dataclass(frozen=True)
class Frame:
    """A procedure as it is written, by its number, with a line and the values of its places."""

    procedure: int
    line: int
    values: State


Stack = tuple[Frame, ...]
"""The first frame stands first."""


@dataclass(frozen=True)
class Halt:
    """A halt with the written procedure and line; END, OUTSIDE and POST have none."""

    name: str
    origin: Origin | None


Turn = tuple[Stack, Halt | None]


class Faulty(Exception):
    """An assignment that faults, by the name of its halt."""


def kept(place: Place, value: int) -> int:
    """The value that a place gets when a value is assigned to it."""
    if place.wrap:
        return place.least + remainder(value - place.least, place.greatest - place.least + 1)
    if not place.least <= value <= place.greatest:
        raise Faulty("RANGE")
    return value


def given(place: Place, argument: Expression, values: State) -> int:
    """What a parameter gets from its argument, over the values of the caller."""
    evaluation = Evaluation(values)
    try:
        if place.kind == "BOOL":
            return int(evaluation.truth(argument))
        return kept(place, evaluation.number(argument))
    except DividedByZero:
        raise Faulty("DIVZERO") from None


def entered(callee: CheckedProcedure, arguments: tuple[Expression, ...], values: State) -> State:
    """The values with which a called procedure begins."""
    left = iter(arguments)
    begun: list[int] = []
    for number in callee.variables():
        place = callee.places[number]
        argument = None if place.mode == "LOCAL" else next(left)
        begun.append(given(place, argument, values) if argument is not None and place.mode in READ else place.least)
    copies = [number for number, place in enumerate(callee.places) if place.old]
    return (*begun, *(begun[callee.variable_of(number)] for number in copies))


def call(text: CheckedText, stack: Stack, line: Line) -> Turn:
    """The last frame calls."""
    assert line.callee is not None
    last = stack[-1]
    try:
        values = entered(text.procedures[line.callee], line.arguments, last.values)
    except Faulty as fault:
        return stack, Halt(str(fault), Origin(last.procedure, last.line))
    return (*stack, Frame(line.callee, 0, values)), None


def hand_back(text: CheckedText, stack: Stack) -> Turn:
    """The last frame has come to its end: its parameters are handed back one after the other, up to one that faults."""
    *below, caller, last = stack
    callee, procedure = text.procedures[last.procedure], text.procedures[caller.procedure]
    values = list(caller.values)
    for number, argument in zip(callee.parameters(), procedure.lines[caller.line].arguments):
        if callee.places[number].mode not in RETURNED:
            continue
        try:
            values[argument.value] = kept(procedure.places[argument.value], last.values[number])
        except Faulty as fault:
            changed = Frame(caller.procedure, caller.line, tuple(values))
            return (*below, changed, last), Halt(str(fault), Origin(caller.procedure, caller.line))
    return (*below, Frame(caller.procedure, caller.line + 1, tuple(values))), None


def turn(text: CheckedText, stack: Stack) -> Turn:
    """One step: the next stack, or with a halt the stack as it is then."""
    last = stack[-1]
    line = text.procedures[last.procedure].lines[last.line]
    if line.form == "CALL":
        return call(text, stack, line)
    next_line, stop, values, _ = step(text.procedures[last.procedure], last.line, last.values)
    if next_line is not None:
        return (*stack[:-1], Frame(last.procedure, next_line, values)), None
    assert stop is not None
    name = stop[0]
    if len(stack) > 1 and name == "END":
        return hand_back(text, stack)
    if len(stack) > 1 and name in ("OUTSIDE", "POST"):
        name = "ASSERT"
    return stack, Halt(name, None if name in ("END", "OUTSIDE", "POST") else Origin(last.procedure, last.line))


def run(text: CheckedText, number: int, values: State, limit: int = 1000) -> Turn:
    """The run of a procedure from some values: how it stands after so many steps, or with its halt before."""
    stack: Stack = (Frame(number, 0, values),)
    for _ in range(limit):
        stack, halt = turn(text, stack)
        if halt is not None:
            return stack, halt
    return stack, None
