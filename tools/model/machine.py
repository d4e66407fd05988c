"""The line machine: one step of a procedure from values of its places, and the decisions that the step takes."""

from __future__ import annotations

from typing import Container

from model.program import CheckedProcedure, Expression, Line, Place, quotient, remainder
from model.terms import holds
from model.ways import Stop

State = tuple[int, ...]


class DividedByZero(Exception):
    """A divisor is 0."""


class Evaluation:
    """The evaluation of an expression in a state from left to right, with its decisions in order."""

    def __init__(self, state: State) -> None:
        self.state = state
        self.decisions: list[bool] = []

    def decide(self, truth: bool) -> bool:
        """Notes a decision."""
        self.decisions.append(truth)
        return truth

    def number(self, expression: Expression) -> int:
        """The value of a whole expression."""
        if expression.kind == "number":
            return expression.value
        if expression.kind == "place":
            return self.state[expression.value]
        assert expression.left is not None
        left = self.number(expression.left)
        if expression.kind == "opposite":
            return -left
        assert expression.right is not None
        right = self.number(expression.right)
        if expression.kind in ("DIV", "MOD"):
            return self.divide(expression, left, right)
        return {"+": left + right, "-": left - right, "*": left * right}[expression.kind]

    def divide(self, expression: Expression, left: int, right: int) -> int:
        """A quotient or remainder; whether the divisor is 0 is decided where its static bounds leave that open."""
        assert expression.right is not None and expression.right.bounds is not None
        least, greatest = expression.right.bounds
        if least <= 0 <= greatest:
            self.decide(right != 0)
        if right == 0:
            raise DividedByZero
        return quotient(left, right) if expression.kind == "DIV" else remainder(left, right)

    def truth(self, expression: Expression) -> bool:
        """The value of a condition."""
        kind = expression.kind
        if kind == "truth":
            return bool(expression.value)
        if kind == "flag":
            return self.decide(self.state[expression.value] >= 1)
        assert expression.left is not None
        if kind == "NOT":
            return not self.truth(expression.left)
        assert expression.right is not None
        if kind == "AND":
            return self.truth(expression.left) and self.truth(expression.right)
        if kind == "OR":
            return self.truth(expression.left) or self.truth(expression.right)
        left = self.number(expression.left)
        return self.decide(holds(kind, left, self.number(expression.right)))

    def assigned(self, place: Place, expression: Expression) -> int | None:
        """The value that an assignment gives, or None outside the range."""
        if expression.kind == "flag":
            return self.state[expression.value]
        if place.kind == "BOOL":
            return int(self.truth(expression))
        value = self.number(expression)
        assert expression.bounds is not None
        if place.wrap:
            return place.least + remainder(value - place.least, place.greatest - place.least + 1)
        if expression.bounds[0] < place.least and not self.decide(value >= place.least):
            return None
        if expression.bounds[1] > place.greatest and not self.decide(value <= place.greatest):
            return None
        return value


Step = tuple[int | None, Stop | None, State, tuple[bool, ...]]
"""The next line or the stop, the values after the step, and its decisions."""


def after_condition(line: Line, number: int, truth: bool) -> tuple[int | None, Stop | None]:
    """Where the condition of a line leads."""
    if line.form == "PRE":
        return (number + 1, None) if truth else (None, ("OUTSIDE", -1))
    if line.form == "ASSERT":
        return (number + 1, None) if truth else (None, ("ASSERT", number))
    if line.form == "ENDPROC":
        return None, ("END", -1) if truth else ("POST", -1)
    if line.form == "IF":
        return (number + 1 if truth else line.target), None
    return (line.target if truth else number + 1), None


def step(procedure: CheckedProcedure, number: int, state: State) -> Step:
    """One step from a line; a halt leaves the values as they were."""
    line = procedure.lines[number]
    if line.expression is None:
        return (number + 1 if line.target is None else line.target), None, state, ()
    evaluation = Evaluation(state)
    try:
        if line.form != "ASSIGN":
            next_line, stop = after_condition(line, number, evaluation.truth(line.expression))
            return next_line, stop, state, tuple(evaluation.decisions)
        assert line.place is not None
        value = evaluation.assigned(procedure.places[line.place], line.expression)
    except DividedByZero:
        return None, ("DIVZERO", number), state, tuple(evaluation.decisions)
    if value is None:
        return None, ("RANGE", number), state, tuple(evaluation.decisions)
    changed = (*state[: line.place], value, *state[line.place + 1 :])
    return number + 1, None, changed, tuple(evaluation.decisions)


def takes(
    procedure: CheckedProcedure,
    first: int,
    state: State,
    decisions: tuple[bool, ...],
    stop: Stop,
    heads: Container[int] = (),
) -> bool:
    """Whether the steps from a line, up to a halt or to the first of the heads, take these decisions and stop so."""
    line: int | None = first
    left = decisions
    for _ in range(2 * len(procedure.lines) + 2):
        assert line is not None
        line, halt, state, taken = step(procedure, line, state)
        if left[: len(taken)] != taken:
            return False
        left = left[len(taken) :]
        if line is not None and line in heads:
            halt = ("HEAD", line)
        if halt is not None:
            return not left and halt == stop
    return False
