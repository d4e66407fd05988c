"""The ways through one line: the decisions that a step takes, in the order of evaluation, and what each way assigns."""

from __future__ import annotations

from dataclasses import dataclass
from typing import Callable, Iterator

from model.parsing import RELATIONS
from model.program import WHOLE, CheckedProcedure, Expression, Line, Place
from model.terms import OPPOSITE, Literal, Term, both, num, var

Stop = tuple[str, int]
"""`HEAD`, `ASSERT`, `DIVZERO` and `RANGE` with a line; `END`, `OUTSIDE` and `POST` with -1."""

DIVISION = "division by zero"


@dataclass(frozen=True)
class Partial:
    """What evaluation has met so far: its decisions, their literals, and its outcome, a term, a truth value or DIVISION."""

    decisions: tuple[bool, ...]
    literals: tuple[Literal, ...]
    outcome: Term | bool | str

    def then(self, other: Partial) -> Partial:
        """This and then another."""
        return Partial(self.decisions + other.decisions, self.literals + other.literals, other.outcome)


@dataclass(frozen=True)
class Way:
    """A way through a line: it assigns at most one place, and leads to a line or to a stop."""

    decisions: tuple[bool, ...]
    literals: tuple[Literal, ...]
    assigned: tuple[int, Term] | None
    next_line: int | None
    stop: Stop | None


def follow(first: list[Partial], after: Callable[[Term | bool], list[Partial]]) -> list[Partial]:
    """All evaluations of a first thing and then of what comes after its outcome; a division by zero ends it."""
    joined = []
    for one in first:
        if one.outcome == DIVISION:
            joined.append(one)
        else:
            assert not isinstance(one.outcome, str)
            joined.extend(one.then(two) for two in after(one.outcome))
    return joined


def plain(outcome: Term | bool) -> list[Partial]:
    """An outcome without decision."""
    return [Partial((), (), outcome)]


def decide(left: Term, relation: str, right: Term, yes: Term | bool | str, no: Term | bool | str) -> list[Partial]:
    """One decision, true first."""
    return [
        Partial((True,), ((left, relation, right),), yes),
        Partial((False,), ((left, OPPOSITE[relation], right),), no),
    ]


def may_be_zero(divisor: Expression) -> bool:
    """Whether a divisor's static bounds hold 0."""
    assert divisor.bounds is not None
    return divisor.bounds[0] <= 0 <= divisor.bounds[1]


def joined(expression: Expression, left: Term, right: Term) -> list[Partial]:
    """An operator once both of its sides are there."""
    kind = expression.kind
    if kind in RELATIONS:
        return decide(left, kind, right, True, False)
    if kind == "-":
        return plain(both("+", left, both("*", num(-1), right)))
    if kind in ("DIV", "MOD"):
        assert expression.right is not None
        term = both(kind, left, right)
        return decide(right, "/=", num(0), term, DIVISION) if may_be_zero(expression.right) else plain(term)
    return plain(both(kind, left, right))


def evaluations(expression: Expression) -> list[Partial]:
    """All evaluations of an expression, ordered by their decisions, true first."""
    kind = expression.kind
    if kind == "number":
        return plain(num(expression.value))
    if kind == "place":
        return plain(var(expression.value))
    if kind == "flag":
        return decide(var(expression.value), ">=", num(1), True, False)
    if kind == "truth":
        return plain(bool(expression.value))
    assert expression.left is not None
    first = evaluations(expression.left)
    if kind == "opposite":
        return follow(first, lambda term: plain(both("*", num(-1), term)))
    if kind == "NOT":
        return follow(first, lambda truth: plain(not truth))
    assert expression.right is not None
    second = evaluations(expression.right)
    if kind in ("AND", "OR"):
        return follow(first, lambda truth: second if truth == (kind == "AND") else plain(truth))
    return follow(first, lambda left: follow(second, lambda right: joined(expression, left, right)))


def with_range(place: Place, expression: Expression, fault: str) -> Callable[[Term], list[Partial]]:
    """What an assignment to a place does with a whole value; the fault is its outcome outside the range."""
    assert expression.bounds is not None
    least, greatest = expression.bounds

    def above(term: Term) -> list[Partial]:
        """The decision on the greatest value, where there is one."""
        if greatest <= place.greatest:
            return plain(term)
        return decide(term, "<=", num(place.greatest), term, fault)

    def below(term: Term) -> list[Partial]:
        """The decision on the least value, where there is one, and then the other."""
        if least >= place.least:
            return above(term)
        low, high = decide(term, ">=", num(place.least), term, fault)
        return [*(low.then(after) for after in above(term)), high]

    return below


def wrapped(place: Place, expression: Expression, term: Term) -> Term:
    """The value that a wrapping place takes."""
    assert expression.bounds is not None
    if place.least <= expression.bounds[0] and expression.bounds[1] <= place.greatest:
        return term
    length = place.greatest - place.least + 1
    return both("+", num(place.least), both("MOD", both("+", term, num(-place.least)), num(length)))


def assignments(place: Place, expression: Expression) -> list[Partial]:
    """All evaluations of an assignment's right side; outcomes are terms, DIVISION, or `RANGE`."""
    if place.kind == "BOOL":
        if expression.kind == "flag":
            return plain(var(expression.value))
        return follow(evaluations(expression), lambda truth: plain(num(int(truth))))
    if place.kind != WHOLE:
        return evaluations(expression)
    if place.wrap:
        return follow(evaluations(expression), lambda term: plain(wrapped(place, expression, term)))
    return follow(evaluations(expression), with_range(place, expression, "RANGE"))


def lead(line: Line, number: int, outcome: Term | bool | str) -> tuple[int | None, Stop | None]:
    """Where an outcome leads from a line: to the next line, or to a stop."""
    if outcome == DIVISION:
        return None, ("DIVZERO", number)
    if outcome == "RANGE":
        return None, ("RANGE", number)
    if line.form == "ASSIGN":
        return number + 1, None
    false_stop = {"PRE": ("OUTSIDE", -1), "ASSERT": ("ASSERT", number), "ENDPROC": ("POST", -1)}
    if line.form == "ENDPROC" and outcome is True:
        return None, ("END", -1)
    if line.form in false_stop:
        return (number + 1, None) if outcome is True else (None, false_stop[line.form])
    if line.form == "IF":
        return (number + 1 if outcome is True else line.target), None
    return (line.target if outcome is True else number + 1), None


def ways_of(procedure: CheckedProcedure, number: int) -> list[Way]:
    """The ways through a line, ordered by their decisions, true first."""
    line = procedure.lines[number]
    if line.expression is None:
        return [Way((), (), None, number + 1 if line.target is None else line.target, None)]
    if line.form == "ASSIGN":
        assert line.place is not None
        partials = assignments(procedure.places[line.place], line.expression)
    else:
        partials = evaluations(line.expression)
    ways = []
    for partial in partials:
        next_line, stop = lead(line, number, partial.outcome)
        assigned = (line.place, partial.outcome) if line.form == "ASSIGN" and stop is None else None
        ways.append(Way(partial.decisions, partial.literals, assigned, next_line, stop))  # type: ignore[arg-type]
    return ways


def counts(expression: Expression) -> dict[str, int]:
    """How many evaluations an expression has by outcome: `true`, `false`, `value` and `fault`."""
    kind = expression.kind
    if kind in ("number", "place"):
        return {"value": 1, "fault": 0}
    if kind == "flag":
        return {"true": 1, "false": 1, "fault": 0}
    if kind == "truth":
        return {"true": expression.value, "false": 1 - expression.value, "fault": 0}
    assert expression.left is not None
    first = counts(expression.left)
    if kind == "opposite":
        return first
    if kind == "NOT":
        return {"true": first["false"], "false": first["true"], "fault": first["fault"]}
    assert expression.right is not None
    second = counts(expression.right)
    if kind in ("AND", "OR"):
        return counts_of_join(kind, first, second)
    value = first["value"] * second["value"]
    fault = first["fault"] + first["value"] * second["fault"]
    if kind in RELATIONS:
        return {"true": value, "false": value, "fault": fault}
    zero = value if kind in ("DIV", "MOD") and may_be_zero(expression.right) else 0
    return {"value": value, "fault": fault + zero}


def counts_of_join(kind: str, first: dict[str, int], second: dict[str, int]) -> dict[str, int]:
    """The counts of AND and OR."""
    goes_on, decided = ("true", "false") if kind == "AND" else ("false", "true")
    ways = first[goes_on]
    return {
        goes_on: ways * second[goes_on],
        decided: first[decided] + ways * second[decided],
        "fault": first["fault"] + ways * second["fault"],
    }


def count_ways(procedure: CheckedProcedure, number: int) -> Iterator[tuple[int | None, int]]:
    """How many ways lead from a line to each next line, or to a stop where that is None."""
    line = procedure.lines[number]
    if line.expression is None:
        yield (number + 1 if line.target is None else line.target), 1
        return
    found = counts(line.expression)
    yield None, found["fault"]
    if line.form == "ASSIGN":
        assert line.place is not None
        yield from count_assignments(procedure.places[line.place], line.expression, number, found)
        return
    for truth in (True, False):
        yield lead(line, number, truth)[0], found["true" if truth else "false"]


def count_assignments(
    place: Place, expression: Expression, number: int, found: dict[str, int]
) -> Iterator[tuple[int | None, int]]:
    """The counts of an assignment without those of a division by zero."""
    if expression.bounds is None:
        yield number + 1, 1 if expression.kind == "flag" else found["true"] + found["false"]
        return
    yield number + 1, found["value"]
    if place.kind == WHOLE and not place.wrap:
        if expression.bounds[0] < place.least:
            yield None, found["value"]
        if expression.bounds[1] > place.greatest:
            yield None, found["value"]
