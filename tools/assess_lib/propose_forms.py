"""What may hold at a loop head: the templates of assertions, filled with what a procedure speaks of."""

from __future__ import annotations

import re
from dataclasses import dataclass
from itertools import combinations, permutations
from typing import Callable, Iterator, Optional

from assess_lib.expressions import RELATIONS, Expression, NotRead, Pair, Range, Scope, Signed, read_expression, scope_of
from assess_lib.outline import Mode, Outline, Procedure
from assess_lib.statements import Statement
from assess_lib.tokens import Kind

_DENIED = {"=": "/=", "/=": "=", "<": ">=", ">=": "<", "<=": ">", ">": "<="}


@dataclass(frozen=True)
class Form:
    """An assertion that may hold. Of a bound, `term` is what is bounded, by `low` from below and `high` from above."""

    text: str
    term: str = ""
    low: Optional[int] = None
    high: Optional[int] = None
    forks: bool = False


@dataclass(frozen=True)
class Stage:
    """Forms that are tried together, at most `batch` of them at a time for all heads."""

    name: str
    forms: list[Form]
    batch: int


def _each_once(forms: Iterator[Form]) -> list[Form]:
    """Forms without repeats of their text, in order."""
    return list({form.text: form for form in forms}.values())


def _number(value: int, names: dict[int, str]) -> str:
    """A number as the text spells it."""
    return names.get(value, str(value))


class Forms:
    """The templates filled for one procedure."""

    def __init__(self, outline: Outline, procedure: Procedure) -> None:
        self._outline = outline
        self._procedure = procedure
        self._scope: Scope = scope_of(outline, procedure)
        self._places = dict(self._scope.variables)
        for variable in procedure.variables:
            if variable.mode is Mode.INOUT and variable.name in self._scope.variables:
                self._places["OLD " + variable.name] = self._scope.variables[variable.name]
        self._fixed = {each.name for each in procedure.variables if each.mode is Mode.IN}
        self._names: dict[int, str] = {}
        self._numbers = self._numbers_of_text()

    def stages(self) -> list[Stage]:
        """The stages in the order in which they are tried."""
        return [
            Stage("values and order", _each_once(self._first()), 60),
            Stage("differences", _each_once(self._differences()), 90),
            Stage("fixed values", _each_once(self._fixed_values()), 90),
            Stage("conditions", _each_once(self._conditions()), 4),
            Stage("alternatives", _each_once(self._alternatives()), 3),
            Stage("sums", _each_once(self._sums())[:240], 80),
        ]

    def _statements(self) -> list[Statement]:
        """All statements of the procedure."""
        procedure = self._procedure
        ends = [each for each in (procedure.pre, procedure.post) if each is not None]
        return [*(variable.statement for variable in procedure.variables), *ends, *procedure.body]

    def _numbers_of_text(self) -> list[int]:
        """The numbers that the procedure speaks of, in order; a named one keeps its name."""
        found: set[int] = set()
        for statement in self._statements():
            for token in statement.tokens:
                declared = self._outline.declared.get(token.text)
                if token.kind is Kind.NUMBER:
                    found.add(int(token.text))
                elif declared is not None and declared.opening == "CONST":
                    number = self._scope.numbers[token.text]
                    found.add(number)
                    self._names.setdefault(number, token.text)
        return sorted(found)

    def _whole(self) -> dict[str, Range]:
        """The places that hold whole numbers, first those that a step can change, last those of mode IN."""
        whole = {name: range_ for name, range_ in self._places.items() if not (range_.flag or range_.listed)}
        order = sorted(whole, key=lambda name: (name in self._fixed) * 2 + name.startswith("OLD "))
        return {name: whole[name] for name in order}

    def _ends(self) -> list[int]:
        """The numbers of the text and the ends of ranges, and one beside each."""
        ends = {end for range_ in self._whole().values() for end in (range_.least, range_.greatest)} | set(self._numbers)
        return sorted({end + beside for end in ends for beside in (-1, 0, 1)})

    def _first(self) -> Iterator[Form]:
        """Facts of PRE, truth values, enumeration values, one place against a number, and two places in order."""
        yield from self._precondition()
        yield from self._values()
        whole = self._whole()
        for left, right in combinations(whole, 2):
            yield Form(f"{left} = {right}", f"{left} - {right}", 0, 0)
        for left, right in combinations(whole, 2):
            yield Form(f"{left} <= {right}", f"{left} - {right}", None, 0)
            yield Form(f"{left} >= {right}", f"{left} - {right}", 0, None)
        for name in filter(self._moves, whole):
            yield from self._bounds(name, whole[name])

    def _moves(self, place: str) -> bool:
        """Whether a step can change a place."""
        return place not in self._fixed and not place.startswith("OLD ")

    def _fixed_values(self) -> Iterator[Form]:
        """What no step can change: a variable of mode IN or an OLD one against a number, and two of mode IN that differ by one."""
        whole = self._whole()
        for name in whole:
            if not self._moves(name):
                yield from self._bounds(name, whole[name])
        yield from self._apart(lambda left, right: left in self._fixed and right in self._fixed)

    def _bounds(self, name: str, range_: Range) -> Iterator[Form]:
        """A place against each number inside its range."""
        inside = [end for end in self._ends() if range_.least <= end <= range_.greatest]
        for end in inside:
            yield Form(f"{name} = {_number(end, self._names)}", name, end, end)
        for end in inside:
            if end < range_.greatest:
                yield Form(f"{name} <= {_number(end, self._names)}", name, None, end)
            if end > range_.least:
                yield Form(f"{name} >= {_number(end, self._names)}", name, end, None)

    def _values(self) -> Iterator[Form]:
        """What places of BOOL and of enumerations may be; with enumerations also of one another."""
        for variable in self._procedure.variables:
            range_ = self._scope.variables.get(variable.name)
            if range_ is None or not (range_.flag or range_.listed):
                continue
            places = [variable.name] + (["OLD " + variable.name] if variable.mode is Mode.INOUT else [])
            for place in places:
                if range_.flag:
                    yield Form(place)
                    yield Form(f"NOT {place}")
                else:
                    yield from (Form(f"{place} = {value}") for value in self._values_of(variable.type_text))
            if len(places) == 2 and range_.listed:
                yield Form(f"{places[0]} = {places[1]}")

    def _values_of(self, type_name: str) -> list[str]:
        """The values of an enumeration."""
        statement = self._outline.declared.get(type_name)
        if statement is None or statement.words[3:4] != ["("]:
            return []
        return [token.text for token in statement.tokens[4:] if token.kind is Kind.NAME]

    def _precondition(self) -> Iterator[Form]:
        """What PRE says, of the values at the beginning, as far as no step can change it."""
        inout = {variable.name for variable in self._procedure.variables if variable.mode is Mode.INOUT}
        for part in self._parts(self._procedure.pre):
            words = ["OLD " + word if word in inout else word for word in part.text.replace("OLD ", "").split()]
            if not _forks(part) and part.text != "TRUE":
                yield Form(_tidy(" ".join(words)))

    def _parts(self, statement: Optional[Statement]) -> list[Expression]:
        """The conjuncts of the expression of a statement."""
        if statement is None:
            return []
        skip = 2 if statement.words[:2] == ["EXIT", "WHEN"] else 1
        try:
            return _conjuncts(read_expression(list(statement.tokens[skip:])))
        except NotRead:
            return []

    def _differences(self) -> Iterator[Form]:
        """Two places, not both of mode IN, that differ by a number; denials of enumeration values."""
        yield from self._apart(lambda left, right: not (left in self._fixed and right in self._fixed))
        for variable in self._procedure.variables:
            if variable.name in self._scope.variables and self._scope.variables[variable.name].listed:
                yield from (Form(f"{variable.name} /= {value}") for value in self._values_of(variable.type_text))

    def _apart(self, wanted: Callable[[str, str], bool]) -> Iterator[Form]:
        """Two places that are wanted and differ by a number of the text, or by one: exactly, at most or at least."""
        whole = self._whole()
        numbers = sorted({number for number in [1, *map(abs, self._numbers)] if number > 0})
        in_order = set(combinations(whole, 2))
        for number in numbers:
            for left, right in permutations(whole, 2):
                if not wanted(left, right):
                    continue
                shown = f"{left} {{}} {right} + {_number(number, self._names)}"
                if (left, right) in in_order:
                    term, low, high = f"{left} - {right}", number, number
                else:
                    term, low, high = f"{right} - {left}", -number, -number
                yield Form(shown.format("="), term, low, high)
                up = left + " - " + right == term
                yield Form(shown.format("<="), term, None if up else low, high if up else None)
                yield Form(shown.format(">="), term, low if up else None, None if up else high)

    def _atoms(self) -> Iterator[Expression]:
        """The conjuncts of POST and PRE, and the tests and assertions of the body."""
        procedure = self._procedure
        yield from self._parts(procedure.post)
        yield from self._parts(procedure.pre)
        for statement in procedure.body:
            if statement.opening in ("IF", "EXIT", "ASSERT") and len(statement.tokens) > 1:
                yield from self._parts(statement)

    def _conditions(self) -> Iterator[Form]:
        """The conditions that the text has, and their denials."""
        for atom in self._atoms():
            if atom.text not in ("TRUE", "FALSE"):
                yield Form(_tidy(atom.text), forks=_forks(atom))
                yield Form(_denied(atom), forks=_forks(atom))

    def _choices(self) -> list[str]:
        """What may be one side of an alternative: truth and enumeration values of places that move."""
        flags = [form.text for form in self._values() if form.text.split()[-1] not in self._fixed]
        tests = [form.text for form in self._conditions() if not form.forks]
        return list(dict.fromkeys([*flags, *tests]))

    def _alternatives(self) -> Iterator[Form]:
        """One of two: a truth or enumeration value, or else a condition of the text or an order of two places."""
        choices = self._choices()
        flags = [form.text for form in self._values() if not form.text.startswith(("OLD ", "NOT OLD "))]
        for left in flags:
            for right in choices:
                if left.split()[-1] not in right.split() and left.split()[0] not in right.split():
                    yield Form(f"{left} OR {right}", forks=True)

    def _sums(self) -> Iterator[Form]:
        """Two places whose sum is a third one, or a number of the text."""
        whole = list(self._whole())
        for first, second in combinations(whole, 2):
            for place in whole:
                if place not in (first, second):
                    yield Form(f"{place} = {first} + {second}")
            for number in self._numbers:
                yield Form(f"{first} + {second} = {_number(number, self._names)}")


def _conjuncts(expression: Expression) -> list[Expression]:
    """What an expression says, part by part."""
    if isinstance(expression, Pair) and expression.sign == "AND":
        return _conjuncts(expression.left) + _conjuncts(expression.right)
    return [expression]


def _forks(expression: Expression) -> bool:
    """Whether an expression has more than one decision."""
    if isinstance(expression, Signed):
        return _forks(expression.inner)
    return isinstance(expression, Pair) and expression.sign not in RELATIONS


def _tidy(text: str) -> str:
    """An expression with no space inside parentheses."""
    return re.sub(r" \)", ")", re.sub(r"\( ", "(", text))


def _denied(expression: Expression) -> str:
    """The denial of an expression."""
    if isinstance(expression, Pair) and expression.sign in RELATIONS:
        return _tidy(f"{expression.left.text} {_DENIED[expression.sign]} {expression.right.text}")
    if isinstance(expression, Signed) and expression.sign == "NOT":
        return _tidy(expression.inner.text)
    return _tidy(f"NOT ({expression.text})" if isinstance(expression, Pair) else f"NOT {expression.text}")
