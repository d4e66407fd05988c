"""Lays a path of a region over the lines of its procedure: which way each decision took, line by line."""

from __future__ import annotations

from dataclasses import dataclass, field
from typing import Optional

from assess_lib.analysis import Analysed
from assess_lib.arcs import reported_arcs
from assess_lib.expressions import RELATIONS, Expression, Leaf, NotRead, Pair, Scope, Signed, read_expression, scope_of
from assess_lib.statements import Statement


@dataclass
class Step:
    """A line that a path passes, and the decisions that it takes there, in words."""

    line: int
    decisions: list[str] = field(default_factory=list)


class _Halt(Exception):
    """The path stops in this line."""


class _Lost(Exception):
    """The path does not fit the lines."""


class _Walker:
    """Takes the decisions of a path one by one, in the order in which lines are evaluated."""

    def __init__(self, scope: Scope, path: str) -> None:
        self._scope = scope
        self._path = path
        self._at = 0
        self.decisions: list[str] = []

    @property
    def ended(self) -> bool:
        """Whether each decision was taken."""
        return self._at == len(self._path)

    def _decide(self, text: str) -> bool:
        """The next decision, which is told in words."""
        if self.ended:
            raise _Lost
        taken = self._path[self._at] == "T"
        self._at += 1
        self.decisions.append(f"{text}: {'true' if taken else 'false'}")
        return taken

    def number(self, expression: Expression) -> None:
        """Takes the decisions of a whole-number expression: each divisor that may be 0 is one."""
        if isinstance(expression, Signed):
            self.number(expression.inner)
        elif isinstance(expression, Pair):
            self.number(expression.left)
            self.number(expression.right)
            least, greatest = self._scope.bounds(expression.right)
            if expression.sign in ("DIV", "MOD") and least <= 0 <= greatest:
                if not self._decide(f"{expression.right.text} /= 0"):
                    raise _Halt

    def condition(self, expression: Expression) -> bool:
        """Takes the decisions of a condition, and answers which way it came out."""
        if isinstance(expression, Leaf):
            if expression.text in ("TRUE", "FALSE"):
                return expression.text == "TRUE"
            return self._decide(expression.text)
        if isinstance(expression, Signed):
            return not self.condition(expression.inner)
        if expression.sign == "AND":
            return self.condition(expression.left) and self.condition(expression.right)
        if expression.sign == "OR":
            return self.condition(expression.left) or self.condition(expression.right)
        if expression.sign not in RELATIONS:
            raise _Lost
        self.number(expression.left)
        self.number(expression.right)
        return self._decide(expression.text)

    def assign(self, name: str, expression: Expression) -> None:
        """Takes the decisions of an assignment: those of the value, and of the ends of the range that it may leave."""
        target = self._scope.variables[name]
        if target.flag:
            if not self._scope.is_flag(expression) and not (isinstance(expression, Leaf)):
                self.condition(expression)
            return
        self.number(expression)
        if target.listed or target.wrap:
            return
        least, greatest = self._scope.bounds(expression)
        if least < target.least and not self._decide(f"{expression.text} >= {target.least}"):
            raise _Halt
        if greatest > target.greatest and not self._decide(f"{expression.text} <= {target.greatest}"):
            raise _Halt


def _onward(walker: _Walker, statement: Statement, post: Optional[Statement], after: list[int]) -> int:
    """The line after this one, by the decisions of its statement and the arcs that leave it."""
    opening = statement.opening
    if statement.is_assignment():
        walker.assign(opening, read_expression(list(statement.tokens[2:])))
    elif opening in ("PRE", "ASSERT"):
        if not walker.condition(read_expression(list(statement.tokens[1:]))):
            raise _Halt
    elif opening == "IF" or statement.words[:2] == ["EXIT", "WHEN"]:
        first = 2 if opening == "EXIT" else 1
        taken = walker.condition(read_expression(list(statement.tokens[first:])))
        return after[0 if taken else 1]
    elif opening == "ENDPROC":
        if post is not None:
            walker.condition(read_expression(list(post.tokens[1:])))
        raise _Halt
    return after[0]


def walk(each: Analysed, region: int, path: str) -> Optional[list[Step]]:
    """The lines that a path of a region passes, from the region's first line on; None where it cannot be told.

    It ends where the path stops in a line, or where all its decisions are taken and a loop's head is met.
    """
    report, procedure = each.report, each.listing.procedure
    if report.expansions or not each.listing.agrees(report):
        return None
    heads = {loop.head for loop in report.control.loops}
    after: dict[int, list[int]] = {}
    for arc in reported_arcs(report, each.listing):
        after.setdefault(arc.tail, []).append(arc.head)
    steps: list[Step] = []
    line = region
    try:
        walker = _Walker(scope_of(each.listing.outline, procedure), path)
        while len(steps) <= 4 * report.line_count:
            steps.append(Step(line))
            walker.decisions = steps[-1].decisions
            line = _onward(walker, each.listing.lines[line].statement, procedure.post, after.get(line, []))
            if walker.ended and line in heads:
                return steps
    except _Halt:
        return steps if walker.ended else None
    except (_Lost, NotRead, IndexError, KeyError, ValueError):
        return None
    return None
