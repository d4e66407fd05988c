"""The order of statements in a text: what may stand where, and what is missing."""

from __future__ import annotations

from dataclasses import dataclass, field
from enum import Enum
from typing import Optional

from assess_lib.outline import BODY_WORDS, MODES
from assess_lib.statements import Statement


class Stage(Enum):
    """How far a text has come."""

    START = "start"
    HEAD = "head"
    VARIABLES = "variables"
    AFTER_PRE = "after PRE"
    BODY = "body"
    BETWEEN = "between procedures"
    FINISHED = "finished"


class Sort(Enum):
    """Which part of a text a statement belongs to."""

    TITLE = "TITLE"
    HEAD = "constant or type"
    PROC = "PROC"
    VARIABLE = "variable"
    PRE = "PRE"
    POST = "POST"
    BODY = "body statement"
    ENDPROC = "ENDPROC"
    FINISH = "FINISH"


NEXT: dict[tuple[Stage, Sort], Stage] = {
    (Stage.START, Sort.TITLE): Stage.HEAD,
    (Stage.HEAD, Sort.HEAD): Stage.HEAD,
    (Stage.HEAD, Sort.PROC): Stage.VARIABLES,
    (Stage.VARIABLES, Sort.VARIABLE): Stage.VARIABLES,
    (Stage.VARIABLES, Sort.PRE): Stage.AFTER_PRE,
    (Stage.AFTER_PRE, Sort.POST): Stage.BODY,
    (Stage.BODY, Sort.BODY): Stage.BODY,
    (Stage.BODY, Sort.ENDPROC): Stage.BETWEEN,
    (Stage.BETWEEN, Sort.PROC): Stage.VARIABLES,
    (Stage.BETWEEN, Sort.FINISH): Stage.FINISHED,
}


def sort_of(statement: Statement) -> Sort:
    """Which part of a text the statement belongs to; what is none of the others is a body statement."""
    opening = statement.opening
    if opening in ("CONST", "TYPE"):
        return Sort.HEAD
    if opening in MODES:
        return Sort.VARIABLE
    if opening in BODY_WORDS or opening not in Sort.__members__:
        return Sort.BODY
    return Sort[opening]


@dataclass
class Broken:
    """Where the order of a text breaks: how far it had come, and the last PROC before, where there is one."""

    stage: Stage = Stage.START
    statement: Optional[Statement] = None
    procedure: Optional[Statement] = None
    seen: set[Sort] = field(default_factory=set)


def comes_later(statements: list[Statement], broken: Broken, sort: Sort) -> bool:
    """Whether a statement of that sort stands behind the break, before the procedure ends or another begins."""
    if broken.statement is None:
        return False
    for statement in statements:
        if statement.first <= broken.statement.first:
            continue
        found = sort_of(statement)
        if found is sort:
            return True
        if found in (Sort.ENDPROC, Sort.PROC, Sort.FINISH):
            return False
    return False


def first_break(statements: list[Statement]) -> Broken:
    """The first place where the order breaks; at the text's end its `statement` is None."""
    broken = Broken()
    for statement in statements:
        sort = sort_of(statement)
        onward = NEXT.get((broken.stage, sort))
        if onward is None:
            broken.statement = statement
            return broken
        if sort is Sort.PROC:
            broken.procedure = statement
        broken.stage = onward
        broken.seen.add(sort)
    return broken
