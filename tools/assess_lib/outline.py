"""The outline of a text: its declarations and procedures, read leniently, also from a text that is refused."""

from __future__ import annotations

from dataclasses import dataclass, field
from enum import Enum
from typing import Optional

from assess_lib.statements import Statement
from assess_lib.tokens import Kind


class Mode(Enum):
    """How a variable is given and taken."""

    IN = "IN"
    INOUT = "INOUT"
    OUT = "OUT"
    LOCAL = "LOCAL"


MODES = frozenset(mode.value for mode in Mode)
BODY_WORDS = frozenset("IF ELSE ENDIF LOOP ENDLOOP EXIT LABEL GOTO SKIP ASSERT RETURN CALL".split())


@dataclass(frozen=True)
class Variable:
    """A declared variable: its name, mode, type as written, and statement."""

    name: str
    mode: Mode
    type_text: str
    statement: Statement


@dataclass
class Procedure:
    """A procedure as written. `end` is its ENDPROC, and `body` the statements between POST and it."""

    name: str
    statement: Statement
    variables: list[Variable] = field(default_factory=list)
    pre: Optional[Statement] = None
    post: Optional[Statement] = None
    body: list[Statement] = field(default_factory=list)
    end: Optional[Statement] = None

    def variable(self, name: str) -> Optional[Variable]:
        """The first variable of that name."""
        return next((variable for variable in self.variables if variable.name == name), None)


@dataclass
class Outline:
    """What a text declares. `declared` holds the statement of each constant, type, enumeration value and procedure."""

    statements: list[Statement]
    title: str = ""
    declared: dict[str, Statement] = field(default_factory=dict)
    procedures: list[Procedure] = field(default_factory=list)

    def procedure_at(self, place: int) -> Optional[Procedure]:
        """The last procedure that begins at or before `place`."""
        found = None
        for procedure in self.procedures:
            if procedure.statement.first <= place:
                found = procedure
        return found

    def procedure(self, name: str) -> Optional[Procedure]:
        """The first procedure of that name."""
        return next((procedure for procedure in self.procedures if procedure.name == name), None)


def _name_of(statement: Statement, number: int = 1) -> str:
    """The name that stands as the token of that number, or nothing."""
    tokens = statement.tokens
    return tokens[number].text if len(tokens) > number and tokens[number].kind is Kind.NAME else ""


def names_declared(statement: Statement) -> list[str]:
    """The names that a declaration declares, first its own, then the values of an enumeration."""
    if statement.opening not in MODES | {"CONST", "TYPE", "PROC"}:
        return []
    names = [_name_of(statement)]
    if statement.opening == "TYPE" and statement.words[3:4] == ["("]:
        names += [token.text for token in statement.tokens[4:] if token.kind is Kind.NAME]
    return [name for name in names if name]


def _take_into(procedure: Procedure, statement: Statement) -> None:
    """Adds a statement that is no PROC to the procedure in which it stands."""
    opening = statement.opening
    if opening in MODES:
        type_text = " ".join(statement.words[3:])
        procedure.variables.append(Variable(_name_of(statement), Mode(opening), type_text, statement))
    elif opening == "PRE":
        procedure.pre = procedure.pre or statement
    elif opening == "POST":
        procedure.post = procedure.post or statement
    elif opening == "ENDPROC":
        procedure.end = statement
    else:
        procedure.body.append(statement)


def outline_of(statements: list[Statement]) -> Outline:
    """The outline of a text's statements."""
    outline = Outline(statements)
    for statement in statements:
        opening = statement.opening
        last = outline.procedures[-1] if outline.procedures else None
        if opening == "PROC":
            outline.procedures.append(Procedure(_name_of(statement), statement))
        elif last is not None and last.end is None and opening != "FINISH":
            _take_into(last, statement)
        elif opening == "TITLE":
            outline.title = outline.title or _name_of(statement)
        if opening in ("CONST", "TYPE", "PROC"):
            for name in names_declared(statement):
                outline.declared.setdefault(name, statement)
    return outline
