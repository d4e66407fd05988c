"""The order of statements, and how blocks, labels and jumps join them to lines."""

from __future__ import annotations

from dataclasses import dataclass, field

from model.parsing import MODES, Statement
from model.refusal import Refused

BODY = frozenset("ASSIGN IF ELSE ENDIF LOOP ENDLOOP EXIT LABEL GOTO SKIP ASSERT RETURN CALL".split()) | {"EXIT WHEN"}

DECLARATIONS = frozenset({"CONST", "TYPE", "ENUMERATION"})

AFTER = {
    "start": {"TITLE": "head"},
    "head": {**{form: "head" for form in DECLARATIONS}, "PROC": "variables"},
    "variables": {**{mode: "variables" for mode in MODES}, "PRE": "pre"},
    "pre": {"POST": "body"},
    "body": {**{form: "body" for form in BODY}, "ENDPROC": "between"},
    "between": {"PROC": "variables", "FINISH": "end"},
    "end": {},
}
"""For each state the forms that can stand next, with the state after each."""


@dataclass
class Procedure:
    """The statements of one procedure, and its lines with the line to which each jumps."""

    statement: Statement
    variables: list[Statement] = field(default_factory=list)
    post: Statement | None = None
    lines: list[Statement] = field(default_factory=list)
    targets: list[int | None] = field(default_factory=list)


def check_order(statements: list[Statement], length: int) -> None:
    """Refuses the first statement that cannot stand where it does, and an end before FINISH."""
    state = "start"
    for statement in statements:
        if statement.form not in AFTER[state]:
            raise Refused("E06", statement.place)
        state = AFTER[state][statement.form]
    if state != "end":
        raise Refused("E06", length)


def procedures_of(statements: list[Statement]) -> list[Procedure]:
    """The procedures with their lines: PRE, the body, and ENDPROC, which has the expression of POST."""
    procedures: list[Procedure] = []
    for statement in statements:
        if statement.form == "PROC":
            procedures.append(Procedure(statement))
        elif statement.form in MODES:
            procedures[-1].variables.append(statement)
        elif statement.form == "POST":
            procedures[-1].post = statement
        elif statement.form in BODY or statement.form in ("PRE", "ENDPROC"):
            procedures[-1].lines.append(statement)
    return procedures


class Blocks:
    """The open blocks of one procedure while its lines are read in order."""

    def __init__(self, procedure: Procedure) -> None:
        self.lines = procedure.lines
        self.targets: list[int | None] = [None] * len(procedure.lines)
        self.open: list[tuple[str, int]] = []
        self.exits: list[tuple[int, list[int]]] = []
        self.labels: dict[str, int] = {}

    def refuse(self, line: int) -> None:
        """The refusal of a line."""
        raise Refused("E07", self.lines[line].place)

    def close(self, line: int, forms: tuple[str, ...]) -> tuple[str, int]:
        """Closes the innermost block, which is of one of these forms."""
        if not self.open or self.open[-1][0] not in forms:
            self.refuse(line)
        return self.open.pop()

    def read(self, line: int) -> None:
        """Reads one line."""
        form = self.lines[line].form
        if form in ("IF", "LOOP"):
            self.open.append((form, line))
            if form == "LOOP":
                self.exits.append((line, []))
        elif form == "ELSE":
            _, start = self.close(line, ("IF",))
            self.targets[start] = line + 1
            self.open.append(("ELSE", line))
        elif form == "ENDIF":
            _, start = self.close(line, ("IF", "ELSE"))
            self.targets[start] = line
        elif form == "ENDLOOP":
            self.end_loop(line)
        elif form in ("EXIT", "EXIT WHEN"):
            if not self.exits:
                self.refuse(line)
            self.exits[-1][1].append(line)
        else:
            self.read_other(line, form)

    def end_loop(self, line: int) -> None:
        """Closes a loop, and sends its exits behind it."""
        _, start = self.close(line, ("LOOP",))
        self.targets[line] = start
        for leaving in self.exits.pop()[1]:
            self.targets[leaving] = line + 1

    def read_other(self, line: int, form: str) -> None:
        """Reads a line that opens and closes nothing."""
        name = self.lines[line].name
        if form == "LABEL":
            if self.labels[name] != line:
                self.refuse(line)
        elif form == "GOTO":
            if name not in self.labels:
                self.refuse(line)
            self.targets[line] = self.labels[name]
        elif form == "RETURN":
            self.targets[line] = len(self.lines) - 1
        elif form == "ENDPROC" and self.open:
            self.refuse(line)


def link(procedure: Procedure) -> None:
    """Finds the line to which each line jumps, or refuses the first unmatched block or label."""
    blocks = Blocks(procedure)
    for line, statement in enumerate(procedure.lines):
        if statement.form == "LABEL":
            blocks.labels.setdefault(statement.name, line)
    for line in range(len(procedure.lines)):
        blocks.read(line)
    procedure.targets = blocks.targets


def arrange(statements: list[Statement], length: int) -> list[Procedure]:
    """The procedures of a text with their lines linked."""
    check_order(statements, length)
    procedures = procedures_of(statements)
    for procedure in procedures:
        link(procedure)
    return procedures
