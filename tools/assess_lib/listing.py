"""Where each line of a procedure's report stands in the file."""

from __future__ import annotations

from dataclasses import dataclass
from typing import Optional

from assess_lib.outline import Mode, Outline, Procedure
from assess_lib.report import ProcedureReport
from assess_lib.source import SourceText
from assess_lib.statements import Statement


@dataclass(frozen=True)
class ListedLine:
    """A line of the report: the statement behind it, its first line in the file, and the call that brought it."""

    number: int
    statement: Statement
    file_line: int
    text: str
    call: str = ""


def _part(number: int, body: int, back: int) -> str:
    """Which part of an expanded call a line is: its values go in before `body`, and come back from `back` on."""
    return "values into" if number < body else "values back from" if number >= back else "inside"


class Listing:
    """The lines of one procedure of an accepted text."""

    def __init__(self, source: SourceText, outline: Outline, procedure: Procedure, report: ProcedureReport) -> None:
        self.source = source
        self.outline = outline
        self.procedure = procedure
        self.lines: list[ListedLine] = []
        calls = iter(report.expansions)
        for statement in self._written():
            expansion = next(calls, None) if statement.opening == "CALL" else None
            if expansion is None:
                self._add(statement)
            else:
                self._add_call(statement, expansion.callee, expansion.last - expansion.first + 1)

    def _written(self) -> list[Statement]:
        """The statements that are lines, in order: PRE, the body, ENDPROC."""
        procedure = self.procedure
        return [each for each in [procedure.pre, *procedure.body, procedure.end] if each is not None]

    def _add(self, statement: Statement, shown: Optional[Statement] = None, call: str = "", text: str = "") -> None:
        """Adds the next line, which stands where `shown` stands."""
        told = text or (shown or statement).text
        if told == "ENDPROC;" and not call and self.procedure.post is not None:
            told = f"ENDPROC; with {self.procedure.post.text}"
        file_line = self.source.line_of((shown or statement).first)
        self.lines.append(ListedLine(len(self.lines), statement, file_line, told, call))

    def _add_call(self, statement: Statement, callee: str, count: int) -> None:
        """Adds the lines of an expanded call: what goes in, the called procedure's own lines, and what comes out."""
        called = self.outline.procedure(callee)
        if called is None:
            inside: list[Optional[Statement]] = [None] * count
            into, back = count, 0
        else:
            into = len(called.variables) + sum(variable.mode is Mode.INOUT for variable in called.variables)
            back = sum(variable.mode in (Mode.INOUT, Mode.OUT) for variable in called.variables)
            body: list[Optional[Statement]] = list(called.body)
            if len(body) != count - into - back - 2:
                body = [None] * (count - into - back - 2)
            inside = [None] * into + [called.pre, *body, called.post] + [None] * back
        for number, shown in enumerate(inside):
            told = "" if shown else f"{_part(number, into, count - back)} {statement.text}"
            self._add(statement, shown, callee, told)

    def line(self, number: int) -> Optional[ListedLine]:
        """The line of that number, where there is one."""
        return self.lines[number] if 0 <= number < len(self.lines) else None

    def file_lines(self, numbers: list[int]) -> list[int]:
        """The lines of the file in which these lines of the report stand, ascending, each once."""
        found = (self.line(number) for number in numbers)
        return sorted({line.file_line for line in found if line is not None})

    def agrees(self, report: ProcedureReport) -> bool:
        """Whether the listing has as many lines as the report says."""
        return len(self.lines) == report.line_count
