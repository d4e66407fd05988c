"""`assess check`: what malpas found in files, as compilers print it and editors read it."""

from __future__ import annotations

from typing import TextIO

from assess_lib.analysis import Analysis, analyse, read_source
from assess_lib.faults import Fault, Faults
from assess_lib.findings import Finding, facts_of, findings_of
from assess_lib.program import Program, Status, meaning_of
from assess_lib.sentences import counted, not_analysed, sentence
from assess_lib.source import Position, SourceText

_WIDTH = 160


def excerpt(source: SourceText, position: Position) -> list[str]:
    """The line of the source at a position and a caret below the column; a long line is cut around it."""
    if position.line > source.line_count:
        return []
    text = source.line_text(position.line)
    begin = max(0, position.column - 1 - _WIDTH // 2) if len(text) > _WIDTH else 0
    shown = text[begin : begin + _WIDTH]
    before = "".join(letter if letter == "\t" else " " for letter in shown[: position.column - 1 - begin])
    return [f"{position.line:5} | {shown}".rstrip(), f"      | {before}^"]


def fault_lines(file: str, source: SourceText, fault: Fault) -> list[str]:
    """A fault as compilers print it."""
    mark = " (further, told once the faults above were taken out)" if fault.further else ""
    head = f"{file}:{fault.position.line}:{fault.position.column}: {fault.refusal.code}: {fault.refusal.text}{mark}"
    lines = [head, *excerpt(source, fault.position)]
    if fault.statement:
        cut = fault.statement if len(fault.statement) <= _WIDTH else fault.statement[: _WIDTH - 3] + "..."
        lines.append(f"      = statement: {cut}")
    return lines + [f"      = hint: {hint}" for hint in fault.hints]


def _tell_faults(found: Analysis, faults: Faults, errors: TextIO) -> None:
    """Writes the faults of a refused text."""
    for fault in faults.told:
        print("\n".join(fault_lines(found.file, found.source, fault)), file=errors)
    told = f"{found.file}: refused, {counted(len(faults.told), 'fault')} told"
    print(f"{told}; {faults.given_up}" if faults.given_up else told, file=errors)


def finding_lines(file: str, source: SourceText, finding: Finding) -> list[str]:
    """A finding with its place and the line of the source."""
    where = f"{file}:{finding.position.line}:{finding.position.column}"
    return [f"{where}: finding: {finding.procedure}: {finding.text}", *excerpt(source, finding.position)]


def _tell_report(found: Analysis, out: TextIO) -> None:
    """Writes what the report of an accepted text comes to."""
    for each in found.procedures:
        name = each.report.name
        print(f"{found.file}: {name}: {sentence(each.report)}", file=out)
        for finding in findings_of(each):
            print("\n".join(finding_lines(found.file, found.source, finding)), file=out)
        for fact in facts_of(each):
            print(f"{found.file}: {name}: fact: {fact}", file=out)
        for missing in not_analysed(each.report):
            print(f"{found.file}: {name}: not analysed: {missing}", file=out)
    print(f"{found.file}: not analysed: whether a run ends, and what no assertion, POST or range asks for", file=out)


def tell(found: Analysis, out: TextIO, errors: TextIO) -> int:
    """Writes what was found in a text, and answers the exit status of malpas."""
    status = found.outcome.status
    if found.faults is not None:
        _tell_faults(found, found.faults, errors)
    elif found.report is not None:
        _tell_report(found, out)
    if status > Status.REFUSED:
        print(f"{found.file}: {meaning_of(status)} (status {status})", file=errors)
    return status


def check(files: list[str], program: Program, out: TextIO, errors: TextIO) -> int:
    """Checks files one after the other, and answers the greatest exit status."""
    statuses = [int(Status.CLEAN)]
    for file in files:
        try:
            source = read_source(file)
        except OSError as error:
            print(f"{file}: cannot be read: {error.strerror}", file=errors)
            statuses.append(int(Status.READ_FAILED))
            continue
        statuses.append(tell(analyse(file, source, program), out, errors))
    return max(statuses)
