"""One text as an assessor holds it: its bytes, what malpas said of it, and where the lines of the report stand."""

from __future__ import annotations

from dataclasses import dataclass, field
from pathlib import Path
from typing import Optional

from assess_lib.faults import Faults, find_faults
from assess_lib.listing import Listing
from assess_lib.outline import outline_of
from assess_lib.program import Outcome, Runner
from assess_lib.report import ProcedureReport, Report
from assess_lib.report_reader import read_refusal, read_report
from assess_lib.source import SourceText
from assess_lib.statements import statements_of


@dataclass
class Analysed:
    """A procedure with its report and the listing that tells where its lines stand."""

    report: ProcedureReport
    listing: Listing


@dataclass
class Analysis:
    """A text and what malpas said of it: a report, faults, or neither."""

    file: str
    source: SourceText
    outcome: Outcome
    report: Optional[Report] = None
    faults: Optional[Faults] = None
    procedures: list[Analysed] = field(default_factory=list)


def analyse(file: str, source: SourceText, program: Runner) -> Analysis:
    """Runs malpas on a text and reads what it said; after a refusal it looks for further faults."""
    return understood(file, source, program.run(source.data), program)


def understood(file: str, source: SourceText, outcome: Outcome, program: Optional[Runner]) -> Analysis:
    """Reads what malpas said of a text. Without a program a refusal is its first fault alone."""
    found = Analysis(file, source, outcome)
    refusal = read_refusal(outcome.output)
    if refusal is not None:
        run = program.run if program else (lambda data: Outcome(0, ""))
        found.faults = find_faults(source, refusal, run)
        return found
    found.report = read_report(outcome.output)
    if found.report is not None:
        outline = outline_of(statements_of(source.letters))
        for number, report in enumerate(found.report.procedures):
            if number < len(outline.procedures):
                found.procedures.append(Analysed(report, Listing(source, outline, outline.procedures[number], report)))
    return found


def read_source(file: str) -> SourceText:
    """The text that stands in a file."""
    return SourceText(Path(file).read_bytes())
