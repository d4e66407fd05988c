"""Findings, which an assessor asks about, apart from facts, which he only takes note of."""

from __future__ import annotations

from dataclasses import dataclass
from typing import Iterator, Optional

from assess_lib.analysis import Analysed
from assess_lib.outline import Mode, Variable
from assess_lib.report import Heading, Threat, UseRow, Verdict
from assess_lib.sentences import counted, stop_words
from assess_lib.source import Position
from assess_lib.tokens import Kind


@dataclass(frozen=True)
class Finding:
    """Something to ask about, with its place in the file and the number of the report's line, where it has one."""

    procedure: str
    position: Position
    text: str
    line: Optional[int] = None


def plain_list(numbers: list[int]) -> str:
    """Numbers in words, runs of three and more by their ends: `3, 5 to 8`."""
    runs: list[list[int]] = []
    for number in numbers:
        if runs and number == runs[-1][-1] + 1:
            runs[-1].append(number)
        else:
            runs.append([number])
    told = [f"{run[0]} to {run[-1]}" if len(run) > 2 else ", ".join(map(str, run)) for run in runs]
    return ", ".join(told)


def lines_in_words(numbers: list[int]) -> str:
    """Lines of the file in words."""
    return f"line{'' if len(numbers) == 1 else 's'} {plain_list(numbers)}"


def written_in(analysed: Analysed, name: str) -> list[int]:
    """The lines of the file in which a variable is assigned."""
    lines = analysed.listing.lines
    return sorted({each.file_line for each in lines if each.statement.is_assignment() and each.statement.opening == name})


def read_in(analysed: Analysed, name: str) -> list[int]:
    """The lines of the file in which an assignment or a test names a variable."""
    found = set()
    for line in analysed.listing.lines:
        statement = line.statement
        tokens = statement.tokens[2:] if statement.is_assignment() else statement.tokens[1:]
        reads = statement.is_assignment() or statement.opening in ("IF", "EXIT")
        if reads and any(each.kind is Kind.NAME and each.text == name for each in tokens):
            found.add(line.file_line)
    return sorted(found)


def _of_variable(analysed: Analysed, variable: Variable, row: UseRow) -> Iterator[str]:
    """The findings on one variable, in words."""
    told = f"{variable.mode.value} {variable.name}"
    facts, own = row.facts, variable.mode in (Mode.LOCAL, Mode.OUT)
    reads, writes = read_in(analysed, variable.name), written_in(analysed, variable.name)
    if facts.get("NR") and facts.get("NW"):
        yield f"{told} is neither read nor written on any path"
        return
    if facts.get("NW") and own:
        yield f"{told} is never written" + (f", but read in {lines_in_words(reads)}" if reads else "")
    elif variable.mode is Mode.OUT and facts.get("EU"):
        yield f"{told} is not written on some path to the end"
    elif facts.get("RF") and own:
        yield f"{told} is read before it is written on some path; read in {lines_in_words(reads)}"
    if facts.get("NR"):
        yield f"{told} is never read"
    elif facts.get("LW"):
        yield f"the last write of {told} is never read on some path; written in {lines_in_words(writes)}"
    if facts.get("OW") and not facts.get("NR"):
        yield f"{told} is written twice with no read between on some path; written in {lines_in_words(writes)}"


def _variables(analysed: Analysed) -> Iterator[Finding]:
    """The findings on variables."""
    listing = analysed.listing
    for row in analysed.report.use:
        variable = listing.procedure.variable(row.variable)
        if variable is None:
            continue
        position = listing.source.position(variable.statement.first)
        for text in _of_variable(analysed, variable, row):
            yield Finding(analysed.report.name, position, text)


def _at(analysed: Analysed, number: int, text: str) -> Finding:
    """A finding at a line of the report."""
    line = analysed.listing.line(number)
    place = line.statement.first if line else analysed.listing.procedure.statement.first
    return Finding(analysed.report.name, analysed.listing.source.position(place), text, number)


def _runs(numbers: list[int]) -> list[list[int]]:
    """Numbers cut into runs of consecutive ones."""
    runs: list[list[int]] = []
    for number in numbers:
        if runs and number == runs[-1][-1] + 1:
            runs[-1].append(number)
        else:
            runs.append([number])
    return runs


def _control(analysed: Analysed) -> Iterator[Finding]:
    """The findings on control structure."""
    control = analysed.report.control
    for words, numbers in (("no path leads to", control.unreachable), ("no path reaches the end from", control.stuck)):
        for run in _runs(numbers):
            told = lines_in_words(analysed.listing.file_lines(run))
            yield _at(analysed, run[0], f"{words} {told}")
    entries = control.two_entries
    if entries is not None and entries.first and entries.second:
        cycle = lines_in_words(analysed.listing.file_lines(sorted(entries.cycle)))
        doors = lines_in_words(analysed.listing.file_lines(sorted({entries.first[-1], entries.second[-1]})))
        yield _at(analysed, entries.cycle[0], f"the loop of {cycle} can be entered at {doors}")


def threat_line(threat: Threat, last: int) -> int:
    """The line of the report at which a threat's path stops."""
    word = threat.stop.split(" ")[-1]
    return int(word[1:]) if word[0] == "L" and word[1:].isdigit() else last


def _threats(analysed: Analysed) -> Iterator[Finding]:
    """The threats that are Shown or Open, and the regions past their size."""
    compliance = analysed.report.compliance
    if compliance is None:
        return
    last = analysed.report.line_count - 1
    for threat in compliance.threats:
        fault = stop_words(threat.stop)
        if threat.verdict is Verdict.SHOWN:
            values = ", ".join(f"{each.place} = {each.text}" for each in threat.values) or "no variable"
            begins = "a run" if threat.region == 0 else f"the loop of line {_file_line(analysed, threat.region)}"
            told = f"threat {threat.number}, Shown: {fault} here where {begins} begins with {values}"
        elif threat.verdict is Verdict.OPEN:
            told = f"threat {threat.number}, Open: {fault} here is not ruled out; undecided is {threat.literal}"
        else:
            continue
        yield _at(analysed, threat_line(threat, last), told)
    for region, size in compliance.past.items():
        yield _at(analysed, region, f"the region that begins here is past its size ({size.lower()}), so it has no threats")


def _file_line(analysed: Analysed, number: int) -> int:
    """The line of the file in which a line of the report stands."""
    line = analysed.listing.line(number)
    return line.file_line if line else 0


def findings_of(analysed: Analysed) -> list[Finding]:
    """All findings on a procedure: threats first, then control structure, then variables."""
    return [*_threats(analysed), *_control(analysed), *_variables(analysed)]


def facts_of(analysed: Analysed) -> list[str]:
    """The facts on a procedure, in words."""
    report, listing = analysed.report, analysed.listing
    loops = listing.file_lines([loop.head for loop in report.control.loops])
    told = [f"{report.line_count} lines, {counted(len(loops), 'loop')}" + (f" ({lines_in_words(loops)})" if loops else "")]
    for row in report.flow:
        variable = listing.procedure.variable(row.variable)
        if variable is None or variable.mode not in (Mode.OUT, Mode.INOUT):
            continue
        sources = f"the initial {', '.join(row.sources)}" if row.sources else "no initial value"
        tests = f", decided in {lines_in_words(listing.file_lines(row.tests))}" if row.tests else ""
        told.append(f"the final {row.variable} hangs on {sources}{tests}")
    for use in report.use:
        variable = listing.procedure.variable(use.variable)
        if variable is not None and variable.mode is Mode.INOUT and use.facts.get("NW"):
            told.append(f"INOUT {use.variable} is never written")
    if report.has(Heading.SEMANTIC):
        rows = sum(len(table.rows) for table in report.tables)
        told.append(f"{counted(len(report.tables), 'region')} with {counted(rows, 'row')} in all")
    return told
