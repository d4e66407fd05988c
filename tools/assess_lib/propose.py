"""`assess propose`: a text with assertions at its loop heads, which malpas proves."""

from __future__ import annotations

import time
from dataclasses import dataclass, field, replace
from typing import Optional, TextIO

from assess_lib.analysis import Analysis, read_source, understood
from assess_lib.check import tell
from assess_lib.program import Program, Runner, Status, meaning_of
from assess_lib.propose_forms import Forms
from assess_lib.propose_search import Candidate, Search, left_of, total_of
from assess_lib.propose_text import Spot, spot_of
from assess_lib.report import Report
from assess_lib.report_reader import read_report
from assess_lib.source import SourceText, write_letters

SECTIONS = ("--control", "--compliance")
LIMIT = 20.0
_QUIET = 2.0
_WIDTH = 24


class Progress:
    """The time, with the seconds that further tries in one procedure may take, and a bar on a terminal from the third second on."""

    def __init__(self, stream: TextIO, limit: float) -> None:
        self.limit = limit
        self._stream = stream
        self._shown = stream.isatty()
        self._begun = time.monotonic()
        self._told = 0.0
        self._label = ""
        self._part = 0.0
        self.runs = 0

    @property
    def seconds(self) -> float:
        """The seconds since the beginning."""
        return time.monotonic() - self._begun

    def at(self, label: str, part: float) -> None:
        """Says what comes next, and which part of all is done."""
        self._label, self._part = label, part

    def ran(self) -> None:
        """Counts a run of malpas, and draws the bar."""
        self.runs += 1
        if self._shown and self.seconds > _QUIET and self.seconds - self._told > 0.1:
            self._told = self.seconds
            full = round(self._part * _WIDTH)
            bar = "#" * full + "." * (_WIDTH - full)
            print(f"\r\x1b[K[{bar}] {self._label}, {self.runs} runs", end="", file=self._stream, flush=True)

    def end(self) -> None:
        """Takes the bar away."""
        if self._told:
            print("\r\x1b[K", end="", file=self._stream, flush=True)


@dataclass
class Proposal:
    """A text with the assertions that were kept, and what they came to."""

    letters: str
    proposed: int = 0
    kept: int = 0
    notes: list[str] = field(default_factory=list)


def _spots(found: Analysis, number: int) -> list[Spot]:
    """The spots of the loop heads of a reducible procedure."""
    each = found.procedures[number]
    if not each.report.reducible:
        return []
    spots = (spot_of(found.source, each.listing, loop) for loop in each.report.control.loops)
    return [spot for spot in spots if spot is not None]


def _in_procedure(found: Analysis, number: int, runner: Runner, progress: Progress) -> tuple[Search, list[Candidate]]:
    """The search in one procedure, and the candidates that it keeps."""
    each = found.procedures[number]
    last = progress.seconds + progress.limit
    spots = _spots(found, number)
    search = Search(runner, found.source.letters, spots, number, progress.ran, lambda: progress.seconds > last)
    forms = Forms(each.listing.outline, each.listing.procedure)
    standing: list[Candidate] = []
    stages = forms.stages()
    for place, stage in enumerate(stages):
        progress.at(f"{each.report.name}: {stage.name}", (number + place / (len(stages) + 1)) / len(found.procedures))
        standing = search.grow(standing, stage)
        if search.judge(standing).left == 0:
            break
    progress.at(f"{each.report.name}: leaving out", (number + len(stages) / (len(stages) + 1)) / len(found.procedures))
    return search, search.thin(standing)


def _why_not(found: Analysis, number: int) -> Optional[str]:
    """Why nothing is proposed in a procedure that leaves something open; empty where nothing is open, else None."""
    report = found.procedures[number].report
    left, past = left_of(report)
    if not report.reducible:
        return "not reducible, so nothing is proposed"
    if left and not report.control.loops:
        return "no loop, so nothing is proposed"
    if past:
        return "a region is past its size, so no verdict would tell which assertions hold, and nothing is proposed"
    return None if left else ""


def propose_in(found: Analysis, runner: Runner, progress: Progress) -> Proposal:
    """Proposes assertions in each procedure in turn, in the text that the ones before came to."""
    proposal = Proposal(found.source.letters)
    for number in range(len(found.procedures)):
        data = proposal.letters.encode("latin-1")
        found = understood(found.file, SourceText(data), runner.run(data), None)
        why = _why_not(found, number)
        if why:
            proposal.notes.append(f"{found.procedures[number].report.name}: {why}")
        if why is None and found.report is not None and _spots(found, number):
            search, kept = _in_procedure(found, number, runner, progress)
            proposal.proposed += len(search.proposed)
            _take(proposal, found.report, search, kept, runner)
    return proposal


def _take(proposal: Proposal, before: Report, search: Search, kept: list[Candidate], runner: Runner) -> None:
    """Takes the kept candidates into the text, where no procedure gets worse by them."""
    text = search.text(kept)
    after = read_report(runner.run(text.encode("latin-1")).output)
    if kept and after is not None and _open(after) <= _open(before):
        proposal.letters = text
        proposal.kept += len(kept)


def _open(report: Report) -> int:
    """The threats of all procedures that are not FALSE."""
    threats, refuted = total_of(report)
    return threats - refuted


def _closing(file: str, proposal: Proposal, before: tuple[int, int], after: tuple[int, int], seconds: float) -> str:
    """The last line on standard error."""
    helped = ""
    if not proposal.kept:
        why = "nothing is left to help" if before[0] == before[1] and not proposal.notes else "nothing helps"
        helped = f"{why}, so the text stands as it was; "
    return (
        f"{file}: {helped}{proposal.proposed} assertions proposed, {proposal.kept} kept; threats FALSE "
        f"{before[1]} of {before[0]} before, {after[1]} of {after[0]} after; {seconds:.1f} seconds"
    )


def propose(file: str, program: Program, out: TextIO, errors: TextIO, limit: float = LIMIT) -> int:
    """Writes the text of a file with proposed assertions; answers malpas's status for what it wrote.

    After `limit` seconds in a procedure no further candidates are tried there."""
    try:
        source = read_source(file)
    except OSError as error:
        print(f"{file}: cannot be read: {error.strerror}", file=errors)
        return int(Status.READ_FAILED)
    runner = replace(program, words=SECTIONS)
    outcome = runner.run(source.data)
    if outcome.status == Status.REFUSED:
        return tell(understood(file, source, program.run(source.data), program), out, errors)
    found = understood(file, source, outcome, None)
    if found.report is None or found.report.status is None:
        print(f"{file}: {meaning_of(outcome.status)} (status {outcome.status})", file=errors)
        return outcome.status or int(Status.NO_MEMORY)
    progress = Progress(errors, limit)
    try:
        proposal = propose_in(found, runner, progress)
    finally:
        progress.end()
    last = runner.run(proposal.letters.encode("latin-1"))
    report = read_report(last.output)
    write_letters(proposal.letters, out)
    after = total_of(report) if report is not None else (0, 0)
    for note in proposal.notes:
        print(f"{file}: {note}", file=errors)
    print(_closing(file, proposal, total_of(found.report), after, progress.seconds), file=errors)
    return last.status
