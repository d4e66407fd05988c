"""The greatest set of candidates that proves itself, and the least part of it that serves as well.

After C. Flanagan and K. R. M. Leino, Houdini, an annotation assistant for ESC/Java (2001): put all candidates, drop
each that is refuted, and go on until none is. What stands proves itself by the assertions of its own text alone."""

from __future__ import annotations

from dataclasses import dataclass
from typing import Callable, Iterable, Optional

from assess_lib.program import Runner
from assess_lib.propose_forms import Form, Stage
from assess_lib.propose_text import Spot, numbered, with_assertions
from assess_lib.report import ProcedureReport, Report, Verdict
from assess_lib.report_reader import read_report


@dataclass(frozen=True)
class Candidate:
    """A form at a loop head."""

    head: int
    form: Form


@dataclass(frozen=True)
class Judged:
    """What malpas says of a text with candidates: those that are not proved, the other threats left, the regions past.

    `stops` counts the places at which something is left: an alternative parts one path into two with the same stop."""

    fallen: frozenset[Candidate]
    left: int
    past: int
    stops: int = 0

    @property
    def open(self) -> tuple[int, int, int]:
        """How much is left open, for comparison."""
        return self.past, self.stops, self.left


def left_of(report: ProcedureReport) -> tuple[int, int]:
    """The threats of a procedure that are not FALSE, and its regions past their size."""
    compliance = report.compliance
    if compliance is None:
        return 0, 0
    return len(compliance.threats) - compliance.count(Verdict.FALSE), len(compliance.past)


def total_of(report: Report) -> tuple[int, int]:
    """The threats of all procedures, and those that are FALSE."""
    found = [each.compliance for each in report.procedures if each.compliance is not None]
    return sum(len(each.threats) for each in found), sum(each.count(Verdict.FALSE) for each in found)


class Search:
    """The search in one procedure of a text. `ran` is called after each run of malpas, and `over` tells when no further
    candidates are to be tried."""

    def __init__(
        self,
        runner: Runner,
        letters: str,
        spots: list[Spot],
        number: int,
        ran: Callable[[], None] = lambda: None,
        over: Callable[[], bool] = lambda: False,
    ) -> None:
        self._runner = runner
        self._letters = letters
        self._spots = spots
        self._number = number
        self._ran = ran
        self._over = over
        self._known: dict[tuple[Candidate, ...], Judged] = {}
        self.proposed: set[Candidate] = set()
        self.goal = self.judge([])

    def placed(self, candidates: Iterable[Candidate]) -> list[tuple[Spot, list[str]]]:
        """The candidates by their spots."""
        return [(spot, [each.form.text for each in candidates if each.head == spot.head]) for spot in self._spots]

    def text(self, candidates: Iterable[Candidate]) -> str:
        """The text with the candidates."""
        return with_assertions(self._letters, self.placed(candidates))

    def judge(self, candidates: list[Candidate]) -> Judged:
        """What malpas says of the text with these candidates."""
        key = tuple(candidates)
        if key not in self._known:
            self._known[key] = self._run(candidates)
        return self._known[key]

    def _run(self, candidates: list[Candidate]) -> Judged:
        """Runs malpas and reads the verdicts of the candidates' own threats."""
        outcome = self._runner.run(self.text(candidates).encode("latin-1"))
        self._ran()
        report = read_report(outcome.output)
        if report is None or report.status is None:
            return Judged(frozenset(), 0, len(candidates) + 1)
        procedure = report.procedures[self._number]
        lines = numbered(self.placed(candidates))
        by_head = {spot.head: [each for each in candidates if each.head == spot.head] for spot in self._spots}
        fallen = set()
        left, past = left_of(procedure)
        stops = set()
        for threat in procedure.compliance.threats if procedure.compliance else []:
            _, _, line = threat.stop.partition(" L")
            if threat.verdict is Verdict.FALSE:
                continue
            if not line or int(line) not in lines:
                stops.add((threat.region, threat.stop))
                continue
            head, number = lines[int(line)]
            fallen.add(by_head[head][number])
            left -= 1
        return Judged(frozenset(fallen), left, past, len(stops))

    def sieve(self, standing: list[Candidate], added: list[Candidate], limited: bool = True) -> list[Candidate]:
        """The greatest part of both lists that proves itself; where a region grows past its size, half is tried first.

        `standing` proves itself, and is the answer where the time is over and counts, which `limited` tells."""
        held = [*standing, *added]
        while held:
            if limited and self._over():
                return standing
            judged = self.judge(held)
            if judged.past > self.goal.past:
                fresh = [each for each in held if each in set(added)]
                if len(fresh) < 2:
                    return standing
                half = len(fresh) // 2
                return self.sieve(self.sieve(standing, fresh[:half], limited), fresh[half:], limited)
            if not judged.fallen:
                break
            held = [each for each in held if each not in judged.fallen]
        return held

    def grow(self, standing: list[Candidate], stage: Stage) -> list[Candidate]:
        """The standing candidates with those of a stage that stand beside them, batch by batch, until none comes in."""
        every = [Candidate(spot.head, form) for form in stage.forms for spot in self._spots]
        size = stage.batch
        while True:
            before = set(standing)
            for first in range(0, len(every), size):
                if self._over():
                    return standing
                held = set(standing)
                batch = [each for each in every[first : first + size] if each not in held]
                self.proposed |= set(batch)
                standing = self.tightest(self.sieve(standing, batch))
                if self.judge(standing).left == 0:
                    return standing
            if len(every) <= size or set(standing) <= before:
                return standing

    def tightest(self, candidates: list[Candidate]) -> list[Candidate]:
        """The candidates without bounds that another of the same head and term says too."""
        lows: dict[tuple[int, str], int] = {}
        highs: dict[tuple[int, str], int] = {}
        for each in candidates:
            key = (each.head, each.form.term)
            if each.form.low is not None:
                lows[key] = max(lows.get(key, each.form.low), each.form.low)
            if each.form.high is not None:
                highs[key] = min(highs.get(key, each.form.high), each.form.high)
        kept: list[Candidate] = []
        said: set[tuple[int, str, str]] = set()
        for each in sorted(candidates, key=lambda one: one.form.low is None or one.form.high is None):
            sides = _sides(each, lows, highs)
            if sides is None or sides - said:
                kept.append(each)
                said |= sides or set()
        order = {each: number for number, each in enumerate(candidates)}
        return sorted(kept, key=lambda one: order[one])

    def thin(self, standing: list[Candidate]) -> list[Candidate]:
        """A part of the candidates that proves itself and leaves no more threats, in which none can be missed."""
        goal = self.judge(standing)
        size = len(standing)
        while size:
            first = len(standing)
            while first > 0:
                first = max(0, min(first, len(standing)) - size)
                fewer = self.sieve([], standing[:first] + standing[first + size :], False)
                judged = self.judge(fewer)
                if len(fewer) < len(standing) and judged.open <= goal.open:
                    standing = fewer
            size = size // 2 if size > 1 else 0
        return standing


def _sides(
    candidate: Candidate, lows: dict[tuple[int, str], int], highs: dict[tuple[int, str], int]
) -> Optional[set[tuple[int, str, str]]]:
    """The tightest bounds of its term that a candidate gives; None where it is no bound."""
    form = candidate.form
    if not form.term:
        return None
    key = (candidate.head, form.term)
    sides = set()
    if form.low is not None and form.low == lows[key]:
        sides.add((*key, "low"))
    if form.high is not None and form.high == highs[key]:
        sides.add((*key, "high"))
    return sides
