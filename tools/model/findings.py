"""Tables of regions, threats and verdicts."""

from __future__ import annotations

from dataclasses import dataclass, field

from model.graphs import Control
from model.inputs import Ranges, least_input, ranges_of, undecided
from model.machine import State, takes
from model.program import CheckedProcedure
from model.regions import Path, Region, regions_of
from model.terms import Form, Normal, form_of, norm
from model.ways import Stop

FAULTS = ("ASSERT", "POST", "DIVZERO", "RANGE")


@dataclass
class Row:
    """A row of a table, with its test input where it has one."""

    decisions: tuple[bool, ...]
    forms: tuple[Form, ...]
    stop: Stop
    values: tuple[Normal, ...]
    input: State | None


@dataclass
class Threat:
    """A threat with its verdict: FALSE, SHOWN with an input, or OPEN with a literal."""

    decisions: tuple[bool, ...]
    stop: Stop
    verdict: str
    shown: State = ()
    open_form: Form | None = None


@dataclass
class Finding:
    """What is found in one region: the limit that it passes, or its rows and threats."""

    first: int
    past: str | None = None
    rows: list[Row] = field(default_factory=list)
    threats: list[Threat] = field(default_factory=list)


def forms_of(path: Path) -> tuple[Form, ...]:
    """The forms of a path's literals."""
    return tuple(form_of(literal) for literal in path.literals)


def rows_of(region: Region, ranges: Ranges) -> list[Row]:
    """The rows of a region: its paths that are not plainly refuted. The test input of a row is its least one, if that takes it."""
    rows = []
    for path in region.paths(long=False):
        forms = forms_of(path)
        least = least_input(ranges, forms)
        if least is None:
            continue
        taken = takes(region.procedure, region.first, least, path.decisions, path.stop, region.heads)
        values = tuple(norm(value) for value in path.values)
        rows.append(Row(path.decisions, forms, path.stop, values, least if taken else None))
    return rows


def is_threat(region: Region, path: Path) -> bool:
    """Whether a long path stops in a fault, and not in its own head's leading assertions at their beginning."""
    if path.stop[0] not in FAULTS:
        return False
    if region.first not in region.heads:
        return True
    leading = region.control.leading(region.first)
    begin = (region.first, *leading) if not leading or leading[0] != region.first else tuple(leading)
    return path.lines != begin[: len(path.lines)] or path.lines[-1] not in leading


def judged(region: Region, ranges: Ranges, path: Path) -> Threat:
    """A threat with its verdict."""
    forms = forms_of(path)
    least = least_input(ranges, forms)
    if least is None:
        return Threat(path.decisions, path.stop, "FALSE")
    if takes(region.procedure, region.first, least, path.decisions, path.stop):
        return Threat(path.decisions, path.stop, "SHOWN", least)
    return Threat(path.decisions, path.stop, "OPEN", (), forms[undecided(forms)])


def finding_of(region: Region) -> Finding:
    """What is found in one region."""
    past = region.past()
    if past is not None:
        return Finding(region.first, past)
    ranges = ranges_of(region.procedure, region.first)
    threats = [judged(region, ranges, path) for path in region.paths(long=True) if is_threat(region, path)]
    return Finding(region.first, None, rows_of(region, ranges), threats)


def findings_of(procedure: CheckedProcedure, control: Control) -> list[Finding]:
    """What is found in all regions of a reducible procedure."""
    return [finding_of(region) for region in regions_of(procedure, control)]
