"""The definitions tried on every input of small procedures: rows, steps, least inputs, and what no threat promises."""

from __future__ import annotations

from itertools import product
from math import prod
from typing import Iterator

from model.findings import findings_of, forms_of, is_threat
from model.graphs import Control, control_of, graph_of
from model.inputs import MOST_SPLITS, easy, least_input, ranges_of, unequal
from model.machine import State, step
from model.program import CheckedProcedure, CheckedText
from model.regions import Path, Region, regions_of
from model.terms import Atom, Form, Normal, holds, norm, value_in, value_of
from model.ways import Stop

FAULTS = ("ASSERT", "POST", "DIVZERO", "RANGE")


def states_of(procedure: CheckedProcedure, first: int) -> Iterator[State]:
    """All inputs of the region with this first line, in pointwise order."""
    copies = [number for number, place in enumerate(procedure.places) if place.old]
    if first != 0:
        yield from product(*(range(place.least, place.greatest + 1) for place in procedure.places))
        return
    variables = procedure.places[: len(procedure.places) - len(copies)]
    for state in product(*(range(place.least, place.greatest + 1) for place in variables)):
        yield (*state, *(state[procedure.variable_of(number)] for number in copies))


def is_small(procedure: CheckedProcedure, limit: int) -> bool:
    """Whether a procedure has at most so many states."""
    return prod(place.greatest - place.least + 1 for place in procedure.places) <= limit


def value_of_atom(atom: Atom, state: State) -> int:
    """The value of an atom."""
    if atom.kind == "place":
        return state[atom.place]
    assert atom.left is not None and atom.right is not None
    return value_of(atom.kind, value_of_normal(atom.left, state), value_of_normal(atom.right, state))


def value_of_normal(normal: Normal, state: State) -> int:
    """The value of a normal term."""
    return normal.constant + sum(coefficient * value_of_atom(atom, state) for atom, coefficient in normal.parts)


def form_holds(form: Form, state: State) -> bool:
    """Whether a literal's form holds."""
    left = sum(coefficient * value_of_atom(atom, state) for atom, coefficient in form.parts)
    return holds(form.relation, left, form.bound)


def stepped(region: Region, state: State, long: bool) -> tuple[tuple[bool, ...], Stop, State]:
    """The steps from a region's first line: decisions, stop and values; where long, on through the leading assertions."""
    line: int | None = region.first
    decisions: tuple[bool, ...] = ()
    rest: list[int] | None = None
    met = -1
    while True:
        assert line is not None
        line, stop, state, taken = step(region.procedure, line, state)
        decisions += taken
        if stop is not None:
            return decisions, stop, state
        assert line is not None
        if rest is None and line in region.heads:
            met, rest = line, region.control.leading(line) if long else []
        elif rest is not None:
            rest = rest[1:]
        if rest == []:
            return decisions, ("HEAD", met), state
        if rest:
            line = rest[0]


def path_faults(region: Region, path: Path, forms: tuple[Form, ...], state: State, long: bool) -> Iterator[str]:
    """What is wrong with a path that an input takes."""
    decisions, stop, values = stepped(region, state, long)
    if (decisions, stop) != (path.decisions, path.stop):
        yield f"{state} takes {decisions} to {stop}, its row says {path.decisions} to {path.stop}"
    if values != tuple(value_in(term, state) for term in path.values):
        yield f"{state} ends with {values}, other than its row's terms"
    if values != tuple(value_of_normal(norm(term), state) for term in path.values):
        yield f"{state} ends with {values}, other than its row's normal terms"
    if not all(form_holds(form, state) for form in forms):
        yield f"{state} does not meet the normal forms of its row"


def row_faults(region: Region, states: list[State], long: bool) -> Iterator[str]:
    """Inputs with no row or with several, and rows that are not what stepping gives."""
    ranges = ranges_of(region.procedure, region.first)
    paths = [(path, forms_of(path)) for path in region.paths(long)]
    rows = [(path, forms, least_input(ranges, forms)) for path, forms in paths]
    for state in states:
        found = [row for row in rows if all(plainly(literal, state) for literal in row[0].literals)]
        if len(found) != 1 or found[0][2] is None:
            yield f"region L{region.first}: {state} has {len(found)} rows"
            continue
        yield from (f"region L{region.first}: {fault}" for fault in path_faults(region, *found[0][:2], state, long))
    for path, forms, least in rows:
        if least != least_by_trial(forms, states):
            yield f"region L{region.first}: path {path.decisions} has the least input {least}"


def plainly(literal: tuple, state: State) -> bool:
    """Whether a literal of terms holds."""
    left, relation, right = literal
    return holds(relation, value_in(left, state), value_in(right, state))


def least_by_trial(forms: tuple[Form, ...], states: list[State]) -> State | None:
    """The least input of a path, found among all inputs; None where the path is plainly refuted."""
    apart = list(unequal(forms))
    core = [form for k, form in enumerate(forms) if easy(form) and (form.relation != "/=" or k in apart[:MOST_SPLITS])]
    others = [form for form in forms if easy(form) and form.relation == "/="]
    meeting = [state for state in states if all(form_holds(form, state) for form in core)]
    if not meeting or not all(any(form_holds(form, state) for state in meeting) for form in others):
        return None
    for index in apart[:MOST_SPLITS]:
        below = [state for state in meeting if form_holds(Form(forms[index].parts, "<", forms[index].bound), state)]
        meeting = below or meeting
    least = tuple(min(values) for values in zip(*meeting)) if meeting[0] else ()
    return least if least in meeting else ()


def bad_runs(procedure: CheckedProcedure, limit: int) -> Iterator[str]:
    """Runs from the precondition that fault, fail an assertion or end outside the postcondition."""
    done: set[tuple[int, State]] = set()
    for start in states_of(procedure, 0):
        line: int | None = 0
        state = start
        while (line, state) not in done and len(done) < limit:
            assert line is not None
            done.add((line, state))
            line, stop, state, _ = step(procedure, line, state)
            if stop is not None:
                if stop[0] in FAULTS:
                    yield f"the run from {start} stops with {stop}"
                break


def hidden_threats(region: Region, states: list[State]) -> Iterator[str]:
    """Threats called false whose path an input takes."""
    ranges = ranges_of(region.procedure, region.first)
    for path in region.paths(long=True):
        if not is_threat(region, path) or least_input(ranges, forms_of(path)) is not None:
            continue
        if any(stepped(region, state, True)[:2] == (path.decisions, path.stop) for state in states):
            yield f"region L{region.first}: the threat {path.decisions} is false and happens"


def faults_of_procedure(procedure: CheckedProcedure, control: Control, limit: int) -> Iterator[str]:
    """All that is wrong with a small reducible procedure's report."""
    for region in regions_of(procedure, control):
        if region.past() is None:
            states = list(states_of(procedure, region.first))
            yield from row_faults(region, states, False)
            yield from row_faults(region, states, True)
            yield from hidden_threats(region, states)
    findings = findings_of(procedure, control)
    if all(finding.past is None and all(t.verdict == "FALSE" for t in finding.threats) for finding in findings):
        yield from bad_runs(procedure, 1000 * limit)


def faults_of(text: CheckedText, limit: int = 400) -> list[str]:
    """All that is wrong with the reports of a text's small procedures."""
    faults = []
    for procedure in text.procedures:
        control = control_of(procedure, graph_of(procedure))
        if control.entries is None and is_small(procedure, limit):
            faults.extend(f"{procedure.name}: {fault}" for fault in faults_of_procedure(procedure, control, limit))
    return faults
