"""Easy literals: which paths no input can take by them, and the least input of the others.

A literal is easy where its normal form has at most one place, or two with opposite coefficients. Such a literal bounds the
difference of two places, or a place by a number.
"""

from __future__ import annotations

from dataclasses import dataclass
from functools import lru_cache
from typing import Iterator

from model.program import CheckedProcedure
from model.terms import Form

MOST_SPLITS = 8

Limit = tuple[int, int, int]
"""The place of the first number, less that of the second, is at most the third; -1 stands for the number 0."""

ZERO = -1


@dataclass(frozen=True)
class Ranges:
    """The inputs of a region: the ranges of the places, and the pairs of places that are equal."""

    bounds: tuple[tuple[int, int], ...]
    equal: tuple[tuple[int, int], ...]


def ranges_of(procedure: CheckedProcedure, first: int) -> Ranges:
    """The inputs of the region with this first line; at line 0 each OLD copy equals its variable."""
    equal = []
    if first == 0:
        equal = [
            (number, procedure.variable_of(number)) for number, place in enumerate(procedure.places) if place.old
        ]
    return Ranges(tuple((place.least, place.greatest) for place in procedure.places), tuple(equal))


def easy(form: Form) -> bool:
    """Whether a literal is easy."""
    if any(atom.kind != "place" for atom, _ in form.parts):
        return False
    coefficients = [coefficient for _, coefficient in form.parts]
    return len(coefficients) < 2 or (len(coefficients) == 2 and sum(coefficients) == 0)


def at_most(form: Form, bound: int) -> Limit:
    """The parts are at most a number."""
    coefficient = form.parts[0][1]
    second = form.parts[1][0].place if len(form.parts) == 2 else ZERO
    return form.parts[0][0].place, second, bound // coefficient


def at_least(form: Form, bound: int) -> Limit:
    """The parts are at least a number."""
    coefficient = form.parts[0][1]
    second = form.parts[1][0].place if len(form.parts) == 2 else ZERO
    return second, form.parts[0][0].place, (-bound) // coefficient


def limits_of(form: Form, relation: str) -> tuple[Limit, ...]:
    """The limits that an easy literal with parts sets when its relation is read as this one, which is not `/=`."""
    limits = {
        "<": (at_most(form, form.bound - 1),),
        "<=": (at_most(form, form.bound),),
        ">": (at_least(form, form.bound + 1),),
        ">=": (at_least(form, form.bound),),
        "=": (at_most(form, form.bound), at_least(form, form.bound)),
    }
    return limits[relation]


@lru_cache(maxsize=200_000)
def least_solution(ranges: Ranges, limits: tuple[Limit, ...]) -> tuple[int, ...] | None:
    """The values that meet all limits, each the least that any such values have; None where there are none."""
    count = len(ranges.bounds)
    values = [least for least, _ in ranges.bounds] + [0]
    edges = list(limits)
    edges += [pair for one, two in ranges.equal for pair in ((one, two, 0), (two, one, 0))]
    for _ in range(count + 2):
        changed = False
        for left, right, bound in edges:
            if values[right] < values[left] - bound:
                values[right] = values[left] - bound
                changed = True
        if values[ZERO] > 0 or any(value > top for value, (_, top) in zip(values, ranges.bounds)):
            return None
        if not changed:
            return tuple(values[:count])
    return None


def first_solution(
    ranges: Ranges, limits: tuple[Limit, ...], splits: tuple[tuple[Limit, Limit], ...]
) -> tuple[int, ...] | None:
    """The least values that meet the limits and one side of each split, for the first choice of sides that any values meet."""
    least = least_solution(ranges, limits)
    if least is None or not splits:
        return least
    for side in splits[0]:
        found = first_solution(ranges, (*limits, side), splits[1:])
        if found is not None:
            return found
    return None


def split_of(form: Form) -> tuple[Limit, Limit]:
    """The two sides of a `/=` literal."""
    return limits_of(form, "<")[0], limits_of(form, ">")[0]


@dataclass
class Core:
    """The easy literals of a path: limits, the splits of the core, the splits outside it, and whether one is never true."""

    limits: tuple[Limit, ...]
    splits: tuple[tuple[Limit, Limit], ...]
    others: tuple[tuple[Limit, Limit], ...]
    never: bool


def unequal(forms: tuple[Form, ...]) -> Iterator[int]:
    """The indices of the easy `/=` literals with a place."""
    for index, form in enumerate(forms):
        if form.parts and form.relation == "/=" and easy(form):
            yield index


def core_of(forms: tuple[Form, ...]) -> Core:
    """The core of a path: its easy literals other than `/=`, and the first eight of its easy `/=` with a place."""
    limits = [
        limit
        for form in forms
        if form.parts and form.relation != "/=" and easy(form)
        for limit in limits_of(form, form.relation)
    ]
    splits = [split_of(forms[index]) for index in unequal(forms)]
    never = any(form.never() for form in forms)
    return Core(tuple(limits), tuple(splits[:MOST_SPLITS]), tuple(splits[MOST_SPLITS:]), never)


def least_input(ranges: Ranges, forms: tuple[Form, ...]) -> tuple[int, ...] | None:
    """None where the path is plainly refuted: where no input meets its core, or the core and one other easy `/=`.

    Otherwise the least input of the first choice of sides of the core's `/=` that any input meets.
    """
    core = core_of(forms)
    if core.never:
        return None
    least = first_solution(ranges, core.limits, core.splits)
    if least is None:
        return None
    for other in core.others:
        if first_solution(ranges, core.limits, (*core.splits, other)) is None:
            return None
    return least


def undecided(forms: tuple[Form, ...]) -> int:
    """The first literal that is hard, or is an easy `/=` with a place outside the core."""
    outside = set(list(unequal(forms))[MOST_SPLITS:])
    return next(index for index, form in enumerate(forms) if not easy(form) or index in outside)
