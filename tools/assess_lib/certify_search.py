"""The search for a certificate of an open threat: linear programs over rational numbers, and splits of `/=` literals.

Each item is an inequality. Either factors take the inequalities to a contradiction (J. Farkas, Theorie der einfachen
Ungleichungen, 1902), or a point meets them all. A `/=` whose two sides both miss the point is split, and both sides are searched;
where no side of any `/=` misses it, the literals have a rational solution, and no certificate exists. What is found is left without
splits that it does not need."""

from __future__ import annotations

from fractions import Fraction
from math import gcd, lcm
from typing import Callable, Mapping, Optional, Sequence

from assess_lib.certify_literals import OLD, Listed, Literal, OpenThreat
from assess_lib.certify_rules import (
    DEPTH,
    SHARES,
    TIMES,
    Certificate,
    Item,
    Quantity,
    Share,
    Split,
    Sum,
    is_accepted,
    quantity_of,
    read_as,
)
from assess_lib.certify_solver import Factors, Solver, SolverFailed


class OutOfTime(Exception):
    """The seconds for a threat are over."""


def _parts_in(literals: Sequence[Literal]) -> set[str]:
    """The parts that literals speak of."""
    return {part for literal in literals for part in literal.parts}


def items_of(procedure: Listed, threat: OpenThreat, literals: Sequence[Literal]) -> list[tuple[Item, Quantity]]:
    """The items that are allowed and may help, with their quantities: those of literals, and of the places that these speak of."""
    names = _parts_in(literals)
    if threat.region == 0:
        names |= {OLD + name for name in names} | {name[len(OLD) :] for name in names if name.startswith(OLD)}
    items = [Item(word, index) for index in range(len(literals)) for word in ("NEVER", "UP", "DOWN")]
    for index, place in enumerate(procedure.places):
        if place.name in names:
            items += [Item(word, index) for word in ("LOW", "HIGH", "OLDUP", "OLDDOWN")]
    found = ((item, quantity_of(item, procedure, threat.region, literals)) for item in items)
    return [(item, quantity) for item, quantity in found if quantity is not None]


def whole_shares(items: Sequence[Item], factors: Factors) -> Optional[Sum]:
    """The sum with these factors scaled to the least whole ones; None where it would have too many shares. A factor that is too
    great for one share is spread over several."""
    used = [(item, factor) for item, factor in zip(items, factors) if factor]
    scale = lcm(*(factor.denominator for _, factor in used))
    whole = [(item, int(factor * scale)) for item, factor in used]
    common = gcd(*(times for _, times in whole))
    shares: list[Share] = []
    for item, times in whole:
        left = times // common
        while left and len(shares) <= SHARES:
            shares.append(Share(item, min(left, TIMES)))
            left -= min(left, TIMES)
    return Sum(tuple(shares)) if len(shares) <= SHARES else None


def _value(literal: Literal, point: Mapping[str, Fraction]) -> Fraction:
    """The sum of a literal's parts at a point."""
    return sum((count * point.get(part, Fraction(0)) for part, count in literal.parts.items()), Fraction(0))


def _misses(literal: Literal, index: int, literals: Sequence[Literal], point: Mapping[str, Fraction]) -> bool:
    """Whether both sides of a `/=` miss a point, as whole numbers round them."""
    if literal.relation != "/=":
        return False
    common = gcd(*literal.parts.values())
    value = _value(literal, point) / common
    below = (literal.bound - 1) // common
    above = -((-literal.bound - 1) // common)
    return below < value < above


class Search:
    """The search for a certificate of one threat."""

    def __init__(self, procedure: Listed, threat: OpenThreat, solver: Solver, over: Callable[[], bool]) -> None:
        self._procedure = procedure
        self._threat = threat
        self._solver = solver
        self._over = over
        self.why = ""

    def certificate(self) -> Optional[Certificate]:
        """A certificate that is accepted for the threat; None where there is none, or none was found: `why` says which."""
        try:
            found = self._below(self._threat.literals, DEPTH)
        except OutOfTime:
            self.why = "no certificate was found in time"
            return None
        except SolverFailed as failure:
            self.why = str(failure)
            return None
        if found is not None and not is_accepted(found, self._procedure, self._threat.region, self._threat.literals):
            self.why = "what was found is not accepted"
            return None
        return found

    def _below(self, literals: Sequence[Literal], depth: int) -> Optional[Certificate]:
        """A certificate for literals, with at most so many splits in one another."""
        if self._over():
            raise OutOfTime
        items = items_of(self._procedure, self._threat, literals)
        answer = self._solver.solve([quantity for _, quantity in items])
        if isinstance(answer, list):
            found = whole_shares([item for item, _ in items], answer)
            self.why = "" if found is not None else "what was found has too many shares"
            return found
        missed = [i for i, literal in enumerate(literals) if _misses(literal, i, literals, answer)]
        if not missed:
            self.why = _point_text(literals, answer)
            return None
        if depth == 0:
            self.why = f"no certificate with at most {DEPTH} splits in one another was found"
            return None
        return self._split(literals, missed[0], depth)

    def _split(self, literals: Sequence[Literal], index: int, depth: int) -> Optional[Certificate]:
        """A certificate by both sides of a `/=`, or by one that does not need its side."""
        low = self._below(read_as(literals, index, "<"), depth - 1)
        if low is None or not _uses(low, index):
            return low
        high = self._below(read_as(literals, index, ">"), depth - 1)
        if high is None or not _uses(high, index):
            return high
        return Split(index, low, high)


def _uses(certificate: Certificate, index: int) -> bool:
    """Whether a certificate takes a side of a literal."""
    if isinstance(certificate, Split):
        return _uses(certificate.low, index) or _uses(certificate.high, index)
    return any(share.item.word in ("UP", "DOWN") and share.item.index == index for share in certificate.shares)


def _point_text(literals: Sequence[Literal], point: Mapping[str, Fraction]) -> str:
    """Why no certificate exists: a point that no sum can refute."""
    values = ", ".join(f"{part} = {point.get(part, Fraction(0))}" for part in sorted(_parts_in(literals)))
    return f"no certificate exists: as fractions, {values or 'nothing'} meets all its literals"
