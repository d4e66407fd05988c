"""When a certificate is accepted: the quantities of its items, and the sums that come to a negative number.

This is the rule of `malpas --certificates` written once more, so that nothing is printed which the program would refuse; what
counts is the program's own answer."""

from __future__ import annotations

from dataclasses import dataclass, replace
from math import gcd
from typing import Optional, Sequence, Union

from assess_lib.certify_literals import OLD, Listed, Literal, OpenThreat

DEPTH = 16
SHARES = 128
TIMES = 65_536
_HIGHEST = {"=": 0, "<=": 0, "<": -1}
_LOWEST = {"=": 0, ">=": 0, ">": 1}


@dataclass(frozen=True)
class Quantity:
    """A number and parts with their coefficients: at least 0 wherever the literals hold."""

    number: int
    parts: tuple[tuple[str, int], ...]


@dataclass(frozen=True)
class Item:
    """What a share takes: a side of a literal, an end of a place's range, or that an OLD copy is its variable's value."""

    word: str
    index: int


@dataclass(frozen=True)
class Share:
    """An item as often as its factor says."""

    item: Item
    times: int


@dataclass(frozen=True)
class Sum:
    """Shares whose quantities come to a negative number."""

    shares: tuple[Share, ...]


@dataclass(frozen=True)
class Split:
    """A `/=` that is read as `<` in the first certificate and as `>` in the second one."""

    literal: int
    low: "Certificate"
    high: "Certificate"


Certificate = Union[Sum, Split]


def read_as(literals: Sequence[Literal], index: int, relation: str) -> list[Literal]:
    """The literals with one of them read by another relation."""
    read = list(literals)
    read[index] = replace(read[index], relation=relation)
    return read


def _reduced(literal: Literal) -> tuple[int, list[tuple[str, int]]]:
    """The greatest common factor of the coefficients, and the parts divided by it."""
    factor = gcd(*literal.parts.values())
    return factor, [(part, count // factor) for part, count in literal.parts.items()]


def _of_literal(word: str, literal: Literal) -> Optional[Quantity]:
    """The quantity of a side of a literal; None where it is not allowed."""
    if word == "NEVER":
        return Quantity(-1, ()) if literal.never else None
    ends = _HIGHEST if word == "UP" else _LOWEST
    if literal.relation not in ends:
        return None
    factor, parts = _reduced(literal)
    end = literal.bound + ends[literal.relation]
    if word == "UP":
        return Quantity(end // factor, tuple((part, -count) for part, count in parts))
    return Quantity(-end // factor, tuple(parts))


def _of_place(word: str, index: int, procedure: Listed, region: int) -> Optional[Quantity]:
    """The quantity of an end of a place's range, or of an OLD copy in the region of line 0; None where it is not allowed."""
    if index >= len(procedure.places):
        return None
    place = procedure.places[index]
    if word == "LOW":
        return Quantity(-place.least, ((place.name, 1),))
    if word == "HIGH":
        return Quantity(place.greatest, ((place.name, -1),))
    if region != 0 or not place.name.startswith(OLD):
        return None
    sign = 1 if word == "OLDUP" else -1
    return Quantity(0, ((place.name[len(OLD) :], sign), (place.name, -sign)))


def quantity_of(item: Item, procedure: Listed, region: int, literals: Sequence[Literal]) -> Optional[Quantity]:
    """The quantity of an item; None where it is not allowed."""
    if item.word not in ("UP", "DOWN", "NEVER"):
        return _of_place(item.word, item.index, procedure, region)
    return _of_literal(item.word, literals[item.index]) if item.index < len(literals) else None


def _comes_below_zero(shares: Sequence[Share], procedure: Listed, region: int, literals: Sequence[Literal]) -> bool:
    """Whether shares are allowed, and come to a negative number with no part left."""
    number = 0
    left: dict[str, int] = {}
    for share in shares:
        quantity = quantity_of(share.item, procedure, region, literals)
        if quantity is None or not 1 <= share.times <= TIMES:
            return False
        number += share.times * quantity.number
        for part, count in quantity.parts:
            left[part] = left.get(part, 0) + share.times * count
    return number < 0 and not any(left.values())


def is_accepted(certificate: Certificate, procedure: Listed, region: int, literals: Sequence[Literal], depth: int = DEPTH) -> bool:
    """Whether a certificate is accepted for literals, with at most so many splits in one another."""
    if isinstance(certificate, Sum):
        return 1 <= len(certificate.shares) <= SHARES and _comes_below_zero(certificate.shares, procedure, region, literals)
    index = certificate.literal
    if depth == 0 or index >= len(literals) or literals[index].relation != "/=":
        return False
    low = is_accepted(certificate.low, procedure, region, read_as(literals, index, "<"), depth - 1)
    return low and is_accepted(certificate.high, procedure, region, read_as(literals, index, ">"), depth - 1)


def _lines(certificate: Certificate) -> list[str]:
    """The lines of a certificate behind its first one."""
    if isinstance(certificate, Split):
        return [f"SPLIT {certificate.literal}", *_lines(certificate.low), *_lines(certificate.high)]
    shares = (f"{share.item.word} {share.item.index} {share.times}" for share in certificate.shares)
    return ["SUM", *shares, "END"]


def written(certificate: Certificate, procedure: str, threat: OpenThreat) -> str:
    """A certificate as the program reads it."""
    return "".join(f"{line}\n" for line in (f"CERT {procedure} {threat.number}", *_lines(certificate)))
