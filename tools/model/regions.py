"""Regions: their long paths in order, and how many and how large these are."""

from __future__ import annotations

from dataclasses import dataclass
from functools import lru_cache
from typing import Iterator

from model.graphs import Control
from model.program import CheckedProcedure
from model.terms import HEAVIEST, Literal, Term, replace, var
from model.ways import Stop, Way, count_ways, ways_of

MOST_ROWS = 16_384
MOST_NODES = 2_097_152
DEEPEST = 1_000


@dataclass
class Path:
    """A path: its decisions, its literals and values over the first values of places, its stop, and the lines it steps."""

    decisions: tuple[bool, ...]
    literals: tuple[Literal, ...]
    stop: Stop
    values: tuple[Term, ...]
    lines: tuple[int, ...]


@dataclass(frozen=True)
class Point:
    """A path on its way: `rest` are the leading assertions still to be stepped once a head is met."""

    decisions: tuple[bool, ...]
    literals: tuple[Literal, ...]
    values: tuple[Term, ...]
    lines: tuple[int, ...]
    met: int | None = None
    rest: tuple[int, ...] = ()
    nodes: int = 0
    weight: int = 0
    depth: int = 0


class Region:
    """A region of a procedure: from its first line to a halt or to the first loop head after a step."""

    def __init__(self, procedure: CheckedProcedure, control: Control, first: int) -> None:
        self.procedure = procedure
        self.control = control
        self.first = first
        self.heads = set(control.heads())
        self.ways: dict[int, list[Way]] = {}

    def ways_of(self, line: int) -> list[Way]:
        """The ways of a line, found once."""
        if line not in self.ways:
            self.ways[line] = ways_of(self.procedure, line)
        return self.ways[line]

    def count_rest(self, rest: list[int]) -> int:
        """How many ways lead through assertions, those that halt in them included."""
        total, passing = 0, 1
        for line in rest:
            counts = list(count_ways(self.procedure, line))
            total += passing * sum(count for next_line, count in counts if next_line is None)
            passing *= sum(count for next_line, count in counts if next_line is not None)
        return total + passing

    def count(self) -> int:
        """How many long paths the region has."""

        @lru_cache(maxsize=None)
        def from_line(line: int) -> int:
            """How many begin at a line."""
            total = 0
            for next_line, ways in count_ways(self.procedure, line):
                if not ways:
                    continue
                if next_line is None:
                    total += ways
                elif next_line in self.heads:
                    total += ways * self.count_rest(self.control.leading(next_line))
                else:
                    total += ways * from_line(next_line)
            return total

        return from_line(self.first)

    def start(self) -> Point:
        """Where all paths begin."""
        return Point((), (), tuple(var(place) for place in range(len(self.procedure.places))), ())

    def advance(self, point: Point, line: int, way: Way) -> Point:
        """A point after a way of a line, literals and values put in terms of the first values."""
        literals = tuple((replace(a, point.values), r, replace(b, point.values)) for a, r, b in way.literals)
        values = point.values
        met: list[Term] = []
        if way.assigned is not None:
            place, term = way.assigned
            met.append(replace(term, values))
            values = (*values[:place], met[0], *values[place + 1 :])
        sizes = [(a.size + b.size, a.weight + b.weight, max(a.depth, b.depth)) for a, _, b in literals]
        sizes += [(term.size, term.weight, term.depth) for term in met]
        return Point(
            point.decisions + way.decisions,
            point.literals + literals,
            values,
            (*point.lines, line),
            point.met,
            point.rest,
            point.nodes + sum(size for size, _, _ in sizes),
            max([point.weight, *(weight for _, weight, _ in sizes)]),
            max([point.depth, *(depth for _, _, depth in sizes)]),
        )

    def steps(self, point: Point, line: int, long: bool) -> Iterator[tuple[Point, int | None, Stop | None]]:
        """All points after a line: each with the line that is next, or with the stop."""
        for way in self.ways_of(line):
            after = self.advance(point, line, way)
            if way.stop is not None:
                yield after, None, way.stop
            elif point.met is None and way.next_line not in self.heads:
                yield after, way.next_line, None
            else:
                yield self.at_head(after, way, long)

    def at_head(self, point: Point, way: Way, long: bool) -> tuple[Point, int | None, Stop | None]:
        """A point at a head that is met, or among the leading assertions behind it."""
        if point.met is None:
            assert way.next_line is not None
            rest = tuple(self.control.leading(way.next_line)) if long else ()
            met = way.next_line
        else:
            met, rest = point.met, point.rest
        if not rest:
            return point, None, ("HEAD", met)
        begun = Point(
            point.decisions, point.literals, point.values, point.lines, met, rest[1:], point.nodes, point.weight, point.depth
        )
        return begun, rest[0], None

    def walk(self, long: bool) -> Iterator[tuple[Point, Stop]]:
        """All paths in order, long or not, each with its stop."""
        waiting: list[tuple[Point, int | None, Stop | None]] = [(self.start(), self.first, None)]
        while waiting:
            point, line, stop = waiting.pop()
            if stop is not None:
                yield point, stop
            else:
                assert line is not None
                waiting.extend(reversed(list(self.steps(point, line, long))))

    def paths(self, long: bool) -> list[Path]:
        """All paths in order."""
        return [
            Path(point.decisions, point.literals, stop, point.values, point.lines) for point, stop in self.walk(long)
        ]

    def past(self) -> str | None:
        """The first of the four limits that the region passes, or None."""
        if self.count() > MOST_ROWS:
            return "ROWS"
        nodes = weight = depth = 0
        for point, _ in self.walk(True):
            nodes += point.nodes
            weight = max(weight, point.weight)
            depth = max(depth, point.depth)
        passed = [nodes > MOST_NODES, weight >= HEAVIEST, depth > DEEPEST]
        return next((name for name, is_passed in zip(("NODES", "WEIGHT", "DEPTH"), passed) if is_passed), None)


def regions_of(procedure: CheckedProcedure, control: Control) -> list[Region]:
    """The regions of a reducible procedure, ascending."""
    return [Region(procedure, control, first) for first in sorted({0, *control.heads()})]
