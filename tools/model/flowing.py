"""Information flow: the least sets of relevant lines and of what each line needs, for each variable."""

from __future__ import annotations

from dataclasses import dataclass

from model.graphs import Graph, reach
from model.program import CheckedProcedure
from model.usage import Events, events_of


@dataclass
class Flow:
    """A variable with its sources and its deciding lines."""

    place: int
    sources: list[int]
    tests: list[int]


def has_two_paths(graph: Graph, tail: int, targets: set[int]) -> bool:
    """Whether two paths from a line to targets share that line alone."""
    arms = sorted(set(graph.after[tail]))
    if len(arms) < 2:
        return False
    return not any(separates(graph, tail, arms, targets, line) for line in range(len(graph.after)) if line != tail)


def separates(graph: Graph, tail: int, arms: list[int], targets: set[int], line: int) -> bool:
    """Whether every path from the arms to a target passes a line; then no two paths share the tail alone."""
    blocked = {tail, line}
    free = reach(
        [arm for arm in arms if arm not in blocked],
        lambda at: [] if at in targets else [head for head in graph.after[at] if head not in blocked],
    )
    return not free & targets


class LeastSets:
    """The least sets for one variable: the relevant lines, and what each line needs."""

    def __init__(self, graph: Graph, events: list[Events], place: int, tests: list[int]) -> None:
        self.graph = graph
        self.events = events
        self.tests = tests
        self.relevant = {len(events) - 1}
        self.needs: list[set[int]] = [set() for _ in events]
        self.needs[-1].add(place)

    def pass_needs(self) -> bool:
        """Takes what the lines after each line need to it; whether anything was added."""
        added = False
        for line in reversed(range(len(self.events))):
            event = self.events[line]
            needed = set().union(*(self.needs[head] for head in self.graph.after[line]))
            if event.writes in needed:
                self.relevant.add(line)
            found = needed - {event.writes}
            if line in self.relevant:
                found |= event.reads if line != len(self.events) - 1 else set()
            if not found <= self.needs[line]:
                self.needs[line] |= found
                added = True
        return added

    def add_tests(self) -> bool:
        """Adds the tests from which two paths to relevant lines share the test alone; whether any was added."""
        found = [
            line
            for line in self.tests
            if line not in self.relevant and has_two_paths(self.graph, line, self.relevant)
        ]
        self.relevant.update(found)
        return bool(found)

    def close(self) -> None:
        """Grows both sets until no rule adds anything."""
        growing = True
        while growing:
            size = len(self.relevant)
            while self.pass_needs():
                pass
            growing = self.add_tests() or len(self.relevant) != size


def flows_of(procedure: CheckedProcedure, graph: Graph) -> list[Flow]:
    """Sources and deciding lines of each variable."""
    events = events_of(procedure)
    tests = [line for line, form in enumerate(procedure.lines) if form.form in ("IF", "EXIT WHEN")]
    reachable = reach([0], lambda line: graph.after[line])
    flows = []
    for place in procedure.variables():
        sets = LeastSets(graph, events, place, tests)
        sets.close()
        deciding = [line for line in tests if line in sets.relevant and line in reachable]
        flows.append(Flow(place, sorted(sets.needs[0]), deciding))
    return flows
