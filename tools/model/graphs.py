"""The line graph, and what the control section says of it."""

from __future__ import annotations

from collections import deque
from dataclasses import dataclass
from typing import Callable, Iterable

from model.program import CheckedProcedure

PASSED = ("LOOP", "LABEL", "SKIP", "ENDIF")


@dataclass
class Graph:
    """Lines with the lines to which each leads, the true one of a test first, and the other way round."""

    after: list[list[int]]
    before: list[list[int]]

    def arcs(self) -> list[tuple[int, int]]:
        """All arcs in order."""
        return [(tail, head) for tail, heads in enumerate(self.after) for head in heads]


@dataclass
class Loop:
    """A loop with its members, and the assertions that lead it."""

    head: int
    members: list[int]
    leading: list[int]


@dataclass
class Entries:
    """A cycle, and two paths from line 0 that first meet it at two lines."""

    cycle: list[int]
    first: list[int]
    second: list[int]


@dataclass
class Control:
    """What the control section says, apart from the intervals."""

    unreachable: list[int]
    stuck: list[int]
    loops: list[Loop]
    entries: Entries | None

    def heads(self) -> list[int]:
        """The loop heads."""
        return [loop.head for loop in self.loops]

    def leading(self, head: int) -> list[int]:
        """The leading assertions of a head."""
        return next(loop.leading for loop in self.loops if loop.head == head)


def successors(procedure: CheckedProcedure, number: int) -> list[int]:
    """The lines to which a line leads by its form alone."""
    line = procedure.lines[number]
    if line.form == "ENDPROC":
        return []
    if line.form in ("IF", "EXIT WHEN"):
        assert line.target is not None
        arms = [number + 1, line.target]
        return arms if line.form == "IF" else arms[::-1]
    return [number + 1 if line.target is None else line.target]


def graph_of(procedure: CheckedProcedure) -> Graph:
    """The line graph."""
    after = [successors(procedure, number) for number in range(len(procedure.lines))]
    before: list[list[int]] = [[] for _ in after]
    for tail, heads in enumerate(after):
        for head in heads:
            before[head].append(tail)
    return Graph(after, before)


def reach(starts: Iterable[int], after: Callable[[int], Iterable[int]]) -> set[int]:
    """All that is reached from the starts, themselves included."""
    found = set(starts)
    waiting = deque(found)
    while waiting:
        for line in after(waiting.popleft()):
            if line not in found:
                found.add(line)
                waiting.append(line)
    return found


def reached_without(graph: Graph, passed: int) -> set[int]:
    """The lines that paths from line 0 reach without passing a line."""
    return reach([0] if passed else [], lambda line: [head for head in graph.after[line] if head != passed])


def back_arcs(graph: Graph) -> dict[int, list[int]]:
    """For each loop head the tails of the arcs that make it one: reachable lines to which every path passes the head."""
    reachable = reach([0], lambda line: graph.after[line])
    tails: dict[int, list[int]] = {}
    for head in sorted(reachable):
        before = [tail for tail in graph.before[head] if tail in reachable]
        if not before:
            continue
        free = reached_without(graph, head)
        found = [tail for tail in before if tail not in free]
        if found:
            tails[head] = found
    return tails


def members_of(graph: Graph, head: int, tails: list[int], reachable: set[int]) -> list[int]:
    """The head and every line from which one of the tails is reached without passing the head."""
    inside = reach(
        [tail for tail in tails if tail != head],
        lambda line: [tail for tail in graph.before[line] if tail != head and tail in reachable],
    )
    return sorted(inside | {head})


def leading_of(procedure: CheckedProcedure, head: int) -> list[int]:
    """The longest run of assertions at the head, or behind a head that only passes on."""
    line = head + 1 if procedure.lines[head].form in PASSED else head
    found = []
    while procedure.lines[line].form == "ASSERT":
        found.append(line)
        line += 1
    return found


def find_cycle(graph: Graph, reachable: set[int], tails: dict[int, list[int]]) -> list[int] | None:
    """A cycle without an arc to a head that every path to it passes, from its least line on; None where there is none."""

    def forward(line: int) -> list[int]:
        """The lines after a line by the other arcs."""
        return [head for head in graph.after[line] if line not in tails.get(head, [])]

    done: set[int] = set()
    for start in sorted(reachable):
        path: list[tuple[int, list[int]]] = [(start, forward(start))] if start not in done else []
        while path:
            line, heads = path[-1]
            if not heads:
                done.add(line)
                path.pop()
                continue
            head = heads.pop(0)
            trail = [member for member, _ in path]
            if head in trail:
                cycle = trail[trail.index(head) :]
                least = cycle.index(min(cycle))
                return cycle[least:] + cycle[:least]
            if head not in done:
                path.append((head, forward(head)))
    return None


def path_avoiding(graph: Graph, end: int, avoided: set[int]) -> list[int] | None:
    """A shortest path from line 0 to a line of which no line before the end is avoided."""
    came: dict[int, int | None] = {0: None}
    waiting = deque([0])
    while waiting:
        line = waiting.popleft()
        if line == end:
            path = [line]
            while came[path[-1]] is not None:
                path.append(came[path[-1]])  # type: ignore[arg-type]
            return path[::-1]
        if line in avoided:
            continue
        for head in graph.after[line]:
            if head not in came:
                came[head] = line
                waiting.append(head)
    return None


def entries_of(graph: Graph, cycle: list[int]) -> Entries:
    """The cycle with paths to the first two lines at which it is entered."""
    paths = [path_avoiding(graph, line, set(cycle)) for line in sorted(cycle)]
    found = [path for path in paths if path is not None]
    return Entries(cycle, found[0], found[1])


def control_of(procedure: CheckedProcedure, graph: Graph) -> Control:
    """The control report of a procedure."""
    lines = range(len(graph.after))
    reachable = reach([0], lambda line: graph.after[line])
    ending = reach([len(graph.after) - 1], lambda line: graph.before[line])
    tails = back_arcs(graph)
    loops = [
        Loop(head, members_of(graph, head, tails[head], reachable), leading_of(procedure, head)) for head in sorted(tails)
    ]
    cycle = find_cycle(graph, reachable, tails)
    return Control(
        [line for line in lines if line not in reachable],
        [line for line in lines if line in reachable and line not in ending],
        loops,
        None if cycle is None else entries_of(graph, cycle),
    )
