"""Intervals, level by level, and the order in which lines are eliminated."""

from __future__ import annotations

from dataclasses import dataclass

from model.graphs import Graph, reach

Level = list[list[int]]
"""The intervals of a level in the order in which they are made, each with its head first and its members in the order taken."""

Arcs = set[tuple[int, int]]


@dataclass
class Derivation:
    """The levels, and the order of elimination."""

    levels: list[Level]
    order: list[int]


def next_member(nodes: list[int], before: dict[int, set[int]], taken: set[int], interval: list[int]) -> int | None:
    """The least node outside all intervals whose predecessors are all inside this one."""
    inside = set(interval)
    for node in nodes:
        if node not in taken and before[node] and before[node] <= inside:
            return node
    return None


def level_of(nodes: list[int], arcs: Arcs) -> Level:
    """The intervals of one level; the first head is the first node, 0."""
    before: dict[int, set[int]] = {node: {tail for tail, head in arcs if head == node} for node in nodes}
    level: Level = []
    taken: set[int] = set()
    head: int | None = 0
    while head is not None:
        interval = [head]
        taken.add(head)
        while (member := next_member(nodes, before, taken, interval)) is not None:
            interval.append(member)
            taken.add(member)
        level.append(interval)
        head = next((node for node in nodes if node not in taken and before[node] & taken), None)
    return level


def derive(graph: Graph) -> Derivation:
    """The levels of a graph, up to the first with one interval, or whose intervals are all single nodes."""
    reachable = reach([0], lambda line: graph.after[line])
    nodes = sorted(reachable)
    arcs = {(tail, head) for tail, head in graph.arcs() if tail in reachable}
    levels = []
    while True:
        level = level_of(nodes, arcs)
        levels.append(level)
        if len(level) == 1 or all(len(interval) == 1 for interval in level):
            break
        owner = {member: interval[0] for interval in level for member in interval}
        arcs = {(owner[tail], owner[head]) for tail, head in arcs if owner[tail] != owner[head]}
        nodes = sorted(interval[0] for interval in level)
    last = len(graph.after) - 1
    order = [member for level in levels for interval in level for member in interval[1:] if member != last]
    return Derivation(levels, order)
