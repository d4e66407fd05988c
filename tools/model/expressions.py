"""Path definitions: one elimination over the arcs of reachable lines."""

from __future__ import annotations

from dataclasses import dataclass, field

from model.graphs import Graph, reach

Value = tuple[str, int]
"""`a` and the number of an arc, or `E` and the number of a step, from 1."""


@dataclass
class Elimination:
    """The entries between lines, and the steps made so far: each is its operator and its sides."""

    entries: dict[tuple[int, int], Value] = field(default_factory=dict)
    steps: list[tuple[str, Value, Value]] = field(default_factory=list)

    def make(self, operator: str, left: Value, right: Value) -> Value:
        """Makes one step."""
        self.steps.append((operator, left, right))
        return ("E", len(self.steps))

    def join(self, tail: int, head: int, value: Value) -> None:
        """Joins two lines by a value, by a sum where they are joined."""
        before = self.entries.get((tail, head))
        self.entries[tail, head] = value if before is None else self.make("+", before, value)

    def eliminate(self, line: int) -> None:
        """Takes a line out: what leads to it is joined with that to which it leads."""
        own = self.entries.get((line, line))
        star = None if own is None else self.make("*", own, own)
        tails = sorted(tail for tail, head in self.entries if head == line and tail != line)
        heads = sorted(head for tail, head in self.entries if tail == line and head != line)
        for tail in tails:
            for head in heads:
                value = self.entries[tail, line]
                if star is not None:
                    value = self.make(".", value, star)
                value = self.make(".", value, self.entries[line, head])
                self.join(tail, head, value)
        self.entries = {ends: value for ends, value in self.entries.items() if line not in ends}


@dataclass
class Definitions:
    """The definitions that the whole uses, numbered from 1, and the whole."""

    lines: list[str]
    whole: str


def used_steps(steps: list[tuple[str, Value, Value]], whole: Value) -> set[int]:
    """The numbers of the steps that a value uses, directly or through others."""
    used: set[int] = set()
    waiting = [whole]
    while waiting:
        kind, number = waiting.pop()
        if kind == "E" and number not in used:
            used.add(number)
            waiting.extend(steps[number - 1][1:])
    return used


def definitions_of(graph: Graph, order: list[int]) -> Definitions:
    """The path definitions from line 0 to the last line."""
    reachable = reach([0], lambda line: graph.after[line])
    elimination = Elimination()
    for number, (tail, head) in enumerate(graph.arcs(), 1):
        if tail in reachable:
            elimination.join(tail, head, ("a", number))
    for line in order:
        elimination.eliminate(line)
    whole = elimination.entries.get((0, len(graph.after) - 1))
    if whole is None:
        return Definitions([], "0")
    kept = sorted(used_steps(elimination.steps, whole))
    renumbered = {number: index for index, number in enumerate(kept, 1)}

    def text(value: Value) -> str:
        """How a value is written."""
        return f"a{value[1]}" if value[0] == "a" else f"E{renumbered[value[1]]}"

    lines = []
    for number in kept:
        operator, left, right = elimination.steps[number - 1]
        sides = f"{text(left)} *" if operator == "*" else f"{text(left)} {operator} {text(right)}"
        lines.append(f"E{renumbered[number]} = {sides}")
    return Definitions(lines, text(whole))
