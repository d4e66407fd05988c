"""Use facts of variables, over all paths of the line graph from line 0."""

from __future__ import annotations

from dataclasses import dataclass

from model.graphs import Graph, reach
from model.program import CheckedProcedure, Expression


@dataclass(frozen=True)
class Events:
    """What a line does: the places that it reads, and then the place that it writes."""

    reads: frozenset[int]
    writes: int | None


def places_in(expression: Expression | None) -> frozenset[int]:
    """The places of an expression."""
    if expression is None:
        return frozenset()
    if expression.kind in ("place", "flag"):
        return frozenset({expression.value})
    return places_in(expression.left) | places_in(expression.right)


def events_of(procedure: CheckedProcedure) -> list[Events]:
    """The events of each line; the last reads the OUT and INOUT variables, annotations do nothing."""
    events = []
    for line in procedure.lines:
        if line.form == "ENDPROC":
            read = [n for n in procedure.variables() if procedure.places[n].mode in ("OUT", "INOUT")]
            events.append(Events(frozenset(read), None))
        elif line.form in ("ASSIGN", "IF", "EXIT WHEN"):
            events.append(Events(places_in(line.expression), line.place))
        else:
            events.append(Events(frozenset(), None))
    return events


def use_of(graph: Graph, events: list[Events], place: int) -> dict[str, bool]:
    """The six facts of one variable."""
    last = len(events) - 1
    reads = [place in event.reads for event in events]
    writes = [event.writes == place for event in events]
    reachable = reach([0], lambda line: graph.after[line])
    unwritten = reach([0], lambda line: [] if writes[line] else graph.after[line])
    unread_after_write = reach(
        [head for line in reachable if writes[line] for head in graph.after[line]],
        lambda line: [] if reads[line] or writes[line] else graph.after[line],
    )
    written_last = reach(
        [head for line in reachable if writes[line] for head in graph.after[line]],
        lambda line: [] if reads[line] else graph.after[line],
    )
    return {
        "RF": any(reads[line] for line in unwritten),
        "OW": any(writes[line] and not reads[line] for line in unread_after_write),
        "LW": last in written_last and not reads[last],
        "NR": not any(reads[line] for line in reachable),
        "NW": not any(writes[line] for line in reachable),
        "EU": last in unwritten,
    }


def data_use(procedure: CheckedProcedure, graph: Graph) -> list[tuple[int, dict[str, bool]]]:
    """The six facts of each variable."""
    events = events_of(procedure)
    return [(place, use_of(graph, events, place)) for place in procedure.variables()]
