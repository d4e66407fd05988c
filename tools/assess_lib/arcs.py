"""The line graph of an accepted procedure, made from its lines where the report gives none."""

from __future__ import annotations

from typing import Optional

from assess_lib.listing import Listing
from assess_lib.report import Arc, ProcedureReport


class _Jumps:
    """Where the lines of a procedure lead, filled in one pass over its blocks."""

    def __init__(self, listing: Listing) -> None:
        self.lines = listing.lines
        self.target: dict[int, int] = {}
        self.labels: dict[str, int] = {}
        self._open: list[list[int]] = []
        self._loops: list[tuple[int, list[int]]] = []
        for line in self.lines:
            self._take(line.number, line.statement.opening, line.statement.words)

    def _take(self, number: int, opening: str, words: list[str]) -> None:
        """Takes a line: opens a block, closes one, or notes a jump out of one."""
        if opening == "IF":
            self._open.append([number])
        elif opening == "ELSE" and self._open:
            self.target[self._open[-1][0]] = number + 1
            self._open[-1].append(number)
        elif opening == "ENDIF" and self._open:
            opened = self._open.pop()
            self.target[opened[-1]] = number
            self.target.setdefault(opened[0], number)
        elif opening == "LOOP":
            self._loops.append((number, []))
        elif opening == "EXIT" and self._loops:
            self._loops[-1][1].append(number)
        elif opening == "ENDLOOP" and self._loops:
            head, exits = self._loops.pop()
            self.target[number] = head
            self.target.update({line: number + 1 for line in exits})
        elif opening == "LABEL" and len(words) > 1:
            self.labels[words[1]] = number

    def after(self, number: int) -> list[Optional[int]]:
        """The lines to which a line leads, the one of a true test first."""
        words = self.lines[number].statement.words
        last = len(self.lines) - 1
        if number == last:
            return []
        if words[0] == "IF":
            return [number + 1, self.target.get(number)]
        if words[:2] == ["EXIT", "WHEN"]:
            return [self.target.get(number), number + 1]
        if words[0] in ("EXIT", "ENDLOOP", "ELSE"):
            return [self.target.get(number)]
        if words[0] == "GOTO":
            return [self.labels.get(words[1])]
        return [last] if words[0] == "RETURN" else [number + 1]


def arcs_of(listing: Listing) -> list[Arc]:
    """The arcs of the line graph, in the order and with the numbers of a report; none where a call was expanded."""
    if any(line.call for line in listing.lines):
        return []
    jumps = _Jumps(listing)
    pairs = [(line.number, head) for line in listing.lines for head in jumps.after(line.number)]
    return [Arc(number, tail, head) for number, (tail, head) in enumerate(pairs, 1) if head is not None]


def reported_arcs(report: ProcedureReport, listing: Listing) -> list[Arc]:
    """The arcs that the report gives, else those made from the lines."""
    return report.paths.arcs if report.paths and report.paths.arcs else arcs_of(listing)
