"""Calls before they are expanded: the names that they bring, what they count for in the limits, and whether they fit."""

from __future__ import annotations

from dataclasses import dataclass, field

from model.lexing import LONGEST_NAME
from model.parsing import MODES, Statement
from model.refusal import Refused

MOST_PROCEDURES = 64
MOST_LINES = 1000
MOST_PLACES = 64
READ = ("IN", "INOUT")
RETURNED = ("INOUT", "OUT")
NO_LINES = ("TITLE", "CONST", "TYPE", "ENUMERATION", "PROC", "POST", "FINISH", *MODES)


@dataclass(eq=False)
class Shape:
    """A procedure as far as its callers see it: its variables, and whom each of its calls calls.

    A call that brings nothing, since it names its own procedure or none before it, calls None. The lines and places are
    those of the expansion, and so is the length of the longest name of a place.
    """

    number: int
    variables: list[Statement] = field(default_factory=list)
    calls: list[Shape | None] = field(default_factory=list)
    lines: int = 0
    places: int = 0
    longest: int = 0

    def parameters(self) -> list[Statement]:
        """The variables that a call gives arguments."""
        return [variable for variable in self.variables if variable.form != "LOCAL"]

    def count(self, modes: tuple[str, ...]) -> int:
        """How many variables have one of these modes."""
        return sum(variable.form in modes for variable in self.variables)

    def width(self) -> int:
        """How many lines a call of it becomes: values in, its own lines, and values back."""
        return len(self.variables) + self.count(("INOUT",)) + self.lines + self.count(RETURNED)


@dataclass(frozen=True)
class Site:
    """A CALL statement: its number among those of its procedure, from 1, and the earlier procedure that it calls, or None."""

    number: int
    callee: Shape | None

    def length(self) -> int:
        """How long the longest name is that it makes."""
        if self.callee is None or not self.callee.longest:
            return 0
        return len(f"c{self.number}_") + self.callee.longest


@dataclass
class Calls:
    """The procedures of a text in the order of their PROC statements, and its CALL statements by theirs."""

    shapes: dict[int, Shape] = field(default_factory=dict)
    sites: dict[int, Site] = field(default_factory=dict)


def calls_of(statements: list[Statement]) -> Calls:
    """The procedures and calls of a text, whatever else is wrong with it."""
    calls = Calls()
    named: dict[str, Shape] = {}
    current = Shape(-1)
    for order, statement in enumerate(statements):
        if statement.form == "PROC":
            current = calls.shapes[order] = Shape(len(calls.shapes))
            named.setdefault(statement.name, current)
        elif statement.form in MODES:
            current.variables.append(statement)
        elif statement.form == "CALL":
            callee = named.get(statement.name)
            current.calls.append(callee if callee is not current else None)
            calls.sites[order] = Site(len(current.calls), current.calls[-1])
    return calls


def first_brought(site: Site, wanted: set[str]) -> str | None:
    """The first place of the procedure called whose new name is wanted: its variables, what its own calls brought, its copies."""
    if site.callee is None:
        return None
    marks = {mark: f"{mark}{site.number}_" for mark in "co"}
    inner = {mark: {name[len(start) :] for name in wanted if name.startswith(start)} for mark, start in marks.items()}
    for variable in site.callee.variables:
        if variable.name in inner["c"]:
            return marks["c"] + variable.name
    for number, callee in enumerate(site.callee.calls if inner["c"] else [], 1):
        found = first_brought(Site(number, callee), inner["c"])
        if found is not None:
            return marks["c"] + found
    for variable in site.callee.variables:
        if variable.form == "INOUT" and variable.name in inner["o"]:
            return marks["o"] + variable.name
    return None


def count_line(shape: Shape, statement: Statement, site: Site | None) -> None:
    """Counts a line, or all lines and places of a call, and refuses the statement that goes past a limit; lines count first."""
    called = site.callee if site is not None else None
    shape.lines += called.width() if called is not None else 1
    shape.places += called.places if called is not None else 0
    if shape.lines > MOST_LINES:
        raise Refused("E14", statement.place, "lines")
    if shape.places > MOST_PLACES:
        raise Refused("E14", statement.place, "places")


def check_sizes(statements: list[Statement], calls: Calls) -> None:
    """Refuses the first statement with which there are too many procedures, lines or places."""
    shape = Shape(-1)
    for order, statement in enumerate(statements):
        if statement.form == "PROC":
            shape = calls.shapes[order]
            if shape.number == MOST_PROCEDURES:
                raise Refused("E14", statement.place, "procedures")
        elif statement.form in MODES:
            shape.places += 2 if statement.form == "INOUT" else 1
            if shape.places > MOST_PLACES:
                raise Refused("E14", statement.place, "places")
        elif statement.form not in NO_LINES:
            count_line(shape, statement, calls.sites.get(order))


def fits(statement: Statement, site: Site) -> bool:
    """Whether a call names an earlier procedure, gives each parameter an argument and those handed back a variable each,
    none twice, and makes no name that is too long."""
    if site.callee is None or len(statement.arguments) != len(site.callee.parameters()):
        return False
    pairs = zip(site.callee.parameters(), statement.arguments)
    back = [argument for parameter, argument in pairs if parameter.form in RETURNED]
    names = {argument.text for argument in back if argument.kind == "name"}
    return len(names) == len(back) and site.length() <= LONGEST_NAME


def check_fit(statements: list[Statement], calls: Calls) -> None:
    """Refuses the first call that does not fit."""
    shape = Shape(-1)
    for order, statement in enumerate(statements):
        if statement.form == "PROC":
            shape = calls.shapes[order]
            shape.longest = max((len(variable.name) for variable in shape.variables), default=0)
        elif statement.form == "CALL":
            site = calls.sites[order]
            if not fits(statement, site):
                raise Refused("E16", statement.place)
            shape.longest = max(shape.longest, site.length())
