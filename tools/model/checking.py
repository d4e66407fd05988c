"""Names, types, modes and bounds: statements become checked procedures, or the text is refused."""

from __future__ import annotations

from dataclasses import dataclass, field
from typing import Iterator

from model.calling import RETURNED, Calls, calls_of, check_fit, check_sizes, first_brought
from model.ordering import Procedure
from model.parsing import MODES, RELATIONS, Raw, Statement, TypeUse
from model.program import WHOLE, CheckedProcedure, CheckedText, Expression, Line, Place, bounds_of
from model.refusal import Refused

WIDEST = 2**126


class WrongType(Exception):
    """A name of another kind, or an expression against the typing rules."""


class TooWide(Exception):
    """A part of an expression has static bounds that are too wide."""


@dataclass(frozen=True)
class Declared:
    """What a declared name is: `constant`, `type`, `value` (of an enumeration), `procedure` or `variable`."""

    kind: str
    order: int
    statement: Statement
    value: int = 0
    place: int = 0


@dataclass
class Names:
    """The declarations of a text, and the variables of the procedure that is read at the moment."""

    shared: dict[str, Declared] = field(default_factory=dict)
    variables: dict[int, dict[str, Declared]] = field(default_factory=dict)
    owner: dict[int, int] = field(default_factory=dict)

    def find(self, name: str, order: int) -> Declared | None:
        """What a name is at the statement of this order, if it is in force there."""
        own = self.variables.get(self.owner.get(order, -1), {})
        if name in own:
            return own[name]
        found = self.shared.get(name)
        return found if found is not None and found.order < order else None


def declared_names(statement: Statement) -> list[str]:
    """The names that a statement declares, in order."""
    if statement.form in ("CONST", "TYPE", "PROC", *MODES):
        return [statement.name]
    if statement.form == "ENUMERATION":
        return [statement.name, *statement.values]
    return []


def declare_shared(names: Names, statement: Statement, order: int) -> None:
    """Declares a constant, a type with its values, or a procedure."""
    kind = {"CONST": "constant", "PROC": "procedure"}.get(statement.form, "type")
    for number, name in enumerate(declared_names(statement)):
        if name in names.shared:
            raise Refused("E08", statement.place, name)
        names.shared[name] = Declared(kind if number == 0 else "value", order, statement, number - 1)


def declare(statements: list[Statement], calls: Calls) -> Names:
    """All names of a text, or the first that is declared twice, also by a call that brings the name of a variable."""
    names = Names()
    current = -1
    for order, statement in enumerate(statements):
        if statement.form == "PROC":
            current = order
            names.variables[current] = {}
        names.owner[order] = current
        if statement.form in MODES:
            own = names.variables[current]
            if statement.name in own or statement.name in names.shared:
                raise Refused("E08", statement.place, statement.name)
            own[statement.name] = Declared("variable", order, statement, place=len(own))
        elif statement.form == "CALL":
            clash = first_brought(calls.sites[order], set(names.variables[current]))
            if clash is not None:
                raise Refused("E08", statement.place, clash)
        else:
            declare_shared(names, statement, order)
    return names


def names_in(raw: Raw | None) -> Iterator[str]:
    """The names of an expression in the order of their bytes."""
    if raw is None:
        return
    yield from names_in(raw.left)
    if raw.kind in ("name", "old"):
        yield raw.text
    yield from names_in(raw.right)


def names_used(statement: Statement) -> Iterator[str]:
    """The names that a statement uses and does not declare, in the order of their bytes."""
    if statement.form in ("ASSIGN", "CALL"):
        yield statement.name
    if statement.type_use is not None:
        if statement.type_use.kind == "named":
            yield statement.type_use.name
        yield from (bound.name for bound in statement.type_use.bounds if bound.name is not None)
    for expression in statement.expressions():
        yield from names_in(expression)


class Checker:
    """The checks of a text after its names are declared."""

    def __init__(self, statements: list[Statement]) -> None:
        self.statements = statements
        self.calls = calls_of(statements)
        self.names = declare(statements, self.calls)

    def check_known(self) -> None:
        """Refuses the first name without a declaration in force."""
        for order, statement in enumerate(self.statements):
            for name in names_used(statement):
                if self.names.find(name, order) is None:
                    raise Refused("E09", statement.place, name)

    def expect(self, name: str, order: int, kind: str) -> Declared:
        """What the name declares, which is of this kind."""
        found = self.names.find(name, order)
        if found is None or found.kind != kind:
            raise WrongType
        return found

    def type_of_use(self, use: TypeUse, order: int) -> tuple[str, Declared | None]:
        """The type of a variable: whole, `BOOL` or an enumeration's name, with its declaration where it has one."""
        if use.kind == "BOOL":
            return "BOOL", None
        if use.kind == "named":
            found = self.expect(use.name, order, "type")
            enumeration = found.statement.form == "ENUMERATION"
            return (use.name if enumeration else WHOLE), found
        for bound in use.bounds:
            if bound.name is not None:
                self.expect(bound.name, order, "constant")
        return WHOLE, None

    def type_of_variable(self, found: Declared) -> str:
        """The type of a declared variable."""
        assert found.statement.type_use is not None
        return self.type_of_use(found.statement.type_use, found.order)[0]

    def type_of_name(self, raw: Raw, order: int) -> str:
        """The type of a name in an expression, or of its OLD copy."""
        found = self.names.find(raw.text, order)
        if found is not None and found.kind == "variable":
            return self.type_of_variable(found)
        if found is None or raw.kind == "old" or found.kind not in ("constant", "value"):
            raise WrongType
        return WHOLE if found.kind == "constant" else found.statement.name

    def type_of(self, raw: Raw, order: int) -> str:
        """The type of an expression: whole, `BOOL` or an enumeration's name."""
        if raw.kind in ("name", "old"):
            return self.type_of_name(raw, order)
        if raw.kind in ("number", "truth"):
            return WHOLE if raw.kind == "number" else "BOOL"
        sides = [self.type_of(side, order) for side in (raw.left, raw.right) if side is not None]
        if raw.kind in ("AND", "OR", "NOT"):
            wanted, given = "BOOL", "BOOL"
        elif raw.kind in RELATIONS:
            wanted, given = WHOLE, "BOOL"
            if raw.kind in ("=", "/=") and sides[0] != "BOOL":
                wanted = sides[0]
        else:
            wanted, given = WHOLE, WHOLE
        if any(side != wanted for side in sides):
            raise WrongType
        return given

    def parameters(self, name: str, order: int) -> list[Declared]:
        """The parameters of the procedure of this name."""
        variables = self.names.variables[self.expect(name, order, "procedure").order].values()
        return [variable for variable in variables if variable.statement.form != "LOCAL"]

    def check_arguments(self, statement: Statement, order: int) -> None:
        """The types of a call: each argument is assigned to its parameter, and what is handed back to a variable alone."""
        parameters = self.parameters(statement.name, order)
        for number, argument in enumerate(statement.arguments):
            given = self.type_of(argument, order)
            if number >= len(parameters):
                continue
            if given != self.type_of_variable(parameters[number]):
                raise WrongType
            if parameters[number].statement.form in RETURNED and argument.kind == "name":
                self.expect(argument.text, order, "variable")

    def check_type(self, statement: Statement, order: int) -> None:
        """The types of one statement."""
        if statement.form == "CALL":
            self.check_arguments(statement, order)
        if statement.type_use is not None:
            self.type_of_use(statement.type_use, order)
        if statement.expression is None:
            return
        wanted = "BOOL"
        if statement.form == "ASSIGN":
            wanted = self.type_of_variable(self.expect(statement.name, order, "variable"))
        if self.type_of(statement.expression, order) != wanted:
            raise WrongType

    def check_types(self) -> None:
        """Refuses the first statement with a wrong type."""
        for order, statement in enumerate(self.statements):
            try:
                self.check_type(statement, order)
            except WrongType:
                raise Refused("E10", statement.place) from None

    def mode(self, name: str, order: int) -> str:
        """The mode of a variable; empty for another name."""
        found = self.names.find(name, order)
        return found.statement.form if found is not None and found.kind == "variable" else ""

    def assigned(self, statement: Statement, order: int) -> list[str]:
        """The names that a statement assigns: the target, or in a call the arguments to which a parameter is handed back."""
        if statement.form == "ASSIGN":
            return [statement.name]
        if statement.form != "CALL":
            return []
        pairs = zip(self.parameters(statement.name, order), statement.arguments)
        return [raw.text for found, raw in pairs if found.statement.form in RETURNED and raw.kind == "name"]

    def wrong_mode(self, statement: Statement, order: int) -> bool:
        """Whether a statement uses a variable against its mode."""
        if any(self.mode(name, order) == "IN" for name in self.assigned(statement, order)):
            return True
        forbidden = {"PRE": ("OUT", "LOCAL"), "POST": ("LOCAL",)}.get(statement.form, ())
        for raw in (leaf for expression in statement.expressions() for leaf in leaves(expression)):
            mode = self.mode(raw.text, order)
            if mode in forbidden:
                return True
            if raw.kind == "old" and (mode != "INOUT" or statement.form not in ("PRE", "POST", "ASSERT")):
                return True
        return False

    def check_modes(self) -> None:
        """Refuses the first use of a variable against its mode."""
        for order, statement in enumerate(self.statements):
            if self.wrong_mode(statement, order):
                raise Refused("E11", statement.place)

    def range_of(self, use: TypeUse, order: int) -> tuple[int, int, bool]:
        """The least and greatest value of a type, and whether it wraps."""
        if use.kind == "BOOL":
            return 0, 1, False
        if use.kind == "named":
            found = self.names.find(use.name, order)
            assert found is not None
            if found.statement.type_use is None:
                return 0, len(found.statement.values) - 1, False
            return self.range_of(found.statement.type_use, found.order)
        least, greatest = (self.value_of_bound(bound.name, bound.value, order) for bound in use.bounds)
        return least, greatest, use.wrap

    def value_of_bound(self, name: str | None, value: int, order: int) -> int:
        """The value of a bound."""
        if name is None:
            return value
        found = self.names.find(name, order)
        assert found is not None
        return found.statement.value

    def check_ranges(self) -> None:
        """Refuses the first range that has no value."""
        for order, statement in enumerate(self.statements):
            use = statement.type_use
            if use is not None and use.kind == "range":
                least, greatest, _ = self.range_of(use, order)
                if least > greatest:
                    raise Refused("E12", statement.place)

    def places_of(self, procedure: Procedure, order: int) -> list[Place]:
        """The variables of a procedure in order, and then the copies of its INOUT variables."""
        places = []
        for number, statement in enumerate(procedure.variables):
            assert statement.type_use is not None
            kind, _ = self.type_of_use(statement.type_use, order + 1 + number)
            least, greatest, wrap = self.range_of(statement.type_use, order + 1 + number)
            places.append(Place(statement.name, statement.form, kind, least, greatest, wrap))
        copies = [
            Place(place.name, place.mode, place.kind, place.least, place.greatest, place.wrap, True)
            for place in places
            if place.mode == "INOUT"
        ]
        return places + copies


def leaves(raw: Raw | None) -> Iterator[Raw]:
    """The names of an expression, with or without OLD."""
    if raw is None:
        return
    if raw.kind in ("name", "old"):
        yield raw
    yield from leaves(raw.left)
    yield from leaves(raw.right)


class Builder:
    """Builds the checked expressions of one procedure."""

    def __init__(self, checker: Checker, places: list[Place], order: int) -> None:
        self.checker = checker
        self.places = places
        self.order = order

    def build_name(self, raw: Raw) -> Expression:
        """A name's value: a number, a place or a flag."""
        found = self.checker.names.find(raw.text, self.order)
        assert found is not None
        if found.kind == "constant":
            return number(found.statement.value)
        if found.kind == "value":
            return number(found.value)
        index = next(
            k for k, place in enumerate(self.places) if place.name == raw.text and place.old == (raw.kind == "old")
        )
        place = self.places[index]
        if place.kind == "BOOL":
            return Expression("flag", index)
        return Expression("place", index, bounds=(place.least, place.greatest))

    def build(self, raw: Raw) -> Expression:
        """The expression with the static bounds of each part, none of which is too wide."""
        if raw.kind in ("name", "old"):
            return self.build_name(raw)
        if raw.kind == "number":
            return number(raw.value)
        if raw.kind == "truth":
            return Expression("truth", raw.value)
        left = self.build(raw.left) if raw.left is not None else None
        right = self.build(raw.right) if raw.right is not None else None
        bounds = None
        if raw.kind == "opposite":
            assert left is not None and left.bounds is not None
            bounds = (-left.bounds[1], -left.bounds[0])
        elif raw.kind in ("+", "-", "*", "DIV", "MOD"):
            assert left is not None and right is not None and left.bounds is not None and right.bounds is not None
            bounds = bounds_of(raw.kind, left.bounds, right.bounds)
        if bounds is not None and not -WIDEST <= bounds[0] <= bounds[1] <= WIDEST:
            raise TooWide
        return Expression(raw.kind, 0, left, right, bounds)


def number(value: int) -> Expression:
    """A number as an expression."""
    return Expression("number", value, bounds=(value, value))


def build_procedure(checker: Checker, procedure: Procedure, order: int) -> CheckedProcedure:
    """The checked procedure, whose PROC statement is of this order."""
    places = checker.places_of(procedure, order)
    builder = Builder(checker, places, order + 1)
    built: dict[int, list[Expression]] = {}
    assert procedure.post is not None
    statements = [procedure.lines[0], procedure.post, *procedure.lines[1:]]
    for statement in statements:
        try:
            built[id(statement)] = [builder.build(expression) for expression in statement.expressions()]
        except TooWide:
            raise Refused("E13", statement.place) from None
    lines = []
    numbers = {place.name: number for number, place in enumerate(places) if not place.old}
    for statement, target in zip(procedure.lines, procedure.targets):
        source = procedure.post if statement.form == "ENDPROC" else statement
        if statement.form == "CALL":
            callee = checker.calls.shapes[checker.expect(statement.name, order + 1, "procedure").order].number
            lines.append(Line("CALL", callee=callee, arguments=tuple(built[id(statement)])))
            continue
        place = numbers[statement.name] if statement.form == "ASSIGN" else None
        expression = next(iter(built[id(source)]), None)
        lines.append(Line(statement.form, expression, place, target))
    return CheckedProcedure(procedure.statement.name, places, lines)


def check(statements: list[Statement], procedures: list[Procedure]) -> CheckedText:
    """The checked text as it is written, or its first refusal by names, types, modes, ranges, sizes and calls."""
    checker = Checker(statements)
    checker.check_known()
    checker.check_types()
    checker.check_modes()
    checker.check_ranges()
    orders = [order for order, statement in enumerate(statements) if statement.form == "PROC"]
    built = [build_procedure(checker, procedure, order) for procedure, order in zip(procedures, orders)]
    check_sizes(statements, checker.calls)
    check_fit(statements, checker.calls)
    wraps = any(statement.type_use is not None and statement.type_use.wrap for statement in statements)
    return CheckedText(statements[0].name, 2 if wraps else 1, built)
