"""Tokens to statements, each by its own form, and the expressions that stand in them."""

from __future__ import annotations

from dataclasses import dataclass, field

from model.lexing import Token, value_of
from model.refusal import Refused

DEEPEST = 200
RELATIONS = ("=", "/=", "<", "<=", ">", ">=")
MODES = ("IN", "INOUT", "OUT", "LOCAL")


class NoForm(Exception):
    """The tokens of a statement fit no form."""


@dataclass(frozen=True)
class Raw:
    """An expression as written: `number`, `name`, `old`, `truth`, `opposite`, `NOT`, or an operator with two sides."""

    kind: str
    text: str = ""
    value: int = 0
    left: Raw | None = None
    right: Raw | None = None


@dataclass(frozen=True)
class Bound:
    """A bound of a range: a number, or where a name is given the constant of that name."""

    name: str | None
    value: int


@dataclass(frozen=True)
class TypeUse:
    """A type as written: `BOOL`, `named`, or `range`, which may wrap."""

    kind: str
    name: str = ""
    bounds: tuple[Bound, ...] = ()
    wrap: bool = False


@dataclass
class Statement:
    """One statement: its first byte, its form, and what its form carries."""

    place: int
    form: str
    name: str = ""
    value: int = 0
    type_use: TypeUse | None = None
    values: list[str] = field(default_factory=list)
    expression: Raw | None = None
    arguments: list[Raw] = field(default_factory=list)

    def expressions(self) -> list[Raw]:
        """The expressions that stand in it, in the order of their bytes."""
        return [*([] if self.expression is None else [self.expression]), *self.arguments]


class Reader:
    """Reads the tokens of one statement from left to right."""

    def __init__(self, tokens: list[Token]) -> None:
        self.tokens = tokens
        self.at = 0
        self.nest = 0

    def peek(self) -> str:
        """The kind of the next token, empty at the end."""
        return self.tokens[self.at].kind if self.at < len(self.tokens) else ""

    def take(self, kind: str) -> Token:
        """The next token, which is of this kind."""
        if self.peek() != kind:
            raise NoForm
        self.at += 1
        return self.tokens[self.at - 1]

    def takes(self, kind: str) -> bool:
        """Takes the next token where it is of this kind."""
        if self.peek() != kind:
            return False
        self.at += 1
        return True

    def inner(self, read) -> tuple[Raw, int]:
        """Reads something one level further in, for parentheses, NOT and the leading minus."""
        self.nest += 1
        if self.nest > DEEPEST:
            raise NoForm
        found, depth = read()
        self.nest -= 1
        return found, deeper(depth)

    def sides(self, read, operators: tuple[str, ...]) -> tuple[Raw, int]:
        """Operators of one level, grouped to the left."""
        left, depth = read()
        while self.peek() in operators:
            operator = self.take(self.peek()).kind
            right, other = read()
            left, depth = Raw(operator, left=left, right=right), deeper(max(depth, other))
        return left, depth

    def disjunction(self) -> tuple[Raw, int]:
        """An expression with its depth."""
        return self.sides(self.conjunction, ("OR",))

    def conjunction(self) -> tuple[Raw, int]:
        """Sides of AND."""
        return self.sides(self.negation, ("AND",))

    def negation(self) -> tuple[Raw, int]:
        """NOT, or a comparison."""
        if self.takes("NOT"):
            inside, depth = self.inner(self.negation)
            return Raw("NOT", left=inside), depth
        return self.comparison()

    def comparison(self) -> tuple[Raw, int]:
        """A sum, or two sums with a relation between them."""
        left, depth = self.sum()
        if self.peek() not in RELATIONS:
            return left, depth
        relation = self.take(self.peek()).kind
        right, other = self.sum()
        return Raw(relation, left=left, right=right), deeper(max(depth, other))

    def sum(self) -> tuple[Raw, int]:
        """Products with plus and minus between; a leading minus covers the first."""
        if self.takes("-"):
            inside, depth = self.inner(self.product)
            left = Raw("opposite", left=inside)
        else:
            left, depth = self.product()
        while self.peek() in ("+", "-"):
            operator = self.take(self.peek()).kind
            right, other = self.product()
            left, depth = Raw(operator, left=left, right=right), deeper(max(depth, other))
        return left, depth

    def product(self) -> tuple[Raw, int]:
        """Sides of the product, DIV and MOD."""
        return self.sides(self.primary, ("*", "DIV", "MOD"))

    def primary(self) -> tuple[Raw, int]:
        """What stands by itself."""
        if self.takes("("):
            found = self.inner(self.disjunction)
            self.take(")")
            return found
        if self.peek() == "number":
            return Raw("number", value=value_of(self.take("number").text)), 1
        if self.peek() == "name":
            return Raw("name", text=self.take("name").text), 1
        if self.takes("OLD"):
            return Raw("old", text=self.take("name").text), 1
        if self.peek() in ("TRUE", "FALSE"):
            return Raw("truth", value=int(self.take(self.peek()).kind == "TRUE")), 1
        raise NoForm

    def expression(self) -> Raw:
        """A whole expression."""
        return self.disjunction()[0]

    def arguments(self) -> list[Raw]:
        """The expressions between the parentheses of a call, each measured alone; none without parentheses."""
        if not self.takes("("):
            return []
        found = [self.expression()]
        while self.takes(","):
            found.append(self.expression())
        self.take(")")
        return found

    def signed(self) -> int:
        """A number with or without a minus."""
        sign = -1 if self.takes("-") else 1
        return sign * value_of(self.take("number").text)

    def bound(self) -> Bound:
        """A bound of a range."""
        if self.peek() == "name":
            return Bound(self.take("name").text, 0)
        return Bound(None, self.signed())

    def range(self) -> TypeUse:
        """A range, which may wrap; its least value stands first."""
        wrap = self.takes("WRAP")
        least = self.bound()
        self.take("..")
        return TypeUse("range", bounds=(least, self.bound()), wrap=wrap)

    def type_use(self) -> TypeUse:
        """The type of a variable."""
        if self.takes("BOOL"):
            return TypeUse("BOOL")
        if self.peek() == "name" and self.at + 1 < len(self.tokens) and self.tokens[self.at + 1].kind == ";":
            return TypeUse("named", name=self.take("name").text)
        return self.range()

    def enumeration(self) -> list[str]:
        """The names between the parentheses of an enumeration."""
        names = [self.take("name").text]
        while self.takes(","):
            names.append(self.take("name").text)
        self.take(")")
        return names


def deeper(depth: int) -> int:
    """One more than a depth, where that is allowed."""
    if depth >= DEEPEST:
        raise NoForm
    return depth + 1


def read_type(reader: Reader, statement: Statement) -> None:
    """The part of a TYPE statement after its name."""
    if reader.takes("("):
        statement.form = "ENUMERATION"
        statement.values = reader.enumeration()
    else:
        statement.type_use = reader.range()


def read_declaration(reader: Reader, statement: Statement) -> None:
    """The rest of a statement that declares a name, or of one that only names something."""
    statement.name = reader.take("name").text
    if statement.form == "CONST":
        reader.take("=")
        statement.value = reader.signed()
    elif statement.form == "TYPE":
        reader.take("=")
        read_type(reader, statement)
    elif statement.form in MODES:
        reader.take(":")
        statement.type_use = reader.type_use()
    elif statement.form == "CALL":
        statement.arguments = reader.arguments()


def read_rest(reader: Reader, statement: Statement) -> None:
    """The rest of a statement after the keyword that is its form."""
    if statement.form in ("TITLE", "CONST", "TYPE", "PROC", "LABEL", "GOTO", "CALL", *MODES):
        read_declaration(reader, statement)
    elif statement.form in ("PRE", "POST", "IF", "ASSERT"):
        statement.expression = reader.expression()
    elif statement.form == "EXIT":
        if reader.takes("WHEN"):
            statement.form = "EXIT WHEN"
            statement.expression = reader.expression()
    elif statement.form not in ("ELSE", "ENDIF", "LOOP", "ENDLOOP", "SKIP", "RETURN", "ENDPROC", "FINISH"):
        raise NoForm


def read_statement(tokens: list[Token]) -> Statement:
    """The statement that has these tokens, the last of which is its semicolon."""
    reader = Reader(tokens)
    first = tokens[0]
    if first.kind == "name":
        statement = Statement(first.place, "ASSIGN", name=reader.take("name").text)
        reader.take(":=")
        statement.expression = reader.expression()
    else:
        reader.at = 1
        statement = Statement(first.place, first.kind)
        read_rest(reader, statement)
    reader.take(";")
    return statement


def statements_of(tokens: list[Token]) -> list[Statement]:
    """All statements, or the first that has no form."""
    statements = []
    start = 0
    for index, token in enumerate(tokens):
        if token.kind != ";":
            continue
        try:
            statements.append(read_statement(tokens[start : index + 1]))
        except NoForm:
            raise Refused("E05", tokens[start].place) from None
        start = index + 1
    if start < len(tokens):
        raise Refused("E05", tokens[start].place)
    return statements
