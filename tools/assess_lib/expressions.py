"""The expressions of an accepted text, their types and static bounds, as far as decisions hang on them."""

from __future__ import annotations

from dataclasses import dataclass, field
from typing import Optional, Union

from assess_lib.outline import Outline, Procedure, names_declared
from assess_lib.tokens import Kind, Token

RELATIONS = ("=", "/=", "<", "<=", ">", ">=")


@dataclass(frozen=True)
class Leaf:
    """A number, a name, an OLD value or a truth value; `name` is empty for a number, and `number` counts there alone."""

    text: str
    name: str = ""
    number: int = 0


@dataclass(frozen=True)
class Signed:
    """A leading minus or a NOT and what it stands before."""

    text: str
    sign: str
    inner: Expression


@dataclass(frozen=True)
class Pair:
    """An operator with its two sides."""

    text: str
    sign: str
    left: Expression
    right: Expression


Expression = Union[Leaf, Signed, Pair]


class NotRead(Exception):
    """The tokens are no expression of the language."""


class _Reader:
    """Reads an expression by descent, one method a level of the grammar."""

    def __init__(self, tokens: list[Token]) -> None:
        self._tokens = tokens
        self._at = 0

    def _word(self) -> str:
        """The next token's text, or nothing at the end."""
        return self._tokens[self._at].text if self._at < len(self._tokens) else ""

    def _take(self, *words: str) -> str:
        """Takes the next token where it is one of the words; answers it, or nothing."""
        word = self._word()
        if word in words and word:
            self._at += 1
            return word
        return ""

    def _text(self, first: int) -> str:
        """What was read from the token of that number on."""
        return " ".join(token.text for token in self._tokens[first : self._at])

    def _chain(self, words: tuple[str, ...], inner: str) -> Expression:
        """Operators of one level, grouped to the left."""
        first = self._at
        left = getattr(self, inner)()
        while sign := self._take(*words):
            right = getattr(self, inner)()
            left = Pair(self._text(first), sign, left, right)
        return left

    def whole(self) -> Expression:
        """An expression and nothing behind it."""
        read = self.expression()
        if self._at != len(self._tokens):
            raise NotRead
        return read

    def expression(self) -> Expression:
        return self._chain(("OR",), "conjunction")

    def conjunction(self) -> Expression:
        return self._chain(("AND",), "negation")

    def negation(self) -> Expression:
        first = self._at
        if self._take("NOT"):
            inner = self.negation()
            return Signed(self._text(first), "NOT", inner)
        left = self.sum()
        if sign := self._take(*RELATIONS):
            right = self.sum()
            return Pair(self._text(first), sign, left, right)
        return left

    def sum(self) -> Expression:
        first = self._at
        if self._take("-"):
            inner = self.product()
            left: Expression = Signed(self._text(first), "-", inner)
        else:
            left = self.product()
        while sign := self._take("+", "-"):
            right = self.product()
            left = Pair(self._text(first), sign, left, right)
        return left

    def product(self) -> Expression:
        return self._chain(("*", "DIV", "MOD"), "primary")

    def primary(self) -> Expression:
        first = self._at
        if self._take("("):
            inner = self.expression()
            if not self._take(")"):
                raise NotRead
            return inner
        self._take("OLD")
        if self._at >= len(self._tokens):
            raise NotRead
        token = self._tokens[self._at]
        self._at += 1
        if token.kind is Kind.NUMBER:
            return Leaf(token.text, number=int(token.text))
        if token.kind is Kind.NAME or token.text in ("TRUE", "FALSE"):
            return Leaf(self._text(first), name=token.text)
        raise NotRead


def read_expression(tokens: list[Token]) -> Expression:
    """The expression that tokens spell; NotRead where they spell none."""
    return _Reader(tokens).whole()


@dataclass(frozen=True)
class Range:
    """The values that a variable or a type has. `flag` is BOOL, `listed` an enumeration, `wrap` a range that wraps."""

    least: int
    greatest: int
    flag: bool = False
    listed: bool = False
    wrap: bool = False


@dataclass
class Scope:
    """The numbers of constants and enumeration values, and the ranges of types and variables."""

    numbers: dict[str, int] = field(default_factory=dict)
    types: dict[str, Range] = field(default_factory=dict)
    variables: dict[str, Range] = field(default_factory=dict)

    def bounds(self, expression: Expression) -> tuple[int, int]:
        """The static bounds of a whole-number expression; 0 and 0 of a condition."""
        if isinstance(expression, Leaf):
            return self._leaf(expression)
        if isinstance(expression, Signed):
            least, greatest = self.bounds(expression.inner)
            return (-greatest, -least) if expression.sign == "-" else (0, 0)
        return _pair_bounds(expression.sign, self.bounds(expression.left), self.bounds(expression.right))

    def _leaf(self, leaf: Leaf) -> tuple[int, int]:
        """The bounds of a number or a name."""
        if not leaf.name:
            return leaf.number, leaf.number
        if leaf.name in self.variables:
            range_ = self.variables[leaf.name]
            return range_.least, range_.greatest
        number = self.numbers.get(leaf.name, 0)
        return number, number

    def is_flag(self, expression: Expression) -> bool:
        """Whether an expression is one BOOL variable."""
        return isinstance(expression, Leaf) and expression.name in self.variables and self.variables[expression.name].flag


def _pair_bounds(sign: str, left: tuple[int, int], right: tuple[int, int]) -> tuple[int, int]:
    """The bounds of an operator's result from those of its sides."""
    if sign == "+":
        return left[0] + right[0], left[1] + right[1]
    if sign == "-":
        return left[0] - right[1], left[1] - right[0]
    if sign == "*":
        products = [one * other for one in left for other in right]
        return min(products), max(products)
    if sign == "DIV":
        return _quotient_bounds(left, right)
    if sign == "MOD":
        return 0, max(0, max(abs(right[0]), abs(right[1])) - 1)
    return 0, 0


def _quotient_bounds(left: tuple[int, int], right: tuple[int, int]) -> tuple[int, int]:
    """The bounds of a quotient."""
    if right[0] == right[1] > 0:
        return left[0] // right[0], left[1] // right[0]
    if left[0] >= 0 and right[0] >= 0:
        return 0, left[1]
    most = max(abs(left[0]), abs(left[1]))
    return -most, most


def _bound(scope: Scope, words: list[str]) -> int:
    """The number of a bound: digits or a constant, with or without a minus."""
    sign = -1 if words[:1] == ["-"] else 1
    word = words[-1]
    return sign * (int(word) if word.isdigit() else scope.numbers[word])


def _range(scope: Scope, words: list[str]) -> Optional[Range]:
    """The range that a type's words name."""
    if words == ["BOOL"]:
        return Range(0, 1, flag=True)
    if ".." in words:
        wrap = words[0] == "WRAP"
        words = words[1:] if wrap else words
        at = words.index("..")
        return Range(_bound(scope, words[:at]), _bound(scope, words[at + 1 :]), wrap=wrap)
    return scope.types.get(words[0]) if words else None


def scope_of(outline: Outline, procedure: Procedure) -> Scope:
    """The scope of a procedure of an accepted text. Constants and types come in the order of their statements."""
    scope = Scope()
    for statement in outline.statements:
        words = statement.words
        if statement.opening == "CONST":
            scope.numbers[words[1]] = _bound(scope, words[3:])
        elif statement.opening == "TYPE" and words[3:4] == ["("]:
            values = names_declared(statement)[1:]
            scope.numbers.update({value: number for number, value in enumerate(values)})
            scope.types[words[1]] = Range(0, len(values) - 1, listed=True)
        elif statement.opening == "TYPE":
            found = _range(scope, words[3:])
            if found:
                scope.types[words[1]] = found
    for variable in procedure.variables:
        found = _range(scope, variable.statement.words[3:])
        if found:
            scope.variables[variable.name] = found
    return scope
