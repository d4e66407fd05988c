"""Terms over the first values of places, their sizes, and their normal forms."""

from __future__ import annotations

from typing import Iterable

from model.program import quotient, remainder

HEAVIEST = 2**100
OPPOSITE = {"=": "/=", "/=": "=", "<": ">=", ">=": "<", "<=": ">", ">": "<="}
MIRRORED = {"=": "=", "/=": "/=", "<": ">", ">": "<", "<=": ">=", ">=": "<="}


class Term:
    """A term: `number`, `place`, or one of `+`, `*`, `DIV`, `MOD` with two sides. Equal terms are one object."""

    __slots__ = ("kind", "value", "left", "right", "size", "weight", "depth", "normal")
    made: dict[tuple, Term] = {}

    def __init__(self, kind: str, value: int, left: Term | None, right: Term | None) -> None:
        self.kind = kind
        self.value = value
        self.left = left
        self.right = right
        self.normal: Normal | None = None
        if left is None or right is None:
            self.size, self.depth = 1, 1
            self.weight = max(1, abs(value)) if kind == "number" else 1
        else:
            self.size = left.size + right.size + 1
            self.depth = max(left.depth, right.depth) + 1
            joined = left.weight * right.weight if kind == "*" else left.weight + right.weight
            self.weight = min(joined, HEAVIEST)


def make(kind: str, value: int = 0, left: Term | None = None, right: Term | None = None) -> Term:
    """The one term with this head and these sides."""
    key = (kind, value, id(left), id(right))
    found = Term.made.get(key)
    if found is None:
        found = Term.made[key] = Term(kind, value, left, right)
    return found


def num(value: int) -> Term:
    """A number."""
    return make("number", value)


def var(place: int) -> Term:
    """The first value of a place."""
    return make("place", place)


def both(kind: str, left: Term, right: Term) -> Term:
    """An operator with two sides."""
    return make(kind, 0, left, right)


def replace(term: Term, values: tuple[Term, ...], known: dict[int, Term] | None = None) -> Term:
    """The term in which each place is replaced by its value."""
    if term.kind == "number":
        return term
    if term.kind == "place":
        return values[term.value]
    assert term.left is not None and term.right is not None
    known = {} if known is None else known
    if id(term) not in known:
        known[id(term)] = both(term.kind, replace(term.left, values, known), replace(term.right, values, known))
    return known[id(term)]


def value_in(term: Term, state: tuple[int, ...], known: dict[int, int] | None = None) -> int:
    """The value of a term in a state; a quotient by zero is 0, and the remainder is then the dividend."""
    if term.kind == "number":
        return term.value
    if term.kind == "place":
        return state[term.value]
    assert term.left is not None and term.right is not None
    known = {} if known is None else known
    if id(term) not in known:
        known[id(term)] = value_of(
            term.kind, value_in(term.left, state, known), value_in(term.right, state, known)
        )
    return known[id(term)]


def value_of(kind: str, left: int, right: int) -> int:
    """The value of an operator, where zero may divide."""
    if kind == "+":
        return left + right
    if kind == "*":
        return left * right
    if kind == "DIV":
        return quotient(left, right) if right else 0
    return remainder(left, right) if right else left


ATOM_RANK = {"place": 0, "*": 1, "DIV": 2, "MOD": 3}


class Atom:
    """A place, or a product, quotient or remainder of two normal terms. Equal atoms are one object, and so are their keys."""

    __slots__ = ("kind", "place", "left", "right", "key")
    made: dict[tuple, Atom] = {}

    def __init__(self, kind: str, place: int, left: Normal | None, right: Normal | None) -> None:
        self.kind = kind
        self.place = place
        self.left = left
        self.right = right
        sides = (left.key, right.key) if left is not None and right is not None else ()
        self.key = Key((ATOM_RANK[kind], place, *sides))


class Key:
    """A key for ordering: a tuple that is compared once for each pair."""

    __slots__ = ("parts",)
    known: dict[tuple[int, int], int] = {}

    def __init__(self, parts: tuple) -> None:
        self.parts = parts

    def compare(self, other: Key) -> int:
        """Negative, zero or positive, as this key comes before, is equal, or comes after."""
        if self is other:
            return 0
        pair = (id(self), id(other))
        if pair not in Key.known:
            Key.known[pair] = compare_tuples(self.parts, other.parts)
        return Key.known[pair]

    def __lt__(self, other: Key) -> bool:
        return self.compare(other) < 0


def compare_tuples(left: tuple, right: tuple) -> int:
    """Compares member by member; a proper prefix comes first."""
    for one, two in zip(left, right):
        if isinstance(one, Key):
            order = one.compare(two)
        elif isinstance(one, tuple):
            order = compare_tuples(one, two)
        else:
            order = (one > two) - (one < two)
        if order:
            return order
    return (len(left) > len(right)) - (len(left) < len(right))


class Normal:
    """A normal term: a constant, and parts that are strictly ascending by atom, none with the coefficient 0."""

    __slots__ = ("constant", "parts", "key", "scaled")
    made: dict[tuple, Normal] = {}

    def __init__(self, constant: int, parts: tuple[tuple[Atom, int], ...]) -> None:
        self.constant = constant
        self.parts = parts
        self.key = Key((tuple(member for atom, coefficient in parts for member in (atom.key, coefficient)), constant))

    def atoms(self) -> tuple[Atom, ...]:
        """The atoms in order."""
        return tuple(atom for atom, _ in self.parts)


def atom_of(kind: str, place: int = 0, left: Normal | None = None, right: Normal | None = None) -> Atom:
    """The one atom with this head and these sides."""
    key = (kind, place, id(left), id(right))
    found = Atom.made.get(key)
    if found is None:
        found = Atom.made[key] = Atom(kind, place, left, right)
    return found


def normal_of(constant: int, coefficients: Iterable[tuple[Atom, int]]) -> Normal:
    """The one normal term with this constant and these sums of coefficients."""
    parts = tuple(sorted(((a, c) for a, c in coefficients if c), key=lambda part: part[0].key))
    key = (constant, tuple((id(atom), coefficient) for atom, coefficient in parts))
    found = Normal.made.get(key)
    if found is None:
        found = Normal.made[key] = Normal(constant, parts)
    return found


def added(left: Normal, right: Normal, times: int = 1) -> Normal:
    """The sum of one normal term and of another so many times."""
    sums = dict(left.parts)
    for atom, coefficient in right.parts:
        sums[atom] = sums.get(atom, 0) + times * coefficient
    return normal_of(left.constant + times * right.constant, sums.items())


def scaled(normal: Normal, factor: int) -> Normal:
    """A normal term so many times."""
    return normal_of(factor * normal.constant, [(atom, factor * coefficient) for atom, coefficient in normal.parts])


def product(left: Normal, right: Normal) -> Normal:
    """A product: one constant side scales the other, else it is an atom with the lesser side first."""
    if not left.parts:
        return scaled(right, left.constant)
    if not right.parts:
        return scaled(left, right.constant)
    low, high = (right, left) if right.key < left.key else (left, right)
    return normal_of(0, [(atom_of("*", 0, low, high), 1)])


def norm(term: Term) -> Normal:
    """The normal term of a term."""
    if term.normal is None:
        term.normal = norm_anew(term)
    return term.normal


def norm_anew(term: Term) -> Normal:
    """The normal term by the term's head."""
    if term.kind == "number":
        return normal_of(term.value, [])
    if term.kind == "place":
        return normal_of(0, [(atom_of("place", term.value), 1)])
    assert term.left is not None and term.right is not None
    left, right = norm(term.left), norm(term.right)
    if term.kind == "+":
        return added(left, right)
    if term.kind == "*":
        return product(left, right)
    if not left.parts and not right.parts:
        return normal_of(value_of(term.kind, left.constant, right.constant), [])
    return normal_of(0, [(atom_of(term.kind, 0, left, right), 1)])


class Form:
    """The normal form of a literal: parts, a relation and a bound; without parts it is always true or never."""

    __slots__ = ("parts", "relation", "bound")

    def __init__(self, parts: tuple[tuple[Atom, int], ...], relation: str, bound: int) -> None:
        self.parts = parts
        self.relation = relation
        self.bound = bound

    def always(self) -> bool:
        """Whether it has no parts and holds."""
        return not self.parts and holds(self.relation, 0, self.bound)

    def never(self) -> bool:
        """Whether it has no parts and does not hold."""
        return not self.parts and not holds(self.relation, 0, self.bound)


def holds(relation: str, left: int, right: int) -> bool:
    """Whether two numbers stand in a relation."""
    if relation in ("=", "/="):
        return (left == right) == (relation == "=")
    if relation in ("<", "<="):
        return left < right or (relation == "<=" and left == right)
    return left > right or (relation == ">=" and left == right)


Literal = tuple[Term, str, Term]


def form_of(literal: Literal) -> Form:
    """The form of a literal: left minus right, with a first coefficient above 0 where there is one."""
    left, relation, right = literal
    difference = added(norm(left), norm(right), -1)
    if difference.parts and difference.parts[0][1] < 0:
        difference, relation = scaled(difference, -1), MIRRORED[relation]
    return Form(difference.parts, relation, -difference.constant)


def text_of_side(normal: Normal, names: list[str]) -> str:
    """A side of an atom: bare where it is one place or a constant of at least 0, else in parentheses."""
    text = text_of(normal, names)
    one_place = not normal.constant and len(normal.parts) == 1 and normal.parts[0][1] == 1
    if one_place and normal.parts[0][0].kind == "place":
        return text
    if not normal.parts and normal.constant >= 0:
        return text
    return f"({text})"


def text_of_atom(atom: Atom, names: list[str]) -> str:
    """The text of an atom."""
    if atom.kind == "place":
        return names[atom.place]
    assert atom.left is not None and atom.right is not None
    left, right = text_of_side(atom.left, names), text_of_side(atom.right, names)
    return f"{left}*{right}" if atom.kind == "*" else f"({left} {atom.kind} {right})"


def text_of_parts(parts: tuple[tuple[Atom, int], ...], names: list[str]) -> str:
    """The text of parts, signs between them."""
    text = ""
    for atom, coefficient in parts:
        if text:
            text += " - " if coefficient < 0 else " + "
        elif coefficient < 0:
            text += "-"
        if abs(coefficient) != 1:
            text += f"{abs(coefficient)}*"
        text += text_of_atom(atom, names)
    return text


def text_of(normal: Normal, names: list[str]) -> str:
    """The text of a normal term."""
    if not normal.parts:
        return str(normal.constant)
    text = text_of_parts(normal.parts, names)
    if normal.constant:
        text += f" {'-' if normal.constant < 0 else '+'} {abs(normal.constant)}"
    return text


def text_of_form(form: Form, names: list[str]) -> str:
    """The text of a literal's form that has parts."""
    return f"{text_of_parts(form.parts, names)} {form.relation} {form.bound}"


def forget() -> None:
    """Forgets all terms, atoms and normal terms, so that the next text begins with none."""
    for table in (Term.made, Atom.made, Normal.made, Key.known):
        table.clear()
