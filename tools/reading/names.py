"""The names that a definition uses: each word of it that no parameter, pattern, λ, `let` or field binds where it stands."""

from __future__ import annotations

from typing import Callable, Iterator

from reading.definitions import Definition
from reading.pieces import OPENING, Pieces, blocks_of, closed_at, parted, place_of

IsConstructor = Callable[[str], bool]
Bound = frozenset[str]


def names_of(definition: Definition, is_constructor: IsConstructor) -> set[str]:
    """All names that a definition uses, as they stand there, those behind a module's name with it."""
    found: set[str] = set()
    bound = Walk(definition.signature, is_constructor).into(found, frozenset())
    if definition.sort == "function":
        for clause in definition.clauses:
            read_clause(clause, definition.name, is_constructor, found)
    for name, type_ in definition.parts:
        Walk(type_, is_constructor).into(found, bound)
        if definition.sort == "record":
            bound |= {name}
    return found


def read_clause(clause: Pieces, name: str, is_constructor: IsConstructor, found: set[str], outside: Bound = frozenset()) -> None:
    """Adds the names that a clause `f p q = e` uses, with the local definitions behind its `where`; what its patterns bind is none."""
    equals = place_of(clause, "=")
    if equals is None:
        raise ValueError(f"a clause of {name} has no =")
    where = place_of(clause, "where")
    blocks = blocks_of(clause[where + 1 :], clause[where + 1].column) if where is not None else []
    local = frozenset(block[0].text for block in blocks)
    bound = read_pattern([piece for piece in clause[:equals] if piece.text != name], is_constructor, found)
    Walk(clause[equals + 1 : where], is_constructor).into(found, outside | bound | local)
    for block in blocks:
        if block[1].text == ":":
            Walk(block[2:], is_constructor).into(found, outside | bound | local)
        else:
            read_clause(block, block[0].text, is_constructor, found, outside | bound | local)


def read_pattern(pieces: Pieces, is_constructor: IsConstructor, found: set[str]) -> Bound:
    """Adds the constructors of a pattern, and answers the variables that it binds."""
    bound = set()
    for piece in pieces:
        if is_constructor(piece.text):
            found.add(piece.text)
        else:
            bound.add(piece.text)
    return frozenset(bound)


class Walk:
    """A walk through the pieces of a term, with what is bound where it stands."""

    def __init__(self, pieces: Pieces, is_constructor: IsConstructor) -> None:
        self.pieces = pieces
        self.is_constructor = is_constructor

    def into(self, found: set[str], outside: Bound) -> Bound:
        """Adds the names that the term uses, and answers what is bound at its end. What a λ or the group of a function type binds is bound up to
        the end of the bracket, the field or the case in which it stands."""
        bound, lets, place = outside, [], 0
        while place < len(self.pieces):
            text = self.pieces[place].text
            if text in OPENING:
                end = closed_at(self.pieces, place)
                bound |= self.bracket(place, end, found, bound)
                place = end
            elif text == ";":
                bound = outside
            elif text == "λ":
                place, names = self.lambda_names(place, found, bound)
                bound |= names
            elif text == "let":
                place += 1
                lets.append(self.pieces[place].text)
            elif text == "in" and lets:
                bound |= {lets.pop()}
            else:
                found.update(self.used(place, bound))
            place += 1
        return bound

    def used(self, place: int, bound: Bound) -> Iterator[str]:
        """The name at a place, where it is one: no name of a field, and not bound."""
        text = self.pieces[place].text
        names_field = self.follows(place, "=") and (place == 0 or self.pieces[place - 1].text == ";")
        if not text.startswith(".") and text.split(".")[0] not in bound and not names_field:
            yield text

    def follows(self, place: int, word: str) -> bool:
        return place + 1 < len(self.pieces) and self.pieces[place + 1].text == word

    def lambda_names(self, place: int, found: set[str], bound: Bound) -> tuple[int, Bound]:
        """Where the names of a λ end, and the names; the types that stand beside them are read."""
        names: Bound = frozenset()
        while not self.pieces[place].text.endswith("."):
            place += 1
            if self.pieces[place].text in OPENING:
                end = closed_at(self.pieces, place)
                names |= self.bracket(place, end, found, bound)
                place = end
            else:
                names |= {self.pieces[place].text.rstrip(".")}
        return place, names

    def bracket(self, start: int, end: int, found: set[str], bound: Bound) -> Bound:
        """Adds what stands in a bracket, and answers what it binds behind itself."""
        inside = self.pieces[start + 1 : end]
        if place_of(inside, "↦") is not None:
            for case in filter(None, parted(inside, "|")):
                self.case(case, found, bound)
            return frozenset()
        told = place_of(inside, ":")
        if told is None or inside[0].text == "let":
            Walk(inside, self.is_constructor).into(found, bound)
            return frozenset()
        Walk(inside[told + 1 :], self.is_constructor).into(found, bound)
        return frozenset(piece.text for piece in inside[:told])

    def case(self, case: Pieces, found: set[str], bound: Bound) -> None:
        arrow = place_of(case, "↦")
        if arrow is None:
            raise ValueError("a case has no ↦")
        inner = read_pattern(case[:arrow], self.is_constructor, found)
        Walk(case[arrow + 1 :], self.is_constructor).into(found, bound | inner)
