"""A refused text with its fault: what the hints and the mends look at."""

from __future__ import annotations

from dataclasses import dataclass
from functools import cached_property
from typing import Optional

from assess_lib.outline import Outline, Procedure, outline_of
from assess_lib.report import Refusal
from assess_lib.source import Position, SourceText
from assess_lib.statements import Statement, statement_at, statements_of
from assess_lib.tokens import Token, tokens_of


class MendedText:
    """A text from which statements were taken out, that still knows where each of its bytes stands in the file."""

    def __init__(self, source: SourceText) -> None:
        self.source = source
        self.letters = source.letters
        self._origins: Optional[list[int]] = None

    @property
    def data(self) -> bytes:
        """Its bytes."""
        return self.letters.encode("latin-1")

    def origin(self, place: int) -> int:
        """The place in the file of the byte at `place`."""
        return place if self._origins is None else self._origins[min(place, len(self._origins) - 1)]

    def replace(self, first: int, after: int, text: str) -> None:
        """Puts `text` in place of the bytes from `first` to before `after`."""
        origins = self._origins or list(range(len(self.letters) + 1))
        self._origins = origins[:first] + [origins[first]] * len(text) + origins[after:]
        self.letters = self.letters[:first] + text + self.letters[after:]

    def copy(self) -> MendedText:
        """The text as it stands now; later changes of either leave the other as it is."""
        copied = MendedText(self.source)
        copied.letters, copied._origins = self.letters, self._origins
        return copied

    def position(self, place: int) -> Position:
        """The line and column in the file of the byte at `place`."""
        return self.source.position(self.origin(place))


@dataclass(frozen=True)
class Case:
    """A text and the fault that malpas told of it."""

    text: MendedText
    refusal: Refusal

    @cached_property
    def tokens(self) -> list[Token]:
        """The tokens of the text, comments among them."""
        return tokens_of(self.text.letters)

    @cached_property
    def statements(self) -> list[Statement]:
        """The statements of the text."""
        return statements_of(self.text.letters)

    @cached_property
    def outline(self) -> Outline:
        """The outline of the text."""
        return outline_of(self.statements)

    @cached_property
    def statement(self) -> Optional[Statement]:
        """The statement at fault, where there is one."""
        return statement_at(self.statements, self.refusal.place)

    @cached_property
    def procedure(self) -> Optional[Procedure]:
        """The procedure in which the fault stands, where it stands in one."""
        return self.outline.procedure_at(self.refusal.place)

    @cached_property
    def token(self) -> Optional[Token]:
        """The token, or comment, in which the fault's place lies."""
        return next((each for each in self.tokens if each.first <= self.refusal.place < each.after), None)

    @property
    def letter(self) -> str:
        """The character at the fault's place, or nothing at the text's end."""
        return self.text.letters[self.refusal.place : self.refusal.place + 1]

    def line(self, place: int) -> int:
        """The line of the file in which the byte at `place` stands."""
        return self.text.position(place).line

    def knows(self, name: str) -> bool:
        """Whether the text declares that name somewhere where the fault can see it."""
        variables = self.procedure.variables if self.procedure else []
        return name in self.outline.declared or any(each.name == name for each in variables)
