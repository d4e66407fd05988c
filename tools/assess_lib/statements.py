"""The statements of a text: the tokens up to and with each `;`."""

from __future__ import annotations

from dataclasses import dataclass
from typing import Optional

from assess_lib.tokens import KEYWORDS, Kind, Token, tokens_of


@dataclass(frozen=True)
class Statement:
    """A statement: its tokens without comments, and without its `;`, which `closed` tells."""

    tokens: tuple[Token, ...]
    closed: bool
    after: int

    @property
    def first(self) -> int:
        """The place of its first byte."""
        return self.tokens[0].first if self.tokens else self.after - 1

    @property
    def opening(self) -> str:
        """Its first token's text; empty where it is a `;` alone."""
        return self.tokens[0].text if self.tokens else ""

    @property
    def words(self) -> list[str]:
        """The texts of its tokens."""
        return [token.text for token in self.tokens]

    @property
    def text(self) -> str:
        """What it says, on one line, with the usual spaces."""
        return _spaced(self.words) + (";" if self.closed else "")

    def is_assignment(self) -> bool:
        """Whether it begins as an assignment does."""
        return len(self.tokens) > 1 and self.tokens[0].kind is Kind.NAME and self.tokens[1].text == ":="


def _spaced(words: list[str]) -> str:
    """Words on one line, with no space inside parentheses, before a comma or after a sign."""
    line = ""
    for number, word in enumerate(words):
        before = words[number - 1] if number else ""
        tight = before == "(" or word in (")", ",") or (before == "-" and _is_sign(words, number - 1))
        line += word if not line or tight else " " + word
    return line


def _is_sign(words: list[str], number: int) -> bool:
    """Whether the `-` at `number` is a leading one: no side stands before it."""
    before = words[number - 1] if number else ""
    return not before or before in KEYWORDS - {"TRUE", "FALSE"} or not (before[0].isalnum() or before == ")")


def statements_of(letters: str) -> list[Statement]:
    """The statements of a text in order; what is left after the last `;` is one more that is not closed."""
    made: list[Statement] = []
    held: list[Token] = []
    for token in tokens_of(letters):
        if token.kind is Kind.COMMENT:
            continue
        if token.text == ";":
            made.append(Statement(tuple(held), True, token.after))
            held = []
        else:
            held.append(token)
    if held:
        made.append(Statement(tuple(held), False, held[-1].after))
    return made


def statement_at(statements: list[Statement], place: int) -> Optional[Statement]:
    """The statement in which the byte at `place` stands, or the first one after it."""
    return next((statement for statement in statements if place < statement.after), None)
