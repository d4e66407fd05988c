"""Bytes to tokens: white space and comments fall away, and each token takes as many bytes as it can."""

from __future__ import annotations

import re
from dataclasses import dataclass

from model.refusal import LONGEST_TEXT, Refused

KEYWORDS = frozenset(
    "TITLE CONST TYPE PROC IN INOUT OUT LOCAL BOOL PRE POST IF ELSE ENDIF LOOP ENDLOOP EXIT WHEN LABEL GOTO SKIP ASSERT "
    "RETURN ENDPROC FINISH OLD TRUE FALSE NOT AND OR DIV MOD CALL WRAP".split()
)

LONGEST_NAME = 40
GREATEST_NUMBER = 2**63

PIECE = re.compile(
    rb"(?P<space>[\t\n\r ]+|\[[^\]]*\])|(?P<name>[A-Za-z][A-Za-z0-9_]*)|(?P<number>[0-9]+)"
    rb"|(?P<symbol>:=|\.\.|/=|<=|>=|[:;,()+\-*=<>])"
)


@dataclass(frozen=True)
class Token:
    """A token: its kind is `name`, `number`, or, for keywords and symbols, its own spelling."""

    kind: str
    text: str
    place: int


def check_bytes(text: bytes) -> None:
    """Refuses a text that is too long or has a byte above 127."""
    if len(text) > LONGEST_TEXT:
        raise Refused("E01", LONGEST_TEXT)
    for place, byte in enumerate(text):
        if byte > 127:
            raise Refused("E02", place)


def cut(text: bytes) -> list[Token]:
    """The tokens of a text, whatever its numbers are."""
    tokens = []
    place = 0
    while place < len(text):
        found = PIECE.match(text, place)
        if found is None or (found.lastgroup == "name" and len(found.group()) > LONGEST_NAME):
            raise Refused("E03", place)
        group = found.lastgroup or ""
        if group != "space":
            spelling = found.group().decode("ascii")
            kind = spelling if group == "symbol" or spelling in KEYWORDS else group
            tokens.append(Token(kind, spelling, place))
        place = found.end()
    return tokens


def value_of(digits: str) -> int:
    """The value of digits, however many they are; what is far too large is cut short."""
    digits = digits.lstrip("0") or "0"
    return int(digits[:40])


def check_numbers(tokens: list[Token]) -> None:
    """Refuses a number that is too large; the greatest one is allowed after a minus alone."""
    before = ""
    for token in tokens:
        if token.kind == "number":
            value = value_of(token.text)
            if value > GREATEST_NUMBER or (value == GREATEST_NUMBER and before != "-"):
                raise Refused("E04", token.place)
        before = token.kind


def tokens_of(text: bytes) -> list[Token]:
    """The tokens of a text, or its first refusal by its bytes and tokens."""
    check_bytes(text)
    tokens = cut(text)
    check_numbers(tokens)
    return tokens
