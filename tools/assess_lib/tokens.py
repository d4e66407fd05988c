"""The tokens of a text, read leniently: what begins no token becomes a token of its own, so that reading goes on."""

from __future__ import annotations

import re
from dataclasses import dataclass
from enum import Enum

KEYWORDS = frozenset(
    "TITLE CONST TYPE PROC IN INOUT OUT LOCAL BOOL PRE POST IF ELSE ENDIF LOOP ENDLOOP EXIT WHEN LABEL GOTO SKIP ASSERT "
    "RETURN ENDPROC FINISH OLD TRUE FALSE NOT AND OR DIV MOD CALL WRAP".split()
)

STATEMENT_KEYWORDS = frozenset(
    "TITLE CONST TYPE PROC IN INOUT OUT LOCAL PRE POST IF ELSE ENDIF LOOP ENDLOOP EXIT LABEL GOTO SKIP ASSERT RETURN "
    "ENDPROC FINISH CALL".split()
)
"""The keywords with which a statement begins; none of them stands inside one."""

_TOKEN = re.compile(
    r"(?P<space>[ \t\r\n]+)|(?P<comment>\[[^\]]*\])|(?P<unclosed>\[[^\]]*\Z)|(?P<number>[0-9]+)"
    r"|(?P<word>[A-Za-z][A-Za-z0-9_]*)|(?P<symbol>:=|/=|<=|>=|\.\.|[:;,()+\-*=<>])|(?P<other>.)",
    re.DOTALL,
)


class Kind(Enum):
    """What a token is."""

    NAME = "name"
    KEYWORD = "keyword"
    NUMBER = "number"
    SYMBOL = "symbol"
    COMMENT = "comment"
    OTHER = "other"


@dataclass(frozen=True)
class Token:
    """A token with the places of its first byte and of the byte after its last."""

    kind: Kind
    text: str
    first: int
    after: int


def _kind(group: str, text: str) -> Kind:
    """What a piece is that the pattern's group of this name took."""
    if group == "word":
        return Kind.KEYWORD if text in KEYWORDS else Kind.NAME
    kinds = {"number": Kind.NUMBER, "symbol": Kind.SYMBOL, "comment": Kind.COMMENT}
    return kinds.get(group, Kind.OTHER)


def tokens_of(letters: str) -> list[Token]:
    """All tokens of a text in order, comments among them; an unclosed comment is one token of kind OTHER."""
    return [
        Token(_kind(found.lastgroup or "", found.group()), found.group(), found.start(), found.end())
        for found in _TOKEN.finditer(letters)
        if found.lastgroup != "space"
    ]
