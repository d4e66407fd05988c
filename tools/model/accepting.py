"""Bytes to an accepted text, or to the first refusal; each check looks at the whole text before the next begins."""

from __future__ import annotations

from model.checking import check
from model.expanding import expanded
from model.lexing import tokens_of
from model.ordering import arrange
from model.parsing import statements_of
from model.program import CheckedText


def written(text: bytes) -> CheckedText:
    """The checked text as it is written; lines of it may be calls."""
    statements = statements_of(tokens_of(text))
    return check(statements, arrange(statements, len(text)))


def accept(text: bytes) -> CheckedText:
    """The checked text with its calls expanded."""
    return expanded(written(text))
