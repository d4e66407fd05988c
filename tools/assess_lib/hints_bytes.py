"""Hints on bytes and tokens that no text has: foreign letters, signs of other languages, comments, numbers."""

from __future__ import annotations

import unicodedata
from typing import Optional

from assess_lib.case import Case
from assess_lib.tokens import Kind

_SIGNS = {
    "!": "`!` is no sign here: not is written NOT, not equal /=",
    "&": "`&` is no sign here: and is written AND",
    "|": "`|` is no sign here: or is written OR",
    "%": "`%` is no sign here: the remainder is written MOD",
    "/": "`/` is no sign here: whole-number division is written DIV, not equal /=",
    "^": "`^` is no sign here: there are no powers, write a product",
    "{": "braces are no signs here: a comment is written [ .. ], an enumeration ( .. )",
    "}": "braces are no signs here: a comment is written [ .. ], an enumeration ( .. )",
    "#": "`#` is no sign here: a comment is written [ .. ], not equal /=",
    '"': "there are no texts in quotes: values are whole numbers, truth values and enumeration values",
    "'": "there are no texts in quotes: values are whole numbers, truth values and enumeration values",
    "_": "a name begins with a letter",
    ".": "numbers are whole, and a range is written with two dots, 0 .. 9",
    "?": "`?` is no sign here: write IF condition; .. ELSE; .. ENDIF;",
    "~": "`~` is no sign here: not is written NOT",
}


def foreign_letter(case: Case) -> Optional[str]:
    """A byte above 127: a byte-order mark, or the character that it is a part of."""
    data = case.text.data
    place = case.refusal.place
    if data[place : place + 3] == b"\xef\xbb\xbf" and place == 0:
        return "the file begins with a byte-order mark: save it as plain ASCII, or as UTF-8 without a BOM"
    if place == 0 and data[:2] in (b"\xff\xfe", b"\xfe\xff"):
        return "the file is UTF-16: save it as plain ASCII"
    for length in (2, 3, 4):
        try:
            letter = data[place : place + length].decode("utf-8")
        except UnicodeDecodeError:
            continue
        name = unicodedata.name(letter, "a character")
        return f"this is {name.lower()} ({letter}): a text is plain ASCII, in comments too"
    return "a text is plain ASCII, in comments too"


def nested_comment(case: Case) -> Optional[str]:
    """A `]` that closes nothing, or a `[` that is not closed."""
    token = case.token
    if token is None or token.text[0] not in "[]":
        return None
    if token.text[0] == "[":
        return "this comment is not closed: a comment is [, any text without ], and ]"
    before = [each for each in case.tokens if each.kind is Kind.COMMENT and each.after <= token.first]
    if not before:
        return "this ] closes no comment"
    last = before[-1]
    told = f"comments do not nest: the comment of line {case.line(last.first)} ended at the ] of line "
    return f"{told}{case.line(last.after - 1)}" if "[" in last.text[1:] else "this ] closes no comment"


def other_comment(case: Case) -> Optional[str]:
    """A comment as other languages write it."""
    place = case.refusal.place
    begins = case.text.letters[place : place + 2]
    if begins in ("//", "/*", "*/") or begins[:1] == "#":
        return "a comment is written [ .. ]"
    return None


def other_comment_end(letters: str, place: int) -> int:
    """The place behind a comment of another language that begins at `place`, or `place` where none does."""
    if letters.startswith("//", place) or letters.startswith("#", place):
        end = letters.find("\n", place)
        return len(letters) if end < 0 else end
    if letters.startswith("/*", place):
        return max(letters.find("*/", place) + 2, place)
    return place


def sign(case: Case) -> Optional[str]:
    """A sign of other languages."""
    letters = case.text.letters
    place = case.refusal.place
    if letters[place : place + 2] == "!=":
        return "not equal is written /="
    if other_comment(case):
        return None
    return _SIGNS.get(letters[place : place + 1])


def long_name(case: Case) -> Optional[str]:
    """A name of more than 40 letters."""
    token = case.token
    if token is None or token.kind is not Kind.NAME or len(token.text) <= 40:
        return None
    return f"this name has {len(token.text)} letters: a name has at most 40"


def large_number(case: Case) -> Optional[str]:
    """A number above its limit."""
    return "a number is at most 9223372036854775807, and behind a - at most 9223372036854775808"


def large_text(case: Case) -> Optional[str]:
    """A text of too many bytes."""
    return "a text has at most 1,048,576 bytes, comments among them: give each procedure a text of its own"
