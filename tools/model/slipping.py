"""Slips in texts: bytes, words, statements and names that are gone, doubled, changed or moved."""

from __future__ import annotations

import random
import re

from model.inventing import invented
from model.inventing_calls import invented_calls
from model.lexing import KEYWORDS

SLIPS = [";", ":=", "(", ")", "..", "-", "9223372036854775808", "9223372036854775807", "= 3 =", "OLD x0", "x0", "x9"]
SLIPS += ["k0", "t0", "e0", "v0_0", "p0", "[", "]", "#", "n" * 41, "TRUE", "WRAP", "BOOL", "..0", "<", "NOT", "x1", "0", "007"]

STRAY = ["ELSE", "ENDIF", "ENDLOOP", "IF TRUE", "LOOP", "EXIT", "EXIT WHEN TRUE", "LABEL l0", "GOTO l0", "GOTO l9", "RETURN"]
STRAY += ["x0 := 1", "x0 := TRUE", "x1 := x0", "x9 := 0", "ASSERT x0", "ASSERT OLD x0 = x0", "IF OLD x1 = 0", "CALL p0", "SKIP"]
STRAY += ["CONST k0 = 1", "TYPE t0 = 3 .. 1", "IN x0 : BOOL", "LOCAL x7 : t0", "OUT x8 : k0", "INOUT x9 : e0", "PROC p0", "ENDPROC"]
STRAY += ["x0 := 9223372036854775807 * 9223372036854775807 * x0", "ASSERT (x0 = x1) = TRUE", "LOCAL x6 : k1 .. k0", "FINISH"]

STRAY_CALLS = ["CALL p0", "CALL p1", "CALL p2", "CALL p0 (x0)", "CALL p1 (x0)", "CALL p0 (x0, x1)", "CALL p1 (x1, x0)"]
STRAY_CALLS += ["CALL p0 (x0, x0)", "CALL p0 (1, x0, TRUE)", "CALL p1 (OLD x0)", "CALL k0", "CALL x0 (x0)", "CALL (x0)"]
STRAY_CALLS += ["CALL p0 ()", "CALL p0 (x0, )"]

STRAY_NAMES = ["LOCAL c1_x0 : 0 .. 1", "LOCAL o1_x0 : 0 .. 1", "LOCAL c2_x1 : BOOL", "OUT c1_c1_x0 : 0 .. 1"]
STRAY_NAMES += ["IN c1_o1_x0 : 0 .. 1"]

CALL = re.compile(rb"CALL (\w+)(?: \((.*)\))?;")

NAME = re.compile(rb"[A-Za-z][A-Za-z0-9_]*")
NUMBER = re.compile(rb"[0-9]+")


def slip_in_bytes(choice: random.Random, text: bytes) -> bytes:
    """One byte gone, added or changed, or the text cut off."""
    at = choice.randrange(len(text) + 1)
    other = bytes([choice.choice([choice.randrange(256), choice.choice(b"[];:=.<>/ \n\t")])])
    cut = text[:at] if choice.random() < 0.3 else text
    return choice.choice([cut, text[:at] + text[at + 1 :], text[:at] + other + text[at:], text[:at] + other + text[at + 1 :]])


def slip_in_words(choice: random.Random, text: bytes) -> bytes:
    """One word gone, doubled, changed or swapped with another."""
    words = text.decode("latin-1").replace(";", " ;").split(" ")
    one, two = choice.randrange(len(words)), choice.randrange(len(words))
    roll = choice.randrange(5)
    if roll == 0:
        del words[one]
    elif roll == 1:
        words[one], words[two] = words[two], words[one]
    elif roll == 2:
        words[one] = words[two]
    else:
        words[one] = choice.choice(SLIPS + sorted(KEYWORDS))
    return " ".join(words).encode("latin-1")


def slip_in_statements(choice: random.Random, text: bytes) -> bytes:
    """One statement gone, doubled or moved, or a stray one added."""
    statements = text.decode("latin-1").split(";")
    one, two = choice.randrange(len(statements)), choice.randrange(len(statements))
    taken = "\n" + choice.choice(STRAY) if choice.random() < 0.5 else statements[one]
    if taken == statements[one] and choice.random() < 0.7:
        del statements[one]
    if choice.random() < 0.7:
        statements.insert(two, taken)
    return ";".join(statements).encode("latin-1")


def slip_in_pieces(choice: random.Random, text: bytes, pattern: re.Pattern[bytes], others: list[bytes]) -> bytes:
    """One piece of a pattern becomes another of the text, or one of some others."""
    found = list(pattern.finditer(text))
    if not found:
        return text
    one, two = choice.choice(found), choice.choice(found)
    other = choice.choice([two.group(), choice.choice(others)])
    return text[: one.start()] + other + text[one.end() :]


def slip_in_names(choice: random.Random, text: bytes) -> bytes:
    """One name or keyword becomes another."""
    others = [b"x0", b"x1", b"t0", b"k0", b"OLD x0", b"IN", b"OUT", b"INOUT", b"LOCAL", b"BOOL"]
    return slip_in_pieces(choice, text, NAME, others)


def slip_in_numbers(choice: random.Random, text: bytes) -> bytes:
    """One number becomes another, or a name."""
    others = [b"9223372036854775807", b"9223372036854775808", b"-9223372036854775808", b"99", b"000", b"x0", b"k0", b"TRUE"]
    return slip_in_pieces(choice, text, NUMBER, others)


def slip_in_arguments(choice: random.Random, arguments: list[bytes]) -> None:
    """One argument gone, doubled, moved or changed, or one more."""
    others = [b"x0", b"x1", b"x2", b"k0", b"v0_0", b"p0", b"1", b"-7", b"TRUE", b"(x0)", b"OLD x0", b"x0 + 1", b"x0 = 1"]
    at = choice.randrange(len(arguments) + 1)
    taken = arguments.pop(at) if at < len(arguments) and choice.random() < 0.7 else None
    if taken is None or choice.random() < 0.7:
        other = choice.choice([*others, *arguments])
        arguments.insert(choice.randrange(len(arguments) + 1), taken if taken and choice.random() < 0.3 else other)


def slip_in_calls(choice: random.Random, text: bytes) -> bytes:
    """A stray call, or a variable with the name of a place that a call brings; or another name or other arguments in a call."""
    found = list(CALL.finditer(text))
    if not found or choice.random() < 0.4:
        strays, before = choice.choice([(STRAY_CALLS, b"ENDPROC"), (STRAY_CALLS, b":="), (STRAY_NAMES, b"PRE")])
        statements = text.split(b";")
        places = [index for index, statement in enumerate(statements) if before in statement] or [0]
        statements.insert(choice.choice(places), b"\n" + choice.choice(strays).encode())
        return b";".join(statements)
    one = choice.choice(found)
    name = choice.choice([b"p0", b"p1", b"p2", b"p9", b"k0", b"x0", b"t0"]) if choice.random() < 0.3 else one[1]
    arguments = one[2].split(b", ") if one[2] else []
    slip_in_arguments(choice, arguments)
    listed = b" (" + b", ".join(arguments) + b")" if arguments else b""
    return text[: one.start()] + b"CALL " + name + listed + b";" + text[one.end() :]


KINDS = [slip_in_bytes, slip_in_words, slip_in_statements, slip_in_statements, slip_in_names, slip_in_names, slip_in_numbers]


def slipped(seed: int, calls: bool = False) -> bytes:
    """An invented text with one to three slips."""
    choice = random.Random(-1 - seed)
    text = invented_calls(seed) if calls else invented(seed)
    kinds = KINDS + [slip_in_calls] * 9 if calls else KINDS
    for _ in range(choice.choice([1, 1, 1, 2, 3])):
        text = choice.choice(kinds)(choice, text) or b";"
    return text
