"""The open blocks of a procedure's body, read leniently."""

from __future__ import annotations

from typing import Iterable

from assess_lib.statements import Statement

CLOSERS = {"IF": "ENDIF", "LOOP": "ENDLOOP"}


def open_blocks(body: Iterable[Statement], place: int) -> list[Statement]:
    """The IF and LOOP statements that are open just before `place`, the innermost last.

    A closing statement that fits no innermost open block closes nothing.
    """
    opened: list[Statement] = []
    for statement in body:
        if statement.first >= place:
            break
        if statement.opening in CLOSERS:
            opened.append(statement)
        elif opened and statement.opening == CLOSERS[opened[-1].opening]:
            opened.pop()
    return opened
