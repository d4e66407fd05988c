"""Runs of texts with calls, worked by hand: where each halts, and with which values of the variables of `p`."""

from __future__ import annotations

from dataclasses import dataclass


@dataclass(frozen=True)
class Run:
    """A text whose last procedure, `p`, is run from the values of its variables.

    A halt has the numbers of the written procedure and line, or nothing. The end has the values of p's variables then.
    """

    words: str
    text: str
    start: tuple[int, ...]
    halt: str
    at: tuple[int, int] | None
    end: tuple[int, ...]


def procedure(name: str, declarations: str, body: str, pre: str = "TRUE", post: str = "TRUE") -> str:
    """A procedure."""
    return f"PROC {name};{declarations}PRE {pre};POST {post};{body}ENDPROC;"


def a(declarations: str, body: str, pre: str = "TRUE", post: str = "TRUE") -> str:
    """The procedure that is called, number 0."""
    return procedure("a", declarations, body, pre, post)


def p(declarations: str, body: str, pre: str = "TRUE", post: str = "TRUE") -> str:
    """The procedure that is run."""
    return procedure("p", declarations, body, pre, post)


def run(words: str, procedures: str, start: tuple[int, ...], halt: str, at: tuple[int, int] | None, end: tuple[int, ...]) -> Run:
    """A run over these procedures."""
    return Run(words, f"TITLE t;{procedures}FINISH;", start, halt, at, end)


V = "INOUT v : 0 .. 9;"
OQ = "OUT o : 0 .. 9;OUT q : 0 .. 9;"
X = "LOCAL x : 0 .. 9;"
XY = "LOCAL x : 0 .. 9;LOCAL y : 0 .. 5;"
INC = a(V, "v := v + 1;", "v <= 8", "v = OLD v + 1")
FIVE = a("IN i : 0 .. 5;IN j : 0 .. 5;", "")
FRESH = a("INOUT v : 0 .. 9;LOCAL l : 1 .. 9;", "l := l + 1;v := l;")
NEAR = a("IN i : -2 .. 9;OUT o : WRAP 0 .. 3;", "IF i < 0;RETURN;ENDIF;o := i;")
MIDDLE = procedure("c", "INOUT y : 0 .. 7;", "SKIP;CALL a (y);", "y >= 1", "y /= 5")

FAULTS = [
    run("an argument out of range", FIVE + p(X, "SKIP;CALL a (x, 1);"), (7,), "RANGE", (1, 2), (7,)),
    run("an argument that divides by zero", FIVE + p(X, "CALL a (6 DIV x, 1);"), (0,), "DIVZERO", (1, 1), (0,)),
    run("of two faults the first argument's", FIVE + p(X, "CALL a (x + 6, 6 DIV x);"), (0,), "RANGE", (1, 1), (0,)),
    run("a fault of the second argument", FIVE + p(X, "CALL a (x, 6 DIV x);"), (0,), "DIVZERO", (1, 1), (0,)),
    run("a condition that divides by zero", a("IN f : BOOL;", "") + p(X, "CALL a (1 DIV x = 1);"), (0,), "DIVZERO", (1, 1), (0,)),
    run(
        "a condition that is decided before",
        a("IN f : BOOL;", "") + p(X, "CALL a (x = 0 OR 1 DIV x = 1);"),
        (0,),
        "END",
        None,
        (0,),
    ),
    run("a false precondition", INC + p(X, "CALL a (x);"), (9,), "ASSERT", (0, 0), (9,)),
    run("a precondition that divides by zero", a(V, "", "1 DIV v = 1") + p(X, "CALL a (x);"), (0,), "DIVZERO", (0, 0), (0,)),
    run("a fault of the body", a(V, "SKIP;v := v + 1;") + p(X, "CALL a (x);"), (9,), "RANGE", (0, 2), (9,)),
    run("a failed assertion", a(V, "v := 0;ASSERT v = OLD v;") + p(X, "CALL a (x);"), (9,), "ASSERT", (0, 2), (9,)),
    run("a false postcondition", a(V, "v := 0;", post="v = OLD v") + p(X, "CALL a (x);"), (9,), "ASSERT", (0, 2), (9,)),
    run("a postcondition that divides by zero", a(V, "", post="1 DIV v = 1") + p(X, "CALL a (x);"), (0,), "DIVZERO", (0, 1), (0,)),
    run(
        "what is handed back before a fault stays",
        a(OQ, "o := 3;q := 9;") + p(XY, "CALL a (x, y);"),
        (1, 1),
        "RANGE",
        (1, 1),
        (3, 1),
    ),
    run(
        "nothing is handed back behind a fault",
        a(OQ, "o := 9;q := 3;") + p(XY, "CALL a (y, x);"),
        (1, 1),
        "RANGE",
        (1, 1),
        (1, 1),
    ),
    run("the precondition of p is false", INC + p(X, "CALL a (x);", "1 = 0"), (5,), "OUTSIDE", None, (5,)),
    run("the postcondition of p is false", INC + p(X, "CALL a (x);", post="1 = 0"), (5,), "POST", None, (6,)),
]

ENDS = [
    run("a call that adds 1", INC + p(X, "CALL a (x);"), (5,), "END", None, (6,)),
    run("OLD is new in each call", INC + p(X, "CALL a (x);CALL a (x);CALL a (x);"), (5,), "END", None, (8,)),
    run("calls in a loop", INC + p(X, "LOOP;EXIT WHEN x = 9;CALL a (x);ENDLOOP;"), (2,), "END", None, (9,)),
    run(
        "a call on one side of a test",
        INC + p(X, "IF x = 2;CALL a (x);ELSE;CALL a (x);CALL a (x);ENDIF;"),
        (5,),
        "END",
        None,
        (7,),
    ),
    run("LOCAL begins with its least value each time", FRESH + p(XY, "CALL a (x);CALL a (y);"), (0, 0), "END", None, (2, 2)),
    run("OUT begins with its least value", a("OUT o : 2 .. 9;", "") + p(X, "CALL a (x);"), (7,), "END", None, (2,)),
    run("OUT begins with FALSE", a("OUT f : BOOL;", "") + p("LOCAL b : BOOL;", "CALL a (b);"), (1,), "END", None, (0,)),
    run("BOOL there and back", a("INOUT f : BOOL;", "f := NOT f;") + p("LOCAL b : BOOL;", "CALL a (b);"), (0,), "END", None, (1,)),
    run("RETURN in the called procedure", NEAR + p(XY, "CALL a (-1, x);x := x + 4;"), (7, 0), "END", None, (4, 0)),
    run("the called procedure's range wraps", NEAR + p(XY, "CALL a (x, y);"), (7, 0), "END", None, (7, 3)),
    run(
        "the argument's range wraps",
        a("OUT o : 0 .. 9;", "o := 9;") + p("LOCAL x : WRAP 1 .. 4;", "CALL a (x);"),
        (1,),
        "END",
        None,
        (1,),
    ),
    run(
        "a parameter that wraps",
        a("IN i : WRAP 2 .. 4;OUT o : 0 .. 9;", "o := i;") + p(X, "CALL a (x, x);"),
        (9,),
        "END",
        None,
        (3,),
    ),
    run(
        "one variable for IN and OUT",
        a("IN i : 0 .. 9;OUT o : 0 .. 9;", "o := 1;o := i;") + p(X, "CALL a (x, x);"),
        (6,),
        "END",
        None,
        (6,),
    ),
]

INNER = [
    run("a call in a call", INC + MIDDLE + p(X, "CALL c (x);"), (5,), "END", None, (6,)),
    run(
        "the inner precondition is false",
        INC.replace("v <= 8", "v <= 3") + MIDDLE + p(X, "CALL c (x);"),
        (5,),
        "ASSERT",
        (0, 0),
        (5,),
    ),
    run("the middle precondition is false", INC + MIDDLE + p(X, "CALL c (x);"), (0,), "ASSERT", (1, 0), (0,)),
    run("the middle postcondition is false", INC + MIDDLE + p(X, "CALL c (x);"), (4,), "ASSERT", (1, 3), (4,)),
    run("the middle argument is out of range", INC + MIDDLE + p(X, "CALL c (x);"), (8,), "RANGE", (2, 1), (8,)),
    run("handed back out of the middle range", INC + MIDDLE + p(X, "CALL c (x);"), (7,), "RANGE", (1, 2), (7,)),
    run("handed back out of the first range", INC + MIDDLE + p(XY, "CALL c (x);CALL c (y);"), (5, 5), "RANGE", (2, 2), (6, 5)),
    run("two ways down", INC + MIDDLE + p(XY, "CALL a (x);CALL c (y);CALL a (y);"), (0, 2), "END", None, (1, 4)),
]

RUNS = [*FAULTS, *ENDS, *INNER]
