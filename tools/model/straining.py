"""Texts at the limits: of procedures, lines, places and depth, and of what a region may hold."""

from __future__ import annotations

import random


def whole(declarations: list[str], body: list[str], post: str = "TRUE") -> bytes:
    """A text of one procedure."""
    statements = ["TITLE t", "PROC p", *declarations, "PRE TRUE", f"POST {post}", *body, "ENDPROC", "FINISH"]
    return "".join(f"{statement};\n" for statement in statements).encode("ascii")


def many_procedures(choice: random.Random) -> bytes:
    """About as many procedures as a text may have."""
    count = choice.choice([63, 64, 65])
    body = "".join(f"PROC p{number}; PRE TRUE; POST TRUE; ENDPROC;\n" for number in range(count))
    return f"TITLE t;\n{body}FINISH;\n".encode("ascii")


def many_lines(choice: random.Random) -> bytes:
    """About as many lines as a procedure may have."""
    return whole(["INOUT x : 0 .. 9"], ["SKIP"] * choice.choice([997, 998, 999]) + choice.choice([[], ["x := 1"]]))


def many_places(choice: random.Random) -> bytes:
    """About as many places as a procedure may have."""
    paired = choice.randrange(33)
    single = 64 - 2 * paired + choice.choice([-1, 0, 1])
    declarations = [f"INOUT y{number} : 0 .. 3" for number in range(paired)]
    declarations += [f"LOCAL z{number} : -1 .. 1" for number in range(max(0, single))]
    choice.shuffle(declarations)
    target = declarations[0].split(" ")[1] if declarations else None
    return whole(declarations, [f"{target} := {target} + 1"] if target else ["SKIP"])


def deep(choice: random.Random) -> bytes:
    """An expression of about the greatest depth."""
    depth = choice.choice([198, 199, 200, 201])
    kind = choice.randrange(3)
    if kind == 0:
        value = "(" * (depth - 1) + "x" + ")" * (depth - 1)
    elif kind == 1:
        value = "x" + " + 1 - 1" * ((depth - 1) // 2) + " + 0" * ((depth - 1) % 2)
    else:
        value = "(-" * ((depth - 1) // 2) + "x" + ")" * ((depth - 1) // 2)
    return whole(["INOUT x : 0 .. 1"], [f"x := {value}"])


def many_paths(choice: random.Random) -> bytes:
    """About as many paths as a region may have."""
    count = choice.choice([11, 13, 14, 15])
    body = [f"IF a >= {number}; SKIP; ENDIF" for number in range(1, count + 1)]
    if choice.random() < 0.5:
        body = ["LOOP", "ASSERT a >= 0", *body, "EXIT WHEN a = 9", "ENDLOOP"]
    if choice.random() < 0.3:
        body.insert(choice.randrange(len(body)), "ASSERT a /= 5")
    return whole(["IN a : 0 .. 99"], body)


def heavy(choice: random.Random) -> bytes:
    """Terms that weigh about as much as they may."""
    last = 1048570 + choice.choice([-2, -1, 0, 1])
    return whole(["INOUT x : 0 .. 9"], ["x := x * 1048576 MOD 7"] * 4 + [f"x := x * {last} MOD 7"])


def deep_terms(choice: random.Random) -> bytes:
    """Terms that are about as deep as they may be."""
    lines = ["x := x MOD 5 MOD 5"] * 499 + ["x := x MOD 5"] * choice.choice([0, 1, 2])
    return whole(["INOUT x : 0 .. 9"], lines)


def large(choice: random.Random) -> bytes:
    """About as many nodes as a region may have."""
    body = [f"IF a >= {number}; SKIP; ENDIF" for number in range(1, 13)]
    sums = [" + ".join(["a"] * count) for count in (121, choice.choice([121, 122, 123]))]
    return whole(["IN a : 0 .. 99", "OUT y : 0 .. 9"], body + [f"y := ({text}) MOD 5" for text in sums])


def unequal(choice: random.Random) -> bytes:
    """More tests for unequal sides on a path than are split."""
    count = choice.randrange(6, 12)
    top = choice.choice([count - 2, count - 1, count, count + 1])
    tests = [f"ASSERT a /= {choice.choice(['', '2 * b - ', 'b + '])}{number}" for number in range(count)]
    return whole([f"IN a : 0 .. {top}", "IN b : 0 .. 2"], [*tests, f"ASSERT a > {choice.randrange(count)}"])


STRAINS = [many_procedures, many_lines, many_places, deep, many_paths, heavy, deep_terms, large, unequal, unequal]


def chained(head: list[str], bodies: list[list[str]]) -> bytes:
    """A text of procedures p0, p1 and so on with the same declarations."""
    statements = ["TITLE t"]
    for number, body in enumerate(bodies):
        statements += [f"PROC p{number}", *head, "PRE TRUE", "POST TRUE", *body, "ENDPROC"]
    return "".join(f"{statement};\n" for statement in [*statements, "FINISH"]).encode("ascii")


def called_lines(choice: random.Random) -> bytes:
    """Calls that become about as many lines as a procedure may have."""
    inner, times = choice.choice([(10, 62), (40, 21), (95, 9), (495, 1)])
    own = 998 - times * (inner + 4)
    body = ["SKIP"] * (own + choice.choice([-1, 0, 1])) + ["CALL p0 (x)"] * times
    choice.shuffle(body)
    return chained(["IN x : 0 .. 3"], [["SKIP"] * (inner + 1), body])


def called_places(choice: random.Random) -> bytes:
    """Calls that bring about as many places as a procedure may have, one procedure upon the other."""
    head = choice.choice([["INOUT x : 0 .. 3"], ["OUT x : 0 .. 3"], ["IN y : BOOL", "INOUT x : WRAP 0 .. 3"]])
    arguments = "(x = 1, x)" if len(head) > 1 else "(x)"
    count = choice.choice([1, 2, 3])
    bodies = [[f"CALL p{number - 1} {arguments}"] * (count if number else 0) for number in range(choice.randrange(3, 7))]
    return chained(head, bodies)


def called_names(choice: random.Random) -> bytes:
    """Calls that make names of about 40 bytes."""
    length = choice.choice([36, 37, 38])
    name = "x" * (length - 3 * choice.choice([0, 1]) - choice.choice([0, 0, 1]))
    calls = choice.choice([1, 1, 9, 10])
    return chained([f"IN {name} : 0 .. 3"], [[f"CALL p{number - 1} (1)"] * (calls if number else 0) for number in range(3)])


CALL_STRAINS = [called_lines, called_places, called_names]


def strained(seed: int, calls: bool = False) -> bytes:
    """The text at a limit of a number."""
    choice = random.Random(f"limits {seed}")
    strains = CALL_STRAINS if calls else STRAINS
    return strains[seed % len(strains)](choice)
