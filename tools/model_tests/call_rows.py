"""Texts with calls, each with its refusal or with none: each rule refused, and beside it a text that it lets pass.

In a text `^` marks the byte of the refusal and is no part of it. An answer is a code with the name or the limit that it
carries, or nothing where the text is accepted. As a command, `call_rows.py` writes the rows as tuples for tests in Rattle.
"""

from __future__ import annotations

from dataclasses import dataclass

BIG = "9223372036854775807"

NIL = "PROC nil;PRE TRUE;POST TRUE;ENDPROC;"
INC = "PROC inc;INOUT v : 0 .. 9;PRE v <= 8;POST v = OLD v + 1;v := v + 1;ENDPROC;"
GET = "PROC get;IN i : 0 .. 9;OUT o : 0 .. 9;LOCAL l : 0 .. 9;PRE TRUE;POST TRUE;l := i;o := l;ENDPROC;"
TWO = "PROC two;INOUT v : 0 .. 9;OUT w : 0 .. 9;PRE TRUE;POST TRUE;w := v;ENDPROC;"
SEE = "PROC see;IN i : 0 .. 9;IN j : 0 .. 9;PRE TRUE;POST TRUE;ENDPROC;"
KINDS = "CONST k = 3;TYPE r = 0 .. 9;TYPE hue = ( red, green );TYPE tone = ( high, low );"
TELL = "PROC tell;IN f : BOOL;IN h : hue;INOUT g : BOOL;OUT q : hue;PRE TRUE;POST TRUE;ENDPROC;"
TOLD = "INOUT b : BOOL;OUT u : hue;LOCAL n : tone;INOUT x : 0 .. 9;"
OUTER = "PROC outer;INOUT y : 0 .. 9;PRE TRUE;POST TRUE;CALL inc (y);ENDPROC;"
X = "INOUT x : 0 .. 9;"
Y = "INOUT y : 0 .. 9;"


@dataclass(frozen=True)
class Row:
    """A text with its answer in words: the code, empty where the text is accepted, its byte, and its name or limit."""

    words: str
    text: str
    code: str
    place: int
    detail: str


def row(words: str, called: str, variables: str, body: str, answer: str = "", behind: str = "") -> Row:
    """A row with procedures that are called, the variables and the body of `p`, and procedures behind it."""
    text = f"TITLE t;{called}PROC p;{variables}PRE TRUE;POST TRUE;{body}ENDPROC;{behind}FINISH;"
    code, _, detail = answer.partition(" ")
    assert text.count("^") == (1 if code else 0), words
    return Row(words, text.replace("^", ""), code, text.index("^") if code else 0, detail)


def skips(name: str, count: int, variables: str = "") -> str:
    """A procedure with so many lines, PRE and ENDPROC among them."""
    return f"PROC {name};{variables}PRE TRUE;POST TRUE;{'SKIP;' * (count - 2)}ENDPROC;"


def variables(mode: str, letter: str, count: int) -> str:
    """So many variables of a mode."""
    return "".join(f"{mode} {letter}{number} : 0 .. 9;" for number in range(count))


def listed(letter: str, count: int) -> str:
    """The names of so many variables as arguments."""
    return ", ".join(f"{letter}{number}" for number in range(count))


def nested(depth: int, inside: str) -> str:
    """An expression of a depth, in parentheses."""
    return "(" * (depth - 1) + inside + ")" * (depth - 1)


FORMS = [
    row("a call without arguments", NIL, "", "CALL nil;"),
    row("a call with one argument", INC, X, "CALL inc (x);"),
    row("a call with several arguments, over white space and comments", GET, X, "CALL get\n( 1 [ in ] , x );"),
    row("no name", NIL, "", "^CALL;", "E05"),
    row("a number in place of a name", NIL, "", "^CALL 3;", "E05"),
    row("a keyword in place of a name", NIL, "", "^CALL IF;", "E05"),
    row("arguments in place of a name", INC, X, "^CALL (x);", "E05"),
    row("empty parentheses", NIL, "", "^CALL nil ();", "E05"),
    row("no parentheses", INC, X, "^CALL inc x;", "E05"),
    row("a comma too many behind", INC, X, "^CALL inc (x,);", "E05"),
    row("a comma too many in front", INC, X, "^CALL inc (, x);", "E05"),
    row("no comma", TWO, X + Y, "^CALL two (x y);", "E05"),
    row("parentheses that are not closed", INC, X, "^CALL inc (x;", "E05"),
    row("two lists", INC, X, "^CALL inc (x) (x);", "E05"),
    row("a mode in the list", INC, X, "^CALL inc (INOUT x);", "E05"),
    row("a name without CALL", INC, X, "^inc (x);", "E05"),
    row("an argument that chains comparisons", SEE, X, "^CALL see (1 < 2 < 3, 4);", "E05"),
    row("arguments of depth 200, each measured alone", SEE, "", f"CALL see ({nested(200, '1')}, {nested(200, '2')});"),
    row("an argument of depth 201", SEE, "", f"^CALL see (1, {nested(201, '2')});", "E05"),
]

ORDER = [
    row("a call before the procedures", "^CALL p;", "", "", "E06"),
    row("a call between procedures", NIL + "^CALL nil;", "", "", "E06"),
    row("a call between variables", INC, X + "^CALL inc (x);" + Y, "", "E06"),
    row("a variable behind a call", INC, X, "CALL inc (x);^LOCAL z : BOOL;", "E06"),
    row("calls in tests and loops", INC, X, "IF x = 1;CALL inc (x);ELSE;LOOP;CALL inc (x);EXIT;ENDLOOP;ENDIF;"),
    row("a call opens no block", INC, X, "CALL inc (x);^ENDIF;", "E07"),
    row("a procedure is no label", NIL, "", "CALL nil;^GOTO nil;", "E07"),
    row("a label with the name of the procedure called", NIL, "", "GOTO nil;LABEL nil;CALL nil;"),
]

TWICE = [
    row("a variable has the new name of a variable", INC, X + "LOCAL c1_v : BOOL;", "^CALL inc (x);", "E08 c1_v"),
    row("a variable has the new name of another call", INC, X + "LOCAL c2_v : BOOL;", "CALL inc (x);"),
    row("a variable has the new name in capitals", INC, X + "LOCAL C1_v : BOOL;", "CALL inc (x);"),
    row("a variable has a new name with a zero in front", INC, X + "LOCAL c01_v : BOOL;", "CALL inc (x);"),
    row("a variable has the new name of an OLD copy", INC, X + "IN o1_v : BOOL;", "^CALL inc (x);", "E08 o1_v"),
    row("an IN parameter has no OLD copy", GET, X + "IN o1_i : BOOL;", "CALL get (1, x);"),
    row("a LOCAL variable is brought too", GET, X + "OUT c1_l : BOOL;", "^CALL get (1, x);", "E08 c1_l"),
    row("the second call brings the name", INC, X + "LOCAL c2_v : BOOL;", "CALL inc (x);^CALL inc (x);", "E08 c2_v"),
    row("a call behind a RETURN counts", INC, X + "LOCAL c2_v : BOOL;", "CALL inc (x);RETURN;^CALL inc (x);", "E08 c2_v"),
    row("calls are counted in each procedure", INC + OUTER, X + "LOCAL c2_v : BOOL;", "CALL inc (x);"),
    row("the tenth call", INC, X + "LOCAL c10_v : BOOL;", "CALL inc (x);" * 9 + "^CALL inc (x);", "E08 c10_v"),
    row("a call of its own counts", INC, X + "LOCAL c2_v : BOOL;", "CALL p (x);^CALL inc (x);", "E08 c2_v"),
    row("a call of its own brings nothing", INC, X + "LOCAL c1_x : BOOL;", "^CALL p (x);", "E16"),
    row("a call of an unknown procedure counts", INC, X + "LOCAL c2_v : BOOL;", "CALL q;^CALL inc (x);", "E08 c2_v"),
    row("a call of a later procedure brings nothing", "", X + "LOCAL c1_v : BOOL;", "^CALL inc (x);", "E09 inc", INC),
    row("a call that does not fit brings its places", INC, X + "LOCAL c1_v : BOOL;", "^CALL inc;", "E08 c1_v"),
    row("what an inner call brought", INC + OUTER, X + "LOCAL c1_c1_v : BOOL;", "^CALL outer (x);", "E08 c1_c1_v"),
    row("an OLD copy that an inner call brought", INC + OUTER, X + "LOCAL c1_o1_v : BOOL;", "^CALL outer (x);", "E08 c1_o1_v"),
    row("an inner place is no OLD copy", INC + OUTER, X + "LOCAL o1_o1_v : BOOL;LOCAL o1_c1_v : BOOL;", "CALL outer (x);"),
    row("a variable before an OLD copy", INC, X + "LOCAL o1_v : BOOL;LOCAL c1_v : BOOL;", "^CALL inc (x);", "E08 c1_v"),
    row(
        "what an inner call brought before an OLD copy",
        INC + OUTER,
        X + "LOCAL o1_y : BOOL;LOCAL c1_o1_v : BOOL;",
        "^CALL outer (x);",
        "E08 c1_o1_v",
    ),
    row(
        "variables in the callee's order",
        TWO,
        X + Y + "LOCAL c1_w : BOOL;LOCAL c1_v : BOOL;",
        "^CALL two (x, y);",
        "E08 c1_v",
    ),
    row("a later procedure has the new name", INC, X, "CALL inc (x);", "", "PROC c1_v;PRE TRUE;POST TRUE;ENDPROC;"),
    row(
        "a constant, a type and a value with new names",
        "CONST c1_v = 1;TYPE o1_v = ( c2_v );" + INC,
        X,
        "CALL inc (x);CALL inc (x);",
    ),
    row(
        "a variable of the procedure called has such a name",
        "PROC a;IN c1_v : BOOL;PRE TRUE;POST TRUE;ENDPROC;" + INC,
        X,
        "CALL inc (x);",
    ),
    row("an earlier fault of names comes first", INC, X + "^LOCAL x : BOOL;LOCAL c1_v : BOOL;", "CALL inc (x);", "E08 x"),
]

UNKNOWN = [
    row("no procedure of the name", NIL, "", "^CALL q;", "E09 q"),
    row("a later procedure", "", "", "^CALL nil;", "E09 nil", NIL),
    row("an earlier procedure", NIL, "", "CALL nil;"),
    row("an argument without declaration", INC, X, "^CALL inc (z);", "E09 z"),
    row("a variable of the procedure called", INC, X, "^CALL inc (v);", "E09 v"),
    row("a variable that both have", INC, "INOUT v : 0 .. 9;", "CALL inc (v);"),
    row("the name called is the first", INC, X, "^CALL q (z);", "E09 q"),
    row("the first of two arguments", SEE, X, "^CALL see (1 + z, y);", "E09 z"),
    row("an argument past the last parameter", INC, X, "^CALL inc (x, z);", "E09 z"),
    row("an argument of what is no procedure", KINDS, X, "^CALL k (z);", "E09 z"),
    row("a name under OLD", SEE, X, "^CALL see (1, OLD z);", "E09 z"),
    row("the title is no procedure", NIL, "", "^CALL t;", "E09 t"),
    row("a label is no procedure", NIL, "", "LABEL a;^CALL a;", "E09 a"),
]

TYPES = [
    row("a call of a constant", KINDS, X, "^CALL k;", "E10"),
    row("a call of a type", KINDS, X, "^CALL r;", "E10"),
    row("a call of an enumeration's value", KINDS, X, "^CALL red (x);", "E10"),
    row("a call of a variable", NIL, X, "^CALL x;", "E10"),
    row(
        "a call of a variable that a later procedure is named after",
        NIL,
        "LOCAL q : BOOL;",
        "^CALL q;",
        "E10",
        "PROC q;PRE TRUE;POST TRUE;ENDPROC;",
    ),
    row("arguments of all types", KINDS + TELL, TOLD, "CALL tell (x > 1, red, b, u);"),
    row("a number for BOOL", KINDS + TELL, TOLD, "^CALL tell (1, red, b, u);", "E10"),
    row("a condition for a number", SEE, X, "^CALL see (TRUE, x);", "E10"),
    row("a value of another enumeration", KINDS + TELL, TOLD, "^CALL tell (b, high, b, u);", "E10"),
    row("a number for an enumeration", KINDS + TELL, TOLD, "^CALL tell (b, 0, b, u);", "E10"),
    row("a variable of another type for INOUT", KINDS + TELL, TOLD, "^CALL tell (b, red, x, u);", "E10"),
    row("a variable of another enumeration for OUT", KINDS + TELL, TOLD, "^CALL tell (b, red, b, n);", "E10"),
    row(
        "variables of other ranges",
        "PROC a;INOUT v : -5 .. 3;PRE TRUE;POST TRUE;ENDPROC;",
        "INOUT x : WRAP 4 .. 8;",
        "CALL a (x);",
    ),
    row("a constant for IN", KINDS + INC + SEE, X, "CALL see (k, x);"),
    row("a constant for INOUT", KINDS + INC, X, "^CALL inc (k);", "E10"),
    row("a constant in parentheses for INOUT", KINDS + INC, X, "^CALL inc ((k));", "E10"),
    row("a value for OUT", KINDS + TELL, TOLD, "^CALL tell (b, green, b, green);", "E10"),
    row("a type for IN", KINDS + SEE, X, "^CALL see (r, 1);", "E10"),
    row("a procedure for INOUT", NIL + INC, X, "^CALL inc (nil);", "E10"),
    row("no name of the wrong type for OUT", GET, X, "^CALL get (1, x = 1);", "E10"),
    row("no name of the right type for OUT", GET, X, "^CALL get (1, x + 1);", "E16"),
    row("TRUE for OUT BOOL", KINDS + TELL, TOLD, "^CALL tell (b, red, TRUE, u);", "E16"),
    row("a badly typed argument past the last parameter", INC, X, "^CALL inc (x, 1 + TRUE);", "E10"),
    row("a type past the last parameter", KINDS + INC, X, "^CALL inc (x, hue);", "E10"),
    row("any type past the last parameter", KINDS + INC, X, "^CALL inc (x, red);", "E16"),
    row("a badly typed argument of a call of its own", NIL, X, "^CALL p (TRUE);", "E10"),
    row("a wrong type before a clash of modes", INC, "IN x : 0 .. 9;", "^CALL inc (x = 1);", "E10"),
]

ACCESS = [
    row("an IN variable for INOUT", INC, "IN x : 0 .. 9;", "^CALL inc (x);", "E11"),
    row("an IN variable in parentheses for INOUT", INC, "IN x : 0 .. 9;", "^CALL inc ((x));", "E11"),
    row("an IN variable for OUT", GET, "IN x : 0 .. 9;", "^CALL get (1, x);", "E11"),
    row("an IN variable for IN", GET, "IN x : 0 .. 9;OUT y : 0 .. 9;", "CALL get (x, y);"),
    row("an IN variable in an expression for OUT", GET, "IN x : 0 .. 9;", "^CALL get (1, x + 1);", "E16"),
    row("OUT and LOCAL variables for INOUT and OUT", TWO, "OUT x : 0 .. 9;LOCAL y : 0 .. 9;", "CALL two (x, y);"),
    row("OUT and LOCAL variables for IN", SEE, "OUT x : 0 .. 9;LOCAL y : 0 .. 9;", "CALL see (x, y);"),
    row("OLD for IN", SEE, X, "^CALL see (1, OLD x);", "E11"),
    row("OLD for INOUT", INC, X, "^CALL inc (OLD x);", "E11"),
    row("OLD past the last parameter", INC, X, "^CALL inc (x, OLD x);", "E11"),
    row("OLD of what is no INOUT variable", SEE, "LOCAL x : 0 .. 9;", "^CALL see (1, OLD x);", "E11"),
    row("an IN variable for INOUT in a call of its own", NIL, "INOUT x : 0 .. 9;IN y : 0 .. 9;", "^CALL p (y, 1);", "E11"),
    row("an IN variable past the last parameter", INC, "IN y : 0 .. 9;" + X, "^CALL inc (x, y);", "E16"),
]

WIDE = [
    row("an argument that is as wide as may be", SEE, X, f"CALL see (x, {BIG} * {BIG});"),
    row("an argument that is too wide", SEE, X, f"^CALL see (1, x * {BIG} * {BIG});", "E13"),
    row("too wide inside a condition", KINDS + TELL, TOLD, f"^CALL tell (x * {BIG} * {BIG} > 1, red, b, u);", "E13"),
    row("too wide for OUT", GET, X, f"^CALL get (1, x * {BIG} * {BIG});", "E13"),
    row("too wide past the last parameter", INC, X, f"^CALL inc (x, x * {BIG} * {BIG});", "E13"),
    row("too wide in a call of its own", NIL, X, f"^CALL p (x * {BIG} * {BIG});", "E13"),
    row(
        "the widest ranges for INOUT",
        f"PROC a;INOUT v : -9223372036854775808 .. {BIG};PRE TRUE;POST TRUE;ENDPROC;",
        f"INOUT x : -9223372036854775808 .. {BIG};",
        "CALL a (x);",
    ),
    row("an empty range before a call", INC, X + "^LOCAL z : 1 .. 0;", "CALL inc;", "E12"),
]

SIZES = [
    row("64 places", skips("a", 2, variables("IN", "a", 30)), variables("IN", "b", 34), f"CALL a ({listed('b', 30)});"),
    row(
        "65 places",
        skips("a", 2, variables("IN", "a", 30)),
        variables("IN", "b", 35),
        f"^CALL a ({listed('b', 30)});",
        "E14 places",
    ),
    row(
        "OLD copies count",
        skips("a", 2, variables("INOUT", "a", 16)),
        variables("OUT", "b", 32),
        f"CALL a ({listed('b', 16)});",
    ),
    row(
        "65 places with OLD copies",
        skips("a", 2, variables("INOUT", "a", 16)),
        variables("OUT", "b", 33),
        f"^CALL a ({listed('b', 16)});",
        "E14 places",
    ),
    row("its own OLD copies count", skips("a", 2, variables("LOCAL", "a", 30)), variables("INOUT", "b", 17), "CALL a;"),
    row(
        "65 places with its own OLD copies",
        skips("a", 2, variables("LOCAL", "a", 31)),
        variables("INOUT", "b", 17),
        "^CALL a;",
        "E14 places",
    ),
    row(
        "the second call passes 64 places",
        skips("a", 2, variables("LOCAL", "a", 30)),
        variables("LOCAL", "b", 5),
        "CALL a;^CALL a;",
        "E14 places",
    ),
    row(
        "places of inner calls count",
        skips("a", 2, variables("LOCAL", "a", 20)) + "PROC c;LOCAL z : BOOL;PRE TRUE;POST TRUE;CALL a;CALL a;ENDPROC;",
        variables("LOCAL", "b", 24),
        "^CALL c;",
        "E14 places",
    ),
    row(
        "64 places with inner calls",
        skips("a", 2, variables("LOCAL", "a", 20)) + "PROC c;LOCAL z : BOOL;PRE TRUE;POST TRUE;CALL a;CALL a;ENDPROC;",
        variables("LOCAL", "b", 23),
        "CALL c;",
    ),
    row("1,000 lines", skips("a", 998), "", "CALL a;"),
    row("the end is line 1000", skips("a", 999), "", "CALL a;^", "E14 lines"),
    row("the call passes 1,000 lines", skips("a", 1000), "", "^CALL a;", "E14 lines"),
    row("values in and out count: 1,000 lines", skips("a", 995, "INOUT v : 0 .. 9;"), X, "CALL a (x);"),
    row("values in and out count: 1,001 lines", skips("a", 996, "INOUT v : 0 .. 9;"), X, "CALL a (x);^", "E14 lines"),
    row("LOCAL variables have a line: 1,000 lines", skips("a", 996, "IN v : 0 .. 9;LOCAL w : BOOL;"), "", "CALL a (1);"),
    row(
        "LOCAL variables have a line: 1,001 lines",
        skips("a", 997, "IN v : 0 .. 9;LOCAL w : BOOL;"),
        "",
        "CALL a (1);^",
        "E14 lines",
    ),
    row("OUT has a line each way: 1,000 lines", skips("a", 996, "OUT v : 0 .. 9;"), X, "CALL a (x);"),
    row("OUT has a line each way: 1,001 lines", skips("a", 997, "OUT v : 0 .. 9;"), X, "CALL a (x);^", "E14 lines"),
    row("the second call passes 1,000 lines", skips("a", 500), "", "CALL a;^CALL a;", "E14 lines"),
    row(
        "lines of inner calls count",
        skips("a", 499) + "PROC c;PRE TRUE;POST TRUE;CALL a;ENDPROC;",
        "",
        "CALL a;^CALL c;",
        "E14 lines",
    ),
    row(
        "both limits are passed",
        skips("a", 1000, variables("LOCAL", "a", 40)),
        variables("LOCAL", "b", 40),
        "^CALL a;",
        "E14 lines",
    ),
    row(
        "places are passed at an earlier call",
        skips("a", 2, variables("LOCAL", "a", 40)) + skips("c", 999),
        variables("LOCAL", "b", 40),
        "^CALL a;CALL c;",
        "E14 places",
    ),
    row("a call of its own brings no place", NIL, variables("LOCAL", "b", 64), "^CALL p;", "E16"),
    row("a call of its own is one line: 1,000 lines", NIL, "", "SKIP;" * 997 + "^CALL p;", "E16"),
    row("a call of its own is one line: 1,001 lines", NIL, "", "SKIP;" * 998 + "CALL p;^", "E14 lines"),
    row(
        "a call without its arguments counts whole",
        skips("a", 2, variables("IN", "a", 64)),
        "LOCAL b : BOOL;",
        "^CALL a;",
        "E14 places",
    ),
    row(
        "too many procedures behind a call that does not fit",
        NIL,
        "",
        "CALL nil (1);",
        "E14 procedures",
        "".join(skips(f"q{number}", 2) for number in range(62)) + "^" + skips("q62", 2),
    ),
    row(
        "64 procedures that call the first",
        NIL,
        "",
        "CALL nil;",
        "",
        "".join(f"PROC q{number};PRE TRUE;POST TRUE;CALL nil;ENDPROC;" for number in range(62)),
    ),
]

LONG = "v" * 37
CALLS_A = "PROC c;PRE TRUE;POST TRUE;CALL a;ENDPROC;"

FITS = [
    row("its own procedure", NIL, "", "^CALL p;", "E16"),
    row("its own procedure with its arguments", INC, X, "CALL inc (x);^CALL p (x);", "E16"),
    row("the first procedure calls itself", "", X, "^CALL p (x);", "E16"),
    row("no argument for one parameter", INC, X, "^CALL inc;", "E16"),
    row("one argument for two parameters", TWO, X, "^CALL two (x);", "E16"),
    row("one argument for no parameter", NIL, X, "^CALL nil (x);", "E16"),
    row("a LOCAL variable is no parameter", GET, X + Y, "^CALL get (1, x, y);", "E16"),
    row("an expression for INOUT", INC, X, "^CALL inc (x + 0);", "E16"),
    row("a number for INOUT", INC, X, "^CALL inc (3);", "E16"),
    row("a name in parentheses for INOUT", INC, X, "CALL inc (((x)));"),
    row("a name with a minus for INOUT", INC, X, "^CALL inc (-x);", "E16"),
    row("NOT NOT before a name for INOUT", KINDS + TELL, TOLD, "^CALL tell (b, red, NOT NOT b, u);", "E16"),
    row("one variable for INOUT and OUT", TWO, X, "^CALL two (x, x);", "E16"),
    row("one variable for INOUT and in parentheses for OUT", TWO, X, "^CALL two (x, (x));", "E16"),
    row("two variables for INOUT and OUT", TWO, X + Y, "CALL two (x, y);"),
    row("one variable for IN and OUT", GET, X, "CALL get (x, x);"),
    row("one variable for IN twice", SEE, X, "CALL see (x, x);"),
    row("a new name of 40 bytes", f"PROC a;IN {LONG} : 0 .. 9;PRE TRUE;POST TRUE;ENDPROC;", "", "CALL a (1);"),
    row("a new name of 41 bytes", f"PROC a;IN {LONG}v : 0 .. 9;PRE TRUE;POST TRUE;ENDPROC;", "", "^CALL a (1);", "E16"),
    row(
        "a LOCAL variable's new name of 41 bytes",
        f"PROC a;LOCAL {LONG}v : 0 .. 9;PRE TRUE;POST TRUE;ENDPROC;",
        "",
        "^CALL a;",
        "E16",
    ),
    row(
        "the tenth call makes 41 bytes",
        f"PROC a;IN {LONG} : 0 .. 9;PRE TRUE;POST TRUE;ENDPROC;",
        "",
        "CALL a (1);" * 9 + "^CALL a (1);",
        "E16",
    ),
    row(
        "an inner call makes 41 bytes",
        skips("a", 2, f"LOCAL {LONG[2:]} : BOOL;") + CALLS_A,
        "",
        "^CALL c;",
        "E16",
    ),
    row(
        "an inner call makes 40 bytes",
        skips("a", 2, f"LOCAL {LONG[3:]} : BOOL;") + CALLS_A,
        "",
        "CALL c;",
    ),
    row("a long name that is not called", f"PROC a;LOCAL {LONG}vvv : BOOL;PRE TRUE;POST TRUE;ENDPROC;" + NIL, "", "CALL nil;"),
    row("the first of two calls that do not fit", INC, X, "^CALL inc;CALL p;", "E16"),
    row("a limit before a call that does not fit", INC + skips("a", 1000), X, "CALL inc;^CALL a;", "E14 lines"),
    row("a wrong type behind a call that does not fit", INC, X, "CALL inc;^CALL inc (TRUE);", "E10"),
]

ROWS = [*FORMS, *ORDER, *TWICE, *UNKNOWN, *TYPES, *ACCESS, *WIDE, *SIZES, *FITS]

CODES = {"E05": "Syntax", "E06": "Order", "E07": "Unmatched", "E08": "Twice", "E09": "Unknown", "E10": "Typing"}
CODES |= {"E11": "Access", "E12": "EmptyRange", "E13": "Wide", "E14": "TooMany", "E16": "BadCall"}


LONGEST = 1000
"""The most bytes of a text that is written whole; a test builds a longer one."""


def tuple_of(one: Row) -> str:
    """A row as a tuple of Rattle: the text, and the code with its byte and its name, where it is refused."""
    text = one.text.replace("\n", "\\n") if len(one.text) <= LONGEST else f"{len(one.text)} bytes"
    if not one.code:
        return f'("{text}", None),'
    name = one.detail
    code = f"Code::{CODES[one.code]}"
    if one.code == "E14":
        code, name = f"{code}(Many::{name.capitalize()})", ""
    return f'("{text}", Some(({code}, {one.place}, "{name}"))),'


if __name__ == "__main__":
    for each in ROWS:
        print(f"// {each.words[0].upper()}{each.words[1:]}.\n{tuple_of(each)}")
