"""Texts worked by hand, with what their reports say."""

from __future__ import annotations


def text_of(declarations: str, body: str, pre: str = "TRUE", post: str = "TRUE") -> bytes:
    """A text of one procedure, one statement a line."""
    statements = f"TITLE t;PROC p;{declarations}PRE {pre};POST {post};{body}ENDPROC;FINISH;"
    return statements.replace(";", ";\n").encode("ascii")


COPY = b"""TITLE copy;
PROC p;
IN a : 0 .. 9;
INOUT b : 0 .. 9;
OUT c : 0 .. 9;
LOCAL d : 0 .. 9;
PRE TRUE;
POST TRUE;
d := a;
c := b;
b := d;
ENDPROC;
FINISH;
"""

COPY_REPORT = """MALPAS PROFILE 1
TITLE copy
PROCEDURE p LINES 5
CONTROL
UNREACHABLE -
STUCK -
LEVEL 0
INTERVAL L0: L0 L1 L2 L3 L4
SHAPE REDUCIBLE
USE
VAR a RF=Y OW=N LW=N NR=N NW=Y EU=Y
VAR b RF=Y OW=N LW=N NR=N NW=N EU=N
VAR c RF=N OW=N LW=N NR=N NW=N EU=N
VAR d RF=N OW=N LW=N NR=N NW=N EU=N
FLOW
VAR a FROM a TESTS -
VAR b FROM a TESTS -
VAR c FROM b TESTS -
VAR d FROM a TESTS -
PATHS
ARC a1 L0 L1
ARC a2 L1 L2
ARC a3 L2 L3
ARC a4 L3 L4
E1 = a1 . a2
E2 = E1 . a3
E3 = E2 . a4
ALL = E3
SEMANTIC
REGION L0
ROW 1 PATH -
STOP END
b := a
c := b
d := a
COMPLIANCE
REGION L0
THREATS 0 FALSE 0 SHOWN 0 OPEN 0 PAST 0
STATUS 0
"""

STEP_UP = text_of("INOUT x : 0 .. 9;", "x := x + 1;")

STEP_UP_SECTIONS = """SEMANTIC
REGION L0
ROW 1 PATH T
IF x <= 8
STOP END
x := x + 1
ROW 2 PATH F
IF x > 8
STOP RANGE L1
COMPLIANCE
REGION L0
THREAT 1 PATH F STOP RANGE L1 SHOWN x = 9, OLD x = 9
THREATS 1 FALSE 0 SHOWN 1 OPEN 0 PAST 0
STATUS 1
"""

SUM = text_of(
    "IN n : 0 .. 9;IN k : 0 .. 9;OUT s : 0 .. 18;LOCAL i : 0 .. 9;",
    "s := k;i := 0;LOOP;ASSERT i <= n;ASSERT s = k + i;EXIT WHEN i = n;i := i + 1;s := s + 1;ENDLOOP;",
    post="s = k + n",
)

SUM_COMPLIANCE = """COMPLIANCE
REGION L0
THREAT 1 PATH TF STOP ASSERT L5 FALSE
THREAT 2 PATH F STOP ASSERT L4 FALSE
REGION L3
THREAT 3 PATH TTTF STOP POST OPEN k - s + i = 0
THREAT 4 PATH TTFTTTF STOP ASSERT L5 OPEN k - s + i = 0
THREAT 5 PATH TTFTTF STOP ASSERT L4 FALSE
THREAT 6 PATH TTFTF STOP RANGE L8 OPEN k - s + i = 0
THREAT 7 PATH TTFF STOP RANGE L7 FALSE
THREATS 7 FALSE 4 SHOWN 0 OPEN 3 PAST 0
"""

COUNT = text_of(
    "IN n : 0 .. 9;OUT i : 0 .. 9;",
    "i := 0;LOOP;ASSERT 0 <= i;ASSERT i <= n;EXIT WHEN i >= n;i := i + 1;ENDLOOP;",
    post="i = n",
)

COUNT_TABLE = """REGION L2
ROW 1 PATH TTTT
IF i >= 0
IF n - i >= 0
IF n - i <= 0
IF n - i = 0
STOP END
ROW 2 PATH TTFT
IF i >= 0
IF n - i >= 0
IF n - i > 0
IF i <= 8
STOP HEAD L2
i := i + 1
ROW 3 PATH TF
IF i >= 0
IF n - i < 0
STOP ASSERT L4
"""

STEP_TWO = text_of(
    "IN n : 0 .. 9;LOCAL i : 0 .. 9;", "i := 3;LOOP;ASSERT i <= n;EXIT WHEN i >= n;i := i + 2;ENDLOOP;"
)

STEP_TWO_COMPLIANCE = """COMPLIANCE
REGION L0
THREAT 1 PATH F STOP ASSERT L3 SHOWN n = 0, i = 0
REGION L2
THREAT 2 PATH TFTF STOP ASSERT L3 SHOWN n = 1, i = 0
THREAT 3 PATH TFF STOP RANGE L5 SHOWN n = 9, i = 8
THREATS 3 FALSE 0 SHOWN 3 OPEN 0 PAST 0
"""

TWO_ENTRIES = text_of(
    "INOUT x : 0 .. 9;", "IF x = 0;GOTO mid;ENDIF;LOOP;SKIP;LABEL mid;EXIT WHEN x = 9;ENDLOOP;"
)

TWO_ENTRIES_CONTROL = """CONTROL
UNREACHABLE -
STUCK -
LEVEL 0
INTERVAL L0: L0 L1 L2 L3
INTERVAL L4: L4 L5
INTERVAL L6: L6 L7 L8 L9
LEVEL 1
INTERVAL L0: L0
INTERVAL L4: L4
INTERVAL L6: L6
SHAPE TWO ENTRIES
CYCLE L4 L5 L6 L7 L8
FIRST L0 L1 L3 L4
SECOND L0 L1 L2 L6
"""

VALUES = [
    ("(-7) DIV 2", "-4"),
    ("(-7) MOD 2", "1"),
    ("7 DIV (-2)", "-3"),
    ("7 MOD (-2)", "1"),
    ("(-7) DIV (-2)", "4"),
    ("-7 DIV 2", "-3"),
    ("-7 MOD 2", "-1"),
    ("(x + 1) * 2 - x - x", "2"),
]
"""Expressions, each with the text of its normal term; x has the range 0 to 9."""

CHANGES = [
    (b"d := a;", b"d #= a;", "E03 at byte 110"),
    (b"d := a;", b"d := a < b < c;", "E05 at byte 108"),
    (b"d := a;", b"CALL q;", "E09 at byte 108"),
    (b"d := a;", b"ENDIF;", "E07 at byte 108"),
    (b"LOCAL d : 0 .. 9;", b"LOCAL a : 0 .. 9;", "E08 at byte 69"),
    (b"d := a;", b"d := e;", "E09 at byte 108"),
    (b"d := a;", b"d := a < 3;", "E10 at byte 108"),
    (b"d := a;", b"a := d;", "E11 at byte 108"),
    (b"LOCAL d : 0 .. 9;", b"LOCAL d : 9 .. 0;", "E12 at byte 69"),
    (b"d := a;", b"d := a * 9223372036854775807 * 9223372036854775807;", "E13 at byte 108"),
    (b"ENDPROC;\n", b"SKIP;\n" * 996 + b"ENDPROC;\n", "E14 at byte 6108"),
]
"""Changes of the first text, each with the refusal that it meets."""

INPUTS = [
    ("INOUT x : 0 .. 9;", "x := x + 1;", "REGION L0\nROW 1 INPUT x = 0, OLD x = 0\nROW 2 INPUT x = 9, OLD x = 9\n"),
    ("IN x : 0 .. 9;IN y : 0 .. 9;", "IF x * y > 3;SKIP;ENDIF;", "REGION L0\nROW 1 INPUT -\nROW 2 INPUT x = 0, y = 0\n"),
    ("", "SKIP;", "REGION L0\nROW 1 INPUT EMPTY\n"),
    (
        "LOCAL i : 0 .. 9;",
        "LOOP;EXIT WHEN i >= 5;i := i + 1;ENDLOOP;",
        "REGION L0\nROW 1 INPUT i = 0\nREGION L1\nROW 1 INPUT i = 5\nROW 2 INPUT i = 0\n",
    ),
]
"""Declarations, a body, and its test inputs."""

CALL_INC = b"""TITLE t;
PROC inc;
INOUT v : 0 .. 9;
PRE v <= 8;
POST v = OLD v + 1;
v := v + 1;
ENDPROC;
PROC p;
INOUT x : 0 .. 5;
PRE TRUE;
POST TRUE;
CALL inc (x);
ENDPROC;
FINISH;
"""

CALL_INC_PLACES = [("x", "INOUT", 0, 5), ("c1_v", "LOCAL", 0, 9), ("o1_v", "LOCAL", 0, 9), ("OLD x", "INOUT", 0, 5)]

CALL_INC_LINES = [
    ("PRE", None),
    ("ASSIGN", 1),
    ("ASSIGN", 2),
    ("ASSERT", None),
    ("ASSIGN", 1),
    ("ASSERT", None),
    ("ASSIGN", 0),
    ("ENDPROC", None),
]
"""The lines of p, each with the place that it assigns."""

CALL_INC_ORIGINS = [(1, 0), (1, 1), (1, 1), (0, 0), (0, 1), (0, 2), (1, 1), (1, 2)]

CALL_INC_PARTS = [
    """PROCEDURE p LINES 8
EXPANDED L1 L6 inc
CONTROL
""",
    """REGION L0
THREAT 1 PATH TTTF STOP RANGE L6 SHOWN x = 5, c1_v = 0, o1_v = 0, OLD x = 5
THREAT 2 PATH TTF STOP ASSERT L5 FALSE
THREAT 3 PATH TF STOP RANGE L4 FALSE
THREAT 4 PATH F STOP ASSERT L3 FALSE
THREATS 4 FALSE 3 SHOWN 1 OPEN 0 PAST 0
STATUS 1
""",
]

CALL_OUTER = b"""TITLE t;
PROC inc; INOUT v : WRAP 0 .. 9; PRE TRUE; POST TRUE; v := v + 1; ENDPROC;
PROC outer; IN i : 0 .. 9; INOUT y : 0 .. 9; PRE TRUE; POST TRUE; CALL inc (y); ENDPROC;
PROC p; INOUT x : 0 .. 9; LOCAL z : 0 .. 9; PRE TRUE; POST TRUE; CALL inc (x); CALL outer (x, z); ENDPROC;
FINISH;
"""

CALL_OUTER_PLACES = ["x", "z", "c1_v", "o1_v", "c2_i", "c2_y", "c2_c1_v", "c2_o1_v", "o2_y", "OLD x"]

CALL_TWO_ENTRIES = TWO_ENTRIES.replace(
    b"FINISH;", b"PROC q;\nINOUT x : 0 .. 9;\nPRE TRUE;\nPOST TRUE;\nCALL p (x);\nENDPROC;\nFINISH;"
)
