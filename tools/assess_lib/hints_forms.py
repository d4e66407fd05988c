"""Hints on statements that have no form: the usual slips of who comes from another language."""

from __future__ import annotations

from typing import Optional

from assess_lib.case import Case
from assess_lib.outline import MODES
from assess_lib.statements import Statement
from assess_lib.tokens import KEYWORDS, STATEMENT_KEYWORDS, Kind, Token

RELATIONS = frozenset(("=", "/=", "<", "<=", ">", ">="))
_ALONE = frozenset(("ELSE", "ENDIF", "LOOP", "ENDLOOP", "SKIP", "ENDPROC", "FINISH", "RETURN"))
CONDITIONED = frozenset(("IF", "EXIT", "ASSERT", "PRE", "POST"))
_LOOP = "the one loop is LOOP; .. EXIT WHEN condition; .. ENDLOOP;"
_DECLARE = "a variable is declared by IN, INOUT, OUT or LOCAL, as in LOCAL x : 0 .. 9;"
_FOREIGN = {
    "THEN": "IF has no THEN: write IF condition; then its statements, and ENDIF; at the end",
    "DO": _LOOP,
    "WHILE": _LOOP,
    "FOR": _LOOP,
    "REPEAT": _LOOP,
    "UNTIL": _LOOP,
    "BREAK": "a loop is left by EXIT; or EXIT WHEN condition;",
    "END": "blocks end with ENDIF; and ENDLOOP;, a procedure with ENDPROC;, a text with FINISH;",
    "BEGIN": "a body needs no BEGIN: it follows POST",
    "ELSIF": "write ELSE; IF condition; .. ENDIF; ENDIF;",
    "ELSEIF": "write ELSE; IF condition; .. ENDIF; ENDIF;",
    "ELIF": "write ELSE; IF condition; .. ENDIF; ENDIF;",
    "VAR": _DECLARE,
    "INT": _DECLARE,
    "INTEGER": _DECLARE,
    "PROCEDURE": "a procedure begins with PROC name;",
    "FUNCTION": "a procedure begins with PROC name;, and gives its results in OUT variables",
    "XOR": "there is no XOR: write (a AND NOT b) OR (NOT a AND b)",
    "TO": "a range is written 0 .. 9",
}


def _words(case: Case) -> list[str]:
    """The words of the statement at fault."""
    return case.statement.words if case.statement else []


def _follows(tokens: tuple[Token, ...], number: int) -> bool:
    """Whether the token of that number begins a statement of its own."""
    token = tokens[number]
    if token.kind is Kind.KEYWORD:
        return token.text in STATEMENT_KEYWORDS
    return token.kind is Kind.NAME and number + 1 < len(tokens) and tokens[number + 1].text == ":="


def swallowed(case: Case, statement: Statement) -> Optional[Token]:
    """The first token that begins a statement of its own inside this one, where a `;` is missing before it."""
    tokens = statement.tokens
    for number in range(1, len(tokens)):
        later = case.line(tokens[number].first) > case.line(tokens[number - 1].first)
        fresh = tokens[number].kind is Kind.NAME and _ends_expression(tokens[number - 1])
        if _follows(tokens, number) and (later or fresh):
            return tokens[number]
    return None


def _ends_expression(token: Token) -> bool:
    """Whether an expression may end with this token."""
    return token.kind in (Kind.NUMBER, Kind.NAME) or token.text in (")", "TRUE", "FALSE")


def _goes_on(case: Case) -> bool:
    """Whether the statement at fault holds another one behind a missing `;` or a THEN."""
    statement = case.statement
    if statement is None:
        return False
    return "THEN" in map(str.upper, statement.words) or swallowed(case, statement) is not None


def missing_semicolon(case: Case) -> Optional[str]:
    """A statement that goes on where another one begins."""
    statement = case.statement
    if statement is None or "THEN" in map(str.upper, statement.words):
        return None
    token = swallowed(case, statement)
    if token is None:
        return None
    before = statement.tokens[[each.first for each in statement.tokens].index(token.first) - 1]
    return f"a ; is missing after {before.text} in line {case.line(before.first)}: the statement goes on with {token.text}"


def never_closed(case: Case) -> Optional[str]:
    """The text ends inside the statement."""
    if case.statement is None or case.statement.closed:
        return None
    return "the text ends before the ; of this statement"


def small_letters(case: Case) -> Optional[str]:
    """Keywords that are not written in capitals."""
    found = [
        word.upper()
        for word in _words(case)
        if word not in KEYWORDS and word.upper() in KEYWORDS and not case.knows(word)
    ]
    return f"keywords are written in capitals: {', '.join(dict.fromkeys(found))}" if found else None


def foreign_word(case: Case) -> Optional[str]:
    """A word of another language."""
    words = _words(case)
    if words[:2] == ["ELSE", "IF"]:
        return "ELSE; is a statement of its own: write ELSE; IF condition; .. ENDIF; ENDIF;"
    found = [word.upper() for word in words if word.upper() in _FOREIGN and not case.knows(word)]
    return _FOREIGN["THEN" if "THEN" in found else found[0]] if found else None


def alone(case: Case) -> Optional[str]:
    """More words behind a statement that is one word."""
    words = _words(case)
    if len(words) < 2 or words[0] not in _ALONE or _goes_on(case):
        return None
    if words[0] == "RETURN":
        return "RETURN has no value: assign the OUT variables, then write RETURN;"
    return f"{words[0]}; is a statement of its own, with nothing between it and its ;"


def assignment_sign(case: Case) -> Optional[str]:
    """`=` where `:=` is meant, or the other way round."""
    words = _words(case)
    if len(words) > 1 and words[1] == "=" and words[0] not in KEYWORDS:
        return f"an assignment is written with :=, as in {words[0]} := .."
    if any(words[number : number + 2] == [":", "="] for number in range(len(words))):
        return ":= is one sign, without a space inside"
    if words[:1] in (["CONST"], ["TYPE"]) and (":=" in words or ":" in words):
        return f"{words[0]} is written with =, as in {words[0]} name = .."
    if _goes_on(case):
        return None
    if words[:1] and words[0] in CONDITIONED and ":=" in words:
        return "a comparison is written with =, an assignment is a statement of its own"
    if words.count(":=") > 1:
        return "a statement has one :=; a comparison is written with ="
    return None


def relation_sign(case: Case) -> Optional[str]:
    """Comparisons as other languages write them."""
    told = {
        ("<", ">"): "not equal is written /=",
        ("=", "="): "equal is written =",
        ("=", "<"): "at most is written <=",
        ("=", ">"): "at least is written >=",
        (":=", "="): "an assignment is written :=, a comparison =",
        ("/=", "="): "not equal is written /=",
        ("*", "*"): "there are no powers: write a product",
        ("+", "+"): "write x := x + 1;",
        ("+", ":="): "write x := x + 1;",
        ("+", "="): "write x := x + 1;",
        ("-", "="): "write x := x - 1;",
        ("-", "-"): "a comment is written [ .. ], and a minus inside an expression stands in parentheses",
    }
    words = _words(case)
    return next((told[pair] for pair in zip(words, words[1:]) if pair in told), None)


def several_names(case: Case) -> Optional[str]:
    """Several names in one declaration."""
    words = _words(case)
    if words[:1] and words[0] in MODES | {"CONST"} and words[2:3] == [","]:
        return f"one declaration has one name: write {words[0]} {words[1]} ..; and one more for each other name"
    return None


def name_of_declaration(case: Case) -> Optional[str]:
    """A name that begins with a digit, a keyword as a name, or a declaration without its colon."""
    statement = case.statement
    if statement is None:
        return None
    for before, token in zip(statement.tokens, statement.tokens[1:]):
        if before.kind is Kind.NUMBER and token.kind is Kind.NAME and before.after == token.first:
            return f"a name begins with a letter, so {before.text}{token.text} is none; numbers are decimal"
    words = statement.words
    declares = words[0] in MODES | {"CONST", "TYPE", "PROC", "TITLE", "LABEL", "GOTO"} if words else False
    if declares and words[1:2] and words[1] in KEYWORDS:
        return f"{words[1]} is a keyword, so it is no name"
    if declares and len(words) == 1:
        return f"{words[0]} needs a name"
    if declares and words[0] in MODES and words[2:3] not in ([":"], [","]):
        return f"a declaration has a colon and a type, as in {words[0]} x : 0 .. 9;"
    return None


def chained(case: Case) -> Optional[str]:
    """A comparison of a comparison."""
    depth = 0
    compared: dict[int, bool] = {}
    words = _words(case)
    for before, word in zip([""] + words, words):
        depth += (word == "(") - (word == ")")
        if word in RELATIONS and before not in RELATIONS:
            if compared.get(depth):
                return "comparisons do not chain: write a <= b AND b <= c"
            compared[depth] = True
        elif word.upper() in ("AND", "OR", "NOT", "(", ",", ":="):
            compared[depth] = False
    return None


def call_form(case: Case) -> Optional[str]:
    """CALL, or a call without it."""
    words = _words(case)
    if words[:1] == ["CALL"]:
        if words[2:4] == ["(", ")"]:
            return f"a call without arguments has no parentheses: CALL {words[1]};"
        if len(words) > 2 and words[2] != "(":
            return f"the arguments stand in parentheses with commas between: CALL {words[1]} (a, b);"
        return "a call is written CALL name; or CALL name (a, b);"
    if len(words) > 1 and words[0] not in KEYWORDS and words[1] == "(" and words[0][0].isalpha():
        return f"a procedure is called by CALL {words[0]} ( .. );"
    if len(words) == 1 and case.outline.procedure(words[0]):
        return f"a procedure is called by CALL {words[0]};"
    return None


def exit_form(case: Case) -> Optional[str]:
    """EXIT with a condition but without WHEN."""
    words = _words(case)
    if words[:1] == ["EXIT"] and len(words) > 1 and words[1] != "WHEN":
        return "a loop is left by EXIT; or by EXIT WHEN condition;"
    return None


def condition_missing(case: Case) -> Optional[str]:
    """A statement that needs a condition and has none."""
    words = _words(case)
    if words in (["IF"], ["ASSERT"], ["PRE"], ["POST"], ["EXIT", "WHEN"]):
        return f"{' '.join(words)} needs a condition; the one that always holds is TRUE"
    return None


def inner_sign(case: Case) -> Optional[str]:
    """A sign or a NOT inside an expression."""
    words = _words(case)
    for before, word in zip(words, words[1:]):
        if word == "-" and before in ("*", "DIV", "MOD", "+", "-"):
            return "a minus inside an expression stands in parentheses, as in 3 * (-1)"
        if word == "NOT" and before in RELATIONS:
            return "NOT as the side of a comparison stands in parentheses"
    return None


def parentheses(case: Case) -> Optional[str]:
    """Parentheses that do not balance."""
    words = _words(case)
    opened, closed = words.count("("), words.count(")")
    if opened == closed:
        return None
    return f"{opened} opening and {closed} closing parentheses"


def comment_inside(case: Case) -> Optional[str]:
    """A comment where brackets were perhaps meant otherwise."""
    statement = case.statement
    if statement is None:
        return None
    inside = [
        each for each in case.tokens if each.kind is Kind.COMMENT and statement.first <= each.first < statement.after
    ]
    return "what stands in square brackets is a comment, so it is not read" if inside else None


def named_type(case: Case) -> Optional[str]:
    """TYPE of what is no range and no list."""
    words = _words(case)
    if words[:1] == ["TYPE"] and words[3:4] == ["BOOL"]:
        return "TYPE names a range or a list of values: write BOOL itself where it is used"
    return None
