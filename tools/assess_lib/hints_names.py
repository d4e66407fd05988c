"""Hints on names, types, modes, ranges and limits."""

from __future__ import annotations

import difflib
from typing import Optional

from assess_lib.case import Case
from assess_lib.hints_forms import RELATIONS
from assess_lib.outline import MODES, Mode, Variable, names_declared
from assess_lib.statements import Statement
from assess_lib.tokens import KEYWORDS, Kind

_TYPES = frozenset("INT INTEGER NATURAL BYTE WORD REAL FLOAT DOUBLE SHORT LONG UNSIGNED CHAR STRING".split())


def declared_before(case: Case) -> Optional[str]:
    """Where a name that is declared twice was declared first."""
    name, here = case.refusal.name, case.statement
    if here is None:
        return None
    if names_declared(here).count(name) > 1:
        return f"{name} stands twice in this statement"
    earlier: Optional[Statement] = case.outline.declared.get(name)
    if here.opening in MODES and case.procedure is not None:
        own = case.procedure.variable(name)
        if own is not None and own.statement.first < here.first:
            earlier = own.statement
    return f"{name} was declared in line {case.line(earlier.first)}: {earlier.text}" if earlier else None


def unknown_name(case: Case) -> Optional[str]:
    """What an unknown name was perhaps meant to be."""
    name, here = case.refusal.name, case.statement
    if name.upper() in KEYWORDS:
        return f"keywords are written in capitals: {name.upper()}"
    if name.upper() == "BOOLEAN":
        return "the type of truth values is BOOL"
    if name.upper() in _TYPES:
        return "a type is BOOL, a range as 0 .. 9, or a name that TYPE declares"
    later = case.outline.declared.get(name)
    if here is not None and later is not None and later.first >= here.first:
        return f"{name} is declared only in line {case.line(later.first)}, and is known after it"
    others = [each.name for each in case.outline.procedures if each is not case.procedure and each.variable(name)]
    if others:
        return f"{name} is a variable of PROC {others[0]} alone: each procedure declares its own"
    known = list(case.outline.declared) + [each.name for each in (case.procedure.variables if case.procedure else [])]
    near = [each for each in known if each.lower() == name.lower()] or difflib.get_close_matches(name, known, 1)
    return f"did you mean {near[0]}?" if near else None


def _variable(case: Case, name: str) -> Optional[Variable]:
    """The variable of that name in the procedure at fault."""
    return case.procedure.variable(name) if case.procedure else None


def _is_bool(case: Case, name: str) -> bool:
    """Whether the name is a variable of type BOOL."""
    variable = _variable(case, name)
    return variable is not None and variable.type_text == "BOOL"


def _has_condition(words: list[str], case: Case) -> bool:
    """Whether words speak of truth values: TRUE, FALSE, BOOL variables, or comparisons."""
    return any(word in RELATIONS | {"TRUE", "FALSE", "AND", "OR", "NOT"} or _is_bool(case, word) for word in words)


def number_to_bool(case: Case) -> Optional[str]:
    """A number assigned to a BOOL variable, or a condition to one of numbers."""
    statement = case.statement
    if statement is None or not statement.is_assignment():
        return None
    target, value = statement.words[0], statement.words[2:]
    if _is_bool(case, target) and not _has_condition(value, case):
        return f"{target} is BOOL: it takes TRUE, FALSE or a condition, as in {target} := x > 0;"
    variable = _variable(case, target)
    if variable is not None and not _is_bool(case, target) and _has_condition(value, case):
        return f"{target} is {variable.type_text}: a condition is assigned to a BOOL variable alone"
    return None


def equal_conditions(case: Case) -> Optional[str]:
    """`=` or `/=` between two conditions."""
    words = case.statement.words if case.statement else []
    for number, word in enumerate(words):
        if word not in ("=", "/="):
            continue
        sides = words[max(number - 1, 0) : number], words[number + 1 : number + 2]
        truths = [side for pair in sides for side in pair if side in ("TRUE", "FALSE", "NOT") or _is_bool(case, side)]
        if truths or _condition_beside(words, number):
            return "= compares numbers, not conditions: write b or NOT b, or (a AND b) OR (NOT a AND NOT b)"
    return None


def _condition_beside(words: list[str], number: int) -> bool:
    """Whether a comparison in parentheses stands just before or after the word of that number."""
    if words[number - 1 : number] == [")"]:
        begin = len(words[:number]) - 1 - words[:number][::-1].index("(") if "(" in words[:number] else 0
        return any(word in RELATIONS for word in words[begin:number])
    if words[number + 1 : number + 2] == ["("] and ")" in words[number:]:
        return any(word in RELATIONS for word in words[number + 1 : words.index(")", number)])
    return False


def number_as_condition(case: Case) -> Optional[str]:
    """A number where a condition is needed."""
    words = case.statement.words if case.statement else []
    if words[:1] and words[0] in ("IF", "ASSERT", "PRE", "POST", "EXIT") and not _has_condition(words[1:], case):
        return f"{words[0]} needs a condition, as in {words[0]}{' WHEN' if words[0] == 'EXIT' else ''} x /= 0;"
    return None


def kind_of_name(case: Case) -> Optional[str]:
    """A name of another kind than its place needs."""
    statement = case.statement
    if statement is None:
        return None
    declaring = statement.opening in MODES | {"TYPE", "CONST"}
    for token in statement.tokens[3 if declaring else 0 :]:
        declared = case.outline.declared.get(token.text) if token.kind is Kind.NAME else None
        if declared is None or _variable(case, token.text):
            if declaring and _variable(case, token.text):
                return f"{token.text} is a variable: a type is BOOL, a range between constants, or a declared name"
            continue
        kind = {"TYPE": "a type", "PROC": "a procedure", "CONST": "a constant"}[declared.opening]
        value = declared.opening == "TYPE" and names_declared(declared)[:1] != [token.text]
        if value and declaring:
            return f"{token.text} is a value of an enumeration: a range stands between numbers and constants"
        if not value and kind != "a constant" and not declaring:
            return f"{token.text} is {kind}, and has no value of its own"
    return None


def sides_of_enumerations(case: Case) -> Optional[str]:
    """Values of an enumeration beside others."""
    words = case.statement.words if case.statement else []
    for word in words:
        variable = _variable(case, word)
        declared = case.outline.declared.get(variable.type_text if variable else word)
        if declared is not None and declared.opening == "TYPE" and declared.words[3:4] == ["("]:
            name = names_declared(declared)[0]
            return f"{word} is of the enumeration {name}: it is assigned, and compared by = and /=, with values of {name}"
    return None


def wrong_mode(case: Case) -> Optional[str]:
    """Which variable is used against its mode."""
    statement = case.statement
    if statement is None:
        return None
    words = statement.words
    target = _variable(case, words[0]) if statement.is_assignment() else None
    if target is not None and target.mode is Mode.IN:
        return f"{target.name} is IN, so it is never assigned; declared as INOUT it can be"
    for before, word in zip(words, words[1:]):
        if before == "OLD":
            named = _variable(case, word)
            if named is not None and named.mode is not Mode.INOUT:
                return f"OLD is the first value of an INOUT variable, and {word} is {named.mode.value}"
    if "OLD" in words and words[0] not in ("PRE", "POST", "ASSERT"):
        return "OLD stands in PRE, POST and ASSERT alone: keep the first value in a LOCAL variable"
    barred = {"PRE": (Mode.OUT, Mode.LOCAL), "POST": (Mode.LOCAL,)}.get(words[0], ())
    variables = [_variable(case, word) for word in words[1:]]
    named = next((each for each in variables if each is not None and each.mode in barred), None)
    if named is None:
        return None
    allowed = "IN and INOUT" if words[0] == "PRE" else "IN, INOUT and OUT"
    return f"{named.name} is {named.mode.value}, and {words[0]} speaks of {allowed} variables"


def empty_range(case: Case) -> Optional[str]:
    """A range whose ends are the wrong way round."""
    return "a range is written least .. greatest; its ends are the wrong way round"


def too_wide(case: Case) -> Optional[str]:
    """An expression whose bounds are too large."""
    return "by its variables' ranges a part of this can leave 2^126: give the variables smaller ranges, or take it apart"


def too_many(case: Case) -> Optional[str]:
    """The limits of a text."""
    return "a text has at most 64 procedures, a procedure at most 1,000 lines and 64 variables and OLD copies"


def call_does_not_fit(case: Case) -> Optional[str]:
    """What a call must look like."""
    statement = case.statement
    called = case.outline.procedure(statement.words[1]) if statement and len(statement.words) > 1 else None
    if called is None:
        return None
    if case.procedure is not None and called.name == case.procedure.name:
        return "a procedure does not call itself"
    wanted = [f"{each.mode.value} {each.name}" for each in called.variables if each.mode is not Mode.LOCAL]
    told = ", ".join(wanted) or "none"
    return f"the parameters of {called.name} are {told}; what is INOUT or OUT takes a variable of its own"
