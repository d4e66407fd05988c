"""Hints on statements that stand out of order, and on blocks and labels that match nothing."""

from __future__ import annotations

import difflib
from typing import Optional

from assess_lib.blocks import CLOSERS, open_blocks
from assess_lib.case import Case
from assess_lib.order import Broken, Sort, Stage, comes_later, first_break, sort_of
from assess_lib.statements import Statement


def _open_procedure(case: Case, broken: Broken) -> str:
    """The procedure that is open, with its line."""
    opened = broken.procedure
    return f"{' '.join(opened.words)} of line {case.line(opened.first)}" if opened else "the procedure"


def _ended(case: Case, broken: Broken) -> str:
    """What is missing where the statements end too early."""
    if broken.stage is Stage.START:
        return "a text begins with TITLE name; and ends with FINISH;"
    if broken.stage is Stage.HEAD:
        return "the text ends before its first PROC name;"
    if broken.stage is Stage.BETWEEN:
        return "the text ends before FINISH;"
    return f"the text ends before the ENDPROC; of {_open_procedure(case, broken)}"


def out_of_order(case: Case) -> Optional[str]:
    """What the order of statements asks for where it breaks."""
    broken = first_break(case.statements)
    if broken.statement is None:
        return _ended(case, broken)
    sort = sort_of(broken.statement)
    if broken.stage is Stage.START:
        return "a text begins with TITLE name;"
    if broken.stage is Stage.FINISHED:
        return "FINISH; is the last statement: nothing stands behind it"
    if broken.stage is Stage.VARIABLES:
        return _before_pre(case, broken, sort)
    if broken.stage is Stage.AFTER_PRE and comes_later(case.statements, broken, Sort.POST):
        return "between PRE and POST stands nothing"
    if broken.stage is Stage.AFTER_PRE:
        missing = "PRE condition; is followed by POST condition; and POST is missing here"
        return "variables are declared before PRE" if sort is Sort.VARIABLE else missing
    if broken.stage is Stage.BODY:
        return _in_body(case, broken, sort)
    return _outside(broken, sort)


def _before_pre(case: Case, broken: Broken, sort: Sort) -> str:
    """What is missing among the variables of a procedure."""
    if comes_later(case.statements, broken, Sort.PRE) and sort is not Sort.HEAD:
        return "before PRE stand the variables of the procedure alone"
    if sort is Sort.POST:
        return "PRE is missing: PRE condition; stands before POST condition;"
    if sort is Sort.HEAD:
        return "constants and types are declared before the first procedure"
    return f"PRE and POST are missing in {_open_procedure(case, broken)}: PRE TRUE; POST TRUE; ask for nothing"


def _in_body(case: Case, broken: Broken, sort: Sort) -> str:
    """What is wrong in a procedure's body."""
    if sort in (Sort.PROC, Sort.FINISH, Sort.TITLE):
        return f"the ENDPROC; of {_open_procedure(case, broken)} is missing; procedures do not nest"
    if sort is Sort.VARIABLE:
        return "variables are declared before PRE, at the head of their procedure"
    if sort is Sort.HEAD:
        return "constants and types are declared before the first procedure"
    return f"a procedure has one {sort.value}, before its body"


def _outside(broken: Broken, sort: Sort) -> str:
    """What is wrong outside all procedures."""
    if sort is Sort.FINISH:
        return "a text has at least one procedure"
    if sort is Sort.TITLE:
        return "a text has one TITLE"
    if sort is Sort.HEAD:
        return "constants and types are declared before the first procedure"
    return "this stands in no procedure: PROC name; is missing, or the procedure before ended too early"


def _told(case: Case, statement: Statement) -> str:
    """A block with the line that opened it."""
    return f"the {statement.opening} of line {case.line(statement.first)}"


def unmatched_block(case: Case) -> Optional[str]:
    """Which block is open where an ELSE, ENDIF, ENDLOOP, EXIT or ENDPROC fits none."""
    statement, procedure = case.statement, case.procedure
    if statement is None or procedure is None:
        return None
    opened = open_blocks(procedure.body, statement.first)
    inner = opened[-1] if opened else None
    word = statement.opening
    if word == "ENDPROC" and inner:
        return f"{_told(case, inner)} is not closed by {CLOSERS[inner.opening]};"
    if word == "EXIT":
        return "EXIT stands in no LOOP; a procedure is left by RETURN;"
    if word not in ("ELSE", "ENDIF", "ENDLOOP"):
        return None
    if inner is None:
        return f"no block is open here for {word} to close"
    if word == "ELSE" and inner.opening == "IF":
        return f"{_told(case, inner)} has an ELSE already"
    return f"{_told(case, inner)} is open here, and is closed by {CLOSERS[inner.opening]};"


def unmatched_label(case: Case) -> Optional[str]:
    """A label that stands twice, or a GOTO to none."""
    statement, procedure = case.statement, case.procedure
    if statement is None or procedure is None or len(statement.words) < 2:
        return None
    labels = [each for each in procedure.body if each.opening == "LABEL" and len(each.words) > 1]
    name = statement.words[1]
    if statement.opening == "LABEL":
        earlier = next((each for each in labels if each.words[1] == name), None)
        return f"the label {name} stands in line {case.line(earlier.first)} already" if earlier else None
    if statement.opening != "GOTO":
        return None
    names = [each.words[1] for each in labels]
    near = difflib.get_close_matches(name, names, 1)
    told = f"did you mean {near[0]}?" if near else f"its labels are {', '.join(names)}" if names else "it has no label"
    return f"a GOTO names a LABEL of its own procedure; {told}"
