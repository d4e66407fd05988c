"""Takes a statement at fault out of a text, so that malpas tells what else is wrong.

What is taken out leaves a stand-in where other statements hang on it: an IF with a fault stays an IF. Where no stand-in
is safe, because other faults told would be the first one's shadow, there is none and the search ends.
"""

from __future__ import annotations

from dataclasses import dataclass, field
from typing import Optional

from assess_lib.blocks import CLOSERS, open_blocks
from assess_lib.case import Case
from assess_lib.hints_bytes import other_comment_end
from assess_lib.hints_forms import swallowed
from assess_lib.order import Sort, Stage, comes_later, first_break, sort_of
from assess_lib.outline import MODES, names_declared
from assess_lib.statements import Statement
from assess_lib.tokens import KEYWORDS, Kind

_KEPT = {
    "TITLE": "TITLE t;",
    "PRE": "PRE TRUE;",
    "POST": "POST TRUE;",
    "IF": "IF TRUE;",
    "ELSE": "ELSE;",
    "ENDIF": "ENDIF;",
    "LOOP": "LOOP;",
    "ENDLOOP": "ENDLOOP;",
    "ENDPROC": "ENDPROC;",
    "FINISH": "FINISH;",
    "WHILE": "LOOP;",
    "FOR": "LOOP;",
    "REPEAT": "LOOP;",
    "UNTIL": "ENDLOOP;",
}
_HOLDING = frozenset(("ELSIF", "ELSEIF", "ELIF"))


@dataclass(frozen=True)
class Mend:
    """A piece of a text, and what is put in its place."""

    first: int
    after: int
    text: str


@dataclass
class Lost:
    """The names and labels that the text no longer declares, since their declarations were taken out."""

    names: set[str] = field(default_factory=set)
    unread: bool = False

    def take(self, statement: Statement) -> None:
        """Notes what a statement that is taken out no longer declares; `unread` where its names can't be read."""
        names = names_declared(statement)
        if statement.opening in MODES | {"CONST"}:
            names += [each.text for each in statement.tokens[1:] if each.kind is Kind.NAME]
        if statement.opening == "LABEL":
            names += statement.words[1:2]
        declares = statement.opening in MODES | {"CONST", "TYPE", "LABEL"}
        self.unread = self.unread or (declares and not names_declared(statement) and statement.opening != "LABEL")
        self.names.update(names)

    def explains(self, case: Case) -> bool:
        """Whether a fault comes only from what was taken out."""
        if case.refusal.code == "E09":
            return self.unread or case.refusal.name in self.names
        words = case.statement.words if case.statement else []
        return case.refusal.code == "E07" and words[:1] == ["GOTO"] and words[1:2] != [] and words[1] in self.names


def _end_word(case: Case, statement: Statement) -> str:
    """What an END of another language stands for here."""
    second = statement.words[1].upper() if len(statement.words) > 1 else ""
    named = {"IF": "ENDIF;", "LOOP": "ENDLOOP;", "WHILE": "ENDLOOP;", "FOR": "ENDLOOP;", "PROC": "ENDPROC;"}
    opened = open_blocks(case.procedure.body, statement.first) if case.procedure else []
    closing = f"{CLOSERS[opened[-1].opening]};" if opened else "ENDPROC;"
    return named.get(second, closing)


def _stand_in(case: Case, statement: Statement) -> Optional[str]:
    """What stays of a statement, or None where nothing is safe."""
    word = statement.opening.upper() if statement.opening not in KEYWORDS else statement.opening
    if word in _HOLDING or statement.words[:2] == ["ELSE", "IF"]:
        return None
    if word == "END":
        return _end_word(case, statement)
    if word == "PROC":
        return f"PROC {_fresh(case)};"
    return _KEPT.get(word, "")


def _fresh(case: Case) -> str:
    """A name that the text has nowhere."""
    number = 1
    while f"taken_out_{number}" in case.text.letters:
        number += 1
    return f"taken_out_{number}"


def _without(case: Case, statement: Statement, lost: Lost) -> Optional[Mend]:
    """The text without that statement; up to where another begins, if it swallowed one."""
    text = _stand_in(case, statement)
    if text is None:
        return None
    goes_on = _goes_on(case, statement) if case.refusal.code == "E05" else None
    after = goes_on if goes_on is not None else statement.after
    if case.refusal.code != "E08":
        lost.take(statement)
    return Mend(statement.first, after, text)


def _goes_on(case: Case, statement: Statement) -> Optional[int]:
    """The place inside a statement from which on another one stands that is kept, where there is one."""
    found = swallowed(case, statement)
    if found is not None:
        return found.first
    tokens = statement.tokens
    for number, token in enumerate(tokens[1:], 1):
        behind = tokens[number + 1 :]
        procedure = token.text == "PROC" and len(behind) == 1 and behind[0].kind is Kind.NAME
        if procedure or (token.text in ("ENDPROC", "FINISH") and not behind):
            return token.first
    return None


def _bytes(case: Case, lost: Lost) -> Optional[Mend]:
    """At a byte above 127 or one that begins no token."""
    place, token = case.refusal.place, case.token
    if case.text.data[:3] == b"\xef\xbb\xbf" and place == 0:
        return Mend(0, 3, "")
    if token is not None and token.kind is Kind.COMMENT:
        plain = "".join(letter if letter < "\x80" else "?" for letter in token.text)
        return Mend(token.first, token.after, plain)
    if token is not None and token.text[0] == "[":
        return None
    foreign = other_comment_end(case.text.letters, place)
    if foreign > place:
        return Mend(place, foreign, "")
    if token is not None and token.text == "]":
        before = [each for each in case.tokens if each.kind is Kind.COMMENT and each.after <= place]
        return Mend(before[-1].after if before else place, place + 1, "")
    return _without(case, case.statement, lost) if case.statement else None


def _order(case: Case, lost: Lost) -> Optional[Mend]:
    """At a break of the order: what is missing is put in, what is too much is taken out."""
    broken = first_break(case.statements)
    place = broken.statement.first if broken.statement else len(case.text.letters)
    sort = sort_of(broken.statement) if broken.statement else None
    if broken.stage is Stage.FINISHED:
        return Mend(place, len(case.text.letters), "")
    if broken.statement is None and broken.stage in (Stage.BODY, Stage.BETWEEN):
        return Mend(place, place, " FINISH;" if broken.stage is Stage.BETWEEN else " ENDPROC; FINISH;")
    if sort is Sort.HEAD and broken.stage is not Stage.START:
        return _taken_out(broken.statement, lost)
    if broken.stage in (Stage.HEAD, Stage.BETWEEN) and sort in (Sort.VARIABLE, Sort.PRE):
        return Mend(place, place, f"PROC {_fresh(case)}; ")
    awaited = {Stage.VARIABLES: Sort.PRE, Stage.AFTER_PRE: Sort.POST}.get(broken.stage)
    if sort is Sort.VARIABLE or (awaited is not None and comes_later(case.statements, broken, awaited)):
        return _taken_out(broken.statement, lost)
    missing = {
        (Stage.START, sort): "TITLE t; ",
        (Stage.VARIABLES, Sort.POST): "PRE TRUE; ",
        (Stage.VARIABLES, Sort.BODY): "PRE TRUE; POST TRUE; ",
        (Stage.VARIABLES, Sort.ENDPROC): "PRE TRUE; POST TRUE; ",
        (Stage.AFTER_PRE, Sort.BODY): "POST TRUE; ",
        (Stage.AFTER_PRE, Sort.ENDPROC): "POST TRUE; ",
        (Stage.BODY, Sort.PROC): "ENDPROC; ",
        (Stage.BODY, Sort.FINISH): "ENDPROC; ",
    }.get((broken.stage, sort))
    if missing is not None and broken.statement is not None:
        return Mend(place, place, missing)
    return _taken_out(broken.statement, lost) if sort in (Sort.TITLE, Sort.PRE, Sort.POST) else None


def _taken_out(statement: Optional[Statement], lost: Lost) -> Optional[Mend]:
    """The text without a statement on which no other hangs but by its names."""
    if statement is None:
        return None
    lost.take(statement)
    return Mend(statement.first, statement.after, "")


def _blocks(case: Case, lost: Lost) -> Optional[Mend]:
    """At an unmatched block or label: what is missing is put in where an outer block shows that it is missing."""
    statement, procedure = case.statement, case.procedure
    if statement is None or procedure is None:
        return None
    opened = open_blocks(procedure.body, statement.first)
    if statement.opening == "ENDPROC":
        closing = "".join(f"{CLOSERS[each.opening]}; " for each in reversed(opened))
        return Mend(statement.first, statement.first, closing) if closing else None
    wanted = {"ENDIF": "IF", "ELSE": "IF", "ENDLOOP": "LOOP"}.get(statement.opening)
    inside = [each.opening for each in opened]
    if wanted in inside and inside[-1] != wanted:
        last = len(inside) - 1 - inside[::-1].index(wanted)
        closing = "".join(f"{CLOSERS[each]}; " for each in reversed(inside[last + 1 :]))
        return Mend(statement.first, statement.first, closing)
    return _taken_out(statement, lost)


def mend_of(case: Case, lost: Lost) -> Optional[Mend]:
    """What to put in place of the fault so that other faults can be told, or None where nothing is safe."""
    code = case.refusal.code
    if code in ("E01", "E14", "E17"):
        return None
    if code in ("E02", "E03"):
        return _bytes(case, lost)
    if code == "E06":
        return _order(case, lost)
    if code == "E07":
        return _blocks(case, lost)
    return _without(case, case.statement, lost) if case.statement else None
