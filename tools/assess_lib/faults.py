"""All faults of a refused text that can be told at once: the first, and those told after it was taken out."""

from __future__ import annotations

from dataclasses import dataclass, field
from typing import Callable, Optional

from assess_lib.case import Case, MendedText
from assess_lib.hints import hints_of
from assess_lib.mend import Lost, mend_of
from assess_lib.program import Outcome
from assess_lib.report import Refusal
from assess_lib.report_reader import read_refusal
from assess_lib.source import Position, SourceText

MOST_FAULTS = 20
_MOST_RUNS = 100


@dataclass(frozen=True)
class Fault:
    """A fault as it is told: where it stands in the file, the statement, and hints. `further` is all but the first."""

    refusal: Refusal
    position: Position
    statement: str
    hints: list[str]
    further: bool


@dataclass
class Faults:
    """The faults of a text, and whether the search for more was given up before it came to an end."""

    told: list[Fault] = field(default_factory=list)
    given_up: str = ""


def _fault(case: Case, further: bool) -> Fault:
    """The fault of a case."""
    return Fault(case.refusal, case.text.position(case.refusal.place), _statement(case), hints_of(case), further)


def _statement(case: Case) -> str:
    """The statement at fault on one line, as it is written; nothing where the fault lies in bytes or a comment."""
    statement = case.statement
    if statement is None or case.refusal.code in ("E01", "E02") or case.letter in ("[", "]"):
        return ""
    return " ".join(case.text.letters[statement.first : statement.after].split())


def find_faults(source: SourceText, first: Refusal, run: Callable[[bytes], Outcome]) -> Faults:
    """The faults of a text whose first refusal is known; `run` runs malpas on the text without what was taken out."""
    found, lost = Faults(), Lost()
    text = MendedText(source)
    refusal: Optional[Refusal] = first
    seen: set[tuple[str, int]] = set()
    for _ in range(_MOST_RUNS):
        if refusal is None:
            return found
        case = Case(text.copy(), refusal)
        mark = (refusal.code, text.origin(refusal.place))
        if mark in seen:
            found.given_up = "the fault told next comes from what was taken out"
            return found
        seen.add(mark)
        if not lost.explains(case):
            found.told.append(_fault(case, bool(found.told)))
        if len(found.told) == MOST_FAULTS:
            found.given_up = f"no more than {MOST_FAULTS} faults are told"
            return found
        mend = mend_of(case, lost)
        if mend is None:
            found.given_up = "nothing could safely be put in place of the last fault"
            return found
        text.replace(mend.first, mend.after, mend.text)
        refusal = read_refusal(run(text.data).output)
    found.given_up = "the search for more took too long"
    return found

