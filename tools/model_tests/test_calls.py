"""Texts with calls: their refusals, their expansions and reports, and runs of the stack machine beside them."""

from __future__ import annotations

import random
import unittest
from collections import Counter
from dataclasses import dataclass, replace
from functools import cache
from pathlib import Path
from typing import Iterator

from model.accepting import accept, written
from model.calling import calls_of, check_fit, check_sizes
from model.command import answer, deeply
from model.comparing import Answer, difference
from model.exhaustive import faults_of
from model.expanding import expanded
from model.graphs import control_of, graph_of
from model.inventing_calls import invented_calls
from model.lexing import tokens_of
from model.ordering import BODY
from model.parsing import statements_of
from model.program import CheckedProcedure, CheckedText, Line, Origin, Span
from model.refusal import Refused
from model.slipping import slipped
from model.stacking import Halt, run
from model.straining import strained
from model.straying import Trial, random_state, strays, strays_of
from model.usage import places_in
from model_tests import worked
from model_tests.call_rows import ROWS
from model_tests.call_runs import RUNS, Run

EXAMPLES = Path(__file__).resolve().parents[2] / "examples"
TRIED = 300
"""How many random texts are tried."""


FORMS = (BODY - {"CALL"}) | {"PRE", "ENDPROC"}
"""The forms of lines without calls."""

KINDS = {
    (1, "OUTSIDE", "PRE"),
    (1, "RANGE", "CALL"),
    (1, "DIVZERO", "CALL"),
    (1, "END", "ENDPROC"),
    (1, "POST", "ENDPROC"),
    (2, "ASSERT", "PRE"),
    (2, "RANGE", "ASSIGN"),
    (2, "DIVZERO", "ASSIGN"),
    (2, "ASSERT", "ASSERT"),
    (2, "ASSERT", "ENDPROC"),
    (2, "RANGE", "ENDPROC"),
    (3, "RANGE", "ASSIGN"),
}
"""How deep a stack is, at most 3, the halt, and the form of the line at which the last frame stands."""


def refusal_of(text: bytes) -> tuple[str, int, str]:
    """The refusal of a text with calls: its code, its byte, and its name or limit."""
    try:
        accept(text)
    except Refused as refused:
        return refused.code, refused.place, refused.detail
    return "", 0, ""


@dataclass(frozen=True)
class Invented:
    """A random text that is accepted, as it is written and expanded."""

    name: str
    text: bytes
    written: CheckedText
    expanded: CheckedText


@cache
def invented() -> list[Invented]:
    """The random texts with calls that are accepted."""
    found = []
    for seed in range(TRIED):
        text = invented_calls(seed)
        try:
            checked = written(text)
        except Refused:
            continue
        found.append(Invented(f"text {seed}", text, checked, expanded(checked)))
    return found


class Refusals(unittest.TestCase):
    """Which texts with calls are refused."""

    def test_rows(self) -> None:
        """Each rule refused, and beside it a text that it lets pass."""
        for row in ROWS:
            with self.subTest(row.words):
                self.assertEqual(deeply(refusal_of, row.text.encode("ascii")), (row.code, row.place, row.detail))

    def test_lines(self) -> None:
        """The lines that are written for refusals."""
        called = worked.COPY.replace(b"d := a;", b"CALL q;")
        self.assertEqual(answer(called), ("malpas: E09 at byte 108: name unknown: q\n", 2))
        for call in (b"CALL p (x);", b"CALL inc;"):
            text = worked.CALL_INC.replace(b"CALL inc (x);", call)
            self.assertEqual(answer(text), ("malpas: E16 at byte 137: call does not fit\n", 2))

    def test_slips(self) -> None:
        """Every text with slips, and every text at a limit, has an answer."""
        met = {refusal_of(slipped(seed, True))[0] for seed in range(400)}
        self.assertLessEqual({"", "E05", "E08", "E09", "E10", "E11", "E16"}, met)
        self.assertLessEqual({"", "E14", "E16"}, {refusal_of(strained(seed, True))[0] for seed in range(30)})


    def test_brought_names(self) -> None:
        """A variable with the new name of a place is refused at the call that brings it; of two the place that stands first."""
        tried = 0
        for one in invented():
            text = one.text.decode("ascii")
            for procedure in one.expanded.procedures:
                names = [place.name for place in procedure.places if place.name[0] in "co"]
                if not names:
                    continue
                tried += 1
                taken = random.Random(one.name).sample(names, min(2, len(names)))
                begin = text.index("PRE", text.index(f"PROC {procedure.name};"))
                changed_text = text[:begin] + "".join(f"LOCAL {name} : BOOL;" for name in taken) + text[begin:]
                first = min(taken, key=names.index)
                place = begin
                for _ in range(int(first[1 : first.index("_")])):
                    place = changed_text.index("CALL ", place + 1)
                self.assertEqual(refusal_of(changed_text.encode("ascii")), ("E08", place, first))
        self.assertGreater(tried, 100)

    def test_counted(self) -> None:
        """The lines, places and names that the limits count are those of the expansion."""
        for text in [*(one.text for one in invented()[:100]), *(strained(seed, True) for seed in range(30))]:
            if refusal_of(text)[0]:
                continue
            statements = statements_of(tokens_of(text))
            calls = calls_of(statements)
            check_sizes(statements, calls)
            check_fit(statements, calls)
            counted = [(shape.lines, shape.places, shape.longest) for shape in calls.shapes.values()]
            self.assertEqual(counted, [sizes_of(procedure) for procedure in accept(text).procedures])


def sizes_of(procedure: CheckedProcedure) -> tuple[int, int, int]:
    """How many lines and places a procedure has, and how long the longest name of a place is."""
    return len(procedure.lines), len(procedure.places), max((len(place.name) for place in procedure.places), default=0)


class Expansions(unittest.TestCase):
    """What calls become."""

    def test_worked(self) -> None:
        """The places, lines, origins and spans of a procedure with one call."""
        found = accept(worked.CALL_INC).procedures[1]
        places = [(place.text(), place.mode, place.least, place.greatest) for place in found.places]
        self.assertEqual(places, worked.CALL_INC_PLACES)
        self.assertEqual([(line.form, line.place) for line in found.lines], worked.CALL_INC_LINES)
        self.assertEqual([(origin.procedure, origin.line) for origin in found.origins], worked.CALL_INC_ORIGINS)
        self.assertEqual(found.spans, [Span(1, 6, "inc")])

    def test_names(self) -> None:
        """Places of calls in calls stand call by call, before the OLD copies of the procedure that is called."""
        found = accept(worked.CALL_OUTER).procedures[2]
        self.assertEqual([place.text() for place in found.places], worked.CALL_OUTER_PLACES)
        self.assertEqual(found.spans, [Span(1, 6, "inc"), Span(7, 18, "outer")])
        self.assertEqual([place.wrap for place in found.places if "v" in place.name], [True] * 4)

    def test_whole(self) -> None:
        """Expansions are checked procedures: their names differ, their copies stand last, and their lines name lines and places."""
        for one in invented():
            for procedure in one.expanded.procedures:
                names = [place.name for place in procedure.places if not place.old]
                self.assertEqual(len(names), len(set(names)))
                copies = [place.name for place in procedure.places if place.old]
                self.assertEqual(copies, [place.name for place in procedure.places[: len(names)] if place.mode == "INOUT"])
                self.assertEqual([place.old for place in procedure.places], [False] * len(names) + [True] * len(copies))
                self.assertEqual(len(procedure.origins), len(procedure.lines))
                for line in procedure.lines:
                    self.assertIn(line.form, FORMS)
                    self.assertLess(-1 if line.target is None else line.target, len(procedure.lines))
                    places = places_in(line.expression) | ({line.place} if line.place is not None else set())
                    self.assertLess(max(places, default=-1), len(procedure.places))

    def test_own_lines(self) -> None:
        """A text without calls is its own expansion."""
        found = accept(worked.SUM).procedures[0]
        self.assertEqual((found.spans, found.origins), ([], [Origin(0, line) for line in range(len(found.lines))]))

    def test_report(self) -> None:
        """The lines of the calls stand before the sections, and the report is that of the expansion."""
        output, status = answer(worked.CALL_INC)
        self.assertEqual(status, 1)
        for part in worked.CALL_INC_PARTS:
            self.assertIn("\n" + part, output)

    def test_example(self) -> None:
        """The report of a text with three calls."""
        text = (EXAMPLES / "voted_trip.mal").read_bytes()
        self.assertEqual(answer(text), ((EXAMPLES / "voted_trip.report").read_text("ascii"), 0))

    def test_two_entries(self) -> None:
        """A loop with two entries in a called procedure is told in the caller too, and which paths are shown is free."""
        output, status = answer(worked.CALL_TWO_ENTRIES)
        self.assertIn("\nPROCEDURE q LINES 15\nEXPANDED L1 L13 p\nCONTROL\n", output)
        self.assertEqual(output.count("SHAPE TWO ENTRIES"), 2)
        same = Answer(output, status)
        self.assertIsNone(difference(worked.CALL_TWO_ENTRIES, same, same, set()))
        other = Answer(output.replace("EXPANDED L1 L13", "EXPANDED L1 L12"), status)
        self.assertIsNotNone(difference(worked.CALL_TWO_ENTRIES, other, same, set()))


class Runs(unittest.TestCase):
    """The stack machine, and the expansion beside it."""

    def assert_run(self, one: Run) -> None:
        """The stack machine halts as it is said, and the expansion runs alike from any values of the places that it brings."""
        text = written(one.text.encode("ascii"))
        number = len(text.procedures) - 1
        stack, halt = run(text, number, one.start)
        self.assertEqual(halt, Halt(one.halt, None if one.at is None else Origin(*one.at)))
        self.assertEqual(stack[0].values, one.end)
        trial = Trial(text, expanded(text))
        for seed in range(3):
            brought = random_state(random.Random(seed), trial.expanded.procedures[number])[len(one.start) :]
            self.assertEqual(list(strays(trial, number, one.start + brought, 1000)), [])

    def test_worked(self) -> None:
        """Faults of each part of a call, what is handed back, and calls in calls."""
        for one in RUNS:
            with self.subTest(one.words):
                self.assert_run(one)

    def test_invented(self) -> None:
        """The expansions of random texts run as the stack machine does."""
        called = 0
        for one in invented():
            called += any(procedure.spans for procedure in one.expanded.procedures)
            with self.subTest(one.name):
                self.assertEqual(strays_of(one.written, one.name, 5), [])
        self.assertGreater(called, TRIED // 2)

    def test_variety(self) -> None:
        """The random texts have calls in loops and in calls, and callees with RETURN, OLD, ranges that wrap and loops."""
        met: Counter[str] = Counter()
        for one in invented():
            for procedure, short in zip(one.expanded.procedures, one.written.procedures):
                met.update(traits_of(one.written, procedure, short))
        for trait in ("in a loop", "in a call", "RETURN", "OLD", "WRAP", "LOOP"):
            self.assertGreater(met[trait], 10, trait)

    def test_kinds(self) -> None:
        """Runs of the random texts halt in each part of a call, and in calls of calls."""
        met = set()
        for one in invented():
            choice = random.Random(one.name)
            for number, procedure in enumerate(one.written.procedures):
                for _ in range(5):
                    stack, halt = run(one.written, number, random_state(choice, procedure), 300)
                    last = stack[-1]
                    if halt is not None:
                        form = one.written.procedures[last.procedure].lines[last.line].form
                        met.add((min(len(stack), 3), halt.name, form))
        self.assertLessEqual(KINDS, met)

    def test_every_input(self) -> None:
        """Every input of small expanded procedures takes one row, and stepping gives its stop and values."""
        for seed in range(40):
            with self.subTest(seed):
                self.assertEqual(faults_of(accept(invented_calls(seed)), 300), [])

    def test_wrong_expansions(self) -> None:
        """An expansion with one kind of fault strays from the stack machine."""
        for change in (without_copies, with_late_origins, with_far_returns, without_back, without_least):
            with self.subTest(change.__name__):
                self.assertTrue(any(strays_from(one.written, change(one.expanded)) for one in invented()))


def traits_of(text: CheckedText, procedure: CheckedProcedure, short: CheckedProcedure) -> Iterator[str]:
    """What the calls of a procedure have, which is given expanded and as it is written."""
    loops = control_of(procedure, graph_of(procedure)).loops
    if any(span.first in loop.members for span in procedure.spans for loop in loops):
        yield "in a loop"
    for number in {line.callee for line in short.lines if line.callee is not None}:
        callee = text.procedures[number]
        forms = {line.form for line in callee.lines}
        yield from forms & {"RETURN", "LOOP"}
        if "CALL" in forms:
            yield "in a call"
        if any(place.wrap for place in callee.places):
            yield "WRAP"
        if any(callee.places[place].old for line in callee.lines for place in places_in(line.expression)):
            yield "OLD"


def strays_from(text: CheckedText, expansion: CheckedText) -> bool:
    """Whether an expansion strays from the stack machine at one of its procedures with calls."""
    trial = Trial(text, expansion)
    choice = random.Random(0)
    for number, procedure in enumerate(expansion.procedures):
        for _ in range(5 if procedure.spans else 0):
            if any(strays(trial, number, random_state(choice, procedure), 300)):
                return True
    return False


def changed(text: CheckedText, change) -> CheckedText:
    """An expansion in which each line is changed, by its procedure and number."""
    procedures = []
    for procedure in text.procedures:
        lines = [change(procedure, number) for number in range(len(procedure.lines))]
        procedures.append(replace(procedure, lines=lines))
    return CheckedText(text.title, text.profile, procedures)


def assigns(procedure, number: int, mark: str) -> bool:
    """Whether a line assigns a place whose name begins so; LOCAL variables that are brought begin with c or o."""
    place = procedure.lines[number].place
    return place is not None and procedure.places[place].name.startswith(mark)


def without_copies(text: CheckedText) -> CheckedText:
    """OLD copies keep what they had before the call."""
    return changed(text, lambda procedure, n: Line("SKIP") if assigns(procedure, n, "o") else procedure.lines[n])


def without_back(text: CheckedText) -> CheckedText:
    """The last line of a call hands nothing back."""

    def change(procedure, number: int) -> Line:
        """A line of an expansion."""
        back = any(span.last == number for span in procedure.spans)
        return Line("SKIP") if back and procedure.lines[number].form == "ASSIGN" else procedure.lines[number]

    return changed(text, change)


def without_least(text: CheckedText) -> CheckedText:
    """The first line of a call gives no value."""

    def change(procedure, number: int) -> Line:
        """A line of an expansion."""
        first = any(span.first == number for span in procedure.spans)
        return Line("SKIP") if first and procedure.lines[number].form == "ASSIGN" else procedure.lines[number]

    return changed(text, change)


def with_far_returns(text: CheckedText) -> CheckedText:
    """RETURN and GOTO in a called procedure leave the caller."""

    def change(procedure, number: int) -> Line:
        """A line of an expansion."""
        inside = any(span.first <= number <= span.last for span in procedure.spans)
        line = procedure.lines[number]
        return replace(line, target=len(procedure.lines) - 1) if inside and line.form == "GOTO" else line

    return changed(text, change)


def with_late_origins(text: CheckedText) -> CheckedText:
    """The origins of called lines are one line late."""
    procedures = []
    for number, procedure in enumerate(text.procedures):
        moved = [o if o.procedure == number else Origin(o.procedure, o.line + 1) for o in procedure.origins]
        procedures.append(replace(procedure, origins=moved))
    return CheckedText(text.title, text.profile, procedures)


if __name__ == "__main__":
    unittest.main()
