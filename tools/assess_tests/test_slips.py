"""Texts with usual slips: what is told of each, where, and by which hint."""

from __future__ import annotations

import io
import os
import unittest
from pathlib import Path

from assess_lib.analysis import analyse, read_source, understood
from assess_lib.check import tell
from assess_lib.program import Outcome, Program
from assess_lib.source import SourceText
from assess_tests.recorded import HERE, Recorded

Told = tuple[int, int, str, str]
"""Line, column, code and a piece of a hint; an empty piece asks for no hint."""

SLIPS: dict[str, list[Told]] = {
    "angle_brackets": [(5, 1, "E05", "not equal is written /="), (8, 1, "E05", "not equal is written /=")],
    "byte_order_mark": [(1, 1, "E02", "byte-order mark"), (7, 1, "E09", "did you mean rate?")],
    "call_arguments": [
        (14, 1, "E05", "the arguments stand in parentheses"),
        (15, 1, "E05", "CALL clamp;"),
        (16, 1, "E05", "CALL clamp ( .. );"),
    ],
    "chained_comparison": [(5, 1, "E05", "comparisons do not chain")],
    "comments_of_c": [(1, 13, "E03", "a comment is written [ .. ]"), (4, 11, "E03", "a comment is written [ .. ]")],
    "cut_in_a_statement": [(11, 1, "E05", "ends before the ;"), (11, 7, "E06", "before the ENDPROC; of PROC p of line 2")],
    "cut_off": [(7, 1, "E05", "ends before the ;"), (8, 1, "E06", "before the ENDPROC; of PROC run of line 2")],
    "digit_first": [(3, 1, "E05", "2wish is none"), (7, 1, "E05", "2wish is none")],
    "else_if": [(9, 1, "E05", "ELSE; is a statement of its own")],
    "empty_range": [(2, 1, "E12", "the wrong way round")],
    "end_missing": [
        (7, 1, "E06", "the ENDPROC; of PROC first of line 2 is missing"),
        (12, 1, "E06", "the ENDPROC; of PROC second of line 7"),
        (11, 1, "E09", ""),
    ],
    "equals_between_conditions": [(line, 1, "E10", "= compares numbers, not conditions") for line in (7, 8, 9)],
    "equals_for_assignment": [(7, 1, "E05", "written with :="), (9, 1, "E05", "written with :=")],
    "exit_without_when": [(9, 1, "E05", "EXIT WHEN condition;"), (12, 1, "E07", "stands in no LOOP")],
    "fractions": [(2, 17, "E03", "numbers are whole"), (9, 17, "E03", "numbers are whole")],
    "labels": [
        (8, 1, "E07", "stands in line 6 already"),
        (10, 1, "E07", "did you mean again?"),
        (12, 1, "E07", "its labels are again"),
        (13, 1, "E07", "no block is open"),
    ],
    "large_numbers": [(2, 14, "E04", "9223372036854775807"), (8, 1, "E13", "2^126")],
    "late_declaration": [
        (6, 1, "E06", "before PRE"),
        (9, 1, "E06", "before the first procedure"),
        (10, 1, "E06", "one PRE, before its body"),
    ],
    "many_faults": [(line, 1, "E05", "written with :=") for line in range(6, 26)],
    "missing_semicolon": [
        (7, 1, "E05", "missing after wish in line 7: the statement goes on with IF"),
        (10, 1, "E05", "missing after ENDIF in line 10"),
    ],
    "names_and_modes": [
        (9, 1, "E08", "declared in line 2: CONST limit = 9;"),
        (10, 1, "E08", "declared in line 6"),
        (7, 1, "E09", "did you mean litres?"),
        (16, 1, "E09", ""),
        (14, 1, "E10", "of the enumeration state"),
        (15, 1, "E10", "needs a condition"),
        (11, 1, "E11", "pump is OUT"),
        (12, 1, "E11", "wish is IN"),
        (13, 1, "E11", "never assigned"),
    ],
    "nested_comment": [(4, 36, "E03", "comments do not nest: the comment of line 4"), (8, 1, "E09", "")],
    "no_title": [(1, 1, "E06", "begins with TITLE name;"), (8, 1, "E06", "nothing stands behind it")],
    "number_to_bool": [
        (8, 1, "E10", "alarm is BOOL"),
        (9, 1, "E10", "a BOOL variable alone"),
        (10, 1, "E10", "IF needs a condition"),
        (11, 1, "E10", "alarm is BOOL"),
    ],
    "post_missing": [(6, 1, "E06", "POST is missing here")],
    "pre_and_post_missing": [(5, 1, "E06", "PRE and POST are missing in PROC run of line 2"), (6, 1, "E09", "")],
    "pre_missing": [(5, 1, "E06", "PRE is missing"), (6, 1, "E09", "did you mean wish?")],
    "several_names": [(3, 1, "E05", "one declaration has one name: write IN wish ..;")],
    "signed_inside": [
        (7, 1, "E05", "3 * (-1)"),
        (8, 1, "E05", "no powers"),
        (9, 1, "E05", "1 opening and 0 closing parentheses"),
        (10, 1, "E05", "x := x + 1;"),
        (11, 1, "E05", "RETURN has no value"),
    ],
    "signs_of_c": [
        (6, 10, "E03", "not equal is written /="),
        (8, 14, "E03", "written MOD"),
        (9, 13, "E03", "written AND"),
        (10, 14, "E03", "written DIV"),
        (12, 4, "E03", "written NOT"),
    ],
    "small_keywords": [(8, 1, "E05", "capitals: IF, AND"), (10, 1, "E05", "capitals: ENDIF")],
    "small_truth_values": [(4, 1, "E09", "capitals: TRUE"), (6, 1, "E09", "capitals: FALSE")],
    "then_in_if": [(7, 1, "E05", "IF has no THEN"), (9, 1, "E05", "missing after ELSE in line 9")],
    "umlaut": [(3, 4, "E02", "latin small letter o with diaeresis"), (7, 9, "E02", "less-than or equal to")],
    "unclosed_block": [
        (12, 1, "E07", "the IF of line 10 is open here, and is closed by ENDIF;"),
        (15, 1, "E07", "the IF of line 13 is not closed by ENDIF;"),
    ],
    "unclosed_comment": [(4, 1, "E03", "this comment is not closed")],
    "while_loop": [(8, 1, "E05", "the one loop is LOOP;"), (10, 1, "E05", "blocks end with"), (11, 1, "E09", "")],
}


class Slips(unittest.TestCase):
    """Each text with slips is told of as its row says."""

    def test_each_text_has_a_row(self) -> None:
        """No text is left out."""
        self.assertEqual(sorted(SLIPS), sorted(path.stem for path in (HERE / "slips").glob("*.mal")))

    def test_slips(self) -> None:
        """Places, codes and hints; only the first fault is told without the mark of a further one."""
        recorded = Recorded()
        for name, rows in SLIPS.items():
            with self.subTest(name):
                found = analyse(name, read_source(str(HERE / "slips" / f"{name}.mal")), recorded)
                told = found.faults.told if found.faults else []
                places = [(fault.position.line, fault.position.column, fault.refusal.code) for fault in told]
                self.assertEqual(places, [told_row[:3] for told_row in rows])
                for fault, wanted in zip(told, rows):
                    hints = "; ".join(fault.hints)
                    self.assertIn(wanted[3], hints)
                    self.assertEqual(bool(wanted[3]), bool(hints), hints)
                self.assertEqual([fault.further for fault in told], [number > 0 for number in range(len(told))])

    def test_most_faults(self) -> None:
        """No more than twenty faults of a file are told, and that is said."""
        found = analyse("many.mal", read_source(str(HERE / "slips" / "many_faults.mal")), Recorded())
        self.assertEqual(found.faults and found.faults.given_up, "no more than 20 faults are told")

    def test_call_that_does_not_fit(self) -> None:
        """The hint at a call tells the parameters."""
        text = (
            "TITLE t;\nPROC inc;\nIN by : 0 .. 9;\nINOUT v : 0 .. 9;\nLOCAL w : BOOL;\nPRE TRUE;\nPOST TRUE;\nENDPROC;\n"
            "PROC p;\nINOUT x : 0 .. 5;\nPRE TRUE;\nPOST TRUE;\nCALL inc (x);\nENDPROC;\nFINISH;\n"
        )
        line = f"malpas: E16 at byte {text.index('CALL')}: call does not fit\n"
        found = understood("t.mal", SourceText(text.encode()), Outcome(2, line), None)
        assert found.faults is not None
        self.assertIn("the parameters of inc are IN by, INOUT v", found.faults.told[0].hints[0])

    def test_printed_as_compilers_do(self) -> None:
        """The lines of a fault: place and code, source, caret, statement, hint; nothing on standard output."""
        source = read_source(str(HERE / "slips" / "fractions.mal"))
        out, errors = io.StringIO(), io.StringIO()
        status = tell(analyse("a b.mal", source, Recorded()), out, errors)
        lines = errors.getvalue().split("\n")
        self.assertEqual(status, 2)
        self.assertEqual(out.getvalue(), "")
        self.assertEqual(lines[0], "a b.mal:2:17: E03: no such token")
        self.assertEqual(lines[1], "    2 | CONST factor = 1.5;")
        self.assertEqual(lines[2].index("^"), lines[1].index("."))
        self.assertEqual(lines[3], "      = statement: CONST factor = 1.5;")
        self.assertIn("(further, told once the faults above were taken out)", errors.getvalue())


class Record(unittest.TestCase):
    """The record is what the program says."""

    def test_record(self) -> None:
        """Each refusal of the record is the program's own, where the variable MALPAS names a program."""
        named = os.environ.get("MALPAS")
        if not named:
            self.skipTest("the variable MALPAS names no program to compare the record with")
        program = Program(Path(named).resolve())
        known = Recorded().known
        for run in known.values():
            with self.subTest(run["text"][:60]):
                outcome = program.run(run["text"].encode("latin-1"))
                if run["status"] == 2:
                    self.assertEqual((outcome.status, outcome.output), (2, run["output"]))
                else:
                    self.assertNotEqual(outcome.status, 2)


if __name__ == "__main__":
    unittest.main()
