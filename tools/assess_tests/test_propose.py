"""Proposed assertions: where they stand, what is put, what is kept, and what comes of it with the program itself."""

from __future__ import annotations

import io
import os
import re
import shutil
import tempfile
import unittest
from contextlib import redirect_stderr, redirect_stdout
from pathlib import Path
from unittest import mock

from assess_lib.command import main
from assess_lib.listing import Listing
from assess_lib.outline import outline_of
from assess_lib.program import TOP, Outcome, Program, Status
from assess_lib.propose import SECTIONS
from assess_lib.propose_forms import Form, Forms, Stage
from assess_lib.propose_search import Candidate, Search
from assess_lib.propose_text import Spot, numbered, spot_of, with_assertions
from assess_lib.report import Loop, ProcedureReport
from assess_lib.source import SourceText
from assess_lib.statements import statements_of
from assess_tests.loop_times import LOOPS, proposed
from assess_tests.recorded import HERE

COUNT = """TITLE t;
CONST top = 9;
TYPE mood = ( calm, loud );
PROC p;
IN n : 0 .. top;
INOUT i : 0 .. top;
OUT m : mood;
LOCAL b : BOOL;
PRE i <= n;
POST i = n;
LOOP;
  EXIT WHEN i = n;
  i := i + 1;
ENDLOOP;
ENDPROC;
FINISH;
"""
QUICK = {
    "count_down": "i >= 11",
    "dose_limit": "given <= hourly_limit",
    "drain_to_mark": "NOT alarm",
    "lag_by_three": "lead = tail + 3",
    "lights": "main = red OR side = red",
    "meet_in_the_middle": "a <= b",
    "triangle": "row <= n",
}
"""Loops that are proved soon, each with an assertion that it cannot do without."""


def spot(letters: str, head: int, leading: tuple[int, ...] = ()) -> Spot:
    """The spot of a head of the first procedure."""
    source = SourceText(letters.encode("latin-1"))
    outline = outline_of(statements_of(letters))
    listing = Listing(source, outline, outline.procedures[0], ProcedureReport("p", 0))
    found = spot_of(source, listing, Loop(head, [head], list(leading)))
    assert found is not None
    return found


class Places(unittest.TestCase):
    """Assertions stand behind their head in the layout that is there, and no other byte changes."""

    def check(self, body: str, head: int, expected: str, leading: tuple[int, ...] = ()) -> None:
        """Two assertions go into a body; `expected` is the body then."""
        start = "TITLE t;\nPROC p;\nLOCAL i : 0 .. 9;\nPRE TRUE;\nPOST TRUE;\n"
        text = start + body + "ENDPROC;\nFINISH;\n"
        if "\r\n" in body:
            text, start = text.replace("\r", "").replace("\n", "\r\n"), start.replace("\n", "\r\n")
        made = with_assertions(text, [(spot(text, head, leading), ["a", "b"])])
        self.assertEqual(made, text.replace(body, expected))

    def test_layouts(self) -> None:
        """A line of its own, a comment behind the head, the next statement in the same line, and CRLF."""
        marked = "ASSERT a; [ proposed ]", "ASSERT b; [ proposed ]"
        self.check("LOOP;\n    EXIT;\nENDLOOP;\n", 1, "LOOP;\n    {}\n    {}\n    EXIT;\nENDLOOP;\n".format(*marked))
        self.check("LOOP; [ x ]\n\tEXIT;\nENDLOOP;\n", 1, "LOOP; [ x ]\n\t{}\n\t{}\n\tEXIT;\nENDLOOP;\n".format(*marked))
        self.check("LOOP; EXIT;\nENDLOOP;\n", 1, "LOOP; {} {} EXIT;\nENDLOOP;\n".format(*marked))
        self.check("LOOP; [ x\n y ] EXIT;\nENDLOOP;\n", 1, "LOOP; {} {} [ x\n y ] EXIT;\nENDLOOP;\n".format(*marked))
        crlf = "LOOP;\r\n  {}\r\n  {}\r\n  EXIT;\r\nENDLOOP;\r\n".format(*marked)
        self.check("LOOP;\r\n  EXIT;\r\nENDLOOP;\r\n", 1, crlf)

    def test_behind_leading_assertions(self) -> None:
        """The head's own assertions come first; a head that is none of the usual lines has them before it."""
        marked = "ASSERT a; [ proposed ]", "ASSERT b; [ proposed ]"
        body = "LOOP;\n  ASSERT i = i;\n  EXIT;\nENDLOOP;\n"
        self.check(body, 1, "LOOP;\n  ASSERT i = i;\n  {}\n  {}\n  EXIT;\nENDLOOP;\n".format(*marked), (2,))
        self.check("  i := 0;\nGOTO x;\n", 1, "  {}\n  {}\n  i := 0;\nGOTO x;\n".format(*marked))

    def test_numbers(self) -> None:
        """The lines of placed assertions, behind those of earlier heads."""
        placed = [(Spot(6, 7, 60, "", ""), ["c"]), (Spot(2, 3, 20, "", ""), ["a", "b"])]
        self.assertEqual(numbered(placed), {3: (2, 0), 4: (2, 1), 9: (6, 0)})


class Templates(unittest.TestCase):
    """What is put."""

    def test_forms(self) -> None:
        """Each kind of form, by the stage in which it comes; numbers keep their names."""
        outline = outline_of(statements_of(COUNT))
        stages = {stage.name: [form.text for form in stage.forms] for stage in Forms(outline, outline.procedures[0]).stages()}
        wanted = {
            "values and order": ["OLD i <= n", "b", "NOT b", "m = loud", "i = n", "i <= OLD i", "i >= 1", "i = top"],
            "differences": ["i = n + 1", "n <= i + top", "i <= n + 1", "m /= calm"],
            "fixed values": ["n <= 8", "n >= 1", "n = 0", "OLD i = top"],
            "conditions": ["i = n", "i /= n", "i > n"],
            "alternatives": ["b OR m = calm", "m = loud OR i = n"],
            "sums": ["n = i + OLD i", "i + n = top"],
        }
        for name, texts in wanted.items():
            for text in texts:
                self.assertIn(text, stages[name])
        for texts in stages.values():
            self.assertEqual(len(texts), len(set(texts)))

    def test_every_form_is_accepted(self) -> None:
        """The program refuses no text for a form of these templates."""
        program = real_program(self)
        for letters in (COUNT, COUNT.replace("0 .. top", "-4 .. top").replace("9", "5")):
            outline = outline_of(statements_of(letters))
            place = spot(letters, 1)
            for stage in Forms(outline, outline.procedures[0]).stages():
                for form in stage.forms:
                    outcome = program.run(with_assertions(letters, [(place, [form.text])]).encode("latin-1"))
                    self.assertLess(outcome.status, Status.REFUSED, form.text)


class Rules:
    """A stand-in for malpas: an assertion is proved where those that it needs stand, and so is POST."""

    def __init__(self, needs: dict[str, list[str]], post: list[str], most: int = 99) -> None:
        self.needs, self.post, self.most = needs, post, most

    def run(self, data: bytes) -> Outcome:
        """A report with one threat for each assertion and one for POST; past its size with too many assertions."""
        stand = re.findall(r"ASSERT (.+?);", data.decode("latin-1"))
        lines = ["MALPAS PROFILE 1", "TITLE t", "PROCEDURE p LINES 9", "COMPLIANCE"]
        if len(stand) > self.most:
            return Outcome(1, "\n".join([*lines, "REGION L1 PAST ROWS", "STATUS 1", ""]))
        lines.append("REGION L1")
        for number, text in enumerate(stand):
            proved = set(self.needs.get(text, ["nothing"])) <= set(stand)
            lines.append(f"THREAT {number + 1} PATH T STOP ASSERT L{2 + number} {'FALSE' if proved else 'OPEN x = 0'}")
        proved = set(self.post) <= set(stand)
        lines.append(f"THREAT {len(stand) + 1} PATH T STOP POST {'FALSE' if proved else 'OPEN x = 0'}")
        return Outcome(0, "\n".join([*lines, "STATUS 1", ""]))


class Searches(unittest.TestCase):
    """What is kept, with a stand-in whose verdicts are known."""

    def search(self, rules: Rules, batch: int = 99) -> tuple[list[str], list[str]]:
        """What stands of a to f, and what is left of it in the end."""
        search = Search(rules, COUNT, [spot(COUNT, 1)], 0)
        standing = search.grow([], Stage("letters", [Form(letter) for letter in "abcdef"], batch))
        return [each.form.text for each in standing], [each.form.text for each in search.thin(standing)]

    def test_greatest_set(self) -> None:
        """What is refuted falls, and what needed it falls after it; two that need each other stand."""
        rules = Rules({"a": [], "b": ["a"], "c": ["d"], "d": ["c"], "e": ["f"]}, ["b", "nothing"])
        self.assertEqual(self.search(rules), (["a", "b", "c", "d"], []))

    def test_what_is_left_out(self) -> None:
        """What no verdict needs is left out; what is needed by what is needed stays."""
        rules = Rules({"a": [], "b": ["d"], "c": [], "d": ["b"], "e": ["f"]}, ["b"])
        self.assertEqual(self.search(rules)[1], ["b", "d"])

    def test_sizes(self) -> None:
        """Where a region grows past its size fewer are put at once; what stood alone stays."""
        rules = Rules({"a": [], "c": [], "f": ["c"]}, ["f"], most=3)
        self.assertEqual(self.search(rules), (["a", "c", "f"], ["c", "f"]))
        batches = Rules({"a": ["f"], "c": ["a"], "f": []}, ["c"])
        self.assertEqual(sorted(self.search(batches, batch=2)[0]), ["a", "c", "f"])

    def test_time(self) -> None:
        """Where the time is over what stood before stays, and nothing is added; leaving out goes on."""
        rules = Rules({"a": [], "b": []}, ["b"])
        search = Search(rules, COUNT, [spot(COUNT, 1)], 0, over=lambda: True)
        both = [Candidate(1, Form("a")), Candidate(1, Form("b"))]
        self.assertEqual(search.grow(both[:1], Stage("letters", [Form("b")], 9)), both[:1])
        self.assertEqual(search.thin(both), both[1:])

    def test_bounds(self) -> None:
        """Of the bounds of one term the tightest stand, and an equality says both."""
        search = Search(Rules({}, []), COUNT, [spot(COUNT, 1)], 0)
        low, lower = Form("i >= 3", "i", 3, None), Form("i >= 2", "i", 2, None)
        high, same = Form("i <= 3", "i", None, 3), Form("i = 3", "i", 3, 3)
        for forms, kept in (([lower, low], [low]), ([low, high, same], [same]), ([low, high], [low, high])):
            found = search.tightest([Candidate(1, form) for form in forms])
            self.assertEqual([each.form for each in found], kept)


def real_program(test: unittest.TestCase) -> Program:
    """The program that MALPAS names or that is built in this checkout; else the test is skipped."""
    built = TOP / "crates" / "malpas" / "out" / "malpas"
    found = shutil.which(os.environ.get("MALPAS") or str(built))
    if found is None:
        test.skipTest("no malpas is built, and MALPAS names none")
    program = Program(Path(found).resolve(), SECTIONS)
    if program.run(COUNT.encode("latin-1")).status != Status.LEFT:
        test.skipTest(f"{found} does not know the words {' '.join(SECTIONS)}")
    return program


class WithTheProgram(unittest.TestCase):
    """What comes of texts with the program itself."""

    def test_loops(self) -> None:
        """Loops that come out proved, each with an assertion that it needs; all else keeps its bytes."""
        program = real_program(self)
        self.assertEqual(len(LOOPS), 20)
        for file in LOOPS:
            if file.stem not in QUICK:
                continue
            with self.subTest(file.stem):
                status, text, errors = proposed(file, program)
                self.assertEqual(status, 0, errors)
                self.assertIn(f"ASSERT {QUICK[file.stem]}; [ proposed ]\n", text)
                without = re.sub(r"\n *ASSERT [^;]*; \[ proposed \]", "", text)
                self.assertEqual(without, file.read_text(encoding="ascii"))

    def test_valve(self) -> None:
        """Both procedures of the valve controller without its assertions come out proved, alone and in one line."""
        program = real_program(self)
        letters = (HERE / "texts" / "valve.mal").read_text(encoding="ascii")
        bare = re.sub(r"\n *ASSERT [^;]*;", "", letters)
        self.assertNotIn("ASSERT", bare)
        with tempfile.TemporaryDirectory() as folder:
            file = Path(folder) / "valve.mal"
            for text in (bare, re.sub(r"\s*\n\s*", " ", bare), bare.replace("\n", "\r\n")):
                file.write_bytes(text.encode("ascii"))
                status, _, errors = proposed(file, program)
                self.assertEqual(status, 0, errors)
                told = r"\d+ assertions proposed, \d+ kept; threats FALSE \d+ of \d+ before, (\d+) of \1 after; "
                self.assertRegex(errors, told)

    def test_nothing_helps(self) -> None:
        """Where nothing helps, or nothing is open, the text is written as it was, and that is said."""
        program = real_program(self)
        wrong = COUNT.replace("POST i = n", "POST m = loud").replace("i := i + 1", "i := n").replace("LOCAL b : BOOL;\n", "")
        with tempfile.TemporaryDirectory() as folder:
            file = Path(folder) / "t.mal"
            file.write_text(wrong, encoding="ascii")
            status, text, errors = proposed(file, program)
        self.assertEqual((status, text), (1, wrong))
        self.assertIn("nothing helps, so the text stands as it was; ", errors)
        valve = HERE / "texts" / "valve.mal"
        self.assertEqual(proposed(valve, program)[:2], (0, valve.read_text(encoding="ascii")))
        self.assertIn("nothing is left to help", proposed(valve, program)[2])

    def test_command(self) -> None:
        """The word as a user gives it; a refused text and one that is not there give no text."""
        program = real_program(self)
        for file, status in ((HERE / "slips" / "fractions.mal", 2), (HERE / "none.mal", 3)):
            out, errors = io.StringIO(), io.StringIO()
            with mock.patch.dict(os.environ, MALPAS=str(program.path)), redirect_stdout(out), redirect_stderr(errors):
                self.assertEqual(main(["propose", str(file)]), status)
            self.assertEqual(out.getvalue(), "")
            self.assertIn(file.name, errors.getvalue())


if __name__ == "__main__":
    unittest.main()
