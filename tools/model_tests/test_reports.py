"""Reports and refusals of the model on texts worked by hand."""

from __future__ import annotations

import unittest

from model.accepting import accept
from model.command import answer, read_words
from model.comparing import Answer, difference, shrunk
from model.exhaustive import faults_of
from model.inventing import invented
from model.printing import SIX
from model.slipping import slipped
from model_tests import worked


class Reports(unittest.TestCase):
    """What is printed for accepted texts."""

    def assert_part(self, text: bytes, part: str) -> None:
        """The report has the part."""
        output, _ = answer(text)
        self.assertIn("\n" + part, output)

    def test_whole(self) -> None:
        """A whole report."""
        self.assertEqual(answer(worked.COPY), (worked.COPY_REPORT, 0))

    def test_tables_and_threats(self) -> None:
        """Tables and threats with each verdict."""
        self.assert_part(worked.STEP_UP, worked.STEP_UP_SECTIONS)
        self.assert_part(worked.SUM, worked.SUM_COMPLIANCE)
        self.assert_part(worked.COUNT, worked.COUNT_TABLE)
        self.assert_part(worked.STEP_TWO, worked.STEP_TWO_COMPLIANCE)

    def test_two_entries(self) -> None:
        """A loop that is entered at two lines."""
        self.assert_part(worked.TWO_ENTRIES, worked.TWO_ENTRIES_CONTROL)
        self.assert_part(worked.TWO_ENTRIES, "SEMANTIC\nNOT REPORTED IRREDUCIBLE\n")

    def test_values(self) -> None:
        """Normal terms of expressions."""
        for expression, value in worked.VALUES:
            with self.subTest(expression):
                text = worked.text_of("IN x : 0 .. 9;OUT q : -99 .. 99;", f"q := {expression};")
                self.assert_part(text, f"STOP END\nq := {value}\n")

    def test_splits(self) -> None:
        """Unequal sides are split, up to eight of them on a path."""
        refuted = worked.text_of("IN x : 0 .. 1;", "IF x /= 0;ASSERT x = 1;ENDIF;")
        self.assert_part(refuted, "THREAT 1 PATH TF STOP ASSERT L2 FALSE\n")
        shown = worked.text_of("IN x : 0 .. 9;", "IF x /= 0;ASSERT x = 1;ENDIF;")
        self.assert_part(shown, "THREAT 1 PATH TF STOP ASSERT L2 SHOWN x = 2\n")

    def test_wrap(self) -> None:
        """A range that wraps."""
        text = worked.text_of("INOUT x : WRAP -128 .. 127;", "x := x * 2;")
        self.assert_part(text, "STOP END\nx := ((2*x + 128) MOD 256) - 128\n")
        self.assertTrue(answer(text)[0].startswith("MALPAS PROFILE 2\n"))

    def test_inputs(self) -> None:
        """Test inputs: the least ones, none where the least one takes another row, and no place."""
        for declarations, body, lines in worked.INPUTS:
            with self.subTest(body):
                output, _ = answer(worked.text_of(declarations, body), ("INPUTS",))
                self.assertIn(f"INPUTS\n{lines}STATUS ", output)

    def test_refusals(self) -> None:
        """Changes of a text that is accepted."""
        for before, after, refusal in worked.CHANGES:
            with self.subTest(refusal):
                output, status = answer(worked.COPY.replace(before, after))
                self.assertEqual((output.split(": ")[1], status), (refusal, 2))

    def test_words(self) -> None:
        """Words that are understood, and words that are not."""
        request = read_words(["--flow", "--control", "--flow"])
        assert request is not None
        self.assertEqual(request.sections, ("CONTROL", "FLOW"))
        for words, sections in (([], SIX), (["--inputs"], ("INPUTS",))):
            request = read_words(words)
            assert request is not None
            self.assertEqual(request.sections, sections)
        for words in (["--nosuch"], ["--generate", "007"], ["--generate"], ["--generate=3", "--generate=3"]):
            self.assertIsNone(read_words(words))


class Trials(unittest.TestCase):
    """The definitions tried on inputs, and the comparison."""

    def test_every_input(self) -> None:
        """Every input of small invented procedures takes one row, and stepping gives its stop and values."""
        for seed in range(40):
            with self.subTest(seed):
                self.assertEqual(faults_of(accept(invented(seed)), 300), [])

    def test_slips(self) -> None:
        """Every text with slips has an answer."""
        for seed in range(40):
            self.assertIn(answer(slipped(seed))[1], (0, 1, 2))

    def test_differences(self) -> None:
        """Other bytes are told; another cycle that holds is none."""
        output, status = answer(worked.TWO_ENTRIES)
        same = Answer(output, status)
        other = Answer(output.replace("LEVEL 1", "LEVEL 2"), status)
        self.assertIsNone(difference(worked.TWO_ENTRIES, same, same, set()))
        self.assertIsNotNone(difference(worked.TWO_ENTRIES, other, same, set()))
        longer = Answer(output.replace("FIRST L0 L1 L3 L4", "FIRST L0 L1 L4"), status)
        self.assertIsNotNone(difference(worked.TWO_ENTRIES, longer, same, set()))

    def test_shrinking(self) -> None:
        """A text shrinks to the lines that matter."""
        self.assertEqual(shrunk(b"a\nb\nc\nd", lambda text: b"c" in text), b"c")


if __name__ == "__main__":
    unittest.main()
