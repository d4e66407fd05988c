"""Pages: what stands on them, and that everyone can read them."""

from __future__ import annotations

import functools
import shutil
import unittest
from unittest import mock

from assess_lib.analysis import Analysis, analyse, read_source, understood
from assess_lib.page import Made, page
from assess_lib.page_style import COLOURS, DECIDING, INK, INTERVALS, PAPER, TWICE
from assess_lib.program import Outcome
from assess_lib.source import SourceText
from assess_tests.accessibility import contrast, faults_of
from assess_tests.recorded import HERE, Recorded
from assess_tests.test_reports import every_section, recorded

MADE = Made("malpas, of a test", "2000-01-01 00:00 UTC")


@functools.lru_cache(maxsize=None)
def page_of_every_section() -> str:
    """The page of the hand-made report, drawn once."""
    return page(every_section(), MADE)


def without_pictures(found: Analysis) -> str:
    """A page made where dot is missing."""
    with mock.patch("assess_lib.graph.shutil.which", return_value=None):
        return page(found, MADE)


def refused() -> Analysis:
    """A text with faults of many kinds."""
    return analyse("names.mal", read_source(str(HERE / "slips" / "names_and_modes.mal")), Recorded())


class Rules(unittest.TestCase):
    """Each page keeps the rules."""

    def test_pages(self) -> None:
        """Reports of every kind, a refusal, a report cut short, and output that is neither."""
        names = ["valve", "copy", "two_entries", "no_way_out", "careless"]
        pages = {name: recorded(name) for name in names}
        pages["refused"] = refused()
        source = read_source(str(HERE / "texts" / "valve.mal"))
        whole = Recorded().run(source.data).output
        pages["cut"] = understood("valve.mal", source, Outcome(5, whole[: whole.index("PROCEDURE drain")]), None)
        pages["words"] = understood("valve.mal", source, Outcome(6, "malpas: words not understood\n"), None)
        pages["empty"] = understood("valve.mal", source, Outcome(5, ""), None)
        for name, found in pages.items():
            with self.subTest(name):
                self.assertEqual(faults_of(page(found, MADE)), [])
        self.assertEqual(faults_of(page_of_every_section()), [])

    def test_contrast(self) -> None:
        """Each ink on its paper has a contrast of at least 4.5, and the frame of a test one of at least 3."""
        for ink, paper in [*COLOURS.values(), (INK, PAPER), *[("#000000", colour) for colour in INTERVALS]]:
            self.assertGreaterEqual(contrast(ink, paper), 4.5, (ink, paper))
        for link in ("#0b3f8a", "#4a4a4a"):
            for paper in (PAPER, *[paper for _, paper in COLOURS.values()]):
                self.assertGreaterEqual(contrast(link, paper), 4.5, (link, paper))
        for frame in (DECIDING, TWICE):
            self.assertGreaterEqual(min(contrast(frame, colour) for colour in INTERVALS), 3)

    def test_the_rules_find_faults(self) -> None:
        """The list of rules is no list that all pages keep."""
        good = without_pictures(recorded("valve"))
        for old, new in (
            ('lang="en"', ""),
            ("<h1>", "<h2>"),
            ("<main ", "<div "),
            ('scope="col"', ""),
            ("<caption", "<p"),
            ('id="p2"', 'id="p1"'),
            ('tabindex="0"', ""),
            ("<style>", '<script src="https://example.org/x.js"></script><style>'),
        ):
            self.assertTrue(old in good, old)
            self.assertNotEqual(faults_of(good.replace(old, new)), [], (old, new))


class Content(unittest.TestCase):
    """What a reader finds."""

    def test_head(self) -> None:
        """File, SHA-256, program, date and status."""
        found = recorded("valve")
        made = without_pictures(found)
        for text in ("valve.mal", found.source.digest, MADE.program, MADE.date, "0: a report was written"):
            self.assertTrue(text in made, text)

    def test_text_is_no_markup(self) -> None:
        """What stands in a text or its name is shown and never read as HTML."""
        text = b"TITLE <b>;\n"
        outcome = Outcome(2, "malpas: E05 at byte 0: statement has no form\n")
        made = page(understood("<i>.mal", SourceText(text), outcome, None), MADE)
        self.assertNotIn("<b>;", made)
        self.assertNotIn("<i>.mal", made)
        self.assertIn("TITLE &lt;b&gt;;", made)

    def test_sections(self) -> None:
        """Verdicts, tables, test inputs, certificates, paths on the lines, and the claim's words."""
        made = page_of_every_section()
        for text in (
            "no run from the precondition can go wrong: 6 threats, all False",
            "That a run ends is not claimed",
            "Shown: an input takes this path",
            "Open: neither shown nor ruled out",
            "False: no input takes this path",
            "past its size: rows",
            'href="#p1-L1"',
            'href="#p1-threat1"',
            'href="#p1-R0"',
            "[x + 1 &lt;= 9: false]",
            "Test inputs of region L0 of step",
            "READ 1 HOLDS",
            "Slices of forever",
            "in the cycle with two entries: an entry",
            "stuck: the end is not reached",
        ):
            self.assertTrue(text in made, text)

    def test_pictures(self) -> None:
        """The line graph and the levels above 0 are drawn."""
        if shutil.which("dot") is None:
            self.skipTest("Graphviz's dot is not installed, so no picture was tried")
        made = page(recorded("valve"), MADE)
        self.assertEqual(made.count("<svg"), 4)
        self.assertTrue("Line graph of fill" in made)
        self.assertTrue("loop L2" in made)

    def test_without_dot(self) -> None:
        """Where dot is missing, a word stands in the picture's place."""
        made = without_pictures(recorded("valve"))
        self.assertFalse("<svg" in made)
        self.assertTrue("the command dot of Graphviz is not installed" in made)
        self.assertEqual(faults_of(made), [])

    def test_long_text(self) -> None:
        """The source of a long procedure is folded, and so is its graph."""
        body = "".join(f"SKIP;\nx := {number % 10};\n" for number in range(200))
        text = f"TITLE t;\nPROC p;\nOUT x : 0 .. 9;\nPRE TRUE;\nPOST TRUE;\n{body}ENDPROC;\nFINISH;\n"
        arcs = "".join(f"ARC a{number + 1} L{number} L{number + 1}\n" for number in range(401))
        members = " ".join(f"L{number}" for number in range(402))
        head = "MALPAS PROFILE 1\nTITLE t\nPROCEDURE p LINES 402\nCONTROL\nUNREACHABLE -\nSTUCK -\nLEVEL 0\n"
        report = f"{head}INTERVAL L0: {members}\nSHAPE REDUCIBLE\nPATHS\n{arcs}ALL = a1\nSTATUS 0\n"
        made = page(understood("long.mal", SourceText(text.encode()), Outcome(0, report), None), MADE)
        self.assertTrue("<details><summary>405 lines</summary>" in made)
        self.assertFalse("<details open><summary>Show the graph" in made)
        self.assertEqual(faults_of(made), [])


if __name__ == "__main__":
    unittest.main()
