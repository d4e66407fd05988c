"""What is read from reports, and what is said of them."""

from __future__ import annotations

import unittest

from assess_lib.analysis import Analysis, analyse, read_source, understood
from assess_lib.arcs import arcs_of
from assess_lib.findings import facts_of, findings_of
from assess_lib.program import Outcome
from assess_lib.report import Heading, Verdict
from assess_lib.report_reader import read_refusal, read_report
from assess_lib.sentences import not_analysed, sentence
from assess_lib.source import SourceText
from assess_lib.walk import walk
from assess_tests.recorded import HERE, Recorded


def every_section() -> Analysis:
    """The hand-made report with each verdict and section."""
    source = read_source(str(HERE / "reports" / "every_section.mal"))
    report = (HERE / "reports" / "every_section.report").read_text(encoding="ascii")
    return understood("every_section.mal", source, Outcome(1, report), None)


def recorded(name: str) -> Analysis:
    """A text of the tests with what malpas said of it."""
    return analyse(f"{name}.mal", read_source(str(HERE / "texts" / f"{name}.mal")), Recorded())


class Reading(unittest.TestCase):
    """Reports and refusals are read whole."""

    def test_refusal(self) -> None:
        """A refusal's line, with and without a name; another line is none."""
        refusal = read_refusal("malpas: E09 at byte 108: name unknown: e\n")
        assert refusal is not None
        self.assertEqual((refusal.code, refusal.place, refusal.name), ("E09", 108, "e"))
        plain = read_refusal("malpas: E05 at byte 0: statement has no form\n")
        assert plain is not None
        self.assertEqual(plain.name, "")
        self.assertIsNone(read_refusal("malpas: words not understood\n"))

    def test_every_section(self) -> None:
        """No line of the sample is left unread, and each listing has the report's lines."""
        found = every_section()
        self.assertEqual(len(found.procedures), 9)
        for each in found.procedures:
            self.assertEqual(each.report.unread, [], each.report.name)
            self.assertTrue(each.listing.agrees(each.report), each.report.name)

    def test_new_section(self) -> None:
        """A line that no section knows is kept."""
        text = "MALPAS PROFILE 1\nTITLE t\nPROCEDURE p LINES 2\nCONTROL\nUNREACHABLE -\nSTUCK -\nNOVELTY\nSTATUS 0\n"
        report = read_report(text)
        assert report is not None
        self.assertEqual(report.procedures[0].unread, ["NOVELTY"])

    def test_cut_report(self) -> None:
        """A report that was cut off has no status, and the procedures that it came to."""
        report = read_report("MALPAS PROFILE 1\nTITLE t\nPROCEDURE p LINES 2\nCONTROL\nUNREACHABLE -\n")
        assert report is not None
        self.assertIsNone(report.status)
        self.assertEqual([each.name for each in report.procedures], ["p"])

    def test_slices(self) -> None:
        """Slices with and without fixed tests."""
        head = "MALPAS PROFILE 1\nTITLE t\nPROCEDURE p LINES 9\nSLICE\n"
        report = read_report(head + "VAR c KEEP L8 FIXED L4=T\nVAR y KEEP - FIXED -\nSTATUS 0\n")
        assert report is not None
        slices = report.procedures[0].slices
        self.assertEqual([(row.variable, row.keep, row.fixed) for row in slices], [("c", [8], ["L4=T"]), ("y", [], [])])

    def test_expanded_call(self) -> None:
        """The lines of an expanded call stand in the called procedure, or at the call."""
        text = (
            "TITLE t;\nPROC inc;\nINOUT v : 0 .. 9;\nPRE v <= 8;\nPOST v = OLD v + 1;\nv := v + 1;\nENDPROC;\n"
            "PROC p;\nINOUT x : 0 .. 5;\nPRE TRUE;\nPOST TRUE;\nCALL inc (x);\nENDPROC;\nFINISH;\n"
        )
        report = (
            "MALPAS PROFILE 1\nTITLE t\nPROCEDURE inc LINES 3\nPROCEDURE p LINES 8\nEXPANDED L1 L6 inc\n"
            "COMPLIANCE\nREGION L0\n"
            "THREAT 1 PATH TTTF STOP RANGE L6 SHOWN x = 5, c1_v = 0, o1_v = 0, OLD x = 5\n"
            "THREATS 1 FALSE 0 SHOWN 1 OPEN 0 PAST 0\nSTATUS 1\n"
        )
        found = understood("t.mal", SourceText(text.encode()), Outcome(1, report), None)
        listing = found.procedures[1].listing
        self.assertTrue(listing.agrees(found.procedures[1].report))
        self.assertEqual([line.file_line for line in listing.lines], [10, 12, 12, 4, 6, 5, 12, 13])
        threat = found.procedures[1].report.compliance.threats[0]  # type: ignore[union-attr]
        self.assertEqual([value.place for value in threat.values], ["x", "c1_v", "o1_v", "OLD x"])


class Arcs(unittest.TestCase):
    """The line graph made from the source is the report's."""

    def test_arcs(self) -> None:
        """For each reported procedure of the tests the arcs agree, numbers too."""
        compared = 0
        for found in [every_section(), *[recorded(name) for name in ("valve", "copy", "no_way_out", "careless")]]:
            for each in found.procedures:
                if each.report.paths is not None:
                    self.assertEqual(arcs_of(each.listing), each.report.paths.arcs, each.report.name)
                    compared += 1
        self.assertEqual(compared, 13)

    def test_without_paths(self) -> None:
        """A procedure that is not reducible has the arcs of its source: the entries of its cycle are reached."""
        found = recorded("two_entries").procedures[0]
        pairs = {(arc.tail, arc.head) for arc in arcs_of(found.listing)}
        entries = found.report.control.two_entries
        assert entries is not None
        for way in (entries.first, entries.second, entries.cycle + entries.cycle[:1]):
            self.assertTrue(set(zip(way, way[1:])) <= pairs, way)


class Sentences(unittest.TestCase):
    """What a procedure's report comes to."""

    def test_sentences(self) -> None:
        """One sentence for each kind of report."""
        said = {each.report.name: sentence(each.report) for each in every_section().procedures}
        self.assertEqual(said["count"], "no run from the precondition can go wrong: 6 threats, all False")
        self.assertEqual(said["forever"], "no run from the precondition can go wrong: no threats")
        self.assertEqual(said["total"], "left to judge: 3 Open, of 7 threats (4 False)")
        self.assertEqual(said["share"], "left to judge: 1 Shown, 2 Open, of 3 threats (0 False)")
        self.assertEqual(said["many"], "left to judge: 1 region past its size")
        self.assertIn("a loop of it can be entered at two lines", said["twice"])

    def test_without_threats(self) -> None:
        """A report without the section claims nothing on faults."""
        report = recorded("valve").procedures[0].report
        report.headings = [each for each in report.headings if each is not Heading.COMPLIANCE]
        report.compliance = None
        self.assertIn("is not analysed", sentence(report))
        self.assertTrue(any("threats" in told for told in not_analysed(report)))


class Findings(unittest.TestCase):
    """Findings with their lines, apart from facts."""

    def test_careless(self) -> None:
        """Each kind of finding on variables and lines; none on the IN variable that is read."""
        found = recorded("careless").procedures[0]
        told = [(each.position.line, each.text) for each in findings_of(found)]
        self.assertIn((20, "no path leads to line 20"), told)
        self.assertIn((5, "IN ignored is neither read nor written on any path"), told)
        self.assertIn((8, "OUT forgotten is never written"), told)
        self.assertIn((9, "LOCAL early is read before it is written on some path; read in line 15"), told)
        self.assertIn((9, "the last write of LOCAL early is never read on some path; written in line 16"), told)
        self.assertIn((10, "LOCAL unset is never written, but read in line 17"), told)
        self.assertIn((11, "LOCAL late is never read"), told)
        self.assertIn((12, "LOCAL idle is neither read nor written on any path"), told)
        self.assertFalse([text for _, text in told if "given" in text])
        self.assertIn("INOUT kept is never written", facts_of(found))

    def test_control(self) -> None:
        """Stuck lines, and a loop with two entries."""
        stuck = [each.text for each in findings_of(recorded("no_way_out").procedures[0])]
        self.assertIn("no path leads to line 9", stuck)
        self.assertTrue(any("no path reaches the end" in text for text in stuck))
        twice = findings_of(recorded("two_entries").procedures[0])
        self.assertEqual([each.text for each in twice], ["the loop of lines 9 to 13 can be entered at lines 9, 11"])

    def test_threats(self) -> None:
        """Shown and Open threats stand at their lines; False ones are no findings."""
        found = {each.report.name: each for each in every_section().procedures}
        self.assertEqual([each.position.line for each in findings_of(found["total"])], [29, 24, 27])
        told = findings_of(found["lost"])[1].text
        self.assertIn("the loop of line 51 begins with n = 1, i = 0", told)
        self.assertEqual(findings_of(found["count"]), [])


class Walks(unittest.TestCase):
    """Paths laid over lines."""

    def test_each_path_stops_where_the_report_says(self) -> None:
        """Every threat and row of the sample has a walk; that of a fault ends at the fault's line."""
        walked = 0
        for each in every_section().procedures:
            last = each.report.line_count - 1
            threats = each.report.compliance.threats if each.report.compliance else []
            for threat in threats:
                steps = walk(each, threat.region, threat.path)
                assert steps is not None, (each.report.name, threat.number)
                end = int(threat.stop.split(" L")[1]) if " L" in threat.stop else last
                self.assertEqual(steps[-1].line, end)
                self.assertEqual(sum(len(step.decisions) for step in steps), len(threat.path))
                walked += 1
            for region in each.report.tables:
                for row in region.rows:
                    self.assertIsNotNone(walk(each, region.head, row.path), (each.report.name, row.number))
                    walked += 1
        self.assertEqual(walked, 32)

    def test_valve(self) -> None:
        """The paths of the valve controller's rows and threats end at the lines that are told by hand."""
        found = {each.report.name: each for each in recorded("valve").procedures}
        for name, region, paths in (
            ("fill", 0, {"T": 1, "F": 0, "TTF": 4, "TF": 3}),
            ("fill", 2, {"TTTTT": 13, "TTFT": 11, "TTFFT": 11, "TF": 4, "F": 3, "TTTTF": 13, "TTFTTF": 4, "TTFFF": 9}),
            ("drain", 0, {"T": 2, "TTTT": 6, "TTF": 5, "TF": 4}),
            ("drain", 3, {"TTT": 6, "TTFTTTF": 15, "TTFTFTT": 15, "TTFFT": 9, "TTFFTTTT": 6, "TTFFF": 8}),
        ):
            for path, last in paths.items():
                steps = walk(found[name], region, path)
                self.assertEqual(steps[-1].line if steps else None, last, (name, region, path))

    def test_path_that_does_not_fit(self) -> None:
        """A path with too many or too few decisions is laid nowhere."""
        step = every_section().procedures[0]
        self.assertIsNone(walk(step, 0, "TT"))
        self.assertIsNone(walk(step, 0, ""))

    def test_verdicts(self) -> None:
        """Counts by verdict."""
        total = every_section().procedures[1].report.compliance
        assert total is not None
        self.assertEqual([total.count(each) for each in (Verdict.SHOWN, Verdict.OPEN, Verdict.FALSE)], [0, 3, 4])


if __name__ == "__main__":
    unittest.main()
