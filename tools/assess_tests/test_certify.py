"""Certificates of open threats: how the listing is read, when one is accepted, what the search finds, and what comes of it with the
programs themselves."""

from __future__ import annotations

import io
import os
import random
import shutil
import subprocess
import tempfile
import unittest
from contextlib import redirect_stderr, redirect_stdout
from dataclasses import replace
from fractions import Fraction
from pathlib import Path
from typing import Optional, Sequence, Union
from unittest import mock

from assess_lib.certify import WORD, certify_all, with_certificates
from assess_lib.certify import Certified, certify
from assess_lib.certify_literals import Listed, Literal, NotAListing, OpenThreat, Place, literal_of, parts_of, read_listing
from assess_lib.certify_rules import Certificate, Item, Quantity, Share, Split, Sum, is_accepted, quantity_of, written
from assess_lib.certify_search import Search, whole_shares
from assess_lib.certify_solver import Simplex, Solver, SolverFailed, Z3, find_solver
from assess_lib.command import main
from assess_lib.program import TOP, Outcome, Program, Status

SUM = """TITLE t;
PROC p;
IN n : 0 .. 9;
IN k : 0 .. 9;
OUT s : 0 .. 18;
LOCAL i : 0 .. 9;
PRE TRUE;
POST s = k + n;
s := k;
i := 0;
LOOP;
ASSERT i <= n;
ASSERT s = k + i;
EXIT WHEN i = n;
i := i + 1;
s := s + 1;
ENDLOOP;
ENDPROC;
FINISH;
"""
LISTING = """MALPAS LITERALS 1
PROCEDURE p
PLACE 0 0 9 n
PLACE 1 0 9 k
PLACE 2 0 18 s
PLACE 3 0 9 i
THREAT 3 REGION L3
LITERAL 0 n - i >= 0
LITERAL 1 k - s + i = 0
LITERAL 2 n - i = 0
LITERAL 3 n + k - s /= 0
THREAT 4 REGION L3
LITERAL 0 n - i >= 0
LITERAL 1 k - s + i = 0
LITERAL 2 n - i /= 0
LITERAL 3 i <= 8
LITERAL 4 s <= 17
LITERAL 5 n - i >= 1
LITERAL 6 k - s + i /= 0
THREAT 6 REGION L3
LITERAL 0 n - i >= 0
LITERAL 1 k - s + i = 0
LITERAL 2 n - i /= 0
LITERAL 3 i <= 8
LITERAL 4 s > 17
END
"""
"""What the second program lists of it."""

OUTSIDE = {
    3: "SPLIT 3, SUM, UP 3 1, DOWN 1 1, DOWN 2 1, END, SUM, DOWN 3 1, UP 1 1, UP 2 1, END",
    4: "SPLIT 6, SUM, UP 6 1, DOWN 1 1, END, SUM, DOWN 6 1, UP 1 1, END",
    6: "SPLIT 2, SUM, UP 2 1, DOWN 0 1, END, SUM, DOWN 2 1, DOWN 4 1, DOWN 1 1, HIGH 1 1, HIGH 0 1, END",
}
"""Certificates of its open threats that were worked out by hand."""


def certificate_of(lines: list[str]) -> Certificate:
    """The certificate that stands next in lines, which are taken away."""
    first = lines.pop(0).split()
    if first[0] == "SPLIT":
        return Split(int(first[1]), certificate_of(lines), certificate_of(lines))
    shares: list[Share] = []
    while lines[0] != "END":
        word, index, times = lines.pop(0).split()
        shares.append(Share(Item(word, int(index)), int(times)))
    lines.pop(0)
    return Sum(tuple(shares))


def by_hand(text: str) -> Certificate:
    """A certificate whose lines are parted by commas."""
    return certificate_of(text.split(", "))


def procedure_with(literals: Sequence[str], places: Sequence[Place] = (), region: int = 1) -> tuple[Listed, OpenThreat]:
    """A procedure with one open threat of these literals."""
    threat = OpenThreat(1, region, [literal_of(text) for text in literals])
    return Listed("p", list(places), [threat]), threat


def solvers() -> list[Solver]:
    """The solvers that are here."""
    path = shutil.which("z3")
    return [Simplex()] + ([Z3(path)] if path is not None else [])


def found_by(
    solver: Solver, literals: Sequence[str], places: Sequence[Place] = (), region: int = 1
) -> tuple[Optional[Certificate], str]:
    """What the search finds for a threat of these literals, and why it finds nothing."""
    procedure, threat = procedure_with(literals, places, region)
    search = Search(procedure, threat, solver, lambda: False)
    return search.certificate(), search.why


class Listings(unittest.TestCase):
    """The listing of the second program is read, and nothing else is."""

    def test_the_sum(self) -> None:
        """Places and literals have the numbers of the lines."""
        procedure = read_listing(LISTING)[0]
        self.assertEqual([place.name for place in procedure.places], ["n", "k", "s", "i"])
        told = [(threat.number, threat.region, len(threat.literals)) for threat in procedure.threats]
        self.assertEqual(told, [(3, 3, 4), (4, 3, 7), (6, 3, 5)])
        self.assertEqual(procedure.threats[0].literals[1], Literal({"k": 1, "s": -1, "i": 1}, "=", 0))

    def test_parts(self) -> None:
        """A sum is cut into its parts outside of parentheses; a product, a quotient or a remainder is one part."""
        for text, parts in (
            ("-2*x + y", {"x": -2, "y": 1}),
            ("3*OLD x - OLD y", {"OLD x": 3, "OLD y": -1}),
            ("x*(x*x) - 12*(x DIV (y + 1))", {"x*(x*x)": 1, "(x DIV (y + 1))": -12}),
            ("7*x*y + ((y - x) MOD 3)", {"x*y": 7, "((y - x) MOD 3)": 1}),
        ):
            self.assertEqual(parts_of(text), parts, text)
        self.assertEqual(literal_of("x /= -3"), Literal({"x": 1}, "/=", -3))
        self.assertEqual(literal_of("NEVER"), Literal({}, "", 0, True))

    def test_irreducible(self) -> None:
        """A procedure whose threats are not told is read as such."""
        procedure = read_listing("MALPAS LITERALS 1\nPROCEDURE p\nPLACE 0 -1 9 OLD x\nIRREDUCIBLE\nEND\n")[0]
        self.assertFalse(procedure.reducible)
        self.assertEqual(procedure.places, [Place("OLD x", -1, 9)])

    def test_what_is_no_listing(self) -> None:
        """Each line that cannot stand where it does is refused, and so is a listing that is cut off."""
        for text in (
            "",
            LISTING[:-4],
            LISTING.replace("LITERALS 1", "LITERALS 2"),
            LISTING.replace("PROCEDURE p\n", ""),
            LISTING.replace("PLACE 1 ", "PLACE 2 "),
            LISTING.replace("LITERAL 1 ", "LITERAL 2 "),
            LISTING.replace("i <= 8", "i =< 8"),
            LISTING.replace("THREAT 3 REGION L3\n", ""),
        ):
            with self.assertRaises(NotAListing, msg=text):
                read_listing(text)


class Rules(unittest.TestCase):
    """When a certificate is accepted."""

    def setUp(self) -> None:
        self.procedure = read_listing(LISTING)[0]
        self.threats = {threat.number: threat for threat in self.procedure.threats}

    def accepts(self, number: int, certificate: Certificate) -> bool:
        """Whether a certificate is accepted for a threat of the sum."""
        threat = self.threats[number]
        return is_accepted(certificate, self.procedure, threat.region, threat.literals)

    def test_certificates_by_hand(self) -> None:
        """Those that were worked out by hand are accepted, each for its own threat alone."""
        for number, text in OUTSIDE.items():
            for other in OUTSIDE:
                self.assertEqual(self.accepts(other, by_hand(text)), number == other, (number, other))

    def test_wrong_ones(self) -> None:
        """A certificate with one thing changed is not accepted."""
        for change, into in (
            ("UP 3 1", "UP 3 2"),
            ("UP 3 1", "DOWN 3 1"),
            ("UP 3 1", "UP 3 0"),
            ("UP 3 1", "UP 3 65537"),
            ("UP 3 1", "UP 9 1"),
            ("SPLIT 3", "SPLIT 2"),
            ("DOWN 2 1, END", "END"),
            ("UP 1 1, UP 2 1, END", "END"),
        ):
            text = OUTSIDE[3].replace(change, into, 1)
            self.assertNotEqual(text, OUTSIDE[3])
            self.assertFalse(self.accepts(3, by_hand(text)), text)

    def test_a_sum_of_zero(self) -> None:
        """A sum that comes to 0 shows nothing."""
        self.assertFalse(self.accepts(3, by_hand("SUM, UP 1 1, DOWN 1 1, END")))

    def test_shares(self) -> None:
        """128 shares are allowed, one more is not, and none is not."""
        procedure, threat = procedure_with(["NEVER"])
        for count, accepted in ((0, False), (1, True), (128, True), (129, False)):
            certificate = Sum((Share(Item("NEVER", 0), 1),) * count)
            self.assertEqual(is_accepted(certificate, procedure, threat.region, threat.literals), accepted, count)

    def test_depth(self) -> None:
        """16 splits in one another are allowed, one more is not; a literal is split once."""
        literals = [f"x /= {number}" for number in range(20)] + ["NEVER"]
        procedure, threat = procedure_with(literals)
        leaf: Certificate = Sum((Share(Item("NEVER", 20), 1),))
        for depth in range(1, 18):
            certificate = leaf
            for number in range(depth):
                certificate = Split(number, leaf, certificate)
            self.assertEqual(is_accepted(certificate, procedure, threat.region, threat.literals), depth <= 16, depth)
        self.assertFalse(is_accepted(Split(0, leaf, Split(0, leaf, leaf)), procedure, threat.region, threat.literals))

    def test_quantities(self) -> None:
        """Coefficients are divided by their greatest common factor, and the bound is rounded to the side that keeps whole numbers."""
        literals = [f"2*x - 4*y {rest}" for rest in ("<= 5", "< 4", ">= 5", "> -4", "= 6", "/= 6")] + ["NEVER"]
        places = [Place("x", -1, 9), Place("y", 0, 7), Place("OLD x", -1, 9)]
        procedure, threat = procedure_with(literals, places, 0)
        up, down = (("x", -1), ("y", 2)), (("x", 1), ("y", -2))
        for word, index, wanted in (
            ("UP", 0, Quantity(2, up)),
            ("UP", 1, Quantity(1, up)),
            ("UP", 2, None),
            ("UP", 4, Quantity(3, up)),
            ("UP", 5, None),
            ("DOWN", 0, None),
            ("DOWN", 2, Quantity(-3, down)),
            ("DOWN", 3, Quantity(1, down)),
            ("DOWN", 4, Quantity(-3, down)),
            ("DOWN", 5, None),
            ("NEVER", 6, Quantity(-1, ())),
            ("NEVER", 5, None),
            ("UP", 6, None),
            ("UP", 7, None),
            ("LOW", 0, Quantity(1, (("x", 1),))),
            ("HIGH", 1, Quantity(7, (("y", -1),))),
            ("HIGH", 3, None),
            ("OLDUP", 2, Quantity(0, (("x", 1), ("OLD x", -1)))),
            ("OLDDOWN", 2, Quantity(0, (("x", -1), ("OLD x", 1)))),
            ("OLDUP", 0, None),
        ):
            self.assertEqual(quantity_of(Item(word, index), procedure, 0, threat.literals), wanted, (word, index))
        self.assertIsNone(quantity_of(Item("OLDUP", 2), procedure, 4, threat.literals))

    def test_text(self) -> None:
        """A certificate is written line by line, and read back it is the same."""
        text = written(by_hand(OUTSIDE[4]), "p", self.threats[4])
        self.assertEqual(text, "CERT p 4\n" + OUTSIDE[4].replace(", ", "\n") + "\n")


class Solvers(unittest.TestCase):
    """Each solver answers factors or a point, whichever there is."""

    def check(self, quantities: Sequence[Quantity], answer: Union[list[Fraction], dict[str, Fraction]]) -> bool:
        """Checks an answer by adding up; answers whether it was factors."""
        if isinstance(answer, list):
            left: dict[str, Fraction] = {}
            for factor, quantity in zip(answer, quantities):
                self.assertGreaterEqual(factor, 0)
                for part, count in quantity.parts:
                    left[part] = left.get(part, Fraction(0)) + factor * count
            self.assertFalse(any(left.values()))
            self.assertLess(sum(factor * quantity.number for factor, quantity in zip(answer, quantities)), 0)
            return True
        for quantity in quantities:
            self.assertGreaterEqual(quantity.number + sum(count * answer[part] for part, count in quantity.parts), 0)
        return False

    def test_random_quantities(self) -> None:
        """On random quantities each answer adds up, and the solvers agree on which kind there is."""
        chance = random.Random(35)
        kinds = []
        for _ in range(60):
            quantities = []
            for _ in range(chance.randint(1, 8)):
                parts = {part: chance.randint(-4, 4) for part in chance.sample("abcd", chance.randint(1, 3))}
                quantities.append(Quantity(chance.randint(-6, 4), tuple((part, count) for part, count in parts.items() if count)))
            told = [self.check(quantities, solver.solve(quantities)) for solver in solvers()]
            self.assertEqual(len(set(told)), 1)
            kinds.append(told[0])
        self.assertGreater(sum(kinds), 10)
        self.assertLess(sum(kinds), 50)

    def test_no_parts(self) -> None:
        """A number alone is a contradiction where it is below 0."""
        for solver in solvers():
            self.assertTrue(self.check([Quantity(-3, ())], solver.solve([Quantity(-3, ())])))
            self.assertFalse(self.check([Quantity(3, ())], solver.solve([Quantity(3, ())])))

    def test_a_program_that_is_no_solver(self) -> None:
        """What answers neither sat nor unsat is told as a failure, and the threat as not settled."""
        with self.assertRaises(SolverFailed):
            Z3("/bin/true").solve([Quantity(-3, ())])
        found, why = found_by(Z3("/bin/true"), ["NEVER"])
        self.assertIsNone(found)
        self.assertIn("z3 answers", why)

    def test_which_is_taken(self) -> None:
        """Z3 is taken where it is on PATH, and else the simplex."""
        with mock.patch.object(shutil, "which", return_value=None):
            self.assertIsInstance(find_solver(), Simplex)
        if shutil.which("z3") is not None:
            self.assertRegex(find_solver().name, r"^Z3 \d")


class Searches(unittest.TestCase):
    """What the search finds, and what it says where it finds nothing."""

    def test_the_sum(self) -> None:
        """The open threats of the sum have certificates."""
        for solver in solvers():
            procedure = read_listing(LISTING)[0]
            for threat in procedure.threats:
                found = Search(procedure, threat, solver, lambda: False).certificate()
                assert found is not None
                self.assertTrue(is_accepted(found, procedure, threat.region, threat.literals), (solver.name, threat.number))

    def test_what_is_found(self) -> None:
        """Threats with a certificate: by rounding, by products as parts, by OLD copies, by splits."""
        nine = [Place(name, 0, 9) for name in ("x", "y", "z", "OLD x")]
        for literals, region in (
            (["NEVER"], 1),
            (["2*x - 2*y = 1"], 1),
            (["x + y + z >= 28"], 1),
            (["x*y <= 12", "x*y + z > 21"], 1),
            (["(x DIV 2) + y >= 10", "(x DIV 2) <= 0"], 1),
            (["x + y - OLD x > 9"], 0),
            (["x + y <= 9", "y - OLD x >= 1", "x + y >= 9", "x >= 5"], 0),
            (["x + y /= 3", "x + y >= 3", "x + y <= 3"], 1),
            ([*(f"x + y + z /= {number}" for number in range(5)), "x + y + z <= 4"], 1),
            ([*(f"x + y /= {number}" for number in range(16)), "x + y <= 15"], 1),
            (["65537*x + y + z <= 65536", "x >= 1"], 1),
        ):
            for solver in solvers():
                found, why = found_by(solver, literals, nine, region)
                self.assertIsNotNone(found, (solver.name, literals, why))

    def test_what_has_none(self) -> None:
        """Where fractions meet all literals there is no certificate, and the fractions are told."""
        nine = [Place(name, 0, 9) for name in ("x", "y", "OLD x")]
        for literals, region in (
            (["x + y >= 18"], 1),
            (["x + y - OLD x > 9"], 1),
            (["2*x + 3*y = 1"], 1),
            (["x*x >= 82"], 1),
            (["x + y /= 3"], 1),
        ):
            for solver in solvers():
                found, why = found_by(solver, literals, nine, region)
                self.assertIsNone(found)
                self.assertIn("no certificate exists: as fractions, ", why)

    def test_splits_that_are_too_deep(self) -> None:
        """17 values that are ruled out one by one need 17 splits in one another, or fewer where the halves are taken."""
        literals = [*(f"x + y /= {number}" for number in range(18)), "x + y <= 17"]
        for solver in solvers():
            found, why = found_by(solver, literals, [Place("x", 0, 9), Place("y", 0, 9)])
            self.assertTrue(found is not None or "at most 16 splits" in why, why)

    def test_out_of_time(self) -> None:
        """A threat is given up where its seconds are over."""
        procedure, threat = procedure_with(["NEVER"])
        search = Search(procedure, threat, Simplex(), lambda: True)
        self.assertIsNone(search.certificate())
        self.assertEqual(search.why, "no certificate was found in time")

    def test_a_solver_is_not_trusted(self) -> None:
        """Factors that do not add up give no certificate."""

        class Wrong:
            """Answers ones."""

            name = "wrong"

            def solve(self, quantities: Sequence[Quantity]) -> list[Fraction]:
                """Factors of 1."""
                return [Fraction(1)] * len(quantities)

        found, why = found_by(Wrong(), ["x <= 3"], [Place("x", 0, 9)])
        self.assertIsNone(found)
        self.assertEqual(why, "what was found is not accepted")

    def test_factors(self) -> None:
        """Fractions are scaled to the least whole factors; one that is too great is spread over shares; too many shares are none."""
        items = [Item("UP", 0), Item("DOWN", 1), Item("LOW", 2)]
        made = whole_shares(items, [Fraction(1, 2), Fraction(0), Fraction(1, 3)])
        self.assertEqual(made, Sum((Share(items[0], 3), Share(items[2], 2))))
        made = whole_shares(items, [Fraction(65_537), Fraction(1), Fraction(0)])
        self.assertEqual(made, Sum((Share(items[0], 65_536), Share(items[0], 1), Share(items[1], 1))))
        self.assertIsNone(whole_shares(items, [Fraction(65_536 * 128), Fraction(1), Fraction(0)]))


class Stand:
    """A stand-in for a program: what it says of any text."""

    def __init__(self, status: int, output: str) -> None:
        self.given: list[bytes] = []
        self._outcome = Outcome(status, output)

    def run(self, data: bytes) -> Outcome:
        """Says it, and keeps the text."""
        self.given.append(data)
        return self._outcome


class Texts(unittest.TestCase):
    """What is written."""

    def found(self) -> Certified:
        """What is found for the sum."""
        return certify_all(read_listing(LISTING), Simplex(), 60)

    def test_behind_the_text(self) -> None:
        """The text stays, then come the mark and the certificates in the order of their threats."""
        made = with_certificates(SUM, self.found())
        self.assertTrue(made.startswith(SUM + "%%\nCERT p 3\nSPLIT 3\n"))
        self.assertEqual([line for line in made.split("\n") if line.startswith("CERT")], ["CERT p 3", "CERT p 4", "CERT p 6"])
        self.assertEqual(with_certificates(SUM, Certified()), SUM)
        self.assertTrue(with_certificates(SUM[:-1], self.found()).startswith(SUM + "%%\n"))

    def test_those_that_stand_there(self) -> None:
        """A certificate that stands there stays where none was found, and is replaced where one was."""
        standing = "CERT p 4\nSUM\nNEVER 0 1\nEND\nCERT q 2\nSPLIT 0\nSUM\nUP 0 1\nEND\nSUM\nDOWN 0 1\nEND\n"
        made = with_certificates(SUM + "%%\n" + standing, self.found())
        self.assertEqual(made.count("%%\n"), 1)
        self.assertNotIn("NEVER", made)
        self.assertTrue(made.endswith("CERT q 2\nSPLIT 0\nSUM\nUP 0 1\nEND\nSUM\nDOWN 0 1\nEND\n"))
        self.assertEqual(with_certificates(made, self.found()), made)

    def test_notes(self) -> None:
        """Each threat is told as settled or not, with the reason."""
        listing = LISTING.replace("LITERAL 4 s > 17", "LITERAL 4 s > 7")
        found = certify_all(read_listing(listing), Simplex(), 60)
        self.assertEqual(found.notes[0], "p: threat 3: certificate found, 2 sums behind 1 split")
        why = r"^p: threat 6: not settled: no certificate exists: as fractions, i = .* meets all its literals$"
        self.assertRegex(found.notes[2], why)
        self.assertEqual((len(found.blocks), found.threats), (2, 3))


def programs() -> Optional[tuple[Program, Program]]:
    """The two programs that the variables name, where the first one knows certificates."""
    malpas, literals = os.environ.get("MALPAS"), os.environ.get("MALPAS_LITERALS")
    built = TOP / "crates" / "malpas" / "out" / "malpas", TOP / "crates" / "malpas_literals" / "out" / "malpas_literals"
    first = Path(shutil.which(malpas) or malpas) if malpas else built[0]
    second = Path(shutil.which(literals) or literals) if literals else built[1]
    if not (os.access(first, os.X_OK) and os.access(second, os.X_OK)):
        return None
    program = Program(first.resolve(), (WORD,))
    return (replace(program, words=()), Program(second.resolve())) if program.run(SUM.encode()).status != Status.WORDS else None


class Whole(unittest.TestCase):
    """The word, with the programs or with what stands in for them."""

    def setUp(self) -> None:
        room = tempfile.TemporaryDirectory()
        self.addCleanup(room.cleanup)
        self.file = str(Path(room.name) / "sum.mal")
        Path(self.file).write_text(SUM, encoding="ascii")
        self.room = room.name

    def script(self, name: str, text: str) -> str:
        """A program of the shell."""
        path = Path(self.room) / name
        path.write_text(f"#!/bin/sh\n{text}", encoding="ascii")
        path.chmod(0o755)
        return str(path)

    def run_word(self, *words: str) -> tuple[int, str, str]:
        """Runs `assess certify` on the sum: status, standard output, standard error."""
        with redirect_stdout(io.StringIO()) as out, redirect_stderr(io.StringIO()) as errors:
            status = main(["certify", *words, self.file])
        return status, out.getvalue(), errors.getvalue()

    def test_with_stand_ins(self) -> None:
        """The text with its certificates is written, and the status is that of the program that checks them."""
        checks = 'case "$*" in\n*--certificates*) cat > /dev/null; exit 0 ;;\n*) cat > /dev/null; exit 1 ;;\nesac\n'
        malpas = self.script("malpas", checks)
        literals = self.script("malpas_literals", f"cat > /dev/null\ncat << LISTED\n{LISTING}LISTED\n")
        status, out, errors = self.run_word("--program", malpas)
        self.assertEqual(status, 0, errors)
        self.assertTrue(out.startswith(SUM + "%%\nCERT p 3\n"))
        self.assertIn("certificates for 3 of 3 open threats, by ", errors)
        self.assertIn("malpas --certificates: a report was written, and what it analyses leaves nothing open (status 0)", errors)
        malpas = self.script("other", 'cat > /dev/null\n[ $# -eq 0 ] || exit 6\nexit 1\n')
        status, out, errors = self.run_word("--program", malpas, "--literals", literals)
        self.assertEqual(status, 6)
        self.assertIn("this malpas does not know --certificates, so it checked none of them", errors)

    def test_certificates_that_are_not_accepted(self) -> None:
        """Where the program does not accept one that was found, that is told."""
        checks = 'cat > /dev/null\n[ $# -eq 0 ] || printf "CERTIFICATES\\nREAD 3 HOLDS\\nREAD 4 FAILS\\n"\nexit 1\n'
        malpas = self.script("malpas", checks)
        self.script("malpas_literals", f"cat > /dev/null\ncat << LISTED\n{LISTING}LISTED\n")
        status, _, errors = self.run_word("--program", malpas)
        self.assertEqual(status, 1)
        self.assertIn("malpas does not accept what stands for threat 4", errors)

    def test_a_text_that_is_refused(self) -> None:
        """A refused text is told as `check` tells it, and nothing is written."""
        malpas = self.script("malpas", "cat > /dev/null\necho 'malpas: E06 at byte 0: statement out of order'\nexit 2\n")
        literals = self.script("malpas_literals", "exit 7\n")
        status, out, errors = self.run_word("--program", malpas, "--literals", literals)
        self.assertEqual((status, out), (2, ""))
        self.assertIn("sum.mal:1:1: E06: statement out of order", errors)

    def test_a_listing_that_is_not_known(self) -> None:
        """A second program that says something else is told."""
        malpas = self.script("malpas", "cat > /dev/null\nexit 1\n")
        for text in ("cat > /dev/null\necho other\n", "cat > /dev/null\nexit 5\n"):
            literals = self.script("malpas_literals", text)
            status, out, errors = self.run_word("--program", malpas, "--literals", literals)
            self.assertEqual((status, out), (7, ""))
            self.assertIn("listing" if "other" in text else "status 5", errors)

    def test_beside_the_unproved_program(self) -> None:
        """Beside `quick` the second program is `quick_literals`."""
        malpas = self.script("quick", "cat > /dev/null\nexit 1\n")
        self.script("malpas_literals", "exit 9\n")
        self.script("quick_literals", f"cat > /dev/null\ncat << LISTED\n{LISTING}LISTED\n")
        status, _, errors = self.run_word("--program", malpas)
        self.assertEqual(status, 1)
        self.assertIn("certificates for 3 of 3 open threats", errors)

    def test_no_second_program(self) -> None:
        """Where the second program is not there, that is told."""
        malpas = self.script("malpas", "cat > /dev/null\nexit 1\n")
        status, _, errors = self.run_word("--program", malpas, "--literals", f"{self.room}/none")
        self.assertEqual(status, 7)
        self.assertIn("is no program that can be run", errors)

    @unittest.skipUnless(programs(), "no malpas that knows --certificates, or no malpas_literals, is built")
    def test_the_sum_comes_to_status_0(self) -> None:
        """The three open threats of the sum are settled, and the program says so; the listing is the one of these tests."""
        found = programs()
        assert found is not None
        malpas, literals = found
        self.assertEqual(literals.run(SUM.encode()).output, LISTING)
        for solver in solvers():
            out, errors = io.StringIO(), io.StringIO()
            self.assertEqual(certify(self.file, malpas, literals, out, errors, solver=solver), 0, errors.getvalue())
            done = subprocess.run([str(malpas.path), WORD], input=out.getvalue(), capture_output=True, text=True, check=False)
            self.assertEqual(done.returncode, 0)
            self.assertIn("CERTIFICATES\nREAD 3 HOLDS\nREAD 4 HOLDS\nREAD 6 HOLDS\n", done.stdout)


if __name__ == "__main__":
    unittest.main()
