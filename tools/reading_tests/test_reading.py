"""docs/READING.md has exactly the definitions on which the headline rests; and the check says so of small repositories that lie in memory's
folder for a moment, with a name too few, a name too many, a renamed one, and the forms of definitions that bind names of their own."""

from __future__ import annotations

import tempfile
import unittest
from pathlib import Path

from reading.closure import Name, Specs
from reading.definitions import file_of
from reading.page import CLAUSE, CLAUSE_FILE, PAGE, differences, entries_of

TOP = Path(__file__).resolve().parent.parent.parent

CLAUSES = """
ghost use Rattle.std.specs.Prelude.{◌≡◌, Some};
ghost use Rattle.malpas.specs.Top.{Holds, Other};
pub fn malpas(n: u8) -> Outcome
    ensures other { Other n }
    ensures headline { Some (Holds n
        (λ at. at ≡ n)) ≡ result }
{
}
"""

TOP_SPECS = """-- What holds.
use Rattle.std.specs.Prelude.{◌≡◌, ℕ, Option, None, Some}
use Rattle.low.specs.Shape.{Shape, round, square_of as square}
use Rattle.low.specs.Sizes as sizes
use Rattle.low.specs.declared.row.Row.{Row}
use Rattle.low.specs.declared.row.Kind.TheVariants as kind

-- of a row; area stands in a comment
abbrev pub Holds : ℕ → (ℕ → Type 0) → Type 0
Holds n Has = (r : Row) × Has n × (sizes.width (square n) ≡ r.height) × IsRound round

abbrev pub IsRound : Shape → Type 0
IsRound round = Unit {0}
IsRound s = ⊥

abbrev pub Other : ℕ → Type 0
Other n = sizes.height n ≡ elim n [ zero ↦ 0 | suc m ↦ m ]
"""

SHAPE = """-- Shapes.
use Rattle.std.specs.Prelude.{ℕ, List, map}
use Rattle.low.specs.Sizes.{width, height, depth}

pub data Shape : Type 0 where
  round : Shape
  square : ℕ → Shape

-- width, height and depth are bound here, each in another way
abbrev pub square_of : ℕ → Shape
square_of width = square (let height = width in total (map (λ depth. depth) (record { height = height }).row))

unfoldable pub total : (depth : List ℕ) → ℕ
total depth = 0
"""

SIZES = """-- Sizes.
use Rattle.std.specs.Prelude.{ℕ}

abbrev mutual
  pub width : ℕ → ℕ
  width n = depth n

  pub depth : ℕ → ℕ
  depth n = n

abbrev pub height : ℕ → ℕ
height n = n
"""

ROW = "pub struct Row {\n    pub height: u8,\n}\n\npub enum Kind {\n    Plain,\n}\n"

FILES = {
    CLAUSE_FILE: CLAUSES,
    "crates/malpas/specs/Top.antt": TOP_SPECS,
    "crates/low/specs/Shape.antt": SHAPE,
    "crates/low/specs/Sizes.antt": SIZES,
    "crates/low/src/row.rt": ROW,
}

WHOLE = """# A page
- [Top](../crates/malpas/specs/Top.antt) what holds: `Holds`, `IsRound`
- [Shape](../crates/low/specs/Shape.antt) shapes: `Shape`, `square_of`, `total`
- [Sizes](../crates/low/specs/Sizes.antt) sizes: `width`, `depth`
- low: [row.rt](../crates/low/src/row.rt) `Row`
"""


def differences_of(page: str, files: dict[str, str] | None = None) -> list[str]:
    """What the check says of a page in a repository with these files."""
    with tempfile.TemporaryDirectory() as folder:
        for name, text in {**FILES, **(files or {})}.items():
            path = Path(folder) / name
            path.parent.mkdir(parents=True, exist_ok=True)
            path.write_text(text, encoding="utf-8")
        return differences(Path(folder), page)


class TheRepository(unittest.TestCase):
    def test_the_page_has_exactly_what_the_headline_rests_on(self) -> None:
        self.assertEqual(differences(TOP, (TOP / PAGE).read_text(encoding="utf-8")), [])

    def test_the_way_reaches_the_line_machine(self) -> None:
        specs = Specs(TOP)
        reached = specs.reached(specs.cited(CLAUSE_FILE, CLAUSE))
        for file, name in (("Machine", "step"), ("Run", "HasNoBadRun"), ("Expression", "Expression"), ("Statement", "Statement")):
            self.assertIn(Name(f"crates/il_core/specs/{file}.antt", name), reached)

    def test_every_word_of_every_definition_is_understood(self) -> None:
        specs = Specs(TOP)
        for path in sorted(TOP.glob("crates/*/specs/*.antt")):
            file = str(path.relative_to(TOP))
            for name in specs.file(file).definitions:
                specs.used_by(Name(file, name))


class TheCheck(unittest.TestCase):
    def test_a_whole_page_passes(self) -> None:
        self.assertEqual(differences_of(WHOLE), [])

    def test_a_missing_name_is_told(self) -> None:
        self.assertEqual(differences_of(WHOLE.replace(", `total`", "")), ["crates/low/specs/Shape.antt: total is missing"])

    def test_a_missing_type_is_told(self) -> None:
        self.assertEqual(differences_of(WHOLE.replace("`Row`", "")), ["crates/low/src/row.rt: Row is missing"])

    def test_a_superfluous_name_is_told(self) -> None:
        page = WHOLE.replace("`depth`", "`depth`, `height`")
        self.assertEqual(differences_of(page), ["crates/low/specs/Sizes.antt: height is superfluous"])

    def test_what_another_clause_cites_is_superfluous(self) -> None:
        self.assertEqual(differences_of(WHOLE.replace("`IsRound`", "`IsRound`, `Other`")), ["crates/malpas/specs/Top.antt: Other is superfluous"])

    def test_a_type_that_no_definition_names_is_superfluous(self) -> None:
        self.assertEqual(differences_of(WHOLE.replace("`Row`", "`Row`, `Kind`")), ["crates/low/src/row.rt: Kind is superfluous"])

    def test_a_constructor_is_no_name_of_its_own(self) -> None:
        self.assertEqual(differences_of(WHOLE.replace("`Shape`", "`Shape`, `round`")), ["crates/low/specs/Shape.antt has no round"])

    def test_a_renamed_definition_is_told(self) -> None:
        sizes = SIZES.replace("depth", "deepness")
        shape = SHAPE.replace(", depth}", "}")
        found = differences_of(WHOLE, {"crates/low/specs/Sizes.antt": sizes, "crates/low/specs/Shape.antt": shape})
        self.assertEqual(found, ["crates/low/specs/Sizes.antt has no depth", "crates/low/specs/Sizes.antt: deepness is missing"])

    def test_a_name_that_stands_twice_is_told(self) -> None:
        self.assertEqual(differences_of(WHOLE.replace("`total`", "`total`, `total`")), ["crates/low/specs/Shape.antt: total stands there twice"])

    def test_a_file_that_is_not_there_is_told(self) -> None:
        self.assertEqual(differences_of(WHOLE.replace("Sizes.antt", "Size.antt")), ["there is no file crates/low/specs/Size.antt"])

    def test_a_file_before_all_that_use_it_is_told(self) -> None:
        head, top, *rest = WHOLE.splitlines()
        page = "\n".join([head, rest[1], top, rest[0], rest[2]])
        self.assertEqual(differences_of(page), ["crates/low/specs/Sizes.antt stands before each file that uses it"])

    def test_names_out_of_their_file_s_order_are_told(self) -> None:
        self.assertEqual(differences_of(WHOLE.replace("`width`, `depth`", "`depth`, `width`")), ["crates/low/specs/Sizes.antt: the order there is width depth"])

    def test_a_word_that_nothing_brings_is_refused(self) -> None:
        with self.assertRaisesRegex(ValueError, "what is unheard in IsRound?"):
            differences_of(WHOLE, {"crates/malpas/specs/Top.antt": TOP_SPECS.replace("IsRound s = ⊥", "IsRound s = unheard s")})

    def test_an_import_of_what_is_not_there_is_refused(self) -> None:
        with self.assertRaisesRegex(ValueError, "crates/low/specs/Sizes.antt has no width"):
            differences_of(WHOLE, {"crates/low/specs/Sizes.antt": SIZES.replace("width", "breadth")})


class TheParts(unittest.TestCase):
    def test_a_line_of_the_page_may_have_several_files(self) -> None:
        entries = entries_of("- low: [a.rt](../crates/low/src/a.rt) `A`, `B`; [b.rt](../crates/low/src/b.rt) `C`\nno entry: `D`\n")
        self.assertEqual([(entry.file, entry.names) for entry in entries], [("crates/low/src/a.rt", ("A", "B")), ("crates/low/src/b.rt", ("C",))])

    def test_a_record_s_brackets_may_close_at_the_margin(self) -> None:
        file = file_of("abbrev pub a : T\na = record {\n  x = 1;\n}\n\nabbrev pub b : T\nb = a\n")
        self.assertEqual(list(file.definitions), ["a", "b"])

    def test_fields_and_constructors_are_parts(self) -> None:
        file = file_of("pub record R (n : ℕ) : Type 0 where\n  pub low : ℕ\n  pub high : n ≡\n      low\n\npub data D : Type 0 where\n  c : D → D\n")
        self.assertEqual([name for name, _ in file.definitions["R"].parts], ["low", "high"])
        self.assertEqual([name for name, _ in file.definitions["D"].parts], ["c"])


if __name__ == "__main__":
    unittest.main()
