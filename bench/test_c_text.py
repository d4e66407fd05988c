"""Holds the C that bench/peers gives to Frama-C against the language: it compiles without a warning, and from the same values its runs
end as those of the line machine of tools/model do, with the annotations of ACSL as checks."""

import random
import re
import shutil
import sys
import tempfile
import unittest
from collections import Counter
from pathlib import Path

TOP = Path(__file__).resolve().parent.parent
sys.path[:0] = [str(TOP / "tools"), str(TOP / "bench")]

from c_text import Translator  # noqa: E402
from c_trial import compiled, program, runs  # noqa: E402
from model.accepting import accept  # noqa: E402
from model.inventing import invented  # noqa: E402
from model.machine import step  # noqa: E402
from model.making import made_text  # noqa: E402
from model.refusal import Refused  # noqa: E402

MOST_STEPS = 3000
# What invented texts have and no assessor writes.
IDLE = ["-Wno-tautological-compare", "-Wno-unused-label", "-Wno-unused-function"]


def procedures(text):
    """The checked procedures of a text, each with its C."""
    return list(zip(accept(text).procedures, Translator(text).translate(), strict=True))


def examples():
    """The examples that are accepted and call nothing."""
    texts = [(it.stem, it.read_bytes()) for it in sorted((TOP / "examples").glob("*.mal")) if it.stem != "refused"]
    return [(name, text) for name, text in texts if b"CALL" not in text]


def inputs(choice, procedure, text, number):
    """Values of the variables within their ranges: the ends, numbers of the text and their neighbours, and any others."""
    told = {int(it) + near for it in re.findall(rb"\d+", text) for near in (-1, 0, 1)}
    found = set()
    for _ in range(number):
        values = []
        for place in (procedure.places[it] for it in procedure.variables()):
            liked = [it for it in (place.least, place.greatest, *sorted(told)) if place.least <= it <= place.greatest]
            values.append(choice.choice(liked) if choice.random() < 0.5 else choice.randint(place.least, place.greatest))
        found.add(tuple(values))
    return sorted(found)


def run(procedure, values):
    """How the line machine's run from these values ends, and with which values; None where it goes on for long."""
    state = (*values, *(values[procedure.variable_of(it)] for it, place in enumerate(procedure.places) if place.old))
    line, stop = 0, None
    for _ in range(MOST_STEPS):
        line, stop, state, _ = step(procedure, line, state)
        if stop is not None:
            return stop, state[: len(values)]
    return None


def read(procedure, how, number, values):
    """The same of a run of the C, in the machine's words; an assignment out of its range gives no value."""
    if how != "CHECK":
        return (how, -1), values
    line = [it for it, line in enumerate(procedure.lines) if line.form in ("ASSIGN", "ASSERT")][number]
    if procedure.lines[line].form == "ASSERT":
        return ("ASSERT", line), values
    return ("RANGE", line), (*values[: procedure.lines[line].place], None, *values[procedure.lines[line].place + 1 :])


def agree(told, wanted):
    """Whether both runs end alike; by the C a division by zero has no line."""
    (stop, values), (wanted_stop, wanted_values) = told, wanted
    if wanted_stop[0] == "DIVZERO":
        wanted_stop = "DIVZERO", -1
    return stop == wanted_stop and all(one in (None, other) for one, other in zip(values, wanted_values, strict=True))


@unittest.skipUnless(shutil.which("gcc"), "gcc is not here")
class Translation(unittest.TestCase):
    def setUp(self):
        room = tempfile.TemporaryDirectory()
        self.addCleanup(room.cleanup)
        self.room = room.name
        self.ends = Counter()

    def try_text(self, name, text, number, *words):
        """Runs the C of each procedure from so many inputs, and holds each run against the machine's."""
        choice = random.Random(f"{name} 1")
        for procedure, (c_name, source) in procedures(text):
            places = [procedure.places[it].name for it in procedure.variables()]
            made, said = compiled(self.room, f"{name}_{c_name}", program(c_name, source, places), *words)
            self.assertEqual(said, "", f"{name}, {c_name}")
            wanted = {it: run(procedure, it) for it in inputs(choice, procedure, text, number)}
            wanted = {it: end for it, end in wanted.items() if end}
            found = runs(made, wanted) if wanted else []
            self.assertEqual(len(found), len(wanted))
            for (values, end), told in zip(wanted.items(), found):
                self.ends[end[0][0]] += 1
                self.assertTrue(agree(read(procedure, *told), end), f"{name}, {c_name} from {values}: C {told}, machine {end}")

    def test_the_examples_compile_as_they_are_written(self):
        for name, text in examples():
            for c_name, source in Translator(text).translate():
                with self.subTest(text=name, procedure=c_name):
                    self.assertEqual(compiled(self.room, c_name, source, "-c")[1], "")

    def test_calls_are_not_translated(self):
        text = (TOP / "examples" / "voted_trip.mal").read_bytes()
        self.assertRaises(ValueError, Translator(text).translate)

    def test_runs_of_the_examples(self):
        for name, text in examples():
            with self.subTest(text=name):
                self.try_text(name, text, 100)
        self.assertGreaterEqual(sum(self.ends.values()), 500)
        self.assertLessEqual({"END", "POST", "OUTSIDE"}, set(self.ends))

    def test_runs_of_a_made_text(self):
        self.try_text("made", made_text(20), 50)
        self.assertEqual(set(self.ends), {"END"})

    def test_runs_of_invented_texts(self):
        seed = tried = 0
        while tried < 60:
            seed += 1
            text = invented(seed)
            try:
                accept(text)
            except Refused:
                continue
            if re.search(rb"\d{6}", text):
                continue
            tried += 1
            with self.subTest(seed=seed):
                self.try_text(f"invented{seed}", text, 40, *IDLE)
        self.assertGreaterEqual(sum(self.ends.values()), 500)
        self.assertLessEqual({"END", "POST", "OUTSIDE", "ASSERT", "RANGE", "DIVZERO"}, set(self.ends))


if __name__ == "__main__":
    unittest.main()
