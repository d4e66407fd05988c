"""A malpas program and the model on random texts: where they differ, the text and the first line in which they do."""

from __future__ import annotations

import argparse
import random
import subprocess
from dataclasses import dataclass
from pathlib import Path
from typing import Callable, Iterator

from model.accepting import accept, written
from model.command import answer_words, deeply
from model.exhaustive import faults_of
from model.graphs import Graph, graph_of
from model.inventing import invented
from model.inventing_calls import invented_calls
from model.printing import SECTIONS
from model.refusal import Refused
from model.slipping import slipped
from model.straining import strained
from model.straying import strays_of
from model.terms import forget

ENTRIES = ("CYCLE ", "FIRST ", "SECOND ")


@dataclass(frozen=True)
class Answer:
    """What is printed, and the exit status."""

    output: str
    status: int

    def sections(self) -> dict[tuple[int, str], list[str]]:
        """The lines of each section of each procedure; what stands outside sections is under an empty name."""
        found: dict[tuple[int, str], list[str]] = {}
        procedure, section = -1, ""
        for line in self.output.split("\n"):
            if line.startswith("PROCEDURE "):
                procedure, section = procedure + 1, ""
            elif line.startswith("STATUS "):
                procedure, section = -2, "STATUS"
            elif line in SECTIONS:
                section = line
            found.setdefault((procedure, section), []).append(line)
        return found


WORDS = [f"--{section.lower()}" for section in SECTIONS] * 4
WORDS += ["--generate", "--generate=2", "3", "7", "0", "201", "007", "--generate=", "--", "--help", "--flow=x", "-flow", "flow", ""]


def words_for(name: str) -> list[str]:
    """Random words for a text: report words, and now and then others."""
    choice = random.Random(name)
    return choice.choices(WORDS[: len(SECTIONS) if choice.random() < 0.7 else None], k=choice.choice([0, 1, 1, 2, 3]))


def run(program: list[str], text: bytes, seconds: float) -> Answer:
    """The program's answer to a text; a run that takes too long has the status -1."""
    try:
        done = subprocess.run(program, input=text, capture_output=True, timeout=seconds, check=False)
    except subprocess.TimeoutExpired:
        return Answer("", -1)
    return Answer(done.stdout.decode("latin-1") + done.stderr.decode("latin-1"), done.returncode)


def modelled(words: list[str], text: bytes) -> Answer:
    """The model's answer to words and a text; where the model itself breaks down, that is its answer."""
    forget()
    try:
        return Answer(*answer_words(words, lambda: text))
    except Exception as trouble:  # pylint: disable=broad-exception-caught
        return Answer(f"the model breaks down: {trouble!r}", 70)


def lines_of(line: str) -> list[int]:
    """The lines of a list, as in `FIRST L0 L1`; none where a word is none."""
    words = line.split(" ")[1:]
    return [int(word[1:]) for word in words] if all(word[:1] == "L" and word[1:].isdigit() for word in words) else []


def is_path(graph: Graph, lines: list[int]) -> bool:
    """Whether lines follow each other along arcs and none stands twice."""
    known = all(0 <= line < len(graph.after) for line in lines)
    return known and len(set(lines)) == len(lines) and all(two in graph.after[one] for one, two in zip(lines, lines[1:]))


def entries_hold(graph: Graph, evidence: list[str]) -> bool:
    """Whether the three lines show a cycle from its least line on, and two paths that first meet it at two lines."""
    cycle, first, second = (lines_of(line) for line in evidence)
    if not (cycle and first and second) or not all(is_path(graph, lines) for lines in (cycle, first, second)):
        return False
    closed = cycle[0] == min(cycle) and cycle[0] in graph.after[cycle[-1]]
    meet = all(path[0] == 0 and [line for line in path if line in cycle] == path[-1:] for path in (first, second))
    return closed and meet and first[-1] < second[-1]


def without_evidence(text: bytes, procedure: int, lines: list[str]) -> list[str]:
    """A control section without its cycle and paths where these hold, since which are shown is free."""
    evidence = [line for line in lines if line.startswith(ENTRIES)]
    if len(evidence) != 3:
        return lines
    checked = accept(text).procedures
    if procedure >= len(checked) or not entries_hold(graph_of(checked[procedure]), evidence):
        return lines
    return [line for line in lines if not line.startswith(ENTRIES)]


def first_difference(program: list[str], model: list[str]) -> str | None:
    """The first line in which two lists differ."""
    for number in range(max(len(program), len(model))):
        one = program[number] if number < len(program) else None
        two = model[number] if number < len(model) else None
        if one != two:
            return f"the program has {one!r}, the model {two!r}"
    return None


def difference(text: bytes, program: Answer, model: Answer, skipped: set[str]) -> str | None:
    """The first difference of two answers, apart from sections that are skipped; None where there is none."""
    if {2, 6, 70} & {program.status, model.status} or not program.output.startswith("MALPAS "):
        same = program == model
        return None if same else f"the program says {program.output[:200]!r} ({program.status}), the model {model.output[:200]!r}"
    ours, theirs = model.sections(), program.sections()
    for key in [*ours, *(key for key in theirs if key not in ours)]:
        procedure, section = key
        if section in skipped:
            continue
        sides = [answer.get(key, []) for answer in (theirs, ours)]
        if section == "CONTROL":
            sides = [without_evidence(text, procedure, side) for side in sides]
        found = first_difference(*sides)
        if found is not None:
            return f"procedure {procedure}, {section or 'head'}: {found}"
    if "STATUS" not in skipped and program.status != model.status:
        return f"the program ends with {program.status}, the model with {model.status}"
    return None


def shrunk(text: bytes, differs: Callable[[bytes], bool]) -> bytes:
    """A text with as few lines as possible that still differs."""
    lines = text.split(b"\n")
    size = max(1, len(lines) // 2)
    while size:
        start = 0
        while start < len(lines):
            fewer = lines[:start] + lines[start + size :]
            if fewer and differs(b"\n".join(fewer)):
                lines = fewer
            else:
                start += size
        size //= 2
    return b"\n".join(lines)


class Comparison:
    """Compares one program with the model on texts, and keeps count."""

    def __init__(self, options: argparse.Namespace) -> None:
        self.program = [options.program]
        self.options = options
        self.skipped = set(options.skip)
        if self.skipped & {"SEMANTIC", "COMPLIANCE"}:
            self.skipped.add("STATUS")
        self.passed = 0
        self.failed = 0

    def difference_of(self, words: list[str], text: bytes) -> str | None:
        """The difference that a text shows with some words."""
        program = run([*self.program, *words], text, self.options.seconds)
        model = modelled(words, text)
        if program.status == -1:
            return "the program took too long"
        return difference(text, program, model, self.skipped)

    def compare(self, name: str, text: bytes) -> None:
        """Compares on one text."""
        words = words_for(name) if self.options.words else WORDS[: len(SECTIONS)] if self.options.all else []
        found = self.difference_of(words, text)
        if found is None:
            self.passed += 1
            return
        self.failed += 1
        if self.options.shrink:
            text = shrunk(text, lambda fewer: self.difference_of(words, fewer) is not None)
            found = self.difference_of(words, text)
        print(f"{' '.join([name, *words])}: {found}\n{text.decode('latin-1')}", flush=True)

    def try_inputs(self, name: str, text: bytes) -> None:
        """Tries the model's own report of a text on every input of its small procedures, and calls against the stack machine."""
        forget()
        try:
            faults = faults_of(accept(text), self.options.states)
            faults += strays_of(written(text), name, self.options.states)
        except Refused:
            return
        if faults:
            self.failed += 1
            print(f"{name}: the model alone: {faults[0]}\n{text.decode('latin-1')}", flush=True)


def texts_of(options: argparse.Namespace) -> Iterator[tuple[str, bytes]]:
    """The texts to compare on, each with a name."""
    for path in options.files:
        yield path, Path(path).read_bytes()
    if options.files:
        return
    for seed in range(options.seed, options.seed + options.count):
        yield f"text {seed}", invented_calls(seed) if options.calls else invented(seed)
        yield f"text {seed} with slips", slipped(seed, options.calls)
    for seed in range(options.seed, options.seed + options.limits):
        yield f"text {seed} at a limit", strained(seed, options.calls)


def read_options(words: list[str]) -> argparse.Namespace:
    """The words of the command line."""
    parser = argparse.ArgumentParser(prog="compare", description=__doc__)
    parser.add_argument("program", help="the malpas program; - for none, so that only --states is tried")
    parser.add_argument("files", nargs="*", help="texts to compare on in place of random ones")
    parser.add_argument("--count", type=int, default=200, help="how many random texts, each also with slips (200)")
    parser.add_argument("--limits", type=int, default=0, help="how many texts at the limits of the language and of regions (0)")
    parser.add_argument("--seed", type=int, default=0, help="the first text's number (0)")
    parser.add_argument("--seconds", type=float, default=60, help="the time that one run may take (60)")
    parser.add_argument("--skip", action="append", default=[], choices=SECTIONS, help="a section that is not compared")
    parser.add_argument("--states", type=int, default=0, help="try the model on all inputs of procedures of so few states")
    parser.add_argument("--words", action="store_true", help="give the program random words with each text")
    parser.add_argument("--all", action="store_true", help="ask for every section that the model has, also the test inputs")
    parser.add_argument("--calls", action="store_true", help="invent texts with calls")
    parser.add_argument("--shrink", action="store_true", help="make differing texts as small as possible")
    return parser.parse_args(words)


def compare_all(options: argparse.Namespace) -> int:
    """Compares on all texts; 1 where one differs."""
    comparison = Comparison(options)
    for name, text in texts_of(options):
        if options.program != "-":
            comparison.compare(name, text)
        if options.states and not name.endswith((" slips", " limit")):
            comparison.try_inputs(name, text)
            comparison.passed += options.program == "-"
    print(f"{comparison.passed} passed, {comparison.failed} failed")
    return 1 if comparison.failed else 0


def main(words: list[str]) -> int:
    """Runs the comparison on a stack that is large enough."""
    return deeply(compare_all, read_options(words))
