"""Solvers of linear inequalities over rational numbers: the program `z3`, and where it is not there an exact simplex.

A solver is given quantities and answers either factors, at least 0 each, with which they sum to a negative number and no part is
left, or a point at which each of them is at least 0."""

from __future__ import annotations

import re
import shutil
import subprocess
from fractions import Fraction
from typing import Mapping, Optional, Protocol, Sequence, Union

from assess_lib.certify_rules import Quantity

Factors = list[Fraction]
Point = Mapping[str, Fraction]


class SolverFailed(Exception):
    """A solver answers nothing that can be used."""


class Solver(Protocol):
    """What solves inequalities."""

    name: str

    def solve(self, quantities: Sequence[Quantity]) -> Union[Factors, Point]:
        """Factors, or a point."""


def _rows(quantities: Sequence[Quantity]) -> tuple[list[str], list[list[Fraction]]]:
    """The parts, and the equations of the factors: of each part nothing is left, and the numbers come to -1. Each row has the
    factors' coefficients, and its right side behind them."""
    parts = sorted({part for quantity in quantities for part, _ in quantity.parts})
    place = {part: at for at, part in enumerate(parts)}
    rows = [[Fraction(0)] * (len(quantities) + 1) for _ in range(len(parts) + 1)]
    for column, quantity in enumerate(quantities):
        for part, count in quantity.parts:
            rows[place[part]][column] += count
        rows[-1][column] = Fraction(-quantity.number)
    rows[-1][-1] = Fraction(1)
    return parts, rows


class Simplex:
    """The simplex method with R. G. Bland's rule (New finite pivoting rules for the simplex method, 1977), in fractions."""

    name = "the simplex of assess"

    def solve(self, quantities: Sequence[Quantity]) -> Union[Factors, Point]:
        """Factors, or a point: the first phase of the method finds the one or the other."""
        parts, rows = _rows(quantities)
        count = len(quantities)
        table = [row[:-1] + [Fraction(at == k) for k in range(len(rows))] + row[-1:] for at, row in enumerate(rows)]
        basis = [count + at for at in range(len(rows))]
        # What is left to be taken from the artificial factors, which stand behind the others.
        cost = [-sum(row[k] for row in table) for k in range(count)] + [Fraction(0)] * len(rows) + [-sum(row[-1] for row in table)]
        while True:
            column = next((k for k in range(count) if cost[k] < 0), None)
            if column is None:
                break
            self._pivot(table, basis, cost, column)
        if cost[-1] == 0:
            factors = [Fraction(0)] * count
            for row, member in zip(table, basis):
                if member < count:
                    factors[member] = row[-1]
            return factors
        prices = [1 - cost[count + at] for at in range(len(rows))]
        return {part: -prices[at] / prices[-1] for at, part in enumerate(parts)}

    @staticmethod
    def _pivot(table: list[list[Fraction]], basis: list[int], cost: list[Fraction], column: int) -> None:
        """Takes a factor into the basis, in place of one whose ratio is the least, and of these the one with the least number."""
        ratios = [(row[-1] / row[column], basis[at], at) for at, row in enumerate(table) if row[column] > 0]
        _, _, leaving = min(ratios)
        pivot = table[leaving]
        divisor = pivot[column]
        pivot[:] = [value / divisor if value else value for value in pivot]
        used = [k for k, value in enumerate(pivot) if value]
        for row in [*(row for row in table if row is not pivot), cost]:
            factor = row[column]
            if factor:
                for k in used:
                    row[k] -= factor * pivot[k]
        basis[leaving] = column


_SECONDS = 60
"""The seconds that z3 may take for one question."""
_VALUE = re.compile(r"\(([fx]\d+)\s+((?:\([^()]*(?:\([^()]*\)[^()]*)*\))|[^()\s]+)\)")
_NUMBER = re.compile(r"\d+(?:\.\d+)?")


def _number(text: str) -> Fraction:
    """A number as SMT-LIB writes it."""
    numbers = [Fraction(number) for number in _NUMBER.findall(text)]
    value = numbers[0] / numbers[1] if len(numbers) == 2 else numbers[0]
    return -value if "-" in text else value


def _linear(terms: Sequence[tuple[str, int]], number: int = 0) -> str:
    """A sum as SMT-LIB writes it."""
    written = [_signed(number)] + [f"(* {_signed(count)} {name})" for name, count in terms if count]
    return f"(+ {' '.join(written)} 0.0)"


def _signed(number: int) -> str:
    """A whole number as SMT-LIB writes a real one."""
    return f"{number}.0" if number >= 0 else f"(- {-number}.0)"


class Z3:
    """The program z3 (L. de Moura and N. Bjørner, Z3: an efficient SMT solver, 2008), asked in SMT-LIB."""

    def __init__(self, path: str) -> None:
        self._path = path
        told = subprocess.run([path, "--version"], capture_output=True, text=True, check=False).stdout
        version = re.search(r"\d+(?:\.\d+)+", told)
        self.name = f"Z3 {version.group()}" if version else "Z3"

    def solve(self, quantities: Sequence[Quantity]) -> Union[Factors, Point]:
        """A point where z3 finds one, else factors."""
        parts = sorted({part for quantity in quantities for part, _ in quantity.parts})
        names = {part: f"x{at}" for at, part in enumerate(parts)}
        each = [_linear([(names[part], count) for part, count in quantity.parts], quantity.number) for quantity in quantities]
        values = self._ask(list(names.values()), [f"(>= {one} 0.0)" for one in each])
        if values is not None:
            return {part: values[names[part]] for part in parts}
        factors = [f"f{at}" for at in range(len(quantities))]
        left = [
            f"(= {_linear([(f, dict(q.parts).get(part, 0)) for f, q in zip(factors, quantities)])} 0.0)" for part in parts
        ]
        total = f"(= {_linear([(f, q.number) for f, q in zip(factors, quantities)])} (- 1.0))"
        found = self._ask(factors, [f"(>= {f} 0.0)" for f in factors] + left + [total])
        if found is None:
            raise SolverFailed("z3 finds neither a point nor factors")
        return [found[f] for f in factors]

    def _ask(self, names: Sequence[str], conditions: Sequence[str]) -> Optional[dict[str, Fraction]]:
        """Values that meet the conditions; None where there are none."""
        lines = ["(set-logic QF_LRA)"]
        lines += [f"(declare-const {name} Real)" for name in names]
        lines += [f"(assert {condition})" for condition in conditions]
        lines += ["(check-sat)"] + ([f"(get-value ({' '.join(names)}))"] if names else [])
        words = [self._path, "-in", f"-T:{_SECONDS}"]
        done = subprocess.run(words, input="\n".join(lines), capture_output=True, text=True, check=False)
        verdict, _, rest = done.stdout.partition("\n")
        if verdict.strip() not in ("sat", "unsat"):
            raise SolverFailed(f"z3 answers {done.stdout.strip() or done.stderr.strip()}")
        if verdict.strip() == "unsat":
            return None
        return {name: _number(value) for name, value in _VALUE.findall(rest)}


def find_solver() -> Solver:
    """Z3 where its program is on PATH, else the simplex of this module."""
    path = shutil.which("z3")
    return Z3(path) if path is not None else Simplex()
