"""Random texts: accepted ones, type by type, and slips in them."""

from __future__ import annotations

import random
from dataclasses import dataclass, field

from model.program import WHOLE

FLAG = "BOOL"
GREAT = 2**63 - 1


@dataclass
class Variable:
    """A variable of an invented procedure; its kind is WHOLE, FLAG or the name of an enumeration."""

    name: str
    mode: str
    kind: str
    least: int = 0
    greatest: int = 1


@dataclass
class Inventor:
    """Invents one text from a number."""

    choice: random.Random
    wide: bool = False
    jumps: bool = False
    lines: list[str] = field(default_factory=list)
    constants: dict[str, int] = field(default_factory=dict)
    types: dict[str, tuple[int, int]] = field(default_factory=dict)
    enumerations: dict[str, list[str]] = field(default_factory=dict)
    variables: list[Variable] = field(default_factory=list)
    labels: int = 0
    budget: int = 0
    place: str = "body"

    def say(self, statement: str) -> None:
        """Adds a statement."""
        self.lines.append(statement + ";")

    def small(self) -> int:
        """A number, mostly a small one."""
        if self.wide and self.choice.random() < 0.3:
            return self.choice.choice([GREAT, 2**62, 2**40 + 1, 2**31, 2**32 - 1, 10**18])
        return self.choice.choice([0, 0, 1, 1, 1, 2, 2, 3, 4, 5, 7, 10])

    def bounds(self) -> tuple[int, int]:
        """The bounds of a range."""
        if self.wide and self.choice.random() < 0.3:
            least = -self.choice.choice([0, 0, 1, 2**62, 2**63])
            return least, self.choice.choice([1, 2**31, 2**62, GREAT])
        least = self.choice.choice([0, 0, 0, 0, 1, -1, -2, -3])
        return least, least + self.choice.choice([0, 1, 1, 2, 3, 4])

    def declare_types(self) -> None:
        """Some constants and types."""
        for number in range(self.choice.randrange(3)):
            value = self.small() * self.choice.choice([1, 1, -1])
            self.constants[f"k{number}"] = value
            self.say(f"CONST k{number} = {value}")
        for number in range(self.choice.randrange(3)):
            least, greatest = self.bounds()
            self.types[f"t{number}"] = (least, greatest)
            self.say(f"TYPE t{number} = {self.choice.choice(['', '', 'WRAP '])}{least} .. {greatest}")
        for number in range(self.choice.randrange(2)):
            values = [f"v{number}_{index}" for index in range(self.choice.randrange(1, 4))]
            self.enumerations[f"e{number}"] = values
            self.say(f"TYPE e{number} = ( {', '.join(values)} )")

    def declare_variable(self, number: int) -> None:
        """One variable."""
        variable = Variable(f"x{number}", self.choice.choice(["IN", "INOUT", "OUT", "LOCAL"]), WHOLE)
        roll = self.choice.random()
        if roll < 0.15:
            variable.kind, use = FLAG, "BOOL"
        elif roll < 0.3 and self.enumerations:
            use = variable.kind = self.choice.choice(sorted(self.enumerations))
        elif roll < 0.5 and self.types:
            use = self.choice.choice(sorted(self.types))
            variable.least, variable.greatest = self.types[use]
        else:
            variable.least, variable.greatest = self.bounds()
            use = f"{self.choice.choice(['', '', '', 'WRAP '])}{variable.least} .. {variable.greatest}"
        self.variables.append(variable)
        self.say(f"{variable.mode} {variable.name} : {use}")

    def readable(self, kind: str) -> list[str]:
        """The names and OLD copies of a kind that can be read where the text stands."""
        hidden = {"PRE": ("OUT", "LOCAL"), "POST": ("LOCAL",)}.get(self.place, ())
        names = [v.name for v in self.variables if v.kind == kind and v.mode not in hidden]
        if self.place != "body":
            names += [f"OLD {v.name}" for v in self.variables if v.kind == kind and v.mode == "INOUT"]
        return names

    def number(self, depth: int) -> str:
        """A whole expression."""
        names = self.readable(WHOLE) * 2 + sorted(self.constants)
        if depth <= 0 or self.choice.random() < 0.4:
            return self.choice.choice(names) if names and self.choice.random() < 0.7 else str(self.small())
        operator = self.choice.choice(["+", "+", "-", "-", "*", "DIV", "MOD", "opposite"])
        if operator == "opposite":
            return f"(-{self.number(depth - 1)})"
        left, right = self.number(depth - 1), self.number(depth - 1)
        if operator in ("DIV", "MOD") and self.choice.random() < 0.6:
            right = str(max(1, self.small()))
        text = f"{left} {operator} {right}"
        return f"({text})" if self.choice.random() < 0.7 else text

    def comparison(self, depth: int) -> str:
        """A comparison."""
        kind = self.choice.choice([WHOLE, WHOLE, WHOLE, *self.enumerations])
        if kind != WHOLE:
            sides = [self.choice.choice(self.readable(kind) + self.enumerations[kind]) for _ in range(2)]
            return f"{sides[0]} {self.choice.choice(['=', '/='])} {sides[1]}"
        relation = self.choice.choice(["=", "=", "/=", "/=", "<", "<=", ">", ">="])
        names = self.readable(WHOLE)
        if len(names) > 1 and self.choice.random() < 0.25:
            one, two = self.choice.sample(names, 2)
            times = self.choice.choice(["", "", "2 * ", "3 * ", "(-2) * "])
            return f"{times}{one} {self.choice.choice(['-', '-', '-', '+'])} {times}{two} {relation} {self.small()}"
        if self.choice.random() < 0.6:
            depth = min(depth, 1)
        return f"{self.number(depth)} {relation} {self.number(depth - 1)}"

    def condition(self, depth: int) -> str:
        """A condition."""
        roll = self.choice.random()
        flags = self.readable(FLAG)
        if roll < 0.15 and flags:
            return self.choice.choice(flags)
        if roll < 0.2:
            return self.choice.choice(["TRUE", "FALSE"])
        if depth <= 0 or roll < 0.65:
            return self.comparison(depth)
        if roll < 0.75:
            return f"NOT ({self.condition(depth - 1)})"
        operator = self.choice.choice(["AND", "OR"])
        return f"({self.condition(depth - 1)}) {operator} ({self.condition(depth - 1)})"

    def assign(self) -> None:
        """An assignment, or SKIP where nothing can be assigned."""
        targets = [variable for variable in self.variables if variable.mode != "IN"]
        if not targets:
            self.say("SKIP")
            return
        target = self.choice.choice(targets)
        if target.kind == WHOLE:
            value = self.number(self.choice.choice([0, 1, 1, 2, 3]))
            if self.choice.random() < 0.3:
                value = f"{target.name} {self.choice.choice(['+', '-'])} {self.small()}"
        elif target.kind == FLAG:
            value = self.condition(self.choice.choice([0, 0, 1, 2]))
        else:
            value = self.choice.choice(self.readable(target.kind) + self.enumerations[target.kind])
        self.say(f"{target.name} := {value}")

    def test(self, nest: int, loops: int) -> None:
        """An IF."""
        self.say(f"IF {self.condition(2)}")
        self.block(nest + 1, loops)
        if self.choice.random() < 0.5:
            self.say("ELSE")
            self.block(nest + 1, loops)
        self.say("ENDIF")

    def loop(self, nest: int, loops: int) -> None:
        """A loop, mostly with leading assertions and an exit."""
        self.say("LOOP")
        for _ in range(self.choice.choice([0, 0, 1, 1, 2])):
            self.check()
        if self.choice.random() < 0.8:
            self.say(f"EXIT WHEN {self.condition(1)}")
        self.block(nest + 1, loops + 1)
        self.say("ENDLOOP")

    def check(self) -> None:
        """An assertion."""
        self.place = "ASSERT"
        self.say(f"ASSERT {self.condition(1)}")
        self.place = "body"

    def jump(self) -> None:
        """A label or a jump, mostly under a test; every label that is named stands at last before the end."""
        if self.choice.random() < 0.5:
            self.say(f"LABEL l{self.labels}")
            self.labels += 1
            return
        tested = self.choice.random() < 0.8
        if tested:
            self.say(f"IF {self.condition(1)}")
        self.say(f"GOTO l{self.choice.randrange(self.labels + 3)}")
        if tested:
            self.say("ENDIF")

    def block(self, nest: int, loops: int) -> None:
        """Some statements."""
        for _ in range(self.choice.choice([0, 1, 1, 2, 2, 3])):
            if self.budget <= 0:
                return
            self.budget -= 1
            roll = self.choice.random()
            if self.jumps and roll < 0.25:
                self.jump()
            elif roll < 0.45 or nest > 3:
                self.assign()
            elif roll < 0.6:
                self.test(nest, loops)
            elif roll < 0.72:
                self.loop(nest, loops)
            elif roll < 0.85:
                self.check()
            elif roll < 0.89 and loops:
                self.say(self.choice.choice(["EXIT", f"EXIT WHEN {self.condition(1)}"]))
            else:
                self.say(self.choice.choice(["SKIP", "SKIP", "SKIP", "RETURN"]))

    def finish_labels(self, start: int) -> None:
        """The labels that are named and do not stand yet."""
        body = self.lines[start:]
        named = sorted({line[5:-1] for line in body if line.startswith("GOTO ")})
        for name in named:
            if f"LABEL {name};" not in body:
                self.say(f"LABEL {name}")

    def procedure(self, number: int) -> None:
        """One procedure."""
        self.variables, self.labels = [], 0
        self.budget = self.choice.choice([2, 4, 6, 9, 12])
        self.say(f"PROC p{number}")
        for index in range(self.choice.randrange(0, 5)):
            self.declare_variable(index)
        for annotation in ("PRE", "POST"):
            self.place = annotation
            self.say(f"{annotation} {'TRUE' if self.choice.random() < 0.4 else self.condition(1)}")
        self.place = "body"
        start = len(self.lines)
        while self.budget > 0:
            self.block(0, 0)
        self.finish_labels(start)
        self.say("ENDPROC")

    def text(self) -> bytes:
        """A whole text."""
        self.say("TITLE t")
        self.declare_types()
        for number in range(self.choice.choice([1, 1, 1, 2])):
            self.procedure(number)
        self.say("FINISH")
        return ("\n".join(self.lines) + "\n").encode("ascii")


def invented(seed: int) -> bytes:
    """The accepted text of a number; some are refused after all, for an expression that is too wide."""
    choice = random.Random(seed)
    return Inventor(choice, wide=choice.random() < 0.2, jumps=choice.random() < 0.4).text()
