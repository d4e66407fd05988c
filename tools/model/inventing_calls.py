"""Random texts whose procedures call those before them."""

from __future__ import annotations

import random
from dataclasses import dataclass, field

from model.inventing import FLAG, Inventor, Variable
from model.program import WHOLE


@dataclass
class Called:
    """A procedure that can be called: its parameters, and what a call of it costs."""

    name: str
    parameters: list[Variable]
    lines: int
    places: int


@dataclass
class CallInventor(Inventor):
    """Invents a text with calls: procedures call earlier ones, in tests and loops too, with arguments that fit."""

    called: list[Called] = field(default_factory=list)
    brought: int = 0
    longer: int = 0

    def argument(self, parameter: Variable, free: list[Variable]) -> str | None:
        """An argument for a parameter; None where there is none. A variable that is handed back is free no more."""
        if parameter.mode == "IN":
            if parameter.kind == WHOLE:
                divided = f" DIV {self.number(0)}" if self.choice.random() < 0.15 else ""
                return self.number(self.choice.choice([0, 0, 1, 2])) + divided
            if parameter.kind == FLAG:
                return self.condition(self.choice.choice([0, 1]))
            return self.choice.choice(self.readable(parameter.kind) + self.enumerations[parameter.kind])
        fitting = [variable for variable in free if variable.kind == parameter.kind]
        if not fitting:
            return None
        variable = self.choice.choice(fitting)
        free.remove(variable)
        return f"({variable.name})" if self.choice.random() < 0.1 else variable.name

    def condition(self, depth: int) -> str:
        """A condition; annotations often have the simplest, so that runs come through calls."""
        if self.place != "body" and self.choice.random() < 0.6:
            return "TRUE"
        return super().condition(depth)

    def call(self) -> bool:
        """A call, if one can be made within the limits."""
        callee = self.choice.choice(self.called)
        own = sum(2 if variable.mode == "INOUT" else 1 for variable in self.variables)
        if own + self.brought + callee.places > 64 or self.longer + callee.lines > 600:
            return False
        free = [variable for variable in self.variables if variable.mode != "IN"]
        arguments = [self.argument(parameter, free) for parameter in callee.parameters]
        if None in arguments:
            return False
        self.say(f"CALL {callee.name}" + (f" ({', '.join(map(str, arguments))})" if arguments else ""))
        self.brought += callee.places
        self.longer += callee.lines
        return True

    def assign(self) -> None:
        """A call, an assignment, or SKIP where nothing can be assigned."""
        if not (self.called and self.choice.random() < 0.45 and any(self.call() for _ in range(3))):
            super().assign()

    def procedure(self, number: int) -> None:
        """One procedure, which later ones may call."""
        self.brought = self.longer = 0
        start = len(self.lines)
        super().procedure(number)
        parameters = [variable for variable in self.variables if variable.mode != "LOCAL"]
        places = sum(2 if variable.mode == "INOUT" else 1 for variable in self.variables)
        own = len(self.lines) - start + places + len(parameters)
        self.called.append(Called(f"p{number}", parameters, own + self.longer, places + self.brought))

    def text(self) -> bytes:
        """A whole text."""
        self.say("TITLE t")
        self.declare_types()
        for number in range(self.choice.choice([2, 2, 3, 4])):
            self.procedure(number)
        self.say("FINISH")
        return ("\n".join(self.lines) + "\n").encode("ascii")


def invented_calls(seed: int) -> bytes:
    """The text with calls of a number; some are refused after all, for an expression that is too wide."""
    choice = random.Random(f"calls {seed}")
    return CallInventor(choice, wide=choice.random() < 0.1, jumps=choice.random() < 0.3).text()
