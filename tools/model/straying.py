"""Whether the expansion of a procedure with calls runs as the stack machine does, tried step by step."""

from __future__ import annotations

import random
from typing import Iterator

from model.calling import RETURNED
from model.expanding import expanded
from model.machine import State, step
from model.program import CheckedProcedure, CheckedText, Line, Origin
from model.stacking import Frame, Halt, Stack, turn
from model.ways import Stop


class Trial:
    """A text with calls, its expansion, and where the lines and places of a stack stand in the latter."""

    def __init__(self, text: CheckedText, expansion: CheckedText) -> None:
        self.text = text
        self.expanded = expansion

    def width(self, line: Line) -> int:
        """How many lines a written line becomes."""
        if line.callee is None:
            return 1
        callee = self.text.procedures[line.callee]
        back = sum(place.mode in RETURNED and not place.old for place in callee.places)
        return len(callee.places) + len(self.expanded.procedures[line.callee].lines) + back

    def line_of(self, stack: Stack) -> int:
        """The line of the first frame's expansion at which a stack stands."""
        found = 0
        for depth, frame in enumerate(stack):
            lines = self.text.procedures[frame.procedure].lines
            found += sum(self.width(line) for line in lines[: frame.line])
            if depth + 1 < len(stack):
                found += len(self.text.procedures[stack[depth + 1].procedure].places)
        return found

    def names_of(self, frame: Frame) -> list[tuple[str, bool]]:
        """The names of a frame's places, each with whether it is an OLD copy."""
        return [(place.name, place.old) for place in self.text.procedures[frame.procedure].places]

    def values_of(self, stack: Stack) -> dict[tuple[str, bool], int]:
        """The values of all frames, under the names that the first frame's expansion has for them."""
        found: dict[tuple[str, bool], int] = {}
        for depth in range(len(stack) - 1, -1, -1):
            frame = stack[depth]
            inner, found = found, dict(zip(self.names_of(frame), frame.values))
            lines = self.text.procedures[frame.procedure].lines
            number = sum(line.callee is not None for line in lines[: frame.line + 1])
            for (name, old), value in inner.items():
                found[f"{'o' if old else 'c'}{number}_{name}", False] = value
        return found

    def differs(self, stack: Stack, state: State) -> bool:
        """Whether an expanded state has other values than the frames."""
        places = self.expanded.procedures[stack[0].procedure].places
        have = {(place.name, place.old): value for place, value in zip(places, state)}
        return any(have[name] != value for name, value in self.values_of(stack).items())

    def stands_for(self, stack: Stack) -> bool:
        """Whether the line at which a stack stands has the origin that it is to have."""
        last = stack[-1]
        origin = self.expanded.procedures[stack[0].procedure].origins[self.line_of(stack)]
        line = self.text.procedures[last.procedure].lines[last.line]
        if line.callee is not None and not self.text.procedures[line.callee].places:
            return origin == Origin(line.callee, 0)
        return origin == Origin(last.procedure, last.line)

    def halt_of(self, number: int, stop: Stop) -> Halt:
        """The halt by origins of an expanded run's stop."""
        return Halt(stop[0], None if stop[1] < 0 else self.expanded.procedures[number].origins[stop[1]])


def advanced(procedure: CheckedProcedure, line: int, state: State, end: int | None) -> tuple[int, State, Stop | None]:
    """The expanded run from a line up to another, or where that is None up to its halt; it takes a step in any case."""
    for _ in range(len(procedure.lines) + 1):
        next_line, stop, state, _ = step(procedure, line, state)
        if stop is not None:
            return line, state, stop
        assert next_line is not None
        line = next_line
        if line == end:
            break
    return line, state, None


def strays(trial: Trial, number: int, start: State, limit: int) -> Iterator[str]:
    """Where the expanded run from a state strays from the run of the stack machine, within so many of the latter's steps."""
    procedure, written = trial.expanded.procedures[number], trial.text.procedures[number]
    own = len(written.variables())
    values = start[:own] + start[len(start) - (len(written.places) - own) :]
    stack: Stack = (Frame(number, 0, values),)
    line, state = 0, start
    for _ in range(limit):
        after, halt = turn(trial.text, stack)
        silent = len(after) > len(stack) and not trial.text.procedures[after[-1].procedure].places
        end = trial.line_of(after)
        if halt is not None or not silent or line != end:
            line, state, stop = advanced(procedure, line, state, None if halt else end)
            found = None if stop is None else trial.halt_of(number, stop)
            if found != halt:
                yield f"{start}: the stack machine has {halt} at {stack}, the expanded run {found} at line {line}"
                return
        if trial.differs(after, state):
            yield f"{start}: the stack machine has {after}, the expanded run {state}"
        if halt is not None:
            return
        if line != end or not trial.stands_for(after):
            yield f"{start}: the stack machine is at {after}, the expanded run at line {line}"
            return
        stack = after


def random_state(choice: random.Random, procedure: CheckedProcedure) -> State:
    """An initial state of a procedure."""
    state = [choice.randint(place.least, place.greatest) for place in procedure.places]
    for number, place in enumerate(procedure.places):
        if place.old:
            state[number] = state[procedure.variable_of(number)]
    return tuple(state)


def strays_of(text: CheckedText, name: str, states: int, limit: int = 300) -> list[str]:
    """Where expanded procedures of a text, which has a name, stray from the stack machine, from so many random states each."""
    trial = Trial(text, expanded(text))
    choice = random.Random(f"states of {name}")
    found = []
    for number, procedure in enumerate(trial.expanded.procedures):
        for _ in range(states if procedure.spans else 0):
            found.extend(f"{procedure.name}: {fault}" for fault in strays(trial, number, random_state(choice, procedure), limit))
    return found
