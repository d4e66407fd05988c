"""Pictures of a procedure's line graph and of its reduction, drawn by Graphviz's `dot`."""

from __future__ import annotations

import re
import shutil
import subprocess
from dataclasses import dataclass
from typing import Optional

from assess_lib.analysis import Analysed
from assess_lib.arcs import reported_arcs
from assess_lib.markup import Markup, element
from assess_lib.page_style import DECIDING, INTERVALS, TWICE
from assess_lib.report import Arc, Interval, Loop

MOST_NODES = 300
_LONG_GRAPH = 120
_SECONDS = 20
_FONT = 'fontname="DejaVu Sans Mono" fontsize=11'


@dataclass(frozen=True)
class NoPicture(Exception):
    """There is no picture, and why."""

    reason: str


def draw(dot_text: str, title: str, prefix: str) -> Markup:
    """The SVG that dot draws, to stand inside a page: with a title, and identifiers that begin with `prefix`."""
    if shutil.which("dot") is None:
        raise NoPicture("the command dot of Graphviz is not installed")
    try:
        done = subprocess.run(["dot", "-Tsvg"], input=dot_text, capture_output=True, text=True, timeout=_SECONDS, check=False)
    except subprocess.TimeoutExpired:
        raise NoPicture(f"dot did not end within {_SECONDS} seconds") from None
    if done.returncode != 0:
        raise NoPicture("dot could not draw it")
    svg = done.stdout[done.stdout.index("<svg") :]
    svg = re.sub(r"<!--.*?-->\n?", "", svg, flags=re.DOTALL)
    svg = re.sub(r' id="', f' id="{prefix}-', svg)
    name = element("title", title, id=f"{prefix}-title")
    head = f'<svg role="group" aria-labelledby="{prefix}-title"'
    return Markup(re.sub(r"^<svg([^>]*)>", lambda found: f"{head}{found[1]}>{name}", svg, count=1))


@dataclass(frozen=True)
class Block:
    """Lines that stand one behind the other, drawn as one node."""

    lines: list[int]


def blocks_of(analysed: Analysed) -> list[Block]:
    """The nodes of the picture: a node for each line, or for each straight run of lines in a long procedure."""
    arcs = reported_arcs(analysed.report, analysed.listing)
    count = analysed.report.line_count
    if count <= _LONG_GRAPH:
        return [Block([line]) for line in range(count)]
    after: dict[int, list[int]] = {line: [] for line in range(count)}
    before: dict[int, list[int]] = {line: [] for line in range(count)}
    for arc in arcs:
        after[arc.tail].append(arc.head)
        before[arc.head].append(arc.tail)
    heads = {loop.head for loop in analysed.report.control.loops}
    blocks: list[Block] = []
    for line in range(count):
        joins = line > 0 and after[line - 1] == [line] and before[line] == [line - 1] and line not in heads
        if joins and not _parted(analysed, line):
            blocks[-1].lines.append(line)
        else:
            blocks.append(Block([line]))
    return blocks


def _parted(analysed: Analysed, line: int) -> bool:
    """Whether a loop or an interval has one of the line and the line before, and not the other."""
    control = analysed.report.control
    groups = [loop.members for loop in control.loops]
    groups += [interval.members for interval in (control.levels[0] if control.levels else [])]
    return any((line in group) != (line - 1 in group) for group in groups)


def _label(analysed: Analysed, block: Block) -> str:
    """What stands in a node."""
    shown = block.lines if len(block.lines) <= 4 else [block.lines[0], -1, block.lines[-1]]
    told = []
    for number in shown:
        line = analysed.listing.line(number)
        text = line.text if line else ""
        text = text if len(text) <= 44 else text[:41] + "..."
        told.append("..." if number < 0 else f"L{number}  {text}")
    return "\\l".join(part.replace("\\", "\\\\").replace('"', '\\"') for part in told) + "\\l"


def _node(analysed: Analysed, block: Block, prefix: str) -> str:
    """A node's line of dot."""
    control, first = analysed.report.control, block.lines[0]
    level = control.levels[0] if control.levels else []
    number = next((at for at, interval in enumerate(level) if first in interval.members), None)
    colour = INTERVALS[number % len(INTERVALS)] if number is not None else "#ececec"
    style = "filled,dashed" if first in control.unreachable else "filled"
    marks = [f'shape=box style="{style}" fillcolor="{colour}"']
    if control.two_entries is not None and first in control.two_entries.cycle:
        marks.append(f'color="{TWICE}" penwidth=3')
    if any(first == loop.head for loop in control.loops):
        marks.append("peripheries=2")
    if set(block.lines) & set(analysed.report.deciding):
        marks.append(f'color="{DECIDING}" penwidth=3')
    target = f'URL="#{prefix}-L{first}" tooltip="line {first} in the source"'
    return f'n{first} [label="{_label(analysed, block)}" {" ".join(marks)} {target}];'


def _nested(loops: list[Loop]) -> dict[int, Optional[int]]:
    """Of each loop, by its number, the smallest loop that holds it, or None; a loop that overlaps one is left out."""
    order = sorted(range(len(loops)), key=lambda number: -len(loops[number].members))
    outer: dict[int, Optional[int]] = {}
    for number in order:
        members = set(loops[number].members)
        over = [each for each in outer if members & set(loops[each].members)]
        if all(members <= set(loops[each].members) for each in over):
            outer[number] = min(over, key=lambda each: len(loops[each].members), default=None)
    return outer


def _boxes(analysed: Analysed, blocks: list[Block], prefix: str) -> list[str]:
    """The nodes in the boxes of their loops, as lines of dot."""
    loops = analysed.report.control.loops
    outer = _nested(loops)
    home: dict[Optional[int], list[str]] = {None: []}
    for block in blocks:
        inside = [each for each in outer if block.lines[0] in loops[each].members]
        smallest = min(inside, key=lambda each: len(loops[each].members), default=None)
        home.setdefault(smallest, []).append(_node(analysed, block, prefix))

    def box(number: Optional[int]) -> list[str]:
        """A loop's box with all that is in it."""
        lines = list(home.get(number, []))
        for inner in [each for each in outer if outer[each] == number and each != number]:
            name = f'label="loop L{loops[inner].head}" labeljust=l {_FONT} color="#555555" style=rounded'
            lines += [f"subgraph cluster_{inner} {{", name, *box(inner), "}"]
        return lines

    return box(None)


def _edges(blocks: list[Block], arcs: list[Arc]) -> list[str]:
    """The arcs between nodes, the two of a test with T and F, as lines of dot."""
    node = {line: block.lines[0] for block in blocks for line in block.lines}
    last = {block.lines[-1] for block in blocks}
    out: dict[int, int] = {}
    lines = []
    total = {tail: sum(arc.tail == tail for arc in arcs) for tail in last}
    for arc in arcs:
        if arc.tail not in last:
            continue
        out[arc.tail] = out.get(arc.tail, 0) + 1
        side = ("T" if out[arc.tail] == 1 else "F") if total[arc.tail] == 2 else ""
        lines.append(f'n{node[arc.tail]} -> n{node[arc.head]} [label="{side}" {_FONT}];')
    return lines


def line_graph(analysed: Analysed, prefix: str) -> Markup:
    """The picture of the line graph: loops boxed, heads doubled, intervals and deciding tests coloured."""
    arcs = reported_arcs(analysed.report, analysed.listing)
    if not arcs:
        raise NoPicture("the report gives no arcs")
    blocks = blocks_of(analysed)
    if len(blocks) > MOST_NODES:
        raise NoPicture(f"it would have {len(blocks)} nodes, more than {MOST_NODES}")
    lines = ["digraph {", f"node [{_FONT} margin=\"0.08,0.04\"]; rankdir=TB; nodesep=0.25; ranksep=0.3;"]
    lines += _boxes(analysed, blocks, prefix) + _edges(blocks, arcs) + ["}"]
    return draw("\n".join(lines), f"Line graph of {analysed.report.name}", f"{prefix}-graph")


def _level_arcs(analysed: Analysed, number: int) -> set[tuple[int, int]]:
    """The arcs of a level: those of level 0 between the intervals that the levels below took their ends into."""
    control = analysed.report.control
    at = {line: line for interval in control.levels[0] for line in interval.members}
    for level in control.levels[:number]:
        into = {member: interval.head for interval in level for member in interval.members}
        at = {line: into.get(node, node) for line, node in at.items()}
    arcs = reported_arcs(analysed.report, analysed.listing)
    pairs = {(at[arc.tail], at[arc.head]) for arc in arcs if arc.tail in at and arc.head in at}
    return {(tail, head) for tail, head in pairs if tail != head}


def level_graph(analysed: Analysed, number: int, prefix: str) -> Markup:
    """The picture of a level above 0: a node for each interval of the level below, boxed by its own intervals."""
    level: list[Interval] = analysed.report.control.levels[number]
    if sum(len(interval.members) for interval in level) > MOST_NODES:
        raise NoPicture(f"it would have more than {MOST_NODES} nodes")
    lines = ["digraph {", f"node [{_FONT} shape=box style=filled]; rankdir=LR; nodesep=0.2; ranksep=0.3;"]
    for at, interval in enumerate(level):
        colour = INTERVALS[at % len(INTERVALS)]
        lines.append(f'subgraph cluster_{at} {{ label="interval L{interval.head}" {_FONT} color="#555555" style=rounded')
        lines += [f'n{member} [label="L{member}" fillcolor="{colour}"];' for member in interval.members] + ["}"]
    lines += [f"n{tail} -> n{head};" for tail, head in sorted(_level_arcs(analysed, number))] + ["}"]
    return draw("\n".join(lines), f"Level {number} of {analysed.report.name}", f"{prefix}-level{number}")
