"""What a report says, as plain data. Lines of a procedure are their numbers, from 0."""

from __future__ import annotations

from dataclasses import dataclass, field
from enum import Enum
from typing import Optional


class Heading(Enum):
    """The headings of a procedure's sections, in the order of a report."""

    CONTROL = "CONTROL"
    USE = "USE"
    FLOW = "FLOW"
    SLICE = "SLICE"
    PATHS = "PATHS"
    SEMANTIC = "SEMANTIC"
    INPUTS = "INPUTS"
    COMPLIANCE = "COMPLIANCE"
    CERTIFICATES = "CERTIFICATES"


class Verdict(Enum):
    """What is known of a threat."""

    SHOWN = "SHOWN"
    OPEN = "OPEN"
    FALSE = "FALSE"


@dataclass(frozen=True)
class Refusal:
    """The first fault of a refused text: its code, its place in bytes and its text."""

    code: str
    place: int
    text: str

    @property
    def name(self) -> str:
        """The name at fault, where the text carries one."""
        return self.text.split(": ", 1)[1] if ": " in self.text else ""


@dataclass(frozen=True)
class Loop:
    """A loop: its head, all its lines, and the assertions that lead it."""

    head: int
    members: list[int]
    leading: list[int]


@dataclass(frozen=True)
class Interval:
    """An interval: its head and its members, named by the heads of the level below."""

    head: int
    members: list[int]


@dataclass(frozen=True)
class TwoEntries:
    """A cycle that can be met first at two lines, and a path to each."""

    cycle: list[int]
    first: list[int]
    second: list[int]


@dataclass
class Control:
    """The control section; `two_entries` is there where the procedure is not reducible."""

    unreachable: list[int] = field(default_factory=list)
    stuck: list[int] = field(default_factory=list)
    loops: list[Loop] = field(default_factory=list)
    levels: list[list[Interval]] = field(default_factory=list)
    two_entries: Optional[TwoEntries] = None


@dataclass(frozen=True)
class UseRow:
    """The six facts on the use of a variable, by their short names."""

    variable: str
    facts: dict[str, bool]


@dataclass(frozen=True)
class FlowRow:
    """The variables on which a final value hangs, and the tests that decide it."""

    variable: str
    sources: list[str]
    tests: list[int]


@dataclass(frozen=True)
class SliceRow:
    """The lines that a slice for a variable keeps, and the tests that it fixes, as `L4=T`."""

    variable: str
    keep: list[int]
    fixed: list[str]


@dataclass(frozen=True)
class Arc:
    """An arc of the line graph."""

    number: int
    tail: int
    head: int


@dataclass(frozen=True)
class Definition:
    """A path definition: its name and what stands behind the `=`."""

    name: str
    text: str


@dataclass
class Paths:
    """The arcs, the path definitions, and the reference that stands for all paths."""

    arcs: list[Arc] = field(default_factory=list)
    definitions: list[Definition] = field(default_factory=list)
    everything: str = "0"


@dataclass(frozen=True)
class Value:
    """What a place holds: a term over the first values in a table, a number in an input."""

    place: str
    text: str


@dataclass
class Row:
    """A row of a region's table."""

    number: int
    path: str
    literals: list[str] = field(default_factory=list)
    stop: str = ""
    values: list[Value] = field(default_factory=list)


@dataclass
class RegionTable:
    """The table of a region; `past` names the size that it passes, where it passes one."""

    head: int
    past: str = ""
    rows: list[Row] = field(default_factory=list)


@dataclass(frozen=True)
class InputRow:
    """The input that takes a row of a region's table, or None where there is none."""

    number: int
    values: Optional[list[Value]]


@dataclass
class InputTable:
    """The test inputs of a region's rows; `past` names the size that its table passes, where it passes one."""

    head: int
    past: str = ""
    rows: list[InputRow] = field(default_factory=list)


@dataclass(frozen=True)
class Threat:
    """A path of a region that stops in a fault. `values` is the input of a Shown one, `literal` that of an Open one."""

    number: int
    region: int
    path: str
    stop: str
    verdict: Verdict
    values: list[Value] = field(default_factory=list)
    literal: str = ""


@dataclass
class Compliance:
    """The threats of a procedure, region by region, and the regions whose table is past its size."""

    regions: list[int] = field(default_factory=list)
    past: dict[int, str] = field(default_factory=dict)
    threats: list[Threat] = field(default_factory=list)

    def count(self, verdict: Verdict) -> int:
        """How many threats have that verdict."""
        return sum(threat.verdict is verdict for threat in self.threats)


@dataclass(frozen=True)
class Expansion:
    """The lines to which a call was expanded, and the procedure that it calls."""

    first: int
    last: int
    callee: str


@dataclass
class ProcedureReport:
    """The report of a procedure. A section that the report does not have is None or empty; `headings` has those there."""

    name: str
    line_count: int
    expansions: list[Expansion] = field(default_factory=list)
    headings: list[Heading] = field(default_factory=list)
    not_reported: list[Heading] = field(default_factory=list)
    control: Control = field(default_factory=Control)
    use: list[UseRow] = field(default_factory=list)
    flow: list[FlowRow] = field(default_factory=list)
    slices: list[SliceRow] = field(default_factory=list)
    paths: Optional[Paths] = None
    tables: list[RegionTable] = field(default_factory=list)
    inputs: list[InputTable] = field(default_factory=list)
    compliance: Optional[Compliance] = None
    certificates: list[str] = field(default_factory=list)
    unread: list[str] = field(default_factory=list)

    def has(self, heading: Heading) -> bool:
        """Whether the section stands in the report and says more than that it is not reported."""
        return heading in self.headings and heading not in self.not_reported

    @property
    def reducible(self) -> bool:
        """Whether no cycle can be met first at two lines."""
        return self.control.two_entries is None

    @property
    def deciding(self) -> list[int]:
        """The tests that decide some variable, ascending."""
        return sorted({line for row in self.flow for line in row.tests})


@dataclass
class Report:
    """A whole report, or the part of one that was written. `status` is None where the last line is missing."""

    profile: int = 0
    title: str = ""
    procedures: list[ProcedureReport] = field(default_factory=list)
    status: Optional[int] = None
