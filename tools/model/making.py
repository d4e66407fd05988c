"""The made text of a number, and the summary that is printed for it."""

from __future__ import annotations

from model.accepting import accept
from model.findings import findings_of
from model.graphs import control_of, graph_of

MOST = 200


def number_of(word: str) -> int | None:
    """The number that a word gives: 1 to 200 in digits, without a sign or leading zeros."""
    if not (word.isascii() and word.isdigit()) or word.startswith("0") or len(word) > 3:
        return None
    return int(word) if int(word) <= MOST else None


def made_text(number: int) -> bytes:
    """The text: as many loops one after the other, each of which counts one place up."""
    statements = ["TITLE gen", "PROC p", "INOUT x : 0 .. 200", "PRE TRUE", f"POST x >= {number}"]
    for bound in range(1, number + 1):
        statements += ["LOOP", f"EXIT WHEN x >= {bound}", "x := x + 1", "ENDLOOP"]
    return "".join(f"{statement};\n" for statement in [*statements, "ENDPROC", "FINISH"]).encode("ascii")


def summary_of(number: int) -> tuple[str, int]:
    """The summary of the made text, and its status."""
    sums = dict.fromkeys(("LINES", "REGIONS", "ROWS", "THREATS", "FALSE", "SHOWN", "OPEN", "PAST"), 0)
    for procedure in accept(made_text(number)).procedures:
        findings = findings_of(procedure, control_of(procedure, graph_of(procedure)))
        sums["LINES"] += len(procedure.lines)
        sums["REGIONS"] += len(findings)
        for finding in findings:
            sums["ROWS"] += len(finding.rows)
            sums["THREATS"] += len(finding.threats)
            sums["PAST"] += finding.past is not None
            for threat in finding.threats:
                sums[threat.verdict] += 1
    text = f"GENERATED {number}\n" + "".join(f"{name} {value}\n" for name, value in sums.items())
    return text, int(sums["SHOWN"] + sums["OPEN"] + sums["PAST"] > 0)
