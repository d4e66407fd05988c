"""The sentence that a procedure's report comes to, and the exact words of the claim behind it."""

from __future__ import annotations

from assess_lib.report import Compliance, Heading, ProcedureReport, Verdict

STOPS = {
    "END": "ends",
    "OUTSIDE": "stands outside the precondition",
    "ASSERT": "a false assertion",
    "POST": "a false postcondition",
    "DIVZERO": "a division by zero",
    "RANGE": "a value outside its variable's range",
    "HEAD": "comes to a loop's head",
}

SECTIONS = {
    Heading.CONTROL: "control structure",
    Heading.USE: "use of variables",
    Heading.FLOW: "flow of information",
    Heading.PATHS: "paths",
    Heading.SEMANTIC: "tables",
    Heading.COMPLIANCE: "threats",
}

NO_BAD_RUN = (
    "Where no table of a procedure is past its size and every threat is False, no run from the precondition contains a "
    "division by zero, a value outside its variable's range, a failed assertion or a failed postcondition. A run from the "
    "precondition begins with any values in range for which PRE is true. That a run ends is not claimed, nor that PRE, "
    "POST and the assertions say what the procedure is for."
)
LEFT_OPEN = (
    "False: no input of the region takes this path. Shown: the input that is given takes it, and stops so; the input of a "
    "loop's region is a state in range at the loop's head, and no run need reach it. Open: neither was found, and the "
    "condition that is named is one that the analysis does not decide."
)
EQUAL_VALUES = (
    "Two runs that end, and whose first values agree on all variables named as sources of a variable, end with equal "
    "values of it."
)
IRREDUCIBLE = (
    "A cycle of lines can be met first at two different lines. Only the control structure of such a procedure is reported."
)
NO_THREATS_SECTION = (
    "The report of this malpas has no section on threats for this procedure, so it claims nothing on faults of its runs."
)


def stop_words(stop: str) -> str:
    """What a stop of the report is, in words."""
    return STOPS.get(stop.split(" ")[0], stop)


def left_over(compliance: Compliance) -> list[str]:
    """What keeps a procedure from having no bad run, in words."""
    left = []
    for verdict, word in ((Verdict.SHOWN, "Shown"), (Verdict.OPEN, "Open")):
        count = compliance.count(verdict)
        if count:
            left.append(f"{count} {word}")
    if compliance.past:
        left.append(counted(len(compliance.past), "region") + " past its size")
    return left


def counted(number: int, word: str) -> str:
    """A number and its word."""
    return f"{number} {word}" + ("" if number == 1 else "s")


def sentence(report: ProcedureReport) -> str:
    """What the report of a procedure comes to, in one sentence."""
    if not report.reducible:
        return "only its control structure is analysed: a loop of it can be entered at two lines"
    compliance = report.compliance
    if compliance is None or not report.has(Heading.COMPLIANCE):
        return "whether a run can go wrong is not analysed: the report has no section on threats"
    threats = counted(len(compliance.threats), "threat")
    left = left_over(compliance)
    if not left:
        told = "no threats" if not compliance.threats else f"{threats}, all False"
        return f"no run from the precondition can go wrong: {told}"
    if not compliance.threats:
        return f"left to judge: {', '.join(left)}"
    false = compliance.count(Verdict.FALSE)
    return f"left to judge: {', '.join(left)}, of {threats} ({false} False)"


def claim(report: ProcedureReport) -> str:
    """The exact words of the claim behind the sentence."""
    if not report.reducible:
        return IRREDUCIBLE
    if report.compliance is None or not report.has(Heading.COMPLIANCE):
        return NO_THREATS_SECTION
    return LEFT_OPEN if left_over(report.compliance) else NO_BAD_RUN


def not_analysed(report: ProcedureReport) -> list[str]:
    """What the report says nothing of, in words."""
    told = []
    if report.not_reported:
        names = [SECTIONS.get(each, each.value.lower()) for each in report.not_reported]
        told.append(f"{', '.join(names)}: it is not reducible")
    missing = [words for heading, words in SECTIONS.items() if heading not in report.headings]
    if missing:
        told.append(f"{', '.join(missing)}: the report has no such section for it")
    for table in report.tables:
        if table.past:
            told.append(f"the table and the threats of region L{table.head}: past its size ({table.past.lower()})")
    return told
