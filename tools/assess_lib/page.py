"""`assess page`: one self-contained HTML page about one text. No script, and nothing from the network."""

from __future__ import annotations

import datetime
import os
from dataclasses import dataclass
from typing import TextIO

from assess_lib import VERSION
from assess_lib.analysis import Analysed, Analysis, analyse, read_source
from assess_lib.check import excerpt
from assess_lib.faults import Fault
from assess_lib.findings import Finding, facts_of, findings_of
from assess_lib.markup import Markup, element, folded, joined, link
from assess_lib.page_graphs import picture, reduction
from assess_lib.page_source import head_of_text, source_table
from assess_lib.page_style import style_sheet
from assess_lib.page_tables import (
    inputs_section,
    paths_section,
    slices_section,
    tables_section,
    threats_section,
    variables_section,
)
from assess_lib.program import Program, Status, meaning_of
from assess_lib.report import Heading
from assess_lib.sentences import EQUAL_VALUES, claim, left_over, not_analysed, sentence

_POLICY = "default-src 'none'; style-src 'unsafe-inline'; img-src data:"


@dataclass(frozen=True)
class Made:
    """What made a page: the version of malpas and the time, as the page's head tells them."""

    program: str
    date: str


def now() -> str:
    """The date and time in universal time; SOURCE_DATE_EPOCH fixes it."""
    fixed = os.environ.get("SOURCE_DATE_EPOCH")
    moment = datetime.datetime.fromtimestamp(int(fixed), datetime.timezone.utc) if fixed else None
    return (moment or datetime.datetime.now(datetime.timezone.utc)).strftime("%Y-%m-%d %H:%M UTC")


def document(title: str, *content: Markup) -> str:
    """A whole page around its content."""
    head = element(
        "head",
        element("meta", charset="utf-8"),
        element("meta", http_equiv="Content-Security-Policy", content=_POLICY),
        element("meta", name="viewport", content="width=device-width, initial-scale=1"),
        element("title", title),
        element("link", rel="icon", href="data:,"),
        element("style", Markup(style_sheet())),
    )
    skip = link("#main", "To the content", class_="skip")
    return "<!DOCTYPE html>\n" + element("html", head, element("body", skip, *content), lang="en") + "\n"


def tone(found: Analysis) -> str:
    """The colour in which a text's status is told."""
    if found.outcome.status == Status.CLEAN:
        return "clean"
    return "left" if found.outcome.status == Status.LEFT else "refused"


def _head(found: Analysis, made: Made) -> Markup:
    """The head of a page: what the file, the program and the outcome are."""
    status = f"{found.outcome.status}: {meaning_of(found.outcome.status)}"
    pairs: list[tuple[str, object]] = [
        ("SHA-256 of its bytes", element("code", found.source.digest)),
        ("malpas", made.program),
        ("assess", VERSION),
        ("Date", made.date),
        ("Status", element("span", status, class_=f"mark {tone(found)}")),
    ]
    if found.report is not None:
        pairs.insert(0, ("Title, profile", f"{found.report.title}, {found.report.profile}"))
    listed = [joined([element("dt", name), element("dd", value)]) for name, value in pairs]
    return element("header", element("h1", found.file), element("dl", listed, class_="head"))


def _sentence(found: Analysis, number: int, each: Analysed) -> Markup:
    """The sentence of a procedure with the claim's words behind it."""
    report = each.report
    clean = report.reducible and report.has(Heading.COMPLIANCE) and report.compliance and not left_over(report.compliance)
    colour = "clean" if clean else "left" if report.has(Heading.COMPLIANCE) or not report.reducible else "quiet"
    words = folded("The claim's words", element("p", claim(report)))
    told = element("p", link(f"#p{number}", f"Procedure {report.name}"), ": ", sentence(report), ".")
    return element("div", told, words, class_=f"sentence {colour}")


def _finding(number: int, finding: Finding) -> Markup:
    """A finding with a link to its line."""
    where = link(f"#f{finding.position.line}", f"line {finding.position.line}")
    return element("li", where, ": ", finding.text)


def _lists(number: int, each: Analysed) -> Markup:
    """Findings, facts and what was not analysed."""
    findings = findings_of(each)
    shown = [_finding(number, finding) for finding in findings]
    first = element("ul", shown) if shown else element("p", "None.")
    lists = [element("h3", f"Findings ({len(findings)})", id=f"p{number}-findings"), first]
    lists += [element("h3", "Facts"), element("ul", [element("li", fact) for fact in facts_of(each)])]
    missing = not_analysed(each.report) + ["whether a run ends, and what no assertion, POST or range asks for"]
    return joined(lists + [element("h3", "Not analysed"), element("ul", [element("li", text) for text in missing])])


def _procedure(found: Analysis, number: int, each: Analysed) -> Markup:
    """The part of a page on one procedure."""
    report = each.report
    parts: list[Markup] = [element("h2", f"Procedure {report.name}", id=f"p{number}"), _lists(number, each)]
    parts.append(source_table(each, number))
    parts.append(picture(each, number))
    parts.append(reduction(each, number))
    if report.has(Heading.USE) or report.has(Heading.FLOW):
        parts += [variables_section(each, number), folded("The claim's words on flow", element("p", EQUAL_VALUES))]
    parts.append(slices_section(each, number))
    parts += [threats_section(each, number), tables_section(each, number), inputs_section(each, number)]
    parts.append(paths_section(each, number))
    rest = report.unread + report.certificates
    if rest:
        parts += [element("h3", "Other lines of the report"), element("pre", "\n".join(rest), tabindex="0")]
    return element("section", parts, aria_labelledby=f"p{number}")


def _fault(found: Analysis, number: int, fault: Fault) -> Markup:
    """A fault of a refused text."""
    place = f"line {fault.position.line}, column {fault.position.column}"
    kind = " (further: told once the faults above were taken out)" if fault.further else ""
    lines = excerpt(found.source, fault.position)
    return element(
        "section",
        element("h2", f"{fault.refusal.code}: {fault.refusal.text}", id=f"fault{number}"),
        element("p", place, kind),
        element("pre", "\n".join(lines), tabindex="0", role="region", aria_label=f"Source at {place}") if lines else None,
        element("p", "Statement: ", element("code", fault.statement)) if fault.statement else None,
        element("ul", [element("li", hint) for hint in fault.hints]) if fault.hints else None,
        aria_labelledby=f"fault{number}",
    )


def _refused(found: Analysis) -> Markup:
    """The page's content for a refused text."""
    faults = found.faults
    told = [_fault(found, number, fault) for number, fault in enumerate(faults.told if faults else [], 1)]
    ended = element("p", f"The search ended here: {faults.given_up}.") if faults and faults.given_up else None
    return joined([element("p", "The text was refused, so it has no report."), *told, ended])


def _reported(found: Analysis) -> Markup:
    """The page's content for a report, whole or cut short."""
    parts = [_sentence(found, number, each) for number, each in enumerate(found.procedures, 1)]
    if found.report is not None and found.report.status is None:
        told = f"The report is not whole: {meaning_of(found.outcome.status)}."
        parts.insert(0, element("p", told, class_="sentence refused"))
    parts.append(head_of_text(found))
    parts += [_procedure(found, number, each) for number, each in enumerate(found.procedures, 1)]
    parts.append(element("h2", "The report as malpas wrote it", id="report"))
    parts.append(folded("Show it", element("pre", found.outcome.output, tabindex="0")))
    return joined(parts)


def page(found: Analysis, made: Made) -> str:
    """The page on a text and what malpas said of it."""
    if found.faults is not None:
        content = _refused(found)
    elif found.report is not None:
        content = _reported(found)
    else:
        content = joined([element("p", meaning_of(found.outcome.status)), element("pre", found.outcome.output, tabindex="0")])
    foot = "Lines L0, L1 .. are the report's; lines without an L are the file's. The page claims no more than the report."
    return document(
        f"{found.file} - assess",
        _head(found, made),
        element("main", content, id="main"),
        element("footer", element("p", foot)),
    )


def write_page(file: str, program: Program, out: TextIO, errors: TextIO) -> int:
    """Writes the page of a file, and answers the exit status of malpas."""
    try:
        source = read_source(file)
    except OSError as error:
        print(f"{file}: cannot be read: {error.strerror}", file=errors)
        return int(Status.READ_FAILED)
    found = analyse(file, source, program)
    out.write(page(found, Made(f"{program.path.name}, {program.version}", now())))
    return found.outcome.status
