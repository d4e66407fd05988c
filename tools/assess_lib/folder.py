"""`assess folder`: report and page of each text of a folder, by GNU parallel, and one index page over all.

What a text gave is kept in a record beside it, so a text without change is not run again, and a run that was stopped
goes on with the texts that have no record yet.
"""

from __future__ import annotations

import json
import os
import shutil
import subprocess
import sys
import time
from collections import Counter
from dataclasses import asdict, dataclass
from pathlib import Path
from typing import Optional, TextIO
from urllib.parse import quote

from assess_lib import VERSION
from assess_lib.analysis import Analysis, read_source, understood
from assess_lib.findings import findings_of
from assess_lib.markup import Child, Markup, element, joined, link, row, table
from assess_lib.page import Made, document, now, page
from assess_lib.program import Program, Status, meaning_of
from assess_lib.report import Verdict

KEPT = ".assess"
_COMMAND = Path(__file__).resolve().parent.parent / "assess"
_PROBE = b"TITLE probe; PROC p; PRE TRUE; POST TRUE; ENDPROC; FINISH;"


@dataclass(frozen=True)
class Record:
    """What a text gave: of which bytes and by which program, its status, counts, and the seconds that malpas took."""

    source: str
    program: str
    status: int
    told: str
    findings: int
    shown: int
    open_: int
    false: int
    past: int
    threats_told: bool
    seconds: float


def _beside(text: Path, ending: str) -> Path:
    """The file beside a text with another ending."""
    return text.with_name(text.name[: -len(".mal")] + ending)


def record_path(text: Path) -> Path:
    """Where the record of a text is kept: in a folder beside it."""
    return text.parent / KEPT / f"{text.name}.json"


def _write(path: Path, content: bytes) -> None:
    """Writes a file whole or not at all."""
    path.parent.mkdir(exist_ok=True)
    half = path.with_name(f"{path.name}.{os.getpid()}.part")
    half.write_bytes(content)
    os.replace(half, path)


def read_record(text: Path) -> Optional[Record]:
    """The record of a text, where there is one that can be read."""
    try:
        return Record(**json.loads(record_path(text).read_text(encoding="utf-8")))
    except (OSError, ValueError, TypeError):
        return None


def _told(found: Analysis) -> str:
    """What a text's status comes to, in a few words."""
    if found.faults is not None and found.faults.told:
        first = found.faults.told[0]
        return f"line {first.position.line}: {first.refusal.code}, {first.refusal.text}"
    left = {Status.CLEAN: "leaves nothing open", Status.LEFT: "leaves something open"}
    return next((told for status, told in left.items() if status == found.outcome.status), meaning_of(found.outcome.status))


def _record(found: Analysis, program: str, seconds: float) -> Record:
    """The record of a text that was run."""
    compliances = [each.report.compliance for each in found.procedures]
    known = [each for each in compliances if each is not None]
    counts = {verdict: sum(each.count(verdict) for each in known) for verdict in Verdict}
    return Record(
        source=found.source.digest,
        program=program,
        status=found.outcome.status,
        told=_told(found),
        findings=sum(len(findings_of(each)) for each in found.procedures),
        shown=counts[Verdict.SHOWN],
        open_=counts[Verdict.OPEN],
        false=counts[Verdict.FALSE],
        past=sum(len(each.past) for each in known),
        threats_told=bool(known),
        seconds=round(seconds, 2),
    )


def run_one(file: str, program: Program) -> int:
    """Runs one text and writes its report, its page and its record beside it; answers malpas's status."""
    text = Path(file)
    source = read_source(file)
    begun = time.monotonic()
    outcome = program.run(source.data)
    seconds = time.monotonic() - begun
    found = understood(text.name, source, outcome, program)
    _write(_beside(text, ".report"), outcome.output.encode("latin-1"))
    made = Made(f"{program.path.name}, {program.version}", now())
    _write(_beside(text, ".html"), page(found, made).encode())
    record = json.dumps(asdict(_record(found, _maker(program), seconds)), indent=1)
    _write(record_path(text), f"{record}\n".encode())
    return outcome.status


def texts_of(folder: Path) -> list[Path]:
    """All texts of a folder and the folders in it, in the order of their names."""
    return sorted(path for path in folder.rglob("*.mal") if path.is_file() and KEPT not in path.parts)


def _maker(program: Program) -> str:
    """What makes reports and pages: the program and the version of this tool."""
    return f"{program.digest} assess {VERSION}"


def _is_kept(text: Path, digest: str) -> bool:
    """Whether the record, the report and the page of a text stand, of these bytes and this program."""
    record = read_record(text)
    if record is None or not _beside(text, ".report").is_file() or not _beside(text, ".html").is_file():
        return False
    return record.program == digest and record.source == read_source(str(text)).digest


def _parallel_words(program: Program, folder: Path, jobs: Optional[str], machines: list[str]) -> list[str]:
    """The command line of GNU parallel, which is fed the names of texts, ended by zero bytes."""
    words = ["parallel", "--will-cite", "--null", "--joblog", str(folder / KEPT / "joblog")]
    words += ["--bar"] if sys.stderr.isatty() else []
    words += ["--jobs", jobs] if jobs else []
    for machine in machines:
        words += ["--sshlogin", machine]
    if machines:
        words += ["--workdir", "...", "--transferfile", "{}", "--return", "{.}.report", "--return", "{.}.html"]
        words += ["--return", "{//}/" + KEPT + "/{/}.json", "--cleanup"]
    command = [str(_COMMAND)] if machines else [sys.executable, str(_COMMAND)]
    return words + [*command, "one", "--program", str(program.path), "{}"]


def _run_all(texts: list[Path], program: Program, folder: Path, jobs: Optional[str], machines: list[str]) -> None:
    """Runs texts, by GNU parallel where it is installed, else one after the other."""
    if shutil.which("parallel") is None:
        print("assess: GNU parallel is not installed, so the texts are run one after the other", file=sys.stderr)
        for text in texts:
            run_one(str(text), program)
        return
    (folder / KEPT).mkdir(exist_ok=True)
    names = "".join(f"./{text.relative_to(folder)}\0" for text in texts)
    words = _parallel_words(program, folder, jobs, machines)
    subprocess.run(words, input=names.encode("utf-8", "surrogateescape"), cwd=folder, check=False)


def _address(folder: Path, file: Path) -> str:
    """The address of a file, as the index page of the folder links to it."""
    return quote(f"./{file.relative_to(folder)}")


def _index_row(folder: Path, text: Path) -> Markup:
    """A text's row of the index."""
    name = str(text.relative_to(folder))
    record = read_record(text)
    if record is None:
        return row(name, "not run", "-", "-", "-", "-", "-", "-", "-")
    colour = {Status.CLEAN: "clean", Status.LEFT: "left"}.get(Status(record.status) if record.status < 8 else None, "refused")
    status = element("span", f"{record.status}", class_=f"mark {colour}")
    counts: list[Child] = [record.shown, record.open_, record.false, record.past]
    threats = counts if record.threats_told else ["-"] * len(counts)
    rest = element("span", f" of {name}", class_="unseen")
    report = link(_address(folder, _beside(text, ".report")), "report", rest)
    shown = link(_address(folder, _beside(text, ".html")), name)
    return row(shown, joined([status, " ", record.told]), record.findings, *threats, f"{record.seconds:.2f}\u00a0s", report)


def index_page(folder: Path, texts: list[Path], program: Program) -> str:
    """The index page over all texts."""
    records = [record for record in map(read_record, texts) if record is not None]
    counts = Counter(record.status for record in records)
    told = [element("li", f"{counts[status]} with status {status}: {meaning_of(status)}") for status in sorted(counts)]
    heads = ["Text", "Status", "Findings", "Shown", "Open", "False", "Past", "Time", "Report"]
    made = table("Texts", heads, [_index_row(folder, text) for text in texts], "index")
    pairs = [("Texts", len(texts)), ("malpas", f"{program.path.name}, {program.version}"), ("Date", now())]
    head = element("dl", [joined([element("dt", name), element("dd", value)]) for name, value in pairs], class_="head")
    top = element("header", element("h1", f"Assessment of {folder.name}"), head)
    words = (
        "Shown, Open and False count threats; - stands where the report has no section on them. Past counts regions past "
        "their size. The time is that of malpas."
    )
    body = element("main", element("ul", told), element("h2", "Texts"), made, element("p", words), id="main")
    return document(f"Assessment of {folder.name} - assess", top, body)


def assess_folder(name: str, program: Program, jobs: Optional[str], machines: list[str], out: TextIO, errors: TextIO) -> int:
    """Runs what changed in a folder, writes its index page, and answers the greatest status of malpas."""
    folder = Path(name).resolve()
    if not folder.is_dir():
        print(f"assess: {name} is no folder", file=errors)
        return int(Status.READ_FAILED)
    texts = texts_of(folder)
    program.run(_PROBE)
    digest = _maker(program)
    changed = [text for text in texts if not _is_kept(text, digest)]
    for text in changed:
        record_path(text).unlink(missing_ok=True)
    print(f"{len(texts)} texts, {len(texts) - len(changed)} without change, {len(changed)} to run", file=out, flush=True)
    if changed:
        _run_all(changed, program, folder, jobs, machines)
    _write(folder / "index.html", index_page(folder, texts, program).encode())
    failed = [text for text in texts if read_record(text) is None]
    for text in failed:
        print(f"assess: {text.relative_to(folder)} was not run to its end", file=errors)
    print(f"index: {folder / 'index.html'}", file=out)
    statuses = [record.status for record in map(read_record, texts) if record is not None]
    return max(statuses + [int(Status.NO_WORDS)] * bool(failed), default=int(Status.CLEAN))
