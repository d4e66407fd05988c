"""`assess certify`: a text with certificates for its open threats, which malpas checks."""

from __future__ import annotations

import os
import re
import shutil
import time
from dataclasses import dataclass, field, replace
from pathlib import Path
from typing import Optional, TextIO

from assess_lib.analysis import read_source, understood
from assess_lib.certify_literals import Listed, NotAListing, OpenThreat, read_listing
from assess_lib.certify_rules import Certificate, Split, written
from assess_lib.certify_search import Search
from assess_lib.certify_solver import Solver, find_solver
from assess_lib.check import tell
from assess_lib.program import TOP, NoProgram, Program, Runner, Status, meaning_of
from assess_lib.source import SourceText, write_letters

LIMIT = 20.0
WORD = "--certificates"
_NAME = "malpas_literals"
_MARK = re.compile(r"(?:\A|(?<=\n))%%\n")
_BLOCK = re.compile(r"^CERT (\S+) (\d+)\n(?:(?!CERT ).*\n?)*", re.MULTILINE)
_READ = re.compile(r"^READ (\d+) FAILS$", re.MULTILINE)


def find_literals(program: Program, given: Optional[str] = None) -> Program:
    """The second program: the one that an option names, else the variable MALPAS_LITERALS, else the one beside malpas or at the
    top of the checkout, else on PATH. Beside `quick`, which is not proved, stands `quick_literals`."""
    name = "quick_literals" if program.path.name == "quick" else _NAME
    named = given or os.environ.get("MALPAS_LITERALS")
    if named:
        found = shutil.which(named)
        if found is None:
            raise NoProgram(f"{named} is no program that can be run")
        return Program(Path(found).resolve())
    for folder in (program.path.parent, TOP):
        if os.access(folder / name, os.X_OK) and (folder / name).is_file():
            return Program(folder / name)
    found = shutil.which(_NAME)
    if found is None:
        raise NoProgram(f"{_NAME} is neither beside malpas nor on PATH: name it by --literals or in the variable MALPAS_LITERALS")
    return Program(Path(found))


@dataclass
class Certified:
    """What was found: certificates by procedure and threat, what is said of each threat, and how many there are."""

    blocks: dict[tuple[str, int], str] = field(default_factory=dict)
    notes: list[str] = field(default_factory=list)
    threats: int = 0


def _splits(certificate: Certificate) -> int:
    """How many splits a certificate has."""
    return 1 + _splits(certificate.low) + _splits(certificate.high) if isinstance(certificate, Split) else 0


def _shape(certificate: Certificate) -> str:
    """What a certificate is, in words."""
    splits = _splits(certificate)
    return "one sum" if not splits else f"{splits + 1} sums behind {splits} split{'s' if splits > 1 else ''}"


def _certify_one(procedure: Listed, threat: OpenThreat, solver: Solver, limit: float, found: Certified) -> None:
    """Looks for the certificate of one threat."""
    last = time.monotonic() + limit
    search = Search(procedure, threat, solver, lambda: time.monotonic() > last)
    certificate = search.certificate()
    found.threats += 1
    if certificate is None:
        found.notes.append(f"{procedure.name}: threat {threat.number}: not settled: {search.why}")
        return
    found.blocks[procedure.name, threat.number] = written(certificate, procedure.name, threat)
    found.notes.append(f"{procedure.name}: threat {threat.number}: certificate found, {_shape(certificate)}")


def certify_all(procedures: list[Listed], solver: Solver, limit: float) -> Certified:
    """Looks for a certificate of each open threat, for at most `limit` seconds each."""
    found = Certified()
    for procedure in procedures:
        if not procedure.reducible:
            found.notes.append(f"{procedure.name}: not reducible, so it has no threats that a certificate could settle")
        for threat in procedure.threats:
            _certify_one(procedure, threat, solver, limit, found)
    return found


def _parted(letters: str) -> tuple[str, dict[tuple[str, int], str]]:
    """The text of an input, and the certificates that stand behind it already, by procedure and threat."""
    mark = _MARK.search(letters)
    if mark is None:
        return letters, {}
    behind = letters[mark.end() :]
    blocks = {(block.group(1), int(block.group(2))): block.group() for block in _BLOCK.finditer(behind)}
    return letters[: mark.start()], blocks


def with_certificates(letters: str, found: Certified) -> str:
    """The text with a line `%%` and certificates behind it; those that stood there stay where none was found."""
    text, standing = _parted(letters)
    blocks = {**standing, **found.blocks}
    if not blocks:
        return letters
    if text and not text.endswith("\n"):
        text += "\n"
    return text + "%%\n" + "".join(blocks[key] for key in sorted(blocks))


def _closing(found: Certified, status: int, failed: list[str], solver: Solver, seconds: float) -> str:
    """The last line on standard error."""
    kept = f"certificates for {len(found.blocks)} of {found.threats} open threats, by {solver.name}; {seconds:.1f} seconds"
    if status == Status.WORDS:
        return f"{kept}; this malpas does not know {WORD}, so it checked none of them"
    if failed:
        return f"{kept}; malpas does not accept what stands for threat {', '.join(failed)}"
    return f"{kept}; malpas {WORD}: {meaning_of(status)} (status {status})"


def _listed(literals: Runner, data: bytes) -> list[Listed]:
    """The procedures with their open threats, as the second program tells them of a text that is accepted."""
    outcome = literals.run(data)
    if outcome.status != Status.CLEAN:
        raise NotAListing(f"the program that lists literals ended with status {outcome.status}")
    return read_listing(outcome.output)


def certify(
    file: str,
    program: Program,
    literals: Runner,
    out: TextIO,
    errors: TextIO,
    limit: float = LIMIT,
    solver: Optional[Solver] = None,
) -> int:
    """Writes the text of a file with certificates for its open threats; answers malpas's status for what it wrote, with the
    certificates checked."""
    began = time.monotonic()
    try:
        source = read_source(file)
    except OSError as error:
        print(f"{file}: cannot be read: {error.strerror}", file=errors)
        return int(Status.READ_FAILED)
    text = SourceText(_parted(source.letters)[0].encode("latin-1"))
    outcome = program.run(text.data)
    if outcome.status not in (Status.CLEAN, Status.LEFT):
        return tell(understood(file, text, outcome, program), out, errors)
    chosen = solver or find_solver()
    try:
        found = certify_all(_listed(literals, text.data), chosen, limit)
    except NotAListing as error:
        print(f"{file}: {error}", file=errors)
        return int(Status.NO_WORDS)
    made = with_certificates(source.letters, found)
    write_letters(made, out)
    checked = replace(program, words=(WORD, "--compliance")).run(made.encode("latin-1"))
    for note in found.notes:
        print(f"{file}: {note}", file=errors)
    failed = _READ.findall(checked.output)
    print(f"{file}: {_closing(found, checked.status, failed, chosen, time.monotonic() - began)}", file=errors)
    return checked.status
