"""The program malpas: where it is, what it is, and one run of it on one text."""

from __future__ import annotations

import hashlib
import os
import shutil
import subprocess
import sys
from dataclasses import dataclass
from enum import IntEnum
from pathlib import Path
from typing import Optional, Protocol

TOP = Path(__file__).resolve().parent.parent.parent


class Status(IntEnum):
    """The exit statuses of malpas."""

    CLEAN = 0
    LEFT = 1
    REFUSED = 2
    READ_FAILED = 3
    WRITE_FAILED = 4
    NO_MEMORY = 5
    WORDS = 6
    NO_WORDS = 7


MEANING = {
    Status.CLEAN: "a report was written, and what it analyses leaves nothing open",
    Status.LEFT: "a report was written, and it leaves something open",
    Status.REFUSED: "the text was refused",
    Status.READ_FAILED: "reading the text failed",
    Status.WRITE_FAILED: "writing the report failed, so it is not whole",
    Status.NO_MEMORY: "memory ran out, so the report is not whole",
    Status.WORDS: "the program did not understand the words that it was given",
    Status.NO_WORDS: "the program could not be started",
}


def meaning_of(status: int) -> str:
    """What an exit status says, in words."""
    if status > 128:
        return f"the program was ended by signal {status - 128}"
    return MEANING.get(Status(status), "") if status in list(Status) else f"the program ended with status {status}"


@dataclass(frozen=True)
class Outcome:
    """What one run gave: its exit status and the text that it wrote."""

    status: int
    output: str


class Runner(Protocol):
    """What can run malpas on a text: the program, or what stands in for it."""

    def run(self, data: bytes) -> Outcome:
        """What malpas gives on these bytes."""


class NoProgram(Exception):
    """Malpas is not to be found, or does not start."""


@dataclass(frozen=True)
class Program:
    """A malpas that can be run, with the words that name the sections to write; without words all are written."""

    path: Path
    words: tuple[str, ...] = ()

    def run(self, data: bytes) -> Outcome:
        """Runs it on the bytes of one text. What it says on standard error is left to stand there."""
        try:
            done = subprocess.run([str(self.path), *self.words], input=data, stdout=subprocess.PIPE, check=False)
        except OSError as error:
            raise NoProgram(f"{self.path} does not start: {error.strerror}") from error
        status = done.returncode if done.returncode >= 0 else 128 - done.returncode
        return Outcome(status, done.stdout.decode("latin-1"))

    @property
    def binary(self) -> Path:
        """The file that is run in the end: the built program where `path` is the script at a checkout's top."""
        built = self.path.parent / "crates" / "malpas" / "out" / "malpas"
        return built if built.is_file() else self.path

    @property
    def digest(self) -> str:
        """The SHA-256 of the file that is run."""
        return hashlib.sha256(self.binary.read_bytes()).hexdigest()

    @property
    def version(self) -> str:
        """The commit of the checkout in which the program stands, where there is one, and the start of its SHA-256."""
        return f"{_commit_of(self.path.parent)}SHA-256 {self.digest[:16]}"


def _commit_of(folder: Path) -> str:
    """The commit of the checkout at that folder with a comma behind, or nothing where it is none."""
    if not (folder / ".git").exists() or shutil.which("git") is None:
        return ""
    words = ["git", "-C", str(folder), "describe", "--always", "--dirty"]
    done = subprocess.run(words, capture_output=True, text=True, check=False)
    return f"commit {done.stdout.strip()}, " if done.returncode == 0 else ""


def find_program(given: Optional[str] = None) -> Program:
    """The program that an option names, else the variable MALPAS, else the one beside `tools`, else on PATH."""
    named = given or os.environ.get("MALPAS")
    if named:
        found = shutil.which(named)
        if found is None:
            raise NoProgram(f"{named} is no program that can be run")
        return Program(Path(found).resolve())
    for folder in (Path(sys.argv[0]).absolute().parent, TOP):
        if os.access(folder / "malpas", os.X_OK) and (folder / "malpas").is_file():
            return Program(folder / "malpas")
    found = shutil.which("malpas")
    if found is None:
        raise NoProgram("malpas is neither beside this tool nor on PATH: name it by --program or in the variable MALPAS")
    return Program(Path(found))
