"""The page docs/READING.md: the names that it has, each with its file, and how they differ from what the headline rests on."""

from __future__ import annotations

import posixpath
import re
from dataclasses import dataclass
from pathlib import Path
from typing import Iterator

from reading.closure import Name, Specs

PAGE = "docs/READING.md"
CLAUSE_FILE = "crates/malpas/src/top.rt"
CLAUSE = "headline"

LINK = re.compile(r"\]\(([^)]*\.(?:antt|rt))\)")
QUOTED = re.compile(r"`([^`]*)`")


@dataclass(frozen=True)
class Entry:
    """A file on the page, and its names there, in order."""

    file: str
    names: tuple[str, ...]


def entries_of(text: str, page: str = PAGE) -> list[Entry]:
    """The files to which the page's list entries link, each with what is quoted between its link and the next one in its line."""
    found = []
    for line in text.splitlines():
        if line.startswith("- "):
            _, *parts = LINK.split(line)
            for link, told in zip(parts[::2], parts[1::2]):
                file = posixpath.normpath(posixpath.join(posixpath.dirname(page), link))
                found.append(Entry(file, tuple(QUOTED.findall(told))))
    return found


def differences(top: Path, text: str) -> list[str]:
    """What is wrong with a page: files and names that are not there, names that are missing or superfluous, and what stands out of order."""
    specs = Specs(top)
    entries = entries_of(text)
    lost = [entry.file for entry in entries if not (top / entry.file).is_file()]
    if lost:
        return [f"there is no file {file}" for file in lost]
    cited = specs.cited(CLAUSE_FILE, CLAUSE)
    reached = specs.reached(cited)
    told = [Name(entry.file, name) for entry in entries for name in entry.names]
    found = [f"{name.file} has no {name.name}" for name in told if not is_there(specs, name)]
    found += [f"{name.file}: {name.name} is missing" for name in sorted(reached.keys() - set(told))]
    found += [f"{name.file}: {name.name} is superfluous" for name in sorted(set(told) - reached.keys()) if is_there(specs, name)]
    found += [f"{name.file}: {name.name} stands there twice" for name in sorted(set(told)) if told.count(name) > 1]
    return found or [*files_out_of_order(entries, cited, reached), *names_out_of_order(specs, entries)]


def is_there(specs: Specs, name: Name) -> bool:
    """Whether a file defines a name: one of specs/ by a definition, one of the code by a type."""
    if name.file.endswith(".antt"):
        return name.name in specs.file(name.file).definitions
    code = (specs.top / name.file).read_text(encoding="utf-8")
    return re.search(rf"\b(?:struct|enum) {re.escape(name.name)}\b", code) is not None


def files_out_of_order(entries: list[Entry], cited: set[Name], reached: dict[Name, set[Name]]) -> Iterator[str]:
    """The files of definitions that the clause does not cite and no file before them on the page uses."""
    opened = {name.file for name in cited}
    for entry in entries:
        if entry.file not in opened:
            yield f"{entry.file} stands before each file that uses it"
        opened |= {used.file for name in entry.names for used in reached[Name(entry.file, name)]}


def names_out_of_order(specs: Specs, entries: list[Entry]) -> Iterator[str]:
    """The files whose names do not stand in the order of the file."""
    for entry in entries:
        if entry.file.endswith(".antt"):
            order = [name for name in specs.file(entry.file).definitions if name in entry.names]
            if order != list(entry.names):
                yield f"{entry.file}: the order there is {' '.join(order)}"
