"""The definitions of specs/ that are reached from a clause of a contract, and the types of the code that they name."""

from __future__ import annotations

import re
from dataclasses import dataclass, field
from pathlib import Path
from typing import Iterable

from reading.definitions import Definition, File, Used, file_of, uses_of
from reading.names import Walk, names_of
from reading.pieces import closed_at, pieces_of

GHOST_USE = re.compile(r"^ghost use (.*);$", re.MULTILINE)

BUILT_IN = frozenset("→ × : = , _ ⊥ Type Unit tt absurd record if then else elim as unfolding".split())
"""The words of the language of definitions that no file brings into scope."""

GLUED = re.compile(r"[0-9]+|\".*\"", re.DOTALL)
"""A number or a text."""


@dataclass(frozen=True, order=True)
class Name:
    """A definition, or a type of the code: the file where it stands, from the repository's top, and its name."""

    file: str
    name: str


@dataclass
class Specs:
    """The definitions of all crates of a repository."""

    top: Path
    files: dict[str, File] = field(default_factory=dict)

    def file(self, path: str) -> File:
        if path not in self.files:
            self.files[path] = file_of((self.top / path).read_text(encoding="utf-8"))
        return self.files[path]

    def found(self, path: str, word: str) -> Name | None:
        """What a word of a file stands for: a definition of specs/, a type of the code, or neither of these."""
        file = self.file(path)
        for spelling in (word, f"◌{word}◌"):
            if spelling in file.definitions:
                return Name(path, spelling)
            owner = file.owner(spelling)
            if owner is not None:
                return Name(path, owner.name)
            if spelling in file.uses:
                return self.target(file.uses[spelling])
        head, _, rest = word.partition(".")
        used = file.uses.get(head)
        if rest and used is not None and used.item is None:
            return self.target(Used(used.module, rest.split(".")[0]))
        return None

    def target(self, used: Used) -> Name | None:
        """What is used: of a module of specs/ the definition, which for a constructor is its data type; of a declared type the type."""
        root, crate, folder, *rest = (*used.module, "", "")
        rest = [part for part in rest if part]
        if root != "Rattle" or crate == "std" or folder != "specs" or used.item is None:
            return None
        if rest[0] == "declared":
            return self.declared(crate, rest[1:])
        path = f"crates/{crate}/specs/{'/'.join(rest)}.antt"
        file = self.file(path)
        if used.item in file.definitions:
            return Name(path, used.item)
        owner = file.owner(used.item)
        if owner is not None:
            return Name(path, owner.name)
        if used.item in file.exports:
            return self.target(file.exports[used.item])
        raise ValueError(f"{path} has no {used.item}")

    def declared(self, crate: str, parts: list[str]) -> Name:
        """The type of the code of `MODULE.TYPE` or of a part of it, as `MODULE.TYPE.TheVariants`."""
        of_type = next(place for place, part in enumerate(parts) if part[0].isupper())
        modules = "/".join(parts[:of_type])
        return Name(f"crates/{crate}/src/{modules}.rt", parts[of_type])

    def is_constructor(self, path: str, word: str) -> bool:
        """Whether a word of a pattern is a constructor there, and no variable."""
        file = self.file(path)
        if file.owner(word) is not None:
            return True
        used = file.uses.get(word.partition(".")[0])
        if used is None:
            return False
        if used.item is None or "declared" in used.module or used.module[1] == "std":
            return True
        target = self.target(used)
        return target is not None and target.name != used.item

    def definition(self, name: Name) -> Definition:
        return self.file(name.file).definitions[name.name]

    def used_by(self, name: Name) -> set[Name]:
        """The definitions and types that a definition names; a type of the code names none here."""
        if not name.file.endswith(".antt"):
            return set()
        words = names_of(self.definition(name), lambda word: self.is_constructor(name.file, word))
        for word in words:
            if not self.is_known(name.file, word):
                raise ValueError(f"{name.file}: what is {word} in {name.name}?")
        return {found for word in words if (found := self.found(name.file, word)) is not None} - {name}

    def is_known(self, path: str, word: str) -> bool:
        """Whether a word is one of the language, or something brings it into the scope of a file."""
        file = self.file(path)
        spellings = (word, f"◌{word}◌", word.partition(".")[0])
        in_scope = any(spelling in file.definitions or spelling in file.uses or file.owner(spelling) for spelling in spellings)
        return in_scope or word in BUILT_IN or GLUED.fullmatch(word) is not None

    def cited(self, path: str, clause: str) -> set[Name]:
        """The definitions that an `ensures` clause of a file of the code cites, by what the file's lines `ghost use` bring."""
        text = (self.top / path).read_text(encoding="utf-8")
        start = text.index(f"ensures {clause} {{") + len(f"ensures {clause} ")
        pieces = pieces_of(text[start:])
        uses = {name: used for line in GHOST_USE.findall(text) for name, used in uses_of(pieces_of(line))}
        words: set[str] = set()
        Walk(pieces[1 : closed_at(pieces, 0)], lambda word: False).into(words, frozenset())
        return {found for word in words if word in uses and (found := self.target(uses[word])) is not None}

    def reached(self, roots: Iterable[Name]) -> dict[Name, set[Name]]:
        """All that is reached from some names, each with what it names."""
        found: dict[Name, set[Name]] = {}
        waiting = list(roots)
        while waiting:
            name = waiting.pop()
            if name not in found:
                found[name] = self.used_by(name)
                waiting.extend(found[name])
        return found
