"""A file of definitions as its parts: what it uses from where, and what it defines."""

from __future__ import annotations

from dataclasses import dataclass, field

from reading.pieces import Pieces, blocks_of, closed_at, parted, pieces_of, place_of

BEFORE_A_NAME = frozenset(["pub", "abbrev", "unfoldable"])
"""What may stand before the name of a definition, with or without a word for its sort."""

WITHOUT_A_NAME = frozenset(["infixl", "infixr", "infix", "module", "mod"])
"""What begins a block that defines nothing of a reader's concern."""


@dataclass
class Definition:
    """A definition: its name, its sort (`function`, `record` or `data`), whether it is public, its signature or header, its clauses, and the
    constructors or fields with their types."""

    name: str
    sort: str
    public: bool
    signature: Pieces
    clauses: list[Pieces] = field(default_factory=list)
    parts: list[tuple[str, Pieces]] = field(default_factory=list)


@dataclass(frozen=True)
class Used:
    """A name that a file uses under a name of its own: that of an item of a module, or, with no item, of the module itself."""

    module: tuple[str, ...]
    item: str | None


@dataclass
class File:
    """What a file uses, by the names that it gives, and what it defines, in order."""

    uses: dict[str, Used] = field(default_factory=dict)
    exports: dict[str, Used] = field(default_factory=dict)
    definitions: dict[str, Definition] = field(default_factory=dict)

    def owner(self, constructor: str) -> Definition | None:
        """The data type of this file that has such a constructor."""
        return next((d for d in self.definitions.values() if d.sort == "data" and constructor in dict(d.parts)), None)


def file_of(text: str) -> File:
    """The parts of a file."""
    file = File()
    read_blocks(file, pieces_of(text), 0)
    return file


def read_blocks(file: File, pieces: Pieces, column: int) -> None:
    last: Definition | None = None
    for block in blocks_of(pieces, column):
        words = [piece.text for piece in block]
        if "use" in words[:2]:
            for name, used in uses_of(block[words.index("use") + 1 :]):
                file.uses[name] = used
                if words[0] == "pub":
                    file.exports[name] = used
        elif "mutual" in words[:2]:
            rest = block[words.index("mutual") + 1 :]
            read_blocks(file, rest, rest[0].column)
        elif words[0] in WITHOUT_A_NAME or words[:2] == ["pub", "mod"]:
            last = None
        elif words[0] in BEFORE_A_NAME or words[0] in ("record", "data"):
            last = definition_of(block)
            file.definitions[last.name] = last
        elif len(words) > 1 and words[1] == ":":
            last = Definition(words[0], "function", False, block[2:])
            file.definitions[last.name] = last
        elif last is not None:
            last.clauses.append(block)


def uses_of(pieces: Pieces) -> list[tuple[str, Used]]:
    """What a line `use M.{a, b as c}` or `use M as n` brings, by the names that it gives."""
    path = pieces[0].text
    module = tuple(path.rstrip(".").split("."))
    if path.endswith("."):
        items = [[piece.text for piece in item] for item in parted(pieces[2 : closed_at(pieces, 1)], ",")]
        return [(item[-1] if "as" in item else "".join(item), Used(module, "".join(item[:2]) if item[0] == "[" else item[0])) for item in items]
    return [(pieces[-1].text if len(pieces) > 1 else module[-1], Used(module, None))]


def definition_of(block: Pieces) -> Definition:
    """The definition that such a line begins: `abbrev pub f : T`, `pub record R (x : A) : T where` or `pub data D : T where`."""
    words = [piece.text for piece in block]
    start = next(place for place, word in enumerate(words) if word not in BEFORE_A_NAME)
    public = "pub" in words[:start]
    if words[start] not in ("record", "data"):
        return Definition(words[start], "function", public, block[start + 2 :])
    name, where = words[start + 1], place_of(block, "where")
    if where is None:
        raise ValueError(f"the {words[start]} {name} has no where")
    body = block[where + 1 :]
    definition = Definition(name, words[start], public, block[start + 2 : where])
    for part in blocks_of(body, body[0].column) if body else []:
        told = place_of(part, ":")
        if told is None:
            raise ValueError(f"a part of {name} has no type")
        for piece in part[:told]:
            if piece.text != "pub":
                definition.parts.append((piece.text, part[told + 1 :]))
    return definition
