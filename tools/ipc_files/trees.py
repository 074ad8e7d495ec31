"""Texts, the words and lists that stand in them, and where: what every change takes and gives."""

from __future__ import annotations

from bisect import bisect_right
from dataclasses import dataclass
from typing import Iterator, NamedTuple, Union


class Text:
    """A file's bytes under the name that it was called by."""

    def __init__(self, name: str, data: bytes):
        self.name, self.data = name, data
        self.lines = [0]
        at = data.find(b"\n")
        while at >= 0:
            self.lines.append(at + 1)
            at = data.find(b"\n", at + 1)

    def place(self, offset: int) -> tuple[int, int]:
        """The line and the column of a byte, counted from 1. Columns count bytes."""
        line = bisect_right(self.lines, offset)
        return line, offset - self.lines[line - 1] + 1


class Span(NamedTuple):
    """Where something stands: byte offsets of its text, the end not included."""

    text: Text
    start: int
    end: int

    def told(self) -> str:
        """The place as editors count: file, line and column."""
        line, column = self.text.place(self.start)
        return f"{self.text.name}:{line}:{column}"


class Word:
    """A run of a text as it is written. Two are equal where they are the same in lower case."""

    __slots__ = ("text", "low", "at")

    def __init__(self, text: str, at: Span):
        self.text, self.low, self.at = text, text.lower(), at

    @property
    def shown(self) -> str:
        """The word as it is told: as it stands in its file, where it is one of its words, and the beginning of a long one."""
        source = self.at.text.data[self.at.start:self.at.end].decode("ascii", "replace")
        name = self.text if any(it in source for it in "() \n") or not source else source
        return name if len(name) <= 60 else f"{name[:40]}.. ({len(name)} bytes)"

    def __eq__(self, other: object) -> bool:
        return isinstance(other, Word) and self.low == other.low

    def __hash__(self) -> int:
        return hash(self.low)


class Group:
    """What stands between two parentheses."""

    __slots__ = ("parts", "at")

    def __init__(self, parts: list[Node], at: Span):
        self.parts, self.at = parts, at

    def __eq__(self, other: object) -> bool:
        return isinstance(other, Group) and self.parts == other.parts

    def __hash__(self) -> int:
        return hash(tuple(self.parts))

    @property
    def head(self) -> str:
        """The first word in lower case; nothing, where none stands first."""
        return self.parts[0].low if self.parts and isinstance(self.parts[0], Word) else ""

    def with_parts(self, parts: list[Node]) -> Group:
        """The list with these parts, which is itself where nothing of it is new."""
        if len(parts) == len(self.parts) and all(new is old for new, old in zip(parts, self.parts)):
            return self
        return Group(parts, self.at)


Node = Union[Word, Group]


def listed(at: Span, *parts: Node | str) -> Group:
    """A new list that is told at this place."""
    return Group([Word(it, at) if isinstance(it, str) else it for it in parts], at)


def words_in(node: Node) -> Iterator[Word]:
    """All words of a tree, in their order."""
    waiting = [node]
    while waiting:
        it = waiting.pop()
        if isinstance(it, Word):
            yield it
        else:
            waiting.extend(reversed(it.parts))


@dataclass(frozen=True)
class Entry:
    """A name or a variable of a typed list, with the types that are written after it. It is of one of them; without any it is
    of `object`."""

    name: Word
    types: tuple[Word, ...] = ()

    @property
    def lows(self) -> tuple[str, ...]:
        """The types in lower case."""
        return tuple(it.low for it in self.types) or ("object",)


def entries_of(parts: list[Node]) -> list[Entry]:
    """The names or variables of a typed list, each with its types."""
    found, names, index = [], [], 0
    while index < len(parts):
        it = parts[index]
        if it.low == "-":
            kind = parts[index + 1]
            types = tuple(kind.parts[1:]) if isinstance(kind, Group) else (kind,)
            found.extend(Entry(name, types) for name in names)
            names, index = [], index + 2
        else:
            names.append(it)
            index += 1
    return found + [Entry(name) for name in names]


def parts_of(entries: list[Entry]) -> list[Node]:
    """The typed list that has these entries."""
    typed_end = max((index + 1 for index, it in enumerate(entries) if it.types), default=0)
    parts: list[Node] = []
    for index, it in enumerate(entries):
        parts.append(it.name)
        last_of_group = index + 1 == len(entries) or entries[index + 1].lows != it.lows
        if index < typed_end and (last_of_group or index + 1 == typed_end):
            parts += [Word("-", it.name.at), type_of(it)]
    return parts


def type_of(entry: Entry) -> Node:
    """An entry's type as it is written after a dash."""
    at = entry.name.at
    if len(entry.types) > 1:
        return listed(at, "either", *entry.types)
    return entry.types[0] if entry.types else Word("object", at)
