"""The two files of a task, section by section, and what was changed of them so far."""

from __future__ import annotations

from typing import Callable

from ipc_files.formulas import Scope, in_conditions, scope_with
from ipc_files.told import Change
from ipc_files.trees import Entry, Group, Node, Span, Text, Word, entries_of, listed, parts_of


class File:
    """A domain or a problem: its name, and its sections behind that."""

    def __init__(self, text: Text, tree: Group):
        self.text, self.tree = text, tree
        heading: Group = tree.parts[1]
        self.kind: str = heading.head
        self.name: Word = heading.parts[1]
        # Each section with the one that it was at first; None where it is new.
        self.sections: list[tuple[Group, Group | None]] = [(it, it) for it in tree.parts[2:]]

    @property
    def end(self) -> Span:
        """The parenthesis that closes the file."""
        return Span(self.text, self.tree.at.end - 1, self.tree.at.end)

    def all(self, keyword: str) -> list[Group]:
        """The sections of this keyword."""
        return [it for it, _ in self.sections if it.head == keyword]

    def find(self, keyword: str) -> Group | None:
        """The section of this keyword, of which a file has one at most."""
        return next(iter(self.all(keyword)), None)

    def change(self, keyword: str, change: Callable[[Group], list[Group]]) -> None:
        """Puts into the place of each section of this keyword those that `change` makes of it, if any."""
        found: list[tuple[Group, Group | None]] = []
        for it, first in self.sections:
            made = change(it) if it.head == keyword else [it]
            # An empty list keeps the place of one that is dropped.
            found += [(one, None if index else first) for index, one in enumerate(made or [Group([], it.at)])]
        self.sections = found

    def put(self, keyword: str, parts: list[Node]) -> None:
        """Writes the section of this keyword with these parts behind it, at the file's end where there is none."""
        if self.find(keyword):
            self.change(keyword, lambda old: [old.with_parts([old.parts[0], *parts])])
        else:
            self.sections.append((listed(self.end, keyword, *parts), None))

    def drop(self, keyword: str) -> None:
        """Drops all sections of this keyword."""
        self.change(keyword, lambda old: [])

    def entries(self, keyword: str) -> list[Entry]:
        """The entries of a section that is a typed list."""
        section = self.find(keyword)
        return entries_of(section.parts[1:]) if section else []

    def put_entries(self, keyword: str, entries: list[Entry]) -> None:
        """Writes the section of this keyword as the typed list of these entries."""
        self.put(keyword, parts_of(entries))


class Task:
    """A domain and a problem, with the changes so far and what takes a plan back."""

    def __init__(self, domain: File, problem: File):
        self.domain, self.problem = domain, problem
        self.changes: list[Change] = []
        # By what the costs of plans were multiplied.
        self.factor = 1
        # By kind ("action", "object", ..), the name that is written in the place of one, both in lower case.
        self.renamed: dict[str, dict[str, str]] = {}
        # For each action that is written as several, by its name: its parameters, and of each step the name with its parameters.
        self.steps: dict[str, tuple[list[str], list[tuple[str, list[str]]]]] = {}

    def tell(self, kind: str, at: Span, text: str) -> None:
        """Adds a change to those that are told."""
        self.changes.append(Change(kind, at, text))

    @property
    def files(self) -> tuple[File, File]:
        return self.domain, self.problem

    @property
    def has_metric(self) -> bool:
        """Whether plans cost what their actions increase, and not 1 an action."""
        return self.problem.find(":metric") is not None

    def each_condition(self, change: Callable[[Group, Scope], Group]) -> None:
        """Changes each condition: `change` takes one with the variables in scope and gives another."""
        def of_action(it: Group) -> list[Group]:
            scope = scope_of(it)
            made = with_value(it, ":precondition", lambda old: change(old, scope) if old.parts else old)
            return [with_value(made, ":effect", lambda old: in_conditions(old, scope, change))]

        self.domain.change(":action", of_action)
        self.problem.put(":goal", [change(self.problem.find(":goal").parts[1], {})])


def value_of(action: Group, keyword: str) -> Group | None:
    """What stands behind a keyword of an action."""
    for index, it in enumerate(action.parts[:-1]):
        if isinstance(it, Word) and it.low == keyword:
            return action.parts[index + 1]
    return None


def with_value(action: Group, keyword: str, change: Callable[[Group], Group]) -> Group:
    """An action with another value behind a keyword that it has: what `change` makes of the one that is there."""
    parts = [*action.parts]
    for index, it in enumerate(action.parts[:-1]):
        if isinstance(it, Word) and it.low == keyword:
            parts[index + 1] = change(parts[index + 1])
    return action.with_parts(parts)


def parameters_of(action: Group) -> list[Entry]:
    """The parameters of an action."""
    value = value_of(action, ":parameters")
    return entries_of(value.parts) if value else []


def scope_of(action: Group) -> Scope:
    """The types of each parameter of an action."""
    return scope_with({}, parameters_of(action))
