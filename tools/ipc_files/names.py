"""Names of other spellings than the language's: `#`, `.` and the like, a first `_` or digit, more than 255 bytes, and names of
predicates and functions that are words of the language."""

from __future__ import annotations

import re

from ipc_files.files import Task
from ipc_files.grammar import MOST_BYTES
from ipc_files.trees import Group, Node, Word, words_in

NAME = re.compile(r"[a-z][a-z0-9_-]*")
# To how many bytes a name is cut that would be too long with what is added to it, and how many these may be.
SHORT, MOST_ADDED = 60, 35
# No names of predicates and functions.
RESERVED = ("either", "total-cost", "preference", "assign", "decrease", "scale-up", "scale-down")


class Renaming:
    """The other names of a task, by kind."""

    def __init__(self, task: Task):
        self.task = task
        self.taken = {word.low.lstrip("?") for file in task.files for word in words_in(file.tree)}
        self.declared = {it.head for it in task.domain.find(":predicates").parts if isinstance(it, Group)}

    def word(self, kind: str, word: Word) -> Word:
        """The word of this kind that stands in the place of one."""
        mark = "?" if kind == "variable" else ""
        name = word.low[len(mark):]
        if NAME.fullmatch(name) and len(word.low) <= MOST_BYTES and not self.is_reserved(kind, name):
            return word
        of_kind = self.task.renamed.setdefault(kind, {})
        if word.low not in of_kind:
            of_kind[word.low] = mark + self.new(name, kind)
            self.task.tell("name", word.at, f"the {kind} `{word.shown}` is called `{of_kind[word.low]}`")
        return Word(of_kind[word.low], word.at)

    def is_reserved(self, kind: str, name: str) -> bool:
        """Whether a name of this kind is a word of the language. `total-cost` is so for predicates alone."""
        if kind == "function":
            return name in RESERVED and name != "total-cost"
        return kind == "predicate" and name in RESERVED and name in self.declared

    def new(self, name: str, kind: str) -> str:
        """A name that stands nowhere in the files, and is like this one."""
        like = re.sub(r"[^a-z0-9_-]", "-", name)
        like = like if len(like) <= MOST_BYTES - MOST_ADDED else like[:SHORT]
        if not NAME.fullmatch(like) or like in RESERVED:
            like = f"{kind[0]}-{like.lstrip('-_')}".rstrip("-")
        found, number = like, 1
        while found in self.taken:
            number += 1
            found = f"{like}-{number}"
        self.taken.add(found)
        return found


def rename(task: Task) -> None:
    """Gives each name of another spelling one of the language's."""
    renaming = Renaming(task)
    for file, kind in ((task.domain, "domain"), (task.problem, "problem")):
        file.name = renaming.word(kind, file.name)
        file.sections = [(SECTIONS[it.head](renaming, it), first) for it, first in file.sections]


def typed(renaming: Renaming, kind: str, parts: list[Node]) -> list[Node]:
    """A typed list whose entries are of this kind."""
    found, after_dash = [], False
    for it in parts:
        if isinstance(it, Group):
            found.append(it.with_parts([it.parts[0], *(renaming.word("type", one) for one in it.parts[1:])]))
        elif it.text == "-":
            found.append(it)
        else:
            found.append(renaming.word("type" if after_dash else kind, it))
        after_dash = isinstance(it, Word) and it.text == "-"
    return found


def names(kind: str):
    """What renames a section that is a typed list of this kind."""
    return lambda renaming, section: section.with_parts([section.parts[0], *typed(renaming, kind, section.parts[1:])])


def declaration(renaming: Renaming, kind: str, it: Group) -> Group:
    """A predicate or a function with its variables."""
    return it.with_parts([renaming.word(kind, it.parts[0]), *typed(renaming, "variable", it.parts[1:])])


def declarations(kind: str):
    """What renames a section of declarations of this kind."""
    def renamed(renaming: Renaming, section: Group) -> Group:
        return section.with_parts([it if isinstance(it, Word) else declaration(renaming, kind, it) for it in section.parts])
    return renamed


def atom(renaming: Renaming, kind: str, it: Group) -> Group:
    """An atom, or a function with its objects."""
    terms = (renaming.word("variable" if word.text[0] == "?" else "object", word) for word in it.parts[1:])
    return it.with_parts([it.parts[0] if it.head == "=" else renaming.word(kind, it.parts[0]), *terms])


def formula(renaming: Renaming, it: Group) -> Group:
    """A condition or an effect."""
    if it.head in ("and", "or", "not", "imply", "when"):
        return it.with_parts([it.parts[0], *(formula(renaming, part) for part in it.parts[1:])])
    if it.head in ("exists", "forall"):
        variables = it.parts[1].with_parts(typed(renaming, "variable", it.parts[1].parts))
        return it.with_parts([it.parts[0], variables, formula(renaming, it.parts[2])])
    if it.head == "increase":
        by = it.parts[2]
        return it.with_parts([*it.parts[:2], by if isinstance(by, Word) else atom(renaming, "function", by)])
    return atom(renaming, "predicate", it) if it.parts else it


def action(renaming: Renaming, section: Group) -> Group:
    """An action, with the names of its parts."""
    parts = [section.parts[0], renaming.word("action", section.parts[1])]
    for keyword, value in zip(section.parts[2::2], section.parts[3::2]):
        if keyword.low == ":parameters":
            value = value.with_parts(typed(renaming, "variable", value.parts))
        else:
            value = formula(renaming, value)
        parts += [keyword, value]
    return section.with_parts(parts)


def derived(renaming: Renaming, section: Group) -> Group:
    head = declaration(renaming, "predicate", section.parts[1])
    return section.with_parts([section.parts[0], head, formula(renaming, section.parts[2])])


def fact(renaming: Renaming, it: Group) -> Group:
    """An entry of `:init`."""
    if it.head == "=":
        return it.with_parts([it.parts[0], atom(renaming, "function", it.parts[1]), it.parts[2]])
    if it.head == "not":
        return it.with_parts([it.parts[0], atom(renaming, "predicate", it.parts[1])])
    return atom(renaming, "predicate", it)


def as_it_is(_: Renaming, section: Group) -> Group:
    return section


SECTIONS = {
    ":requirements": as_it_is, ":metric": as_it_is, ":length": as_it_is,
    ":types": names("type"), ":constants": names("object"), ":objects": names("object"),
    ":predicates": declarations("predicate"), ":functions": declarations("function"), ":action": action, ":derived": derived,
    ":domain": lambda renaming, section: section.with_parts([section.parts[0], renaming.word("domain", section.parts[1])]),
    ":init": lambda renaming, section: section.with_parts([section.parts[0], *(fact(renaming, it) for it in section.parts[1:])]),
    ":goal": lambda renaming, section: section.with_parts([section.parts[0], formula(renaming, section.parts[1])]),
}
