"""Variables: quantified ones whose names are in scope, and terms that take the place of others."""

from __future__ import annotations

from typing import Callable

from ipc_files.files import Task, scope_of, with_value
from ipc_files.formulas import Scope, scope_with
from ipc_files.trees import Entry, Group, Node, Word, entries_of, parts_of, words_in


class Fresh:
    """Variables that stand nowhere in the files."""

    def __init__(self, task: Task):
        self.taken = {it.low for file in task.files for section, _ in file.sections for it in words_in(section) if it.low[0] == "?"}

    def like(self, variable: str) -> str:
        """A new variable that is called like one."""
        number = 2
        while f"{variable[:240]}-{number}" in self.taken:
            number += 1
        self.taken.add(f"{variable[:240]}-{number}")
        return f"{variable[:240]}-{number}"


def rename_shadowing(task: Task) -> None:
    """Gives each quantified variable whose name is in scope another one."""
    fresh = Fresh(task)

    def told(old: Entry, new: str) -> None:
        task.tell("shadow", old.name.at, f"`{old.name.shown}` is in scope, and the quantified one is called `{new}`")

    def of_action(it: Group) -> list[Group]:
        scope = scope_of(it)
        for keyword in (":precondition", ":effect"):
            it = with_value(it, keyword, lambda old: apart(old, {}, scope, fresh, told))
        return [it]

    def of_rule(it: Group) -> list[Group]:
        head, body = it.parts[1:]
        return [it.with_parts([it.parts[0], head, apart(body, {}, scope_with({}, entries_of(head.parts[1:])), fresh, told)])]

    task.domain.change(":action", of_action)
    task.domain.change(":derived", of_rule)
    task.problem.put(":goal", [apart(task.problem.find(":goal").parts[1], {}, {}, fresh, told)])


def apart(node: Node, places: dict[str, Word], scope: Scope, fresh: Fresh,
          told: Callable[[Entry, str], None] | None = None) -> Node:
    """A condition or an effect with other terms in the places of some variables, and with other names for the quantified variables
    that are in scope, each of which is told."""
    if isinstance(node, Word):
        return places.get(node.low, node)
    if node.head not in ("exists", "forall"):
        if node.head in ("and", "or", "not", "imply", "when", "increase"):
            return node.with_parts([node.parts[0], *(apart(it, places, scope, fresh, told) for it in node.parts[1:])])
        return node.with_parts([*node.parts[:1], *(places.get(it.low, it) for it in node.parts[1:])])
    variables = entries_of(node.parts[1].parts)
    inner = {low: it for low, it in places.items() if all(low != variable.name.low for variable in variables)}
    renamed = []
    for it in variables:
        new = it
        if it.name.low in scope:
            new = Entry(Word(fresh.like(it.name.low), it.name.at), it.types)
            inner[it.name.low] = new.name
            if told:
                told(it, new.name.text)
        renamed.append(new)
    listed = node.parts[1] if renamed == variables else node.parts[1].with_parts(parts_of(renamed))
    return node.with_parts([node.parts[0], listed, apart(node.parts[2], inner, scope_with(scope, renamed), fresh, told)])
