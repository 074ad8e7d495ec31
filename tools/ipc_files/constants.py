"""Constants of the domain and objects of the problem: those that both declare, and those that the domain names and only the
problem declares."""

from __future__ import annotations

from ipc_files.files import File, Task
from ipc_files.told import Refusal
from ipc_files.trees import Entry, Node, Word
from ipc_files.type_tree import all_above, is_below, parents_in


def mend_constants(task: Task) -> None:
    """Has each object declared once, and in the domain where the domain names it."""
    above = all_above(parents_in(task.domain.entries(":types")))
    constants, objects = task.domain.entries(":constants"), task.problem.entries(":objects")
    known: dict[str, Entry] = {}
    kept = {"constants": once(task, constants, known, above), "objects": once(task, objects, known, above)}
    named = named_in_domain(task)
    moved = [it for it in kept["objects"] if it.name.low in named]
    for it in moved:
        task.tell("constant", it.name.at, f"`{it.name.shown}` becomes a constant of the domain, which names it")
    put(task.domain, ":constants", constants, [known[it.name.low] for it in [*kept["constants"], *moved]])
    put(task.problem, ":objects", objects, [known[it.name.low] for it in kept["objects"] if it.name.low not in named])


def put(file: File, keyword: str, before: list[Entry], after: list[Entry]) -> None:
    """Writes a section's entries, where they are others than before."""
    if after != before:
        file.put_entries(keyword, after)


def once(task: Task, entries: list[Entry], known: dict[str, Entry], above: dict) -> list[Entry]:
    """The entries that were not known before. A known one gets the nearer of both types."""
    found = []
    for it in entries:
        before = known.setdefault(it.name.low, it)
        if before is it:
            found.append(it)
            continue
        if is_below(it.lows[0], before.lows[0], above):
            known[it.name.low] = Entry(before.name, it.types)
        elif not is_below(before.lows[0], it.lows[0], above):
            raise Refusal(it.name.at, f"`{it.name.shown}` is of the types `{before.lows[0]}` and `{it.lows[0]}`, which do not lie "
                                      "on one line")
        task.tell("constant", it.name.at, f"`{it.name.shown}` is declared before, and is a `{known[it.name.low].lows[0]}`")
    return found


def named_in_domain(task: Task) -> set[str]:
    """The objects that stand in the domain's conditions, effects and costs."""
    found: set[str] = set()
    for it in task.domain.all(":action"):
        for keyword, value in zip(it.parts[2::2], it.parts[3::2]):
            if keyword.low != ":parameters":
                gather(value, found)
    for it in task.domain.all(":derived"):
        gather(it.parts[2], found)
    return found


def gather(node: Node, found: set[str]) -> None:
    """Gathers the objects of a condition or an effect."""
    if isinstance(node, Word) or not node.parts:
        return
    if node.head in ("and", "or", "not", "imply", "when"):
        for it in node.parts[1:]:
            gather(it, found)
    elif node.head in ("exists", "forall"):
        gather(node.parts[2], found)
    elif node.head == "increase":
        gather(node.parts[2], found)
    else:
        found.update(it.low for it in node.parts[1:] if it.text[0] != "?")
