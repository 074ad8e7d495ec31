"""Types: `object` declared, a type declared again, and parents that are not declared."""

from __future__ import annotations

from ipc_files.files import Task
from ipc_files.told import Refusal
from ipc_files.trees import Entry

Above = dict


def mend_types(task: Task) -> None:
    """Makes a tree of the types below `object`, in which each type is declared once."""
    if not task.domain.find(":types"):
        return
    entries = without_object(task, task.domain.entries(":types"))
    entries = each_once(task, entries)
    entries += missing_parents(task, entries)
    if entries != task.domain.entries(":types"):
        task.domain.put_entries(":types", entries)


def without_object(task: Task, entries: list[Entry]) -> list[Entry]:
    """The declarations but those of `object`, which is the root."""
    for it in entries:
        if it.name.low != "object":
            continue
        if it.lows != ("object",):
            raise Refusal(it.name.at, f"`object` is the root of the types, and cannot be below `{it.types[0].shown}`")
        task.tell("object-type", it.name.at, "`object` is every object's type, and is not declared")
    return [it for it in entries if it.name.low != "object"]


def parents_in(entries: list[Entry]) -> Above:
    """The declared parents of each type; `object` is left out."""
    found: Above = {}
    for it in entries:
        found.setdefault(it.name.low, set()).update(low for low in it.lows if low != "object")
    return found


def all_above(parents: Above) -> Above:
    """For each type what stands above it, by way of any of its parents."""
    found = {}
    for name in parents:
        above, waiting = set(), [*parents[name]]
        while waiting:
            it = waiting.pop()
            if it not in above:
                above.add(it)
                waiting += parents.get(it, ())
        found[name] = above
    return found


def each_once(task: Task, entries: list[Entry]) -> list[Entry]:
    """Each type where it is declared first, with the nearest of its parents."""
    by_name: dict[str, list[Entry]] = {}
    for it in entries:
        by_name.setdefault(it.name.low, []).append(it)
    if len(by_name) == len(entries):
        return entries
    parents = parents_in(entries)
    above = all_above(parents)
    for it in entries:
        if it.name.low in above[it.name.low]:
            raise Refusal(it.name.at, f"the type `{it.name.shown}` is above itself")
    nearest = {name: nearest_of(declared, parents[name], above) for name, declared in by_name.items()}
    for it in entries:
        chosen = nearest[it.name.low]
        if it is not by_name[it.name.low][0]:
            task.tell("type-again", it.name.at, f"`{it.name.shown}` is declared before, and stands below `{chosen.lows[0]}`")
    return [Entry(declared[0].name, nearest[name].types) for name, declared in by_name.items()]


def nearest_of(declared: list[Entry], parents: set[str], above: Above) -> Entry:
    """Of a type's declarations the one whose parent stands below those of all others."""
    for it in declared:
        if parents <= {it.lows[0]} | above.get(it.lows[0], set()):
            return it
    told = " and ".join(f"`{it}`" for it in sorted(parents))
    raise Refusal(declared[-1].name.at, f"the type `{declared[0].name.shown}` is below {told}, which do not lie on one line")


def missing_parents(task: Task, entries: list[Entry]) -> list[Entry]:
    """Declarations of the parents that have none."""
    known, found = {it.name.low for it in entries} | {"object"}, []
    for it in entries:
        for parent in it.types:
            if parent.low not in known:
                known.add(parent.low)
                found.append(Entry(parent))
                task.tell("type-undeclared", parent.at, f"the parent `{parent.shown}` is declared")
    return found


def is_below(name: str, other: str, above: Above) -> bool:
    """Whether a type is another one, or stands below it."""
    return name == other or other == "object" or other in above.get(name, ())
