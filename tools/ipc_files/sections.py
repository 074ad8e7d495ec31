"""Sections and words that change nothing: requirements that nothing uses, `:length`, the total time where no action has a duration,
negative facts, and parameters that are left out."""

from __future__ import annotations

from ipc_files.files import File, Task, value_of
from ipc_files.grammar import is_total_time
from ipc_files.told import Refusal
from ipc_files.trees import Group, listed

KEYS = {
    ":strips", ":typing", ":equality", ":negative-preconditions", ":disjunctive-preconditions", ":existential-preconditions",
    ":universal-preconditions", ":quantified-preconditions", ":conditional-effects", ":adl", ":action-costs", ":fluents",
    ":numeric-fluents",
}
# What is not said at the start is then not known to be false.
OTHER_MEANINGS = (":open-world", ":true-negation")


def drop_requirements(task: Task) -> None:
    """Drops the keys that the language has not. What they stand for would be refused by its own words, where it is used."""
    for file in task.files:
        section = file.find(":requirements")
        if not section:
            continue
        for it in section.parts[1:]:
            if it.low in OTHER_MEANINGS:
                raise Refusal(it.at, f"with `{it.low}` the files have another meaning")
            if it.low not in KEYS:
                task.tell("requirement", it.at, f"`{it.shown}` is dropped: nothing that is written needs it")
        file.put(":requirements", [it for it in section.parts[1:] if it.low in KEYS])


def drop_length(task: Task) -> None:
    """Drops advice on the length of plans."""
    section = task.problem.find(":length")
    if section:
        task.tell("length", section.at, "`:length` is dropped: it is advice on the length of plans")
        task.problem.drop(":length")


def drop_total_time(task: Task) -> None:
    """Drops the metric that is the total time: without durations each action takes as long, and costs 1."""
    section = task.problem.find(":metric")
    if section and is_total_time(section.parts[2]):
        task.tell("metric", section.at, "`total-time` is dropped: no action has a duration, so that each costs 1")
        task.problem.drop(":metric")


def add_parameters(task: Task) -> None:
    """Writes `:parameters ()` where they are left out."""
    def added(it: Group) -> list[Group]:
        if value_of(it, ":parameters") is not None:
            return [it]
        task.tell("parameters", it.at, f"`{it.parts[1].shown}` gets `:parameters ()`")
        none = listed(it.parts[1].at, ":parameters", listed(it.parts[1].at))
        return [it.with_parts([*it.parts[:2], *none.parts, *it.parts[2:]])]

    task.domain.change(":action", added)


def drop_negative_facts(task: Task) -> None:
    """Drops what is said to be false at the start, as what is not said is."""
    problem: File = task.problem
    section = problem.find(":init")
    true = {it for it in section.parts[1:] if it.head not in ("not", "=")}
    for it in section.parts[1:]:
        if it.head != "not":
            continue
        if it.parts[1] in true:
            raise Refusal(it.at, "the atom is said to be true, too")
        task.tell("negative-fact", it.at, "what is not said at the start is false, so that this fact is dropped")
    problem.put(":init", [it for it in section.parts[1:] if it.head != "not"])
