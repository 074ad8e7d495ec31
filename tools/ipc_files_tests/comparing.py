"""Whether plans of two tasks correspond one to one, state by state, by the second reader."""

from __future__ import annotations

from fractions import Fraction
from typing import Iterator

from reference import State, Task


class Mixed(Exception):
    """Steps that are together no instance of one action."""


class Names:
    """What `changes.json` says of names, in lower case."""

    def __init__(self, table: dict):
        self.factor = table["factor"]
        self.by_first = {it["steps"][0]["name"]: it for it in table["actions"]}
        self.objects = {written: name.lower() for written, name in table["objects"].items()}

    def original(self, steps: list[tuple[str, ...]]) -> tuple[str, ...]:
        """The instance of the original that some steps are together."""
        action, chosen = self.begun_by(steps[0]), {}
        for wanted, (name, *objects) in zip(action["steps"], steps):
            for parameter, it in zip(wanted["takes"], objects):
                if name != wanted["name"] or chosen.setdefault(parameter, it) != it:
                    raise Mixed(f"{steps} are no steps of one instance of {action['name']}")
        return (action["name"].lower(), *(self.objects.get(chosen[it], chosen[it]) for it in range(action["parameters"])))

    def begun_by(self, step: tuple[str, ...]) -> dict:
        """The action that a step begins."""
        if step[0] not in self.by_first:
            raise Mixed(f"no action begins with {step}")
        return self.by_first[step[0]]


def whole_runs(task: Task, names: Names, state: State) -> Iterator[tuple[tuple[str, ...], Fraction, State]]:
    """Each instance of the original that the written task can do in a state, with its cost and the state after it."""
    waiting = [([step], cost, after) for step, cost, after in task.successors(state)]
    while waiting:
        steps, cost, after = waiting.pop()
        if len(steps) == len(names.begun_by(steps[0])["steps"]):
            yield names.original(steps), cost / names.factor, after
            continue
        if task.is_goal(after):
            raise Mixed(f"the goal holds behind {steps}, where an action is open")
        waiting += [([*steps, step], cost + more, later) for step, more, later in task.successors(after)]


def difference(original: Task, written: Task, table: dict, most: int) -> tuple[str | None, int]:
    """What is different in a pair of states that the same instances lead to, and how many pairs were met, so many at most."""
    names, start = Names(table), (original.initial, written.initial)
    seen, waiting = {start}, [start]
    while waiting:
        one, other = waiting.pop()
        try:
            told, pairs = compared(original, written, names, one, other)
        except Mixed as why:
            told, pairs = str(why), []
        if told:
            return told, len(seen)
        for it in pairs:
            if it not in seen and len(seen) < most:
                seen.add(it)
                waiting.append(it)
    return None, len(seen)


def compared(original: Task, written: Task, names: Names, one: State, other: State) -> tuple[str | None, list[tuple[State, State]]]:
    """What is different in a pair of states, and the pairs after it."""
    if original.is_goal(one) != written.is_goal(other):
        return "the goal holds in one alone", []
    here = {step: (cost, after) for step, cost, after in original.successors(one)}
    runs = [*whole_runs(written, names, other)]
    there = {step: (cost, after) for step, cost, after in runs}
    if len(runs) != len(there):
        return "two runs stand for one instance", []
    if {step: cost for step, (cost, _) in here.items()} != {step: cost for step, (cost, _) in there.items()}:
        return f"other instances or costs: {sorted(here)} and {sorted(there)}", []
    return None, [(after, there[step][1]) for step, (_, after) in here.items()]
