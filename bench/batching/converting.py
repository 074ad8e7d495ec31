"""Competition files made into files of the language before they are solved (docs/ipc-files.md), and plans taken back.

    answers/TASK/domain.pddl, problem.pddl, changes.json    what `tools/ipc-files` wrote, which the program solves
    answers/TASK/original-plan.txt                          the plan in the names of the files that were found
"""

from __future__ import annotations

import hashlib
import json
import sys
from dataclasses import dataclass
from fractions import Fraction
from pathlib import Path

from batching import ROOT
from batching.layouts import Task
from plan_forms import NotAPlan, Step

TOOL = f"{ROOT}/tools/ipc-files"
WRITTEN = ("domain.pddl", "problem.pddl", "changes.json", "original-plan.txt")


def sum_of_tool() -> str:
    """A sum of all that the tool is made of."""
    total = hashlib.sha256()
    for path in [Path(TOOL), *sorted(Path(f"{ROOT}/tools/ipc_files").glob("*.py"))]:
        total.update(path.read_bytes())
    return total.hexdigest()[:16]


def words_into(task: Task, folder: str) -> list[str]:
    """The command that writes a task's files into a folder."""
    return [sys.executable, TOOL, task.domain, task.problem, "--into", folder]


def words_back(folder: str, plan: str) -> list[str]:
    """The command that takes a plan for the files of a folder back."""
    return [sys.executable, TOOL, "--back", folder, plan]


def plan_into(steps: list[Step], folder: str) -> list[tuple[tuple[str, ...], int]]:
    """A plan for the files that were found, as steps for those of a folder, each with the number of the step that it is of. Raises
    `NotAPlan` where a step is none of the files."""
    with open(f"{folder}/changes.json", encoding="utf-8") as text:
        table = json.load(text)
    actions = {it["name"].lower(): it for it in table["actions"]}
    names = {name.lower(): written for written, name in table["objects"].items()}
    found = []
    for number, (name, *objects) in enumerate((it.words for it in steps), 1):
        action, line = actions.get(name), steps[number - 1].line
        if action is None:
            raise NotAPlan(line, 1, f"no action is called `{name}`")
        if len(objects) != action["parameters"]:
            raise NotAPlan(line, 1, f"`{name}` takes {action['parameters']} objects, not {len(objects)}")
        chosen = [names.get(it, it) for it in objects]
        found += [((it["name"], *(chosen[at] for at in it["takes"])), number) for it in action["steps"]]
    return found


@dataclass(frozen=True)
class Converted:
    """What was written for a task, which is solved in its place."""

    task: Task
    # How many changes there are, and by what costs are multiplied.
    changes: int
    factor: int

    @classmethod
    def read(cls, task: Task, folder: str) -> Converted:
        with open(f"{folder}/changes.json", encoding="utf-8") as text:
            table = json.load(text)
        return cls(Task(task.name, f"{folder}/domain.pddl", f"{folder}/problem.pddl"), len(table["changes"]), table["factor"])

    def cost_back(self, cost: int | None) -> int | float | None:
        """A cost, or a bound, of the files that were found."""
        if cost is None:
            return None
        back = Fraction(cost, self.factor)
        return int(back) if back.denominator == 1 else float(back)
