"""Finds the plans of a planner in a folder, by the names of tasks.

    gripper/p03.plan, gripper/p03.pddl.soln, gripper/p03.plan.2    beside each other
    gripper/p03/sas_plan.1, gripper/p03/plan.txt                   a folder for each task
    p03.plan                                                       below a folder `gripper`, or where one task is called so
"""

from __future__ import annotations

import os
import re
from pathlib import Path
from typing import Iterator

from batching.layouts import in_order

# What stands between a task's name and the rest of a file's name.
BETWEEN = re.compile(r"[./]|[-_](?=(?:sas_?)?(?:plan|sol))")
# What plans are called.
PLAN = re.compile(r"plan|sol")
# What else may follow a task's name: nothing, an ending or a number.
ENDING = re.compile(r"(?:\.(?:txt|pddl|ipc|[0-9]+))*")
# Endings of what is no plan.
OTHERS = (".pddl", ".json", ".jsonl", ".csv", ".log", ".err", ".sas", ".cert", ".zip", ".gz", ".xz", ".bz2",
          ".py", ".sh", ".md", ".html")


class Names:
    """The names of tasks, in small letters, by which files are known."""

    def __init__(self, tasks: list[str]):
        self.whole = {it.lower(): it for it in tasks}
        self.last: dict[str, str | None] = {}
        for it in tasks:
            last = it.lower().rpartition("/")[2]
            self.last[last] = None if last in self.last else it

    def task_of(self, folder: str, path: str) -> tuple[str, str] | None:
        """The task of a file by its path below a folder of this name, and what follows the task's name there."""
        for known, text in ((self.whole, path), (self.whole, f"{folder}/{path}"), (self.last, path)):
            ends = [len(text), *reversed([it.start() for it in BETWEEN.finditer(text)])]
            for end in ends:
                task = known.get(text[:end])
                if task:
                    return task, text[end:]
        return None


def is_plan(rest: str) -> bool:
    """Whether a file is a plan by what follows the name of its task."""
    if rest.endswith(OTHERS):
        return False
    if "/" in rest:
        return PLAN.search(rest.rpartition("/")[2]) is not None
    return PLAN.search(rest) is not None or ENDING.fullmatch(rest) is not None


def files_in(folder: Path) -> Iterator[Path]:
    """All files below a folder in the order of their names, but hidden ones."""
    for at, below, names in os.walk(folder):
        below[:] = sorted((it for it in below if not it.startswith(".")), key=in_order)
        # A plan in the names of the files that were found stands beside the one that was found for others.
        hidden = {"plan.txt"} if "original-plan.txt" in names else set()
        yield from (Path(at, it) for it in sorted(names, key=in_order) if not it.startswith(".") and it not in hidden)


def plans_in(folder: Path, tasks: list[str]) -> tuple[dict[str, list[Path]], list[Path]]:
    """The plans of each task, and the files that are plans by their names and belong to no task."""
    names, found, left_out = Names(tasks), {}, []
    for path in files_in(folder):
        parts = [it for it in path.relative_to(folder).parts if it != "instances"]
        known = names.task_of(folder.resolve().name.lower(), "/".join(parts).lower())
        if known and is_plan(known[1]):
            found.setdefault(known[0], []).append(path)
        elif not known and PLAN.search(path.name.lower()) and not path.name.lower().endswith(OTHERS):
            left_out.append(path)
    return found, left_out
