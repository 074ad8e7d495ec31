"""Runs as a report reads them: their lines by task, and what two of them say of the same one."""

from __future__ import annotations

import os
import sys
from dataclasses import dataclass
from itertools import combinations
from typing import Iterable, Iterator, Sequence

from batching.layouts import in_order, is_chosen
from batching.limits import is_late
from batching.lines import Line, Result, read_lines
from batching.runs import Settings


@dataclass(frozen=True)
class Lines:
    """A run's lines, of each task the last one."""

    name: str
    settings: Settings
    by_task: dict[str, Line]
    # Where the plans and certificates stand, below `answers`.
    folder: str

    @property
    def plan_name(self) -> str:
        """The file of a task's plan that has the names of the files that were found."""
        return "original-plan.txt" if self.settings.converter else "plan.txt"

    def is_late(self, line: Line) -> bool:
        return is_late(self.settings, line)

    def is_in_time(self, line: Line) -> bool:
        """Whether a line is an answer within the limit of seconds."""
        return line.is_answered and not self.is_late(line)

    @property
    def answered(self) -> list[Line]:
        """The answers within the limit of seconds."""
        return [*filter(self.is_in_time, self.by_task.values())]

    @property
    def late(self) -> list[Line]:
        return [*filter(self.is_late, self.by_task.values())]

    @property
    def accepted(self) -> list[Line]:
        return [it for it in self.answered if it.check and it.check.accepted]

    @property
    def hosts(self) -> list[str]:
        """The machines that ran it, each with its processor."""
        return sorted({f"{it.host}, {it.processor}" for it in self.by_task.values() if it.host})

    def count(self, result: Result, domain: str | None = None) -> int:
        """How many tasks, of a domain if one is given, have this result."""
        return sum(it.result is result and domain in (None, domain_of(task)) for task, it in self.by_task.items())


def domain_of(task: str) -> str:
    """What stands before the last slash of a task's name."""
    return task.rpartition("/")[0]


def read_run(folder: str, patterns: Sequence[str] | None = None) -> Lines:
    """A run's lines by its folder, of the tasks that patterns choose. Leaves where it is no run, or a line is another program's."""
    try:
        settings = Settings.read(folder)
    except (OSError, ValueError, TypeError, KeyError):
        sys.exit(f"batch-report: {folder} is no folder of a run")
    lines = read_lines(f"{folder}/results.jsonl")
    others = {it.program for it in lines} - {settings.program.sum}
    if others:
        sys.exit(f"batch-report: {folder} has lines of other programs: {', '.join(map(str, others))}")
    folder = os.path.abspath(folder)
    return Lines(os.path.basename(folder), settings, {it.task: it for it in lines if is_chosen(it.task, patterns)}, folder)


def tasks_of(runs: list[Lines]) -> list[str]:
    """All tasks of these runs, in the order of their names."""
    return sorted({task for run in runs for task in run.by_task}, key=in_order)


def domains_of(tasks: Iterable[str]) -> list[str]:
    """What stands before the last slash of these tasks' names, in the order of names."""
    return sorted({domain_of(it) for it in tasks}, key=in_order)


def shared(one: Lines, other: Lines) -> list[str]:
    """The tasks of the same texts that two runs have."""
    return [task for task in tasks_of([one]) if task in other.by_task and one.by_task[task].texts == other.by_task[task].texts]


def shared_by_all(runs: list[Lines]) -> list[str]:
    """The tasks of the same texts that all these runs have."""
    first, *others = runs
    common = [{*shared(first, it)} for it in others]
    return [task for task in tasks_of([first]) if all(task in it for it in common)]


def with_other_texts(runs: list[Lines]) -> list[str]:
    """The tasks whose texts are not the same in all of these runs."""
    texts = {task: {run.by_task[task].texts for run in runs if task in run.by_task} - {None} for task in tasks_of(runs)}
    return [task for task, found in texts.items() if len(found) > 1]


def is_over(bound: Line, plan: Line) -> bool:
    """Whether the one tells a bound that is more than what the plan of the other costs."""
    return bound.bound is not None and plan.cost is not None and bound.bound > plan.cost


def contradictions(runs: list[Lines]) -> Iterator[str]:
    """The tasks to which two runs give answers that cannot both be right, with the names of the two."""
    for one, other in combinations(runs, 2):
        for task in shared(one, other):
            here, there = one.by_task[task], other.by_task[task]
            if here.is_answered and there.is_answered and (here.result, here.cost) != (there.result, there.cost):
                yield f"{task}: {one.name} and {other.name} answer otherwise"
            if is_over(here, there) or is_over(there, here):
                yield f"{task}: a plan of {one.name} or {other.name} costs less than the bound of the other"
