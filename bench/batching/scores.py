"""What is said of plans of other planners: a line for each, and tables of them."""

from __future__ import annotations

import json
import sys
from dataclasses import asdict, dataclass
from enum import Enum
from typing import Iterable, Optional, Union

from batching.layouts import in_order

Cost = Optional[Union[int, float]]


class Verdict(str, Enum):
    """What a plan is."""

    OPTIMAL = "optimal"
    DEARER = "dearer"
    # Above a proved bound, which may be the cost of a cheapest plan or less.
    WITHIN = "within"
    # It solves the task, and there is no certificate beside which it could be judged.
    UNKNOWN = "unknown"
    INVALID = "invalid"
    # The text is no plan, or has names that the task has not.
    REFUSED = "refused"
    # It solves the task for less than a certificate that was accepted shows.
    CONTRADICTION = "contradiction"
    # The planner has no plan for the task.
    MISSING = "no plan"
    # Nor can it have one: a certificate that was accepted shows that there is none.
    UNSOLVABLE = "unsolvable"
    # The program refuses the text of the task, so that no plan of it is judged.
    TASK_REFUSED = "task refused"
    # Nothing was said of the plan: a limit of time or memory.
    FAILED = "failed"


VALID = (Verdict.OPTIMAL, Verdict.DEARER, Verdict.WITHIN, Verdict.UNKNOWN, Verdict.CONTRADICTION)
# Costs that differ by less are the same: many planners write two decimals.
LEAST_DIFFERENCE = 0.01


@dataclass(frozen=True)
class Score:
    """What is said of one plan. None stands for what is not known."""

    planner: str
    task: str
    # The plan's file; None where there is none.
    plan: str | None
    verdict: Verdict
    # What the plan costs, and how many steps it has.
    cost: Cost = None
    steps: int | None = None
    # How much dearer it is than a cheapest plan, or than the proved bound at most.
    by: Cost = None
    # The greatest proved bound of what each plan costs, and whether it is the cost of a cheapest one.
    bound: Cost = None
    bound_is_reached: bool | None = None
    # Of an invalid plan the first step that is not applicable, counted from 1; None where the goal is missed.
    step: int | None = None
    # Why a text is refused, or nothing was said, and what there is to say of a valid one.
    why: str | None = None
    # Sums of the program that judged, and of the texts of domain and problem.
    program: str | None = None
    texts: str | None = None
    # What the plan's file says in a comment that the plan costs.
    stated_cost: Cost = None

    @property
    def is_valid(self) -> bool:
        return self.verdict in VALID

    @property
    def is_misstated(self) -> bool:
        """Whether the plan's file states another cost than the plan has."""
        return None not in (self.cost, self.stated_cost) and abs(self.cost - self.stated_cost) >= LEAST_DIFFERENCE

    @property
    def stated(self) -> str:
        """What there is to say where the plan's file states another cost."""
        return f"costs {self.cost:,}, and its file states {self.stated_cost:,}"

    @property
    def told(self) -> str:
        """The verdict in words."""
        if self.verdict is Verdict.DEARER:
            return f"dearer by {self.by:,}"
        if self.verdict is Verdict.WITHIN:
            return f"at most {self.by:,} above a proved bound"
        if self.verdict is Verdict.INVALID:
            return "invalid: the goal is missed" if self.step is None else f"invalid at step {self.step:,}"
        if self.verdict is Verdict.CONTRADICTION:
            against = "where no plan is proved to be" if self.bound is None else f"less than the proved bound {self.bound:,}"
            return f"contradiction: costs {self.cost:,}, {against}"
        return self.verdict.value + (f": {self.why}" if self.why else "")

    @property
    def quality(self) -> float:
        """The proved bound divided by the cost: 1 for an optimal plan, and less for others; 0 where there is none."""
        if not self.is_valid or self.bound is None:
            return 0.0
        return min(1.0, self.bound / self.cost) if self.cost else 1.0

    def text(self) -> str:
        """The line, with its LF."""
        return json.dumps({**asdict(self), "verdict": self.verdict.value}, separators=(",", ":")) + "\n"


def score_of(text: str) -> Score:
    """The score that a line is. Raises what a line does that is none."""
    keys = json.loads(text)
    return Score(verdict=Verdict(keys.pop("verdict")), **keys)


def read_scores(path: str) -> list[Score]:
    """The lines of a file. Leaves where it cannot be read, or has others."""
    number = 0
    try:
        with open(path, encoding="utf-8") as text:
            found = []
            for number, it in enumerate(text, 1):
                found.append(score_of(it))
            return found
    except OSError as why:
        sys.exit(f"batch-report: {why}")
    except (ValueError, TypeError, KeyError, AttributeError):
        sys.exit(f"batch-report: {path}:{number}: expected a line that bench/score has written")


def best_of(scores: Iterable[Score]) -> Score | None:
    """The cheapest valid plan of some for one task, or what is said of the last one where none is valid."""
    every = [*scores]
    valid = [it for it in every if it.is_valid]
    return min(valid, key=lambda it: it.cost) if valid else every[-1] if every else None


def by_task(scores: Iterable[Score]) -> dict[str, list[Score]]:
    """The scores of each task, in the order of the tasks' names."""
    found: dict[str, list[Score]] = {}
    for it in sorted(scores, key=lambda it: in_order(it.task)):
        found.setdefault(it.task, []).append(it)
    return found


def planners_of(scores: Iterable[Score]) -> list[str]:
    return list(dict.fromkeys(it.planner for it in scores))


# The columns of the table by planner and domain.
HEADS = ("tasks", "solved", "optimal", "dearer", "within", "unknown", "unsolvable", "task refused", "not solved", "quality",
         "plans")
# The verdicts that are no fault of a planner without a valid plan.
NO_FAULT = (Verdict.UNSOLVABLE, Verdict.TASK_REFUSED)


def summary(scores: list[Score]) -> list[str]:
    """What the columns have of one planner's plans for some tasks: of each task its cheapest valid plan counts."""
    best = [best_of(it) for it in by_task(scores).values()]
    count = lambda *verdicts: sum(it.verdict in verdicts for it in best)
    each = (Verdict.OPTIMAL, Verdict.DEARER, Verdict.WITHIN, Verdict.UNKNOWN, *NO_FAULT)
    numbers = [len(best), count(*VALID), *map(count, each), len(best) - count(*VALID, *NO_FAULT)]
    return [*map(str, numbers), f"{sum(it.quality for it in best):.2f}", str(sum(it.plan is not None for it in scores))]


def rows_by_domain(scores: list[Score]) -> list[list[str]]:
    """A row for each domain of each planner, and one for all of its domains."""
    found = []
    for planner in planners_of(scores):
        its = [it for it in scores if it.planner == planner]
        domains = sorted({it.task.rpartition("/")[0] for it in its}, key=in_order)
        for domain in [*domains, None]:
            here = [it for it in its if domain in (None, it.task.rpartition("/")[0])]
            if domain is not None or len(domains) > 1:
                found.append([planner, "all" if domain is None else domain, *summary(here)])
    return found


def table(heads: Iterable[str], rows: list[list[str]], left: Iterable[int]) -> str:
    """A table of text, of which these columns stand to the left."""
    every = [[*heads], *rows]
    widths = [max(len(it[column]) for it in every) for column in range(len(every[0]))]
    lines = []
    for it in every:
        cells = (cell.ljust(width) if column in left else cell.rjust(width) for column, (cell, width) in enumerate(zip(it, widths)))
        lines.append("  ".join(cells).rstrip())
    return "\n".join(lines)


def summary_text(scores: list[Score]) -> str:
    return table(("planner", "domain", *HEADS), rows_by_domain(scores), (0, 1))


def plans_text(scores: list[Score]) -> str:
    """A line for each plan."""
    known = lambda it: "" if it is None else f"{it:,}"
    ordered = [it for its in by_task(scores).values() for it in its]
    rows = [[it.planner, it.task, it.told, known(it.cost), known(it.bound), it.plan or ""] for it in ordered]
    return table(("planner", "task", "verdict", "cost", "bound", "plan"), rows, (0, 1, 2, 5))
