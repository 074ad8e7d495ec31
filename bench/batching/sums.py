"""What tasks cost, by domain: sums and geometric means over the tasks that all runs have answered."""

from __future__ import annotations

import math
from dataclasses import dataclass
from html import escape
from typing import Callable, Optional

from batching.lines import Line
from batching.reading import Lines, domain_of, domains_of, shared_by_all


@dataclass(frozen=True)
class Measure:
    """A figure of an answered task."""

    name: str
    value: Callable[[Line], Optional[float]]
    # What less than this counts as in a geometric mean.
    floor: float
    # How a sum and a mean are written; a measure that is not summed has no form for sums.
    sum_form: str
    mean_form: str


def megabytes(line: Line) -> float | None:
    return None if line.peak_bytes is None else line.peak_bytes / 1e6


MEASURES = [
    Measure("cost", lambda it: it.cost, 1, ",.10g", ",.2f"),
    Measure("steps", lambda it: it.steps, 1, ",.0f", ",.2f"),
    Measure("start's value", lambda it: it.start_value, 1, ",.10g", ",.2f"),
    Measure("s", lambda it: it.seconds, 0.001, ",.2f", ",.3f"),
    Measure("MB", megabytes, 1, "", ",.1f"),
    Measure("states", lambda it: it.states, 1, ",.0f", ",.0f"),
    Measure("expanded", lambda it: it.expanded, 1, ",.0f", ",.0f"),
    Measure("certificate, bytes", lambda it: it.certificate_bytes, 1, ",.0f", ",.0f"),
]


def geometric_mean(values: list[float], floor: float) -> float:
    """The geometric mean of some values, of which those below the floor count as it."""
    return math.exp(sum(math.log(max(it, floor)) for it in values) / len(values))


def answered_by_all(runs: list[Lines]) -> list[str]:
    """The tasks that all runs have answered within their limits, in the order of their names."""
    return [it for it in shared_by_all(runs) if all(run.is_in_time(run.by_task[it]) for run in runs)]


def cells_of(lines: list[Line], measure: Measure) -> list[str]:
    """The sum, where there is one, and the geometric mean; nothing, where no task has the figure."""
    known = [it for it in map(measure.value, lines) if it is not None]
    total = [format(sum(known), measure.sum_form) if known else ""] if measure.sum_form else []
    return [*total, format(geometric_mean(known, measure.floor), measure.mean_form) if known else ""]


def measures_known(runs: list[Lines], tasks: list[str]) -> list[Measure]:
    """The measures that any of the lines has."""
    return [it for it in MEASURES if any(it.value(run.by_task[task]) is not None for run in runs for task in tasks)]


def costs_by_domain(runs: list[Lines]) -> str:
    """A table with a row for each domain, and one for all."""
    tasks = answered_by_all(runs)
    if not tasks:
        return "<p>No task is answered by all runs.</p>"
    measures = measures_known(runs, tasks)
    width = sum(2 if it.sum_form else 1 for it in measures)
    groups = "".join(f'<th colspan="{width}">{escape(run.name)}</th>' for run in runs)
    named = "".join(f'<th colspan="{2 if it.sum_form else 1}">{escape(it.name)}</th>' for it in measures) * len(runs)
    kinds = "".join("<th>sum</th><th>mean</th>" if it.sum_form else "<th>mean</th>" for it in measures) * len(runs)
    lines = [f'<tr class="group"><th></th><th></th>{groups}</tr><tr class="group"><th></th><th></th>{named}</tr>',
             f"<tr><th>domain</th><th>tasks</th>{kinds}</tr>"]
    for domain in [*domains_of(tasks), None]:
        here = [it for it in tasks if domain in (None, domain_of(it))]
        cells = ["all" if domain is None else escape(domain), str(len(here))]
        cells += [cell for run in runs for it in measures for cell in cells_of([run.by_task[task] for task in here], it)]
        kind = ' class="sum"' if domain is None else ""
        lines.append(f"<tr{kind}>{''.join(f'<td>{it}</td>' for it in cells)}</tr>")
    which = "all runs have" if len(runs) > 1 else "the run has"
    return (f"<p>Of the {len(tasks)} tasks that {which} answered. Means are geometric: a figure of less than 1 counts as 1, and a "
            "time of less than 0.001 s as that.</p>"
            f'<div class="wide"><table>{"".join(lines)}</table></div>')
