"""The tables of a report."""

from __future__ import annotations

import os
from html import escape
from typing import Callable, Iterable

from batching.lines import ANSWERS, Line, Result
from batching.links import Links
from batching.reading import Lines, domain_of, domains_of, tasks_of, with_other_texts


def row(cells: Iterable[object], kind: str = "td", attributes: str = "") -> str:
    return f"<tr{attributes}>" + "".join(f"<{kind}>{it}</{kind}>" for it in cells) + "</tr>"


def kinds_of_answers(runs: list[Lines]) -> dict[str, Callable[[Lines], list[Line]]]:
    """What is told apart of the answers, where there is any: which are proofs that there is no plan, and which came late."""
    kinds = {"of these unsolvable": lambda run: [it for it in run.answered if it.result is Result.UNSOLVABLE],
             "late": lambda run: run.late}
    return {name: kind for name, kind in kinds.items() if any(map(kind, runs))}


def by_domain(runs: list[Lines]) -> str:
    """A table of how many tasks of each domain had which result."""
    domains = domains_of(tasks_of(runs))
    results = [it for it in Result if it not in ANSWERS and any(run.count(it) for run in runs)]
    kinds = kinds_of_answers(runs)
    heads = ["answered", *kinds, *(it.value for it in results), "accepted"]
    group = "".join(f'<th colspan="{len(heads)}">{escape(run.name)}</th>' for run in runs)
    lines = [f'<tr class="group"><th></th><th></th>{group}</tr>', row(["domain", "tasks", *heads * len(runs)], "th")]
    for domain in [*domains, None]:
        cells: list[object] = ["all" if domain is None else escape(domain)]
        cells.append(sum(domain in (None, domain_of(it)) for it in tasks_of(runs)))
        for run in runs:
            is_here = lambda it: domain in (None, domain_of(it.task))
            has_any = any(map(is_here, run.by_task.values()))
            cells.append(sum(map(is_here, run.answered)) if has_any else "")
            cells += [sum(map(is_here, kind(run))) or "" for kind in kinds.values()]
            cells += [run.count(it, domain) or "" for it in results]
            cells.append(sum(map(is_here, run.accepted)) if has_any and run.settings.checker else "")
        lines.append(row(cells, attributes=' class="sum"' if domain is None else ""))
    return f'<div class="wide"><table>{"".join(lines)}</table></div>'


# What the table of all tasks has of a line.
HEADS = ["result", "cost", "steps", "start's value", "s", "s by the clock", "MB", "instances", "atoms", "states", "expanded",
         "certificate, bytes", "values", "check"]


def values_of(line: Line) -> str:
    """Which version the certificate has, and what it uses."""
    if line.certificate_version is None:
        return ""
    used = [f"{count:,} {what}{'' if count == 1 else 's'}" for count, what in ((line.tables, "table"), (line.exchanges, "exchange"))
            if count]
    return ", ".join([f"version {line.certificate_version}", *used])


def cost_of(line: Line) -> str:
    """What the plan costs, or what is known of it."""
    if line.cost is not None:
        return f"{line.cost:,}"
    if line.bound is not None:
        return f"at least {line.bound:,}"
    return "" if line.reached is None else f"at least {line.reached:,}, without a certificate"


def cells_of(run: Lines, line: Line | None, links: Links) -> list[object]:
    """The cells of a line, from which links lead to the plan and the certificate."""
    if line is None:
        return [""] * len(HEADS)
    known = lambda value, form: "" if value is None else format(value, form)
    verdict = "" if line.check is None else "accepted" if line.check.accepted else f"not accepted: {escape(line.check.verdict)}"
    memory = None if line.peak_bytes is None else line.peak_bytes / 1e6
    where = f", {escape(os.path.basename(line.explained.place))}" if line.explained else ", late" if run.is_late(line) else ""
    return [line.result.value + where, links.to_plan(run, line, cost_of(line)), known(line.steps, ","), known(line.start_value, ","),
            known(line.seconds, ",.2f"), known(line.clock_seconds, ",.2f"), known(memory, ",.0f"), known(line.instances, ","),
            known(line.atoms, ","), known(line.states, ","), known(line.expanded, ","),
            links.to_certificate(run, line, known(line.certificate_bytes, ",")), values_of(line), verdict]


def all_tasks(runs: list[Lines], anchors: dict[str, str], links: Links) -> str:
    """A table with a row for each task. A name that stands for other texts in another run is marked."""
    group = "".join(f'<th colspan="{len(HEADS)}">{escape(run.name)}</th>' for run in runs)
    lines = [f'<tr class="group"><th></th>{group}</tr>', row(["task", *HEADS * len(runs)], "th")]
    marked = {*with_other_texts(runs)}
    for task, anchor in anchors.items():
        cells = (cell for run in runs for cell in cells_of(run, run.by_task.get(task), links))
        name = escape(task) + ('<span class="otherwise">texts differ</span>' if task in marked else "")
        lines.append(row([name, *cells], attributes=f' id="{anchor}"'))
    return f'<div class="wide"><table>{"".join(lines)}</table></div>'
