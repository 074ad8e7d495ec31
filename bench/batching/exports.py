"""The lines of runs as other tools read them: the `properties` of Downward Lab, and a table of LaTeX.

What is not known is left out."""

from __future__ import annotations

import json
import re
import sys

from batching.lines import Line, Result
from batching.reading import Lines, domain_of, domains_of, tasks_of

# What stands for the characters that LaTeX reads otherwise.
ESCAPED = {**{it: f"\\{it}" for it in "&%$#_{}"}, "\\": r"\textbackslash{}", "~": r"\textasciitilde{}", "^": r"\textasciicircum{}"}


def error_of(run: Lines, line: Line) -> str:
    """The word for how a task ended: `success` where it is answered within the limit."""
    if run.is_in_time(line):
        return "success"
    return "late" if run.is_late(line) else line.result.value.replace(" ", "-")


def attributes_of(run: Lines, line: Line) -> dict[str, object]:
    """What Downward Lab calls that which a line tells. A late answer has no cost and no time there, since it does not count."""
    identity = [run.name, domain_of(line.task), line.task.rpartition("/")[2]]
    is_in_time = run.is_in_time(line)
    keys = {**dict(zip(("algorithm", "domain", "problem"), identity)), "id": identity,
            "coverage": int(is_in_time), "error": error_of(run, line),
            "unsolvable": int(line.result is Result.UNSOLVABLE) if is_in_time else None,
            "cost": line.cost if is_in_time else None, "total_time": line.seconds if is_in_time else None,
            "expansions": line.expanded, "memory": None if line.peak_bytes is None else line.peak_bytes // 1024}
    return {key: it for key, it in keys.items() if it is not None}


def as_properties(runs: list[Lines]) -> str:
    """One object of JSON with the attributes of each task of each run. Leaves where two would have one name."""
    found: dict[str, dict[str, object]] = {}
    for run in runs:
        for task in tasks_of([run]):
            attributes = attributes_of(run, run.by_task[task])
            name = "-".join(attributes["id"])
            if name in found:
                sys.exit(f"batch-report: two tasks would be called {name} among the properties: runs are known there by their "
                         "folders' names, which have to differ")
            found[name] = attributes
    return json.dumps(found, indent=2) + "\n"


def in_latex(text: str) -> str:
    return re.sub(r"[\\&%$#_{}~^]", lambda it: ESCAPED[it[0]], text)


def as_latex(runs: list[Lines]) -> str:
    """A table of how many tasks of each domain each run has answered within its limit."""
    tasks = tasks_of(runs)
    rows = []
    for domain in [*domains_of(tasks), None]:
        is_here = lambda task: domain in (None, domain_of(task))
        cells = ["all" if domain is None else in_latex(domain), str(sum(map(is_here, tasks)))]
        for run in runs:
            has_any = any(map(is_here, run.by_task))
            cells.append(str(sum(is_here(it.task) for it in run.answered)) if has_any else "")
        rows.append(" & ".join(cells) + r" \\")
    heads = " & ".join(["domain", "tasks", *(in_latex(run.name) for run in runs)]) + r" \\"
    begin = rf"\begin{{tabular}}{{l{'r' * (1 + len(runs))}}}"
    lines = [begin, r"\hline", heads, r"\hline", *rows[:-1], r"\hline", rows[-1], r"\hline", r"\end{tabular}"]
    return "\n".join(lines) + "\n"
