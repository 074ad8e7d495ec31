"""The lines of runs as a table of CSV: a row for each task of each run."""

from __future__ import annotations

import csv
import io
import os
from dataclasses import asdict, fields

from batching.lines import Check, Explained, Line
from batching.reading import Lines, domain_of, tasks_of

# The keys of a line that are objects, with the keys of each.
INNER = {"check": [it.name for it in fields(Check)], "explained": [it.name for it in fields(Explained)]}


def columns() -> list[str]:
    """The names of the columns."""
    found = ["run", "domain"]
    for it in fields(Line):
        found += [f"{it.name}_{key}" for key in INNER[it.name]] if it.name in INNER else [it.name]
    return [*found, "plan", "certificate", "late"]


def row_of(run: Lines, line: Line) -> dict[str, object]:
    """What the columns have of a line; a file is named where it is there."""
    keys = asdict(line)
    for name, inner in INNER.items():
        value = keys.pop(name) or {}
        keys.update({f"{name}_{key}": value.get(key) for key in inner})
    folder = f"{run.folder}/answers/{line.task}"
    files = {"plan": f"{folder}/{run.plan_name}", "certificate": f"{folder}/cert.txt"}
    keys.update({name: path if os.path.isfile(path) else None for name, path in files.items()})
    late = run.is_late(line) if line.is_answered else None
    return {**keys, "result": line.result.value, "run": run.name, "domain": domain_of(line.task), "late": late}


def as_csv(runs: list[Lines]) -> str:
    """The whole text. What is not known is empty."""
    out = io.StringIO()
    table = csv.DictWriter(out, columns(), lineterminator="\n")
    table.writeheader()
    for run in runs:
        for task in tasks_of([run]):
            table.writerow(row_of(run, run.by_task[task]))
    return out.getvalue()
