"""What a report has somebody look at: contradictions, certificates that are not accepted, faults, and limits that were met."""

from __future__ import annotations

import re
from html import escape
from typing import Iterable, Sequence

from batching.limits import wider
from batching.lines import Line, Result
from batching.reading import Lines, contradictions, with_other_texts
from batching.score_tables import score_alarms
from batching.scores import Score

# How many tasks are named where many have the same to tell.
MOST_NAMED = 6


def named(tasks: Iterable[str]) -> str:
    """The names of tasks, or the first of them and how many more there are."""
    every = [*tasks]
    more = f" and {len(every) - MOST_NAMED} more" if len(every) > MOST_NAMED else ""
    return escape(", ".join(every[:MOST_NAMED])) + more


def listed(items: Iterable[str], attributes: str = "") -> str:
    text = "".join(f"<li>{it}</li>" for it in items)
    return f"<ul{attributes}>{text}</ul>" if text else ""


def fault_of(line: Line) -> str:
    """What is wrong with a task's text, where it stands, or why there is no answer."""
    told = escape(line.fault or f"status {line.status}")
    if line.explained is None:
        return f"{line.result.value}, {told}"
    sentence = re.sub("`([^`]*)`", r"<code>\1</code>", escape(line.explained.sentence))
    # `tools/ipc-files` says all in one line, and the program only a number and a name.
    is_by_tool = line.fault is not None and line.fault.endswith(line.explained.sentence)
    return f"<code>{escape(line.explained.place)}</code> {sentence} <small>{'by tools/ipc-files' if is_by_tool else told}</small>"


def faults(runs: list[Lines]) -> Iterable[str]:
    """Texts that are refused, and what failed. A fault that several tasks have, as one of a domain, is told once."""
    runs_of: dict[tuple[str, str], list[str]] = {}
    for run in runs:
        for it in run.by_task.values():
            if it.result in (Result.REFUSED, Result.FAILED):
                runs_of.setdefault((it.task, fault_of(it)), []).append(run.name)
    tasks_of: dict[tuple[str, str], list[str]] = {}
    for (task, what), names in runs_of.items():
        tasks_of.setdefault((" and ".join(names), what), []).append(task)
    return (f"{named(tasks)} in {escape(names)}: {what}" for (names, what), tasks in tasks_of.items())


def refused_certificates(run: Lines) -> Iterable[str]:
    for it in run.by_task.values():
        if it.check and it.check.accepted is not True:
            yield f"{escape(it.task)} in {escape(run.name)}: the certificate is not accepted ({escape(it.check.verdict)})"


def other_texts(runs: list[Lines]) -> Iterable[str]:
    """That some names stand for texts that differ from run to run, if any do."""
    found = with_other_texts(runs)
    if found:
        yield f"{named(found)}: the texts of the same name differ from run to run. They are other tasks, and are not compared"


def to_look_at(runs: list[Lines], scores: Sequence[Score] = ()) -> str:
    """What contradicts each other or is not accepted, then what is refused or failed."""
    alarm = [*map(escape, contradictions(runs)), *(it for run in runs for it in refused_certificates(run)), *score_alarms(scores),
             *other_texts(runs)]
    return listed(alarm, ' class="alarm"') + listed(faults(runs)) or "<p>Nothing.</p>"


def limits_met(runs: list[Lines]) -> str:
    """Which limits were met, and which options raise them."""
    told = [f"{run.name}: {it}" for run in runs for it in wider(run.settings, run.name, run.by_task.values())]
    as_code = lambda it: re.sub(r"--[a-z-]+", r"<code>\g<0></code>", escape(it))
    return listed(map(as_code, told)) or "<p>None.</p>"
