"""What a page has of plans of other planners: tables, and what contradicts a certificate."""

from __future__ import annotations

from html import escape
from typing import Iterable

from batching.links import Links
from batching.reading import Lines
from batching.scores import HEADS, Score, Verdict, by_task, rows_by_domain
from batching.tables import row


def score_section(scores: list[Score], runs: list[Lines], anchors: dict[str, str], links: Links) -> str:
    """The section of plans of other planners; nothing, where there are none."""
    if not scores:
        return ""
    return f"<h2>Other planners</h2>\n{by_planner(scores)}\n<h2>Their plans</h2>\n{all_plans(scores, runs, anchors, links)}"


def by_planner(scores: list[Score]) -> str:
    """A table with a row for each domain of each planner, in which the cheapest valid plan of each task counts."""
    lines = [row(["planner", "domain", *HEADS], "th")]
    for it in rows_by_domain(scores):
        lines.append(row(map(escape, it), attributes=' class="sum"' if it[1] == "all" else ""))
    return ("<p>Of each task the cheapest valid plan counts. Quality is the sum of proved bound by cost: 1 for an optimal plan, less "
            f'for a dearer one.</p><div class="wide"><table>{"".join(lines)}</table></div>')


def all_plans(scores: list[Score], runs: list[Lines], anchors: dict[str, str], links: Links) -> str:
    """A table with a row for each plan, which leads to its file and its task."""
    known = lambda value: "" if value is None else f"{value:,}"
    lines = [row(["task", "planner", "verdict", "cost", "proved bound", "steps"], "th")]
    for task, its in by_task(it for it in scores if it.plan is not None).items():
        texts = {run.by_task[task].texts for run in runs if task in run.by_task}
        for it in its:
            name = f'<a href="#{anchors[task]}">{escape(task)}</a>' if task in anchors else escape(task)
            if texts and it.texts not in texts:
                name += '<span class="otherwise">texts differ</span>'
            verdict = links.to(it.plan, it.told) if it.plan else escape(it.told)
            lines.append(row([name, escape(it.planner), verdict, known(it.cost), known(it.bound), known(it.steps)]))
    return f'<div class="wide"><table class="plans">{"".join(lines)}</table></div>'


def score_alarms(scores: list[Score]) -> Iterable[str]:
    """Plans that contradict a certificate, of which nothing could be said, or whose files state another cost than they have."""
    for it in scores:
        told = [it.told] if it.verdict in (Verdict.CONTRADICTION, Verdict.FAILED) else []
        for words in [*told, *([it.stated] if it.is_misstated else [])]:
            yield f"{escape(it.task)}, a plan of {escape(it.planner)}: {escape(words)}"
