"""The page of a report: one file of HTML that needs no other."""

from __future__ import annotations

from html import escape
from typing import Iterable, Sequence

from batching.findings import limits_met, to_look_at
from batching.lines import Result
from batching.links import Links
from batching.plots import against, answered_over_time, checking_and_solving, of_one, results_by_domain, states_of, time_of
from batching.reading import Lines, domains_of, tasks_of
from batching.score_tables import score_section
from batching.scores import Score
from batching.style import style
from batching.sums import costs_by_domain
from batching.tables import all_tasks, by_domain


def judged(run: Lines) -> str:
    """How many certificates were accepted, of answers and of bounds."""
    if run.settings.checker is None:
        return "no certificate was judged"
    checks = [it for it in run.by_task.values() if it.check]
    accepted = [it for it in checks if it.check.accepted]
    bounds = sum(not it.is_answered for it in accepted)
    return f"{len(accepted)} of {len(checks)} certificates accepted" + (f", {bounds} of them of bounds" if bounds else "")


def beside(run: Lines) -> Iterable[str]:
    """How many tasks were answered too late, and how many are refused, which no wider limit changes."""
    if run.late:
        yield f"<div>{len(run.late)} more answered late, after more than {run.settings.seconds:,} s by the clock</div>"
    if run.count(Result.REFUSED):
        yield f"<div>{run.count(Result.REFUSED)} refused, which is a fault of the text and no limit</div>"


def card(run: Lines) -> str:
    """What a run came to, and within which limits."""
    settings, lines = run.settings, run.by_task.values()
    checks = [it for it in lines if it.check]
    solving, checking = sum(it.seconds or 0 for it in lines), sum(it.check.seconds for it in checks)
    programs = [("solved by", settings.program), *([("judged by", settings.checker)] if settings.checker else [])]
    rows = [f"{words} {escape(it.path)} ({it.sum}{', built without a proof' if it.is_unproved else ''})"
            for words, it in programs]
    rows.append(f"each process within {settings.seconds:,} s and {settings.megabytes:,} MB, {settings.states:,} states, "
                f"{settings.instances:,} instances")
    rows.append(f"{solving:,.0f} s of a processor for solving, {checking:,.0f} s for checking")
    rows += [f"on {escape(it)}" for it in run.hosts]
    return (f'<div class="run"><b>{escape(run.name)}</b>'
            f'<div class="large">{len(run.answered)} of {len(run.by_task)} answered</div>{"".join(beside(run))}'
            f'<div>{judged(run)}</div><small>{"<br>".join(rows)}</small></div>')


def notices(runs: list[Lines]) -> str:
    """For which runs no proof vouches, as the program that solves, or judges, was built without one."""
    return "".join(f'<p class="notice"><b>{escape(run.name)}</b>: {notice(run)}</p>' for run in runs if notice(run))


def notice(run: Lines) -> str:
    """What the answers of a run rest on, where the program was built without a proof; nothing where it was not."""
    program, checker = run.settings.program, run.settings.checker
    if not program.is_unproved:
        return ""
    if checker is None or checker.is_unproved:
        return "the program was built without a proof, so that no proof vouches for these answers."
    return ("the program was built without a proof. Another one judged the certificates: "
            "an answer is as certain as that one where its certificate is accepted.")


def figure(caption: str, text: str) -> str:
    return f"<figure><figcaption>{escape(caption)}</figcaption>{text}</figure>"


def plots(runs: list[Lines], anchors: dict[str, str]) -> str:
    """The plots: of one run by itself, of several each against the first."""
    found = [figure("Results by domain", results_by_domain(runs)), figure("Answered over time", answered_over_time(runs))]
    first, *others = runs
    for other in others:
        both, names = (first, other), f"{other.name} against {first.name}"
        found.append(figure(f"Time: {names}", against(both, "processor time, s", time_of, anchors)))
        found.append(figure(f"States: {names}", against(both, "states listed", states_of, anchors)))
    if not others:
        labels, values = ("states listed", "processor time, s"), (states_of, time_of)
        found.append(figure("Time by states", of_one(first, labels, values, anchors)))
    if not others and first.settings.checker:
        found.append(figure("Checking against solving", checking_and_solving(first, anchors)))
    return f'<div class="plots">{"".join(found)}</div>'


def page(runs: list[Lines], path: str | None = None, scores: Sequence[Score] = ()) -> str:
    """The whole text, with links to plans and certificates from where the page will stand, and with plans of other planners."""
    links = Links(path)
    tasks = tasks_of(runs)
    anchors = {task: f"task-{number}" for number, task in enumerate(tasks, 1)}
    title = f"{len(tasks)} tasks, {len(domains_of(tasks))} domains"
    return f"""<!DOCTYPE html>
<html lang="en"><head><meta charset="utf-8"><meta name="viewport" content="width=device-width"><title>{title}</title>
<style>{style()}</style></head><body>
<h1>{title}</h1>
{notices(runs)}
<div class="runs">{"".join(map(card, runs))}</div>
<h2>Results</h2>
{by_domain(runs)}
<h2>Costs</h2>
{costs_by_domain(runs)}
<h2>To look at</h2>
{to_look_at(runs, scores)}
<h2>Limits that were met</h2>
{limits_met(runs)}
<h2>Plots</h2>
{plots(runs, anchors)}
<h2>All tasks</h2>
{all_tasks(runs, anchors, links)}
{score_section([*scores], runs, anchors, links)}
</body></html>
"""
