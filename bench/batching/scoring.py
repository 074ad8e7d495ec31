"""The command line of `bench/score`."""

from __future__ import annotations

import argparse
import os
import sys
from concurrent.futures import ProcessPoolExecutor
from concurrent.futures.process import BrokenProcessPool
from dataclasses import replace
from multiprocessing import active_children
from pathlib import Path

from batching.judging import NOT_ACCEPTED, Judge
from batching.layouts import Task, is_chosen, no_such_tasks
from batching.lines import Line, read_lines
from batching.plan_files import plans_in
from batching.programs import DEFAULT, count, default_program, program_at
from batching.runs import Settings, put, read_tasks
from batching.scores import Score, Verdict, plans_text, summary_text
from batching.unit import end_with_parent, has_changed
from processes import lanes

# How many files are named that belong to no task.
MOST_NAMED = 5


def arguments(usage: str, given: list[str]) -> argparse.Namespace:
    words = argparse.ArgumentParser(prog="bench/score", description=usage, formatter_class=argparse.RawDescriptionHelpFormatter)
    words.add_argument("run", metavar="RUN", help="a folder that bench/batch has made")
    words.add_argument("plans", nargs="+", metavar="PLANS", help="a folder with the plans of a planner, or NAME=FOLDER")
    words.add_argument("--into", metavar="FILE", help="write a line of JSON for each plan; bench/batch-report --scores takes them")
    words.add_argument("--each", action="store_true", help="print a line for each plan, too")
    words.add_argument("--filter", "--task", dest="task", action="append", metavar="PATTERN",
                       help="only the tasks with such names, as 'gripper/*'; may be given more than once")
    words.add_argument("--program", help=f"the program that judges (the run's checker; else {DEFAULT})")
    words.add_argument("--seconds", type=count(10**8), default=300, help="of the processor, for each process (%(default)s)")
    words.add_argument("--memory", type=count(10**8), default=2000, metavar="MB", help="for each process (%(default)s)")
    words.add_argument("--lanes", type=count(10**4), help="how many run at a time (as processors and memory allow)")
    return words.parse_args(given)


def settings_of(words: argparse.Namespace) -> Settings:
    """The run's settings, with the program that judges and the limits of its processes."""
    try:
        settings = Settings.read(words.run)
    except (OSError, ValueError, TypeError, KeyError, AttributeError):
        sys.exit(f"score: {words.run} is no folder of a run")
    path = words.program
    if path is None:
        checker = settings.checker
        is_there = checker is not None and os.path.isfile(checker.path) and not has_changed(checker)
        path = checker.path if is_there else default_program(words.run, "score")
    program = program_at(path, "score")
    return replace(settings, program=program, seconds=words.seconds, megabytes=words.memory)


def planner_of(word: str) -> tuple[str, Path]:
    """A planner's name and the folder of its plans."""
    name, is_named, path = word.partition("=")
    if not is_named or os.path.exists(word):
        name, path = os.path.basename(os.path.abspath(word)), word
    if not os.path.isdir(path):
        sys.exit(f"score: there is no folder {path}")
    return name, Path(path).absolute()


def found(words: argparse.Namespace, tasks: list[str]) -> dict[str, list[tuple[str, Path]]]:
    """The plans of each task, each with its planner. What belongs to no task is told."""
    plans: dict[str, list[tuple[str, Path]]] = {it: [] for it in tasks}
    for planner, folder in map(planner_of, words.plans):
        its, left_out = plans_in(folder, tasks)
        for task, paths in its.items():
            plans[task] += [(planner, it) for it in paths]
        if left_out:
            more = f" and {len(left_out) - MOST_NAMED} more" if len(left_out) > MOST_NAMED else ""
            told = ", ".join(str(it.relative_to(folder)) for it in left_out[:MOST_NAMED])
            print(f"score: left out: of {planner} {told}{more}, by their names of no task that is judged", file=sys.stderr)
    return plans


def judged(settings: Settings, task: Task, folder: str, line: Line, plans: list[tuple[str, Path]], planners: list[str]) -> list[Score]:
    """What is said of a task's plans, and which planners have none."""
    judge = Judge(settings, task, folder, line)
    scores = judge.scores(plans) if plans else []
    return [*scores, *(judge.without_plan(it) for it in planners if it not in {planner for planner, _ in plans})]


def tasks_in(run: str) -> list[Task]:
    """The tasks of a run."""
    try:
        return read_tasks(run)
    except (ValueError, TypeError):
        sys.exit(f"score: {run}/tasks.jsonl is damaged")


def scores_of(words: argparse.Namespace, settings: Settings) -> list[Score]:
    """The scores of all plans, planner by planner."""
    run = os.path.abspath(words.run)
    tasks = [it for it in tasks_in(run) if is_chosen(it.name, words.task)]
    if words.task and not tasks:
        sys.exit(no_such_tasks("score", words.task))
    planners = [planner_of(it)[0] for it in words.plans]
    if len({*planners}) < len(planners):
        sys.exit(f"score: two planners would be called {next(it for it in planners if planners.count(it) > 1)}: name one NAME=FOLDER")
    plans = found(words, [it.name for it in tasks])
    if not any(plans.values()):
        sys.exit("score: there are no such plans: a plan is called by its task, as gripper/p03.plan or gripper/p03/sas_plan")
    lines = {it.task: it for it in read_lines(f"{run}/results.jsonl")}
    many = words.lanes or lanes(words.memory * 1_000_000)
    with ProcessPoolExecutor(many, initializer=end_with_parent) as pool:
        waiting = [pool.submit(judged, settings, it, f"{run}/answers/{it.name}", lines.get(it.name), plans[it.name], planners)
                   for it in tasks]
        try:
            scores = [score for it in waiting for score in it.result()]
        except BaseException as why:
            pool.shutdown(wait=False, cancel_futures=True)
            for it in active_children():
                it.terminate()
            if isinstance(why, BrokenProcessPool):
                sys.exit("score: a process of it was ended from elsewhere")
            raise
    return sorted(scores, key=lambda it: planners.index(it.planner))


def place_of(score: Score) -> str:
    """Which plan of which planner it is, with its file."""
    return f"{score.task} of {score.planner}" + (f" ({score.plan})" if score.plan else "")


def alarms(scores: list[Score]) -> list[str]:
    """What somebody should look at, since it is no verdict or contradicts one."""
    is_not_judged = lambda it: it.verdict is Verdict.FAILED or it.verdict is Verdict.TASK_REFUSED and it.plan
    is_one = lambda it: it.verdict is Verdict.CONTRADICTION or is_not_judged(it) or (it.why or "").startswith(NOT_ACCEPTED)
    return [f"{place_of(it)}: {it.told}" for it in scores if is_one(it)]


def main(usage: str, given: list[str]) -> None:
    """Does what the words ask for, and ends with its status."""
    words = arguments(usage, given)
    settings = settings_of(words)
    try:
        scores = scores_of(words, settings)
        if words.into:
            put(words.into, "".join(it.text() for it in scores))
    except OSError as why:
        sys.exit(f"score: {why}")
    if words.each:
        print(plans_text(scores), end="\n\n")
    print(summary_text(scores))
    if settings.program.is_unproved:
        print("score: the program that judged was built without a proof, so that no proof vouches for this", file=sys.stderr)
    told = alarms(scores)
    for it in [*told, *(f"{place_of(it)}: {it.stated}" for it in scores if it.is_misstated)]:
        print(f"score: {it}", file=sys.stderr)
    sys.exit(1 if told else 0)
