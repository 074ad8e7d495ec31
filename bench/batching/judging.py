"""Has a program judge plans of other planners, beside the certificates of a run."""

from __future__ import annotations

import os
import re
import tempfile
from dataclasses import dataclass, replace
from fractions import Fraction
from functools import cached_property
from pathlib import Path

from batching.converting import Converted, plan_into
from batching.layouts import Task
from batching.lines import Explained, Line, Result
from batching.runs import Settings, texts_sum
from batching.scores import Cost, Score, Verdict
from batching.unit import REFUSED_BY_CHECK, explained_in, fault_of, result_of, told, within_limits
from plan_forms import Comment, NotAPlan, Plan, Step, read_plan
from timing import Ended

# Statuses of `validate`.
VALID, NOT_VALID, REFUSED = 0, 12, 20
NOT_ACCEPTED = "the certificate is not accepted"
# How `read_plan` tells that a text is an answer, or a whole log, of a planner that has found none.
WITHOUT_PLAN = "without a plan"
BY_LINE = "by the run's line: its certificate was accepted, and is not kept"
# `; cost = 12 (unit cost)` and `; Cost: 12.0`.
STATED = re.compile(r";[;\s]*(?:(?:plan|total)[-\s])?cost\s*[:=]?\s*([0-9]{1,18}(?:\.[0-9]{1,9})?)(?!\w|\.\w)", re.IGNORECASE)


@dataclass(frozen=True)
class Known:
    """What is proved of a task: what each plan costs at least, or that there is none."""

    # In the costs of the files that the program reads; None where nothing is proved, or there is no plan.
    bound: int | None = None
    # Whether a plan has that cost.
    is_reached: bool = False
    is_unsolvable: bool = False
    # Whether it rests on the run's line alone.
    is_by_line: bool = False
    # Why nothing is proved.
    why: str | None = None


class Judge:
    """Judges the plans of one task, within limits."""

    def __init__(self, settings: Settings, task: Task, folder: str, line: Line | None):
        self.settings, self.task, self.line = settings, task, line
        # Where the certificate stands, and what was written in the place of competition files.
        self.folder = folder
        is_converted = settings.converter is not None and os.path.isfile(f"{folder}/changes.json")
        self.made = self.converted() if is_converted else None
        self.read = self.made.task if self.made else task
        self.keys = {"task": task.name, "program": settings.program.sum, "texts": texts_sum(task)}

    def converted(self) -> Converted:
        """What was written in the place of the task's files."""
        try:
            return Converted.read(self.task, self.folder)
        except (ValueError, KeyError, TypeError) as why:
            raise OSError(f"{self.folder}/changes.json is damaged") from why

    def back(self, cost: int | None) -> Cost:
        """A cost of the files that the program reads, in those of the files that were found."""
        return self.made.cost_back(cost) if self.made else cost

    def run(self, command: str, *words: str) -> Ended:
        """The program with a command on the task."""
        return within_limits([self.settings.program.path, command, self.read.domain, self.read.problem, *words], self.settings)

    def check(self, *words: str) -> Ended:
        cert = f"{self.folder}/cert.txt"
        return self.run("check", cert, *words, "--instances", str(self.settings.instances), "--json")

    @cached_property
    def known(self) -> Known:
        """What the certificate shows, with the run's own plan where there is one that is accepted."""
        own = f"{self.folder}/plan.txt"
        if not os.path.isfile(f"{self.folder}/cert.txt"):
            return self.known_by_line()
        has_plan = self.line is not None and self.line.result is Result.PLAN and os.path.isfile(own)
        known = self.shown("--plan", own) if has_plan else None
        return known if known and known.why is None else self.shown()

    def shown(self, *words: str) -> Known:
        """What `check` says of the certificate."""
        end = self.check(*words)
        answer = told(end)
        if end.status == VALID and answer.get("result") in ("optimal", "at least"):
            return Known(answer["cost"], answer["result"] == "optimal")
        if end.status == VALID and answer.get("result") == "unsolvable":
            return Known(is_unsolvable=True)
        return Known(why=f"{NOT_ACCEPTED}: {words_of(end, self.settings.seconds)}")

    def known_by_line(self) -> Known:
        """What the run's line says of a certificate that was accepted, and is not there any more."""
        it = self.line
        if it is None or it.check is None or it.check.accepted is not True or it.texts != self.keys["texts"]:
            return Known(why="there is no certificate")
        forth = lambda cost: int(Fraction(str(cost)) * (self.made.factor if self.made else 1))
        if it.result is Result.UNSOLVABLE:
            return Known(is_unsolvable=True, is_by_line=True)
        if it.result is Result.PLAN:
            return Known(forth(it.cost), True, is_by_line=True)
        return Known(forth(it.bound), is_by_line=True) if it.bound is not None else Known(why="there is no certificate")

    def scores(self, plans: list[tuple[str, Path]]) -> list[Score]:
        """What is said of these plans, each by its planner."""
        found = [self.score(planner, path, self.known) for planner, path in plans]
        is_reached = any(it.verdict is Verdict.OPTIMAL for it in found)
        return [reached(it) for it in found] if is_reached else found

    def without_plan(self, planner: str) -> Score:
        """That a planner has none, which is no fault of it where there is none, or the task's text is refused."""
        verdict, why = Verdict.MISSING, None
        result = self.line.result if self.line else None
        if result is Result.REFUSED and self.line.texts == self.keys["texts"]:
            explained = self.line.explained
            verdict, why = Verdict.TASK_REFUSED, told_of(explained) if explained else self.line.fault
        elif result is Result.UNSOLVABLE and self.known.is_unsolvable:
            verdict, why = Verdict.UNSOLVABLE, BY_LINE if self.known.is_by_line else None
        elif result is Result.UNSOLVABLE:
            why = f"{self.known.why or 'the certificate shows something else'}; the run's answer is that no plan is there"
        return Score(planner=planner, plan=None, verdict=verdict, why=why, **self.keys)

    def score(self, planner: str, path: Path, known: Known) -> Score:
        """What is said of one plan."""
        keys = {**self.keys, "planner": planner, "plan": str(path), "bound": self.back(known.bound),
                "bound_is_reached": known.is_reached if known.bound is not None else None}
        try:
            plan = read_plan(path.read_bytes())
        except NotAPlan as why:
            is_right = known.is_unsolvable and why.why.endswith(WITHOUT_PLAN)
            verdict = Verdict.UNSOLVABLE if is_right else Verdict.REFUSED
            return Score(**keys, verdict=verdict, why=f"line {why.line}: {why.why}")
        except OSError as why:
            return Score(**keys, verdict=Verdict.FAILED, why=why.strerror)
        keys.update(steps=len(plan.steps), stated_cost=stated_cost(plan))
        with tempfile.TemporaryDirectory(prefix="score.") as room:
            return Score(**{**keys, **self.judged(plan, f"{room}/plan", known)})

    def judged(self, plan: Plan, file: str, known: Known) -> dict:
        """What the program says of a plan, which is put into this file for it."""
        try:
            text, places = self.text_of(plan.steps)
        except NotAPlan as why:
            return {"verdict": Verdict.REFUSED, "why": f"line {why.line}: {why.why}"}
        with open(file, "w", encoding="ascii") as written:
            written.write(text)
        end = self.run("validate", file, "--json")
        answer = told(end)
        if end.status == VALID and answer.get("result") == "valid":
            return {"cost": self.back(answer["cost"]), **self.beside(known, answer["cost"], file)}
        if end.status == NOT_VALID and answer.get("result") in ("not applicable", "goal missed"):
            step = answer.get("step")
            return {"verdict": Verdict.INVALID, "step": places[step - 1] if step else None}
        if end.status == REFUSED:
            return self.refused(file, end, plan.steps, places)
        return {"verdict": Verdict.FAILED, "why": words_of(end, self.settings.seconds)}

    def text_of(self, steps: list[Step]) -> tuple[str, list[int]]:
        """The steps for the files that the program reads, one a line, and for each which step of the plan it is."""
        written = plan_into(steps, self.folder) if self.made else [(it.words, number) for number, it in enumerate(steps, 1)]
        return "".join(f"({' '.join(words)})\n" for words, _ in written), [number for _, number in written]

    def refused(self, file: str, end: Ended, steps: list[Step], places: list[int]) -> dict:
        """Why a text is refused: the plan by the line that it had, or the task."""
        found = explained_in(self.run("explain", file).output)
        if found is None or found.file != file:
            return {"verdict": Verdict.TASK_REFUSED, "why": told_of(found) if found else fault_of(end)}
        line = steps[places[min(found.line, len(places)) - 1] - 1].line if places else 1
        return {"verdict": Verdict.REFUSED, "why": f"line {line}: {found.sentence}"}

    def beside(self, known: Known, cost: int, file: str) -> dict:
        """What a valid plan of this cost is, beside what is proved of the task."""
        why = {"why": BY_LINE} if known.is_by_line else {}
        if known.is_unsolvable:
            return {"verdict": Verdict.CONTRADICTION, **why}
        if known.bound is None:
            return {"verdict": Verdict.UNKNOWN, "why": known.why}
        if cost < known.bound:
            return {"verdict": Verdict.CONTRADICTION, **why}
        if cost > known.bound:
            verdict = Verdict.DEARER if known.is_reached else Verdict.WITHIN
            return {"verdict": verdict, "by": self.back(cost - known.bound), **why}
        if known.is_by_line:
            return {"verdict": Verdict.OPTIMAL, "bound_is_reached": True, **why}
        end = self.check("--plan", file)
        answer = told(end)
        if end.status == VALID and (answer.get("result"), answer.get("cost")) == ("optimal", cost):
            return {"verdict": Verdict.OPTIMAL, "bound_is_reached": True}
        return {"verdict": Verdict.FAILED, "why": f"the plan is not accepted: {words_of(end, self.settings.seconds)}"}


def told_of(refusal: Explained) -> str:
    """Where a text is at fault, and what is said of that."""
    return f"{refusal.place}: {refusal.sentence}"


def stated_cost(plan: Plan) -> Cost:
    """What a plan's file states as its cost, by the last such comment; one behind a step is of that step alone."""
    alone = (it.text for it in plan.parts if isinstance(it, Comment) and not it.is_behind)
    found = [Fraction(it[1]) for it in map(STATED.match, alone) if it]
    return None if not found else int(found[-1]) if found[-1].denominator == 1 else float(found[-1])


def reached(score: Score) -> Score:
    """The score of a plan, once another one is known that costs the proved bound."""
    changes: dict = {"bound_is_reached": True}
    if score.verdict is Verdict.WITHIN:
        changes.update(verdict=Verdict.DEARER)
    return replace(score, **changes) if score.bound is not None else score


def words_of(end: Ended, seconds: int) -> str:
    """What a process said that came to no answer, or what ended it."""
    answer = told(end)
    if end.status == REFUSED_BY_CHECK:
        return " ".join(str(answer[key]) for key in ("result", "code", "name") if key in answer)
    result = result_of(end, seconds)
    return result.value if result in (Result.TIME, Result.MEMORY) else fault_of(end) or f"status {end.status}"
