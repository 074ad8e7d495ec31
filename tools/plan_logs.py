"""Whole logs of planners, and where a plan stands in them.

A log is known by lines that its planner alone prints. All that is not of the plan becomes blanks here, so that each step keeps
its place, and `plan_forms` reads the rest. It needs nothing but Python 3.8."""

from __future__ import annotations

import re
from dataclasses import dataclass
from itertools import accumulate

# A pattern that no line has.
NOTHING = r"(?!)"
# What Fast Downward puts before its lines, but not before steps.
PREFIX = r"\[t=[0-9.e+-]+s, [0-9]+ KB\] ?"
# `SequentialPlan:`, or `Fast Downward returned: SequentialPlan:`; the credits before it may end with a color.
HEADING = r"(?:.*(?: |\x1b\[[0-9;]*m))?SequentialPlan:"


@dataclass(frozen=True)
class Planner:
    """How a planner's log looks. Each pattern is of a whole line without blanks behind it, and all but `marks` without `PREFIX`."""

    name: str
    # The lines by which its log is known.
    marks: str
    # The line before the steps, and the first one behind them; a group in it is how many steps there are.
    begin: str
    end: str
    # What stands between them and is no step.
    beside: str = NOTHING
    # What stands in the line behind `end`; its group is the plan's cost.
    cost: str = NOTHING
    # That there is no plan.
    without: str = NOTHING
    # Steps of plans that are not one sequence of actions.
    waiting: str = NOTHING
    # What a log has once, so that a second one is of another log.
    once: str = NOTHING
    # Whether it goes on after a plan, so that the last one is its cheapest.
    is_anytime: bool = False
    # What is left of `begin`, where the form of the steps needs it.
    heading: str = ""


# A script with unified-planning may print the log of its engine before, so it stands first.
PLANNERS = (
    Planner(
        name="unified-planning",
        marks=HEADING,
        begin=HEADING,
        end=r"(?! {4}\S).*",
        heading="SequentialPlan:",
    ),
    Planner(
        name="Fast Downward",
        marks=rf"{PREFIX}.*"
              r"|INFO +Running (?:translator|search)\b.*"
              r"|INFO +(?:planner|translator|search) (?:time limit|memory limit|stdin|command line string):.*"
              r"|Actual search time: .*|Plan length: [0-9]+ step\(s\)\."
              r"|Completely explored state space -- no solution!|Search stopped without finding a solution\.",
        begin=r"Solution found!",
        end=r"Plan length: ([0-9]+) step\(s\)\.",
        beside=r"Actual search time: .*",
        cost=r"Plan cost: ([0-9]+)",
        without=r"Completely explored state space -- no solution!|Search stopped without finding a solution\.",
        once=r"INFO +Running translator\b.*",
        is_anytime=True,
    ),
    Planner(
        name="FF",
        marks=r"ff: (?:parsing (?:domain|problem) file|found legal plan as follows|search configuration is .*"
              r"|goal can be simplified to .*)",
        begin=r"ff: found legal plan as follows",
        end=r"\s*(?:time spent:|plan cost:).*",
        without=r"best first search space empty!.*|.*problem proven unsolvable\.|ff: goal can be simplified to .*",
        once=r"ff: parsing domain file",
    ),
    Planner(
        name="ENHSP",
        marks=r"Domain parsed|Problem parsed|Plan-Length: ?[0-9]+|Metric \(Search\):.*",
        begin=r"Found Plan:",
        end=r"Plan-Length: ?([0-9]+)",
        without=r"Problem unsolvable|Unsolvable Problem",
        waiting=r".*-waiting-.*",
        once=r"Domain parsed",
    ),
)


class NoPlanInLog(Exception):
    """A log from which no plan is taken: the number of a line, counted from 0, and why."""

    def __init__(self, line: int, why: str):
        super().__init__(why)
        self.line, self.why = line, why


@dataclass(frozen=True)
class Log:
    """The plan of a log."""

    # The whole text, with blanks for all but the plan and a comment with its cost.
    text: str
    # How many steps the log tells of, None where it does not, and the line that tells, counted from 0.
    steps: int | None
    told_in: int
    # What a reader should know.
    notes: tuple[str, ...]


def log_in(text: str, first_step: int | None) -> Log | None:
    """The log that a text is; None where it is none. What begins with a step is no log: marks count before the first step alone,
    which is at this offset. Raises `NoPlanInLog` where a log has no plan, or not all of it."""
    raw = text.split("\n")
    ends = accumulate(len(it) + 1 for it in raw)
    ahead = len(raw) if first_step is None else sum(it <= first_step for it in ends)
    planner = planner_of(raw[:ahead])
    if planner is None:
        return None
    lines = [re.sub(f"^{PREFIX}", "", it).rstrip() for it in raw]
    begin, notes = begin_in(lines, planner)
    end = end_in(lines, planner, begin)
    if planner.heading and end == begin + 1:
        # A plan without steps, or steps that unified-planning has not written.
        return None
    return Log(plan_alone(raw, lines, planner, begin, end), steps_told(lines, planner, end), end, notes)


def planner_of(raw: list[str]) -> Planner | None:
    """The planner with marks in these lines; None where there is none. Raises `NoPlanInLog` at marks of two."""
    lines = [it.rstrip() for it in raw]
    found = {it: marked[0] for it in PLANNERS for marked in [having(lines, it.marks)] if marked}
    if not found:
        return None
    first, *others = found
    if others and not first.heading:
        raise NoPlanInLog(max(found.values()), f"logs of {first.name} and {others[0].name} in one text: give one alone")
    return first


def begin_in(lines: list[str], planner: Planner) -> tuple[int, tuple[str, ...]]:
    """The line before the plan that counts, and what is to be noted. Raises `NoPlanInLog` where no plan counts."""
    begins, logs = having(lines, planner.begin), having(lines, planner.once)
    if len(logs) > 1:
        raise NoPlanInLog(logs[1], f"a second log of {planner.name} begins here: give one alone")
    if not begins:
        told = having(lines, planner.without) or having(lines, r".+")[-1:] or [0]
        raise NoPlanInLog(told[0], f"this log of {planner.name} ends without a plan")
    if len(begins) > 1 and not planner.is_anytime:
        raise NoPlanInLog(begins[1], f"a second plan of {planner.name} begins here: give one alone")
    notes = (f"the log has {len(begins)} plans, and the last one is taken",) if len(begins) > 1 else ()
    return begins[-1], notes


def having(lines: list[str], pattern: str) -> list[int]:
    """The numbers of the lines that have this pattern."""
    one = re.compile(pattern)
    return [number for number, it in enumerate(lines) if one.fullmatch(it)]


def end_in(lines: list[str], planner: Planner, begin: int) -> int:
    """The first line behind the steps. Raises `NoPlanInLog` where the log ends before it, or at a step that waits."""
    for number in range(begin + 1, len(lines)):
        if re.fullmatch(planner.end, lines[number]):
            return number
        if re.fullmatch(planner.waiting, lines[number]):
            raise NoPlanInLog(number, "a plan that waits: only plans that are one sequence of steps are rewritten")
    if re.fullmatch(planner.end, ""):
        return len(lines)
    raise NoPlanInLog(begin, f"this log of {planner.name} is cut off in the plan that begins here")


def steps_told(lines: list[str], planner: Planner, end: int) -> int | None:
    """How many steps there are by the line behind them; None where it does not tell."""
    found = re.fullmatch(planner.end, lines[end]) if end < len(lines) else None
    return int(found[1]) if found and found.re.groups else None


def plan_alone(raw: list[str], lines: list[str], planner: Planner, begin: int, end: int) -> str:
    """The text with blanks for all that is not of the plan."""
    kept = [" " * len(it) for it in raw]
    kept[begin] = planner.heading.rjust(len(raw[begin]))
    for number in range(begin + 1, end):
        if not re.fullmatch(planner.beside, lines[number]):
            kept[number] = re.sub(f"^{PREFIX}", lambda it: " " * len(it[0]), raw[number])
    # The last line may be cut off in its number.
    cost = re.fullmatch(planner.cost, lines[end + 1]) if end + 2 < len(lines) else None
    if cost:
        kept[end + 1] = f"; cost = {cost[1]}".rjust(len(raw[end + 1]))
    return "\n".join(kept)
