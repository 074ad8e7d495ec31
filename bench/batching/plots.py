"""The plots of a report, each as a text of SVG with the list of what its hues stand for."""

from __future__ import annotations

from collections import Counter
from dataclasses import dataclass
from html import escape
from itertools import product
from typing import Callable, Optional

from batching.drawing import LETTER, Axes, Scale, drawn, legend, line, logarithmic, mark, shown, text
from batching.lines import Line, Result
from batching.reading import Lines, domain_of, domains_of, shared, tasks_of
from batching.style import RESULTS, hue_class, result_class

# The least time that is drawn, in seconds: less is measured by chance.
LEAST_TIME = 0.001
# The width and the height of a frame, in pixels.
WIDE, HIGH, SQUARE = 470, 330, 360
# Of the bars: the height of a row, the part of it that is filled, the width for all tasks of a domain, and between two runs.
ROW, FILLED, BARS, BETWEEN = 20, 14, 270, 30
# How many characters of a domain's name stand beside its bar.
LONGEST_NAME = 32

Value = Callable[[Line], Optional[float]]


def results_by_domain(runs: list[Lines]) -> str:
    """A bar for each domain of each run, of as many parts as there are results."""
    domains = domains_of(tasks_of(runs))
    left = 14 + LETTER * min(LONGEST_NAME, max((len(it) for it in domains), default=0))
    most = max((sum(domain_of(it) == domain for it in run.by_task) for run in runs for domain in domains), default=1)
    scale, top = Scale(0, most, BARS), 26
    parts = []
    for row, domain in enumerate(domains):
        # The end of a long name is what tells it from others.
        name = domain if len(domain) <= LONGEST_NAME else f"…{domain[1 - LONGEST_NAME:]}"
        parts.append(text(left - 8, top + row * ROW + 14, name, anchor="end"))
    for number, run in enumerate(runs):
        begin = left + number * (BARS + BETWEEN)
        parts.append(text(begin, 16, run.name, "label"))
        parts += counts_below(scale, begin, top, top + len(domains) * ROW)
        parts += (bar(run, domain, scale, begin, top + row * ROW + 3) for row, domain in enumerate(domains))
    found = [it for it in RESULTS if any(run.count(it) for run in runs)]
    box = '<rect{} x="-6" y="-5" width="12" height="10"/>'
    late = [(result_class(it), box.format(' class="late"'), f"{it.value}, late")
            for it in found if any(line.result is it for run in runs for line in run.late)]
    keys = legend([*((result_class(it), box.format(""), it.value) for it in found), *late])
    size = left + len(runs) * (BARS + BETWEEN), top + len(domains) * ROW + 44
    return drawn(*size, parts) + keys


def counts_below(scale: Scale, left: float, top: float, bottom: float) -> list[str]:
    """The axis of how many tasks there are."""
    ticks = [(left + scale.at(it), shown(it)) for it in scale.ticks(44)]
    found = [line(x, top, x, bottom + 4, "grid") + text(x, bottom + 17, words, anchor="middle") for x, words in ticks]
    return [*found, line(left, top, left, bottom, "frame"), text(left + scale.length / 2, bottom + 36, "tasks", "label", "middle")]


def bar(run: Lines, domain: str, scale: Scale, left: float, top: float) -> str:
    """The results of a domain, one behind the other."""
    parts, begin = [], 0
    found = Counter((it.result, run.is_late(it)) for it in run.by_task.values() if domain_of(it.task) == domain)
    for result, is_late in product(RESULTS, (False, True)):
        count = found[result, is_late]
        if count:
            x, width = left + scale.at(begin), scale.at(count)
            what = escape(f"{domain}: {count} {result.value}{', late' if is_late else ''}")
            parts.append(f'<rect class="{result_class(result)} bar{" late" if is_late else ""}" x="{x:.1f}" y="{top:.1f}" '
                         f'width="{width:.1f}" height="{FILLED}"><title>{what}</title></rect>')
            begin += count
    return "".join(parts)


def time_of(line: Line) -> float | None:
    return None if line.seconds is None else max(line.seconds, LEAST_TIME)


def check_time_of(line: Line) -> float | None:
    return None if line.check is None else max(line.check.seconds, LEAST_TIME)


def states_of(line: Line) -> float | None:
    return None if line.states is None else max(line.states, 1)


def answered_over_time(runs: list[Lines]) -> str:
    """For each run, how many tasks were answered within a time, and how many with a certificate that was accepted."""
    curves = []
    for number, run in enumerate(runs):
        curves.append((f"{hue_class(number)} curve", f"{run.name}: answered", sorted(map(time_of, run.answered))))
        if run.settings.checker:
            times = sorted(time_of(it) + it.check.seconds for it in run.accepted)
            curves.append((f"{hue_class(number)} curve dashed", f"{run.name}: and the certificate accepted", times))
    every = [it for _, _, times in curves for it in times]
    most = max(1, *(len(times) for _, _, times in curves))
    axes = Axes(logarithmic(every, WIDE), Scale(0, most * 1.04, HIGH), "processor time of a task, s", "tasks within that time")
    axes.parts += (steps(axes, times, kind) for kind, _, times in curves if times)
    return axes.svg() + legend((kind, '<path d="M-9 0H9"/>', words) for kind, words, _ in curves)


def steps(axes: Axes, times: list[float], kind: str) -> str:
    """A line that rises by one at each of these times, up to the end of the axis."""
    x, y = axes.place(times[0], 0)
    path = [f"M{x:.1f} {y:.1f}"]
    for number, time in enumerate(times, 1):
        x, y = axes.place(time, number)
        path.append(f"H{x:.1f}V{y:.1f}")
    return f'<path class="{kind}" d="{"".join(path)}H{axes.place(axes.x.high, 0)[0]:.1f}"/>'


@dataclass(frozen=True)
class Point:
    """A task by two figures, and what came of it."""

    task: str
    x: float
    y: float
    result: Result
    words: str


def scatter(axes: Axes, points: list[Point], anchors: dict[str, str]) -> str:
    """A mark for each task that leads to the task's row of the page, in the hue of its result and the shape of its domain: the
    legends of hues and of shapes."""
    domains = domains_of(it.task for it in points)
    axes.parts.append('<g class="marks">')
    for it in points:
        left, top = axes.place(it.x, it.y)
        place = f' transform="translate({left:.1f} {top:.1f})"'
        axes.parts.append(f'<a class="{result_class(it.result)}" href="#{anchors[it.task]}"><title>{escape(f"{it.task}: {it.words}")}'
                          f"</title>{mark(domains.index(domain_of(it.task)), place)}</a>")
    axes.parts.append("</g>")
    found = [it for it in RESULTS if any(point.result is it for point in points)]
    hues = legend((result_class(it), '<rect x="-6" y="-5" width="12" height="10"/>', it.value) for it in found)
    return hues + legend(("", mark(number), domain) for number, domain in enumerate(domains))


def against(runs: tuple[Lines, Lines], what: str, value: Value, anchors: dict[str, str]) -> str:
    """What the tasks that two runs share took in each; what one has no answer to stands at the edge beyond the greatest."""
    rows = [(task, *(value_in(it, task, value) for it in runs)) for task in shared(*runs)]
    rows = [it for it in rows if it[1:] != (None, None)]
    known = [it for _, *both in rows for it in both if it is not None] or [1, 10]
    # Where one has no answer, its result is the hue.
    result_of = lambda task: min((it.by_task[task] for it in runs), key=lambda it: it.is_answered).result
    edge = max(known) * 4
    scale = logarithmic([*known, edge], SQUARE)
    axes = Axes(scale, scale, *(f"{what}, {it.name}" for it in runs))
    axes.parts.append(line(*axes.place(scale.low, scale.low), *axes.place(edge, edge), "diagonal"))
    axes.parts.append(line(*axes.place(edge, scale.low), *axes.place(edge, edge), "edge"))
    axes.parts.append(line(*axes.place(scale.low, edge), *axes.place(edge, edge), "edge"))
    (left, top), (right, bottom) = axes.place(scale.low, edge), axes.place(edge, scale.low)
    axes.parts.append(text(left + 6, top - 6, f"no answer in {runs[1].name}", "quiet"))
    axes.parts.append(text(right + 13, bottom - 6, f"no answer in {runs[0].name}", "quiet", turned=True))
    told = lambda it: "no answer" if it is None else shown(it)
    points = [Point(task, x or edge, y or edge, result_of(task), f"{told(x)} and {told(y)}") for task, x, y in rows]
    return with_legends(axes, points, anchors)


def value_in(run: Lines, task: str, value: Value) -> float | None:
    line = run.by_task[task]
    return value(line) if line.is_answered else None


def of_one(run: Lines, labels: tuple[str, str], values: tuple[Value, Value], anchors: dict[str, str]) -> str:
    """Two figures of each task of a run that has both, against each other."""
    points = points_of(run, values)
    axes = Axes(logarithmic([it.x for it in points], SQUARE), logarithmic([it.y for it in points], SQUARE), *labels)
    return with_legends(axes, points, anchors)


def checking_and_solving(run: Lines, anchors: dict[str, str]) -> str:
    """What it took to solve each task and to check its certificate, with the line on which both are the same."""
    points = points_of(run, (time_of, check_time_of))
    scale = logarithmic((it for point in points for it in (point.x, point.y)), SQUARE)
    axes = Axes(scale, scale, "to solve, s of a processor", "to check, s of a processor")
    axes.parts.append(line(*axes.place(scale.low, scale.low), *axes.place(scale.high, scale.high), "diagonal"))
    return with_legends(axes, points, anchors)


def with_legends(axes: Axes, points: list[Point], anchors: dict[str, str]) -> str:
    """A plot with a mark for each of these points."""
    keys = scatter(axes, points, anchors)
    return axes.svg() + keys


def points_of(run: Lines, values: tuple[Value, Value]) -> list[Point]:
    """The tasks of a run that have both figures."""
    rows = ((it, *(value(it) for value in values)) for it in run.by_task.values())
    return [Point(it.task, x, y, it.result, f"{shown(x)} and {shown(y)}") for it, x, y in rows if None not in (x, y)]
