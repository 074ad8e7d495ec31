"""Which option widens a limit that tasks have met."""

from __future__ import annotations

from collections import Counter
from dataclasses import dataclass
from typing import Iterable

from batching.lines import Line, Result
from batching.runs import Settings

# The greatest limit of states, and of instances, that the program takes, and of seconds (docs/usage.md).
MOST = 2**24
MOST_SECONDS = 10**6


@dataclass(frozen=True)
class Limit:
    """A limit that an option sets."""

    result: Result
    option: str
    # With its unit.
    value: str
    # What the option takes at most; None where it has no such end.
    most: int | None
    can_be_raised: bool

    def sentence(self, count: int) -> str:
        """That so many tasks have met it, and what raises it."""
        end = f", to {self.most:,} at most" if self.most else ""
        what = f"{self.option} raises it{end}" if self.can_be_raised else f"{self.option} sets none that is greater"
        return f"{tasks(count)} met the limit of {self.value}: {what}"


def tasks(count: int) -> str:
    return f"{count:,} task{'' if count == 1 else 's'}"


def is_late(settings: Settings, line: Line) -> bool:
    """Whether an answer came after the limit of seconds, by the clock; by the processor, where the line has no other time."""
    took = line.seconds if line.clock_seconds is None else line.clock_seconds
    return line.is_answered and took is not None and took > settings.seconds


def limits_of(settings: Settings) -> list[Limit]:
    return [
        Limit(Result.STATES, "--states", f"{settings.states:,} states", MOST, settings.states < MOST),
        Limit(Result.INSTANCES, "--instances", f"{settings.instances:,} instances", MOST, settings.instances < MOST),
        Limit(Result.TIME, "--seconds", f"{settings.seconds:,} s", MOST_SECONDS, settings.seconds < MOST_SECONDS),
        Limit(Result.MEMORY, "--memory", f"{settings.megabytes:,} MB", None, True),
    ]


def wider(settings: Settings, run: str, lines: Iterable[Line]) -> list[str]:
    """A sentence for each limit that some of these lines have met, one that tells how those tasks are run again, and one for late
    answers."""
    every = [*lines]
    found = Counter(it.result for it in every)
    met = [it for it in limits_of(settings) if found[it.result]]
    told = [it.sentence(found[it.result]) for it in met]
    if found[Result.ATOMS]:
        told.append(f"{tasks(found[Result.ATOMS])} would number more than 1,048,576 atoms: no option raises that limit")
    raised = [f"{it.option} N" for it in met if it.can_be_raised]
    if raised:
        told.append(f"these tasks alone are run again with --left-by {run} --into OTHER {' '.join(raised)}")
    late = sum(is_late(settings, it) for it in every)
    if late:
        told.append(f"{tasks(late)} had a late answer, after more than {settings.seconds:,} s by the clock: it is proved as others "
                    "are, and does not count as answered within the limit")
    return told
