"""What is told of a run while it goes on, and at its end."""

from __future__ import annotations

import shutil
import sys
import time
from collections import Counter
from typing import Iterable

from batching.lines import Line, Result

# To the terminal: back to the beginning of the line, which is emptied.
CLEARED = "\r\033[K"
# How many lines there are of a run where the output is no terminal, and after how many seconds there is one more.
STEPS, LONGEST_SILENCE = 10, 60


def counted(lines: Iterable[Line]) -> str:
    """How many lines have each result."""
    found = Counter(it.result for it in lines)
    return ", ".join(f"{found[it]} {it.value}" for it in Result if found[it])


def checked(lines: list[Line]) -> str:
    """How many certificates were judged, and how."""
    checks = [it.check for it in lines if it.check]
    accepted = sum(it.accepted is True for it in checks)
    refused = sum(it.accepted is False for it in checks)
    return f"; {accepted} of {len(checks)} certificates accepted, {refused} not accepted" if checks else ""


class Progress:
    """How many tasks have ended, on the standard error: a line that is written over where that is a terminal, and else a line
    whenever another tenth of the tasks has ended, or one has after a minute."""

    def __init__(self, total: int):
        self.total, self.lines = total, []
        self.is_terminal = sys.stderr.isatty()
        self.told, self.told_at = 0, time.monotonic()

    def show(self, lines: Iterable[Line]) -> None:
        """Counts these as well."""
        self.lines += lines
        text = f"{len(self.lines)} of {self.total}: {counted(self.lines)}"
        if self.is_terminal:
            print(CLEARED + text[:shutil.get_terminal_size().columns - 1], end="", file=sys.stderr, flush=True)
        elif self.is_due():
            print(text, file=sys.stderr, flush=True)
            self.told, self.told_at = len(self.lines), time.monotonic()

    def is_due(self) -> bool:
        """Whether so many tasks have ended, or so much time has passed, that a further line is to be told."""
        ended = len(self.lines) - self.told
        is_all = len(self.lines) == self.total
        return ended > 0 and (is_all or ended * STEPS >= self.total or time.monotonic() - self.told_at >= LONGEST_SILENCE)

    def say(self, text: str) -> None:
        """Says something on a line of its own."""
        print((CLEARED if self.is_terminal else "") + text, file=sys.stderr, flush=True)

    def close(self) -> None:
        if self.is_terminal and self.lines:
            print(file=sys.stderr)
