"""What a command costs: `bench/check` and `bench/values` measure with it, and `bench/batch` runs programs by it."""

from __future__ import annotations

import os
import subprocess
import sys
import tempfile
import time
from dataclasses import dataclass
from typing import Callable


@dataclass(frozen=True)
class Ended:
    """How a command ended, and what it took. No peak is told below what this script held when it started the command, which
    is some ten megabytes: the kernel counts that too."""

    # As a shell tells it: 128 more than the number of the signal that ended it.
    status: int
    output: str
    errors: str
    # Of the processor.
    seconds: float
    # The most memory in bytes.
    peak: int
    # By the clock.
    clock: float = 0.0


def ended(words: list[str], prepare: Callable[[], None] | None = None) -> Ended:
    """Runs a command to its end, with no input; `prepare` is called in its process before it begins."""
    begin = time.monotonic()
    with tempfile.TemporaryFile() as errors:
        child = subprocess.Popen(words, stdin=subprocess.DEVNULL, stdout=subprocess.PIPE, stderr=errors, preexec_fn=prepare)
        with child.stdout as pipe:
            output = pipe.read()
        _, status, usage = os.wait4(child.pid, 0)
        clock = time.monotonic() - begin
        errors.seek(0)
        said = errors.read()
    code = os.waitstatus_to_exitcode(status)
    # `child` is to know that it has ended.
    child.returncode = code
    seconds, peak = usage.ru_utime + usage.ru_stime, usage.ru_maxrss * 1024
    return Ended(code if code >= 0 else 128 - code, output.decode(errors="replace"), said.decode(errors="replace"), seconds, peak, clock)


def processor() -> str:
    """The name of this machine's processor."""
    with open("/proc/cpuinfo", encoding="utf-8", errors="replace") as lines:
        return next((line.split(":")[1].strip() for line in lines if line.startswith("model name")), "unknown")


def run(words):
    """The processor time in seconds, the peak memory in bytes, and the last line of the answer."""
    end = ended(words)
    if end.status != 0:
        sys.exit(f"{' '.join(words)} ended with {end.status}: {end.errors}")
    return end.seconds, end.peak, end.output.splitlines()[-1]


def measure(words):
    """The least time of three runs, and the peak and the answer of the last."""
    runs = [run(words) for _ in range(3)]
    return min(time for time, _, _ in runs), runs[-1][1], runs[-1][2]
