"""Runs tasks on this machine, some side by side, each by a process of `bench/batch-one`."""

from __future__ import annotations

import sys
from concurrent.futures import ThreadPoolExecutor, as_completed

from batching import ROOT
from batching.progress import Progress
from batching.runs import Run
from processes import end_all, run as run_command

ONE = f"{ROOT}/bench/batch-one"


def run_here(run: Run, numbers: list[int], lanes: int, progress: Progress) -> None:
    """Runs the tasks of these numbers, so many at a time. What runs is ended where this is left."""
    pool = ThreadPoolExecutor(lanes)
    try:
        words = [[sys.executable, ONE, run.folder, str(it)] for it in numbers]
        for it in as_completed([pool.submit(run_command, one) for one in words]):
            status, said = it.result()
            if status:
                progress.say(said.strip() or f"batch: a process ended with {status}")
            progress.show(run.gather())
    finally:
        pool.shutdown(wait=False, cancel_futures=True)
        end_all()
