"""The command line of `tools/ipc-files`."""

from __future__ import annotations

import argparse
import json
import os
import sys

from ipc_files.back import check_table, in_order, plan_back, table_of
from ipc_files.checking import MOST_VARIABLES
from ipc_files.task import mend, read_task
from ipc_files.told import Refusal
from ipc_files.trees import Text
from ipc_files.writing import written

# Statuses, which are those of the program.
WORDS, REFUSED, DEVICE = 2, 20, 21


def arguments(usage: str) -> argparse.Namespace:
    """The words of the command line; the program ends where they are others."""
    words = argparse.ArgumentParser(prog="tools/ipc-files", description=usage, formatter_class=argparse.RawDescriptionHelpFormatter)
    words.add_argument("files", nargs="*", metavar="DOMAIN PROBLEM", help="the files of a competition")
    words.add_argument("--into", metavar="FOLDER", help="where domain.pddl, problem.pddl and changes.json are written")
    words.add_argument("--back", nargs="+", metavar=("FOLDER", "PLAN"),
                       help="print the plan, - for the standard input, in the names of what FOLDER was made of")
    words.add_argument("--variables", type=int, default=MOST_VARIABLES, choices=range(1, MOST_VARIABLES + 1), metavar="N",
                       help="write actions with more than N variables in scope as steps (%(default)s)")
    given = words.parse_args()
    if given.back and len(given.back) == 1:
        words.error(f"--back {given.back[0]}: expected the plan's file after the folder, or - for the standard input")
    is_back = given.back is not None and len(given.back) == 2 and not given.into and not given.files
    if not is_back and (given.back or not given.into or len(given.files) != 2):
        words.error("expected DOMAIN PROBLEM --into FOLDER, or --back FOLDER PLAN")
    return given


def read_file(path: str) -> Text:
    with open(path, "rb") as file:
        return Text(path, file.read())


def read_plan(path: str) -> Text:
    """A plan's file, or the standard input."""
    if path == "-":
        return Text(path, sys.stdin.buffer.read())
    try:
        return read_file(path)
    except FileNotFoundError:
        print(f"ipc-files: there is no plan {path}: `solve --plan` writes none where it finds none", file=sys.stderr)
        sys.exit(DEVICE)


def taken_back(folder: str, plan: str) -> str:
    """A plan in the names of the files that a folder was made of."""
    path = os.path.join(folder, "changes.json")
    try:
        with open(path, encoding="utf-8") as text:
            table = json.load(text)
        check_table(table)
    except FileNotFoundError:
        print(f"ipc-files: there is no {path}: expected a folder that --into has written", file=sys.stderr)
        sys.exit(DEVICE)
    except (ValueError, KeyError, TypeError, AttributeError):
        print(f"ipc-files: {path} is not as --into has written it", file=sys.stderr)
        sys.exit(REFUSED)
    return plan_back(read_plan(plan), table)


def convert(domain: str, problem: str, folder: str, most_variables: int) -> None:
    """Writes the files that the language has for these, and tells the changes."""
    task = read_task(read_file(domain), read_file(problem))
    mend(task, most_variables)
    texts = {"domain.pddl": written(task, task.domain), "problem.pddl": written(task, task.problem),
             "changes.json": json.dumps(table_of(task), indent=1).encode() + b"\n"}
    os.makedirs(folder, exist_ok=True)
    for name, text in texts.items():
        path = os.path.join(folder, name)
        for it in (domain, problem):
            if os.path.exists(path) and os.path.samefile(path, it):
                print(f"ipc-files: {it} would be written over: name another folder", file=sys.stderr)
                sys.exit(WORDS)
    for name, text in texts.items():
        with open(os.path.join(folder, name), "wb") as file:
            file.write(text)
    for it in in_order(task):
        print(it.told())
    if not task.changes:
        print("nothing is changed")


def main(usage: str) -> None:
    """Does what the words ask for, and ends with its status."""
    given = arguments(usage)
    try:
        if given.back:
            sys.stdout.write(taken_back(*given.back))
        else:
            convert(*given.files, given.into, given.variables)
        sys.stdout.flush()
    except Refusal as why:
        print(why, file=sys.stderr)
        sys.exit(REFUSED)
    except OSError as why:
        print(f"ipc-files: {why}", file=sys.stderr)
        sys.exit(DEVICE)
