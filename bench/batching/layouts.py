"""Finds tasks in folders, in the layouts of the planning competitions."""

from __future__ import annotations

import os
import re
import sys
from dataclasses import dataclass
from fnmatch import fnmatchcase
from pathlib import Path
from typing import Iterator, Sequence


@dataclass(frozen=True)
class Task:
    """A domain's file and a problem's, under a name such as `gripper/p01`."""

    name: str
    domain: str
    problem: str


@dataclass(frozen=True)
class LeftOut:
    """A file that looks like a problem and makes no task."""

    path: Path
    why: str


# A problem whose name has no ending, as pfile1 or task-07.
WITHOUT_ENDING = re.compile(r"(p|pfile|prob|problem|task|instance)[-_]?[0-9]+")


def is_domain(path: Path) -> bool:
    """Whether a file of PDDL is a domain's by its name."""
    stem = path.stem.lower()
    return stem == "domain" or stem.startswith(("domain-", "domain_")) or stem.endswith(("-domain", "_domain"))


def is_problem(path: Path) -> bool:
    """Whether a file is a problem's by its name."""
    name = path.name.lower()
    return WITHOUT_ENDING.fullmatch(name) is not None or name.endswith(".pddl") and not name.startswith(".") and not is_domain(path)


def beginnings(name: str) -> list[str]:
    """What a problem's name shares with its domain's, the longest first: of p01-airport1-p1 that, p01-airport1 and p01."""
    until_number = re.match(r"[^0-9]+[0-9]+", name)
    found = [name, *(name[:it.start()] for it in re.finditer(r"[-_]", name)), *([until_number[0]] if until_number else [])]
    return sorted(filter(None, dict.fromkeys(found)), key=len, reverse=True)


def domains_of(problem: Path) -> Iterator[Path]:
    """Where the domain of a problem may stand, but for its ending; the first that is there is it."""
    folder, name = problem.parent, problem.stem.lower()
    for it in beginnings(name):
        yield folder / f"{it}-domain"
        yield folder / f"{it}_domain"
        yield folder / f"domain-{it}"
        yield folder / f"domain_{it}"
    yield folder / "domain"
    # As in instances/instance-1.pddl with domains/domain-1.pddl or one domain.pddl beside the folders.
    if folder.name == "instances":
        yield folder.parent / "domains" / name.replace("instance", "domain", 1)
        yield folder.parent / "domain"


class Folders:
    """The files of folders by their names, in which case does not count."""

    def __init__(self) -> None:
        self.known: dict[Path, dict[str, Path]] = {}

    def files_of(self, folder: Path) -> dict[str, Path]:
        """The files of a folder by their names in small letters; none, where it cannot be read."""
        if folder not in self.known:
            try:
                # Of two that differ in case alone it is the one in small letters.
                self.known[folder] = {it.name.lower(): it for it in sorted(folder.iterdir()) if it.is_file()}
            except OSError:
                self.known[folder] = {}
        return self.known[folder]

    def domain_of(self, problem: Path) -> Path | None:
        """The domain of a problem, which may have no ending either."""
        places = ((it.parent, f"{it.name}{ending}") for it in domains_of(problem) for ending in (".pddl", ""))
        return next((self.files_of(folder)[name] for folder, name in places if name in self.files_of(folder)), None)


def is_chosen(name: str, patterns: Sequence[str] | None) -> bool:
    """Whether a task's name is as one of these patterns of a shell; each is, where there is none."""
    return not patterns or any(fnmatchcase(name, it) for it in patterns)


def no_such_tasks(command: str, patterns: Sequence[str]) -> str:
    """The fault of patterns that choose no task, in this command's name."""
    return f"{command}: no task is called {' or '.join(patterns)}: a name is as gripper/p03, and 'gripper/*' is all of a folder"


def in_order(path: str | Path) -> list[tuple[int, str]]:
    """A key that sorts p2 before p10."""
    return [(int(part), "") if part.isdecimal() else (-1, part) for part in re.split(r"([0-9]+)", str(path))]


def problems_in(given: Path) -> Iterator[Path]:
    """The files below a folder that are problems by their names, or the one file that is given."""
    if given.is_file():
        yield given
        return
    for folder, below, names in os.walk(given):
        below[:] = sorted((it for it in below if not it.startswith(".")), key=in_order)
        for path in (Path(folder, it) for it in sorted(names, key=in_order)):
            if is_problem(path):
                yield path


def name_of(problem: Path, given: Path) -> str:
    """The problem's path below the folder that was given, after that folder's name where there is nothing between them."""
    above = given.parent if given.is_file() else given
    folders = [it for it in problem.parent.relative_to(above).parts if it != "instances"]
    if not folders:
        folders = [above.parent.name if above.name == "instances" else above.name]
    return "/".join([*folders, problem.stem])


def found_in(given: Path, folders: Folders) -> Iterator[Task | LeftOut]:
    """What is found below a folder, or of a single problem."""
    for problem in problems_in(given):
        domain = folders.domain_of(problem)
        if not problem.is_file():
            yield LeftOut(problem, "is no file")
        elif is_domain(problem):
            yield LeftOut(problem, "is a domain by its name")
        elif domain is None:
            yield LeftOut(problem, "has no domain")
        else:
            yield Task(name_of(problem, given), str(domain), str(problem))


def find(paths: list[str]) -> tuple[list[Task], list[LeftOut]]:
    """The tasks of all these folders and problems, each once, and what is left out. Leaves where two share a name."""
    tasks: dict[str, Task] = {}
    left_out, seen, folders = [], set(), Folders()
    for path in paths:
        given = Path(path).absolute()
        if not given.exists():
            sys.exit(f"batch: there is no {path}")
        for it in found_in(given, folders):
            if isinstance(it, LeftOut):
                left_out.append(it)
                continue
            files = os.path.realpath(it.domain), os.path.realpath(it.problem)
            if files in seen:
                continue
            seen.add(files)
            other = tasks.setdefault(it.name, it)
            if other is not it:
                sys.exit(f"batch: two tasks would be called {it.name}, {other.problem} and {it.problem}: "
                         "name a folder that holds both")
    return list(tasks.values()), left_out
