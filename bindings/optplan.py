"""Cheapest plans from Python, by the program `optplan`: it solves, validates, checks and explains tasks of classical PDDL.

    from optplan import Plan, solve

    answer = solve("domain.pddl", "problem.pddl", seconds=60)
    if isinstance(answer, Plan):
        print(answer.cost, answer.steps)

Each call starts the program once, waits for it and returns a typed answer, or raises an `OptplanError`. `solving` is `solve` with
its progress on the way. No thread is started, no shell is used, and no process outlives its call or its `Run`.

The module is one file and needs the standard library alone, of Python 3.9 or later. The program is the one that the argument
`program` names, or the environment variable OPTPLAN, or `optplan` on the PATH, or that of the archive or the repository where this
module stands, the proved one before the unproved one. A name without a slash is looked for on the PATH.

Files are named by a `str` or an `os.PathLike`, from the working folder, and may begin with a hyphen. An option that is left out is
not given to the program. Costs and bounds are whole numbers in the unit of the task's `:metric`, or of steps where it has none.
"""

from __future__ import annotations

import json
import os
import shutil
import signal
import subprocess
import tempfile
from contextlib import AbstractContextManager, contextmanager
from dataclasses import dataclass, replace
from typing import Any, Callable, Dict, Generic, Iterator, List, Optional, Sequence, Tuple, TypeVar, Union

__all__ = [
    "Accepted", "Answer", "Explanation", "Fault", "FileError", "FileName", "Invalid", "Killed", "NotAccepted", "OptplanError",
    "OutOfMemory", "Place", "Plan", "PlanSource", "ProgramMissing", "Progress", "Run", "Step", "Task", "Unknown", "Unsolvable",
    "UsageError", "Valid", "Validation", "Verdict", "check", "explain", "find_program", "solve", "solving", "validate",
]

# A file by its name.
FileName = Union[str, "os.PathLike[str]"]
Result = TypeVar("Result")

# The program's statuses: those with an answer, and those without.
_ANSWERED, _REFUSED_WORDS, _REFUSED_TEXT, _FAILED_FILE, _NO_MEMORY = (0, 10, 11, 12), 2, 20, 21, 22


class OptplanError(Exception):
    """Any error of this module. It is of this class itself where the program ends as this module does not know, as another program
    may, and where the result of a closed `Run` is asked for."""


class ProgramMissing(OptplanError):
    """There is no program, or it cannot be started. The message says where it was looked for, and what to do."""


class UsageError(OptplanError):
    """The program does not take these words, as a number out of its range, or a certificate that would be written over the domain.
    Nothing was done. The message is the program's."""


class FileError(OptplanError):
    """A file could not be opened, read or written; one that was being written may hold a beginning of its text. `file` is its name
    as it was given, or None where the program does not say it."""

    def __init__(self, message: str, file: Optional[str] = None):
        super().__init__(message)
        self.file = file


class OutOfMemory(OptplanError):
    """The program could not get the memory that it needs. Nothing is claimed of the task. A smaller `states` needs less."""


class Killed(OptplanError):
    """A signal ended the program, and nothing is claimed of the task.

    `signal` is its number. SIGKILL often means that the machine's memory ran out, SIGXCPU a limit of time from outside, and SIGILL
    that a run-time check of the unproved program failed.
    """

    def __init__(self, number: int):
        super().__init__(number)
        self.signal = number

    def __str__(self) -> str:
        return f"optplan was ended by the signal {self.signal}: {signal.strsignal(self.signal)}"


class Fault(OptplanError):
    """A text is refused: the domain, the problem or a plan. The message is `text`.

    `number` and `name` are those of docs/language.md: from 1 to 34, as 17 and UnknownName. `file` is the name as it was given.
    `line` and `column` count from 1, the column in bytes; `length` is in bytes and may be 0. `text` has all lines that `explain`
    prints. `hints` are sentences on what may be meant, and `further` the texts of faults beside this one, up to 20.
    """

    def __init__(self, number: int, name: str, place: Place, text: str, hints: Tuple[str, ...], further: Tuple[str, ...]):
        # All of them are the exception's arguments, so that it can be pickled.
        super().__init__(number, name, place, text, hints, further)
        self.number, self.name, self.text, self.hints, self.further = number, name, text, hints, further
        self.file, self.line, self.column, self.length = place.file, place.line, place.column, place.length

    def __str__(self) -> str:
        return self.text.rstrip("\n")


@dataclass(frozen=True)
class Step:
    """A step of a plan: an action by its name, and its objects in the order of its parameters. `str` is `(row left right)`."""

    name: str
    objects: Tuple[str, ...] = ()

    def __str__(self) -> str:
        return f"({' '.join((self.name, *self.objects))})"


@dataclass(frozen=True)
class Plan:
    """A cheapest plan: `steps` solve the task at `cost`, and no list of steps does for less. `str` is the text of a plan file."""

    cost: int
    steps: Tuple[Step, ...]

    def __str__(self) -> str:
        return "\n".join(map(str, (*self.steps, f"; cost = {self.cost}")))


@dataclass(frozen=True)
class Unsolvable:
    """No list of actions solves the task, of any length."""


@dataclass(frozen=True)
class Unknown:
    """The program reached a limit.

    `limit` is "states", "time", "instances" or "atoms". With the first two every plan costs at least `bound`, which is proved, and
    a certificate shows it; with the others nothing is claimed, and `bound` is None.
    """

    limit: str
    bound: Optional[int]


@dataclass(frozen=True)
class Valid:
    """The plan solves the task, at this cost."""

    cost: int


@dataclass(frozen=True)
class Invalid:
    """The plan does not solve the task. `step` is the number of the first step that is not applicable, from 1; where it is None,
    each step is applicable and the goal is missed."""

    step: Optional[int]


@dataclass(frozen=True)
class Accepted:
    """The certificate shows its claim. `claim` is "optimal": the plan beside it costs `cost`, and no plan costs less; or "at
    least": every plan costs at least `cost`, if there is one; or "unsolvable": there is no plan, and `cost` is None."""

    claim: str
    cost: Optional[int]


@dataclass(frozen=True)
class NotAccepted:
    """The certificate does not show its claim, or not that the plan beside it is optimal. `number`, from 40 on, and `name` are
    those of docs/certificates.md, as 51 and CutWeak. `explain` has the reason. At 55, Limit, a greater `instances` may help."""

    number: int
    name: str


@dataclass(frozen=True)
class Place:
    """A place in a text: `file` as it was given, `line` and `column` from 1, and `length`. Column and length are in bytes."""

    file: str
    line: int
    column: int
    length: int


@dataclass(frozen=True)
class Task:
    """What a task holds: how many of each kind are declared, the total cost among the functions.

    `notes` says what is quietly wrong with it, a line each. `instances` of actions are kept, and `atoms` have numbers; both are
    None where the task exceeds a limit, which `limit` names then: "instances" or "atoms".
    """

    types: int
    objects: int
    predicates: int
    functions: int
    actions: int
    notes: Tuple[str, ...]
    instances: Optional[int]
    atoms: Optional[int]
    limit: Optional[str]


@dataclass(frozen=True)
class Explanation:
    """What `explain` says: `text` has lines for people, each with its newline, and `str` gives them without the last one.

    `verdict` is what they explain: of two files a `Task`, of a plan the result of `validate`, of a certificate that of `check`, or
    a `Fault`, which is not raised. `place` is that of a fault or of a step that is not applicable, and else None.
    """

    verdict: Union[Task, Valid, Invalid, Accepted, NotAccepted, Fault]
    text: str
    place: Optional[Place]

    def __str__(self) -> str:
        return self.text.rstrip("\n")


@dataclass(frozen=True)
class Progress:
    """What is known of a search by now. `kind` is why it is told:

    "ground": `instances` of actions are kept, and `atoms` have numbers. "search": `listed` states are reachable, at most `expanded`
    of them were expanded, and every plan costs at least `bound`, the greatest that was told; a further one with one listed state
    begins another search. "limit": `option` raises the limit that is exceeded, as "--states". "end": there is an answer, and its
    certificate lists `listed` states. "certificate": it was written, and has `size` bytes. "failed": `file` could not be written.
    Numbers are 0, and the other two None, until they are told.
    """

    kind: str
    instances: int = 0
    atoms: int = 0
    bound: int = 0
    listed: int = 0
    expanded: int = 0
    size: int = 0
    option: Optional[str] = None
    file: Optional[str] = None


Answer = Union[Plan, Unsolvable, Unknown]
Validation = Union[Valid, Invalid]
Verdict = Union[Accepted, NotAccepted]
# A plan as a call takes it: a file's name, a plan that was found, or steps.
PlanSource = Union[FileName, Plan, Sequence[Step]]


def solve(domain: FileName, problem: FileName, *, seconds: Optional[int] = None, states: Optional[int] = None,
          instances: Optional[int] = None, cert: Optional[FileName] = None, plan: Optional[FileName] = None,
          cert_version: Optional[int] = None, program: Optional[FileName] = None) -> Answer:
    """Finds a cheapest plan, or that there is none, or at a limit what every plan costs at least.

    `seconds`, from 1 to 1,000,000, limits the time by the clock, which is not limited without it; the program may take some longer.
    `states` that are listed and `instances` that are kept are limited from 1 to 16,777,216, and by 1,000,000 without these words.
    `cert` and `plan` are files to write the certificate and the plan to; where there is nothing to write, they stay as they are.
    `cert_version`, 2, 3 or 4, is the latest version that the certificate may have.

    Raises `Fault`, `FileError`, `UsageError`, `OutOfMemory`, `Killed` or `ProgramMissing`.
    """
    with solving(domain, problem, seconds=seconds, states=states, instances=instances, cert=cert, plan=plan,
                 cert_version=cert_version, program=program) as run:
        return run.result()


def solving(domain: FileName, problem: FileName, *, seconds: Optional[int] = None, states: Optional[int] = None,
            instances: Optional[int] = None, cert: Optional[FileName] = None, plan: Optional[FileName] = None,
            cert_version: Optional[int] = None, program: Optional[FileName] = None) -> Run[Answer]:
    """Starts what `solve` does, and returns at once: a `Run`, which iterates over the progress and has the answer at its end.

    Raises `ProgramMissing`. The other errors of `solve` come from the `Run`.
    """
    words = _words("solve", [domain, problem], seconds=seconds, states=states, instances=instances, cert=cert, plan=plan,
                   cert_version=cert_version, progress=True)
    return Run(find_program(program), words, _words("explain", [domain, problem], instances=instances))


def validate(domain: FileName, problem: FileName, plan: PlanSource, *, program: Optional[FileName] = None) -> Validation:
    """Runs a plan: the name of a plan file, a `Plan`, or a sequence of `Step`.

    Raises `Fault`, also of a plan with an action or an object that the task does not have, and the other errors of `solve`.
    """
    with _plan_file(plan) as path:
        files = [domain, problem, path]
        found: Validation = _call(program, _words("validate", files), _words("explain", files))
    return found


def check(domain: FileName, problem: FileName, cert: FileName, *, plan: Optional[PlanSource] = None,
          instances: Optional[int] = None, program: Optional[FileName] = None) -> Verdict:
    """Says what a certificate shows, whoever wrote it, without a search. With a plan it also says whether that is optimal.

    `instances` is that of `solve`: give it here if `solve` had it. A text that is no certificate is `NotAccepted`.
    Raises `Fault` of the domain, the problem or the plan, and the other errors of `solve`.
    """
    with _plan_file(plan) as path:
        words = _words("check", [domain, problem, cert], plan=path, instances=instances)
        explaining = _words("explain", [domain, problem], cert=cert, plan=path, instances=instances)
        found: Verdict = _call(program, words, explaining)
    return found


def explain(domain: FileName, problem: FileName, plan: Optional[PlanSource] = None, *, cert: Optional[FileName] = None,
            trace: bool = False, instances: Optional[int] = None, program: Optional[FileName] = None) -> Explanation:
    """Says in words what is wrong with a task, a plan or a certificate, or what a task holds.

    `trace` lists below each step what it adds and deletes; it needs a plan, and no certificate. `instances` is that of `solve`.
    Raises the errors of `solve` but `Fault`, which is the explanation's verdict.
    """
    with _plan_file(plan) as path:
        last = [] if path is None or cert is not None else [path]
        words = _words("explain", [domain, problem, *last], cert=cert, plan=None if last else path, trace=trace or None,
                       instances=instances)
        found: Explanation = _call(program, words, None)
    return found


def find_program(program: Optional[FileName] = None) -> str:
    """The path of the program that the calls start, by the rule at the top of this module. Raises `ProgramMissing`."""
    named = program if program is not None else os.environ.get("OPTPLAN")
    root = os.path.dirname(os.path.dirname(os.path.realpath(__file__)))
    built = (f"{root}/bin/optplan", f"{root}/crates/optplan/out/optplan", f"{root}/out/optplan-unproved")
    places = [os.fspath(named)] if named else ["optplan", *built]
    found = next(filter(None, map(shutil.which, places)), None)
    if found is None:
        raise ProgramMissing(f"there is no program {places[0]}. Put one on the PATH, or name it by the argument `program` or the "
                             "environment variable OPTPLAN. In its repository, ./optplan-unproved builds it")
    return found


class Run(Iterator[Progress], AbstractContextManager["Run[Result]"], Generic[Result]):
    """A program that runs: an iterator over its progress as it comes, and a context manager that ends it.

    The iterator ends with the program. If there is no answer, it raises the error then, as `result` does. An early `close`, or the
    end of `with`, kills the program; a certificate that was being written may be a beginning then. It is for one thread at a time.
    """

    def __init__(self, program: str, words: Sequence[str], explaining: Optional[Sequence[str]]):
        """Starts the program with these words; `solving` does it. Others explain what it refuses, or None where these explain."""
        self._explained = None if explaining is None else lambda: _call(program, explaining, None)
        self._latest, self._said = Progress("start"), ""
        self._answer: Optional[Result] = None
        self._failure: Optional[OptplanError] = None
        # The answer goes to a file, so that the program never waits for somebody to take it while progress is read.
        output = tempfile.TemporaryFile()
        try:
            process = subprocess.Popen([program, *words], stdin=subprocess.DEVNULL, stdout=output, stderr=subprocess.PIPE)
        except OSError as why:
            output.close()
            raise ProgramMissing(f"{program} cannot be started: {why.strerror}") from why
        assert process.stderr is not None
        self._process, self._output, self._errors = process, output, process.stderr

    def __next__(self) -> Progress:
        """Waits for what is told next."""
        while not self._errors.closed:
            line = os.fsdecode(self._errors.readline())
            if not line:
                self._finish()
            elif line.startswith("progress="):
                self._latest = _after(self._latest, line.rstrip("\n"))
                return self._latest
            else:
                self._said += line
        raise StopIteration

    def result(self) -> Result:
        """Waits for the end, and returns the answer. Progress that was not read is passed over.

        Raises what `solve` raises, each time anew, and an `OptplanError` after an early `close`.
        """
        for _ in self:
            pass
        if self._failure is not None:
            raise self._failure
        if self._answer is None:
            raise OptplanError("it was closed before there was an answer")
        return self._answer

    def close(self) -> None:
        """Ends the program, if it still runs, and waits for that. What `result` has stays."""
        self._process.kill()
        self._process.wait()
        self._errors.close()
        self._output.close()

    def __exit__(self, *_: object) -> None:
        self.close()

    def __del__(self) -> None:
        # There is no process where it could not be started.
        if hasattr(self, "_errors"):
            self.close()

    def _finish(self) -> None:
        """Takes the answer, or the error, of a program that has said all."""
        try:
            status = self._process.wait()
            if status == _FAILED_FILE and self._latest.file is not None:
                raise FileError(f"{self._latest.file} could not be written", self._latest.file)
            self._output.seek(0)
            self._answer = _answer_of(status, self._output.read(), self._said, self._explained)
        except OptplanError as failure:
            self._failure = failure
            raise
        finally:
            self.close()


@contextmanager
def _plan_file(plan: Optional[PlanSource]) -> Iterator[Optional[FileName]]:
    """The file of a plan, which is written where the plan is none."""
    if plan is None or isinstance(plan, (str, os.PathLike)):
        yield plan
        return
    with tempfile.NamedTemporaryFile("w", encoding="utf-8", prefix="plan.", suffix=".txt") as file:
        print(*(plan.steps if isinstance(plan, Plan) else plan), sep="\n", file=file, flush=True)
        yield file.name


def _words(command: str, files: Sequence[Optional[FileName]], **options: Union[None, bool, int, FileName]) -> List[str]:
    """A command line. Files come after `--`, and values behind `=`, so that both may begin with a hyphen."""
    words = [command, "--json"]
    for name, value in options.items():
        if value is not None:
            option = f"--{name.replace('_', '-')}"
            words.append(option if value is True else f"{option}={value if isinstance(value, int) else os.fspath(value)}")
    return [*words, "--", *(os.fspath(it) for it in files if it is not None)]


def _call(program: Optional[FileName], words: Sequence[str], explaining: Optional[Sequence[str]]) -> Any:
    """What the program answers to these words; the others are as `Run` takes them."""
    with Run[Any](find_program(program), words, explaining) as run:
        return run.result()


def _answer_of(status: int, out: bytes, said: str, explained: Optional[Callable[[], Any]]) -> Any:
    """The answer of a process that has ended, or the error where there is none."""
    if status in _ANSWERED or status == _REFUSED_TEXT and explained is None:
        try:
            return _read(json.loads(out))
        except (ValueError, KeyError, TypeError) as why:
            raise OptplanError(f"the program's answer is none that this module knows: {out[:200]!r}") from why
    if status == _REFUSED_WORDS:
        raise UsageError(said.strip())
    if status == _NO_MEMORY:
        raise OutOfMemory("optplan is out of memory")
    if status < 0:
        raise Killed(-status)
    if status in (_REFUSED_TEXT, _FAILED_FILE) and explained is not None:
        # Where a file cannot be read, this raises the error, with the file and the reason.
        verdict = explained().verdict
        if isinstance(verdict, Fault):
            raise verdict
    if status == _FAILED_FILE:
        # The second line is the file and the reason, if the program found one.
        reason = said.partition("\n")[2].strip()
        raise FileError(reason or said.strip(), reason.rpartition(": ")[0] or None)
    raise OptplanError(f"optplan ended with status {status}: {said.strip()}")


def _read(told: Dict[str, Any]) -> Any:
    """An answer of a line of JSON."""
    place = Place(*(told[it] for it in ("file", "line", "column", "length"))) if "line" in told else None
    result, is_solved = "task" if "types" in told else told["result"], told["command"] == "solve"
    verdict = _READERS["no plan" if result == "unsolvable" and is_solved else result](told, place)
    return Explanation(verdict, told["text"], place) if told["command"] == "explain" else verdict


# What each `result` of the program is here.
_READERS: Dict[str, Callable[[Dict[str, Any], Any], Any]] = {
    "plan": lambda it, _: Plan(it["cost"], tuple(
        Step(name, tuple(objects)) for name, *objects in (text[1:-1].split() for text in it["steps"]))),
    "no plan": lambda it, _: Unsolvable(),
    "unknown": lambda it, _: Unknown(it["reason"], it.get("bound")),
    "valid": lambda it, _: Valid(it["cost"]),
    "not applicable": lambda it, _: Invalid(it["step"]),
    "goal missed": lambda it, _: Invalid(None),
    "optimal": lambda it, _: Accepted("optimal", it["cost"]),
    "at least": lambda it, _: Accepted("at least", it["cost"]),
    "unsolvable": lambda it, _: Accepted("unsolvable", None),
    "not accepted": lambda it, _: NotAccepted(it["code"], it["name"]),
    "fault": lambda it, place: Fault(it["code"], it["name"], place, it["text"], tuple(it["hints"]), tuple(it["further"])),
    "task": lambda it, _: Task(it["types"], it["objects"], it["predicates"], it["functions"], it["actions"], tuple(it["notes"]),
                               it.get("instances"), it.get("atoms"), it.get("reason")),
}


def _after(latest: Progress, line: str) -> Progress:
    """What is known after one more line of progress. Keys of later programs are passed over."""
    kind, _, rest = line.partition("=")[2].partition(" ")
    # The name of a file may have blanks, and is all that its line has.
    pairs = (it.partition("=")[::2] for it in ([rest] if kind == "failed" else rest.split(" ")))
    told = {{"bytes": "size", "raise": "option"}.get(key, key): value for key, value in pairs}
    texts = {key: told[key] for key in ("option", "file") if key in told}
    numbers = {key: int(told[key]) for key in ("instances", "atoms", "bound", "listed", "expanded", "size") if key in told}
    return replace(latest, **{"kind": kind, **texts, **numbers, "bound": max(latest.bound, numbers.get("bound", 0))})
