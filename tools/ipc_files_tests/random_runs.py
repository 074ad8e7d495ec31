"""Random tasks before and after: the same instances, costs and goals in each pair of states, and the program's answer is the second
reader's. And damaged files: each is refused by the tool, or taken by the program."""

from __future__ import annotations

import json
import subprocess
from collections import Counter
from fractions import Fraction
from pathlib import Path
from random import Random

from checks import Checks
from comparing import difference
from ipc_files import splitting
from ipc_files.back import plan_back, table_of
from ipc_files.checking import MOST_VARIABLES
from ipc_files.task import mend, read_task
from ipc_files.told import Refusal
from ipc_files.trees import Text
from ipc_files.writing import written
from random_tasks import Maker
from reference import Task, read

# How many pairs of states, and states of a search, are looked at.
MOST_PAIRS, MOST_STATES = 60, 200

# So many of a hundred tasks have each change at least.
LEAST = 5


def try_random(checks: Checks, program: str, room: Path, seed: int, count: int) -> None:
    """Compares so many random tasks, from a seed on, and damages as many."""
    runs = Runs(program, room)
    first = seed
    while runs.compared < count and not runs.faults:
        runs.try_one(seed)
        runs.try_damaged(seed)
        seed += 1
    checks.check(f"random tasks from {first} to {seed - 1}: {runs.compared} compared, {runs.pairs} pairs of states; "
                 + ", ".join(f"{it}: {number}" for it, number in sorted(runs.ends.items())), not runs.faults, runs.faults)
    for kind, number in sorted(runs.kinds.items()):
        checks.check(f"random tasks: {number} have a change of the kind {kind}", number * 100 >= LEAST * runs.compared)


class Runs:
    """What came of random tasks so far."""

    def __init__(self, program: str, folder: Path):
        self.program, self.folder = program, folder
        self.kinds, self.ends = Counter(), Counter()
        self.compared, self.pairs, self.faults = 0, 0, []

    def convert(self, domain: bytes, problem: bytes, most_variables: int = MOST_VARIABLES) -> tuple[bytes, bytes, dict]:
        """What the tool writes, and its table."""
        task = read_task(Text("domain.pddl", domain), Text("problem.pddl", problem))
        mend(task, most_variables)
        table = json.loads(json.dumps(table_of(task)))
        return written(task, task.domain), written(task, task.problem), table

    def solve(self, domain: bytes, problem: bytes) -> tuple[int, str]:
        """The program's status and what it says."""
        files = [self.folder / "domain.pddl", self.folder / "problem.pddl"]
        for path, text in zip(files, (domain, problem)):
            path.write_bytes(text)
        ran = subprocess.run([self.program, "solve", *map(str, files), "--states", "20000"], capture_output=True, text=True)
        return ran.returncode, ran.stdout or ran.stderr

    def try_one(self, seed: int) -> None:
        """Compares a random task with what the tool makes of it."""
        maker = Maker(seed)
        domain, problem = maker.make()
        splitting.FEW = 1 + seed % 3
        try:
            new_domain, new_problem, table = self.convert(domain, problem, 2 if "split" in maker.traits else MOST_VARIABLES)
        except Refusal as why:
            self.faults.append(f"seed {seed}: refused: {why}")
            return
        self.kinds.update({it["kind"] for it in table["changes"]})
        original, new = Task(domain, problem), Task(new_domain, new_problem)
        told, pairs = difference(original, new, table, MOST_PAIRS)
        self.compared, self.pairs = self.compared + 1, self.pairs + pairs
        status, said = self.solve(new_domain, new_problem)
        told = told or self.fault_of(original, table, status, said)
        if told:
            self.faults.append(f"seed {seed}: {told}")
        *again, table = self.convert(new_domain, new_problem)
        if table["changes"] or again != [new_domain, new_problem]:
            self.faults.append(f"seed {seed}: what is written is changed once more: {table['changes']}")

    def fault_of(self, original: Task, table: dict, status: int, said: str) -> str | None:
        """What is wrong with the program's answer for the written files."""
        best = original.cheapest(MOST_STATES)
        if status == 0:
            back = plan_back(Text("plan", said.encode()), table)
            told = Fraction(back.rpartition("= ")[2])
            plan = [tuple(it) for it in read(f"({back})".encode())]
            self.ends["a plan"] += 1
            if original.cost_of(plan) != told:
                return f"the plan that is taken back costs {original.cost_of(plan)}, and {told} is told"
            return None if best in (None, told) else f"a cheapest plan costs {best}, and {told} is told"
        if status == 10:
            self.ends["no plan"] += 1
            return None if best in (None, "unsolvable") else f"there is a plan of {best}, and none is told"
        self.ends["no answer"] += 1
        return None if status == 11 else f"the program ends with {status}: {said}"

    def try_damaged(self, seed: int) -> None:
        """Changes a word or two of a random task; what the tool then writes, the program takes."""
        maker, random = Maker(seed), Random(seed)
        files = [*maker.make()]
        for _ in range(random.choice((1, 1, 2))):
            at = random.randrange(2)
            files[at] = damaged(files[at], random)
        try:
            new_domain, new_problem, _ = self.convert(*files)
        except Refusal:
            self.ends["damaged, refused"] += 1
            return
        status, said = self.solve(new_domain, new_problem)
        self.ends["damaged, taken"] += 1
        if status not in (0, 10, 11):
            self.faults.append(f"damaged seed {seed}: the program ends with {status}: {said}")


def damaged(text: bytes, random: Random) -> bytes:
    """A text with one word left out, twice there, or in the place of another."""
    words = text.replace(b"(", b" ( ").replace(b")", b" ) ").split()
    one, other = random.randrange(len(words)), random.randrange(len(words))
    kind = random.choice(("without", "twice", "moved", "other"))
    if kind == "without":
        del words[one]
    elif kind == "twice":
        words.insert(one, words[one])
    elif kind == "moved":
        words.insert(other, words.pop(one))
    else:
        words[one] = words[other]
    return b" ".join(words) + b"\n"
