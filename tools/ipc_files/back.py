"""What takes a plan for the files that were written back to the names of those that were handed in."""

from __future__ import annotations

import re
from decimal import Decimal, localcontext

from ipc_files.checking import told as counted
from ipc_files.files import Task, parameters_of
from ipc_files.reading import TOKEN
from ipc_files.told import Refusal
from ipc_files.trees import Span, Text, entries_of

COST = re.compile(rb"; *cost *= *([0-9]+) *\r?")
# What `solve` says where it has no plan.
NO_PLAN = re.compile(rb"\s*(unsolvable|unknown [a-z]+)\b")


def table_of(task: Task) -> dict:
    """What `changes.json` holds."""
    changes = [{"kind": it.kind, "file": it.at.text.name, "line": it.at.text.place(it.at.start)[0],
                "column": it.at.text.place(it.at.start)[1], "text": it.text} for it in in_order(task)]
    return {"domain": task.domain.text.name, "problem": task.problem.text.name, "changes": changes, "factor": task.factor,
            "actions": actions_of(task), "objects": objects_of(task)}


def check_table(table: dict) -> None:
    """Raises what a table does that is not as `table_of` makes one."""
    is_well = isinstance(table["factor"], int) and table["factor"] > 0
    is_well &= all(isinstance(it, str) for pair in table["objects"].items() for it in pair)
    for action in table["actions"]:
        is_well &= isinstance(action["name"], str) and bool(action["steps"])
        is_well &= all(isinstance(it["name"], str) for it in action["steps"])
        takes = [at for it in action["steps"] for at in it["takes"]]
        is_well &= all(isinstance(at, int) and 0 <= at < action["parameters"] for at in takes)
        is_well &= {*takes} == {*range(action["parameters"])}
    if not is_well:
        raise ValueError


def in_order(task: Task) -> list:
    """The changes as they stand in the files, those of the domain first."""
    return sorted(task.changes, key=lambda it: (it.at.text is not task.domain.text, it.at.start))


def actions_of(task: Task) -> list[dict]:
    """Each action as it is called in the file that was handed in, with the actions that are written for it."""
    found = []
    for it in task.domain.tree.parts[2:]:
        if it.head == ":action":
            name = task.renamed.get("action", {}).get(it.parts[1].low, it.parts[1].low)
            own = [str(index) for index, _ in enumerate(parameters_of(it))]
            parameters, steps = task.steps.get(name, (own, [(name, own)]))
            steps = [{"name": step, "takes": [parameters.index(one) for one in takes]} for step, takes in steps]
            found.append({"name": it.parts[1].text, "parameters": len(parameters), "steps": steps})
    return found


def objects_of(task: Task) -> dict[str, str]:
    """The objects that plans call otherwise than the files that were handed in do, upper case included."""
    found: dict[str, str] = {}
    for it in [*task.domain.tree.parts[2:], *task.problem.tree.parts[2:]]:
        if it.head in (":constants", ":objects"):
            for name in (entry.name for entry in entries_of(it.parts[1:])):
                written = task.renamed.get("object", {}).get(name.low, name.low)
                found.setdefault(written, name.text)
    return {written: name for written, name in found.items() if written != name}


def plan_back(plan: Text, table: dict) -> str:
    """The plan in the names of the files that were handed in, with its cost where it is told."""
    steps, out = steps_of(plan), []
    by_first = {it["steps"][0]["name"]: it for it in table["actions"]}
    at = 0
    while at < len(steps):
        action = by_first.get(steps[at][1][0])
        if action is None:
            raise Refusal(steps[at][0], f"no action begins with `{steps[at][1][0]}`")
        chosen = chosen_by(steps[at:at + len(action["steps"])], action)
        out.append(f"({' '.join([action['name'], *(table['objects'].get(it, it) for it in chosen)])})\n")
        at += len(action["steps"])
    told = COST.findall(plan.data)
    return "".join(out) + (f"; cost = {cost_back(int(told[-1]), table['factor'])}\n" if told else "")


def chosen_by(steps: list[tuple[Span, list[str]]], action: dict) -> list[str]:
    """The objects that some steps of a plan choose for the parameters of the action that they are together."""
    chosen: list[str | None] = [None] * action["parameters"]
    for index, wanted in enumerate(action["steps"]):
        if index == len(steps):
            raise Refusal(steps[-1][0], f"expected `{wanted['name']}` after this step")
        at, (name, *objects) = steps[index]
        if name != wanted["name"]:
            raise Refusal(at, f"expected `{wanted['name']}`, not `{name}`")
        if len(objects) != len(wanted["takes"]):
            raise Refusal(at, f"`{name}` takes {counted(len(wanted['takes']))}, not {len(objects)}")
        for parameter, it in zip(wanted["takes"], objects):
            if chosen[parameter] not in (None, it):
                raise Refusal(at, f"the steps of `{action['name']}` choose both `{chosen[parameter]}` and `{it}`")
            chosen[parameter] = it
    return chosen


def steps_of(plan: Text) -> list[tuple[Span, list[str]]]:
    """The steps of a plan text, in lower case, each with its place."""
    found, open_step, at = [], None, 0
    answer = NO_PLAN.match(plan.data)
    if answer:
        raise Refusal(Span(plan, answer.start(1), answer.end(1)), f"this is the answer `{answer[1].decode()}`, and no plan")
    while at < len(plan.data):
        token = TOKEN.match(plan.data, at)
        span = Span(plan, at, token.end() if token else at + 1)
        word = token and (token[1] or token[2])
        if not token or word and (word == b"(") is (open_step is not None) or word == b")" and not open_step[1]:
            raise Refusal(span, "a plan is a list of steps, as `(move a b)`: tools/plan-of rewrites other forms")
        if word == b"(":
            open_step = (span, [])
        elif word == b")":
            found.append(open_step)
            open_step = None
        elif word:
            open_step[1].append(word.decode("ascii").lower())
        at = token.end()
    if open_step:
        raise Refusal(open_step[0], "this step is open at the end")
    return found


def cost_back(cost: int, factor: int) -> str:
    """A cost divided by what costs were multiplied by, in decimals."""
    with localcontext() as context:
        context.prec = 400
        return f"{(Decimal(cost) / factor).normalize():f}"
