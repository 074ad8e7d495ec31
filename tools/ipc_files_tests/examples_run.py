"""The examples through the tool and the program, and what the tool does with files and plans."""

from __future__ import annotations

import json
import subprocess
import sys
from fractions import Fraction
from pathlib import Path

from checks import Checks
from comparing import difference
from reference import Task, read

HERE = Path(__file__).parent
TOOL = str(HERE.parent / "ipc-files")
KINDS = ("byte-order-mark", "constant", "derived", "length", "metric", "name", "negative-fact", "nested-effect", "number",
         "object-type", "parameters", "requirement", "scale", "shadow", "split", "type-again", "type-undeclared")
# What is told of one file, and may be written in the other one too.
IN_BOTH = ("constant", "name", "scale")
# Tasks with more instances, or more states, are not gone through by the second reader, which validates their plans alone.
MOST_INSTANCES, MOST_STATES = 5000, 2000


def run(words: list[str], folder: Path) -> tuple[int, str, str]:
    """A command's status, standard output and standard error."""
    ran = subprocess.run(words, cwd=folder, stdin=subprocess.DEVNULL, capture_output=True, text=True)
    return ran.returncode, ran.stdout, ran.stderr


def convert(folder: Path, into: Path) -> tuple[int, str, str]:
    """The tool over the files of a folder."""
    return run([sys.executable, TOOL, "domain.pddl", "problem.pddl", "--into", str(into)], folder)


def try_examples(checks: Checks, program: str, room: Path, is_written: bool) -> None:
    """Each example has the changes and the cost that it tells."""
    seen = set()
    for folder in sorted((HERE / "examples").iterdir()):
        into = room / folder.name
        status, out, errors = convert(folder, into)
        if status:
            answer, back = "refused", ""
            checks.check(f"{folder.name}: nothing is written", status == 20 and not into.exists(), f"status {status}, {errors}")
        else:
            seen |= {it["kind"] for it in json.loads((into / "changes.json").read_text())["changes"]}
            answer, back = solved(program, into)
        told = f"{answer}\n{out}{errors}"
        if is_written:
            (folder / "expected.txt").write_text(told)
        checks.check(f"{folder.name}: {answer}, as expected", told == (folder / "expected.txt").read_text(), told)
        if not status:
            try_meaning(checks, folder, into, answer, back)
    missing = set(KINDS) - seen
    checks.check("each change has an example", not missing, missing)


def solved(program: str, into: Path) -> tuple[str, str]:
    """The program's answer for what the tool wrote, with its cost in the original, and its plan there."""
    status, out, errors = run([program, "solve", "domain.pddl", "problem.pddl", "--plan", "plan"], into)
    if status == 10:
        return "unsolvable", ""
    if status:
        return f"status {status}: {errors or out}", ""
    status, back, errors = run([sys.executable, TOOL, "--back", str(into), "plan"], into)
    return (f"cost {back.rpartition('= ')[2].strip()}" if status == 0 else f"status {status}: {errors}"), back


def try_meaning(checks: Checks, folder: Path, into: Path, answer: str, back: str) -> None:
    """The plan that is taken back solves the original, no plan of it costs less, and its runs are those of what is written."""
    before, after = ([(at / f"{it}.pddl").read_bytes() for it in ("domain", "problem")] for at in (folder, into))
    original, written = Task(*before), Task(*after)
    table = json.loads((into / "changes.json").read_text())
    for name, one, other in zip(("domain", "problem"), before, after):
        if not any(it["file"] == f"{name}.pddl" or it["kind"] in IN_BOTH for it in table["changes"]):
            checks.check(f"{folder.name}: the {name} byte for byte", one == other)
    if answer.startswith("cost "):
        cost = original.cost_of([tuple(it) for it in read(f"({back})".encode())])
        checks.check(f"{folder.name}: the plan solves the original", cost == Fraction(answer[5:]), cost)
    if original.count_instances() <= MOST_INSTANCES:
        best = original.cheapest(MOST_STATES)
        wanted = "unsolvable" if best == "unsolvable" else f"cost {best if best is None or best.denominator == 1 else float(best)}"
        checks.check(f"{folder.name}: no plan of the original costs less", answer == wanted, wanted)
        told, pairs = difference(original, written, table, MOST_STATES)
        checks.check(f"{folder.name}: the same runs, of {pairs} pairs of states", told is None, told)


def try_files(checks: Checks, room: Path) -> None:
    """What the tool does with files that are not there, or would be written over."""
    folder = room / "files"
    folder.mkdir()
    for it in ("domain", "problem"):
        (folder / f"{it}.pddl").write_bytes((HERE / "examples/length" / f"{it}.pddl").read_bytes())
    before = (folder / "problem.pddl").read_bytes()
    status, _, errors = convert(folder, folder)
    checks.check("no file that is read is written over", status == 2 and "written over" in errors, errors)
    checks.check("it is as it was", (folder / "problem.pddl").read_bytes() == before and not (folder / "changes.json").exists())
    status, _, errors = run([sys.executable, TOOL, "domain.pddl", "missing.pddl", "--into", "new"], folder)
    checks.check("a problem that is missing", status == 21 and not (folder / "new").exists(), errors)
    status, _, errors = run([sys.executable, TOOL, "problem.pddl", "domain.pddl", "--into", "new"], folder)
    told = "problem.pddl:1:9: expected `(domain NAME)`\n"
    checks.check("a problem in the place of the domain", (status, errors) == (20, told), errors)
    status, _, errors = run([sys.executable, TOOL, "domain.pddl", "--into", "new"], folder)
    checks.check("words that it does not take", status == 2, errors)


def try_back(checks: Checks, room: Path) -> None:
    """Plans that are none, and one without a cost."""
    if not (room / "split" / "plan").exists():
        checks.check("back: there is a plan of the example split", False)
        return
    split = (room / "split" / "plan").read_text().splitlines()
    cases = {
        "an unknown action": ("(nothing a)", "plan:1:1: no action begins with `nothing`"),
        "a step that is open": ("(set z", "plan:1:1: this step is open at the end"),
        "a word outside of a step": ("0: (set z)", "plan:1:1: a plan is a list of steps, as `(move a b)`: tools/plan-of rewrites other forms"),
        "too few objects": ("(set)", "plan:1:1: `set` takes 1 object, not 0"),
        "an answer without a plan": ("unsolvable\n", "plan:1:1: this is the answer `unsolvable`, and no plan"),
        "a limit": ("unknown states, at least 6\n", "plan:1:1: this is the answer `unknown states`, and no plan"),
        "steps that do not go on": ("\n".join([split[0], "(set z)"]), f"plan:2:1: expected `{split[1].split()[0][1:]}`, not `set`"),
        "steps that end too early": (split[0], f"plan:1:1: expected `{split[1].split()[0][1:]}` after this step"),
    }
    for name, (text, told) in cases.items():
        (room / "plan").write_text(text)
        status, out, errors = run([sys.executable, TOOL, "--back", "split", "plan"], room)
        checks.check(f"back: {name}", (status, out, errors) == (20, "", told + "\n"), errors)
    (room / "plan").write_text("; nothing of its cost\n(SET Z)\n")
    status, out, _ = run([sys.executable, TOOL, "--back", "split", "plan"], room)
    checks.check("back: a plan without a cost", (status, out) == (0, "(set z)\n"), out)
    try_back_words(checks, room)


def try_back_words(checks: Checks, room: Path) -> None:
    """What is said where the plan, or what --into has written, is not there."""
    (room / "empty").mkdir()
    (room / "damaged").mkdir()
    (room / "damaged/changes.json").write_text('{"actions":[{"name":"a"}],"factor":1,"objects":{}}')
    missing = "ipc-files: there is no plan none: `solve --plan` writes none where it finds none\n"
    cases = {
        "no plan": (["split"], 2, "error: --back split: expected the plan's file after the folder, or - for the standard input\n"),
        "two plans": (["split", "plan", "plan"], 2, "error: expected DOMAIN PROBLEM --into FOLDER, or --back FOLDER PLAN\n"),
        "a plan that is missing": (["split", "none"], 21, missing),
        "another folder": (["empty", "plan"], 21, "there is no empty/changes.json: expected a folder that --into has written\n"),
        "a damaged folder": (["damaged", "plan"], 20, "ipc-files: damaged/changes.json is not as --into has written it\n"),
    }
    for name, (words, expected, told) in cases.items():
        status, out, errors = run([sys.executable, TOOL, "--back", *words], room)
        checks.check(f"back: {name}", (status, out) == (expected, "") and errors.endswith(told), errors)
    ran = subprocess.run([sys.executable, TOOL, "--back", "split", "-"], cwd=room, input="(set z)", capture_output=True, text=True)
    checks.check("back: the standard input", ran.stdout == "(set z)\n", ran.stderr)


DOMAIN = """(define (domain d) (:predicates (p ?x) (decrease ?x) (preference ?x)) (:functions (total-cost) (fuel))
(:action a :parameters (?x) :precondition {} :effect {}))"""
PROBLEM = "(define (problem q) (:domain d) (:objects o) (:init {}) (:goal {}) (:metric {}))"
# Of each part that is not supported: in which place of the two texts it stands, and how it is told.
UNSUPPORTED = {
    "(decrease (fuel) 1)": ("effect", "numbers that actions change (PDDL 2.1) are not supported"),
    "(decrease (total-cost) 1)": ("effect", "numbers that actions change (PDDL 2.1) are not supported"),
    "(assign (fuel) 1)": ("effect", "numbers that actions change (PDDL 2.1) are not supported"),
    "(increase (fuel) 1)": ("effect", "numbers that actions change (PDDL 2.1) are not supported"),
    "(increase (total-cost) (* 2 (fuel)))": ("effect", "a function of objects: nothing is reckoned here"),
    "(oneof (p ?x) (not (p ?x)))": ("effect", "effects by chance, or by choice, are not supported"),
    "(preference one (p ?x))": ("condition", "preferences (PDDL 3.0) are not supported"),
    "(forall (?y) (preference (p ?y)))": ("condition", "preferences (PDDL 3.0) are not supported"),
    "(<= (fuel) 3)": ("condition", "conditions on numbers (PDDL 2.1) are not supported"),
    "(= (fuel) 3)": ("condition", "conditions on numbers (PDDL 2.1) are not supported"),
    "(at start (p ?x))": ("condition", "durations (PDDL 2.1) are not supported"),
    "(sometime (p o))": ("goal", "constraints on plans (PDDL 3.0) are not supported"),
    "(at 10 (p o))": ("fact", "facts at a time (PDDL 2.2) are not supported"),
    "maximize (total-cost)": ("metric", "only `(total-cost)` can be minimized"),
    "minimize (fuel)": ("metric", "only `(total-cost)` can be minimized"),
    "minimize (+ (total-cost) (is-violated one))": ("metric", "preferences (PDDL 3.0) are not supported"),
}


def try_unsupported(checks: Checks, room: Path) -> None:
    """Parts of PDDL that the language has not are told by what they are; predicates of the same names are none."""
    folder = room / "unsupported"
    folder.mkdir()
    usual = {"condition": "(decrease ?x)", "effect": "(preference ?x)", "fact": "(decrease o)", "goal": "(preference o)",
             "metric": "minimize (total-cost)"}
    cases = [("nothing", "", ""), *((it, *UNSUPPORTED[it]) for it in UNSUPPORTED)]
    for text, place, told in cases:
        its = {**usual, place: text}
        (folder / "domain.pddl").write_text(DOMAIN.format(its["condition"], its["effect"]))
        (folder / "problem.pddl").write_text(PROBLEM.format(its["fact"], its["goal"], its["metric"]))
        status, _, errors = convert(folder, room / "supported")
        checks.check(f"unsupported: {text}", status == (20 if place else 0) and told in errors, errors)
