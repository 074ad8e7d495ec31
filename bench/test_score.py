#!/usr/bin/env python3
"""Tries bench/score, and what a report has of its lines, over a program that judges plans by their words: python3 bench/test_score.py.

It needs neither the program itself nor a run, nothing but python3, and takes some seconds."""

import io
import json
import os
import re
import signal
import subprocess
import sys
import time
import unittest
from contextlib import redirect_stderr, redirect_stdout
from dataclasses import asdict, replace
from xml.etree import ElementTree

sys.dont_write_bytecode = True
sys.path.insert(0, os.path.dirname(os.path.abspath(__file__)))
from batching import ROOT  # noqa: E402
from batching.layouts import Task  # noqa: E402
from batching.lines import Check, Line, Result  # noqa: E402
from batching.plan_files import plans_in  # noqa: E402
from batching.runs import Settings, texts_sum  # noqa: E402
from batching.scores import Score, Verdict, score_of, summary  # noqa: E402
from batching.scoring import main  # noqa: E402
from test_batch_report import RunsRead  # noqa: E402

# A plan costs what its numbers sum up to. A step `bad` is not applicable, `miss` misses the goal, and `none` is no action. A
# certificate is accepted unless its claim is `wrong`.
PROGRAM = """#!{python} -IS
import os, sys, time
command, domain, problem, file, *words = sys.argv[1:]
open("{room}/starts", "a").write(" ".join([command, *words]) + "\\n")
def judged(path):
    steps = [it.strip("()\\n").split() for it in open(path) if it.startswith("(")]
    for number, it in enumerate(steps, 1):
        if it[0] == "sleep": time.sleep(60)
        if it[0] == "spin":
            while True: pass
        if it[0] == "none": return number, "none"
        if it[0] in ("bad", "miss"): return number, it[0]
    return sum(int(it[1]) for it in steps), "valid"
def say(text, status):
    print(text)
    sys.exit(status)
if "refused" in open(problem).read():
    if command == "explain": say(problem + ":1:1: fault 7 Unexpected (columns count bytes)\\nno.", 20)
    print("fault 7 Unexpected in problem at 0..5", file=sys.stderr)
    sys.exit(20)
if command == "explain":
    place = "%s:%d:1: fault 32 UnknownAction (columns count bytes)" % (file, judged(file)[0])
    say(place + "\\n   1 | (none)\\n     | ^\\nno action is called `none`.", 20)
if command == "validate":
    number, what = judged(file)
    if what == "none":
        print("fault 32 UnknownAction in plan at 1..5", file=sys.stderr)
        sys.exit(20)
    if what == "bad": say('{{"command":"validate","result":"not applicable","step":%d}}' % number, 12)
    if what == "miss": say('{{"command":"validate","result":"goal missed"}}', 12)
    say('{{"command":"validate","cost":%d,"result":"valid"}}' % number, 0)
claim = open(file).read().split("claim ")[1].split()[0]
if claim == "wrong": say('{{"code":51,"command":"check","name":"CutWeak","result":"not accepted"}}', 12)
if claim == "none": say('{{"command":"check","result":"unsolvable"}}', 0)
if "--plan" not in words: say('{{"command":"check","cost":%s,"result":"at least"}}' % claim, 0)
cost, what = judged(words[words.index("--plan") + 1])
if what == "valid" and cost <= int(claim): say('{{"command":"check","cost":%s,"result":"optimal"}}' % claim, 0)
say('{{"code":54,"command":"check","name":"PlanDearer","result":"not accepted"}}', 12)
"""


class ScoreRoom(RunsRead):
    """A run of some tasks with certificates, and folders of plans."""

    def setUp(self):
        super().setUp()
        self.put_program("program", PROGRAM)
        self.lines = []

    def task(self, name, claim=None, own=None, text="", result=Result.STATES, **keys):
        """A task of the run with a certificate of this claim, and with the run's own plan."""
        self.put(f"tasks/{name}-domain.pddl", "d")
        self.put(f"tasks/{name}.pddl", text)
        if claim is not None:
            self.put(f"run/answers/{name}/cert.txt", f"pddl-cert 2\nclaim {claim}\nend 1\n")
        if own is not None:
            self.put(f"run/answers/{name}/plan.txt", own)
            result = Result.PLAN
        folder = self.room / "tasks"
        task = Task(name, str(folder / f"{name}-domain.pddl"), str(folder / f"{name}.pddl"))
        self.lines.append((task, Line(name, result, texts=texts_sum(task), **keys)))

    def write_run(self, **settings):
        self.put_run("run")
        found = Settings.read(str(self.room / "run"))
        # The program's sum, by which lines are known.
        self.put("run/run.json", json.dumps(asdict(replace(found, seconds=5, megabytes=2000, **settings))))
        self.put("run/tasks.jsonl", "".join(json.dumps(asdict(task)) + "\n" for task, _ in self.lines))
        self.put("run/results.jsonl", "".join(replace(line, program=found.program.sum).text() for _, line in self.lines))

    def score(self, *words, plans=("theirs",)):
        """What the command says, with its status, and the lines that it writes."""
        into = self.room / "scores.jsonl"
        given = [str(self.room / "run"), *(str(self.room / it) for it in plans), "--into", str(into), "--lanes", "1", "--seconds", "1"]
        out, errors = io.StringIO(), io.StringIO()
        with redirect_stdout(out), redirect_stderr(errors), self.assertRaises(SystemExit) as ended:
            main("", [*given, *words])
        status = ended.exception.code
        if isinstance(status, str):
            errors.write(f"{status}\n")
        ran = subprocess.CompletedProcess(given, 1 if isinstance(status, str) else status, out.getvalue(), errors.getvalue())
        return ran, [score_of(it) for it in into.read_text().splitlines()] if into.exists() else []


class Verdicts(ScoreRoom):
    def test_each_plan_has_its_verdict(self):
        self.task("a/p1", "5", own="(go 5)\n")
        self.task("a/p2", "5")
        self.task("a/p3")
        self.task("a/p4", "none", result=Result.UNSOLVABLE)
        for name, text in {
            "a/p1.plan.1": "(GO 5)\n", "a/p1.plan.2": "0: (go 3) [1]\n1: (go 4) [1]\n", "a/p1.plan.3": "(go 1)\n(bad)\n",
            "a/p1.plan.4": "(miss)\n", "a/p1.plan.5": "; first\n\n(go 1)\n(none)\n", "a/p1.plan.6": "Nothing found.\n",
            "a/p1.plan.7": "(go 4)\n", "a/p2.plan": "go(7)\n", "a/p3/sas_plan": "(go 7)\n", "a/p4/sas_plan": "(go 1)\n(bad)\n",
        }.items():
            self.put(f"theirs/{name}", text)
        self.write_run()
        ran, scores = self.score("--each")
        self.assertEqual([(it.task, it.told, it.cost) for it in scores], [
            ("a/p1", "optimal", 5), ("a/p1", "dearer by 2", 7), ("a/p1", "invalid at step 2", None),
            ("a/p1", "invalid: the goal is missed", None), ("a/p1", "refused: line 4: no action is called `none`.", None),
            ("a/p1", "refused: line 1: expected a step, such as `(drive t1 a)`, not `Nothing found.`", None),
            ("a/p1", "contradiction: costs 4, less than the proved bound 5", 4),
            ("a/p2", "at most 2 above a proved bound", 7), ("a/p3", "unknown: there is no certificate", 7),
            ("a/p4", "invalid at step 2", None)], ran.stderr)
        self.assertEqual(ran.returncode, 1)
        self.assertRegex(ran.stderr, r"score: a/p1 of theirs \(.*p1.plan.7\): contradiction")
        first = scores[0]
        self.assertEqual((first.planner, first.steps, first.bound, first.bound_is_reached), ("theirs", 1, 5, True))
        self.assertEqual((scores[7].by, scores[7].bound, scores[7].bound_is_reached), (2, 5, False))
        self.assertRegex(ran.stdout, r"theirs +a/p1 +dearer by 2 +7 +5 ")
        self.assertRegex(ran.stdout, r"theirs +a +4 +3 ")

    def test_a_plan_of_the_bounds_cost_is_a_cheapest_one(self):
        self.task("a/p1", "5")
        self.put("one/a/p1.plan", "(go 5)")
        self.put("other/a/p1.plan", "(go 6)")
        self.write_run()
        ran, scores = self.score(plans=("one", "other"))
        self.assertEqual([(it.planner, it.told, it.bound_is_reached) for it in scores],
                         [("one", "optimal", True), ("other", "dearer by 1", True)])
        self.assertEqual(ran.returncode, 0)

    def test_a_damaged_plan_of_the_run_leaves_the_bound(self):
        self.task("a/p1", "5", own="(bad)\n")
        self.put("theirs/a/p1.plan", "(go 6)")
        self.write_run()
        self.assertEqual([it.told for it in self.score()[1]], ["at most 1 above a proved bound"])

    def test_an_empty_plan_is_one(self):
        self.task("a/p1", "0")
        self.put("theirs/a/p1.plan", "; cost = 0 (unit cost)\n")
        self.write_run()
        self.assertEqual([(it.told, it.steps, it.quality) for it in self.score()[1]], [("optimal", 0, 1.0)])

    def test_a_task_without_a_plan_is_told(self):
        self.task("a/p1", "5")
        self.task("a/p2", "none", result=Result.UNSOLVABLE)
        self.task("b/p1", "5")
        self.put("theirs/b/p1.plan", "(go 5)")
        self.write_run()
        self.assertEqual([(it.task, it.told) for it in self.score()[1]],
                         [("a/p1", "no plan"), ("a/p2", "unsolvable"), ("b/p1", "optimal")])
        self.assertEqual([it.task for it in self.score("--task", "b/*")[1]], ["b/p1"])

    def test_a_planner_has_not_failed_where_no_plan_can_be(self):
        check = Check(True, "unsolvable", 0.1, 5)
        self.task("a/p1", "none", result=Result.UNSOLVABLE)
        self.task("a/p2", result=Result.UNSOLVABLE, check=check)
        self.task("a/p3", text="refused", result=Result.REFUSED, fault="fault 7")
        self.task("a/p4", result=Result.UNSOLVABLE)
        self.task("a/p5", "5")
        self.put("theirs/a/p5.plan", "(go 5)")
        self.write_run()
        ran, scores = self.score()
        self.assertEqual([it.told for it in scores], [
            "unsolvable", "unsolvable: by the run's line: its certificate was accepted, and is not kept", "task refused: fault 7",
            "no plan: there is no certificate; the run's answer is that no plan is there", "optimal"])
        self.assertRegex(ran.stdout, r"theirs +a +5 +1 +1 +0 +0 +0 +2 +1 +1 ")
        self.assertEqual((ran.returncode, ran.stderr), (0, ""))
        self.put("theirs/a/p1.plan", "unsolvable\n")
        self.assertEqual(self.score()[1][0].told, "unsolvable: line 1: this is an answer without a plan")
        self.put("theirs/a/p1.plan", "(go 5")
        self.assertEqual(self.score()[1][0].told, "refused: line 1: this `(` is closed nowhere")

    def test_no_task_is_unsolvable_by_a_certificate_that_is_not_accepted(self):
        self.task("a/p1", "wrong", result=Result.UNSOLVABLE)
        self.task("a/p2", "5")
        self.put("theirs/a/p2.plan", "(go 5)")
        self.write_run()
        ran, scores = self.score()
        self.assertEqual(scores[0].verdict, Verdict.MISSING)
        self.assertIn("a/p1 of theirs: no plan: the certificate is not accepted: not accepted 51 CutWeak", ran.stderr)
        self.assertEqual(ran.returncode, 1)

    def test_the_cost_that_a_file_states_is_compared(self):
        texts = {"(go 5)\n; cost = 5 (unit cost)\n": 5, "; Cost: 5.00\n(go 5)\n": 5, ";; total cost 6.5\n(go 5)\n": 6.5,
                 "(go 5) ; cost = 7\n": None, "; cost = 4\n(go 5)\n; cost = 7.\n": 7, "(bad)\n; cost = 3\n": 3,
                 "(go 5)\n; costly = 3\n; cost: 3s\n": None}
        self.task("a/p1", "5")
        for number, text in enumerate(texts, 1):
            self.put(f"theirs/a/p1.plan.{number}", text)
        self.write_run()
        ran, scores = self.score()
        self.assertEqual([it.stated_cost for it in scores], [*texts.values()])
        self.assertEqual([it.is_misstated for it in scores], [False, False, True, False, True, False, False])
        self.assertRegex(ran.stderr, r"a/p1 of theirs \(.*p1.plan.3\): costs 5, and its file states 6.5\n")
        self.assertEqual(ran.returncode, 0)

    def test_a_plan_where_none_is_proved_to_be_contradicts(self):
        self.task("a/p1", "none", result=Result.UNSOLVABLE)
        self.put("theirs/a/p1.plan", "(go 5)")
        self.write_run()
        self.assertEqual([it.told for it in self.score()[1]], ["contradiction: costs 5, where no plan is proved to be"])

    def test_a_certificate_that_is_not_accepted_shows_nothing(self):
        self.task("a/p1", "wrong", own="(go 5)\n")
        self.put("theirs/a/p1.plan", "(go 5)")
        self.write_run()
        ran, scores = self.score()
        self.assertEqual([it.told for it in scores], ["unknown: the certificate is not accepted: not accepted 51 CutWeak"])
        self.assertEqual(ran.returncode, 1)

    def test_a_certificate_that_is_not_kept_counts_by_its_line(self):
        check = Check(True, "optimal 5", 0.1, 5)
        self.task("a/p1", result=Result.PLAN, cost=5, check=check)
        self.task("a/p2", bound=5, check=check)
        self.task("a/p3", result=Result.PLAN, cost=5)
        for name in ("p1", "p2", "p3"):
            self.put(f"theirs/a/{name}.plan.1", "(go 5)")
            self.put(f"theirs/a/{name}.plan.2", "(go 6)")
        self.write_run()
        self.assertEqual([it.verdict.value for it in self.score()[1]], ["optimal", "dearer", "optimal", "dearer", "unknown", "unknown"])
        self.put("tasks/a/p1.pddl", "changed")
        self.assertEqual([it.verdict.value for it in self.score()[1]][:2], ["unknown", "unknown"])

    def test_what_fails_is_told(self):
        self.task("a/p1", "5", text="refused")
        self.task("a/p2", "5")
        self.put("theirs/a/p1.plan", "(go 5)")
        self.put("theirs/a/p2.plan", "(spin 5)")
        self.write_run()
        ran, scores = self.score()
        problem = self.room / "tasks/a/p1.pddl"
        self.assertEqual([it.told for it in scores], [f"task refused: {problem}:1:1: no.", "failed: out of time"])
        self.assertEqual(ran.returncode, 1)

    def test_tables_count_the_cheapest_valid_plan(self):
        score = lambda task, verdict, cost=None, bound=4: Score("x", task, "p", verdict, cost=cost, bound=bound)
        scores = [score("a/p1", Verdict.DEARER, 8), score("a/p1", Verdict.OPTIMAL, 4), score("a/p1", Verdict.INVALID),
                  score("a/p2", Verdict.WITHIN, 8), score("a/p3", Verdict.REFUSED), score("a/p4", Verdict.UNKNOWN, 9, None)]
        self.assertEqual(summary(scores), ["4", "3", "1", "0", "1", "1", "0", "0", "1", "1.50", "6"])


class CompetitionFiles(ScoreRoom):
    """Plans in the names of files that were rewritten before they were solved."""

    CHANGES = {"domain": "d", "problem": "p", "changes": [], "factor": 2, "objects": {"1": "one"}, "actions": [
        {"name": "Go#a", "parameters": 1, "steps": [{"name": "go", "takes": [0]}]},
        {"name": "two", "parameters": 2, "steps": [{"name": "go", "takes": [0]}, {"name": "go", "takes": [1]}]},
        {"name": "worse", "parameters": 0, "steps": [{"name": "bad", "takes": []}]}]}

    def setUp(self):
        super().setUp()
        self.task("a/p1", "3", own="(go 3)\n")
        for name, text in (("changes.json", json.dumps(self.CHANGES)), ("domain.pddl", ""), ("problem.pddl", "")):
            self.put(f"run/answers/a/p1/{name}", text)

    def test_plans_are_judged_in_the_names_of_what_was_solved(self):
        texts = ["(GO#A 2)\n(go#a ONE)\n", "(two one 3)\n(worse)\n", "(two one 4)\n", "(other)\n", "(two one)\n"]
        for number, text in enumerate(texts, 1):
            self.put(f"theirs/a/p1.plan.{number}", text)
        self.write_run(converter="sum")
        self.assertEqual([(it.told, it.cost, it.bound) for it in self.score()[1]], [
            ("optimal", 1.5, 1.5), ("invalid at step 2", None, 1.5), ("dearer by 1", 2.5, 1.5),
            ("refused: line 1: no action is called `other`", None, 1.5), ("refused: line 1: `two` takes 2 objects, not 1", None, 1.5)])


    def test_a_damaged_table_is_told(self):
        self.put("theirs/a/p1.plan", "(two one 4)")
        self.write_run(converter="sum")
        self.put("run/answers/a/p1/changes.json", "{")
        self.assertIn("run/answers/a/p1/changes.json is damaged", self.score()[0].stderr)


class PlanFiles(ScoreRoom):
    def found(self, tasks, *files, folder="theirs"):
        for it in files:
            self.put(f"{folder}/{it}")
        plans, left_out = plans_in(self.room / folder, tasks)
        below = lambda path: str(path.relative_to(self.room / folder))
        return {task: [below(it) for it in its] for task, its in plans.items()}, [below(it) for it in left_out]

    def test_each_layout_is_found(self):
        layouts = {
            "a/p1": ["a/p1", "a/p1.2", "a/p1.10", "a/p1.pddl.soln", "a/P1.PLAN", "a/p1.txt", "a/p1-plan.txt", "a/p1_sas_plan"],
            "a/p2": ["a/p2/plan.txt", "a/p2/sas_plan.1", "a/p2/solution", "a/instances/p2.plan"],
            "a/p2-hard": ["a/p2-hard.plan"],
            "a/p10": ["a/p10.plan"],
            "b/c/p1": ["b/c/p1/x/best.plan"],
        }
        plans, left_out = self.found([*layouts], *(it for its in layouts.values() for it in its if it != "a/p1"))
        self.assertEqual({task: sorted(its) for task, its in plans.items()},
                         {task: sorted(it for it in its if it != "a/p1") for task, its in layouts.items()})
        self.assertEqual(left_out, [])
        self.assertEqual(plans["a/p1"][:2], ["a/P1.PLAN", "a/p1-plan.txt"])

    def test_numbers_stand_in_their_order(self):
        self.assertEqual(self.found(["a/p1"], "a/p1.plan.10", "a/p1.plan.2")[0], {"a/p1": ["a/p1.plan.2", "a/p1.plan.10"]})

    def test_a_folder_of_a_domain_is_enough(self):
        self.assertEqual(self.found(["a/p1", "b/p1"], "p1.plan", folder="a")[0], {"a/p1": ["p1.plan"]})
        self.assertEqual(self.found(["a/p1", "b/p2"], "p2.plan", "p1/plan", folder="any")[0], {"a/p1": ["p1/plan"], "b/p2": ["p2.plan"]})

    def test_other_files_are_none(self):
        plans, left_out = self.found(["a/p1", "b/p1"], "a/p1.pddl", "a/p1.log", "a/p1/cert.txt", "a/p1/plan.log", "a/p1/domain.pddl",
                                     "a/.p1.plan", "a/p1-hard.txt", "a/p3.plan", "c/p1.plan", "p1.plan", "README")
        self.assertEqual((plans, left_out), ({}, ["p1.plan", "a/p3.plan", "c/p1.plan"]))

    def test_answers_of_a_run_are_plans(self):
        plans, _ = self.found(["a/p1", "a/p2"], "a/p1/plan.txt", "a/p1/cert.txt", "a/p2/plan.txt", "a/p2/original-plan.txt",
                              "a/p2/changes.json")
        self.assertEqual(plans, {"a/p1": ["a/p1/plan.txt"], "a/p2": ["a/p2/original-plan.txt"]})


class Words(ScoreRoom):
    def test_what_is_missing_is_told(self):
        self.task("a/p1", "5")
        self.write_run()
        self.assertIn(f"score: there is no folder {self.room}/theirs\n", self.score()[0].stderr)
        self.put("theirs/b/p1.plan")
        said = self.score()[0].stderr
        self.assertIn("score: left out: of theirs b/p1.plan, by their names of no task that is judged", said)
        self.assertIn("there are no such plans: a plan is called by its task, as gripper/p03.plan", said)
        self.put("other/theirs/a/p1.plan")
        self.assertIn("two planners would be called theirs", self.score(plans=("theirs", "other/theirs"))[0].stderr)
        self.put("run/tasks.jsonl", "{}\n")
        self.assertIn("run/tasks.jsonl is damaged", self.score()[0].stderr)
        self.put("run/run.json", "[]")
        self.assertIn("run is no folder of a run", self.score()[0].stderr)

    def test_a_planner_may_be_named(self):
        self.task("a/p1", "5")
        self.put("theirs/a/p1.plan", "(go 5)")
        self.write_run()
        words = [sys.executable, f"{ROOT}/bench/score", str(self.room / "run"), f"lama={self.room}/theirs"]
        ran = subprocess.run(words, stdout=subprocess.PIPE, text=True)
        self.assertRegex(ran.stdout, "\nlama +a +1 +1 +1 ")
        self.assertEqual(ran.returncode, 0)

    def test_a_line_reads_back(self):
        score = Score("x", "a/p1", None, Verdict.MISSING)
        self.assertEqual(score_of(score.text()), score)


class Ends(ScoreRoom):
    def test_processes_end_with_the_command(self):
        self.task("a/p1", "5")
        self.task("a/p2", "5")
        for it in ("p1", "p2"):
            self.put(f"theirs/a/{it}.plan", "(sleep 5)")
        self.write_run()
        words = [sys.executable, f"{ROOT}/bench/score", str(self.room / "run"), str(self.room / "theirs"), "--lanes", "2"]
        for kind in (signal.SIGTERM, signal.SIGKILL):
            (self.room / "starts").unlink(missing_ok=True)
            with self.subTest(kind), subprocess.Popen(words, stdout=subprocess.DEVNULL, stderr=subprocess.DEVNULL) as ran:
                self.wait_until(lambda: sum(it.startswith("validate") for it in self.starts()) == 2)
                ran.send_signal(kind)
                ran.wait(20)
                self.wait_until(lambda: subprocess.run(["pgrep", "-f", str(self.program)], stdout=subprocess.DEVNULL).returncode)

    def wait_until(self, holds):
        for _ in range(400):
            if holds():
                return
            time.sleep(0.05)
        self.fail("it took too long")


class Pages(ScoreRoom):
    def report(self, *words):
        page = self.room / "page.html"
        ran = subprocess.run([sys.executable, f"{ROOT}/bench/batch-report", str(self.room / "run"), "--into", str(page), *words],
                             stderr=subprocess.PIPE, text=True)
        self.assertNotIn("Traceback", ran.stderr)
        return ran.stderr or page.read_text()

    def test_plans_stand_beside_the_run(self):
        self.task("a/p1", "5", own="(go 5)\n", cost=5, seconds=0.1, states=3, certificate_bytes=30, certificate_version=3, tables=2,
                  exchanges=1, steps=1, start_value=4)
        self.put("th<eirs/a/p1.plan.1", "(go 4)")
        self.put("th<eirs/a/p1.plan.2", "(go 7)\n; cost = 9\n")
        self.write_run()
        self.score(plans=("th<eirs",))
        page = self.report("--scores", str(self.room / "scores.jsonl"))
        for it in ("<h2>Other planners</h2>", "a/p1, a plan of th&lt;eirs: contradiction: costs 4, less than the proved bound 5",
                   "a/p1, a plan of th&lt;eirs: costs 7, and its file states 9",
                   '<a href="th%3Ceirs/a/p1.plan.2">dearer by 2</a>', '<a href="#task-1">a/p1</a>', "version 3, 2 tables, 1 exchange",
                   '<a href="run/answers/a/p1/plan.txt">5</a>', '<a href="run/answers/a/p1/cert.txt">30</a>'):
            self.assertIn(it, page)
        self.assertNotIn("th<eirs", page)
        ElementTree.fromstring(re.sub("<!DOCTYPE html>|<meta[^>]*>|<br>", "", page))
        self.assertNotIn("Other planners", self.report())

    def test_damaged_lines_are_told(self):
        self.task("a/p1", "5")
        self.write_run()
        self.put("scores.jsonl", "{}\n")
        said = self.report("--scores", str(self.room / "scores.jsonl"))
        self.assertIn("scores.jsonl:1: expected a line that bench/score has written", said)


if __name__ == "__main__":
    unittest.main()
