#!/usr/bin/env python3
"""Tries what is told of a batch, on the terminal and on the page of a report: python3 bench/test_batch_report.py.

The lines of runs are put there, so that nothing is run. `bench/test_batch.py` tries these too."""

import csv
import io
import json
import os
import re
import subprocess
import sys
import unittest
from dataclasses import asdict, replace
from unittest import mock
from xml.etree import ElementTree

sys.dont_write_bytecode = True
sys.path.insert(0, os.path.dirname(os.path.abspath(__file__)))
from batching import ROOT  # noqa: E402
from batching.drawing import Scale, logarithmic  # noqa: E402
from batching.limits import wider  # noqa: E402
from batching.lines import Check, Explained, Line, Result  # noqa: E402
from batching.progress import Progress  # noqa: E402
from batching.reading import contradictions, read_run  # noqa: E402
from batching.rows import as_csv  # noqa: E402
from batching.runs import Program, Settings  # noqa: E402
from batching.scores import Score, Verdict  # noqa: E402
import test_batch  # noqa: E402


class ProgressTold(unittest.TestCase):
    def told(self, total, pauses, is_terminal=False):
        """What is said of tasks that end one after another, with these pauses in seconds."""
        with mock.patch("sys.stderr", io.StringIO()) as out, mock.patch("time.monotonic") as now:
            out.isatty = lambda: is_terminal
            now.return_value = 0
            progress = Progress(total)
            for it in pauses:
                now.return_value += it
                progress.show([Line("a/p1", Result.PLAN)])
            progress.show([])
            progress.close()
            return out.getvalue()

    def test_a_line_comes_with_each_tenth_and_the_last_task(self):
        said = [it.partition(":")[0] for it in self.told(45, [1] * 45).splitlines()]
        self.assertEqual(said, [f"{it} of 45" for it in (5, 10, 15, 20, 25, 30, 35, 40, 45)])

    def test_a_line_comes_after_a_minute_too(self):
        said = self.told(1000, [1, 58, 1, 1, 100]).splitlines()
        self.assertEqual(said, ["3 of 1000: 3 plan", "5 of 1000: 5 plan"])

    def test_a_terminals_line_is_written_over(self):
        self.assertEqual(self.told(3, [0], True), 2 * "\r\033[K1 of 3: 1 plan" + "\n")


class Limits(unittest.TestCase):
    def told(self, result, states):
        settings = Settings(Program("program", "sum", False), None, 300, 2000, states, 5, True)
        return wider(settings, "first", [Line("a/p1", result), Line("a/p2", Result.PLAN)])

    def test_the_option_that_raises_a_limit_is_told(self):
        again = "these tasks alone are run again with --left-by first --into OTHER"
        self.assertEqual(self.told(Result.STATES, 1_000_000),
                         ["1 task met the limit of 1,000,000 states: --states raises it, to 16,777,216 at most",
                          f"{again} --states N"])
        self.assertEqual(self.told(Result.INSTANCES, 1), ["1 task met the limit of 5 instances: --instances raises it, "
                                                          "to 16,777,216 at most", f"{again} --instances N"])
        self.assertEqual(self.told(Result.TIME, 1), ["1 task met the limit of 300 s: --seconds raises it, to 1,000,000 at most",
                                                     f"{again} --seconds N"])

    def test_a_limit_that_no_option_raises_is_told(self):
        self.assertEqual(self.told(Result.STATES, 2**24),
                         ["1 task met the limit of 16,777,216 states: --states sets none that is greater"])
        self.assertIn("no option raises that limit", self.told(Result.ATOMS, 1)[0])
        self.assertEqual(self.told(Result.REFUSED, 1), [])


class Scales(unittest.TestCase):
    def test_each_scale_has_ticks(self):
        for power in range(-3, 8):
            for low in (1, 1.5, 3, 7.7):
                for ratio in (1, 1.3, 2, 5, 9, 20, 99, 10**3, 10**6, 10**9):
                    begin, end = low * 10.0**power, low * 10.0**power * ratio
                    for scale in (logarithmic([begin, end], 360), Scale(0, end * 1.04, 360) if end >= 1 else None):
                        for room in (30, 44, 90) if scale else ():
                            self.try_ticks(scale, scale.ticks(room), room)

    def try_ticks(self, scale, ticks, room):
        self.assertEqual(ticks, sorted(set(ticks)), scale)
        self.assertTrue(1 <= len(ticks) <= 2 + scale.length / room, (scale, ticks))
        places = [scale.at(it) for it in ticks]
        self.assertTrue(all(-0.01 <= it <= scale.length + 0.01 for it in places), (scale, ticks))

    def test_ticks_are_round(self):
        self.assertEqual(Scale(0, 72, 300).ticks(44), [0, 20, 40, 60])
        self.assertEqual(Scale(0.001, 10, 300, True).ticks(50), [0.001, 0.01, 0.1, 1, 10])
        self.assertEqual(Scale(0.9, 21, 300, True).ticks(50), [1, 2, 5, 10, 20])


class RunsRead(test_batch.Room):
    """Runs whose lines are put there."""

    def put_run(self, name, *lines, texts="same", states=3, is_unproved=False, checker=None):
        program = replace(Program.at(str(self.program)), is_unproved=is_unproved)
        settings = Settings(program, checker or program, 100, 2, states, 4, True)
        self.put(f"{name}/run.json", json.dumps(asdict(settings)))
        self.put(f"{name}/results.jsonl", "".join(replace(it, program=program.sum, texts=texts).text() for it in lines))


class Contradictions(RunsRead):
    def told(self, *lines):
        for name, line in zip(("first", "second"), lines):
            self.put_run(name, line)
        return list(contradictions([read_run(str(self.room / it)) for it in ("first", "second")]))

    def test_other_answers_are_told(self):
        plan = Line("a/p1", Result.PLAN, cost=3)
        self.assertEqual(self.told(plan, replace(plan, cost=2)), ["a/p1: first and second answer otherwise"])
        self.assertEqual(self.told(plan, plan), [])

    def test_a_plan_below_a_bound_is_told(self):
        bound = Line("a/p1", Result.STATES, bound=5)
        plan = lambda cost: Line("a/p1", Result.PLAN, cost=cost)
        self.assertEqual(len(self.told(bound, plan(4))), 1)
        self.assertEqual(len(self.told(plan(4), bound)), 1)
        self.assertEqual(self.told(bound, plan(5)), [])
        self.assertEqual(self.told(bound, Line("a/p1", Result.UNSOLVABLE)), [])


class Reports(RunsRead):
    def report(self, *names, more=()):
        words = [sys.executable, f"{ROOT}/bench/batch-report", *(str(self.room / it) for it in names)]
        ran = subprocess.run([*words, "--into", str(self.room / "page.html"), *more], stderr=subprocess.PIPE, text=True)
        return ran.stderr or (self.room / "page.html").read_text()

    def test_runs_stand_side_by_side(self):
        plan = Line("a<b/p1", Result.PLAN, status=0, cost=3, seconds=0.5, states=9, check=Check(True, "optimal 3", 0.4, 5))
        wrong = replace(plan, task="a<b/p2", cost=4, check=Check(False, "not accepted 51 CutWeak", 0.4, 5))
        self.put_run("first", plan, Line("a<b/p2", Result.TIME, seconds=1.0), Line("c/p1", Result.REFUSED, fault="fault 7"))
        self.put_run("second", replace(plan, cost=2), wrong)
        page = self.report("first", "second")
        for it in ("3 tasks, 2 domains", "1 of 3 answered", "2 of 2 answered",
                   "a&lt;b/p1: first and second answer otherwise",
                   "a&lt;b/p2 in second: the certificate is not accepted (not accepted 51 CutWeak)",
                   "c/p1 in first: refused, fault 7"):
            self.assertIn(it, page)
        self.assertNotIn("a<b", page)
        self.assertNotRegex(page, "<script|<link|src=")
        self.assertEqual(page, self.report("first", "second"))

    def test_plots_are_whole_texts_of_svg(self):
        lines = [Line(f"{domain}/p{number}", Result.PLAN, status=0, cost=3, seconds=0.004 * 9**number, states=9**number,
                      check=Check(True, "optimal 3", 0.003, 5)) for domain in ("a<b", "c", "d&e") for number in range(5)]
        self.put_run("first", *lines, Line("c/p9", Result.TIME, seconds=1.0))
        self.put_run("second", *lines[3:], Line("a<b/p0", Result.STATES, bound=7, seconds=1.0))
        for names, many in ((["first"], 4), (["first", "second"], 4)):
            page = self.report(*names)
            plots = re.findall('<svg xmlns.*?</svg>', page, re.S)
            self.assertEqual(len(plots), many)
            for it in plots:
                self.try_plot(ElementTree.fromstring(it), page)
            told = [text.text for text in ElementTree.fromstring(plots[1]).iter("{http://www.w3.org/2000/svg}text")]
            for it in ("0.01", "0.1", "1", "10", "processor time of a task, s", "tasks within that time"):
                self.assertIn(it, told)

    def try_plot(self, plot, page):
        """All of a plot stands within it, and leads to rows that are there."""
        named = "{http://www.w3.org/2000/svg}"
        width, height = float(plot.get("width")), float(plot.get("height"))
        for it in plot.iter():
            self.assertNotRegex(" ".join(it.attrib.values()), "nan|inf|None")
            if it.tag == f"{named}a":
                self.assertIn(f'id="{it.get("href")[1:]}"', page)
            if "translate" in it.get("transform", ""):
                x, y = map(float, re.findall("[-0-9.]+", it.get("transform")))
                self.assertTrue(0 < x < width and 0 < y < height)
            if it.tag == f"{named}rect":
                self.assertTrue(0 < float(it.get("x")) and float(it.get("x")) + float(it.get("width")) < width)

    def test_a_page_is_well_formed(self):
        refused = Line("c/p1", Result.REFUSED, explained=Explained("/a/c&d.pddl", 3, 8, "`<a>` is none."), fault="fault 7 <")
        self.put_run("first", refused, Line("c/p2", Result.FAILED, status=1), Line("c/p3", Result.STATES, bound=5, states=3))
        page = self.report("first")
        ElementTree.fromstring(re.sub("<!DOCTYPE html>|<meta[^>]*>|<br>", "", page))
        for it in ("<code>/a/c&amp;d.pddl:3:8</code> <code>&lt;a&gt;</code> is none. <small>fault 7 &lt;</small>",
                   "refused, c&amp;d.pddl:3:8", "c/p2 in first: failed, status 1"):
            self.assertIn(it, page)

    def test_what_the_tool_for_competition_files_refuses_is_told_in_its_words(self):
        said = "`decrease`: numbers that actions change (PDDL 2.1) are not supported"
        self.put_run("first", Line("a/p1", Result.REFUSED, status=20, explained=Explained("/a/d.pddl", 3, 8, said),
                                   fault=f"/a/d.pddl:3:8: {said}"))
        page = self.report("first")
        self.assertIn("<code>/a/d.pddl:3:8</code> <code>decrease</code>: numbers that actions change (PDDL 2.1) are not supported "
                      "<small>by tools/ipc-files</small>", page)
        self.assertIn("<td>refused, d.pddl:3:8</td>", page)

    def test_a_fault_of_a_domain_is_told_once(self):
        explained = Explained("/a/domain.pddl", 3, 8, "`b` is none.")
        self.put_run("first", *(Line(f"a/p{it}", Result.REFUSED, explained=explained, fault="fault 7") for it in range(1, 9)))
        self.assertIn("a/p1, a/p2, a/p3, a/p4, a/p5, a/p6 and 2 more in first: <code>/a/domain.pddl:3:8</code>",
                      self.report("first"))
        self.put_run("second", Line("a/p1", Result.REFUSED, explained=explained, fault="fault 7"))
        self.assertIn("a/p1 in first and second: <code>/a/domain.pddl:3:8</code>", self.report("first", "second"))

    def test_costs_have_sums_and_geometric_means(self):
        plan = lambda task, cost, seconds: Line(task, Result.PLAN, cost=cost, seconds=seconds, states=cost)
        self.put_run("first", plan("a/p1", 2, 0.1), plan("a/p2", 8, 0.4), plan("b/p1", 0, 0.0), plan("b/p2", 5, 1.0),
                     Line("c/p1", Result.UNSOLVABLE, seconds=1.0))
        self.put_run("second", plan("a/p1", 2, 0.2), plan("a/p2", 8, 0.8), plan("b/p1", 0, 0.1), Line("b/p2", Result.TIME, seconds=1.0))
        table = self.report("first", "second").partition("<h2>Costs</h2>")[2].partition("<h2>")[0]
        self.assertIn("Of the 3 tasks that all runs have answered.", table)
        rows = [re.findall("<td>(.*?)</td>", it) for it in re.findall("<tr.*?</tr>", table)]
        # Costs, seconds and states of the first run, each with its sum and its mean.
        self.assertEqual([it[:8] for it in rows if it], [["a", "2", "10", "4.00", "0.50", "0.200", "10", "4"],
                                                         ["b", "1", "0", "1.00", "0.00", "0.001", "0", "1"],
                                                         ["all", "3", "10", "2.52", "0.50", "0.034", "10", "3"]])
        self.put_run("third", Line("a/p1", Result.TIME, seconds=1.0))
        self.assertIn("No task is answered by all runs", self.report("first", "third"))

    def test_a_table_of_commas_has_each_line(self):
        check = Check(True, "optimal 3", 0.4, 5)
        self.put_run("first", Line('a,"b/p1', Result.PLAN, cost=3, steps=2, check=check), Line("c/p1", Result.TIME, reached=4))
        self.put("first/answers/c/p1/plan.txt", "")
        path = self.room / "table.csv"
        ran = subprocess.run([sys.executable, f"{ROOT}/bench/batch-report", str(self.room / "first"), "--csv", str(path)])
        self.assertEqual(ran.returncode, 0)
        with open(path, newline="", encoding="utf-8") as text:
            rows = [*csv.DictReader(text)]
        told = [[it[key] for key in ("run", "domain", "task", "result", "cost", "steps", "reached", "check_verdict")] for it in rows]
        self.assertEqual(told, [["first", 'a,"b', 'a,"b/p1', "plan", "3", "2", "", "optimal 3"],
                                ["first", "c", "c/p1", "out of time", "", "", "4", ""]])
        self.assertEqual([it["plan"] for it in rows], ["", str(self.room / "first/answers/c/p1/plan.txt")])

    def test_other_tools_read_the_lines(self):
        plan = Line("a_b/p1", Result.PLAN, cost=3, seconds=0.5, clock_seconds=0.6, expanded=7, peak_bytes=20_480_000)
        self.put_run("first", plan, replace(plan, task="a_b/p2", clock_seconds=101.0), Line("c/p1", Result.UNSOLVABLE, seconds=0.1),
                     Line("c/p2", Result.TIME, seconds=100.0))
        self.put_run("second&", plan)
        properties, table = self.room / "properties", self.room / "table.tex"
        self.report("first", "second&", more=["--properties", str(properties), "--latex", str(table)])
        name = lambda run, domain, problem: {"algorithm": run, "domain": domain, "problem": problem, "id": [run, domain, problem]}
        solved = {"coverage": 1, "error": "success", "unsolvable": 0, "cost": 3, "total_time": 0.5, "expansions": 7,
                  "memory": 20_000}
        self.assertEqual(json.loads(properties.read_text()), {
            "first-a_b-p1": {**name("first", "a_b", "p1"), **solved},
            "first-a_b-p2": {**name("first", "a_b", "p2"), "coverage": 0, "error": "late", "expansions": 7, "memory": 20_000},
            "first-c-p1": {**name("first", "c", "p1"), "coverage": 1, "error": "success", "unsolvable": 1, "total_time": 0.1},
            "first-c-p2": {**name("first", "c", "p2"), "coverage": 0, "error": "out-of-time"},
            "second&-a_b-p1": {**name("second&", "a_b", "p1"), **solved}})
        self.assertEqual(table.read_text().splitlines(), [
            r"\begin{tabular}{lrrr}", r"\hline", r"domain & tasks & first & second\& \\", r"\hline", r"a\_b & 2 & 1 & 1 \\",
            r"c & 2 & 1 &  \\", r"\hline", r"all & 4 & 2 & 1 \\", r"\hline", r"\end{tabular}"])
        self.assertIn("two tasks would be called first-a_b-p1 among the properties",
                      self.report("first", "first", more=["--properties", str(properties)]))

    def test_points_have_the_hues_of_results(self):
        self.put_run("first", Line("a/p1", Result.PLAN, cost=3, seconds=0.5, states=9), Line("a/p2", Result.TIME, seconds=1.0),
                     Line("a/p3", Result.STATES, bound=5, seconds=1.0, states=90))
        self.put_run("second", *(Line(f"a/p{it}", Result.PLAN, cost=3, seconds=0.5, states=9) for it in (1, 2, 3)))
        alone, beside = self.report("first"), self.report("first", "second")
        self.assertEqual(re.findall('<a class="([a-z-]+)" href="#task-([0-9])">', alone)[:2], [("plan", "1"), ("out-of-states", "3")])
        self.assertEqual(re.findall('<a class="([a-z-]+)" href="#task-([0-9])">', beside)[:3],
                         [("plan", "1"), ("out-of-time", "2"), ("out-of-states", "3")])

    def test_a_bound_without_a_certificate_is_told_so(self):
        self.put_run("first", Line("a/p1", Result.TIME, seconds=1.0, reached=4))
        self.assertIn("<td>at least 4, without a certificate</td>", self.report("first"))

    def test_an_answer_after_the_limit_is_told_as_late(self):
        plan = Line("a/p1", Result.PLAN, cost=3, seconds=90.0, clock_seconds=99.0, check=Check(True, "optimal 3", 0.4, 5))
        late = replace(plan, task="a/p2", clock_seconds=100.5)
        self.put_run("first", plan, late, Line("a/p3", Result.UNSOLVABLE, seconds=1.0),
                     Line("a/p4", Result.REFUSED, fault="fault 7"))
        page = self.report("first")
        for it in ("2 of 4 answered", "1 more answered late, after more than 100 s by the clock", "<td>plan, late</td>",
                   "1 refused, which is a fault of the text and no limit",
                   "<tr><th>domain</th><th>tasks</th><th>answered</th><th>of these unsolvable</th><th>late</th><th>refused</th>"
                   "<th>accepted</th></tr>",
                   '<tr class="sum"><td>all</td><td>4</td><td>2</td><td>1</td><td>1</td><td>1</td><td>1</td>',
                   "first: 1 task had a late answer, after more than 100 s by the clock",
                   "Of the 2 tasks that the run has answered."):
            self.assertIn(it, page)
        self.assertEqual(re.findall("<title>(a: [^<]*)</title>", page)[:4],
                         ["a: 1 plan", "a: 1 plan, late", "a: 1 unsolvable", "a: 1 refused"])
        rows = [*csv.DictReader(io.StringIO(as_csv([read_run(str(self.room / "first"))])))]
        self.assertEqual([it["late"] for it in rows], ["False", "True", "False", ""])

    def test_patterns_choose_which_tasks_are_shown(self):
        lines = [Line(it, Result.PLAN, cost=3, seconds=0.5) for it in ("a/p1", "a/p2", "b/p1", "c/p1")]
        self.put_run("first", *lines)
        self.put("scores.jsonl", "".join(Score("lama", it, "plan", Verdict.OPTIMAL, 3).text() for it in ("a/p2", "b/p1")))
        page = self.report("first", more=["--filter", "a/*", "--filter", "c/p?", "--scores", str(self.room / "scores.jsonl")])
        self.assertIn("3 tasks, 2 domains", page)
        self.assertIn("a/p2</a>", page)
        self.assertNotIn("b/p1", page)
        self.assertTrue(self.report("first", more=["--filter", "d/*", "--filter", "p1"]).startswith(
            "batch-report: no task is called d/* or p1: a name is as gripper/p03"))

    def test_a_limit_is_told_with_its_option(self):
        bound = Line("a/p1", Result.STATES, bound=5, seconds=1.0, check=Check(True, "at least 5", 0.4, 5))
        self.put_run("first", bound, states=100_000)
        page = self.report("first")
        self.assertIn("first: 1 task met the limit of 100,000 states: <code>--states</code> raises it, to 16,777,216 at most", page)
        self.assertIn("1 of 1 certificates accepted, 1 of them of bounds", page)

    def test_programs_without_a_proof_are_told(self):
        plan = Line("a/p1", Result.PLAN, cost=3, seconds=0.5, states=9, check=Check(True, "optimal 3", 0.4, 5))
        self.put_run("first", plan)
        self.assertNotIn("without a proof", self.report("first"))
        self.put_run("first", plan, is_unproved=True)
        self.assertIn("<b>first</b>: the program was built without a proof, so that no proof vouches", self.report("first"))
        self.put_run("first", plan, is_unproved=True, checker=Program("other", "sum", False))
        self.assertIn("an answer is as certain as that one where its certificate is accepted", self.report("first"))

    def test_a_name_of_other_texts_is_marked(self):
        plan = Line("a/p1", Result.PLAN, cost=3, seconds=0.5, states=9)
        self.put_run("first", plan, replace(plan, task="a/p2"))
        self.put_run("second", replace(plan, cost=2), texts="other")
        page = self.report("first", "second")
        self.assertEqual(page.count("texts differ</span>"), 1)
        self.assertIn("a/p1: the texts of the same name differ from run to run", page)
        self.assertNotIn("answer otherwise", page)
        self.put_run("second", plan)
        self.assertNotIn("texts differ", self.report("first", "second"))

    def test_a_page_without_a_place_is_told(self):
        self.put_run("first", Line("a/p1", Result.TIME, seconds=1.0))
        page = str(self.room / "none/page.html")
        words = [sys.executable, f"{ROOT}/bench/batch-report", str(self.room / "first"), "--into", page]
        ran = subprocess.run(words, stderr=subprocess.PIPE, text=True)
        self.assertEqual(ran.returncode, 1)
        self.assertRegex(ran.stderr, "^batch-report: .*No such file or directory")

    def test_lines_of_another_program_are_refused(self):
        self.put_run("first", Line("a/p1", Result.TIME, seconds=1.0))
        self.put("first/results.jsonl", Line("a/p1", Result.TIME, seconds=1.0, program="other").text())
        self.assertIn("has lines of other programs: other", self.report("first"))

    def test_a_run_without_an_answer_has_a_page(self):
        self.put_run("first", Line("a/p1", Result.FAILED, fault="no line came"))
        self.assertIn("0 of 1 answered", self.report("first"))
        self.assertIn("0 of 1 answered", self.report("first", "first"))


if __name__ == "__main__":
    unittest.main()
