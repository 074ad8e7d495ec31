#!/usr/bin/env python3
"""Tries what can go wrong in a batch, over a program that does as its problem says: python3 bench/test_batch.py.

It needs neither the program itself nor Slurm, nothing but python3, and takes half a minute."""

import json
import os
import shutil
import signal
import stat
import subprocess
import sys
import tempfile
import time
import unittest
from dataclasses import asdict
from pathlib import Path

sys.dont_write_bytecode = True
sys.path.insert(0, os.path.dirname(os.path.abspath(__file__)))
from batching import ROOT  # noqa: E402
from batching.lines import Explained, Result, read_lines  # noqa: E402
from batching.runs import Program, Settings  # noqa: E402

# Does what the first word of the problem says, and notes each start.
PROGRAM = """#!{python}
import os, signal, sys, time
words = sys.argv[1:]
named = lambda option: words[words.index(option) + 1]
do = open(words[2]).read().split()
open("{room}/starts", "a").write(" ".join([words[0], *do]) + "\\n")
if words[0] == "check":
    if do[0] == "wrong":
        print('{{"code":51,"name":"CutWeak","result":"not accepted"}}')
        sys.exit(12)
    print('{{"command":"check","cost":%s,"result":"%s"}}' % (do[-1], "at least" if do[0] in ("limit", "time") else "optimal"))
    sys.exit(0)
if words[0] == "explain":
    print(words[1] + ":3:8: fault 7 Unexpected (columns count bytes)\\n   3 | a. b\\n     | ^")
    print("`a. b` may not stand here. More.")
    sys.exit(20)
if "--progress" in words:
    for it in ("ground instances=4 atoms=5", "search bound=2 listed=1 expanded=0", "search bound=3 listed=1 expanded=0",
               "search bound=4 listed=9 expanded=3"):
        print("progress=" + it, file=sys.stderr, flush=True)
if do[0] == "spin":
    while True: pass
if do[0] == "sleep": time.sleep(60)
if do[0] == "late": time.sleep(1.1)
if do[0] == "kill": os.kill(os.getpid(), signal.SIGKILL)
if do[0] == "grow": sys.exit(grow())
if do[0] == "fault":
    print("fault 7 Unexpected in problem at 0..5", file=sys.stderr)
    sys.exit(20)
open(named("--cert"), "w").write("pddl-cert 3\\nswap a b\\nswap c d\\ntable 0\\nopen 0\\nend 3\\n")
print("progress=end listed=3 expanded=2", file=sys.stderr)
if do[0] in ("limit", "time"):
    reason = "states" if do[0] == "limit" else "time"
    print('{{"bound":%s,"command":"solve","reason":"%s","result":"unknown"}}' % (do[1], reason))
    sys.exit(11)
open(named("--plan"), "w").write("(a)\\n")
print('{{"command":"solve","cost":%s,"result":"plan","steps":["(a)"]}}' % do[1])
"""
# In the place of Slurm: runs the elements of an array one after another, but one whose number is in the file `lost`, once.
SBATCH = """#!{python}
import os, subprocess, sys
given = dict(it.split("=", 1) for it in sys.argv[1:] if "=" in it)
print(" ".join(sys.argv[1:-1]), file=open("{room}/sbatch", "a"))
for element in range(int(given["--array"].partition("%")[0].partition("-")[2]) + 1):
    if os.path.exists("{room}/lost") and open("{room}/lost").read() == str(element):
        os.remove("{room}/lost")
        continue
    subprocess.run(given["--wrap"], shell=True, env={{**os.environ, "SLURM_ARRAY_TASK_ID": str(element)}})
print("17")
"""
# In the place of a program that solves one task: the one that is written for the files below.
ANSWERING = """#!{python}
import sys
words = sys.argv[1:]
named = lambda option: words[words.index(option) + 1]
assert "go-a" in open(words[1]).read() and "o-1" in open(words[2]).read()
if words[0] == "check":
    print('{{"command":"check","cost":5,"result":"optimal"}}')
    sys.exit(0)
open(named("--cert"), "w").write("pddl-cert 2\\nend 3\\n")
open(named("--plan"), "w").write("(go-a o-1)\\n; cost = 5\\n")
print('{{"command":"solve","cost":5,"result":"plan","steps":["(go-a o-1)"]}}')
"""
DOMAIN = """(define (domain d) (:predicates (p ?x)) (:functions (total-cost))
 (:action go#a :parameters (?x) :effect (and (p ?x) (increase (total-cost) 2.5))))"""
PROBLEM = "(define (problem p) (:domain d) (:objects 1) (:init) (:goal (p 1)) (:metric minimize (total-cost)))"
SACCT = """#!/bin/sh
echo '17_0|OUT_OF_MEMORY'
echo '17_1|COMPLETED'
"""
GROW = """def grow():
    try:
        return len(bytearray(10 ** 11))
    except MemoryError:
        return 22
"""


class Room(unittest.TestCase):
    """A folder of tasks with a program beside it."""

    def setUp(self):
        held = tempfile.TemporaryDirectory()
        self.addCleanup(held.cleanup)
        self.room = Path(held.name)
        self.program = self.room / "program"
        self.put_program("program", PROGRAM.replace("import os, signal", GROW + "import os, signal", 1))
        self.run_folder = self.room / "run"

    def put(self, name, text="plan 3"):
        path = self.room / name
        path.parent.mkdir(parents=True, exist_ok=True)
        path.write_text(text)
        return path

    def put_program(self, name, text):
        path = self.put(name, text.format(python=sys.executable, room=self.room))
        path.chmod(path.stat().st_mode | stat.S_IXUSR)

    def words(self, *more):
        return [sys.executable, f"{ROOT}/bench/batch", str(self.room / "tasks"), "--into", str(self.run_folder),
                "--program", str(self.program), "--lanes", "2", *more]

    def batch(self, *more):
        path = {**os.environ, "PATH": f"{self.room}/bin:{os.environ['PATH']}"}
        return subprocess.run(self.words(*more), stdout=subprocess.PIPE, stderr=subprocess.PIPE, text=True, env=path)

    def tasks(self, **problems):
        self.put("tasks/a b/domain.pddl")
        for name, text in problems.items():
            self.put(f"tasks/a b/{name}.pddl", text)

    def lines(self):
        return {it.task: it for it in read_lines(self.run_folder / "results.jsonl")}

    def starts(self):
        try:
            return (self.room / "starts").read_text().splitlines()
        except FileNotFoundError:
            return []


class Runs(Room):
    def test_each_result_has_its_line(self):
        self.tasks(plan="plan 3", wrong="wrong 3", spin="spin 1", grow="grow 1", fault="fault 1", kill="kill 1", limit="limit 5",
                   time="time 6")
        ran = self.batch("--check", "--seconds", "1")
        found = self.lines()
        self.assertEqual({name[4:]: it.result.value for name, it in found.items()},
                         {"plan": "plan", "wrong": "plan", "spin": "out of time", "grow": "out of memory",
                          "fault": "refused", "kill": "failed", "limit": "out of states", "time": "out of time"}, ran)
        plan = found["a b/plan"]
        self.assertEqual((plan.status, plan.cost, plan.steps, plan.states, plan.check.accepted), (0, 3, 1, 3, True))
        self.assertEqual((plan.instances, plan.atoms, plan.start_value, plan.expanded, plan.reached), (4, 5, 3, 2, None))
        self.assertEqual((plan.certificate_version, plan.tables, plan.exchanges, plan.certificate_bytes), (3, 1, 2, 51))
        self.assertGreater(plan.clock_seconds, 0)
        spin = found["a b/spin"]
        self.assertEqual((spin.reached, spin.start_value, spin.expanded, spin.states), (4, 3, 3, None))
        self.assertRegex(spin.fault, "ended by signal")
        limit = found["a b/limit"]
        self.assertEqual((limit.status, limit.cost, limit.bound, limit.states, limit.check.accepted), (11, None, 5, 3, True))
        over = found["a b/time"]
        self.assertEqual((over.status, over.bound, over.reached, over.states, over.check.accepted), (11, 6, None, 3, True))
        self.assertIs(found["a b/wrong"].check.accepted, False)
        self.assertEqual(found["a b/wrong"].check.verdict, "not accepted 51 CutWeak")
        self.assertEqual(found["a b/fault"].fault, "fault 7 Unexpected in problem at 0..5")
        domain = str(self.room / "tasks/a b/domain.pddl")
        self.assertEqual(found["a b/fault"].explained, Explained(domain, 3, 8, "`a. b` may not stand here."))
        self.assertEqual((found["a b/kill"].status, found["a b/kill"].fault), (137, "ended by signal 9"))
        for it in ("1 task met the limit of 16,777,216 states: --states sets none that is greater",
                   "2 tasks met the limit of 1 s: --seconds raises it, to 1,000,000 at most", "1 task met the limit of 2,000 MB: --memory raises it",
                   f"--left-by {self.run_folder} --into OTHER --seconds N --memory N"):
            self.assertIn(it, ran.stdout)
        self.assertEqual(ran.returncode, 1)
        self.assertEqual((self.run_folder / "answers/a b/plan/plan.txt").read_text(), "(a)\n")

    def test_patterns_choose_which_tasks_are_run(self):
        self.tasks(one="plan 3", two="plan 4", three="plan 5")
        ran = self.batch("--filter", "*/one", "--filter", "a b/th*")
        self.assertIn("2 of 2 tasks: 2 plan", ran.stdout)
        self.assertEqual(sorted(self.starts()), ["solve plan 3", "solve plan 5"])
        ran = self.batch("--filter", "*/none")
        self.assertEqual((ran.returncode, ran.stdout), (1, ""))
        self.assertIn("batch: no task is called */none: a name is as gripper/p03", ran.stderr)

    def test_an_answer_after_the_limit_is_told_as_late(self):
        self.tasks(one="plan 3", two="late 4")
        ran = self.batch("--seconds", "1")
        self.assertIn("2 of 2 tasks: 2 plan\n1 task had a late answer, after more than 1 s by the clock: it is proved", ran.stdout)
        self.assertEqual((ran.returncode, self.lines()["a b/two"].cost), (0, 4))

    def test_a_run_goes_on_where_it_stopped(self):
        self.tasks(one="plan 3", two="plan 4", three="kill 5")
        self.batch()
        self.assertEqual(len(self.starts()), 3)
        results = self.run_folder / "results.jsonl"
        lines = [it for it in results.read_text().splitlines(keepends=True) if "two" not in it]
        results.write_text("".join(lines) + '{"task":"a b/two","res')
        self.tasks(four="plan 6")
        ran = self.batch()
        # What failed is tried again, and what is new joins.
        self.assertEqual(sorted(self.starts()[3:]), ["solve kill 5", "solve plan 4", "solve plan 6"])
        self.assertEqual({name: it.cost for name, it in self.lines().items()},
                         {"a b/one": 3, "a b/two": 4, "a b/three": None, "a b/four": 6})
        self.assertIn("4 of 4 tasks: 3 plan, 1 failed", ran.stdout)

    def test_a_task_whose_text_has_changed_is_run_anew(self):
        self.tasks(one="plan 3", two="plan 4")
        self.batch()
        self.tasks(one="plan 5")
        self.batch()
        self.assertEqual(self.starts()[2:], ["solve plan 5"])
        self.assertEqual(self.lines()["a b/one"].cost, 5)

    def test_another_program_or_other_limits_are_refused(self):
        self.tasks(one="plan 3")
        self.batch()
        self.assertIn("seconds: 9 now, 300 before", self.batch("--seconds", "9").stderr)
        self.program.write_text(self.program.read_text() + "#\n")
        self.assertIn("lines of two are not mixed", self.batch().stderr)
        self.assertEqual(len(self.starts()), 1)

    def test_a_folder_is_one_commands_at_a_time(self):
        self.tasks(one="sleep 3")
        with subprocess.Popen(self.words(), stderr=subprocess.DEVNULL) as first:
            self.wait_for_starts(1)
            self.assertIn("another command writes into", self.batch().stderr)
            first.terminate()

    def wait_for_starts(self, many):
        for _ in range(600):
            if len(self.starts()) >= many:
                return
            time.sleep(0.05)
        self.fail("no program was started")

    def is_running(self):
        return subprocess.run(["pgrep", "-f", str(self.program)], stdout=subprocess.DEVNULL).returncode == 0

    def test_processes_end_with_the_command(self):
        self.tasks(one="sleep 3", two="sleep 3", three="sleep 3")
        for number, kind in enumerate((signal.SIGINT, signal.SIGTERM, signal.SIGKILL)):
            with self.subTest(kind), subprocess.Popen(self.words(), stderr=subprocess.DEVNULL) as ran:
                self.wait_for_starts(2 * number + 2)
                ran.send_signal(kind)
                ran.wait(20)
                for _ in range(200):
                    if not self.is_running():
                        break
                    time.sleep(0.05)
                self.assertFalse(self.is_running())
        self.assertEqual(self.lines(), {})

    def test_how_many_have_ended_is_told_where_there_is_no_terminal(self):
        self.tasks(one="plan 3", two="plan 4")
        self.assertEqual(self.batch().stderr.splitlines()[-1], "2 of 2: 2 plan")

    def test_folders_are_looked_at_before_a_task_is_started(self):
        self.tasks(one="plan 3", two="plan 4")
        in_the_way = self.put("run/answers/a b/two", "no folder")
        ran = self.batch()
        self.assertEqual(ran.returncode, 1)
        self.assertIn(f"nothing can be written into {in_the_way}, so that nothing was started", ran.stderr)
        self.assertIn("nothing can be written into /proc/none/ended", self.batch("--into", "/proc/none").stderr)
        self.assertEqual(self.starts(), [])
        in_the_way.unlink()
        self.assertEqual(self.batch().returncode, 0)

    @unittest.skipIf(os.geteuid() == 0, "root may write into every folder")
    def test_a_folder_that_may_not_be_written_is_told(self):
        self.tasks(one="plan 3")
        answers = self.room / "run/answers"
        answers.mkdir(parents=True, mode=0o555)
        self.assertIn("so that nothing was started: Permission denied", self.batch().stderr)
        self.assertEqual(self.starts(), [])

    def test_a_program_that_is_missing_is_told(self):
        self.tasks(one="plan 3")
        self.program.unlink()
        self.assertIn("there is no program", self.batch().stderr)
        self.assertFalse(self.run_folder.exists())

    def test_what_builds_a_program_is_none(self):
        self.tasks(one="plan 3")
        for more in (["--program", f"{ROOT}/optplan"], ["--checker", f"{ROOT}/optplan-unproved"]):
            self.assertIn("looks at its sources at each start", self.batch(*more).stderr)
        self.assertEqual(self.starts(), [])

    def test_what_a_task_wants_more_of_goes_to_another_run(self):
        self.tasks(one="plan 3", two="grow 1", three="fault 1")
        self.batch("--memory", "1000")
        first, self.run_folder = self.run_folder, self.room / "again"
        self.batch("--memory", "2000", "--left-by", str(first))
        self.assertEqual({name: it.result for name, it in self.lines().items()}, {"a b/two": Result.MEMORY})

    def test_numbers_are_those_of_processes_of_their_own(self):
        self.tasks(one="plan 3", two="plan 4")
        numbers = self.batch("--numbers").stdout.split()
        self.assertEqual(numbers, ["1", "2"])
        for it in numbers:
            subprocess.run([sys.executable, f"{ROOT}/bench/batch-one", str(self.run_folder), it], check=True)
        self.batch()
        self.assertEqual(len(self.starts()), 2)
        self.assertEqual({name: it.cost for name, it in self.lines().items()}, {"a b/one": 3, "a b/two": 4})

    def test_settings_read_back(self):
        program = Program.at(str(self.program))
        settings = Settings(program, None, 1, 2, 3, 4, True)
        self.run_folder.mkdir()
        (self.run_folder / "run.json").write_text(json.dumps(asdict(settings)))
        self.assertEqual(Settings.read(str(self.run_folder)), settings)


class DefaultPrograms(Room):
    """What solves where no program is named: a copy of the scripts, above which programs are put."""

    def setUp(self):
        super().setUp()
        for it in ("bench", "tools"):
            shutil.copytree(f"{ROOT}/{it}", self.room / f"copy/{it}", ignore=shutil.ignore_patterns("__pycache__"))
        self.tasks(one="plan 3")

    def built(self, name):
        self.put_program(f"copy/{name}", self.program.read_text().replace("{", "{{").replace("}", "}}"))

    def solved_by(self):
        words = [sys.executable, str(self.room / "copy/bench/batch"), str(self.room / "tasks"), "--into", str(self.run_folder)]
        ran = subprocess.run(words, stdout=subprocess.PIPE, stderr=subprocess.PIPE, text=True)
        path = ran.returncode == 0 and Settings.read(str(self.run_folder)).program.path
        return path and os.path.relpath(path, self.room / "copy"), ran.stderr

    def test_the_unproved_one_solves_where_no_other_is_built(self):
        self.assertIn("there is no program", self.solved_by()[1])
        self.built("out/optplan-unproved")
        path, said = self.solved_by()
        self.assertEqual(path, "out/optplan-unproved")
        self.assertIn("no proof vouches (crates/optplan/out/optplan is not built)", said)
        # A run keeps to the program that it began with.
        self.built("crates/optplan/out/optplan")
        self.tasks(two="plan 4")
        path, said = self.solved_by()
        self.assertEqual(path, "out/optplan-unproved")
        self.assertIn("no proof vouches (the run began with it)", said)
        self.assertEqual(self.starts(), ["solve plan 3", "solve plan 4"])

    def test_the_proved_one_comes_first(self):
        self.built("out/optplan-unproved")
        self.built("crates/optplan/out/optplan")
        path, said = self.solved_by()
        self.assertEqual(path, "crates/optplan/out/optplan")
        self.assertNotIn("vouches", said)


class Converted(Room):
    """Competition files that are made into others first, over a program that answers one plan of cost 5."""

    def setUp(self):
        super().setUp()
        self.put_program("program", ANSWERING)
        self.put("tasks/a/domain.pddl", DOMAIN)
        self.put("tasks/a/p1.pddl", PROBLEM)

    def test_what_is_written_is_solved_and_the_plan_comes_back(self):
        ran = self.batch("--ipc", "--check")
        line, kept = self.lines()["a/p1"], self.run_folder / "answers/a/p1"
        self.assertEqual((line.result, line.cost, line.changes, line.check.accepted), (Result.PLAN, 2.5, 3, True), ran)
        self.assertEqual((kept / "plan.txt").read_text(), "(go-a o-1)\n; cost = 5\n")
        self.assertEqual((kept / "original-plan.txt").read_text(), "(go#a 1)\n; cost = 2.5\n")
        self.assertNotIn("go#a", (kept / "domain.pddl").read_text())
        self.assertIn("(:objects o-1)", (kept / "problem.pddl").read_text())
        self.assertEqual((self.room / "tasks/a/p1.pddl").read_text(), PROBLEM)

    def test_what_is_refused_is_told_with_its_place(self):
        self.put("tasks/a/domain.pddl", DOMAIN.replace("(p ?x)", "(p ?x - thing)", 1))
        self.batch("--ipc")
        line = self.lines()["a/p1"]
        self.assertEqual((line.result, line.status), (Result.REFUSED, 20))
        self.assertRegex(line.fault, "domain.pddl:1:41: the type `thing` is not declared")
        domain = str(self.room / "tasks/a/domain.pddl")
        self.assertEqual(line.explained, Explained(domain, 1, 41, "the type `thing` is not declared"))

    def test_a_run_with_other_files_is_another_one(self):
        self.batch("--ipc")
        self.assertIn("converter: None now", self.batch().stderr)


class Slurm(Room):
    def setUp(self):
        super().setUp()
        for name, text in (("sbatch", SBATCH), ("sacct", SACCT), ("squeue", "#!/bin/sh\n"), ("scontrol", "#!/bin/sh\n")):
            self.put_program(f"bin/{name}", text)

    def arrays(self):
        return (self.room / "sbatch").read_text().splitlines()

    def test_an_element_that_leaves_no_line_is_tried_again(self):
        self.tasks(one="plan 3", three="plan 5", two="plan 4")
        self.put("lost", "1")
        ran = self.batch("--slurm", "--sbatch=--partition=day")
        self.assertEqual({name: it.cost for name, it in self.lines().items()}, {"a b/one": 3, "a b/three": 5, "a b/two": 4}, ran)
        self.assertEqual([it.partition("--array=")[2].partition(" ")[0] for it in self.arrays()], ["0-2%2", "0-0%2"])
        self.assertIn("--partition=day", self.arrays()[0])
        self.assertEqual(self.starts(), ["solve plan 3", "solve plan 4", "solve plan 5"])

    def test_an_array_has_no_more_elements_than_the_cluster_takes(self):
        self.tasks(one="plan 3", three="plan 5", two="plan 4")
        self.put_program("bin/scontrol", "#!/bin/sh\necho 'MaxArraySize            = 2'\n")
        self.batch("--slurm")
        self.assertEqual([it.partition("--array=")[2].partition(" ")[0] for it in self.arrays()], ["0-1%2", "0-0%2"])
        self.assertEqual({name: it.cost for name, it in self.lines().items()}, {"a b/one": 3, "a b/three": 5, "a b/two": 4})

    def test_how_an_element_ended_is_told_where_no_line_came(self):
        self.tasks(one="plan 3", two="plan 4")
        self.put("lost", "0")
        self.batch("--slurm", "--tries", "1")
        self.assertEqual(self.lines()["a b/one"].fault, "no line came; Slurm: OUT_OF_MEMORY")
        self.assertEqual(self.lines()["a b/two"].cost, 4)
        self.batch("--slurm")
        self.assertEqual(self.lines()["a b/one"].cost, 3)


def load_tests(loader, tests, _):
    """Those of files and of the report too."""
    tests.addTests(loader.loadTestsFromNames(["test_batch_files", "test_batch_report"]))
    return tests


if __name__ == "__main__":
    # A shell that starts this in the background has it ignore SIGINT, and then whatever it starts does so too.
    signal.signal(signal.SIGINT, signal.default_int_handler)
    unittest.main()
