#!/usr/bin/env python3
"""Tries `optplan.py` and docs/python.md: bindings/test_optplan.py [PROGRAM] [TEST..].

The program is the one that is named by a path, or by OPTPLAN, or the one that the module finds. It takes some seconds."""

from __future__ import annotations

import contextlib
import io
import os
import pickle
import re
import signal
import sys
import tempfile
import time
import unittest
from pathlib import Path

sys.dont_write_bytecode = True
HERE = Path(__file__).resolve().parent
EXAMPLES = HERE.parent / "examples"
sys.path.insert(0, str(HERE))
import optplan  # noqa: E402
from optplan import Accepted, Invalid, NotAccepted, Plan, Progress, Step, Unknown, Unsolvable, Valid  # noqa: E402

RIVER = EXAMPLES / "river" / "domain.pddl", EXAMPLES / "river" / "problem.pddl"
BLOCKS = EXAMPLES / "blocks" / "domain.pddl"
# Fifteen blocks in towers of three that have to make one tower: a search of minutes.
TOWERS = [[f"b{tower}-{it}" for it in range(3)] for tower in range(5)]
WANTED = [it for layer in zip(*TOWERS) for it in layer]
# More than a pipe holds, on both streams, and then a plan.
TALKATIVE = """
for it in range(20_000):
    print(f"progress=search bound={it} listed=1 expanded=0", file=sys.stderr)
print('{"command":"solve","cost":1,"result":"plan","steps":[' + '"(go there)",' * 20_000 + '"(go)"]}')
"""


def towers_task() -> str:
    def on(order: list[str]) -> str:
        return " ".join(f"(on {above} {below})" for below, above in zip(order, order[1:]))
    start = " ".join(f"(on-table {it[0]}) {on(it)} (clear {it[-1]})" for it in TOWERS)
    return (f"(define (problem towers) (:domain blocks) (:objects {' '.join(WANTED)}) (:init (hand-empty) {start}) "
            f"(:goal (and {on(WANTED)})))")


class Room(unittest.TestCase):
    """A test in a folder of its own, which is the working folder."""

    def setUp(self) -> None:
        room = tempfile.TemporaryDirectory(prefix="test-optplan.")
        self.addCleanup(room.cleanup)
        self.addCleanup(os.chdir, os.getcwd())
        os.chdir(room.name)

    def put(self, name: str, text: str) -> str:
        Path(name).write_text(text, encoding="utf-8")
        return name

    def changed(self, path: Path, old: str, new: str, name: str) -> str:
        text = path.read_text(encoding="utf-8")
        self.assertIn(old, text)
        return self.put(name, text.replace(old, new))

    def fake(self, script: str) -> str:
        """A program that does this in place of the real one."""
        name = os.path.abspath(self.put("fake", f"#!{sys.executable}\nimport os, signal, sys, time\n{script}\n"))
        os.chmod(name, 0o755)
        return name


class Solves(Room):
    def test_a_cheapest_plan_comes_with_its_steps(self) -> None:
        plan = optplan.solve(*RIVER)
        assert isinstance(plan, Plan)
        self.assertEqual((plan.cost, len(plan.steps), plan.steps[1]), (7, 7, Step("row", ("right", "left"))))
        self.assertTrue(str(plan).endswith("(take goat left right)\n; cost = 7"))
        self.assertEqual(optplan.solve(EXAMPLES / "go/domain.pddl", EXAMPLES / "go/problem.pddl"), Plan(1, (Step("go"),)))

    def test_each_example_is_solved_and_its_certificate_accepted(self) -> None:
        domains = sorted(EXAMPLES.glob("*/domain.pddl"))
        self.assertTrue(domains)
        for it in domains:
            task = it, it.with_name("problem.pddl")
            with self.subTest(it.parent.name):
                plan = optplan.solve(*task, cert="cert.txt")
                assert isinstance(plan, Plan)
                self.assertEqual(optplan.validate(*task, plan), Valid(plan.cost))
                self.assertEqual(optplan.check(*task, "cert.txt", plan=plan), Accepted("optimal", plan.cost))

    def test_a_task_may_have_no_plan(self) -> None:
        hungry = self.changed(RIVER[1], "(eats wolf goat)", "(eats wolf goat) (eats wolf cabbage)", "hungry.pddl")
        self.assertEqual(optplan.solve(RIVER[0], hungry, cert="never.txt"), Unsolvable())
        self.assertEqual(optplan.check(RIVER[0], hungry, "never.txt"), Accepted("unsolvable", None))

    def test_at_a_limit_there_is_a_bound_or_nothing(self) -> None:
        self.assertEqual(optplan.solve(*RIVER, states=5, cert="bound.txt"), Unknown("states", 5))
        self.assertEqual(optplan.check(*RIVER, "bound.txt"), Accepted("at least", 5))
        self.assertEqual(optplan.solve(*RIVER, instances=5), Unknown("instances", None))

    def test_the_time_is_limited(self) -> None:
        answer = optplan.solve(BLOCKS, self.put("towers.pddl", towers_task()), seconds=1, states=16_777_216)
        assert isinstance(answer, Unknown)
        self.assertEqual(answer.limit, "time")
        self.assertGreater(answer.bound or 0, 0)

    def test_files_may_begin_with_a_hyphen(self) -> None:
        for name, path in zip(("--domain", "-p"), RIVER):
            self.put(name, path.read_text(encoding="utf-8"))
        plan = optplan.solve("--domain", "-p", cert="-c", plan="--plan", cert_version=2)
        self.assertTrue(Path("-c").read_text(encoding="utf-8").startswith("pddl-cert 2\n"))
        self.assertEqual(optplan.check("--domain", "-p", "-c", plan="--plan"), Accepted("optimal", 7))
        assert isinstance(plan, Plan)
        self.assertEqual(optplan.explain("--domain", "-p", plan, cert="-c").verdict, Accepted("optimal", 7))


class Judges(Room):
    def test_a_plan_that_fails_is_invalid(self) -> None:
        plan = optplan.solve(*RIVER)
        assert isinstance(plan, Plan)
        self.assertEqual(optplan.validate(*RIVER, plan.steps), Valid(7))
        self.assertEqual(optplan.validate(*RIVER, plan.steps[:3]), Invalid(None))
        self.assertEqual(optplan.validate(*RIVER, []), Invalid(None))
        self.assertEqual(optplan.validate(*RIVER, [*plan.steps[:2], *plan.steps[3:]]), Invalid(3))

    def test_an_altered_certificate_is_not_accepted(self) -> None:
        plan = optplan.solve(*RIVER, cert="cert.txt", plan="plan.txt")
        assert isinstance(plan, Plan)
        more = self.changed(Path("cert.txt"), "claim bound 7", "claim bound 8", "more.txt")
        self.assertEqual(optplan.check(*RIVER, more), NotAccepted(51, "CutWeak"))
        explained = optplan.explain(*RIVER, plan, cert=more)
        self.assertEqual(explained.verdict, NotAccepted(51, "CutWeak"))
        self.assertTrue(str(explained).startswith("not accepted 51 CutWeak line 18\n"))
        optplan.solve(*RIVER, states=5, cert="bound.txt")
        self.assertEqual(optplan.check(*RIVER, "bound.txt", plan="plan.txt"), NotAccepted(54, "PlanDearer"))


class Explains(Room):
    def test_what_a_task_holds(self) -> None:
        explained = optplan.explain(*RIVER)
        self.assertEqual(explained.verdict, optplan.Task(3, 5, 3, 0, 2, (), 8, 8, None))
        self.assertIsNone(explained.place)
        few = optplan.explain(*RIVER, instances=5)
        self.assertEqual(few.verdict, optplan.Task(3, 5, 3, 0, 2, (), None, None, "instances"))

    def test_why_a_plan_fails_and_where(self) -> None:
        plan = self.put("plan.txt", "(take goat left right)\n  (take goat left right)\n")
        explained = optplan.explain(*RIVER, plan, trace=True)
        self.assertEqual(explained.verdict, Invalid(2))
        self.assertEqual(explained.place, optplan.Place("plan.txt", 2, 3, 22))
        self.assertIn("adds (at goat right)", explained.text)

    def test_a_plan_that_solves(self) -> None:
        explained = optplan.explain(*RIVER, EXAMPLES / "river" / "plan.txt")
        self.assertEqual(explained.verdict, Valid(7))
        self.assertTrue(str(explained).endswith("valid, cost 7"))

    def test_a_fault_is_returned(self) -> None:
        typo = self.changed(RIVER[1], "(at goat left)", "(at gote left)", "typo.pddl")
        explained = optplan.explain(RIVER[0], typo)
        assert isinstance(explained.verdict, optplan.Fault)
        self.assertEqual((explained.verdict.number, explained.place), (17, optplan.Place("typo.pddl", 7, 39, 4)))


class Refuses(Room):
    def test_a_refused_text_has_a_number_and_a_place(self) -> None:
        typos = self.changed(RIVER[1], "(at goat left)", "(at gote left)", "typos.pddl")
        typos = self.changed(Path(typos), "right)))", "rihgt)))", "typos.pddl")
        self.put("cert.txt", "")
        for call in (lambda: optplan.solve(RIVER[0], typos), lambda: optplan.validate(RIVER[0], typos, []),
                     lambda: optplan.check(RIVER[0], typos, "cert.txt")):
            with self.assertRaises(optplan.Fault) as raised:
                call()
            fault = raised.exception
            self.assertEqual((fault.number, fault.name, fault.file), (17, "UnknownName", "typos.pddl"))
            self.assertEqual((fault.line, fault.column, fault.length, len(fault.further)), (7, 39, 4, 1))
            self.assertIn("did you mean `goat`?", str(fault))

    def test_a_refused_plan_has_a_place_too(self) -> None:
        plan, cert = self.put("plan.txt", "(row left right)\n (fly left)\n"), self.put("cert.txt", "")
        for call in (lambda: optplan.validate(*RIVER, plan), lambda: optplan.check(*RIVER, cert, plan=plan)):
            with self.assertRaises(optplan.Fault) as raised:
                call()
            fault = raised.exception
            self.assertEqual((fault.number, fault.file, fault.line, fault.column), (32, "plan.txt", 2, 3))

    def test_a_missing_file_is_named(self) -> None:
        for call, file in ((lambda: optplan.solve(RIVER[0], "no: ne.pddl"), "no: ne.pddl"),
                           (lambda: optplan.check(*RIVER, "cert.txt"), "cert.txt"),
                           (lambda: optplan.explain(*RIVER, "plan.txt"), "plan.txt"),
                           (lambda: optplan.solve(*RIVER, cert="missing/a cert.txt"), "missing/a cert.txt")):
            with self.assertRaises(optplan.FileError) as raised:
                call()
            self.assertEqual(raised.exception.file, file)

    def test_exceptions_can_be_pickled(self) -> None:
        for call in (lambda: optplan.solve(RIVER[0], RIVER[0]), lambda: optplan.solve(RIVER[0], "none"),
                     lambda: optplan.solve(*RIVER, program=self.fake("os.kill(os.getpid(), signal.SIGKILL)"))):
            with self.assertRaises(optplan.OptplanError) as raised:
                call()
            again = pickle.loads(pickle.dumps(raised.exception))
            self.assertEqual((str(again), vars(again)), (str(raised.exception), vars(raised.exception)))

    def test_words_that_are_not_taken(self) -> None:
        for call in (lambda: optplan.solve(*RIVER, seconds=0), lambda: optplan.solve(*RIVER, cert=RIVER[0]),
                     lambda: optplan.explain(*RIVER, trace=True)):
            with self.assertRaisesRegex(optplan.UsageError, "optplan: nothing was done"):
                call()


class Programs(Room):
    def test_a_missing_program(self) -> None:
        with self.assertRaisesRegex(optplan.ProgramMissing, "there is no program ./nothing"):
            optplan.solve(*RIVER, program="./nothing")
        self.put("text", "no program")
        os.chmod("text", 0o755)
        with self.assertRaisesRegex(optplan.ProgramMissing, "cannot be started"):
            optplan.solve(*RIVER, program="./text")

    def test_the_variable_and_the_path_name_it(self) -> None:
        fake, kept = self.fake(""), dict(os.environ)
        os.rename(fake, "optplan")
        self.addCleanup(os.environ.update, kept)
        os.environ["OPTPLAN"] = "./optplan"
        self.assertEqual(optplan.find_program(), "./optplan")
        del os.environ["OPTPLAN"]
        os.environ["PATH"] = os.getcwd()
        self.assertEqual(optplan.find_program(), os.path.join(os.getcwd(), "optplan"))

    def test_a_program_that_ends_otherwise(self) -> None:
        for script, kind in (("sys.exit(22)", optplan.OutOfMemory), ("sys.exit(3)", optplan.OptplanError),
                             ("print('{}')", optplan.OptplanError), ("print('[1')", optplan.OptplanError),
                             ("print('[1]')", optplan.OptplanError), ("", optplan.OptplanError)):
            with self.subTest(script), self.assertRaises(optplan.OptplanError) as raised:
                optplan.solve(*RIVER, program=self.fake(script))
            self.assertIs(type(raised.exception), kind)

    def test_a_signal_is_told(self) -> None:
        with self.assertRaises(optplan.Killed) as raised:
            optplan.validate(*RIVER, [], program=self.fake("os.kill(os.getpid(), signal.SIGKILL)"))
        self.assertEqual(raised.exception.signal, signal.SIGKILL)


class Runs(Room):
    def test_bounds_never_fall_and_the_answer_comes_last(self) -> None:
        task = BLOCKS, self.put("towers.pddl", towers_task())
        with optplan.solving(*task, states=200_000, cert="cert.txt") as run:
            told = list(run)
            answer = run.result()
        bounds = [it.bound for it in told]
        self.assertEqual(bounds, sorted(bounds))
        self.assertEqual([told[0].kind, told[1].kind, *(it.kind for it in told[-3:])],
                         ["ground", "search", "limit", "end", "certificate"])
        self.assertEqual((told[-1].option, told[-1].size), ("--states", os.path.getsize("cert.txt")))
        self.assertEqual(answer, Unknown("states", bounds[-1]))
        self.assertEqual(run.result(), answer)

    def test_closing_ends_the_program(self) -> None:
        run = optplan.solving(BLOCKS, self.put("towers.pddl", towers_task()), states=16_777_216)
        self.assertEqual(next(run).kind, "ground")
        self.assertIsNone(run._process.poll())
        run.close()
        self.assertEqual(run._process.poll(), -signal.SIGKILL)
        self.assertEqual(list(run), [])
        with self.assertRaisesRegex(optplan.OptplanError, "closed"):
            run.result()

    def test_a_forgotten_run_ends(self) -> None:
        run = optplan.solving(*RIVER, program=self.fake("time.sleep(60)"))
        process = run._process
        del run
        self.assertEqual(process.poll(), -signal.SIGKILL)

    def test_an_error_ends_the_program(self) -> None:
        begun = time.monotonic()
        with self.assertRaises(KeyError), optplan.solving(*RIVER, program=self.fake("time.sleep(60)")):
            raise KeyError
        self.assertLess(time.monotonic() - begun, 30)

    def test_full_pipes_do_not_block(self) -> None:
        run = optplan.solving(*RIVER, program=self.fake(TALKATIVE))
        plan = run.result()
        assert isinstance(plan, Plan)
        self.assertEqual((len(plan.steps), plan.steps[0]), (20_001, Step("go", ("there",))))

    def test_a_failure_comes_at_the_end_and_stays(self) -> None:
        with optplan.solving(*RIVER, cert="missing/cert.txt") as run:
            with self.assertRaises(optplan.FileError):
                for it in run:
                    last = it
            self.assertEqual((last.kind, last.file), ("failed", "missing/cert.txt"))
            with self.assertRaises(optplan.FileError):
                run.result()

    def test_what_later_programs_may_tell_is_passed_over(self) -> None:
        told = """print("progress=later depth=3 bound=4\\nwhat else", file=sys.stderr)"""
        answer = """print('{"command":"solve","depth":3,"result":"unsolvable"}')"""
        run = optplan.solving(*RIVER, program=self.fake(f"{told}\n{answer}"))
        self.assertEqual((list(run), run.result()), ([Progress("later", bound=4)], Unsolvable()))


class Page(Room):
    def test_each_block_of_the_page_runs(self) -> None:
        """One after another, as one program; a block `text` has what the block before it prints."""
        os.symlink(EXAMPLES, "examples")
        page = (HERE.parent / "docs" / "python.md").read_text(encoding="utf-8")
        blocks = re.findall(r"^```python\n(.*?)^```\n(?:```text\n(.*?)^```$)?", page, re.S | re.M)
        self.assertTrue(blocks)
        names: dict[str, object] = {}
        for code, wanted in blocks:
            with contextlib.redirect_stdout(io.StringIO()) as printed:
                exec(code, names)
            self.assertEqual(printed.getvalue(), wanted or printed.getvalue())


if __name__ == "__main__":
    # The first word may be a path of the program.
    if "/" in "".join(sys.argv[1:2]):
        os.environ["OPTPLAN"] = os.path.abspath(sys.argv.pop(1))
    elif "/" in os.environ.get("OPTPLAN", ""):
        os.environ["OPTPLAN"] = os.path.abspath(os.environ["OPTPLAN"])
    unittest.main()
