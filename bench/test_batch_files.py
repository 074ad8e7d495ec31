#!/usr/bin/env python3
"""Tries which files are tasks, and how lines are written and read: python3 bench/test_batch_files.py.

Nothing is run. `bench/test_batch.py` tries these too."""

import errno
import os
import sys
import unittest
from pathlib import Path
from unittest import mock

sys.dont_write_bytecode = True
sys.path.insert(0, os.path.dirname(os.path.abspath(__file__)))
from batching.layouts import find  # noqa: E402
from batching.lines import Explained, Line, LinesFile, Result, line_of, read_lines  # noqa: E402
from batching.told import told_on_the_way  # noqa: E402
from batching.unit import explained_in  # noqa: E402
from test_batch import Room  # noqa: E402


class Layouts(Room):
    def names(self, *paths):
        return [it.name for it in find([str(self.room / it) for it in paths])[0]]

    def test_each_layout_has_its_domain(self):
        layouts = {
            "one/domain.pddl": ["one/p1.pddl", "one/p2.pddl"],
            "two/p01-domain.pddl": ["two/p01.pddl", "two/p01-airport1.pddl"],
            "three/domain-p1.pddl": ["three/p1.pddl"],
            "four/domain_p1.pddl": ["four/p1.pddl"],
            "five/domain.pddl": ["five/instances/instance-1.pddl"],
            "six/domains/domain-1.pddl": ["six/instances/instance-1.pddl"],
            "seven/task01-domain.pddl": ["seven/task01.pddl", "seven/task01-easy.pddl"],
            "eight/domain.pddl": ["eight/pfile1", "eight/pfile12", "eight/prob-3"],
            "nine/domain": ["nine/pfile1"],
            "ten/DOMAIN.PDDL": ["ten/P1.PDDL", "ten/p2.pddl"],
            "eleven/P3-Domain.PDDL": ["eleven/p3.pddl"],
        }
        for domain, problems in layouts.items():
            for it in [domain, *problems]:
                self.put(f"tasks/{it}")
        tasks, left_out = find([str(self.room / "tasks")])
        self.assertEqual(left_out, [])
        below = lambda path: os.path.relpath(path, self.room / "tasks")
        found = {below(it.problem): below(it.domain) for it in tasks}
        self.assertEqual(found, {problem: domain for domain, problems in layouts.items() for problem in problems})

    def test_the_nearest_domain_counts(self):
        for it in ("domain.pddl", "p1.pddl", "p1-domain.pddl", "p2.pddl", "p1-hard.pddl", "p1-hard-domain.pddl", "p10.pddl"):
            self.put(f"tasks/{it}")
        tasks, _ = find([str(self.room / "tasks")])
        self.assertEqual({os.path.basename(it.problem): os.path.basename(it.domain) for it in tasks},
                         {"p1.pddl": "p1-domain.pddl", "p1-hard.pddl": "p1-hard-domain.pddl", "p2.pddl": "domain.pddl",
                          "p10.pddl": "domain.pddl"})

    def test_other_files_are_no_tasks(self):
        for it in ("domain.pddl", "README", "pfile", "pfile1.txt", "pfile1~", "p1.pddl.orig", ".p1.pddl", "1", "Makefile2"):
            self.put(f"tasks/{it}")
        self.assertEqual(find([str(self.room / "tasks")]), ([], []))

    def test_a_task_has_one_name_by_whichever_folder_it_is_found(self):
        for it in ("domain.pddl", "p10.pddl", "p2.pddl"):
            self.put(f"all/a b/{it}")
        self.assertEqual(self.names("all"), ["a b/p2", "a b/p10"])
        self.assertEqual(self.names("all/a b"), ["a b/p2", "a b/p10"])
        self.assertEqual(self.names("all/a b/p2.pddl"), ["a b/p2"])
        self.assertEqual(self.names("all", "all/a b", "all/a b/p2.pddl"), ["a b/p2", "a b/p10"])

    def test_a_link_to_a_task_makes_no_further_one(self):
        self.put("all/a/domain.pddl")
        self.put("all/a/p1.pddl")
        (self.room / "all/b").symlink_to(self.room / "all/a")
        self.assertEqual(self.names("all/a", "all/b"), ["a/p1"])

    def test_two_tasks_of_one_name_are_refused(self):
        for it in ("x/a", "y/a"):
            self.put(f"{it}/domain.pddl")
            self.put(f"{it}/p1.pddl")
        with self.assertRaisesRegex(SystemExit, "two tasks would be called a/p1"):
            self.names("x/a", "y/a")
        self.assertEqual(sorted(find([str(self.room)])[0], key=lambda it: it.name)[0].name, "x/a/p1")

    def test_what_makes_no_task_is_told(self):
        self.put("tasks/a/p1.pddl")
        os.mkfifo(self.room / "tasks/a/p2.pddl")
        self.assertEqual([it.why for it in find([str(self.room / "tasks")])[1]], ["has no domain", "is no file"])


class Lines(Room):
    def setUp(self):
        super().setUp()
        self.path = str(self.room / "results.jsonl")

    def test_a_line_reads_back(self):
        line = Line("a b/p1", Result.PLAN, status=0, cost=3, seconds=0.5)
        self.assertEqual(line_of(line.text().encode()), line)
        self.assertNotRegex(line.text(), "bound|explained|reached")
        refused = Line("a b/p2", Result.REFUSED, status=20, explained=Explained("domain.pddl", 3, 8, "`a` is none."))
        self.assertEqual(line_of(refused.text().encode()), refused)
        self.assertEqual(refused.explained.place, "domain.pddl:3:8")

    def test_what_met_a_limit_or_failed_wants_more(self):
        answered = {Result.PLAN, Result.UNSOLVABLE, Result.REFUSED}
        self.assertEqual({it for it in Result if not Line("a/p1", it).wants_more}, answered)

    def test_half_a_line_is_none_and_goes(self):
        whole = Line("a/p1", Result.TIME).text()
        for cut in range(len(whole)):
            Path(self.path).write_text(whole + whole[:cut])
            self.assertEqual(len(read_lines(self.path)), 1)
        file = LinesFile(self.path)
        file.add(Line("a/p2", Result.TIME))
        file.close()
        self.assertEqual([it.task for it in read_lines(self.path)], ["a/p1", "a/p2"])

    def test_what_is_damaged_is_no_line(self):
        for text in ("{}", "[]", "3", "{\"task\":1", "{\"task\":\"a\",\"result\":\"new\"}", "\0\0"):
            Path(self.path).write_text(text + "\n" + Line("a/p1", Result.TIME).text())
            self.assertEqual([it.task for it in read_lines(self.path)], ["a/p1"])

    def test_a_full_disk_leaves_whole_lines(self):
        file = LinesFile(self.path)
        file.add(Line("a/p1", Result.TIME))
        write = os.pwrite
        with mock.patch("os.pwrite", side_effect=[0, OSError(errno.ENOSPC, "full")]):
            self.assertRaises(OSError, file.add, Line("a/p2", Result.TIME))
        write(file.at, b"half", file.size)
        file.add(Line("a/p3", Result.TIME))
        self.assertEqual([it.task for it in read_lines(self.path)], ["a/p1", "a/p3"])


class Told(unittest.TestCase):
    """What the program says, in the words that it has today and in those that compilers have."""

    def test_both_forms_of_a_refusal_are_read(self):
        for first, rest, sentence in (
            ("d:3:8: fault 7 Unexpected (columns count bytes)", "   3 | a. b\n     | ^\n`a. b` may not. More.", "`a. b` may not."),
            ("d:3:8: error: `a. b` takes 2, not 1 [18 WrongArity]", "   3 | x\n     | ^", "`a. b` takes 2, not 1"),
            ("d:3:8: error: é [2 Byte] (columns count bytes)", "", "é"),
        ):
            self.assertEqual(explained_in(f"{first}\n{rest}\n"), Explained("d", 3, 8, sentence))
        self.assertIsNone(explained_in("nothing\n"))

    def test_half_a_line_of_progress_tells_nothing(self):
        whole = "progress=search bound=2 listed=1 expanded=0\n"
        self.assertEqual(told_on_the_way(whole + "progress=search bound=3 listed=20"),
                         {"start_value": 2, "reached": 2, "expanded": 0})
        self.assertEqual(told_on_the_way("progress=failed file=a b=c d\nother\n"), {})


if __name__ == "__main__":
    unittest.main()
