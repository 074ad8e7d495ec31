#!/usr/bin/env python3
"""Compares optplan's checker with examples/check_certificate.py, which shares no line with it, on the tasks of examples/.

    compare_checkers.py [TASK..] [--random M] [--tables N] [--landmarks N] [--seed S]

For each task it has `optplan solve` write a certificate, and then changes it in one place at a time: each constant and each
weight by one, up and down, and each of the first states to another kind of line. Both checkers are asked of each text, and what
they answer is compared. It prints a line for each task, and each text on which they differ; it ends with status 1 where one does.

With --random it does so with M random tasks as well (random_tasks.py). Both are asked of texts of versions 3 and 4 of each task
besides, as forge_certificates.py makes them at random: 30 of each, or as many as --tables and --landmarks say. S is the seed of
what is random, and 0 where it is not given.
"""
import argparse
import itertools
import os
import random
import subprocess
import sys
import tempfile

sys.dont_write_bytecode = True
HERE = os.path.dirname(os.path.realpath(__file__))
sys.path.insert(0, HERE)

from check_certificate import answer  # noqa: E402
from forge_certificates import landmark_texts, random_texts  # noqa: E402
from forgeries import STATES  # noqa: E402
from pddl_task import Task  # noqa: E402
from random_tasks import random_task  # noqa: E402

PROGRAM = os.environ.get("OPTPLAN", os.path.join(os.path.dirname(HERE), "optplan"))
# How many states are listed by another kind of line.
MOST_STATES = 8


def said(*words):
    """What a command prints, and its status."""
    ran = subprocess.run(words, stdout=subprocess.PIPE, text=True)
    return ran.stdout, ran.returncode


def changed_words(words, width):
    """The words of a line, each time with another number or another kind of line; so many numbers are weights."""
    if words[0] in ("constant", "atom", "row"):
        for at in range(1, 1 + width):
            for by in (-1, 1):
                yield [*words[:at], str(int(words[at]) + by), *words[at + 1:]]
    elif words[0] in ("open", "cut", "dead"):
        cost, atoms = words[1], words[3:] if words[0] == "cut" else words[2:]
        yield from (it for it in (["open", cost, *atoms], ["cut", cost, "0", *atoms], ["dead", cost, *atoms]) if it[0] != words[0])


def changed(text):
    """The text, and those that differ from it in one place, each with a word on it."""
    yield "as it is written", text
    lines = text.split("\n")
    width = len(lines[2].split(" ")) - 1
    first = next(at for at, line in enumerate(lines) if line.split(" ")[0] in STATES)
    for at, line in enumerate(lines[:first + MOST_STATES]):
        for words in changed_words(line.split(" "), width):
            yield f"line {at + 1}: {' '.join(words)}", "\n".join([*lines[:at], " ".join(words), *lines[at + 1:]])


def text_of(name):
    with open(name, encoding="latin-1") as file:
        return file.read()


def write(name, text):
    with open(name, "w", encoding="ascii") as file:
        file.write(text)


def files_of(names, count, seed):
    """The name, domain and problem of each of these tasks of examples/, all where none is named, and of so many random ones."""
    for name in names or sorted(it for it in os.listdir(HERE) if os.path.isfile(f"{HERE}/{it}/domain.pddl")):
        yield name, *(text_of(f"{HERE}/{name}/{it}.pddl") for it in ("domain", "problem"))
    for at in range(seed, seed + count):
        yield f"random {at}", *random_task(random.Random(at))


def compare(name, texts, room, counts, chance):
    """How many certificates were compared, and how many were told apart: so many of version 3, and so many of version 4."""
    domain, problem, cert = (f"{room}/{it}" for it in ("domain.pddl", "problem.pddl", "cert.txt"))
    for file, text in zip((domain, problem), texts):
        write(file, text)
    solved = said(PROGRAM, "solve", domain, problem, "--cert", cert)
    if not os.path.isfile(cert):
        print(f"{name}: optplan says {solved} and writes no certificate")
        return 0, 1
    task, written, asked, differ = Task(*texts), text_of(cert), 0, 0
    made = (texts(task, written.encode("ascii"), chance, count) for texts, count in zip((random_texts, landmark_texts), counts))
    certificates = itertools.chain(changed(written), *made)
    for asked, (what, text) in enumerate(certificates, 1):
        write(cert, text)
        theirs, status = answer(task, text.encode("ascii"))
        ours, theirs = said(PROGRAM, "check", domain, problem, cert), (f"{theirs}\n", status)
        if ours != theirs:
            differ += 1
            print(f"{name}, {what}: optplan says {ours}, and check_certificate.py {theirs}")
    return asked, differ


def main():
    words = argparse.ArgumentParser()
    words.add_argument("tasks", nargs="*")
    for name, count in (("--random", 0), ("--tables", 30), ("--landmarks", 30), ("--seed", 0)):
        words.add_argument(name, type=int, default=count)
    words = words.parse_args()
    bad = 0
    for name, *texts in files_of(words.tasks, words.random, words.seed):
        with tempfile.TemporaryDirectory() as room:
            count, differ = compare(name, texts, room, (words.tables, words.landmarks), random.Random(words.seed))
        bad += differ
        print(f"{name}: {count} texts, {differ} differ", flush=True)
    sys.exit(1 if bad else 0)


main()
