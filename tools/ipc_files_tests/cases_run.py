"""The texts of crates/cases, which go through all that the program takes and refuses: what it takes the tool writes byte for byte,
and what the tool writes the program takes."""

from __future__ import annotations

import re
from collections import Counter
from pathlib import Path
from typing import Iterator

from checks import Checks
from ipc_files.told import Refusal
from random_runs import Runs

CASES = Path(__file__).parents[2] / "crates" / "cases" / "data"
ESCAPES = {b"n": b"\n", b"r": b"\r", b"t": b"\t", b"\\": b"\\"}
# Longer texts are for the program's limits, and would take long here.
MOST_BYTES = 300_000


def unescaped(text: bytes) -> bytes:
    """What stands behind a colon, with its escapes."""
    return re.sub(rb"\\(x[0-9a-fA-F]{2}|[nrt\\])", lambda it: ESCAPES.get(it[1]) or bytes([int(it[1][1:], 16)]), text)


def sections_of(block: bytes) -> dict[bytes, bytes]:
    """The sections of a case that are texts, and its words as that of `run`."""
    found, name = {}, None
    for line in block.splitlines(keepends=True):
        if not line.startswith(b"--- "):
            if name is not None:
                found[name] += line
            continue
        name, colon, text = line[4:].rstrip(b"\n").partition(b": ")
        if line.startswith(b"--- run"):
            found[b"run"], name = line[7:].strip(), None
        elif colon:
            found[name], name = unescaped(text), None
        else:
            found[name] = b""
    return found


def texts() -> Iterator[tuple[bytes, bytes]]:
    """The domains and problems of all cases, each pair once."""
    seen = set()
    for path in sorted(CASES.glob("*.cases")):
        shared, *cases = re.split(rb"(?m)^===.*\n", path.read_bytes())
        for it in cases:
            sections = {**sections_of(shared), **sections_of(it)}
            files = sections.get(b"run", b"").split()[1:3]
            pair = tuple(map(sections.get, files))
            if len(pair) == 2 and None not in pair and pair not in seen and sum(map(len, pair)) <= MOST_BYTES:
                seen.add(pair)
                yield pair


def try_cases(checks: Checks, program: str, room: Path) -> None:
    """Compares the tool with the program over each pair of texts."""
    runs, counts, faults = Runs(program, room), Counter(), []
    for domain, problem in texts():
        status, said = runs.solve(domain, problem)
        try:
            new_domain, new_problem, table = runs.convert(domain, problem)
        except Refusal as why:
            counts["refused"] += 1
            if status != 20:
                faults.append(f"the tool refuses what the program takes: {why}: {domain + problem}")
            continue
        if status != 20:
            counts["taken"] += 1
            if table["changes"] or (new_domain, new_problem) != (domain, problem):
                faults.append(f"what the program takes is changed: {table['changes']}: {domain + problem}")
        else:
            counts["written otherwise"] += 1
            status, said = runs.solve(new_domain, new_problem)
            if status == 20 or not table["changes"]:
                faults.append(f"what the tool writes is refused, or no change is told: {said}: {domain + problem}")
    told = ", ".join(f"{it}: {number}" for it, number in sorted(counts.items()))
    checks.check(f"the texts of crates/cases ({told})", not faults, faults[:3])
    checks.check("they are some hundreds", min(counts["taken"], counts["refused"]) > 200, counts)
