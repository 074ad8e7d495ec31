"""What the program tells on its standard error with --progress (docs/usage.md, "Progress")."""

from __future__ import annotations

import re

PROGRESS = re.compile(r"progress=([a-z]+)((?: [a-z]+=[^ ]*)*)")


def progress_lines(errors: str) -> list[tuple[str, dict[str, int]]]:
    """The lines of progress that are whole, each with its numbers."""
    found = []
    for line in errors.split("\n")[:-1]:
        told = PROGRESS.fullmatch(line)
        if told:
            pairs = (it.partition("=") for it in told[2].split())
            found.append((told[1], {key: int(value) for key, _, value in pairs if value.isdecimal()}))
    return found


def without_progress(errors: str) -> str:
    """What else the standard error has."""
    return "\n".join(it for it in errors.splitlines() if not it.startswith("progress="))


def told_on_the_way(errors: str) -> dict:
    """The keys of a line that lines of progress give."""
    keys: dict = {}
    for kind, numbers in progress_lines(errors):
        if kind == "ground":
            keys.update(instances=numbers.get("instances"), atoms=numbers.get("atoms"))
        elif kind in ("search", "end") and "expanded" in numbers:
            keys.update(expanded=numbers["expanded"])
        if kind == "search" and "bound" in numbers:
            # A search by tables begins anew, with one listed state.
            if numbers.get("listed") == 1:
                keys.update(start_value=numbers["bound"])
            keys.update(reached=max(numbers["bound"], keys.get("reached", 0)))
    return keys
