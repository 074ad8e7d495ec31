"""Parts of PDDL that the language has not, and that cannot be said otherwise: what they are, told where one is used.

Their words may be names of predicates, too: an atom's terms are words, and these parts have lists in their places."""

from __future__ import annotations

from ipc_files.told import Refusal
from ipc_files.trees import Group, Node, Word

DURATIONS = "durations (PDDL 2.1) are not supported"
NUMBERS = "numbers that actions change (PDDL 2.1) are not supported, but for `(increase (total-cost) ..)`"
COMPARED = "conditions on numbers (PDDL 2.1) are not supported"
PREFERENCES = "preferences (PDDL 3.0) are not supported"
CONSTRAINTS = "constraints on plans (PDDL 3.0) are not supported"
PROCESSES = "processes and events (PDDL+) are not supported"
HIERARCHIES = "hierarchies of tasks (HDDL) are not supported"
CHANCE = "effects by chance, or by choice, are not supported"
TIMED = "facts at a time (PDDL 2.2) are not supported"
METRIC = "only `(total-cost)` can be minimized, or `(total-time)` without durations"

SECTIONS = {":durative-action": DURATIONS, ":constraints": CONSTRAINTS, ":process": PROCESSES, ":event": PROCESSES,
            ":task": HIERARCHIES, ":method": HIERARCHIES, ":htn": HIERARCHIES}
EFFECTS = {"increase": NUMBERS, "decrease": NUMBERS, "assign": NUMBERS, "scale-up": NUMBERS, "scale-down": NUMBERS,
           "oneof": CHANCE, "probabilistic": CHANCE, "preference": PREFERENCES}
CONDITIONS = {"preference": PREFERENCES, "<": COMPARED, ">": COMPARED, "<=": COMPARED, ">=": COMPARED, "=": COMPARED,
              **dict.fromkeys(("always", "sometime", "within", "at-most-once", "sometime-after", "sometime-before", "always-within",
                               "hold-during", "hold-after"), CONSTRAINTS),
              **dict.fromkeys(("at start", "over all", "at end"), DURATIONS)}


def refuse_section(section: Group) -> None:
    """Refuses a section of such a part."""
    if section.head in SECTIONS:
        raise Refusal(section.parts[0].at, f"`{section.head}`: {SECTIONS[section.head]}")


def refuse_condition(formula: Group) -> None:
    """Refuses a condition of such a part."""
    refuse_of(formula, CONDITIONS)


def refuse_effect(effect: Group) -> None:
    """Refuses an effect of such a part."""
    refuse_of(effect, EFFECTS)


def refuse_of(node: Group, causes: dict[str, str]) -> None:
    """Refuses a list whose first word, or first two, begin such a part, and that has a list in it."""
    second = node.parts[1] if len(node.parts) > 1 else None
    for head in (node.head, f"{node.head} {second.low}" if isinstance(second, Word) else ""):
        if head in causes and any(isinstance(it, Group) for it in node.parts):
            raise Refusal(node.parts[0].at, f"`{head}`: {causes[head]}")


def refuse_fact(fact: Group) -> None:
    """Refuses a fact at a time, as `(at 10 (empty t1))`."""
    if fact.head == "at" and len(fact.parts) == 3 and isinstance(fact.parts[2], Group):
        raise Refusal(fact.parts[0].at, f"`at`: {TIMED}")


def refuse_metric(minimized: Word, of: Node) -> None:
    """Refuses what is maximized, and a metric of other numbers."""
    if minimized.low == "maximize":
        raise Refusal(minimized.at, f"`maximize`: {METRIC}")
    if isinstance(of, Group) and any(isinstance(it, Group) and it.head == "is-violated" for it in lists_in(of)):
        raise Refusal(of.at, f"`is-violated`: {PREFERENCES}")


def lists_in(node: Node) -> list[Group]:
    """All lists of a tree."""
    return [node, *(inner for it in node.parts for inner in lists_in(it))] if isinstance(node, Group) else []
