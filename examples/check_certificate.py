#!/usr/bin/env python3
"""Checks a certificate, by docs/certificates.md and docs/language.md alone: it shares no line with optplan.

    check_certificate.py DOMAIN PROBLEM CERT [--plan FILE] [--instances N]

It prints `at least C`, `unsolvable` or, with a plan, `optimal cost C`, and ends with status 0; or it prints
`not accepted NUMBER NAME`, with the line where there is one, and ends with status 12. Domain, problem and plan are taken to
be well-formed, as `optplan` has said of them. It goes through all instances of each open state: it is for small tasks.
"""
import argparse
import collections
import itertools
import operator
import os
import sys

sys.dont_write_bytecode = True
sys.path.insert(0, os.path.dirname(os.path.realpath(__file__)))

from certificate_text import MOST_ATOMS, Refused, read_certificate  # noqa: E402
from exchanges import Exchanges  # noqa: E402
from landmark_values import is_fair  # noqa: E402
from pddl_task import Task, lists_of  # noqa: E402


# ---- fairness

def ways_of(atom, literals, changes):
    """The ways in which an instance may change an atom: what it is before, 0 or 1, less what it is after."""
    made = {(it.adds, it.when is None) for it in changes if it.atom == atom}
    found = set()
    for before in (0, 1):
        if (atom, before == 0) in literals:
            continue
        if (True, True) in made:
            afters = {1}
        else:
            afters = {0 if (False, True) in made else before}
            afters |= {1} if (True, False) in made else set()
            afters |= {0} if (False, False) in made and (False, True) not in made else set()
        found |= {before - after for after in afters}
    return found


class Fairness:
    """What the functions of a certificate may lose by an instance, and what they may keep at goals.

    Atoms have numbers that are in the certificate, true at the start or changed by an instance that is kept: no other is ever true.
    """

    def __init__(self, said, numbered):
        self.said, self.numbered = said, numbered
        self.weights = {atom: weights for atom, weights in said.weights.items() if any(weights)}
        self.is_all_shut_out = any(not table.rows for table in said.tables)

    def losses(self, instance):
        """What each function may lose at most by an instance that is not shut out."""
        by_tables = (self.said.tables[at].losses(*seen) for at, seen in self.seen(instance).items())
        return list(map(sum, zip(self.losses_by_atoms(instance), *by_tables)))

    def is_shut_out(self, instance):
        """Whether a table has no row that agrees with an instance, or it wants an atom without a number: never in versions 1 and 2."""
        if self.said.version < 3:
            return False
        if self.is_all_shut_out or not instance.wanted <= self.numbered:
            return True
        wanted, unwanted = map(self.said.bits_of, (instance.wanted, instance.unwanted))
        return not all(self.said.tables[at].has_agreeing(wanted.get(at, 0), unwanted.get(at, 0)) for at in {**wanted, **unwanted})

    def seen(self, instance):
        """What an instance asks and changes, in bits, in each scope in which it changes something."""
        wanted, unwanted, adds, deletes = map(self.said.bits_of, (instance.wanted, instance.unwanted, instance.adds, instance.deletes))
        others = self.other_changes(instance)
        return {at: ((wanted.get(at, 0), unwanted.get(at, 0)), (adds.get(at, 0), deletes.get(at, 0), frozenset(others.get(at, ()))))
                for at in {**adds, **deletes, **others}}

    def other_changes(self, instance):
        """Of each table the changes under a `when` in its scope: the bit, whether it is added, and the bits that the condition asks."""
        found = {}
        for change in instance.changes:
            if change.when is not None:
                wanted, unwanted = ({atom for atom, is_true in change.when if is_true == it} for it in (True, False))
                if wanted <= self.numbered:
                    asked = self.said.bits_of(wanted), self.said.bits_of(unwanted)
                    for at, bit in self.said.places.get(change.atom, ()):
                        found.setdefault(at, []).append((bit, change.adds, *(it.get(at, 0) for it in asked)))
        return found

    def losses_by_atoms(self, instance):
        losses = [0] * len(self.said.constants)
        for atom in self.weights.keys() & {it.atom for it in instance.changes}:
            ways = ways_of(atom, instance.literals, instance.changes)
            for at, weight in enumerate(self.weights[atom]):
                losses[at] += max((weight * way for way in ways), default=0)
        return losses

    def kept_at_goals(self, literals):
        """What each function may keep at goals at most, by the goal's sure literals; None where a table has no row for them."""
        parts = [self.said.constants]
        for atom, weights in self.weights.items():
            if (atom, False) not in literals:
                parts.append(weights if (atom, True) in literals else [max(0, weight) for weight in weights])
        wanted, unwanted = (self.said.bits_of(atom for atom, is_true in literals if is_true == it) for it in (True, False))
        for at, table in enumerate(self.said.tables):
            rows = table.agreeing(wanted.get(at, 0), unwanted.get(at, 0))
            if not rows:
                return None
            parts.append([max(weights) for weights in zip(*map(table.rows.get, rows))])
        return list(map(sum, zip(*parts)))


def look_whether_fair(said, goal, instances, fairness):
    """Refused where an instance may lose more of a value than it costs, or any of the second one, or a goal may keep more than 0."""
    unfair, dead = {}, len(said.constants) - 1
    for instance in instances:
        for at, loss in enumerate(() if fairness.is_shut_out(instance) else fairness.losses(instance)):
            if loss > (0 if at == dead else instance.cost):
                unfair.setdefault(at, instance)
        if 0 in unfair:
            break
    kept = fairness.kept_at_goals(goal) or [0] * len(said.constants)
    for at, at_goals in enumerate(kept):
        if at in unfair:
            raise Refused(56 if at == dead else 46, instance=unfair[at].words)
        if at_goals > 0:
            raise Refused(57 if at == dead else 47)


def look_whether_landmarks_are_fair(said, goal, instances, fairness):
    """Refused where a landmark value is not fair, or one that a dead end rests on is not dead-fair."""
    asked = [it for it in instances if not fairness.is_shut_out(it)] if said.values else []
    for line, value in said.values:
        if not is_fair(value, goal, [(it, it.cost) for it in asked], fairness.numbered):
            raise Refused(62, line)
    are_dead_fair = {}
    for line, kind, *_ in said.states:
        by = said.bases.get(line)
        if kind == "dead" and by is not None:
            if by not in are_dead_fair:
                are_dead_fair[by] = is_fair(said.values[by][1], goal, [(it, 0) for it in asked], fairness.numbered)
            if not are_dead_fair[by]:
                raise Refused(63, line)


# ---- checking

def kept_instances(task, said, limit):
    """The instances that are kept and the atoms that have numbers, in order; Refused(55) where either are too many."""
    instances = list(itertools.islice(task.instances(), limit + 1))
    touched = (it.atom for instance in instances for it in instance.changes)
    numbered = dict.fromkeys([*said.atoms, *task.initial_in_order, *touched]).keys()
    if len(instances) > limit or len(numbered) > MOST_ATOMS:
        raise Refused(55)
    return instances, numbered


def by_wanted_atom(instances):
    """The instances with their numbers, by an atom that each wants: that which the fewest want, and None for those that want none."""
    counts, found = collections.Counter(atom for it in instances for atom in it.wanted), {}
    for numbered in enumerate(instances):
        found.setdefault(min(numbered[1].wanted, key=counts.get, default=None), []).append(numbered)
    return found


def exchanges_of(task, said, numbered):
    """The exchanges of a certificate; Refused(59) where one is no symmetry."""
    found = Exchanges(task, numbered)
    for line, names in said.swaps:
        if not found.add(names):
            raise Refused(59, line)
    return found


class Listing:
    """The listed states of a certificate, which are looked up by their representatives."""

    def __init__(self, said, exchanges):
        self.exchanges, self.costs = exchanges, {}
        for state, cost in said.listed.items():
            key = exchanges.representative(state)
            self.costs[key] = min(cost, self.costs.get(key, cost))

    def least_cost(self, state):
        """The least cost of a listed state with the representative of this state; None where there is none."""
        return self.costs.get(self.exchanges.representative(state))


def look_at_open(task, said, listing, instances, line, cost, state):
    """Refused(48), Refused(49) or Refused(50) where the line of an open state is wrong."""
    if task.holds(task.goal, state, {}) and (said.claim is None or cost < said.claim):
        raise Refused(48, line)
    tried = [numbered for atom in (None, *state) for numbered in instances.get(atom, ())]
    for _, instance in sorted(tried, key=operator.itemgetter(0)):
        after = instance.after(state)
        if after is None:
            continue
        least = listing.least_cost(after)
        if least is None:
            raise Refused(49, line)
        if least > cost + instance.cost:
            raise Refused(50, line)


def look_at_states(task, said, listing, instances):
    """Refused where the line of a state is wrong: the first such line."""
    instances = by_wanted_atom(instances)
    for line, kind, cost, rest, state in said.states:
        by = said.bases.get(line)
        if kind == "open":
            look_at_open(task, said, listing, instances, line, cost, state)
        elif kind == "cut":
            if rest > said.value(state, by) or cost + rest < said.claim:
                raise Refused(51, line)
        elif said.second_value(state, by) < 1:
            raise Refused(58, line)


def check(task, data, plan, limit):
    said = read_certificate(task, data)
    instances, numbered = kept_instances(task, said, limit)
    exchanges = exchanges_of(task, said, numbered)
    goal, fairness = task.sure(task.goal, {}), Fairness(said, numbered)
    look_whether_fair(said, goal, instances, fairness)
    look_whether_landmarks_are_fair(said, goal, instances, fairness)
    listing = Listing(said, exchanges)
    if listing.least_cost(task.initial) != 0:
        raise Refused(45)
    look_at_states(task, said, listing, instances)
    if plan is None:
        return "unsolvable" if said.claim is None else f"at least {said.claim}"
    cost = cost_of_plan(task, plan)
    if cost is None or said.claim is None:
        raise Refused(53)
    if cost > said.claim:
        raise Refused(54)
    return f"optimal cost {cost}"


def cost_of_plan(task, plan):
    """What the plan costs, and None where it does not solve the task."""
    state, cost = task.initial, 0
    for name, *objects in lists_of(plan):
        action = next(a for a in task.actions if a["name"] == name)
        bound = dict(zip((v for v, _ in action["parameters"]), objects))
        state = task.result(state, action, bound)
        if state is None:
            return None
        cost += task.cost(action, bound)
    return cost if task.holds(task.goal, state, {}) else None


def answer(task, data, plan=None, limit=1000000):
    """What is printed of a certificate, and the status."""
    try:
        return check(task, data, plan, limit), 0
    except Refused as refused:
        return str(refused), 12


def main():
    words = argparse.ArgumentParser()
    for file in ("domain", "problem", "cert"):
        words.add_argument(file)
    words.add_argument("--plan")
    words.add_argument("--instances", type=int, default=1000000)
    words = words.parse_args()
    text_of = lambda name: open(name, encoding="latin-1").read()
    task = Task(text_of(words.domain), text_of(words.problem))
    with open(words.cert, "rb") as file:
        said, status = answer(task, file.read(), words.plan and text_of(words.plan), words.instances)
    print(said)
    sys.exit(status)


if __name__ == "__main__":
    main()
