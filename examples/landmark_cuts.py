#!/usr/bin/env python3
"""Writes a certificate of version 4, by A* with LM-cut: slowly, and without a line of optplan.

    landmark_cuts.py DOMAIN PROBLEM CERT [--states N]

LM-cut is from Helmert & Domshlak 2009, "Landmarks, Critical Paths and Abstractions: What's the Difference Anyway?". Its cuts for a
state are a landmark value, which is a bound in each other state too. So a state has the value of the one that it was reached from
first, and one of its own when it is its turn. After N states are expanded (10,000) the search ends with what every plan costs at
least. Each dead end is a `dead-by`, and each cut whose bound is not 0 a `cut-by`. It prints what the certificate claims. It is for
small tasks.
"""
import argparse
import heapq
import itertools
import math
import os
import sys
from typing import NamedTuple

sys.dont_write_bytecode = True
sys.path.insert(0, os.path.dirname(os.path.realpath(__file__)))

from landmark_values import changes_that_count, may_break, worth  # noqa: E402
from pddl_task import Task  # noqa: E402

# A literal that holds everywhere: an operator that wants nothing begins with it.
ALWAYS = (), True


# ---- LM-cut

class Operator(NamedTuple):
    """A way to make one literal true: an instance's number, the literals that have to hold, and the literal."""
    instance: int
    wants: frozenset
    makes: tuple


class LandmarkCuts:
    """LM-cut over the instances of a task that are kept, but for those that want an atom without a number.

    Of the atoms that have numbers only those that are listed are looked at: zones are of them.
    """

    def __init__(self, task, instances, numbered, listed):
        self.numbered, self.listed = numbered, listed
        self.goal = self.of_listed(task.sure(task.goal, {}))
        self.instances = [it for it in instances if it.wanted <= numbered]
        self.operators = [Operator(number, self.of_listed(instance.literals | when) or {ALWAYS}, literal)
                          for number, instance in enumerate(self.instances)
                          for literal, when in changes_that_count(instance, numbered) if literal[0] in listed]
        self.literals = {(atom, is_true) for atom in listed for is_true in (False, True)}
        self.wanting = {}
        for number, it in enumerate(self.operators):
            for literal in it.wants:
                self.wanting.setdefault(literal, []).append(number)

    def of_listed(self, literals):
        return frozenset(it for it in literals if it[0] in self.listed)

    def value_for(self, state):
        """The landmark value that is made for this state, and whether it shows a dead end."""
        costs, found = [it.cost for it in self.instances], []
        while self.goal:
            levels = self.levels(state, costs)
            last = max(self.goal, key=lambda it: (levels[it], it))
            if levels[last] == 0:
                break
            zone = self.zone(state, costs, levels, last)
            cut = [number for number, it in enumerate(self.instances) if may_break(it, zone, self.numbered)]
            if not cut:
                return [(zone, 1)], True
            weight = min(costs[number] for number in cut)
            for number in cut:
                costs[number] -= weight
            found.append((zone, weight))
        return found, False

    def levels(self, state, costs):
        """By h-max: what each literal costs at least, where a set of literals costs as much as its dearest one."""
        levels = dict.fromkeys(self.literals, math.inf)
        waiting = [(0, ALWAYS), *((0, (atom, atom in state)) for atom in self.listed)]
        levels.update((literal, 0) for _, literal in waiting)
        missing, done = [len(it.wants) for it in self.operators], set()
        while waiting:
            level, literal = heapq.heappop(waiting)
            if literal in done:
                continue
            done.add(literal)
            for number in self.wanting.get(literal, ()):
                missing[number] -= 1
                it = self.operators[number]
                if missing[number] == 0 and level + costs[it.instance] < levels[it.makes]:
                    levels[it.makes] = level + costs[it.instance]
                    heapq.heappush(waiting, (levels[it.makes], it.makes))
        return levels

    def zone(self, state, costs, levels, last):
        """The zone of the next cut: literals that are not reached without it, with `last` among them, of the goal."""
        supporters = [max(it.wants, key=lambda literal: (levels[literal], literal)) for it in self.operators]
        if levels[last] == math.inf:
            beyond = {it for it in self.literals if levels[it] == math.inf}
        else:
            beyond = self.literals - self.reached_without(state, supporters, self.leads_free(costs, supporters, last))
        return self.small(beyond, supporters, last)

    def leads_free(self, costs, supporters, last):
        """The literals from which `last` is reached at no cost, where each operator leads from its supporter alone."""
        return closure({last}, lambda found: (
            supporter for it, supporter in zip(self.operators, supporters) if costs[it.instance] == 0 and it.makes in found))

    def reached_without(self, state, supporters, near):
        """The literals that are reached from the state without entering `near`."""
        return closure({ALWAYS, *((atom, atom in state) for atom in self.listed)}, lambda found: (
            it.makes for it, supporter in zip(self.operators, supporters) if supporter in found and it.makes not in near))

    def small(self, beyond, supporters, last):
        """A part of the literals `beyond` into which no operators lead but those that lead into `beyond`."""
        return frozenset(closure({last}, lambda found: (
            supporter for it, supporter in zip(self.operators, supporters)
            if it.makes in found and supporter in beyond and found.isdisjoint(it.wants))))


def closure(found, more):
    """A set of literals with all that follows from it, where `more` says what follows from a set at once."""
    while True:
        found_now = found | set(more(found))
        if found_now == found:
            return found
        found = found_now


# ---- A*

class Node:
    """A state that is listed: its line's kind, its cost, its bound and the value that this rests on."""

    def __init__(self, cost, value, bound):
        self.kind, self.cost, self.value, self.bound = "cut", cost, value, bound
        self.has_its_own = False


class Search:
    """A* from the initial state, and the states that it has come to."""

    def __init__(self, task):
        self.task, self.instances = task, list(task.instances())
        touched = (it.atom for instance in self.instances for it in instance.changes)
        wanted = sorted(atom for atom, _ in task.sure(task.goal, {}))
        self.atoms = dict.fromkeys([*task.initial_in_order, *touched, *wanted]).keys()
        self.cuts = LandmarkCuts(task, self.instances, self.atoms, self.atoms)
        self.nodes, self.queue, self.order = {}, [], itertools.count()
        self.reach(task.initial, 0, [])

    def reach(self, state, cost, value):
        """Takes in that a state is reached at this cost; this is its first value."""
        node = self.nodes.get(state)
        if node is None:
            node = self.nodes[state] = Node(cost, value, worth(value, state))
        elif cost < node.cost:
            node.cost = cost
        else:
            return
        if node.kind != "dead":
            self.wait(state, node)

    def wait(self, state, node):
        node.kind = "cut"
        heapq.heappush(self.queue, (node.cost + node.bound, next(self.order), state))

    def next(self):
        """What the next state that waits says of every plan's cost, and the state; None where none waits."""
        while self.queue:
            least, _, state = self.queue[0]
            node = self.nodes[state]
            if node.kind == "cut" and least == node.cost + node.bound:
                return least, state
            heapq.heappop(self.queue)
        return None

    def run(self, most):
        """What every plan costs at least; None where there is no plan. It expands at most so many states."""
        expanded = 0
        while (found := self.next()) is not None:
            least, state = found
            if expanded == most or self.task.holds(self.task.goal, state, {}):
                return least
            heapq.heappop(self.queue)
            if self.is_as_good(state, self.nodes[state]):
                self.expand(state, self.nodes[state])
                expanded += 1
        return None

    def is_as_good(self, state, node):
        """Whether a state's own value is no higher than the one that it has. A state with a higher one waits again."""
        if node.has_its_own:
            return True
        value, is_dead = self.cuts.value_for(state)
        node.has_its_own = True
        if not is_dead and worth(value, state) <= node.bound:
            return True
        node.value, node.bound = value, worth(value, state)
        if is_dead:
            node.kind = "dead"
        else:
            self.wait(state, node)
        return False

    def expand(self, state, node):
        node.kind = "open"
        for instance in self.instances:
            after = instance.after(state)
            if after is not None:
                self.reach(after, node.cost + instance.cost, node.value)


# ---- the certificate

class Text:
    """The lines of a certificate whose atoms have no weights. Zones and values get their numbers as they are named."""

    def __init__(self, atoms):
        self.atoms = {atom: number for number, atom in enumerate(atoms)}
        self.zones, self.values, self.states = {}, {}, []

    def zone(self, zone):
        """The number of a zone."""
        return self.zones.setdefault(zone, len(self.zones))

    def value(self, value):
        """The number of a landmark value."""
        return self.values.setdefault(tuple(sorted((self.zone(zone), weight) for zone, weight in value)), len(self.values))

    def list_state(self, state, node):
        words = [node.cost] if node.kind != "cut" else [node.cost, node.bound]
        has_value = node.kind == "dead" or node.kind == "cut" and node.bound > 0
        kind = [f"{node.kind}-by", self.value(node.value)] if has_value else [node.kind]
        self.states.append([*kind, *words, *self.numbers(state)])

    def numbers(self, atoms):
        return sorted(self.atoms[atom] for atom in atoms)

    def zone_line(self, zone):
        atoms, negated = (self.numbers(atom for atom, is_true in zone if is_true == it) for it in (True, False))
        return ["zone", *atoms, *(["not", *negated] if negated else [])]

    def landmark_lines(self):
        yield from map(self.zone_line, self.zones)
        for value in self.values:
            yield ["marks", *itertools.chain.from_iterable(value)]

    def lines(self, claim):
        yield ["pddl-cert", 4]
        yield ["claim", "none"] if claim is None else ["claim", "bound", claim]
        yield ["constant", 0, 0]
        for atom in self.atoms:
            yield ["atom", 0, 0, f"({' '.join(atom)})"]
        yield from self.landmark_lines()
        yield from self.states
        yield ["end", len(self.states)]


def certificate(task, most):
    """What a search that expands at most so many states claims, None that there is no plan, and the certificate of it."""
    search = Search(task)
    claim = search.run(most)
    text = Text(search.atoms)
    for state, node in search.nodes.items():
        text.list_state(state, node)
    return claim, "".join(" ".join(map(str, words)) + "\n" for words in text.lines(claim))


def main():
    words = argparse.ArgumentParser()
    for file in ("domain", "problem", "cert"):
        words.add_argument(file)
    words.add_argument("--states", type=int, default=10000)
    words = words.parse_args()
    text_of = lambda name: open(name, encoding="latin-1").read()
    claim, text = certificate(Task(text_of(words.domain), text_of(words.problem)), words.states)
    with open(words.cert, "w", encoding="ascii") as file:
        file.write(text)
    print("unsolvable" if claim is None else f"at least {claim}")


if __name__ == "__main__":
    main()
