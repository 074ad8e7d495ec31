"""A second reader of PDDL, for small tasks: straight from the rules of the competitions' language, and with nothing of the tool.

Types may have several parents and objects several types; derived predicates are least fixpoints, stratum by stratum; effects nest;
numbers have fractions. Nothing is checked: it is for files that have a meaning."""

from __future__ import annotations

import heapq
import re
from fractions import Fraction
from functools import cached_property
from itertools import product
from math import prod
from typing import Iterator

State = frozenset


def read(text: bytes):
    """The list of a file, with words in lower case."""
    stack: list[list] = [[]]
    for it in re.findall(r"[()]|[^\s()]+", re.sub(r";[^\n]*", "", text.decode("utf-8-sig"))):
        if it == "(":
            stack.append([])
        elif it == ")":
            closed = stack.pop()
            stack[-1].append(closed)
        else:
            stack[-1].append(it.lower())
    return stack[0][0]


def typed(parts: list) -> list[tuple[str, tuple[str, ...]]]:
    """The names of a typed list, each with the types of which it is of one at least."""
    found, names, rest = [], [], iter(parts)
    for it in rest:
        if it == "-":
            kind = next(rest)
            types = (kind,) if isinstance(kind, str) else tuple(kind[1:])
            found += [(name, types) for name in names]
            names = []
        else:
            names.append(it)
    return found + [(name, ("object",)) for name in names]


class Action:
    """An action schema. Parts that are left out say nothing."""

    def __init__(self, section: list):
        parts = dict(zip(section[2::2], section[3::2]))
        self.name = section[1]
        self.parameters = typed(parts.get(":parameters", []))
        self.precondition = parts.get(":precondition") or ["and"]
        self.effect = parts.get(":effect") or ["and"]


class Task:
    """A task as its two files say it."""

    def __init__(self, domain: bytes, problem: bytes):
        self.parents: dict[str, set[str]] = {}
        self.types: dict[str, set[str]] = {}
        self.rules: dict[str, list] = {}
        self.actions: list[Action] = []
        self.start, self.values, self.has_cost, self.goal = set(), {}, False, ["and"]
        for section in [*read(domain)[2:], *read(problem)[2:]]:
            self.take(section)
        self.strata = [*strata_of(self.rules)]
        self.objects = list(self.types)
        self.of_type: dict[tuple[str, ...], list[str]] = {}
        self.choices_of: dict[int, list[dict[str, str]]] = {}
        self.initial = State(self.start)

    def take(self, section: list) -> None:
        """Takes in a section of either file."""
        keyword, rest = section[0], section[1:]
        if keyword == ":types":
            for name, types in typed(rest):
                self.parents.setdefault(name, set()).update(types)
        elif keyword in (":constants", ":objects"):
            for name, types in typed(rest):
                self.types.setdefault(name, set()).update(types)
        elif keyword == ":derived":
            self.rules.setdefault(rest[0][0], []).append((rest[0][1:], rest[1]))
        elif keyword == ":action":
            self.actions.append(Action(section))
        elif keyword == ":init":
            for it in rest:
                self.take_fact(it)
        elif keyword == ":goal":
            self.goal = rest[0]
        elif keyword == ":metric":
            self.has_cost = rest == ["minimize", ["total-cost"]]

    def take_fact(self, fact: list) -> None:
        if fact[0] == "=":
            self.values[tuple(fact[1])] = Fraction(fact[2])
        elif fact[0] != "not":
            self.start.add(tuple(fact))

    def is_of(self, name: str, types: tuple[str, ...]) -> bool:
        """Whether an object is of one of these types."""
        seen, waiting = {"object"}, [*self.types.get(name, ())]
        while waiting:
            it = waiting.pop()
            if it not in seen:
                seen.add(it)
                waiting += self.parents.get(it, ())
        return not seen.isdisjoint(types)

    def count_instances(self) -> int:
        """How many choices of objects there are for the parameters of all actions."""
        return sum(prod(len(self.all_of(types)) for _, types in it.parameters) for it in self.actions)

    @cached_property
    def instances(self) -> list[tuple[Action, tuple[str, ...]]]:
        """Each action with objects for its parameters."""
        return [(it, objects) for it in self.actions for objects in product(*(self.all_of(types) for _, types in it.parameters))]

    def all_of(self, types: tuple[str, ...]) -> list[str]:
        """The objects of one of these types."""
        if types not in self.of_type:
            self.of_type[types] = [it for it in self.objects if self.is_of(it, types)]
        return self.of_type[types]

    def choices(self, variables: list) -> list[dict[str, str]]:
        """What the variables of a typed list may stand for. It is made once for each list of the files."""
        if id(variables) not in self.choices_of:
            names, kinds = zip(*typed(variables)) if variables else ((), ())
            self.choices_of[id(variables)] = [dict(zip(names, it)) for it in product(*map(self.all_of, kinds))]
        return self.choices_of[id(variables)]

    def whole(self, state: State) -> set:
        """A state with what is derived in it."""
        true = set(state)
        for stratum in self.strata:
            more = True
            while more:
                new = {(name, *chosen.values()) for name in stratum for head, body in self.rules[name]
                       for chosen in self.choices(head) if self.holds(body, chosen, true)}
                more = not new <= true
                true |= new
        return true

    def holds(self, formula: list, chosen: dict[str, str], true: set) -> bool:
        """Whether a condition holds for these objects where these atoms are true."""
        head = formula[0]
        if head == "and":
            return all(self.holds(it, chosen, true) for it in formula[1:])
        if head == "or":
            return any(self.holds(it, chosen, true) for it in formula[1:])
        if head == "not":
            return not self.holds(formula[1], chosen, true)
        if head == "imply":
            return not self.holds(formula[1], chosen, true) or self.holds(formula[2], chosen, true)
        if head == "exists":
            return any(self.holds(formula[2], {**chosen, **it}, true) for it in self.choices(formula[1]))
        if head == "forall":
            return all(self.holds(formula[2], {**chosen, **it}, true) for it in self.choices(formula[1]))
        terms = [chosen.get(it, it) for it in formula[1:]]
        return terms[0] == terms[1] if head == "=" else (head, *terms) in true

    def changes(self, effect: list, chosen: dict[str, str], true: set) -> Iterator[tuple[bool, tuple]]:
        """The atoms that an effect makes true and false."""
        head = effect[0]
        if head == "and":
            for it in effect[1:]:
                yield from self.changes(it, chosen, true)
        elif head == "forall":
            for it in self.choices(effect[1]):
                yield from self.changes(effect[2], {**chosen, **it}, true)
        elif head == "when":
            if self.holds(effect[1], chosen, true):
                yield from self.changes(effect[2], chosen, true)
        elif head == "not":
            yield False, tuple(chosen.get(it, it) for it in effect[1])
        elif head != "increase":
            yield True, tuple(chosen.get(it, it) for it in effect)

    def price(self, effect: list, chosen: dict[str, str]) -> Fraction | None:
        """What an effect increases the total cost by; None where a function has no value."""
        if effect[0] == "and":
            found = [self.price(it, chosen) for it in effect[1:]]
            return None if None in found else sum(found, Fraction(0))
        if effect[0] != "increase":
            return Fraction(0)
        by = effect[2]
        return Fraction(by) if isinstance(by, str) else self.values.get(tuple(chosen.get(it, it) for it in by))

    def result(self, action: Action, objects: tuple[str, ...], state: State, true: set) -> tuple[Fraction, State] | None:
        """What an instance costs and leads to; None where it is not applicable."""
        chosen = {name: it for (name, _), it in zip(action.parameters, objects)}
        if not self.holds(action.precondition, chosen, true):
            return None
        cost = self.price(action.effect, chosen)
        if cost is None:
            return None
        changes = [*self.changes(action.effect, chosen, true)]
        deleted = {atom for is_added, atom in changes if not is_added}
        return (cost if self.has_cost else Fraction(1)), State((state - deleted) | {atom for is_added, atom in changes if is_added})

    def successors(self, state: State) -> Iterator[tuple[tuple[str, ...], Fraction, State]]:
        """Each applicable instance, with its cost and the state after it."""
        true = self.whole(state)
        for action, objects in self.instances:
            found = self.result(action, objects, state, true)
            if found:
                yield (action.name, *objects), *found

    def is_goal(self, state: State) -> bool:
        return self.holds(self.goal, {}, self.whole(state))

    def cheapest(self, most: int) -> Fraction | str | None:
        """What a cheapest plan costs, `unsolvable`, or None where more states are met than this."""
        best, done = {self.initial: Fraction(0)}, set()
        queue = [(Fraction(0), 0, self.initial)]
        while queue:
            cost, _, state = heapq.heappop(queue)
            if state in done:
                continue
            if self.is_goal(state):
                return cost
            done.add(state)
            for _, more, after in self.successors(state):
                if after not in best or cost + more < best[after]:
                    best[after] = cost + more
                    heapq.heappush(queue, (cost + more, len(best), after))
            if len(best) > most:
                return None
        return "unsolvable"

    def cost_of(self, plan: list[tuple[str, ...]]) -> Fraction | None:
        """What a plan costs; None where it does not solve the task."""
        state, total = self.initial, Fraction(0)
        actions = {it.name: it for it in self.actions}
        for name, *objects in plan:
            kinds = [types for _, types in actions[name].parameters] if name in actions else []
            if name not in actions or len(objects) != len(kinds) or not all(map(self.is_of, objects, kinds)):
                return None
            found = self.result(actions[name], tuple(objects), state, self.whole(state))
            if not found:
                return None
            total, state = total + found[0], found[1]
        return total if self.is_goal(state) else None


def predicates_in(formula: list) -> set[str]:
    """The predicates that a condition speaks of."""
    if formula[0] in ("and", "or", "not", "imply"):
        return {name for it in formula[1:] for name in predicates_in(it)}
    return predicates_in(formula[2]) if formula[0] in ("exists", "forall") else {formula[0]}


def strata_of(rules: dict[str, list]) -> Iterator[list[str]]:
    """Derived predicates in the order in which they are derived, those that depend on each other together."""
    below = {name: {it for _, body in bodies for it in predicates_in(body)} & set(rules) for name, bodies in rules.items()}
    reach = {name: set(it) for name, it in below.items()}
    for middle in rules:
        for name in rules:
            if middle in reach[name]:
                reach[name] |= reach[middle]
    # Of those that reach as much, the ones that depend on themselves come first.
    for name in sorted(rules, key=lambda it: (len(reach[it]), it not in reach[it], it)):
        together = [it for it in rules if it == name or it in reach[name] and name in reach[it]]
        if name == min(together):
            yield together
