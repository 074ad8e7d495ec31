"""A task of PDDL files, by docs/language.md alone: its states, its instances and what they lead to.

Domain and problem are taken to be well-formed, as `optplan` has said of them.
"""
import itertools
import re
from typing import NamedTuple, Optional


def lists_of(text):
    """The lists of a text, as lists of words in lower case."""
    words = re.findall(r"[()]|[^\s()]+", re.sub(r";[^\n]*", " ", text).lower())
    stack = [[]]
    for word in words:
        if word == "(":
            stack.append([])
        elif word == ")":
            done = stack.pop()
            stack[-1].append(done)
        else:
            stack[-1].append(word)
    return stack[0]


def typed(words):
    """The names of a typed list, each with the types of which it has to be of one."""
    found, waiting, words = [], [], iter(words)
    for word in words:
        if word == "-":
            types = next(words)
            types = types[1:] if isinstance(types, list) else [types]
            found += [(name, types) for name in waiting]
            waiting = []
        else:
            waiting.append(word)
    return found + [(name, ["object"]) for name in waiting]


class Task:
    """A task: its objects by type, its static predicates, the values of its functions, and its instances that are kept."""

    def __init__(self, domain, problem):
        domain, problem = lists_of(domain)[0], lists_of(problem)[0]
        section = lambda parts, name: next((p[1:] for p in parts[2:] if p[0] == name), [])
        self.parents = {name: types[0] for name, types in typed(section(domain, ":types"))}
        self.objects = typed(section(domain, ":constants")) + typed(section(problem, ":objects"))
        self.type_of = {name: types[0] for name, types in self.objects}
        self.predicates = {p[0]: [types for _, types in typed(p[1:])] for p in section(domain, ":predicates")}
        self.actions = [self.action(part) for part in domain[2:] if part[0] == ":action"]
        self.has_metric = bool(section(problem, ":metric"))
        self.values = {tuple(fact[1]): int(fact[2]) for fact in section(problem, ":init") if fact[0] == "="}
        self.fluent = {p for action in self.actions for p in changed_predicates(action["effect"])}
        atoms = [tuple(atom) for atom in section(problem, ":init") if atom[0] != "="]
        self.static = frozenset(a for a in atoms if a[0] not in self.fluent)
        self.initial_in_order = [a for a in atoms if a[0] in self.fluent]
        self.initial = frozenset(self.initial_in_order)
        goal = section(problem, ":goal")
        self.goal = goal[0] if goal else ["and"]

    @staticmethod
    def action(part):
        parts = dict(zip(part[2::2], part[3::2]))
        return {"name": part[1], "parameters": typed(parts.get(":parameters", [])),
                "precondition": parts.get(":precondition") or ["and"], "effect": parts.get(":effect") or ["and"]}

    def is_of(self, name, types):
        """Whether the object is of one of these types, or of one below."""
        its = self.type_of.get(name)
        while its is not None:
            if its in types:
                return True
            its = self.parents.get(its) or (None if its == "object" else "object")
        return False

    def of_types(self, types):
        return [name for name, _ in self.objects if self.is_of(name, types)]

    def bindings(self, variables):
        """Each way to give these variables objects, in order."""
        names = [name for name, _ in variables]
        for objects in itertools.product(*(self.of_types(types) for _, types in variables)):
            yield dict(zip(names, objects))

    def is_fluent_atom(self, atom):
        predicate, *objects = atom
        types = self.predicates.get(predicate)
        return (predicate in self.fluent and len(types) == len(objects)
                and all(name in self.type_of and self.is_of(name, of) for name, of in zip(objects, types)))

    def holds(self, formula, state, bound):
        """Whether the formula holds in the state, where the variables have these objects."""
        head, *rest = formula
        if head == "and":
            return all(self.holds(part, state, bound) for part in rest)
        if head == "or":
            return any(self.holds(part, state, bound) for part in rest)
        if head == "not":
            return not self.holds(rest[0], state, bound)
        if head == "imply":
            return not self.holds(rest[0], state, bound) or self.holds(rest[1], state, bound)
        if head in ("exists", "forall"):
            every = all if head == "forall" else any
            return every(self.holds(rest[1], state, {**bound, **more}) for more in self.bindings(typed(rest[0])))
        if head == "=":
            return bound.get(rest[0], rest[0]) == bound.get(rest[1], rest[1])
        atom = ground(formula, bound)
        return atom in (state if head in self.fluent else self.static)

    def is_closed_off(self, formula, bound, wanted=True):
        """Whether a sure literal of the formula is static, or an equality, and false at the start."""
        head, *rest = formula
        if head == "and":
            return wanted and any(self.is_closed_off(part, bound) for part in rest)
        if head == "forall":
            return wanted and any(self.is_closed_off(rest[1], {**bound, **more}) for more in self.bindings(typed(rest[0])))
        if head == "not":
            return wanted and self.is_closed_off(rest[0], bound, False)
        if head in ("or", "imply", "exists") or head in self.fluent:
            return False
        return self.holds(formula, self.initial, bound) != wanted

    def instances(self):
        """The instances that have a cost and that the start does not close off, in order."""
        for action in self.actions:
            for bound in self.bindings_left(action):
                if self.increase(action, bound) is not None:
                    yield Instance(self, action, bound)

    def bindings_left(self, action):
        """Each way to give the parameters objects with which the start does not close the precondition off, in order.

        A part of the precondition is looked at as soon as its own parameters have objects.
        """
        names = [name for name, _ in action["parameters"]]
        objects = [self.of_types(types) for _, types in action["parameters"]]
        parts = [[] for _ in range(len(names) + 1)]
        for part in conjuncts(action["precondition"]):
            words = set(words_of(part))
            parts[max((at + 1 for at, name in enumerate(names) if name in words), default=0)].append(part)

        def extended(bound):
            count = len(bound)
            if any(self.is_closed_off(part, bound) for part in parts[count]):
                return
            if count == len(names):
                yield bound
                return
            for it in objects[count]:
                yield from extended({**bound, names[count]: it})
        return extended({})

    def sure(self, formula, bound, wanted=True):
        """The literals of fluent atoms that the formula says outright: each an atom, and whether it is true."""
        head, *rest = formula
        if head == "and" and wanted:
            return {it for part in rest for it in self.sure(part, bound)}
        if head == "forall" and wanted:
            return {it for more in self.bindings(typed(rest[0])) for it in self.sure(rest[1], {**bound, **more})}
        if head == "not" and wanted:
            return self.sure(rest[0], bound, False) if rest[0][0] not in ("and", "or", "not", "imply", "forall", "exists") else set()
        return {(ground(formula, bound), wanted)} if head in self.fluent else set()

    def counting(self, effect, bound):
        """The changes that count: those whose condition the start does not close off."""
        return [Change(atom, adds, None if condition == ["and"] else frozenset(self.sure(condition, objects)))
                for atom, adds, condition, objects in self.changes(effect, bound) if not self.is_closed_off(condition, objects)]

    def changes(self, effect, bound):
        """The changes of an effect: an atom, whether it becomes true, the condition and its variables' objects."""
        head, *rest = effect
        if head == "and":
            for part in rest:
                yield from self.changes(part, bound)
        elif head == "forall":
            for more in self.bindings(typed(rest[0])):
                yield from self.changes(rest[1], {**bound, **more})
        elif head == "when":
            for atom, adds, _, _ in self.changes(rest[1], bound):
                yield atom, adds, rest[0], bound
        elif head == "not":
            yield ground(rest[0], bound), False, ["and"], bound
        elif head != "increase":
            yield ground(effect, bound), True, ["and"], bound

    def result(self, state, action, bound):
        """The state behind an instance, and None where it is not applicable."""
        if self.increase(action, bound) is None or not self.holds(action["precondition"], state, bound):
            return None
        made = [(atom, adds) for atom, adds, condition, objects in self.changes(action["effect"], bound)
                if self.holds(condition, state, objects)]
        deletes = {atom for atom, adds in made if not adds}
        return (state - deletes) | {atom for atom, adds in made if adds}

    def increase(self, action, bound):
        """What an instance increases the total cost by, and None where that is a function whose value is not given."""
        by = increase_of(action["effect"])
        return self.values.get(ground(by, bound)) if isinstance(by, list) else int(by)

    def cost(self, action, bound):
        return self.increase(action, bound) if self.has_metric else 1


class Change(NamedTuple):
    """A change that counts: an atom, whether it becomes true, and the sure literals of its condition, None where it is under no `when`."""
    atom: tuple
    adds: bool
    when: Optional[frozenset]


class Instance:
    """An instance that is kept: its name and cost, the sure literals of its precondition, and its changes that count."""

    def __init__(self, task, action, bound):
        self.task, self.action, self.bound = task, action, bound
        self.words = [action["name"], *bound.values()]
        self.cost = task.cost(action, bound)
        self.literals = task.sure(action["precondition"], bound)
        self.wanted, self.unwanted = (frozenset(atom for atom, is_true in self.literals if is_true == it) for it in (True, False))
        self.changes = task.counting(action["effect"], bound)
        outright = [it for it in self.changes if it.when is None]
        self.adds, self.deletes = (frozenset(it.atom for it in outright if it.adds == adds) for adds in (True, False))
        self.is_said_outright = is_of_literals(action["precondition"]) and outright == self.changes

    def after(self, state):
        """The state behind it, and None where it is not applicable."""
        if not self.wanted <= state or not self.unwanted.isdisjoint(state):
            return None
        if self.is_said_outright:
            return (state - self.deletes) | self.adds
        return self.task.result(state, self.action, self.bound)


def conjuncts(formula):
    return [it for part in formula[1:] for it in conjuncts(part)] if formula[0] == "and" else [formula]


def words_of(formula):
    return [word for part in formula for word in (words_of(part) if isinstance(part, list) else [part])]


def is_of_literals(formula):
    """Whether the formula is a conjunction of literals."""
    heads = [part[1][0] if part[0] == "not" else part[0] for part in conjuncts(formula)]
    return not any(head in ("and", "or", "not", "imply", "exists", "forall") for head in heads)


def ground(atom, bound):
    return tuple([atom[0]] + [bound.get(term, term) for term in atom[1:]])


def changed_predicates(effect):
    """The predicates that an effect adds or deletes."""
    head, *rest = effect
    if head in ("and", "not"):
        return {p for part in rest for p in changed_predicates(part)}
    if head in ("forall", "when"):
        return changed_predicates(rest[1])
    return set() if head == "increase" else {head}


def increase_of(effect):
    """What an effect increases the total cost by: a number, or a function of some terms."""
    parts = effect[1:] if effect[0] == "and" else [effect]
    return next((part[2] for part in parts if part[0] == "increase"), "0")
