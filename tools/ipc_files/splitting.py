"""Actions with more parameters than the language has variables: each is written as steps between which no other action is
applicable.

The steps check the parts of the precondition one after another, and then delete, and then add, so that each condition is read in
the state before, and adding comes after deleting, as in one action. What one step chooses for a parameter is kept by an atom, and
the later ones that need it take it from there. So a run of the steps to their end is one instance of the action, and a choice that
cannot be brought to an end leads nowhere, since the goal wants that no action is open."""

from __future__ import annotations

from dataclasses import dataclass, field

from ipc_files.checking import MOST_VARIABLES
from ipc_files.files import Task, parameters_of, value_of
from ipc_files.formulas import conjuncts, is_atom
from ipc_files.names import Renaming
from ipc_files.told import Refusal
from ipc_files.trees import Entry, Group, Node, Word, entries_of, listed, parts_of, type_of, words_in

# How many variables a step has where its parts allow it. The program keeps an instance for each choice of objects that nothing
# static rules out, so that few are better than as many as the language has.
FEW = 3


@dataclass
class Piece:
    """A part of an action that one step does: it chooses a parameter, checks, pays, deletes or adds."""

    kind: str
    variables: list[str]
    # How many variables its quantifiers have in scope at most.
    inner: int = 0
    node: Group | None = None

    @property
    def is_atom(self) -> bool:
        """Whether it checks an atom, and no formula, equality or negation."""
        return self.kind == "check" and self.node.head != "=" and is_atom(self.node)


@dataclass
class Step:
    """What stands in one of the actions that are written."""

    name: str
    variables: list[str] = field(default_factory=list)
    pieces: list[Piece] = field(default_factory=list)
    inner: int = 0

    def takes(self, piece: Piece, most: int) -> bool:
        """Whether a piece may stand in this step: it has so many variables then, or no more than before."""
        count = len({*self.variables, *piece.variables}) + max(self.inner, piece.inner)
        return count <= max(most, len(self.variables) + self.inner)

    def add(self, piece: Piece) -> None:
        self.variables += [it for it in piece.variables if it not in self.variables]
        self.pieces.append(piece)
        self.inner = max(self.inner, piece.inner)

    def nodes(self, *kinds: str) -> list[Group]:
        """What its pieces of these kinds are in the action."""
        return [it.node for it in self.pieces if it.kind in kinds]


def split(task: Task, most: int) -> None:
    """Writes each action with more variables in scope than this as steps. One that the language takes, and that cannot be written
    so, stays as it is."""
    splitting = Splitting(task)
    long = {it.parts[1] for it in task.domain.all(":action") if splitting.is_long(it, most)}
    if not long:
        return
    if not task.has_metric:
        splitting.pay_each()
    splitting.lock(long)
    task.domain.change(":action", lambda it: splitting.steps(it) if it.parts[1] in long else [it])
    task.domain.put(":predicates", [*task.domain.find(":predicates").parts[1:], *splitting.predicates])


def inner_of(node: Node) -> int:
    """How many variables the quantifiers of a tree have in scope at most."""
    if isinstance(node, Word):
        return 0
    own = len(entries_of(node.parts[1].parts)) if node.head in ("exists", "forall") and len(node.parts) == 3 else 0
    return own + max((inner_of(it) for it in node.parts), default=0)


def pieces_before(pieces: list[Piece], scope: list[str]) -> list[Piece]:
    """The choices of all parameters, and each of these pieces as soon as its variables are chosen. The next parameter is one of
    which the most atoms can be checked then, so that little is chosen in vain."""
    found, waiting = [it for it in pieces if not it.variables], [it for it in pieces if it.variables]
    chosen: set[str] = set()
    while len(chosen) < len(scope):
        left = [it for it in scope if it not in chosen]
        name = max(left, key=lambda it: sum(piece.is_atom for piece in checked_by(waiting, {*chosen, it})))
        chosen.add(name)
        now = checked_by(waiting, chosen)
        found += [Piece("choose", [name]), *now]
        waiting = [it for it in waiting if it not in now]
    return found


def checked_by(pieces: list[Piece], chosen: set[str]) -> list[Piece]:
    """The pieces whose variables are all chosen."""
    return [it for it in pieces if chosen.issuperset(it.variables)]


class Splitting:
    """The steps of a task's long actions, and the predicates that hold them together."""

    def __init__(self, task: Task):
        self.task, self.renaming = task, Renaming(task)
        self.renaming.taken |= {it.low for file in task.files for section, _ in file.sections for it in words_in(section)}
        self.ready = self.renaming.new("no-action-is-open", "predicate")
        self.predicates: list[Group] = []

    def is_long(self, action: Group, most: int) -> bool:
        """Whether an action has more variables in scope than this, and has to be written as steps, or can be."""
        count = len(parameters_of(action)) + inner_of(action)
        return count > most and (count > MOST_VARIABLES or self.can_be_split(action))

    def can_be_split(self, action: Group) -> bool:
        """Whether an action has plain effects, and each action a cost that can stand in one step."""
        has_values = any(it.head == "increase" and isinstance(it.parts[2], Group)
                         for one in self.task.domain.all(":action") for it in self.items(one))
        return (self.task.has_metric or not has_values) and all(it.head not in ("when", "forall") for it in self.items(action))

    def pay_each(self) -> None:
        """Has each action cost 1 by its words, as without a metric it does."""
        domain, problem = self.task.domain, self.task.problem
        domain.change(":action", lambda it: [self.paid(it)])
        functions = domain.find(":functions")
        declared = functions.parts[1:] if functions else []
        if not any(it.head == "total-cost" for it in declared if isinstance(it, Group)):
            domain.put(":functions", [*declared, listed(domain.end, "total-cost")])
        self.task.tell("split", problem.end, "each action costs 1, and each further step of one nothing, which a metric says now")
        problem.put(":metric", [Word("minimize", problem.end), listed(problem.end, "total-cost")])

    def paid(self, action: Group) -> Group:
        """An action that costs 1 by its words."""
        items = self.items(action)
        if any(it.head == "increase" and isinstance(it.parts[2], Group) for it in items):
            raise Refusal(action.at, f"`{action.parts[1].shown}` wants the value of a function and costs 1, as there is no metric: "
                                     f"no action with more than {MOST_VARIABLES} variables can be written as steps beside it")
        one = listed(action.at, "increase", listed(action.at, "total-cost"), "1")
        kept = [it for it in items if it.head != "increase"]
        return with_part(action, ":effect", listed(action.at, "and", *kept, one))

    def items(self, action: Group) -> list[Group]:
        """The parts of an action's effect."""
        return conjuncts(value_of(action, ":effect") or Group([], action.at))

    def lock(self, names: set[Word]) -> None:
        """Has the actions but those of these names, and the goal, want that no action is open."""
        domain, problem = self.task.domain, self.task.problem
        domain.change(":action", lambda it: [it if it.parts[1] in names else self.locked(it)])
        goal, init = problem.find(":goal"), problem.find(":init")
        problem.put(":goal", [listed(goal.at, "and", listed(goal.at, self.ready), goal.parts[1])])
        problem.put(":init", [*init.parts[1:], listed(init.at, self.ready)])
        self.task.tell("split", init.at, f"`({self.ready})` is true at the start")
        self.task.tell("split", goal.at, f"`({self.ready})` is added to the goal")
        self.predicates.append(listed(domain.end, self.ready))

    def locked(self, action: Group) -> Group:
        """An action that wants that no other one is open."""
        self.task.tell("split", action.at, f"`{action.parts[1].shown}` is applicable only where no other action is open")
        old = value_of(action, ":precondition")
        both = [listed(action.at, self.ready), *([old] if old and old.parts else [])]
        return with_part(action, ":precondition", listed(action.at, "and", *both))

    def pieces(self, action: Group) -> list[Piece]:
        """What an action does, in an order in which it may be done."""
        scope = [it.name.low for it in parameters_of(action)]
        checks = conjuncts(value_of(action, ":precondition") or Group([], action.at))
        found = {"check": [self.piece("check", it, scope) for it in checks], "pay": [], "delete": [], "add": []}
        for it in self.items(action):
            if it.head in ("when", "forall"):
                raise Refusal(it.at, f"`{action.parts[1].shown}` has more than {MOST_VARIABLES} variables in scope, and a "
                                     f"`{it.head}` among its effects: only actions with plain effects are written as steps")
            kind = {"increase": "pay", "not": "delete"}.get(it.head, "add")
            found[kind].append(self.piece(kind, it, scope))
        return [*pieces_before(found["check"] + found["pay"], scope), *found["delete"], *found["add"]]

    def piece(self, kind: str, node: Group, scope: list[str]) -> Piece:
        """A part with its variables, if the language has as many."""
        there = {it.low for it in words_in(node)}
        made = Piece(kind, [it for it in scope if it in there], inner_of(node), node)
        count = len(made.variables) + made.inner
        if count > MOST_VARIABLES:
            raise Refusal(node.at, f"this part has {count} variables in scope, and the language has {MOST_VARIABLES} at most")
        return made

    def steps(self, action: Group) -> list[Group]:
        """The actions that are written in the place of one."""
        name, parameters = action.parts[1], {it.name.low: it for it in parameters_of(action)}
        found: list[Step] = []
        for it in self.pieces(action):
            if not found or not found[-1].takes(it, FEW):
                found.append(Step(self.renaming.new(f"{name.low}-step-{len(found) + 1}", "action")))
            found[-1].add(it)
        self.task.steps[name.low] = ([*parameters], [(it.name, it.variables) for it in found])
        count = len(parameters) + inner_of(action)
        told = f"{len(found)} steps, `{found[0].name}` to `{found[-1].name}`"
        self.task.tell("split", action.at, f"`{name.shown}` has {count} variables in scope, and is written as {told}")
        kept, marks = self.kept(action, found, parameters), self.marks(action, len(found))
        return [self.written(action, index, found, kept, marks, parameters) for index in range(len(found))]

    def kept(self, action: Group, steps: list[Step], parameters: dict[str, Entry]) -> dict[str, str]:
        """The predicates that keep what is chosen for the parameters that several steps have."""
        found = {}
        for variable, it in parameters.items():
            if sum(variable in step.variables for step in steps) > 1:
                found[variable] = self.renaming.new(f"{action.parts[1].low}-has-{variable[1:]}", "predicate")
                self.predicates.append(listed(action.at, found[variable], "?o", "-", type_of(it)))
        return found

    def marks(self, action: Group, count: int) -> list[str]:
        """The predicates that are true before each of so many steps, and after the last one."""
        between = [self.renaming.new(f"{action.parts[1].low}-goes-on-{index}", "predicate") for index in range(1, count)]
        self.predicates += [listed(action.at, it) for it in between]
        return [self.ready, *between, self.ready]

    def written(self, action: Group, index: int, steps: list[Step], kept: dict[str, str], marks: list[str],
                parameters: dict[str, Entry]) -> Group:
        """One of the steps as an action."""
        at, step = action.at, steps[index]
        wanted, effects = [listed(at, marks[index])], []
        if len(steps) > 1:
            effects = [listed(at, "not", listed(at, marks[index])), listed(at, marks[index + 1])]
        for variable in (it for it in step.variables if it in kept):
            atom = listed(at, kept[variable], variable)
            having = [number for number, it in enumerate(steps) if variable in it.variables]
            if index == having[0]:
                effects.append(atom)
                continue
            wanted.append(atom)
            if index == having[-1]:
                effects.append(listed(at, "not", atom))
        wanted += step.nodes("check")
        effects += step.nodes("pay", "delete", "add")
        variables = listed(at, *parts_of([parameters[it] for it in step.variables]))
        return listed(at, ":action", step.name, ":parameters", variables, ":precondition", listed(at, "and", *wanted),
                      ":effect", listed(at, "and", *effects))


def with_part(action: Group, keyword: str, value: Group) -> Group:
    """An action with this value behind a keyword, which it may lack."""
    parts = [*action.parts]
    for index in range(2, len(parts), 2):
        if parts[index].low == keyword:
            return action.with_parts([*parts[:index + 1], value, *parts[index + 2:]])
    return action.with_parts([*parts, Word(keyword, action.at), value])
