"""The rules on names, types and limits, by docs/language.md: what the tool writes has no fault left.

They are looked at twice. Before derived predicates, negative facts and nested effects are written otherwise, so that nothing that
is wrong is dropped with them; and at the end, with the limits."""

from __future__ import annotations

from ipc_files.costs import value_in
from ipc_files.files import Task, parameters_of, scope_of, value_of
from ipc_files.formulas import Scope, is_atom, scope_with
from ipc_files.names import RESERVED
from ipc_files.told import Refusal
from ipc_files.trees import Entry, Group, Node, Word, entries_of
from ipc_files.type_tree import all_above, is_below, parents_in

# Limits of the language. The last one is that of variables in scope at once.
MOST_TYPES, MOST_OBJECTS, MOST_ARGUMENTS, MOST_VARIABLES = 4095, 65535, 8, 16


class Names:
    """What is declared, and where it may stand."""

    def __init__(self, task: Task):
        self.task = task
        self.types = task.domain.entries(":types")
        self.parents = parents_in(self.types)
        self.above = all_above(self.parents)
        self.constants = {it.name.low: it for it in task.domain.entries(":constants")}
        self.objects = {**self.constants, **{it.name.low: it for it in task.problem.entries(":objects")}}
        self.predicates = declared(task, ":predicates")
        self.functions = declared(task, ":functions")
        self.derived = {it.parts[1].head for it in task.domain.all(":derived")}

    def fits(self, types: tuple[str, ...], wanted: tuple[str, ...]) -> bool:
        """Whether each object of one of the types is of a wanted one."""
        return all(any(is_below(it, other, self.above) for other in wanted) for it in types)

    def check(self) -> None:
        """Refuses the task where a name is not known, or does not fit."""
        self.check_types()
        self.check_objects()
        for section, kind in ((":predicates", "predicate"), (":functions", "function")):
            self.check_declarations(section, kind)
        for it in self.task.domain.all(":derived"):
            self.check_rule(it)
        self.check_actions()
        for it in self.task.problem.find(":init").parts[1:]:
            self.check_fact(it)
        self.check_start_of_cost()
        self.check_condition(self.task.problem.find(":goal").parts[1], {}, self.objects)
        metric = self.task.problem.find(":metric")
        if metric and "total-cost" not in self.functions:
            raise Refusal(metric.at, "`total-cost` is not declared")

    def check_types(self) -> None:
        """The domain's name, the tree of types, and how many there are."""
        domain, named = self.task.domain, self.task.problem.find(":domain").parts[1]
        if named != domain.name:
            raise Refusal(named.at, f"the domain is called `{domain.name.shown}`")
        for it in self.types:
            if it.name.low in self.above[it.name.low]:
                raise Refusal(it.name.at, f"the type `{it.name.shown}` is above itself")
        if len(self.types) > MOST_TYPES:
            raise Refusal(self.types[MOST_TYPES].name.at, f"more than {MOST_TYPES:,} types")

    def check_objects(self) -> None:
        """The types of constants and objects, and how many there are."""
        for it in self.objects.values():
            self.check_type_of(it)
        if len(self.objects) > MOST_OBJECTS:
            raise Refusal([*self.objects.values()][MOST_OBJECTS].name.at, f"more than {MOST_OBJECTS:,} objects")

    def check_type_of(self, entry: Entry) -> None:
        """The types that are written behind a name or a variable."""
        for it in entry.types:
            if it.low != "object" and it.low not in self.parents:
                raise Refusal(it.at, f"the type `{it.shown}` is not declared")

    def check_declarations(self, keyword: str, kind: str) -> None:
        """Predicates, or functions: each once, under a name of its own, with types that are declared."""
        section, seen = self.task.domain.find(keyword), set()
        for it in section.parts[1:] if section else ():
            if isinstance(it, Word):
                continue
            name, arguments = it.parts[0], entries_of(it.parts[1:])
            if name.low in seen:
                raise Refusal(name.at, f"a second {kind} `{name.shown}`")
            if name.low in RESERVED and (kind, name.low) != ("function", "total-cost") or name.low == "total-cost" and arguments:
                raise Refusal(name.at, f"`{name.shown}` is a word of the language, and no {kind}'s name")
            if len(arguments) > MOST_ARGUMENTS:
                raise Refusal(arguments[MOST_ARGUMENTS].name.at, f"more than {MOST_ARGUMENTS} arguments")
            for argument in arguments:
                self.check_type_of(argument)
            seen.add(name.low)

    def check_rule(self, section: Group) -> None:
        """A rule of a derived predicate. An argument without a type is of those of the declaration."""
        name, head = section.parts[1].parts[0], self.head_of(section)
        if len(head) != len(self.predicates[name.low]):
            raise Refusal(name.at, f"`{name.shown}` takes {told(len(self.predicates[name.low]))}")
        self.check_variables(head, {})
        self.check_condition(section.parts[2], scope_with({}, head), self.constants)

    def head_of(self, section: Group) -> list[Entry]:
        """The arguments of a rule, with their types."""
        name, given = section.parts[1].parts[0], entries_of(section.parts[1].parts[1:])
        if name.low not in self.predicates:
            raise Refusal(name.at, f"no predicate is called `{name.shown}`")
        wanted = self.predicates[name.low]
        return [it if it.types or index >= len(wanted) else Entry(it.name, wanted[index].types) for index, it in enumerate(given)]

    def check_actions(self) -> None:
        """Actions: each once, with conditions, effects and a cost that fit."""
        seen = set()
        for it in self.task.domain.all(":action"):
            name = it.parts[1]
            if name.low in seen:
                raise Refusal(name.at, f"a second action `{name.shown}`")
            seen.add(name.low)
            self.check_variables(parameters_of(it), {})
            scope = scope_of(it)
            for keyword, check in ((":precondition", self.check_condition), (":effect", self.check_effect)):
                value = value_of(it, keyword)
                if value and value.parts:
                    check(value, scope, self.constants)
            self.check_increases(value_of(it, ":effect"))

    def check_increases(self, effect: Group | None) -> None:
        """An action has one cost at most."""
        found = [it for it in lists_in(effect) if it.head == "increase"] if effect else []
        if found and "total-cost" not in self.functions:
            raise Refusal(found[0].parts[0].at, "`total-cost` is not declared")
        if len(found) > 1:
            raise Refusal(found[1].parts[0].at, "a second cost of the action")

    def check_variables(self, variables: list[Entry], scope: Scope) -> None:
        """Variables that are declared together. One in scope is written otherwise later."""
        seen = set()
        for it in variables:
            self.check_type_of(it)
            if it.name.low in seen:
                raise Refusal(it.name.at, f"a second variable `{it.name.shown}` of the list")
            seen.add(it.name.low)

    def check_condition(self, formula: Group, scope: Scope, objects: dict[str, Entry]) -> None:
        """A condition over the variables in scope and these objects."""
        if formula.head in ("exists", "forall"):
            variables = entries_of(formula.parts[1].parts)
            self.check_variables(variables, scope)
            self.check_condition(formula.parts[2], scope_with(scope, variables), objects)
        elif not is_atom(formula):
            for it in formula.parts[1:]:
                self.check_condition(it, scope, objects)
        elif formula.head == "=":
            for it in formula.parts[1:]:
                self.types_of(it, scope, objects)
        else:
            self.check_atom(formula, self.predicates, scope, objects)

    def check_effect(self, effect: Group, scope: Scope, objects: dict[str, Entry]) -> None:
        """An effect over the variables in scope and these objects."""
        if effect.head == "forall":
            variables = entries_of(effect.parts[1].parts)
            self.check_variables(variables, scope)
            self.check_effect(effect.parts[2], scope_with(scope, variables), objects)
        elif effect.head == "when":
            self.check_condition(effect.parts[1], scope, objects)
            self.check_effect(effect.parts[2], scope, objects)
        elif effect.head in ("and", "not"):
            for it in effect.parts[1:]:
                self.check_effect(it, scope, objects)
        elif effect.head == "increase":
            if isinstance(effect.parts[2], Group):
                self.check_atom(effect.parts[2], self.functions, scope, objects)
        else:
            self.check_change(effect)
            self.check_atom(effect, self.predicates, scope, objects)

    def check_change(self, atom: Group) -> None:
        """An atom that an effect or `:init` makes true or false."""
        if atom.head in self.derived:
            raise Refusal(atom.parts[0].at, f"`{atom.head}` is derived: nothing else makes it true or false")

    def check_fact(self, fact: Group) -> None:
        """A fact of the start."""
        if fact.head == "=":
            self.check_atom(fact.parts[1], self.functions, {}, self.objects)
            return
        atom = fact.parts[1] if fact.head == "not" else fact
        self.check_change(atom)
        self.check_atom(atom, self.predicates, {}, self.objects)

    def check_start_of_cost(self) -> None:
        """The total cost starts at 0 and once, and each other value is given once."""
        values: dict[Group, Word] = {}
        for it in self.task.problem.find(":init").parts[1:]:
            if it.head != "=":
                continue
            function, value = it.parts[1:]
            before = values.setdefault(function, value)
            if function.head == "total-cost" and (before is not value or value_in(value) != 0):
                raise Refusal(it.at, "the total cost starts at 0, and once")
            if value_in(before) != value_in(value):
                raise Refusal(it.at, f"`{function.head}` of these objects has another value before")

    def check_atom(self, atom: Group, known: dict[str, list[Entry]], scope: Scope, objects: dict[str, Entry]) -> None:
        """An atom of one of these predicates, or a function of one of these with its objects."""
        name, terms = atom.parts[0], atom.parts[1:]
        if name.low not in known:
            raise Refusal(name.at, f"no {'function' if known is self.functions else 'predicate'} is called `{name.shown}`")
        wanted = known[name.low]
        if len(terms) != len(wanted):
            raise Refusal(name.at, f"`{name.shown}` takes {told(len(wanted))}")
        for term, argument in zip(terms, wanted):
            types = self.types_of(term, scope, objects)
            if not self.fits(types, argument.lows):
                raise Refusal(term.at, f"`{term.shown}` is a `{types[0]}`, and `{name.shown}` takes a `{argument.lows[0]}` here")

    def types_of(self, term: Word, scope: Scope, objects: dict[str, Entry]) -> tuple[str, ...]:
        """The types of a term; the file is refused where it is not known."""
        if term.text[0] == "?":
            if term.low not in scope:
                raise Refusal(term.at, f"no variable `{term.shown}` is in scope")
            return scope[term.low]
        if term.low not in objects:
            raise Refusal(term.at, f"no object is called `{term.shown}`" + (" in the domain" if term.low in self.objects else ""))
        return objects[term.low].lows


def declared(task: Task, keyword: str) -> dict[str, list[Entry]]:
    """The arguments of each predicate or function."""
    section = task.domain.find(keyword)
    return {it.head: entries_of(it.parts[1:]) for it in section.parts[1:] if isinstance(it, Group)} if section else {}


def told(count: int) -> str:
    """A count of objects in words."""
    return "1 object" if count == 1 else f"{count} objects"


def lists_in(node: Node) -> list[Group]:
    """All lists of a tree."""
    if isinstance(node, Word):
        return []
    return [node, *(inner for it in node.parts for inner in lists_in(it))]


def check_whole(task: Task) -> None:
    """Refuses what only the end shows, and looks at all names once more."""
    names = Names(task)
    for it in task.domain.all(":action"):
        parameters = parameters_of(it)
        if len(parameters) > MOST_VARIABLES:
            raise Refusal(parameters[MOST_VARIABLES].name.at,
                          f"{len(parameters)} variables are in scope, and the language has {MOST_VARIABLES} at most")
        for keyword in (":precondition", ":effect"):
            if value_of(it, keyword):
                check_scope(value_of(it, keyword), len(parameters))
    check_scope(task.problem.find(":goal").parts[1], 0)
    names.check()


def check_scope(node: Node, count: int) -> None:
    """Refuses quantifiers with more variables in scope than this."""
    if isinstance(node, Word):
        return
    if node.head in ("exists", "forall") and len(node.parts) == 3 and isinstance(node.parts[1], Group):
        variables = entries_of(node.parts[1].parts)
        count += len(variables)
        if count > MOST_VARIABLES:
            raise Refusal(variables[-1].name.at, f"{count} variables are in scope, and the language has {MOST_VARIABLES} at most")
    for it in node.parts:
        check_scope(it, count)
