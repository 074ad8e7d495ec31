"""Derived predicates that do not depend on themselves: what they say is written where a condition asks for them.

An atom of such a predicate holds exactly where the condition of one of its rules does, with the atom's terms in the places of the
rule's arguments. So the disjunction of these conditions stands for it, also under `not`, a quantifier or a `when`."""

from __future__ import annotations

from ipc_files.checking import Names
from ipc_files.files import Task
from ipc_files.formulas import Scope, atoms_in, is_atom, scope_with
from ipc_files.scopes import Fresh, apart
from ipc_files.told import Refusal
from ipc_files.trees import Entry, Group, Word, entries_of, listed, parts_of, words_in
from ipc_files.writing import check_depth

# So many words are written in the places of atoms; a text of more would be too long.
MOST_WORDS = 2_000_000


def write_out(task: Task) -> None:
    """Writes conditions without derived predicates, and drops their rules and declarations."""
    rules = task.domain.all(":derived")
    if not rules:
        return
    writing = Writing(task, rules)
    for it in writing.in_order():
        writing.expand_rules(it)
    task.each_condition(writing.condition)
    for it in rules:
        task.tell("derived", it.at, f"the rule of `{it.parts[1].head}` is dropped, as it is written out")
    task.domain.drop(":derived")
    task.domain.put(":predicates", [it for it in task.domain.find(":predicates").parts[1:] if it.head not in writing.rules])


class Writing:
    """Rules by their predicates, and what is written in the places of atoms."""

    def __init__(self, task: Task, rules: list[Group]):
        self.task, self.names, self.fresh = task, Names(task), Fresh(task)
        # Of each rule the arguments with their types, and the condition, without derived predicates once it is expanded.
        self.rules: dict[str, list[tuple[list[Entry], Group]]] = {}
        for it in rules:
            self.rules.setdefault(it.parts[1].head, []).append((self.names.head_of(it), it.parts[2]))
        self.words = 0

    def in_order(self) -> list[str]:
        """The derived predicates, each behind those that it depends on. Refuses one that depends on itself."""
        found: list[str] = []
        for it in self.rules:
            self.visit(it, [], found, None)
        return found

    def visit(self, predicate: str, path: list[str], found: list[str], at: Word | None) -> None:
        """Adds a predicate behind those that it depends on. The path has those that depend on it, the last one at this word."""
        if predicate in path:
            told = " by way of ".join(f"`{it}`" for it in [*path[path.index(predicate) + 1:], predicate])
            raise Refusal(at.at, f"the derived predicate `{predicate}` depends on itself" + (f": on {told}" if told else ""))
        if predicate in found:
            return
        for _, body in self.rules[predicate]:
            for it in atoms_in(body):
                if it.head in self.rules:
                    self.visit(it.head, [*path, predicate], found, it.parts[0])
        found.append(predicate)

    def expand_rules(self, predicate: str) -> None:
        """Writes the conditions of a predicate's rules without derived ones."""
        self.rules[predicate] = [(head, self.condition(body, scope_with({}, head), False)) for head, body in self.rules[predicate]]

    def condition(self, formula: Group, scope: Scope, is_told: bool = True) -> Group:
        """A condition without derived predicates."""
        if formula.head in ("exists", "forall"):
            inner = scope_with(scope, entries_of(formula.parts[1].parts))
            return formula.with_parts([*formula.parts[:2], self.condition(formula.parts[2], inner, is_told)])
        if not is_atom(formula):
            return formula.with_parts([formula.parts[0], *(self.condition(it, scope, is_told) for it in formula.parts[1:])])
        if formula.head not in self.rules:
            return formula
        if is_told:
            self.task.tell("derived", formula.at, f"`{formula.head}` is written out")
        made = [self.instance(head, body, formula, scope) for head, body in self.rules[formula.head]]
        return made[0] if len(made) == 1 else listed(formula.at, "or", *made)

    def instance(self, head: list[Entry], body: Group, atom: Group, scope: Scope) -> Group:
        """A rule's condition with the atom's terms in the places of its arguments. Where a term may be of other types than the rule
        speaks of, a variable of these types that equals it takes its place."""
        places, narrowed = {}, []
        for argument, term in zip(head, atom.parts[1:]):
            types = self.names.types_of(term, scope, self.names.objects)
            places[argument.name.low] = term
            if not self.names.fits(types, argument.lows):
                new = Entry(Word(self.fresh.like(argument.name.low), term.at), argument.types)
                places[argument.name.low] = new.name
                narrowed.append((new, term))
        inner = scope_with(scope, [it for it, _ in narrowed])
        made = apart(body, places, inner, self.fresh)
        self.check_size(made, atom)
        if not narrowed:
            return made
        equal = [listed(atom.at, "=", it.name, term) for it, term in narrowed]
        variables = listed(atom.at, *parts_of([it for it, _ in narrowed]))
        return listed(atom.at, "exists", variables, listed(atom.at, "and", *equal, made))

    def check_size(self, made: Group, atom: Group) -> None:
        """Refuses what would be too long or too deep for a file."""
        self.words += sum(1 for _ in words_in(made))
        if self.words > MOST_WORDS:
            raise Refusal(atom.at, f"derived predicates take more than {MOST_WORDS:,} words where they are written out")
        check_depth(made, 1)
