"""Conditions and effects, as trees: their parts, the variables in scope, and conditions within effects."""

from __future__ import annotations

from typing import Callable, Dict, Tuple

from ipc_files.trees import Entry, Group, entries_of

# The types of each variable in scope.
Scope = Dict[str, Tuple[str, ...]]


def scope_with(scope: Scope, variables: list[Entry]) -> Scope:
    """What is in scope where these variables are, too."""
    return {**scope, **{it.name.low: it.lows for it in variables}}


def is_atom(node: Group) -> bool:
    """Whether a part of a condition is an atom or an equality."""
    return node.head not in ("and", "or", "not", "imply", "exists", "forall", "when")


def conjuncts(formula: Group) -> list[Group]:
    """The parts of a conjunction, those of nested ones included."""
    if formula.head == "and":
        return [it for part in formula.parts[1:] for it in conjuncts(part)]
    return [formula] if formula.parts else []


def atoms_in(formula: Group) -> list[Group]:
    """The atoms of a condition, equalities included."""
    if formula.head in ("exists", "forall"):
        return atoms_in(formula.parts[2])
    return [formula] if is_atom(formula) else [atom for it in formula.parts[1:] for atom in atoms_in(it)]


def in_conditions(effect: Group, scope: Scope, change: Callable[[Group, Scope], Group]) -> Group:
    """An effect with other conditions: what `change` makes of each, with the variables in scope there."""
    if effect.head == "and":
        return effect.with_parts([effect.parts[0], *(in_conditions(it, scope, change) for it in effect.parts[1:])])
    if effect.head == "forall":
        inner = scope_with(scope, entries_of(effect.parts[1].parts))
        return effect.with_parts([*effect.parts[:2], in_conditions(effect.parts[2], inner, change)])
    if effect.head == "when":
        condition, inner = change(effect.parts[1], scope), in_conditions(effect.parts[2], scope, change)
        return effect.with_parts([effect.parts[0], condition, inner])
    return effect
