"""Costs with a fraction: those that are whole are written so, and else all are multiplied by one number."""

from __future__ import annotations

from fractions import Fraction
from math import gcd

from ipc_files.files import Task, value_of, with_value
from ipc_files.formulas import conjuncts
from ipc_files.told import Refusal
from ipc_files.trees import Group, Node, Word

MOST = 2_147_483_647


def value_in(word: Word) -> Fraction:
    """What a number says: digits, and a fraction in decimals."""
    return Fraction("0" + word.text if word.text[0] == "." else word.text)


def scale(task: Task) -> None:
    """Writes each cost as a whole number, all of them multiplied by the least number that makes them so."""
    numbers = numbers_of(task)
    factor = 1
    for it in numbers:
        below = value_in(it).denominator
        factor = factor * below // gcd(factor, below)
    for it in numbers:
        if value_in(it) * factor > MOST:
            raise Refusal(it.at, f"the cost {it.text}{f' times {factor}' if factor > 1 else ''} is more than {MOST:,}")
    if factor > 1:
        first = next(it for it in numbers if value_in(it).denominator > 1)
        task.tell("scale", first.at, f"all costs are multiplied by {factor}")
    for it in numbers:
        if factor == 1 and not it.text.isdigit():
            task.tell("number", it.at, f"`{it.shown}` is written as {value_in(it)}")
    if factor > 1 or not all(it.text.isdigit() for it in numbers):
        write(task, factor)
    if task.has_metric:
        task.factor = factor


def increases(effect: Group) -> list[Group]:
    """The increases of the total cost in an effect."""
    return [it for it in conjuncts(effect) if it.head == "increase"]


def numbers_of(task: Task) -> list[Word]:
    """All numbers, those of the domain first."""
    effects = [value_of(it, ":effect") for it in task.domain.all(":action")]
    found = [it.parts[2] for effect in effects if effect for it in increases(effect)]
    found += [it.parts[2] for it in task.problem.find(":init").parts[1:] if it.head == "="]
    return [it for it in found if isinstance(it, Word)]


def write(task: Task, factor: int) -> None:
    """Writes all numbers multiplied by one."""
    task.domain.change(":action", lambda it: [with_value(it, ":effect", lambda effect: in_effect(effect, factor))])
    init = task.problem.find(":init")
    facts = [it.with_parts([*it.parts[:2], times(it.parts[2], factor)]) if it.head == "=" else it for it in init.parts[1:]]
    task.problem.put(":init", facts)


def in_effect(effect: Group, factor: int) -> Group:
    """An effect whose cost is multiplied by a number."""
    if effect.head == "and":
        return effect.with_parts([effect.parts[0], *(in_effect(it, factor) for it in effect.parts[1:])])
    if effect.head == "increase":
        return effect.with_parts([*effect.parts[:2], times(effect.parts[2], factor)])
    return effect


def times(number: Node, factor: int) -> Node:
    """A number multiplied by one. What is no number is a function, whose values are multiplied where they stand."""
    if isinstance(number, Group) or factor == 1 and number.text.isdigit():
        return number
    return Word(str(value_in(number) * factor), number.at)
