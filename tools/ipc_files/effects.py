"""Effects of a `when` that are more than literals: a `when` or a `forall` within it, and nested lists, are moved out of it.

All conditions of an effect are read in the state before, so that `(when c (when d e))` is `(when (and c d) e)`, and
`(when c (forall (?x) e))` is `(forall (?x) (when c e))` where `?x` does not stand in c."""

from __future__ import annotations

from ipc_files.costs import increases
from ipc_files.files import Task, with_value
from ipc_files.formulas import conjuncts
from ipc_files.scopes import Fresh, apart
from ipc_files.trees import Group, entries_of, listed, words_in


def move_out(task: Task) -> None:
    """Writes each effect with literals alone in what a `when` adds or deletes, and each cost in the outermost list."""
    moving = Moving(Fresh(task), task)
    task.domain.change(":action", lambda it: [with_value(it, ":effect", moving.whole)])


def is_literals(effect: Group) -> bool:
    """Whether an effect is a literal, or a list of literals."""
    parts = effect.parts[1:] if effect.head == "and" else [effect]
    return all(it.head not in ("and", "forall", "when") for it in parts)


class Moving:
    """What is moved out of conditional effects."""

    def __init__(self, fresh: Fresh, task: Task):
        self.fresh, self.task = fresh, task

    def whole(self, effect: Group) -> Group:
        """An action's whole effect."""
        if effect.head != "and":
            return self.effect(effect) if effect.parts else effect
        parts = []
        for it in effect.parts[1:]:
            if it.head == "and" and increases(it):
                self.task.tell("nested-effect", it.at, "the list is written without its parentheses, as a cost stands in it")
                parts += self.whole(it).parts[1:]
            else:
                parts.append(self.effect(it))
        return effect.with_parts([effect.parts[0], *parts])

    def effect(self, effect: Group) -> Group:
        """An effect outside of each `when`."""
        if effect.head == "and":
            return effect.with_parts([effect.parts[0], *map(self.effect, effect.parts[1:])])
        if effect.head == "forall":
            return effect.with_parts([*effect.parts[:2], self.effect(effect.parts[2])])
        if effect.head != "when" or is_literals(effect.parts[2]):
            return effect
        self.task.tell("nested-effect", effect.at, "what stands in the `when` is moved out of it")
        made = self.moved(effect.parts[1], effect.parts[2], effect)
        return made[0] if len(made) == 1 else listed(effect.at, "and", *made)

    def moved(self, condition: Group, effect: Group, around: Group) -> list[Group]:
        """Effects that are together an effect under this condition. The literals of a list stay together."""
        if effect.head == "and":
            literals = [it for it in effect.parts[1:] if it.head not in ("and", "forall", "when")]
            rest = [it for it in effect.parts[1:] if it.head in ("and", "forall", "when")]
            kept = [listed(around.at, "when", condition, listed(effect.at, "and", *literals))] if literals or not rest else []
            return kept + [made for it in rest for made in self.moved(condition, it, around)]
        if effect.head == "when":
            both = listed(effect.at, "and", *conjuncts(condition), *conjuncts(effect.parts[1]))
            return self.moved(both, effect.parts[2], effect)
        if effect.head == "forall":
            return [self.out_of(condition, effect)]
        return [listed(around.at, "when", condition, effect)]

    def out_of(self, condition: Group, effect: Group) -> Group:
        """A `forall` with the condition inside. Its variables get other names where the condition has them, free or not."""
        there = {it.low for it in words_in(condition)}
        clashing = {it.name.low for it in entries_of(effect.parts[1].parts)} & there
        if clashing:
            effect = apart(effect, {}, dict.fromkeys(clashing, ()), self.fresh)
        inner = self.moved(condition, effect.parts[2], effect)
        within = inner[0] if len(inner) == 1 else listed(effect.at, "and", *inner)
        return listed(effect.at, "forall", effect.parts[1], within)
