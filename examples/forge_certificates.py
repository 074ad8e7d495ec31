#!/usr/bin/env python3
"""Makes certificates of versions 3 and 4 from those of versions 1 and 2, and forges certificates, at random.

    forge_certificates.py DOMAIN PROBLEM CERT FOLDER [--count N] [--landmarks N] [--seed S]

From CERT, of any version, it writes N texts (100) of version 3 into FOLDER, of which most are wrong in a place or two, and as many
of version 4 as `--landmarks` says (100). `compare_checkers.py` asks two checkers of such texts.
"""
import argparse
import itertools
import os
import random
import sys

sys.dont_write_bytecode = True
sys.path.insert(0, os.path.dirname(os.path.realpath(__file__)))

from certificate_text import read_certificate, rows_after  # noqa: E402
from check_certificate import Fairness, kept_instances  # noqa: E402
from forgeries import CHANGES, OF_LANDMARKS, first_atom, forged, joined  # noqa: E402
from landmark_cuts import LandmarkCuts, Text, certificate  # noqa: E402
from landmark_values import worth  # noqa: E402
from pddl_task import Task  # noqa: E402

# A table is left out where more rows are reached, and no instances are counted beyond the second number.
MOST_ROWS, MOST_INSTANCES = 200, 1000000
# For how many states a text gets landmark values, and how many states a search by LM-cut expands.
MOST_VALUES, MOST_EXPANDED = 6, 40


# ---- tables

class Draft:
    """A certificate without tables that is given some, and what is left of its instances' costs while they are divided."""

    def __init__(self, task, data, chance):
        self.task, self.said = task, read_certificate(task, data)
        self.said.version = 3
        self.list_atoms(chance.choice(("all", "those of the text", "few")))
        self.instances, numbered = kept_instances(task, self.said, MOST_INSTANCES)
        self.fairness = Fairness(self.said, numbered)
        self.goal = task.sure(task.goal, {})
        self.left = {}

    def list_atoms(self, which):
        """Lists all atoms that have numbers, or those that states have or that have weights, or leaves them as they are."""
        weights = self.said.weights
        if which == "all":
            _, numbered = kept_instances(self.task, self.said, MOST_INSTANCES)
            weights.update((atom, [0, 0]) for atom in sorted(numbered - weights.keys()))
        elif which == "few":
            kept = {atom for _, _, _, _, state in self.said.states for atom in state} | {atom for atom in weights if any(weights[atom])}
            self.said.weights = {atom: weights[atom] for atom in weights if atom in kept}
        self.said.atoms = list(self.said.weights)

    def seen(self, at):
        """What each instance asks and changes in the scope of a table, where it changes something."""
        found = ((it, self.fairness.seen(it).get(at)) for it in self.instances)
        return {instance: seen for instance, seen in found if seen is not None}

    def add_table(self, scope):
        """A table of the rows that are reached; none where they are too many."""
        at = len(self.said.tables)
        self.said.read_table([str(number) for number in scope])
        table, seen = self.said.tables[at], self.seen(at)
        rows = reached(self.said.bits_of(self.task.initial).get(at, 0), set(seen.values()))
        if rows is None:
            self.said.tables.pop()
            for number in scope:
                self.said.places[self.said.atoms[number]].pop()
            return
        for row in rows:
            table.add([bit for bit in table.bits.values() if row & bit], [])
        self.instances = [it for it in self.instances if not self.fairness.is_shut_out(it)]

    def take(self, at):
        """Weights of a table's rows by which it takes as much as it can of what is left: of each row what is still to pay by it."""
        table, seen, costs = self.said.tables[at], self.seen(at), {}
        for instance, it in seen.items():
            costs[it] = min(self.left[instance], costs.get(it, self.left[instance]))
        steps = {it: [(row, after) for row in table.agreeing(*it[0]) for after in rows_after(row, *it[1])] for it in costs}
        found = to_pay(self.goal_rows(at), [(*step, costs[it]) for it in steps for step in steps[it]])
        weights = {**dict.fromkeys(table.rows, max(found.values(), default=0) + 1), **found}
        for instance, it in seen.items():
            self.left[instance] -= max(weights[row] - weights[after] for row, after in steps[it])
        return weights, found

    def goal_rows(self, at):
        asked = ({atom for atom, is_true in self.goal if is_true == it} for it in (True, False))
        return self.said.tables[at].agreeing(*(self.said.bits_of(atoms).get(at, 0) for atoms in asked))

    def value(self, order, has_potentials):
        """A value: its constant, its weights of atoms, and of the rows of each table. The tables take from the costs in this order."""
        constant, weights = self.said.constants[0] if has_potentials else 0, {}
        for atom in self.said.atoms:
            weights[atom] = self.said.weights[atom][0] if has_potentials else 0
        for instance in self.instances:
            self.left[instance] = max(0, instance.cost - (self.fairness.losses_by_atoms(instance)[0] if has_potentials else 0))
        rows = {at: self.take(at)[0] for at in order}
        return constant, weights, [rows[at] for at in range(len(self.said.tables))]

    def dead_ends(self):
        """The second value: its constant, and its weights of atoms and of rows, which are 1 where a row has no way to the goal."""
        self.left = dict.fromkeys(self.instances, 0)
        ways = [self.take(at)[1] for at in range(len(self.said.tables))]
        rows = [{row: 0 if row in ways[at] else 1 for row in table.rows} for at, table in enumerate(self.said.tables)]
        return self.said.constants[1], {atom: weights[1] for atom, weights in self.said.weights.items()}, rows

    def text(self, functions):
        """The text with these functions, without bounds in its cuts: a line is a list of words."""
        column = lambda part, key: [str(function[part][key]) for function in functions]
        claim = ["none"] if self.said.claim is None else ["bound", str(self.said.claim)]
        lines = [["pddl-cert", "3"], ["claim", *claim], ["constant", *(str(function[0]) for function in functions)]]
        lines += [["atom", *column(1, atom), f"({' '.join(atom)})"] for atom in self.said.atoms]
        number_of = {atom: str(number) for number, atom in enumerate(self.said.atoms)}
        for at, table in enumerate(self.said.tables):
            lines.append(["table", *table.bits])
            for row in table.rows:
                weights = [str(function[2][at][row]) for function in functions]
                lines.append(["row", *weights, *(word for word, bit in table.bits.items() if row & bit)])
        for _, kind, cost, _, state in self.said.states:
            numbers = sorted((number_of[atom] for atom in state), key=int)
            lines.append([kind, str(cost), *(["0"] if kind == "cut" else []), *numbers])
        return [*lines, ["end", str(len(self.said.states))]]


def reached(start, seen):
    """The rows that are reached from a row by what instances ask and change; None where they are too many."""
    rows, known = [start], {start}
    for row in rows:
        for (wanted, unwanted), changed in seen:
            if row & wanted == wanted and not row & unwanted:
                for after in rows_after(row, *changed):
                    if len(rows) > MOST_ROWS:
                        return None
                    if after not in known:
                        known.add(after)
                        rows.append(after)
    return rows


def to_pay(goals, steps):
    """The cheapest cost from rows to one of these by steps (row, row after, cost), where there is a way."""
    found, is_less = dict.fromkeys(goals, 0), True
    while is_less:
        is_less = False
        for row, after, cost in steps:
            if after in found and (row not in found or found[after] + cost < found[row]):
                found[row], is_less = found[after] + cost, True
    return found


def random_scope(atoms, chance):
    """Numbers of atoms: a few, or those that name one of one or two objects."""
    names = sorted({name for atom in atoms for name in atom[1:]})
    if not names or chance.random() < 0.4:
        return sorted(chance.sample(range(len(atoms)), chance.randint(1, min(5, len(atoms)))))
    names = set(chance.sample(names, min(len(names), chance.randint(1, 2))))
    return [number for number, atom in enumerate(atoms) if names & set(atom[1:])]


def with_tables(task, data, chance):
    """A text of version 3 that claims what this one of version 1 or 2 does, with up to four tables and four values.

    One value has the potentials of the text, and each cut's bound is the value of its state.
    """
    draft = Draft(task, data, chance)
    for _ in range(chance.randint(0, 4) if draft.said.atoms else 0):
        draft.add_table(random_scope(draft.said.atoms, chance))
    order, functions = list(range(len(draft.said.tables))), []
    for at in range(chance.randint(1, 4)):
        chance.shuffle(order)
        functions.append(draft.value(order, at == 0 or chance.random() < 0.5))
    chance.shuffle(functions)
    lines = draft.text([*functions, draft.dead_ends()])
    said = read_certificate(task, joined(lines).encode("ascii"))
    for count, kind, _, _, state in said.states:
        if kind == "cut":
            lines[count - 1][2] = str(said.value(state))
    return joined(lines)


# ---- landmark values

def values_for(cuts, said, chance):
    """Landmark values by LM-cut for a few listed states, each with whether it shows dead ends."""
    states = [state for *_, state in said.states]
    found = [cuts.value_for(state) for state in chance.sample(states, min(len(states), MOST_VALUES))]
    return [it for it in found if it[0]]


def with_landmarks(task, text, chance):
    """A text of version 4 that claims what this one of version 3 does, with landmark values for some of its lines.

    An open state becomes a cut where a landmark value shows what is claimed; a cut and a dead end rest on one where it does, too.
    """
    said = read_certificate(task, text.encode("ascii"))
    instances, numbered = kept_instances(task, said, MOST_INSTANCES)
    fairness = Fairness(said, numbered)
    asked = [it for it in instances if not fairness.is_shut_out(it)]
    values = values_for(LandmarkCuts(task, asked, numbered, dict.fromkeys(said.atoms)), said, chance)
    written, lines = Text(said.atoms), [line.split(" ") for line in text.split("\n")[:-1]]
    for value, _ in values:
        written.value(value)
    for count, kind, cost, _, state in said.states:
        by = said.has_rows(state) and chance.random() < 0.8 and basis(said.claim, values, cost, state, chance)
        if by:
            dead, bound, value = by
            numbers = lines[count - 1][first_atom(lines[count - 1]):]
            words = ["dead-by" if dead else "cut-by", written.value(value), cost, *([] if dead else [bound]), *numbers]
            lines[count - 1] = list(map(str, words))
    lines[0] = ["pddl-cert", "4"]
    at = said.states[0][0] - 1
    lines[at:at] = [list(map(str, words)) for words in written.landmark_lines()]
    return joined(lines)


def basis(claim, values, cost, state, chance):
    """Whether the state is a dead end or else a cut, the cut's bound, and a value that shows it; None where none of these does."""
    found = []
    for value, is_dead in values:
        bound = worth(value, state)
        if is_dead and bound:
            found.append((True, None, value))
        elif claim is not None and cost + bound >= claim:
            found.append((False, chance.randint(max(0, claim - cost), bound), value))
    return chance.choice(found) if found else None


# ---- texts

def random_texts(task, data, chance, count):
    """As many texts of version 3 as this, each with what it is: as they should be, and forged."""
    version = int(data.split(b"\n")[0].split(b" ")[1])
    for at in range(count):
        if at % 10 == 0:
            text = data.decode("ascii") if version >= 3 else with_tables(task, data, chance)
            yield "as it is made", text
        else:
            yield forged(text, chance, CHANGES)


def landmark_texts(task, data, chance, count):
    """As many texts of version 4 as this, each with what it is: as they should be, and forged."""
    version, by_search = int(data.split(b"\n")[0].split(b" ")[1]), None
    for at in range(count):
        if at % 10 != 0:
            yield forged(text, chance, CHANGES, OF_LANDMARKS, OF_LANDMARKS)
            continue
        if at % 30 == 0:
            text = by_search = by_search or certificate(task, MOST_EXPANDED)[1]
        elif version == 4:
            text = data.decode("ascii")
        else:
            text = with_landmarks(task, data.decode("ascii") if version == 3 else with_tables(task, data, chance), chance)
        yield "as it is made with landmark values", text


def main():
    words = argparse.ArgumentParser()
    for file in ("domain", "problem", "cert", "folder"):
        words.add_argument(file)
    for name, count in (("--count", 100), ("--landmarks", 100), ("--seed", 0)):
        words.add_argument(name, type=int, default=count)
    words = words.parse_args()
    text_of = lambda name: open(name, encoding="latin-1").read()
    with open(words.cert, "rb") as file:
        data = file.read()
    os.makedirs(words.folder, exist_ok=True)
    task = Task(text_of(words.domain), text_of(words.problem))
    chance = random.Random(words.seed)
    texts = itertools.chain(random_texts(task, data, chance, words.count), landmark_texts(task, data, chance, words.landmarks))
    for at, (what, text) in enumerate(texts):
        with open(f"{words.folder}/{at}.cert", "w", encoding="ascii") as file:
            file.write(text)
        print(f"{at}.cert: {what}")


if __name__ == "__main__":
    main()
