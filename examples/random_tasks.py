"""Small tasks made at random: conditions of every form, changes under `when` and `forall`, static atoms, costs by functions."""

OBJECTS = ("o0", "o1", "o2")
FLAGS = ["(p)", "(q)", "(r)"]
DOMAIN = """(define (domain random)
  (:types thing)
  (:constants o0 o1 - thing)
  (:predicates (p) (q) (r) (on ?x - thing) (some ?x - thing) (old ?x - thing) (never))
  (:functions (total-cost) - number (price ?x - thing) - number)
{actions})
"""
ACTION = """  (:action a{number} :parameters ({parameters})
    :precondition {precondition}
    :effect (and {effect}))
"""
PROBLEM = """(define (problem random) (:domain random)
  (:objects o2 - thing)
  (:init {init})
  (:goal {goal})
  {metric})
"""


class Maker:
    """Makes parts of tasks; (old ..) is static, and of (some ..) and (never) hardly any atom is changed."""

    def __init__(self, chance):
        self.chance, self.variables = chance, 0

    def is_so(self, share):
        return self.chance.random() < share

    def literal(self, atoms):
        atom = self.chance.choice(atoms)
        return f"(not {atom})" if self.is_so(0.4) else atom

    def literals(self, atoms, most):
        return f"(and {' '.join(self.literal(atoms) for _ in range(self.chance.randint(0, most)))})"

    def variable(self):
        """A variable that no other part has, and the atoms that name it."""
        self.variables += 1
        name = f"?v{self.variables}"
        return name, [f"(on {name})", f"(on {name})", f"(old {name})"]

    def formula(self, atoms, depth):
        if depth == 0 or self.is_so(0.6):
            return self.literal(atoms)
        kind = self.chance.choice(("and", "or", "not", "imply", "exists", "forall", "="))
        if kind == "=":
            return self.chance.choice(("(= o0 o0)", "(= o0 o1)", "(not (= o0 o1))"))
        if kind in ("exists", "forall"):
            name, its = self.variable()
            return f"({kind} ({name} - thing) {self.formula(atoms + its, depth - 1)})"
        count = {"not": 1, "imply": 2}.get(kind, self.chance.randint(0, 3))
        return f"({kind} {' '.join(self.formula(atoms, depth - 1) for _ in range(count))})"

    def change(self, atoms, changed):
        """A change of one of the second atoms, its condition over the first."""
        if self.is_so(0.2):
            name, its = self.variable()
            atoms, changed = atoms + its, changed + its[:2]
            return f"(forall ({name} - thing) {self.change_of(atoms, changed)})"
        return self.change_of(atoms, changed)

    def change_of(self, atoms, changed):
        if self.is_so(0.6):
            return self.literal(changed)
        condition = self.formula(atoms, 2) if self.is_so(0.1) else self.literals(atoms, 2)
        return f"(when {condition} {self.literals(changed, 2)})"

    def action(self, number):
        has_parameter = self.is_so(0.6)
        names = ("?x", "?x", "o0") if has_parameter else OBJECTS[:2]
        changed = FLAGS + [f"(on {name})" for name in names]
        atoms = changed + ["(never)", "(old ?x)", "(some ?x)"] if has_parameter else changed
        changed = changed + ["(some o0)"] if self.is_so(0.3) else changed
        parts = [self.formula(atoms, 2) for _ in range(self.chance.randint(0, 3))]
        effect = [self.change(atoms, changed) for _ in range(self.chance.randint(1, 4))]
        if self.is_so(0.8):
            by = "(price ?x)" if has_parameter and self.is_so(0.3) else self.chance.randint(0, 6)
            effect.append(f"(increase (total-cost) {by})")
        return ACTION.format(number=number, parameters="?x - thing" if has_parameter else "", precondition=f"(and {' '.join(parts)})",
                             effect=" ".join(effect))


def random_task(chance):
    """A domain and a problem."""
    make = Maker(chance)
    atoms = FLAGS + [f"(on {name})" for name in OBJECTS]
    init = [atom for atom in [*atoms, *(f"(old {name})" for name in OBJECTS)] if make.is_so(0.4)]
    init += [f"(= (price {name}) {chance.randint(0, 5)})" for name in OBJECTS if make.is_so(0.7)]
    goal = [make.literal(atoms) if make.is_so(0.8) else make.formula(atoms, 1) for _ in range(chance.randint(1, 3))]
    domain = DOMAIN.format(actions="".join(make.action(number) for number in range(chance.randint(2, 5))))
    return domain, PROBLEM.format(init=" ".join(init), goal=f"(and {' '.join(goal)})",
                                  metric="(:metric minimize (total-cost))" if make.is_so(0.8) else "")
