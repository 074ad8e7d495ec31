"""Exchanges of objects, by docs/certificates.md alone: which are symmetries of a task, and by which representative a
state is looked up."""
import itertools

from pddl_task import typed


class Exchange:
    """Objects that change places, two by two, and the pairs of atoms that they take to each other."""

    def __init__(self, names):
        self.pairs_of_objects = list(zip(names[::2], names[1::2]))
        self.image_of = {name: other for pair in self.pairs_of_objects for name, other in (pair, pair[::-1])}
        self.pairs = []

    def image(self, atom):
        return (atom[0], *(self.image_of.get(name, name) for name in atom[1:]))

    def comes_before(self, state):
        """Whether the image of the state comes before it."""
        for lower, upper in self.pairs:
            if (lower in state) != (upper in state):
                return upper in state
        return False


class Exchanges:
    """The exchanges of a certificate, for a task whose numbered atoms are in the order of their numbers."""

    def __init__(self, task, numbered):
        self.task, self.numbers = task, {atom: number for number, atom in enumerate(numbered)}
        self.named = {term for action in task.actions for part in ("precondition", "effect") for term in terms_of(action[part])}
        self.exchanges = []

    def add(self, names):
        """Adds the exchange of the objects of these names: whether it is a symmetry."""
        exchange = Exchange(names)
        if not self.is_symmetry(exchange):
            return False
        atoms = (atom for atom in self.numbers if self.numbers[atom] < self.numbers[exchange.image(atom)])
        exchange.pairs = [(atom, exchange.image(atom)) for atom in atoms]
        self.exchanges.append(exchange)
        return True

    def is_symmetry(self, exchange):
        task, image = self.task, exchange.image
        return (all(task.type_of.get(a) == task.type_of.get(b) is not None for a, b in exchange.pairs_of_objects)
                and self.named.isdisjoint(exchange.image_of)
                and all(task.values.get(image(function)) == value for function, value in task.values.items())
                and all(image(atom) in task.static for atom in task.static)
                and conjuncts_of(task.goal, exchange.image_of) <= conjuncts_of(task.goal, {})
                and all(image(atom) in self.numbers for atom in self.numbers))

    def representative(self, state):
        """As long as an image comes before the state, the first such image in its place; so many images are taken at most."""
        for _ in range((len(self.exchanges) + 1) ** 2):
            exchange = next((it for it in self.exchanges if it.comes_before(state)), None)
            if exchange is None:
                break
            state = frozenset(map(exchange.image, state))
        return state


def terms_of(part):
    """The terms that a formula or an effect names, in atoms, equalities and functions."""
    head, *rest = part
    if head in ("and", "or", "not", "imply", "when"):
        return set(itertools.chain.from_iterable(map(terms_of, rest)))
    if head in ("forall", "exists"):
        return terms_of(rest[1])
    if head == "increase":
        return set(rest[1][1:]) if isinstance(rest[1], list) else set()
    return set(rest)


def conjuncts_of(goal, image_of):
    """The conjuncts of the goal, with these objects in the place of others."""
    return set(flattened(standard(goal, (), image_of)))


def flattened(formula):
    return [it for part in formula[1:] for it in flattened(part)] if formula[0] == "and" else [formula]


def standard(formula, scope, image_of):
    """The formula with places in the scope for names of variables, and with a quantifier for each variable."""
    head, *rest = formula
    if head in ("and", "or", "not", "imply"):
        return (head, *(standard(part, scope, image_of) for part in rest))
    if head in ("forall", "exists"):
        variables = typed(rest[0])
        found = standard(rest[1], (*scope, *(name for name, _ in variables)), image_of)
        if not variables:
            return ("and" if head == "forall" else "or", found)
        for _, types in reversed(variables):
            found = (head, tuple(types), found)
        return found
    places = {name: place for place, name in enumerate(scope)}
    return (head, *(places[term] if term in places else image_of.get(term, term) for term in rest))
