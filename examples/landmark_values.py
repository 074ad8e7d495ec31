"""Landmark values, by docs/certificates.md alone.

A zone is a frozenset of literals, each an atom and whether it is true. A value is a list of zones with their weights.
"""


def changes_that_count(instance, numbered):
    """The literals that an instance may make true, each with the literals of the change's condition.

    A deletion does not count where the instance adds the atom outright, nor a change whose condition wants an atom without a number.
    """
    for change in instance.changes:
        when = change.when or frozenset()
        if (change.adds or change.atom not in instance.adds) and all(atom in numbered for atom, is_true in when if is_true):
            yield (change.atom, change.adds), when


def may_break(instance, zone, numbered):
    """Whether an instance may break a zone: a change that counts makes one of its literals true, and may come where it is whole."""
    if not zone.isdisjoint(instance.literals):
        return False
    return any(literal in zone and zone.isdisjoint(when) for literal, when in changes_that_count(instance, numbered))


def is_fair(value, goal, charged, numbered):
    """Whether each zone has a literal of the goal, and no instance may break zones of more weight than it may be charged.

    `charged` has the instances, each with what it may be charged.
    """
    if any(zone.isdisjoint(goal) for zone, _ in value):
        return False
    return all(sum(weight for zone, weight in value if may_break(it, zone, numbered)) <= most for it, most in charged)


def is_whole(zone, state):
    """Whether none of the zone's literals holds in the state."""
    return not any((atom in state) == is_true for atom, is_true in zone)


def worth(value, state):
    """What a value gives a state: the sum of the weights of the zones that are whole in it."""
    return sum(weight for zone, weight in value if is_whole(zone, state))
