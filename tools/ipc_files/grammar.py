"""What may stand in the files that are read: the language, and what the changes take away. The rest is refused with its place, so
that the changes need not ask what they meet."""

from __future__ import annotations

import re

from ipc_files.told import Refusal
from ipc_files.trees import Group, Node, Word
from ipc_files.unsupported import METRIC, refuse_condition, refuse_effect, refuse_fact, refuse_metric, refuse_section

DOMAIN_SECTIONS = (":requirements", ":types", ":constants", ":predicates", ":functions", ":action", ":derived")
PROBLEM_SECTIONS = (":domain", ":requirements", ":objects", ":init", ":goal", ":metric", ":length")
REPEATABLE = (":action", ":derived")
PARTS = (":parameters", ":precondition", ":effect")
CONNECTIVES = ("and", "or", "not", "imply", "exists", "forall", "when", "increase")
# Of a word.
MOST_BYTES = 255
NUMBER = re.compile(r"[0-9]+\.?[0-9]*|\.[0-9]+")


def is_name(node: Node) -> bool:
    """Whether a word may be a name, if need be by another spelling."""
    return isinstance(node, Word) and node.text[0] not in "?:-="


def is_variable(node: Node) -> bool:
    return isinstance(node, Word) and node.text[0] == "?" and len(node.text) > 1


def is_number(node: Node) -> bool:
    """Whether a word is a number, which may have a fraction in decimals."""
    return isinstance(node, Word) and len(node.text) <= MOST_BYTES and bool(NUMBER.fullmatch(node.text))


def want(holds: bool, node: Node, wanted: str) -> None:
    """Refuses the file at this node where something else is expected there."""
    if not holds:
        raise Refusal(node.at, f"expected {wanted}")


def check_file(tree: Group, kind: str) -> None:
    """Refuses a file that is no domain, or no problem."""
    want(tree.head == "define" and len(tree.parts) > 1, tree, f"`(define ({kind} NAME) ..)`")
    name = tree.parts[1]
    is_head = isinstance(name, Group) and name.head == kind and len(name.parts) == 2 and is_name(name.parts[1])
    want(is_head, name, f"`({kind} NAME)`")
    sections, seen = DOMAIN_SECTIONS if kind == "domain" else PROBLEM_SECTIONS, set()
    for it in tree.parts[2:]:
        want(isinstance(it, Group) and it.head.startswith(":"), it, "a section")
        refuse_section(it)
        if it.head not in sections:
            raise Refusal(it.parts[0].at, f"`{it.head}` is no section of a {kind} of the language, and cannot be said otherwise")
        if it.head in seen and it.head not in REPEATABLE:
            raise Refusal(it.parts[0].at, f"a second section `{it.head}`")
        seen.add(it.head)
        CHECKS[it.head](it)
    for it in (":predicates",) if kind == "domain" else (":domain", ":init", ":goal"):
        if it not in seen:
            raise Refusal(tree.at, f"the {kind} has no section `{it}`")


def check_names(section: Group) -> None:
    """`names`: each group of names may have a type."""
    check_typed(section, section.parts[1:], is_name, "a name")


def check_variables(variables: Node) -> None:
    """`( vars )`."""
    want(isinstance(variables, Group), variables, "a list of variables")
    check_typed(variables, variables.parts, is_variable, "a variable")


def check_typed(around: Group, parts: list[Node], is_entry, wanted: str) -> None:
    """A typed list. `either` is for variables alone."""
    count, index = 0, 0
    while index < len(parts):
        it = parts[index]
        if isinstance(it, Word) and it.text == "-":
            want(count > 0, it, wanted)
            if index + 1 == len(parts):
                raise Refusal(around.at, "expected a type after the last `-`")
            check_type(parts[index + 1], is_entry is is_variable)
            count, index = 0, index + 2
        else:
            want(is_entry(it), it, wanted)
            count, index = count + 1, index + 1


def check_type(kind: Node, takes_either: bool) -> None:
    """What stands behind a dash."""
    if isinstance(kind, Word):
        want(is_name(kind), kind, "a type")
        return
    if not takes_either:
        raise Refusal(kind.at, "`either` is for variables alone")
    want(kind.head == "either" and len(kind.parts) > 1 and all(map(is_name, kind.parts)), kind, "a type, or `(either TYPE ..)`")


def check_requirements(section: Group) -> None:
    for it in section.parts[1:]:
        want(isinstance(it, Word) and it.text[0] == ":" and len(it.text) > 1, it, "a requirement")


def check_declaration(it: Node) -> None:
    """`( NAME vars )`."""
    want(isinstance(it, Group) and bool(it.parts) and is_name(it.parts[0]), it, "`(NAME ?variable ..)`")
    if it.head in CONNECTIVES:
        raise Refusal(it.parts[0].at, f"`{it.head}` is a word of the language, and no name of its own")
    check_typed(it, it.parts[1:], is_variable, "a variable")


def check_predicates(section: Group) -> None:
    for it in section.parts[1:]:
        check_declaration(it)


def check_functions(section: Group) -> None:
    """Functions, each with `- number` or without."""
    parts, index = section.parts[1:], 0
    while index < len(parts):
        check_declaration(parts[index])
        index += 1
        if index < len(parts) and isinstance(parts[index], Word):
            is_typed = parts[index].text == "-" and index + 1 < len(parts)
            want(is_typed and isinstance(parts[index + 1], Word) and parts[index + 1].low == "number", parts[index], "`- number`")
            index += 2


def check_derived(section: Group) -> None:
    want(len(section.parts) == 3, section, "`(:derived (PREDICATE ?variable ..) CONDITION)`")
    check_declaration(section.parts[1])
    check_condition(section.parts[2])


def check_action(section: Group) -> None:
    """`(:action NAME part*)`, with each part once at most."""
    want(len(section.parts) > 1 and is_name(section.parts[1]), section, "`(:action NAME ..)`")
    seen, index = set(), 2
    while index < len(section.parts):
        it = section.parts[index]
        want(isinstance(it, Word) and it.low in PARTS, it, "`:parameters`, `:precondition` or `:effect`")
        if it.low in seen:
            raise Refusal(it.at, f"a second `{it.low}`")
        if index + 1 == len(section.parts):
            raise Refusal(it.at, f"expected a list after `{it.low}`")
        seen.add(it.low)
        check_part(it.low, section.parts[index + 1])
        index += 2


def check_part(keyword: str, value: Node) -> None:
    """What stands behind the keyword of a part. `()` is an empty precondition or effect."""
    want(isinstance(value, Group), value, "a list")
    if keyword == ":parameters":
        check_variables(value)
    elif value.parts and keyword == ":precondition":
        check_condition(value)
    elif value.parts:
        check_effect(value, True)


def check_term(it: Node) -> None:
    want(is_name(it) or is_variable(it), it, "an object or a variable")


def check_atom(atom: Node) -> None:
    """`( NAME term* )`."""
    want(isinstance(atom, Group) and bool(atom.parts) and is_name(atom.parts[0]), atom, "an atom")
    if atom.head in CONNECTIVES:
        raise Refusal(atom.parts[0].at, f"`{atom.head}` may not stand here")
    for it in atom.parts[1:]:
        check_term(it)


def check_condition(formula: Node) -> None:
    """`F` of docs/language.md."""
    want(isinstance(formula, Group), formula, "a condition")
    refuse_condition(formula)
    head, parts = formula.head, formula.parts[1:]
    counts = {"not": 1, "imply": 2, "=": 2, "exists": 2, "forall": 2}
    if head in counts:
        want(len(parts) == counts[head], formula, f"`{head}` with {counts[head]} {'part' if counts[head] == 1 else 'parts'}")
    if head in ("exists", "forall"):
        check_variables(parts[0])
        parts = parts[1:]
    if head == "=":
        for it in parts:
            check_term(it)
    elif head in ("and", "or", "not", "imply", "exists", "forall"):
        for it in parts:
            check_condition(it)
    else:
        check_atom(formula)


def check_effect(effect: Node, is_outermost: bool) -> None:
    """An effect. `increase` stands in no `forall` and in no `when`."""
    want(isinstance(effect, Group), effect, "an effect")
    head, parts = effect.head, effect.parts[1:]
    if head == "and":
        for it in parts:
            check_effect(it, is_outermost)
    elif head == "not":
        want(len(parts) == 1, effect, "`not` with 1 part")
        check_atom(parts[0])
    elif head in ("forall", "when"):
        want(len(parts) == 2, effect, f"`{head}` with 2 parts")
        (check_variables if head == "forall" else check_condition)(parts[0])
        check_effect(parts[1], False)
    elif is_cost(effect):
        if not is_outermost:
            raise Refusal(effect.parts[0].at, "the language has no costs under a `when` or a `forall`")
        check_increase(effect)
    else:
        refuse_effect(effect)
        check_atom(effect)


def is_cost(effect: Group) -> bool:
    """Whether an effect increases the total cost, or is not even an increase of another number."""
    if effect.head != "increase":
        return False
    of = effect.parts[1] if len(effect.parts) > 1 else None
    return not isinstance(of, Group) or of.head in ("", "total-cost")


def check_increase(effect: Group) -> None:
    """`(increase (total-cost) NUMBER)`, or a function in the place of the number."""
    want(len(effect.parts) == 3, effect, "`(increase (total-cost) NUMBER)`")
    cost, by = effect.parts[1:]
    want(isinstance(cost, Group) and cost.head == "total-cost" and len(cost.parts) == 1, cost, "`(total-cost)`")
    want(is_number(by) or isinstance(by, Group), by, "a number, or a function of objects")
    if isinstance(by, Group):
        want(not any(isinstance(it, Group) for it in by.parts), by, "a number, or a function of objects: nothing is reckoned here")
        check_atom(by)
        want(by.head != "total-cost", by, "a number, or a function of objects")


def check_domain_name(section: Group) -> None:
    want(len(section.parts) == 2 and is_name(section.parts[1]), section, "`(:domain NAME)`")


def check_init(section: Group) -> None:
    """Atoms, those under a `not` included, and values of functions."""
    for it in section.parts[1:]:
        want(isinstance(it, Group), it, "a fact")
        refuse_fact(it)
        atom = it
        if it.head == "=":
            want(len(it.parts) == 3 and isinstance(it.parts[1], Group), it, "`(= (FUNCTION OBJECT ..) NUMBER)`")
            want(is_number(it.parts[2]), it.parts[2], "a number")
            atom = it.parts[1]
        elif it.head == "not":
            want(len(it.parts) == 2, it, "`(not (PREDICATE OBJECT ..))`")
            atom = it.parts[1]
        check_atom(atom)
        for term in atom.parts[1:]:
            want(is_name(term), term, "an object")


def check_goal(section: Group) -> None:
    want(len(section.parts) == 2, section, "`(:goal CONDITION)`")
    check_condition(section.parts[1])


def check_metric(section: Group) -> None:
    """The total cost is minimised, or the total time."""
    want(len(section.parts) == 3 and isinstance(section.parts[1], Word), section, "`(:metric minimize (total-cost))`")
    refuse_metric(*section.parts[1:])
    want(section.parts[1].low == "minimize", section.parts[1], "`minimize`")
    of = section.parts[2]
    if not is_total_time(of) and not (isinstance(of, Group) and of.head == "total-cost" and len(of.parts) == 1):
        raise Refusal(of.at, METRIC)


def is_total_time(of: Node) -> bool:
    """Whether what is minimised is the total time, with parentheses or without."""
    return of.low == "total-time" if isinstance(of, Word) else of.head == "total-time" and len(of.parts) == 1


CHECKS = {
    ":requirements": check_requirements, ":types": check_names, ":constants": check_names, ":objects": check_names,
    ":predicates": check_predicates, ":functions": check_functions, ":action": check_action, ":derived": check_derived,
    ":domain": check_domain_name, ":init": check_init, ":goal": check_goal, ":metric": check_metric,
    ":length": lambda section: None,
}
