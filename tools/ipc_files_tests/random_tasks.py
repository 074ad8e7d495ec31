"""Random tasks as competitions might have them: each has some of the traits that the tool changes."""

from __future__ import annotations

from random import Random

TRAITS = ("byte-order-mark", "requirement", "length", "metric", "parameters", "object-type", "type-again", "type-undeclared",
          "constant", "name", "number", "scale", "negative-fact", "shadow", "nested-effect", "derived", "split", "upper-case")

# A name, and how it may be spelled.
ODD = {"t0": "t#0", "t1": "1t", "t2": "_t.2", "u": "u.u", "o0": "0", "o1": "_o1", "o2": "o#2", "o3": "o-2", "p0": "2p",
       "p1": "p.1", "p2": "preference", "p3": "p" + "x" * 300, "d0": "_d", "d1": "d@1", "a0": "a#0", "a1": "a-0", "a2": "3",
       "f": "f/1", "?x": "?1", "?y": "?y.y", "?z": "?_z"}
# Types of variables, and of the arguments of predicates.
KINDS = ("t0", "t1", "t2", "object", "object", "(either t1 t2)")
KEYS = (":derived-predicates", ":domain-axioms", ":preferences", ":durative-actions", ":ucpop", ":expression-evaluation")


class Maker:
    """What makes one task of a seed."""

    def __init__(self, seed: int):
        self.random = Random(seed)
        self.traits = {it for it in TRAITS if self.random.random() < 0.4}
        self.odd = {it for it in ODD if "name" in self.traits and self.random.random() < 0.4}
        # Of each type those above it. An object of `u` alone there is none.
        self.above = {"t0": ("t0", "object"), "t1": ("t1", "t0", "object"), "t2": ("t2", "object"), "object": ("object",)}
        self.types = {f"o{index}": self.random.choice(("t0", "t1", "t2")) for index in range(self.random.choice((2, 3, 3, 4)))}
        self.constants = [it for it in self.types if self.random.random() < 0.3]
        others = [it for it in self.types if it not in self.constants]
        self.implied = [it for it in others if "constant" in self.traits and self.random.random() < 0.4]
        self.predicates = {f"p{index}": self.kinds(self.random.choice((0, 1, 1, 1, 2))) for index in range(4)}
        self.derived: dict[str, list[str]] = {}
        self.counted = 0

    def chance(self, part: float) -> bool:
        """Whether what happens so often happens now."""
        return self.random.random() < part

    def kinds(self, count: int) -> list[str]:
        """So many types."""
        return [self.random.choice(KINDS) for _ in range(count)]

    def spelled(self, text: str) -> str:
        """The words of a text as the task spells them."""
        words = text.replace("(", " ( ").replace(")", " ) ").split()
        is_upper = "upper-case" in self.traits
        made = (ODD[it] if it in self.odd else it.upper() if is_upper and self.chance(0.3) else it for it in words)
        return " ".join(made).replace("( ", "(").replace(" )", ")")

    def fits(self, kind: str, wanted: str) -> bool:
        """Whether what is of one type is of another; either may be a choice."""
        kinds = kind.strip("()").split()[1:] if kind.startswith("(") else [kind]
        others = wanted.strip("()").split()[1:] if wanted.startswith("(") else [wanted]
        return all(any(other in self.above[it] for other in others) for it in kinds)

    def terms(self, scope: dict[str, str], objects: list[str], wanted: str) -> list[str]:
        """The terms that may stand where a type is wanted. Variables are likelier."""
        variables = [it for it, kind in scope.items() if self.fits(kind, wanted)]
        return variables * 3 + [it for it in objects if self.fits(self.types[it], wanted)]

    def atom(self, scope: dict[str, str], objects: list[str], known: dict[str, list[str]]) -> str:
        """An atom of one of these predicates; nothing, where the terms suffice for none."""
        found = {name: [self.terms(scope, objects, kind) for kind in kinds] for name, kinds in known.items()}
        names = [name for name, terms in found.items() if all(terms)]
        if not names:
            return ""
        name = self.random.choice(names)
        return f"({' '.join([name, *map(self.random.choice, found[name])])})"

    def variables(self, scope: dict[str, str], count: int) -> dict[str, str]:
        """Variables of a quantifier, which shadow others, or have the names of others, where that is a trait."""
        if {"shadow", "nested-effect"} & self.traits:
            names = ["?x", "?y", "?z", "?u"]
        else:
            names = [f"?q{self.counted + index}" for index in range(count)]
            self.counted += count
        chosen = self.random.sample(names, count)
        return dict(zip(chosen, self.kinds(count)))

    def listed(self, variables: dict[str, str]) -> str:
        """Variables as a typed list."""
        return " ".join(f"{it} - {kind}" for it, kind in variables.items())

    def condition(self, scope: dict[str, str], objects: list[str], depth: int) -> str:
        """A condition over variables and objects, of so many levels at most."""
        kinds = ("atom", "atom", "atom", "and", "or", "not", "imply", "exists", "forall", "=") if depth else ("atom",)
        kind = self.random.choice(kinds)
        part = lambda inner=scope: self.condition(inner, objects, depth - 1)
        if kind == "atom":
            known = {**self.predicates, **self.derived} if not self.derived or self.chance(0.4) else self.derived
            return self.atom(scope, objects, known) or "(and)"
        if kind in ("and", "or"):
            return f"({kind} {' '.join(part() for _ in range(self.random.choice((1, 2, 2, 3))))})"
        if kind == "not":
            return f"(not {part()})"
        if kind == "imply":
            return f"(imply {part()} {part()})"
        if kind == "=":
            terms = [*scope, *objects]
            return f"(= {self.random.choice(terms)} {self.random.choice(terms)})" if terms else "(or)"
        variables = self.variables(scope, self.random.choice((1, 1, 2)))
        return f"({kind} ({self.listed(variables)}) {part({**scope, **variables})})"

    def effect(self, scope: dict[str, str], objects: list[str], depth: int) -> str:
        """An effect over variables and objects, of so many levels at most."""
        is_plain = not depth or "split" in self.traits
        kinds = ("literal", "and", "when", "when", "forall", "forall")
        kind = "literal" if is_plain else self.random.choice(kinds)
        if kind == "literal":
            atom = self.atom(scope, objects, self.predicates) or "(and)"
            return f"(not {atom})" if atom != "(and)" and self.chance(0.4) else atom
        if kind == "and":
            return f"(and {' '.join(self.effect(scope, objects, depth - 1) for _ in range(2))})"
        if kind == "forall":
            variables = self.variables(scope, 1)
            return f"(forall ({self.listed(variables)}) {self.effect({**scope, **variables}, objects, depth - 1)})"
        inner = depth - 1 if "nested-effect" in self.traits else 0
        return f"(when {self.condition(scope, objects, self.random.choice((1, 2)))} {self.effect(scope, objects, inner)})"

    def cost(self) -> str:
        if "scale" in self.traits and self.chance(0.6):
            return self.random.choice(("0.5", "1.25", "2.50", "0.1"))
        return self.random.choice(("0", "1", "2", "3")) + (".0" if "number" in self.traits and self.chance(0.5) else "")

    def action(self, name: str) -> str:
        """An action of this name. One that is to be split has three or four parameters, and plain effects."""
        objects = [*self.constants, *self.implied]
        counts = (0, 0, 1, 2) if "parameters" in self.traits else (0, 1, 1, 2)
        most = self.random.choice((3, 4) if "split" in self.traits else counts)
        scope = dict(zip(("?x", "?y", "?z", "?w")[:most], self.kinds(most)))
        parameters = "" if not scope and "parameters" in self.traits else f":parameters ({self.listed(scope)})"
        count = self.random.choice((1, 1, 1, 2))
        conditions = [self.condition(scope, objects, self.random.choice((0, 1, 2, 2))) for _ in range(count)]
        count = self.random.choice((4, 5, 6) if "split" in self.traits else (2, 3, 3, 4))
        effects = [self.effect(scope, objects, self.random.choice((0, 1, 3))) for _ in range(count)]
        if self.has_cost and self.chance(0.8):
            terms = self.terms(scope, objects, "t0")
            by_value = self.chance(0.2) and terms
            increase = f"(increase (total-cost) {f'(f {self.random.choice(terms)})' if by_value else self.cost()})"
            effects.insert(0, f"(and {increase})" if "nested-effect" in self.traits and self.chance(0.3) else increase)
        precondition = f":precondition (and {' '.join(conditions)})" if self.chance(0.5) else ""
        return f"(:action {name} {parameters} {precondition} :effect (and {' '.join(effects)}))"

    def rules(self) -> list[str]:
        """Rules of derived predicates, of which the second may depend on the first."""
        found, objects = [], [*self.constants, *self.implied]
        for name in ("d0", "d1")[:self.random.choice((1, 2))]:
            kinds = [self.random.choice(("t0", "object", "(either t1 t2)")) for _ in range(self.random.choice((0, 1, 1, 2)))]
            for _ in range(self.random.choice((1, 1, 2))):
                scope = {}
                for variable, kind in zip(("?x", "?y"), kinds):
                    scope[variable] = kind if self.chance(0.6) else self.random.choice(("t0", "t1", "t2"))
                found.append(f"(:derived ({name} {self.listed(scope)}) {self.condition(scope, objects, 2)})")
            self.derived[name] = kinds
        return found

    def typing(self) -> str:
        """What stands in `:types`."""
        parts = ["t0 - u" if "type-undeclared" in self.traits else "t0", "t1 - t0", "t2"]
        parts = [it if "-" in it else f"{it} - object" for it in parts]
        if "type-undeclared" in self.traits:
            self.above["u"] = ("u", "object")
        if "type-again" in self.traits:
            parts += self.random.sample(("t1 - object", "t0 - object", "t1 - t0", "t2 - object"), 2)
        if "object-type" in self.traits:
            parts.append(self.random.choice(("object", "object - object")) if self.chance(0.5) else "object - object")
        untyped = [it for it in parts if "-" not in it]
        typed = [it for it in parts if "-" in it]
        self.random.shuffle(typed)
        return " ".join([*typed, *untyped])

    def start(self) -> list[str]:
        """What stands in `:init`."""
        objects = [*self.types]
        facts = [self.atom({}, objects, self.predicates) for _ in range(self.random.choice((1, 2, 3)))]
        if "negative-fact" in self.traits:
            more = (self.atom({}, objects, self.predicates) for _ in range(3))
            facts += [f"(not {it})" for it in more if it and it not in facts]
        if self.has_cost:
            priced = [it for it in objects if self.fits(self.types[it], "t0") and self.chance(0.8)]
            zero = self.random.choice(("0.0", "0")) if "number" in self.traits else "0"
            facts += [*(f"(= (f {it}) {self.cost()})" for it in priced), f"(= (total-cost) {zero})"]
        return [it for it in facts if it]

    def domain(self) -> list[str]:
        """The domain, a text for each section."""
        typing = self.typing()
        rules = self.rules() if "derived" in self.traits else []
        actions = [self.action(f"a{index}") for index in range(self.random.choice((2, 2, 3)))]
        declared = []
        for name, kinds in [*self.predicates.items(), *self.derived.items()]:
            declared.append(f"({name} {self.listed({f'?a{index}': kind for index, kind in enumerate(kinds)})})")
        constants = " ".join(f"{it} - {self.types[it]}" for it in self.constants)
        functions = "(:functions (total-cost) - number (f ?a - t0) - number)" if self.has_cost else ""
        return ["(define (domain d)", self.keys(), f"(:types {typing})", f"(:constants {constants})" if constants else "",
                f"(:predicates {' '.join(declared)})", functions, *rules, *actions, ")"]

    def problem(self) -> list[str]:
        """The problem, a text for each section."""
        again = [it for it in self.constants if "constant" in self.traits and self.chance(0.6)]
        listed = " ".join(f"{it} - {kind}" for it, kind in self.types.items() if it not in self.constants or it in again)
        goals = (self.condition({}, [*self.types], 2) for _ in range(self.random.choice((1, 1, 2))))
        metric = "(:metric minimize (total-cost))" if self.has_cost else ""
        metric = "(:metric minimize (total-time))" if "metric" in self.traits else metric
        length = "(:length (:serial 5) (:parallel 3))" if "length" in self.traits else ""
        return ["(define (problem p)", "(:domain d)", self.keys(), f"(:objects {listed})", f"(:init {' '.join(self.start())})",
                f"(:goal (and {' '.join(goals)}))", metric, length, ")"]

    def keys(self) -> str:
        return f"(:requirements :adl {self.random.choice(KEYS)})" if "requirement" in self.traits else ""

    def make(self) -> tuple[bytes, bytes]:
        """The texts of the domain and of the problem."""
        self.has_cost = self.chance(0.6) or bool({"scale", "number"} & self.traits)
        mark = b"\xef\xbb\xbf" if "byte-order-mark" in self.traits else b""
        files = (self.domain(), self.problem())
        return tuple(mark + "\n".join(self.spelled(it) for it in file if it).encode() + b"\n" for file in files)
