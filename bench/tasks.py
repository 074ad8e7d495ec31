"""The tasks that `bench/run` measures, each a domain, a problem and how many states `solve` may list of it."""

import random
from dataclasses import dataclass


@dataclass(frozen=True)
class Task:
    name: str
    domain: str
    problem: str
    # How many states are listed where the rate is measured; the limit is met before a plan is sure to be cheapest.
    states: int


def problem(domain, objects, init, goal, extra=""):
    facts = "\n    ".join(init)
    return (
        f"(define (problem measured) (:domain {domain})\n  (:objects {objects})\n"
        f"  (:init\n    {facts})\n  (:goal (and {' '.join(goal)})){extra})\n"
    )


GRIPPER = """(define (domain gripper)
  (:predicates (room ?r) (ball ?b) (gripper ?g) (at-robby ?r) (at ?b ?r) (free ?g) (carry ?o ?g))
  (:action move :parameters (?from ?to)
    :precondition (and (room ?from) (room ?to) (at-robby ?from))
    :effect (and (at-robby ?to) (not (at-robby ?from))))
  (:action pick :parameters (?obj ?room ?gripper)
    :precondition (and (ball ?obj) (room ?room) (gripper ?gripper) (at ?obj ?room) (at-robby ?room) (free ?gripper))
    :effect (and (carry ?obj ?gripper) (not (at ?obj ?room)) (not (free ?gripper))))
  (:action drop :parameters (?obj ?room ?gripper)
    :precondition (and (ball ?obj) (room ?room) (gripper ?gripper) (carry ?obj ?gripper) (at-robby ?room))
    :effect (and (at ?obj ?room) (free ?gripper) (not (carry ?obj ?gripper)))))
"""


def gripper(balls, states):
    names = [f"ball{k}" for k in range(balls)]
    init = ["(room a)", "(room b)", "(gripper left)", "(gripper right)", "(at-robby a)", "(free left)", "(free right)"]
    init += [f"(ball {b}) (at {b} a)" for b in names]
    text = problem("gripper", "a b left right " + " ".join(names), init, [f"(at {b} b)" for b in names])
    return Task(f"gripper, {balls} balls", GRIPPER, text, states)


HANOI = """(define (domain hanoi)
  (:predicates (clear ?x) (on ?x ?y) (smaller ?x ?y))
  (:action move :parameters (?disc ?from ?to)
    :precondition (and (smaller ?to ?disc) (on ?disc ?from) (clear ?disc) (clear ?to))
    :effect (and (clear ?from) (on ?disc ?to) (not (on ?disc ?from)) (not (clear ?to)))))
"""


def hanoi(discs, states):
    pegs = ["peg1", "peg2", "peg3"]
    names = [f"disc{k}" for k in range(1, discs + 1)]
    init = [f"(smaller {p} {d})" for p in pegs for d in names]
    init += [f"(smaller {names[b]} {names[s]})" for b in range(discs) for s in range(b)]
    init += ["(clear peg2)", "(clear peg3)", "(clear disc1)", f"(on disc{discs} peg1)"]
    init += [f"(on {names[k]} {names[k + 1]})" for k in range(discs - 1)]
    goal = [f"(on disc{discs} peg3)"] + [f"(on {names[k]} {names[k + 1]})" for k in range(discs - 1)]
    return Task(f"Hanoi, {discs} discs", HANOI, problem("hanoi", " ".join(pegs + names), init, goal), states)


BLOCKS = """(define (domain blocks)
  (:predicates (on ?x ?y) (ontable ?x) (clear ?x) (handempty) (holding ?x))
  (:action pick-up :parameters (?x)
    :precondition (and (clear ?x) (ontable ?x) (handempty))
    :effect (and (not (ontable ?x)) (not (clear ?x)) (not (handempty)) (holding ?x)))
  (:action put-down :parameters (?x)
    :precondition (holding ?x)
    :effect (and (not (holding ?x)) (clear ?x) (handempty) (ontable ?x)))
  (:action stack :parameters (?x ?y)
    :precondition (and (holding ?x) (clear ?y))
    :effect (and (not (holding ?x)) (not (clear ?y)) (clear ?x) (handempty) (on ?x ?y)))
  (:action unstack :parameters (?x ?y)
    :precondition (and (on ?x ?y) (clear ?x) (handempty))
    :effect (and (holding ?x) (clear ?y) (not (clear ?x)) (not (handempty)) (not (on ?x ?y)))))
"""


def blocks(count, states):
    names = [f"b{k}" for k in range(count)]
    init = ["(handempty)", "(ontable b0)", f"(clear b{count - 1})"]
    init += [f"(on {names[k + 1]} {names[k]})" for k in range(count - 1)]
    # The tower that has the blocks of even number, and on them those of odd number.
    tower = names[0::2] + names[1::2]
    goal = [f"(on {above} {below})" for below, above in zip(tower, tower[1:])]
    return Task(f"blocks, {count}", BLOCKS, problem("blocks", " ".join(names), init, goal), states)


LOGISTICS = """(define (domain logistics)
  (:predicates (package ?p) (truck ?t) (plane ?a) (place ?l) (airport ?l) (city ?c) (in-city ?l ?c) (at ?x ?l) (in ?p ?v))
  (:action load-truck :parameters (?p ?t ?l)
    :precondition (and (package ?p) (truck ?t) (place ?l) (at ?t ?l) (at ?p ?l))
    :effect (and (not (at ?p ?l)) (in ?p ?t)))
  (:action load-plane :parameters (?p ?a ?l)
    :precondition (and (package ?p) (plane ?a) (place ?l) (at ?p ?l) (at ?a ?l))
    :effect (and (not (at ?p ?l)) (in ?p ?a)))
  (:action unload-truck :parameters (?p ?t ?l)
    :precondition (and (package ?p) (truck ?t) (place ?l) (at ?t ?l) (in ?p ?t))
    :effect (and (not (in ?p ?t)) (at ?p ?l)))
  (:action unload-plane :parameters (?p ?a ?l)
    :precondition (and (package ?p) (plane ?a) (place ?l) (in ?p ?a) (at ?a ?l))
    :effect (and (not (in ?p ?a)) (at ?p ?l)))
  (:action drive :parameters (?t ?from ?to ?c)
    :precondition (and (truck ?t) (place ?from) (place ?to) (city ?c) (in-city ?from ?c) (in-city ?to ?c) (at ?t ?from))
    :effect (and (not (at ?t ?from)) (at ?t ?to)))
  (:action fly :parameters (?a ?from ?to)
    :precondition (and (plane ?a) (airport ?from) (airport ?to) (at ?a ?from))
    :effect (and (not (at ?a ?from)) (at ?a ?to))))
"""


def logistics(packages, states):
    cities = ["c1", "c2"]
    init, objects = [], ["plane1"]
    init.append("(plane plane1) (at plane1 c1-airport)")
    for city in cities:
        places = [f"{city}-{kind}" for kind in ("airport", "office", "store")]
        objects += [city, f"{city}-truck", *places]
        init.append(f"(city {city}) (truck {city}-truck) (at {city}-truck {city}-office) (airport {city}-airport)")
        init += [f"(place {place}) (in-city {place} {city})" for place in places]
    goal = []
    for number in range(packages):
        name = f"p{number}"
        objects.append(name)
        here, there = cities[number % 2], cities[(number + 1) % 2]
        init.append(f"(package {name}) (at {name} {here}-store)")
        goal.append(f"(at {name} {there}-store)")
    return Task(f"logistics, {packages} packages", LOGISTICS, problem("logistics", " ".join(objects), init, goal), states)


TILES = """(define (domain tiles)
  (:predicates (tile ?t) (cell ?c) (next ?c ?d) (at ?t ?c) (blank ?c))
  (:action slide :parameters (?t ?from ?to)
    :precondition (and (tile ?t) (next ?from ?to) (at ?t ?from) (blank ?to))
    :effect (and (at ?t ?to) (blank ?from) (not (at ?t ?from)) (not (blank ?to)))))
"""


def tiles(columns, rows, states):
    cell = lambda x, y: f"c{x}-{y}"
    cells = [(x, y) for y in range(rows) for x in range(columns)]
    init = [f"(cell {cell(*c)})" for c in cells]
    for x, y in cells:
        for dx, dy in ((1, 0), (-1, 0), (0, 1), (0, -1)):
            if (x + dx, y + dy) in cells:
                init.append(f"(next {cell(x, y)} {cell(x + dx, y + dy)})")
    names = [f"t{k}" for k in range(1, columns * rows)]
    init += [f"(tile {t})" for t in names]
    init += [f"(at {t} {cell(*c)})" for t, c in zip(reversed(names), cells)] + [f"(blank {cell(*cells[-1])})"]
    goal = [f"(at {t} {cell(*c)})" for t, c in zip(names, cells)]
    objects = " ".join(names + [cell(*c) for c in cells])
    return Task(f"{columns}x{rows} tiles", TILES, problem("tiles", objects, init, goal), states)


ROADS = """(define (domain roads)
  (:predicates (road ?a ?b) (at ?a) (seen ?a))
  (:action travel :parameters (?a ?b ?c ?d)
    :precondition (and (road ?a ?b) (road ?b ?c) (road ?c ?d) (at ?a))
    :effect (and (not (at ?a)) (at ?d) (seen ?b) (seen ?c))))
"""


def roads(places, degree):
    """From each place `degree` roads lead: places * degree^3 instances are kept of places^4."""
    draw = random.Random(1)
    names = [f"p{k}" for k in range(places)]
    init = ["(at p0)"] + [f"(road {a} {b})" for a in names for b in draw.sample(names, degree)]
    text = problem("roads", " ".join(names), init, [f"(seen {a})" for a in names])
    return Task(f"roads, {places} places", ROADS, text, 1)


REGIONS = """(define (domain regions)
  (:predicates (in ?a ?r) (road ?a ?b) (at ?a) (seen ?a))
  (:action travel :parameters (?r ?a ?b)
    :precondition (and (in ?a ?r) (in ?b ?r) (road ?a ?b) (at ?a))
    :effect (and (not (at ?a)) (at ?b) (seen ?b))))
"""


def regions(places, count, degree):
    """From each place `degree` roads lead to others of its region: places * degree instances are kept. Of the two atoms
    that say where a road may lead, the first leaves all places of the region, and the second `degree` of them."""
    draw = random.Random(1)
    names = [f"p{k}" for k in range(places)]
    init = ["(at p0)"] + [f"(in {name} r{k % count})" for k, name in enumerate(names)]
    init += [f"(road {a} {b})" for k, a in enumerate(names) for b in draw.sample(names[k % count :: count], degree)]
    objects = " ".join(names + [f"r{k}" for k in range(count)])
    return Task(f"regions, {places} places", REGIONS, problem("regions", objects, init, ["(seen p0)", "(seen p1)"]), 1)


WALK = """(define (domain walk)
  (:predicates (road ?a ?b) (at ?a))
  (:action walk :parameters (?a ?b)
    :precondition (and (road ?a ?b) (at ?a))
    :effect (and (not (at ?a)) (at ?b))))
"""


def walk(places, degree, states):
    """From each place `degree` roads lead, and none to `nowhere`: places * degree instances are kept, `degree` of them
    are applicable in each state, and all places are listed."""
    draw = random.Random(1)
    names = [f"p{k}" for k in range(places)]
    init = ["(at p0)"] + [f"(road {a} {b})" for a in names for b in draw.sample(names, degree)]
    text = problem("walk", "nowhere " + " ".join(names), init, ["(at nowhere)"])
    return Task(f"walk, {places} places", WALK, text, states)


def flags(count):
    """As many predicates and actions, all without arguments: action k asks for flag k and makes flag k + 1 true. All are kept."""
    predicates = " ".join(f"(f{k})" for k in range(count + 1))
    actions = "\n  ".join(f"(:action a{k} :parameters () :precondition (f{k}) :effect (f{k + 1}))" for k in range(count))
    domain = f"(define (domain flags)\n  (:predicates {predicates})\n  {actions})\n"
    return Task(f"flags, {count:,}", domain, problem("flags", "", ["(f0)"], [f"(f{count})"]), 1)


TASKS = [
    gripper(8, 11_000),
    gripper(12, 250_000),
    gripper(16, 2_000_000),
    hanoi(10, 59_000),
    blocks(8, 600_000),
    blocks(10, 4_000_000),
    logistics(6, 60_000),
    tiles(4, 3, 4_000_000),
    roads(100, 10),
    roads(160, 14),
    regions(4_000, 4, 5),
    walk(10_000, 10, 10_000),
    flags(20_000),
]
