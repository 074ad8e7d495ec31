"""Tasks of nine domains of planning competitions, written anew and small: their cheapest plans are found in seconds."""

import random

from tasks import problem

BARMAN = """(define (domain barman)
  (:predicates (shaker ?s) (shot ?g) (hand ?h) (other ?h ?k) (drink ?i) (part-one ?c ?i) (part-two ?c ?i) (follows ?m ?n) (lowest ?m)
    (on-table ?v) (holds ?h ?v) (free ?h) (empty ?v) (contains ?v ?i) (clean ?v) (used ?v ?i) (level ?s ?m) (shaken ?s) (unshaken ?s))
  (:functions (total-cost))
  (:action grasp :parameters (?h ?v)
    :precondition (and (hand ?h) (on-table ?v) (free ?h))
    :effect (and (not (on-table ?v)) (not (free ?h)) (holds ?h ?v) (increase (total-cost) 1)))
  (:action leave :parameters (?h ?v)
    :precondition (and (hand ?h) (holds ?h ?v))
    :effect (and (on-table ?v) (free ?h) (not (holds ?h ?v)) (increase (total-cost) 1)))
  (:action fill :parameters (?g ?i ?h ?k)
    :precondition (and (shot ?g) (drink ?i) (other ?h ?k) (holds ?h ?g) (free ?k) (empty ?g) (clean ?g))
    :effect (and (not (empty ?g)) (contains ?g ?i) (not (clean ?g)) (used ?g ?i) (increase (total-cost) 10)))
  (:action clean-shot :parameters (?g ?i ?h ?k)
    :precondition (and (shot ?g) (other ?h ?k) (holds ?h ?g) (free ?k) (empty ?g) (used ?g ?i))
    :effect (and (not (used ?g ?i)) (clean ?g) (increase (total-cost) 1)))
  (:action pour-first :parameters (?g ?i ?h ?s ?m ?n)
    :precondition (and (shot ?g) (shaker ?s) (drink ?i) (hand ?h) (holds ?h ?g) (contains ?g ?i) (empty ?s) (clean ?s) (level ?s ?m) (follows ?m ?n))
    :effect (and (not (contains ?g ?i)) (empty ?g) (contains ?s ?i) (not (empty ?s)) (not (clean ?s)) (unshaken ?s) (not (level ?s ?m)) (level ?s ?n)
      (increase (total-cost) 1)))
  (:action pour-next :parameters (?g ?i ?h ?s ?m ?n)
    :precondition (and (shot ?g) (shaker ?s) (drink ?i) (hand ?h) (holds ?h ?g) (contains ?g ?i) (unshaken ?s) (level ?s ?m) (follows ?m ?n))
    :effect (and (not (contains ?g ?i)) (contains ?s ?i) (empty ?g) (not (level ?s ?m)) (level ?s ?n) (increase (total-cost) 1)))
  (:action shake :parameters (?c ?i ?j ?s ?h ?k)
    :precondition (and (part-one ?c ?i) (part-two ?c ?j) (shaker ?s) (other ?h ?k) (holds ?h ?s) (free ?k) (contains ?s ?i) (contains ?s ?j) (unshaken ?s))
    :effect (and (not (unshaken ?s)) (not (contains ?s ?i)) (not (contains ?s ?j)) (shaken ?s) (contains ?s ?c) (increase (total-cost) 1)))
  (:action serve :parameters (?c ?j ?g ?h ?s ?m ?n)
    :precondition (and (part-one ?c ?j) (shot ?g) (shaker ?s) (hand ?h) (holds ?h ?s) (shaken ?s) (empty ?g) (clean ?g) (contains ?s ?c) (level ?s ?m) (follows ?n ?m))
    :effect (and (not (clean ?g)) (not (empty ?g)) (contains ?g ?c) (not (level ?s ?m)) (level ?s ?n) (increase (total-cost) 1)))
  (:action rinse :parameters (?s ?c ?i ?m ?n ?h)
    :precondition (and (part-one ?c ?i) (shaker ?s) (hand ?h) (holds ?h ?s) (shaken ?s) (contains ?s ?c) (level ?s ?m) (lowest ?n))
    :effect (and (not (level ?s ?m)) (level ?s ?n) (not (shaken ?s)) (not (contains ?s ?c)) (empty ?s) (clean ?s) (increase (total-cost) 1))))
"""

TPP = """(define (domain tpp)
  (:predicates (truck ?t) (place ?p) (market ?m) (depot ?d) (goods ?g) (next ?l ?m) (road ?p ?q)
    (at ?t ?p) (sold ?g ?m ?l) (ready ?g ?m ?l) (loaded ?g ?t ?l) (stored ?g ?l))
  (:action drive :parameters (?t ?p ?q)
    :precondition (and (truck ?t) (road ?p ?q) (at ?t ?p))
    :effect (and (not (at ?t ?p)) (at ?t ?q)))
  (:action buy :parameters (?t ?g ?m ?a ?b ?c ?d)
    :precondition (and (truck ?t) (goods ?g) (market ?m) (at ?t ?m) (sold ?g ?m ?b) (ready ?g ?m ?c) (next ?b ?a) (next ?d ?c))
    :effect (and (sold ?g ?m ?a) (not (sold ?g ?m ?b)) (ready ?g ?m ?d) (not (ready ?g ?m ?c))))
  (:action load :parameters (?g ?t ?m ?a ?b ?c ?d)
    :precondition (and (truck ?t) (goods ?g) (market ?m) (at ?t ?m) (loaded ?g ?t ?c) (ready ?g ?m ?b) (next ?b ?a) (next ?d ?c))
    :effect (and (loaded ?g ?t ?d) (not (loaded ?g ?t ?c)) (ready ?g ?m ?a) (not (ready ?g ?m ?b))))
  (:action unload :parameters (?g ?t ?p ?a ?b ?c ?d)
    :precondition (and (truck ?t) (goods ?g) (depot ?p) (at ?t ?p) (loaded ?g ?t ?b) (stored ?g ?c) (next ?b ?a) (next ?d ?c))
    :effect (and (loaded ?g ?t ?a) (not (loaded ?g ?t ?b)) (stored ?g ?d) (not (stored ?g ?c)))))
"""

STORAGE = """(define (domain storage)
  (:predicates (hoist ?h) (crate ?c) (area ?a) (store ?a) (near ?a ?b) (crate-on ?c ?a) (clear ?a) (at ?h ?a) (lifts ?h ?c) (free ?h) (in ?c) (out ?c))
  (:action lift :parameters (?h ?c ?a ?b)
    :precondition (and (hoist ?h) (crate ?c) (near ?a ?b) (at ?h ?b) (free ?h) (crate-on ?c ?a))
    :effect (and (not (crate-on ?c ?a)) (clear ?a) (not (free ?h)) (lifts ?h ?c)))
  (:action drop :parameters (?h ?c ?a ?b)
    :precondition (and (hoist ?h) (crate ?c) (store ?a) (near ?a ?b) (at ?h ?b) (lifts ?h ?c) (clear ?a))
    :effect (and (not (lifts ?h ?c)) (free ?h) (crate-on ?c ?a) (not (clear ?a)) (in ?c)))
  (:action move :parameters (?h ?a ?b)
    :precondition (and (hoist ?h) (at ?h ?a) (near ?a ?b) (store ?b) (clear ?b))
    :effect (and (not (at ?h ?a)) (at ?h ?b) (not (clear ?b)) (clear ?a))))
"""

TERMES = """(define (domain termes)
  (:predicates (height ?p ?h) (at ?p) (loaded) (unloaded) (follows ?h ?g) (beside ?p ?q) (is-depot ?p))
  (:action move :parameters (?p ?q ?h)
    :precondition (and (at ?p) (beside ?p ?q) (height ?p ?h) (height ?q ?h))
    :effect (and (not (at ?p)) (at ?q)))
  (:action up :parameters (?p ?q ?h ?g)
    :precondition (and (at ?p) (beside ?p ?q) (height ?p ?h) (height ?q ?g) (follows ?g ?h))
    :effect (and (not (at ?p)) (at ?q)))
  (:action down :parameters (?p ?q ?h ?g)
    :precondition (and (at ?p) (beside ?p ?q) (height ?p ?h) (height ?q ?g) (follows ?h ?g))
    :effect (and (not (at ?p)) (at ?q)))
  (:action put :parameters (?p ?q ?h ?g)
    :precondition (and (at ?p) (beside ?p ?q) (height ?p ?h) (height ?q ?h) (follows ?g ?h) (loaded) (not (is-depot ?q)))
    :effect (and (not (height ?q ?h)) (height ?q ?g) (not (loaded)) (unloaded)))
  (:action take :parameters (?p ?q ?h ?g)
    :precondition (and (at ?p) (beside ?p ?q) (height ?p ?h) (height ?q ?g) (follows ?g ?h) (unloaded))
    :effect (and (not (height ?q ?g)) (height ?q ?h) (loaded) (not (unloaded))))
  (:action make :parameters (?p)
    :precondition (and (at ?p) (is-depot ?p) (unloaded))
    :effect (and (loaded) (not (unloaded)))))
"""

PEGS = """(define (domain pegs)
  (:predicates (line ?a ?b ?c) (peg ?a) (hole ?a))
  (:action jump :parameters (?a ?b ?c)
    :precondition (and (line ?a ?b ?c) (peg ?a) (peg ?b) (hole ?c))
    :effect (and (not (peg ?a)) (not (peg ?b)) (not (hole ?c)) (hole ?a) (hole ?b) (peg ?c))))
"""

ROVERS = """(define (domain rovers)
  (:predicates (rover ?r) (way ?p ?q) (lander ?p) (at ?r ?p) (rock ?p) (soil ?p) (sees ?p ?o) (calibrates ?p)
    (empty ?r) (full ?r) (has-rock ?r ?p) (has-soil ?r ?p) (ready ?r) (has-image ?r ?o) (told-rock ?p) (told-soil ?p) (told-image ?o))
  (:action drive :parameters (?r ?p ?q)
    :precondition (and (rover ?r) (way ?p ?q) (at ?r ?p))
    :effect (and (not (at ?r ?p)) (at ?r ?q)))
  (:action take-rock :parameters (?r ?p)
    :precondition (and (at ?r ?p) (rock ?p) (empty ?r))
    :effect (and (not (empty ?r)) (full ?r) (has-rock ?r ?p) (not (rock ?p))))
  (:action take-soil :parameters (?r ?p)
    :precondition (and (at ?r ?p) (soil ?p) (empty ?r))
    :effect (and (not (empty ?r)) (full ?r) (has-soil ?r ?p) (not (soil ?p))))
  (:action drop :parameters (?r)
    :precondition (full ?r)
    :effect (and (not (full ?r)) (empty ?r)))
  (:action calibrate :parameters (?r ?p)
    :precondition (and (at ?r ?p) (calibrates ?p))
    :effect (ready ?r))
  (:action take-image :parameters (?r ?p ?o)
    :precondition (and (at ?r ?p) (sees ?p ?o) (ready ?r))
    :effect (and (has-image ?r ?o) (not (ready ?r))))
  (:action tell-rock :parameters (?r ?p ?q ?l)
    :precondition (and (at ?r ?q) (way ?q ?l) (lander ?l) (has-rock ?r ?p))
    :effect (told-rock ?p))
  (:action tell-soil :parameters (?r ?p ?q ?l)
    :precondition (and (at ?r ?q) (way ?q ?l) (lander ?l) (has-soil ?r ?p))
    :effect (told-soil ?p))
  (:action tell-image :parameters (?r ?o ?q ?l)
    :precondition (and (at ?r ?q) (way ?q ?l) (lander ?l) (has-image ?r ?o))
    :effect (told-image ?o)))
"""

DEPOTS = """(define (domain depots)
  (:predicates (place ?p) (truck ?t) (hoist ?h ?p) (crate ?c) (pallet ?s ?p) (truck-at ?t ?p) (at ?c ?p) (on ?c ?s) (clear ?s) (in ?c ?t) (lifts ?h ?c) (free ?h))
  (:action drive :parameters (?t ?p ?q)
    :precondition (and (truck ?t) (place ?p) (place ?q) (not (= ?p ?q)) (truck-at ?t ?p))
    :effect (and (not (truck-at ?t ?p)) (truck-at ?t ?q)))
  (:action lift :parameters (?h ?c ?s ?p)
    :precondition (and (hoist ?h ?p) (crate ?c) (at ?s ?p) (free ?h) (at ?c ?p) (on ?c ?s) (clear ?c))
    :effect (and (not (at ?c ?p)) (lifts ?h ?c) (not (clear ?c)) (not (free ?h)) (clear ?s) (not (on ?c ?s))))
  (:action drop :parameters (?h ?c ?s ?p)
    :precondition (and (hoist ?h ?p) (crate ?c) (at ?s ?p) (clear ?s) (lifts ?h ?c))
    :effect (and (free ?h) (not (lifts ?h ?c)) (at ?c ?p) (not (clear ?s)) (clear ?c) (on ?c ?s)))
  (:action load :parameters (?h ?c ?t ?p)
    :precondition (and (hoist ?h ?p) (crate ?c) (truck-at ?t ?p) (lifts ?h ?c))
    :effect (and (not (lifts ?h ?c)) (in ?c ?t) (free ?h)))
  (:action unload :parameters (?h ?c ?t ?p)
    :precondition (and (hoist ?h ?p) (crate ?c) (truck-at ?t ?p) (free ?h) (in ?c ?t))
    :effect (and (not (in ?c ?t)) (not (free ?h)) (lifts ?h ?c))))
"""

SATELLITE = """(define (domain satellite)
  (:predicates (on-board ?i ?s) (supports ?i ?m) (direction ?d) (target ?i ?d) (points ?s ?d) (power-left ?s) (power-on ?i) (calibrated ?i) (has-image ?d ?m))
  (:action turn :parameters (?s ?d ?e)
    :precondition (and (direction ?d) (direction ?e) (not (= ?d ?e)) (points ?s ?e))
    :effect (and (points ?s ?d) (not (points ?s ?e))))
  (:action switch-on :parameters (?i ?s)
    :precondition (and (on-board ?i ?s) (power-left ?s))
    :effect (and (power-on ?i) (not (calibrated ?i)) (not (power-left ?s))))
  (:action switch-off :parameters (?i ?s)
    :precondition (and (on-board ?i ?s) (power-on ?i))
    :effect (and (not (power-on ?i)) (power-left ?s)))
  (:action calibrate :parameters (?s ?i ?d)
    :precondition (and (on-board ?i ?s) (target ?i ?d) (points ?s ?d) (power-on ?i))
    :effect (calibrated ?i))
  (:action take-image :parameters (?s ?d ?i ?m)
    :precondition (and (calibrated ?i) (on-board ?i ?s) (supports ?i ?m) (power-on ?i) (points ?s ?d))
    :effect (has-image ?d ?m)))
"""

SNAKE = """(define (domain snake)
  (:predicates (near ?p ?q) (head ?p) (tail ?p) (joint ?p ?q) (blocked ?p) (apple ?p) (spawn ?p) (follows ?p ?q) (last ?p))
  (:action move :parameters (?p ?q ?t ?u)
    :precondition (and (near ?p ?q) (head ?p) (joint ?u ?t) (tail ?t) (not (blocked ?q)) (not (apple ?q)))
    :effect (and (blocked ?q) (head ?q) (joint ?q ?p) (not (head ?p)) (not (blocked ?t)) (not (tail ?t)) (not (joint ?u ?t)) (tail ?u)))
  (:action eat :parameters (?p ?q ?a ?b)
    :precondition (and (near ?p ?q) (head ?p) (not (blocked ?q)) (apple ?q) (spawn ?a) (follows ?a ?b))
    :effect (and (blocked ?q) (head ?q) (joint ?q ?p) (not (head ?p)) (not (apple ?q)) (apple ?a) (not (spawn ?a)) (spawn ?b)))
  (:action eat-last :parameters (?p ?q)
    :precondition (and (near ?p ?q) (head ?p) (not (blocked ?q)) (apple ?q) (spawn last))
    :effect (and (blocked ?q) (head ?q) (joint ?q ?p) (not (head ?p)) (not (apple ?q)))))
"""

COST = "\n  (:metric minimize (total-cost))"


def grid(columns, rows):
    """The names of a grid's cells, and its pairs of neighbours."""
    near = [(x, y, x + right, y + up) for x in range(columns) for y in range(rows) for right, up in ((1, 0), (-1, 0), (0, 1), (0, -1))
            if 0 <= x + right < columns and 0 <= y + up < rows]
    return [f"c{x}-{y}" for x in range(columns) for y in range(rows)], [(f"c{x}-{y}", f"c{z}-{w}") for x, y, z, w in near]


def barman(cocktails, shots, drinks):
    names, kinds = [f"shot{k}" for k in range(shots)], [f"drink{k}" for k in range(drinks)]
    wanted = [f"cocktail{k}" for k in range(cocktails)]
    init = ["(shaker s)", "(hand left)", "(hand right)", "(other left right)", "(other right left)", "(free left)", "(free right)",
            "(follows l0 l1)", "(follows l1 l2)", "(lowest l0)", "(level s l0)", "(on-table s)", "(empty s)", "(clean s)", "(= (total-cost) 0)"]
    for shot in names:
        init += [f"(shot {shot})", f"(on-table {shot})", f"(empty {shot})", f"(clean {shot})"]
    init += [f"(drink {kind})" for kind in kinds]
    for k, cocktail in enumerate(wanted):
        init += [f"(part-one {cocktail} {kinds[k % drinks]})", f"(part-two {cocktail} {kinds[(k + 1) % drinks]})"]
    goal = [f"(contains {shot} {drink})" for shot, drink in zip(names, [*wanted, *kinds])][:max(cocktails, shots - 1)]
    return BARMAN, problem("barman", " ".join(["s left right l0 l1 l2", *names, *kinds, *wanted]), init, goal, COST)


def tpp(goods, markets, most):
    kinds, sellers, levels = [f"goods{k}" for k in range(goods)], [f"market{k}" for k in range(markets)], [f"level{k}" for k in range(most + 1)]
    places = ["depot", *sellers]
    init = ["(truck t)", "(at t depot)", "(depot depot)"] + [f"(place {p})" for p in places] + [f"(market {m})" for m in sellers]
    init += [f"(goods {g})" for g in kinds] + [f"(next {high} {low})" for low, high in zip(levels, levels[1:])]
    init += [f"(road {p} {q})" for p, q in zip(places, places[1:])] + [f"(road {q} {p})" for p, q in zip(places, places[1:])]
    goal = []
    for k, kind in enumerate(kinds):
        amount = 1 + k % most
        init += [f"(loaded {kind} t level0)", f"(stored {kind} level0)"]
        for m, seller in enumerate(sellers):
            init += [f"(sold {kind} {seller} {levels[amount if (k + m) % markets == 0 else 0]})", f"(ready {kind} {seller} level0)"]
        goal.append(f"(stored {kind} {levels[amount]})")
    return TPP, problem("tpp", " ".join(["t", *places, *kinds, *levels]), init, goal)


def storage(crates, columns, rows):
    cells, pairs = grid(columns, rows)
    names, outside = [f"crate{k}" for k in range(crates)], [f"out{k}" for k in range(crates)]
    init = ["(hoist h)", "(free h)", f"(at h {cells[0]})"] + [f"(store {a})" for a in cells] + [f"(near {a} {b})" for a, b in pairs]
    init += [f"(near {a} {cells[-1]})" for a in outside] + [f"(near {cells[-1]} {a})" for a in outside]
    init += [f"(clear {a})" for a in cells[1:]] + [f"(crate {c}) (crate-on {c} {a})" for c, a in zip(names, outside)]
    return STORAGE, problem("storage", " ".join(["h", *cells, *outside, *names]), init, [f"(in {c})" for c in names])


def termes(columns, rows, towers):
    cells, pairs = grid(columns, rows)
    most = max(towers.values())
    init = ["(unloaded)", "(at c0-0)", "(is-depot c0-0)"] + [f"(height {a} h0)" for a in cells] + [f"(beside {a} {b})" for a, b in pairs]
    init += [f"(follows h{k + 1} h{k})" for k in range(most)]
    goal = [f"(height {a} h{towers.get(a, 0)})" for a in cells] + ["(unloaded)"]
    return TERMES, problem("termes", " ".join([*cells, *(f"h{k}" for k in range(most + 1))]), init, goal)


def pegs(columns, rows, hole):
    cells, _ = grid(columns, rows)
    init = []
    for x in range(columns):
        for y in range(rows):
            for right, up in ((1, 0), (-1, 0), (0, 1), (0, -1)):
                if f"c{x + 2 * right}-{y + 2 * up}" in cells:
                    init.append(f"(line c{x}-{y} c{x + right}-{y + up} c{x + 2 * right}-{y + 2 * up})")
    init += [f"({'hole' if a == hole[0] else 'peg'} {a})" for a in cells]
    goal = [f"({'peg' if a == hole[1] else 'hole'} {a})" for a in cells]
    return PEGS, problem("pegs", " ".join(cells), init, goal)


def rovers(count, places, seed):
    draw = random.Random(seed)
    points, names = [f"p{k}" for k in range(places)], [f"r{k}" for k in range(count)]
    ways = [(draw.choice(points[:k]), points[k]) for k in range(1, places)] + [tuple(draw.sample(points, 2))]
    init = [f"(way {a} {b}) (way {b} {a})" for a, b in ways] + [f"(lander {points[0]})"]
    init += [f"(rover {r}) (empty {r}) (at {r} {draw.choice(points)})" for r in names]
    rock, soil, (seen, far) = draw.sample(points, 2), draw.sample(points, 2), draw.sample(points, 2)
    init += [f"(rock {p})" for p in rock] + [f"(soil {p})" for p in soil] + [f"(calibrates {seen})", f"(sees {far} o1)", f"(sees {seen} o2)"]
    goal = [f"(told-rock {rock[0]})", f"(told-rock {rock[1]})", f"(told-soil {soil[0]})", "(told-image o1)", "(told-image o2)"]
    return ROVERS, problem("rovers", " ".join([*points, *names, "o1", "o2"]), init, goal)


def depots(crates, places, seed):
    draw = random.Random(seed)
    where, names, pallets = [f"d{k}" for k in range(places)], [f"crate{k}" for k in range(crates)], [f"pallet{k}" for k in range(places)]
    init = ["(truck t)", f"(truck-at t {where[0]})"] + [f"(place {p}) (hoist h-{p} {p}) (free h-{p})" for p in where]
    init += [f"(pallet {s} {p}) (at {s} {p})" for s, p in zip(pallets, where)]
    tops = [*pallets]
    for crate in names:
        at = draw.randrange(places)
        init += [f"(crate {crate}) (at {crate} {where[at]}) (on {crate} {tops[at]})"]
        tops[at] = crate
    init += [f"(clear {top})" for top in tops]
    goal, tops = [], [*pallets]
    for crate in draw.sample(names, crates):
        at = draw.randrange(places)
        goal.append(f"(on {crate} {tops[at]})")
        tops[at] = crate
    return DEPOTS, problem("depots", " ".join(["t", *where, *(f"h-{p}" for p in where), *names, *pallets]), init, goal)


def satellite(count, directions, images, seed):
    draw = random.Random(seed)
    names, where, modes = [f"s{k}" for k in range(count)], [f"d{k}" for k in range(directions)], ["wide", "near"]
    init = [f"(direction {d})" for d in where]
    for k, name in enumerate(names):
        init += [f"(on-board i{k} {name}) (power-left {name}) (points {name} {draw.choice(where)}) (target i{k} {draw.choice(where)})"]
        init += [f"(supports i{k} {mode})" for mode in modes[:1 + k % 2]]
    init += ["(supports i0 near)"]
    goal = [f"(has-image {d} {draw.choice(modes)})" for d in draw.sample(where, images)]
    return SATELLITE, problem("satellite", " ".join([*names, *(f"i{k}" for k in range(count)), *where, *modes]), init, goal)


def snake(columns, rows, apples):
    cells, pairs = grid(columns, rows)
    init = [f"(near {a} {b})" for a, b in pairs] + ["(head c1-0)", "(tail c0-0)", "(joint c1-0 c0-0)", "(blocked c1-0)", "(blocked c0-0)"]
    init += [f"(apple {apples[0]})", f"(spawn {apples[1]})"]
    init += [f"(follows {a} {b})" for a, b in zip(apples[1:], [*apples[2:], "last"])]
    return SNAKE.replace("(:predicates", "(:constants last)\n  (:predicates"), problem("snake", " ".join(cells), init, [f"(not (apple {a}))" for a in apples])


# each a title, the domain's text and the problem's
TASKS = [
    ("barman, 1 cocktail", *barman(1, 2, 2)),
    ("barman, 2 cocktails", *barman(2, 2, 2)),
    ("barman, 2 cocktails, 3 shots", *barman(2, 3, 3)),
    ("tpp, 2 goods", *tpp(2, 1, 1)),
    ("tpp, 3 goods", *tpp(3, 2, 2)),
    ("tpp, 5 goods", *tpp(5, 2, 2)),
    ("storage, 2 crates", *storage(2, 2, 2)),
    ("storage, 3 crates", *storage(3, 3, 2)),
    ("termes, 2 towers of 1", *termes(3, 2, {"c2-0": 1, "c2-1": 1})),
    ("termes, 3 towers of 1", *termes(3, 3, {"c2-1": 1, "c1-2": 1, "c2-2": 1})),
    ("pegs, 4x3", *pegs(4, 3, ("c1-0", "c1-0"))),
    ("pegs, 4x3, to another corner", *pegs(4, 3, ("c3-2", "c0-2"))),
    ("rovers, 1 of 6 places", *rovers(1, 6, 1)),
    ("rovers, 2 of 4 places", *rovers(2, 4, 2)),
    ("depots, 3 crates", *depots(3, 3, 1)),
    ("depots, 4 crates", *depots(4, 3, 4)),
    ("satellite, 1 of 5 directions", *satellite(1, 5, 3, 1)),
    ("satellite, 2 of 6 directions", *satellite(2, 6, 4, 2)),
    ("snake, 4x3, 3 apples", *snake(4, 3, ["c3-0", "c0-2", "c3-2"])),
    ("snake, 4x4, 4 apples", *snake(4, 4, ["c3-0", "c0-2", "c3-3", "c2-1"])),
]
