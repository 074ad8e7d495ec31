"""Tasks of eleven domains, two of each, small enough that their cheapest plans are found in seconds."""

import random

from tasks import blocks, gripper, hanoi, logistics, problem, tiles

VISIT_ALL = """(define (domain visit-all)
  (:predicates (connected ?x ?y) (at-robot ?x) (visited ?x))
  (:action move :parameters (?from ?to)
    :precondition (and (at-robot ?from) (connected ?from ?to))
    :effect (and (not (at-robot ?from)) (at-robot ?to) (visited ?to))))
"""

FERRY = """(define (domain ferry)
  (:predicates (place ?l) (car ?c) (at-ferry ?l) (at ?c ?l) (empty-ferry) (on ?c))
  (:action sail :parameters (?from ?to)
    :precondition (and (place ?from) (place ?to) (not (= ?from ?to)) (at-ferry ?from))
    :effect (and (at-ferry ?to) (not (at-ferry ?from))))
  (:action board :parameters (?car ?loc)
    :precondition (and (car ?car) (place ?loc) (at ?car ?loc) (at-ferry ?loc) (empty-ferry))
    :effect (and (on ?car) (not (at ?car ?loc)) (not (empty-ferry))))
  (:action debark :parameters (?car ?loc)
    :precondition (and (car ?car) (place ?loc) (on ?car) (at-ferry ?loc))
    :effect (and (at ?car ?loc) (empty-ferry) (not (on ?car)))))
"""

MICONIC = """(define (domain miconic)
  (:predicates (floor ?f) (passenger ?p) (origin ?p ?f) (destin ?p ?f) (above ?f ?g) (boarded ?p) (served ?p) (lift-at ?f))
  (:action board :parameters (?f ?p)
    :precondition (and (floor ?f) (passenger ?p) (lift-at ?f) (origin ?p ?f))
    :effect (boarded ?p))
  (:action depart :parameters (?f ?p)
    :precondition (and (floor ?f) (passenger ?p) (lift-at ?f) (destin ?p ?f) (boarded ?p))
    :effect (and (not (boarded ?p)) (served ?p)))
  (:action up :parameters (?f ?g)
    :precondition (and (lift-at ?f) (above ?f ?g))
    :effect (and (lift-at ?g) (not (lift-at ?f))))
  (:action down :parameters (?f ?g)
    :precondition (and (lift-at ?f) (above ?g ?f))
    :effect (and (lift-at ?g) (not (lift-at ?f)))))
"""

TRANSPORT = """(define (domain transport)
  (:predicates (place ?l) (truck ?t) (package ?p) (road ?x ?y) (at ?v ?l) (in ?p ?t))
  (:functions (total-cost))
  (:action drive :parameters (?t ?from ?to)
    :precondition (and (truck ?t) (road ?from ?to) (at ?t ?from))
    :effect (and (not (at ?t ?from)) (at ?t ?to) (increase (total-cost) 5)))
  (:action pick :parameters (?p ?t ?l)
    :precondition (and (package ?p) (truck ?t) (place ?l) (at ?t ?l) (at ?p ?l))
    :effect (and (not (at ?p ?l)) (in ?p ?t) (increase (total-cost) 1)))
  (:action drop :parameters (?p ?t ?l)
    :precondition (and (package ?p) (truck ?t) (place ?l) (at ?t ?l) (in ?p ?t))
    :effect (and (not (in ?p ?t)) (at ?p ?l) (increase (total-cost) 1))))
"""

SOKOBAN = """(define (domain sokoban)
  (:predicates (line ?a ?b ?c) (next ?a ?b) (player ?c) (box ?b ?c) (clear ?c) (is-box ?b))
  (:action walk :parameters (?from ?to)
    :precondition (and (next ?from ?to) (player ?from) (clear ?to))
    :effect (and (not (player ?from)) (player ?to) (not (clear ?to)) (clear ?from)))
  (:action push :parameters (?b ?from ?at ?to)
    :precondition (and (is-box ?b) (line ?from ?at ?to) (player ?from) (box ?b ?at) (clear ?to))
    :effect (and (not (player ?from)) (player ?at) (clear ?from) (not (box ?b ?at)) (box ?b ?to) (not (clear ?to)))))
"""

LIGHTS = """(define (domain lights)
  (:predicates (on ?l) (off ?l) (before ?a ?b) (room ?r) (lamp ?l ?r) (at ?r))
  (:action go :parameters (?from ?to)
    :precondition (and (room ?from) (room ?to) (before ?from ?to) (at ?from))
    :effect (and (not (at ?from)) (at ?to)))
  (:action switch :parameters (?l ?r)
    :precondition (and (lamp ?l ?r) (at ?r) (off ?l))
    :effect (and (not (off ?l)) (on ?l))))
"""

WAYS = ((1, 0), (-1, 0), (0, 1), (0, -1))


def grid(columns, rows):
    """The cells of a grid, and its pairs of neighbours."""
    cells = [(x, y) for y in range(rows) for x in range(columns)]
    pairs = [((x, y), (x + right, y + up)) for x, y in cells for right, up in WAYS if (x + right, y + up) in cells]
    return cells, pairs


def name(cell):
    return f"c{cell[0]}-{cell[1]}"


def visit_all(columns, rows):
    cells, pairs = grid(columns, rows)
    init = [f"(connected {name(a)} {name(b)})" for a, b in pairs] + ["(at-robot c0-0)", "(visited c0-0)"]
    return VISIT_ALL, problem("visit-all", " ".join(map(name, cells)), init, [f"(visited {name(a)})" for a in cells])


def ferry(count, places):
    where, cars = [f"l{k}" for k in range(places)], [f"car{k}" for k in range(count)]
    init = [f"(place {a})" for a in where] + [f"(car {c})" for c in cars] + ["(empty-ferry)", "(at-ferry l0)"]
    init += [f"(at {c} {where[k % places]})" for k, c in enumerate(cars)]
    goal = [f"(at {c} {where[(k + 1 + k // places) % places]})" for k, c in enumerate(cars)]
    return FERRY, problem("ferry", " ".join(where + cars), init, goal)


def miconic(count, height, seed):
    draw = random.Random(seed)
    floors, passengers = [f"f{k}" for k in range(height)], [f"p{k}" for k in range(count)]
    init = [f"(floor {f})" for f in floors] + [f"(passenger {p})" for p in passengers] + ["(lift-at f0)"]
    init += [f"(above {floors[low]} {floors[high]})" for high in range(height) for low in range(high)]
    for passenger in passengers:
        origin, destination = draw.sample(floors, 2)
        init += [f"(origin {passenger} {origin})", f"(destin {passenger} {destination})"]
    return MICONIC, problem("miconic", " ".join(floors + passengers), init, [f"(served {p})" for p in passengers])


def transport(count, columns, rows, seed):
    draw = random.Random(seed)
    cells, pairs = grid(columns, rows)
    packages = [f"p{k}" for k in range(count)]
    init = [f"(place {name(a)})" for a in cells] + [f"(road {name(a)} {name(b)})" for a, b in pairs]
    init += ["(truck t1)", "(at t1 c0-0)", "(= (total-cost) 0)"]
    goal = []
    for package in packages:
        origin, destination = draw.sample(cells, 2)
        init += [f"(package {package})", f"(at {package} {name(origin)})"]
        goal.append(f"(at {package} {name(destination)})")
    objects = " ".join([*map(name, cells), "t1", *packages])
    return TRANSPORT, problem("transport", objects, init, goal, "\n  (:metric minimize (total-cost))")


def sokoban(columns, rows, boxes, goals):
    cells, pairs = grid(columns, rows)
    names = [f"b{k}" for k in range(len(boxes))]
    init = [f"(next {name(a)} {name(b)})" for a, b in pairs]
    for x, y in cells:
        for right, up in WAYS:
            middle, end = (x + right, y + up), (x + 2 * right, y + 2 * up)
            if end in cells:
                init.append(f"(line {name((x, y))} {name(middle)} {name(end)})")
    init += [f"(is-box {b})" for b in names] + [f"(box {b} {name(a)})" for b, a in zip(names, boxes)] + ["(player c0-0)"]
    init += [f"(clear {name(a)})" for a in cells if a not in {*boxes, (0, 0)}]
    goal = [f"(box {b} {name(a)})" for b, a in zip(names, goals)]
    return SOKOBAN, problem("sokoban", " ".join([*map(name, cells), *names]), init, goal)


def lights(rooms, each):
    places = [f"r{k}" for k in range(rooms)]
    lamps = [(f"x{k}-{n}", places[k]) for k in range(rooms) for n in range(each)]
    init = [f"(room {r})" for r in places] + ["(at r0)"]
    init += [f"(before {a} {b})" for one, other in zip(places, places[1:]) for a, b in ((one, other), (other, one))]
    init += [f"(lamp {lamp} {room})" for lamp, room in lamps] + [f"(off {lamp})" for lamp, _ in lamps]
    objects = " ".join([*places, *(lamp for lamp, _ in lamps)])
    return LIGHTS, problem("lights", objects, init, [f"(on {lamp})" for lamp, _ in lamps])


def texts(task):
    return task.domain, task.problem


# each a title, the domain's text and the problem's
TASKS = [
    ("gripper, 4 balls", *texts(gripper(4, 0))),
    ("gripper, 6 balls", *texts(gripper(6, 0))),
    ("blocks, 5", *texts(blocks(5, 0))),
    ("blocks, 6", *texts(blocks(6, 0))),
    ("logistics, 2 packages", *texts(logistics(2, 0))),
    ("logistics, 4 packages", *texts(logistics(4, 0))),
    ("Hanoi, 4 discs", *texts(hanoi(4, 0))),
    ("Hanoi, 6 discs", *texts(hanoi(6, 0))),
    ("tiles, 3x2", *texts(tiles(3, 2, 0))),
    ("tiles, 3x3", *texts(tiles(3, 3, 0))),
    ("visit-all, 4x3", *visit_all(4, 3)),
    ("visit-all, 5x3", *visit_all(5, 3)),
    ("ferry, 4 cars, 3 places", *ferry(4, 3)),
    ("ferry, 5 cars, 4 places", *ferry(5, 4)),
    ("miconic, 4 passengers, 6 floors", *miconic(4, 6, 1)),
    ("miconic, 5 passengers, 8 floors", *miconic(5, 8, 3)),
    ("transport, 3 packages, 3x3", *transport(3, 3, 3, 1)),
    ("transport, 4 packages, 3x3", *transport(4, 3, 3, 2)),
    ("sokoban, 4x4, 2 boxes", *sokoban(4, 4, [(1, 1), (2, 2)], [(3, 1), (2, 3)])),
    ("sokoban, 5x4, 3 boxes", *sokoban(5, 4, [(1, 1), (2, 2), (3, 1)], [(3, 3), (4, 0), (0, 2)])),
    ("lights, 4 rooms of 2", *lights(4, 2)),
    ("lights, 6 rooms of 1", *lights(6, 1)),
]
