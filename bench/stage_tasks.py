"""Tasks of five domains of planning competitions in which something is arranged or made, written anew: generators of a few parameters."""

import random

from more_potential_tasks import COST, grid
from tasks import problem
from vehicle_tasks import names, rising, typed

WOODWORKING = """(define (domain woodworking) (:requirements :typing :action-costs)
  (:types piece machine colour surface treatment wood length - object board part - piece
    saw fast-saw varnisher sprayer glazer grinder planer - machine)
  (:constants smooth rough very-smooth - surface natural - colour varnished glazed untreated fragments - treatment)
  (:predicates (unused ?p - part) (available ?x - piece) (is-of ?x - piece ?w - wood) (feels ?x - piece ?s - surface)
    (has ?p - part ?c - colour) (treated ?p - part ?t - treatment) (offers ?m - machine ?c - colour) (is-smooth ?s - surface)
    (grinds ?t ?u - treatment) (long ?b - board ?l - length) (cuts ?p - part ?k ?l - length) (holds ?m - fast-saw ?b - board) (empty ?m - fast-saw))
  (:functions (total-cost) (sprays ?p - part) (glazes ?p - part) (grind-cost ?p - part) (planes ?p - part))
  (:action varnish :parameters (?p - part ?m - varnisher ?c - colour ?s - surface)
    :precondition (and (available ?p) (offers ?m ?c) (feels ?p ?s) (is-smooth ?s) (treated ?p untreated))
    :effect (and (not (treated ?p untreated)) (treated ?p varnished) (not (has ?p natural)) (has ?p ?c) (increase (total-cost) 10)))
  (:action spray :parameters (?p - part ?m - sprayer ?c - colour ?s - surface)
    :precondition (and (available ?p) (offers ?m ?c) (feels ?p ?s) (is-smooth ?s) (treated ?p untreated))
    :effect (and (not (treated ?p untreated)) (treated ?p varnished) (not (has ?p natural)) (has ?p ?c) (increase (total-cost) (sprays ?p))))
  (:action glaze :parameters (?p - part ?m - glazer ?c - colour)
    :precondition (and (available ?p) (offers ?m ?c) (treated ?p untreated))
    :effect (and (not (treated ?p untreated)) (treated ?p glazed) (not (has ?p natural)) (has ?p ?c) (increase (total-cost) (glazes ?p))))
  (:action grind :parameters (?p - part ?m - grinder ?s - surface ?c - colour ?t ?u - treatment)
    :precondition (and (available ?p) (feels ?p ?s) (is-smooth ?s) (has ?p ?c) (treated ?p ?t) (grinds ?t ?u))
    :effect (and (not (feels ?p ?s)) (feels ?p very-smooth) (not (treated ?p ?t)) (treated ?p ?u) (not (has ?p ?c)) (has ?p natural)
      (increase (total-cost) (grind-cost ?p))))
  (:action plane :parameters (?p - part ?m - planer ?s - surface ?c - colour ?t - treatment)
    :precondition (and (available ?p) (feels ?p ?s) (has ?p ?c) (treated ?p ?t))
    :effect (and (not (feels ?p ?s)) (feels ?p smooth) (not (treated ?p ?t)) (treated ?p untreated) (not (has ?p ?c)) (has ?p natural)
      (increase (total-cost) (planes ?p))))
  (:action load :parameters (?b - board ?m - fast-saw)
    :precondition (and (empty ?m) (available ?b))
    :effect (and (not (available ?b)) (not (empty ?m)) (holds ?m ?b) (increase (total-cost) 30)))
  (:action unload :parameters (?b - board ?m - fast-saw)
    :precondition (holds ?m ?b)
    :effect (and (available ?b) (not (holds ?m ?b)) (empty ?m) (increase (total-cost) 10)))
  (:action cut :parameters (?b - board ?p - part ?m - fast-saw ?w - wood ?s - surface ?k ?l - length)
    :precondition (and (unused ?p) (holds ?m ?b) (is-of ?b ?w) (feels ?b ?s) (long ?b ?l) (cuts ?p ?k ?l))
    :effect (and (not (unused ?p)) (available ?p) (is-of ?p ?w) (feels ?p ?s) (has ?p natural) (treated ?p untreated)
      (not (long ?b ?l)) (long ?b ?k) (increase (total-cost) 10)))
  (:action saw :parameters (?b - board ?p - part ?m - saw ?w - wood ?s - surface ?k ?l - length)
    :precondition (and (unused ?p) (available ?b) (is-of ?b ?w) (feels ?b ?s) (long ?b ?l) (cuts ?p ?k ?l))
    :effect (and (not (unused ?p)) (available ?p) (is-of ?p ?w) (feels ?p ?s) (has ?p natural) (treated ?p untreated)
      (not (long ?b ?l)) (long ?b ?k) (increase (total-cost) 30))))
"""

PARKING = """(define (domain parking) (:requirements :typing)
  (:types car curb)
  (:predicates (at ?c - car ?k - curb) (first ?c - car) (behind ?c ?d - car) (clear ?c - car) (free ?k - curb))
  (:action curb-to-curb :parameters (?c - car ?k ?l - curb)
    :precondition (and (clear ?c) (free ?l) (at ?c ?k))
    :effect (and (not (free ?l)) (free ?k) (at ?c ?l) (not (at ?c ?k))))
  (:action curb-to-car :parameters (?c - car ?k - curb ?d - car)
    :precondition (and (clear ?c) (clear ?d) (at ?c ?k) (first ?d) (not (= ?c ?d)))
    :effect (and (not (clear ?d)) (free ?k) (behind ?c ?d) (not (at ?c ?k)) (not (first ?c))))
  (:action car-to-curb :parameters (?c ?d - car ?k - curb)
    :precondition (and (clear ?c) (free ?k) (behind ?c ?d))
    :effect (and (not (free ?k)) (clear ?d) (at ?c ?k) (not (behind ?c ?d)) (first ?c)))
  (:action car-to-car :parameters (?c ?d ?e - car)
    :precondition (and (clear ?c) (clear ?e) (behind ?c ?d) (first ?e) (not (= ?c ?e)))
    :effect (and (not (clear ?e)) (clear ?d) (behind ?c ?e) (not (behind ?c ?d)))))
"""

FLOORTILE = """(define (domain floortile) (:requirements :typing :action-costs)
  (:types robot tile colour)
  (:predicates (above ?x ?y - tile) (beside ?x ?y - tile) (at ?r - robot ?x - tile) (clear ?x - tile)
    (painted ?x - tile ?c - colour) (has ?r - robot ?c - colour))
  (:functions (total-cost))
  (:action change :parameters (?r - robot ?c ?d - colour)
    :precondition (and (has ?r ?c) (not (= ?c ?d)))
    :effect (and (not (has ?r ?c)) (has ?r ?d) (increase (total-cost) 5)))
  (:action paint-up :parameters (?r - robot ?y ?x - tile ?c - colour)
    :precondition (and (has ?r ?c) (at ?r ?x) (above ?y ?x) (clear ?y))
    :effect (and (not (clear ?y)) (painted ?y ?c) (increase (total-cost) 2)))
  (:action paint-down :parameters (?r - robot ?y ?x - tile ?c - colour)
    :precondition (and (has ?r ?c) (at ?r ?x) (above ?x ?y) (clear ?y))
    :effect (and (not (clear ?y)) (painted ?y ?c) (increase (total-cost) 2)))
  (:action up :parameters (?r - robot ?x ?y - tile)
    :precondition (and (at ?r ?x) (above ?y ?x) (clear ?y))
    :effect (and (not (at ?r ?x)) (at ?r ?y) (clear ?x) (not (clear ?y)) (increase (total-cost) 3)))
  (:action down :parameters (?r - robot ?x ?y - tile)
    :precondition (and (at ?r ?x) (above ?x ?y) (clear ?y))
    :effect (and (not (at ?r ?x)) (at ?r ?y) (clear ?x) (not (clear ?y)) (increase (total-cost) 1)))
  (:action across :parameters (?r - robot ?x ?y - tile)
    :precondition (and (at ?r ?x) (beside ?x ?y) (clear ?y))
    :effect (and (not (at ?r ?x)) (at ?r ?y) (clear ?x) (not (clear ?y)) (increase (total-cost) 1))))
"""

FREECELL = """(define (domain freecell) (:requirements :typing)
  (:types card count)
  (:predicates (on ?c ?d - card) (bottom ?c - card) (clear ?c - card) (in-cell ?c - card) (home ?c - card) (follows ?c ?d - card)
    (stacks ?c ?d - card) (cells ?n - count) (columns ?n - count) (next ?m ?n - count))
  (:action move :parameters (?c ?d ?e - card)
    :precondition (and (clear ?c) (clear ?e) (stacks ?c ?e) (on ?c ?d))
    :effect (and (not (on ?c ?d)) (on ?c ?e) (clear ?d) (not (clear ?e))))
  (:action move-last :parameters (?c ?e - card ?m ?n - count)
    :precondition (and (clear ?c) (bottom ?c) (clear ?e) (stacks ?c ?e) (columns ?m) (next ?m ?n))
    :effect (and (not (bottom ?c)) (on ?c ?e) (not (clear ?e)) (columns ?n) (not (columns ?m))))
  (:action to-cell :parameters (?c ?d - card ?m ?n - count)
    :precondition (and (clear ?c) (on ?c ?d) (cells ?n) (next ?m ?n))
    :effect (and (not (clear ?c)) (not (on ?c ?d)) (in-cell ?c) (clear ?d) (cells ?m) (not (cells ?n))))
  (:action last-to-cell :parameters (?c - card ?m ?n ?j ?k - count)
    :precondition (and (clear ?c) (bottom ?c) (cells ?n) (next ?m ?n) (columns ?j) (next ?j ?k))
    :effect (and (not (clear ?c)) (not (bottom ?c)) (in-cell ?c) (cells ?m) (not (cells ?n)) (columns ?k) (not (columns ?j))))
  (:action to-column :parameters (?c ?d - card ?m ?n - count)
    :precondition (and (clear ?c) (on ?c ?d) (columns ?n) (next ?m ?n))
    :effect (and (not (on ?c ?d)) (bottom ?c) (clear ?d) (columns ?m) (not (columns ?n))))
  (:action send-home :parameters (?c ?d ?h - card)
    :precondition (and (clear ?c) (on ?c ?d) (home ?h) (follows ?c ?h))
    :effect (and (not (clear ?c)) (not (on ?c ?d)) (home ?c) (not (home ?h)) (clear ?d)))
  (:action send-last-home :parameters (?c ?h - card ?m ?n - count)
    :precondition (and (clear ?c) (bottom ?c) (home ?h) (follows ?c ?h) (columns ?m) (next ?m ?n))
    :effect (and (not (clear ?c)) (not (bottom ?c)) (home ?c) (not (home ?h)) (columns ?n) (not (columns ?m))))
  (:action home-from-cell :parameters (?c ?h - card ?m ?n - count)
    :precondition (and (in-cell ?c) (home ?h) (follows ?c ?h) (cells ?m) (next ?m ?n))
    :effect (and (not (in-cell ?c)) (home ?c) (not (home ?h)) (cells ?n) (not (cells ?m))))
  (:action from-cell :parameters (?c ?e - card ?m ?n - count)
    :precondition (and (in-cell ?c) (clear ?e) (stacks ?c ?e) (cells ?m) (next ?m ?n))
    :effect (and (not (in-cell ?c)) (on ?c ?e) (clear ?c) (not (clear ?e)) (cells ?n) (not (cells ?m))))
  (:action column-from-cell :parameters (?c - card ?m ?n ?j ?k - count)
    :precondition (and (in-cell ?c) (columns ?k) (next ?j ?k) (cells ?m) (next ?m ?n))
    :effect (and (not (in-cell ?c)) (bottom ?c) (clear ?c) (columns ?j) (not (columns ?k)) (cells ?n) (not (cells ?m)))))
"""

GRID = """(define (domain keys-on-grid) (:requirements :typing)
  (:types place key shape)
  (:predicates (near ?x ?y - place) (shaped ?k - key ?s - shape) (lock ?x - place ?s - shape) (at ?k - key ?x - place) (robot ?x - place)
    (locked ?x - place) (open ?x - place) (holds ?k - key) (empty))
  (:action unlock :parameters (?x ?y - place ?k - key ?s - shape)
    :precondition (and (near ?x ?y) (shaped ?k ?s) (lock ?y ?s) (robot ?x) (locked ?y) (holds ?k))
    :effect (and (open ?y) (not (locked ?y))))
  (:action move :parameters (?x ?y - place)
    :precondition (and (robot ?x) (near ?x ?y) (open ?y))
    :effect (and (robot ?y) (not (robot ?x))))
  (:action pick-up :parameters (?x - place ?k - key)
    :precondition (and (robot ?x) (at ?k ?x) (empty))
    :effect (and (holds ?k) (not (at ?k ?x)) (not (empty))))
  (:action exchange :parameters (?x - place ?k ?l - key)
    :precondition (and (robot ?x) (holds ?l) (at ?k ?x))
    :effect (and (holds ?k) (at ?l ?x) (not (holds ?l)) (not (at ?k ?x))))
  (:action put-down :parameters (?x - place ?k - key)
    :precondition (and (robot ?x) (holds ?k))
    :effect (and (empty) (at ?k ?x) (not (holds ?k)))))
"""


def woodworking(parts, seed):
    """Parts of two lengths, to be sawn from a board of oak and one of pine; each fourth is there already, in a wrong state."""
    draw = random.Random(seed)
    pieces, colours, woods, lengths = names("p", parts), ["red", "blue"], ["oak", "pine"], names("l", 2 * parts + 1)
    init = ["(is-smooth smooth) (is-smooth very-smooth)", "(grinds varnished fragments) (grinds glazed untreated) (grinds untreated untreated)",
            "(grinds fragments untreated)", "(empty fast)"]
    init += [f"(offers {machine} {colour})" for machine in ("dip", "gun") for colour in colours] + ["(offers brush natural) (offers brush red)"]
    need, goal = dict.fromkeys(woods, 0), []
    for k, part in enumerate(pieces):
        size, wood = draw.randint(1, 2), draw.choice(woods)
        init += [f"(= ({cost} {part}) {size * each})" for cost, each in (("sprays", 5), ("glazes", 10), ("grind-cost", 15), ("planes", 10))]
        init += [f"(cuts {part} {lengths[at - size]} {lengths[at]})" for at in range(size, len(lengths))]
        colour, treatment = draw.choice([("red", "varnished"), ("blue", "varnished"), ("red", "glazed"), ("natural", "glazed")])
        goal += [f"(available {part})", f"(has {part} {colour})", f"(treated {part} {treatment})", f"(is-of {part} {wood})"]
        if k % 4 == 3:
            init += [f"(available {part}) (is-of {part} {wood}) (feels {part} rough) (has {part} blue) (treated {part} glazed)"]
        else:
            init += [f"(unused {part})"]
            need[wood] += size
        if k % 2:
            goal += [f"(feels {part} {draw.choice(['smooth', 'very-smooth'])})"]
    boards = {wood: f"b-{wood}" for wood in woods if need[wood]}
    for wood, board in boards.items():
        surface = draw.choice(["rough", "smooth"])
        init += [f"(available {board}) (is-of {board} {wood}) (feels {board} {surface}) (long {board} {lengths[need[wood]]})"]
    machines = {"saw": ["slow"], "fast-saw": ["fast"], "varnisher": ["dip"], "sprayer": ["gun"], "glazer": ["brush"], "grinder": ["belt"],
                "planer": ["knife"]}
    objects = typed(part=pieces, board=boards.values(), colour=colours, wood=woods, length=lengths, **machines)
    return WOODWORKING, problem("woodworking", objects, init, goal, COST)


def parking(cars, curbs, seed):
    """At each curb but one there is a car, and behind some of these another; so there are fewer cars than at two each."""
    draw = random.Random(seed)
    rows, fleet = names("k", curbs), names("c", cars)
    order = draw.sample(fleet, cars)
    ahead = dict(zip(order[curbs - 1:], order))
    init = [f"(clear {car})" for car in fleet if car not in ahead.values()] + [f"(behind {car} {front})" for car, front in ahead.items()]
    init += [f"(at {car} {curb}) (first {car})" for car, curb in zip(order[:curbs - 1], rows)] + [f"(free {rows[-1]})"]
    goal = [f"(at {car} {curb})" for car, curb in zip(fleet, rows)] + [f"(behind {car} {front})" for car, front in zip(fleet[curbs:], fleet)]
    return PARKING, problem("parking", typed(car=fleet, curb=rows), init, goal)


def floortile(columns, rows, robots):
    """Black and white tiles in turn; the lowest row stays as it is, and the robots begin there."""
    cells, pairs = grid(columns, rows + 1)
    crew = names("r", robots)
    starts = [f"c{k}-0" for k in range(robots)]
    init = [f"({'beside' if a[:2] != b[:2] else 'above'} {b} {a})" for a, b in pairs if a[:2] != b[:2] or a < b]
    init += [f"(clear {cell})" for cell in cells if cell not in starts]
    init += [f"(at {robot} {start}) (has {robot} {('white', 'black')[k % 2]})" for k, (robot, start) in enumerate(zip(crew, starts))]
    goal = [f"(painted c{x}-{y} {('white', 'black')[(x + y) % 2]})" for x in range(columns) for y in range(1, rows + 1)]
    return FLOORTILE, problem("floortile", typed(robot=crew, tile=cells, colour=["white", "black"]), init, goal, COST)


def freecell(values, suits, columns, cells, seed):
    """Cards of so many values and suits, dealt to columns; every other suit is of one colour."""
    draw = random.Random(seed)
    cards = [(suit, value) for suit in range(suits) for value in range(values + 1)]
    title = lambda card: f"s{card[0]}-{card[1]}"
    counts = names("n", max(columns, cells) + 1)
    init = [f"(follows {title((suit, value + 1))} {title((suit, value))})" for suit, value in cards if value < values]
    init += [f"(stacks {title((suit, value))} {title((other, value + 1))})" for suit, value in cards for other in range(suits)
             if 0 < value < values and (suit + other) % 2 == 1]
    init += [f"(home {title((suit, 0))})" for suit in range(suits)] + [f"(cells {counts[cells]})", "(columns n0)"] + rising("next", counts)
    deck = [title(card) for card in draw.sample([card for card in cards if card[1]], suits * values)]
    for k in range(columns):
        column = deck[k::columns]
        init += [f"(bottom {column[0]}) (clear {column[-1]})"] + [f"(on {top} {card})" for card, top in zip(column, column[1:])]
    goal = [f"(home {title((suit, values))})" for suit in range(suits)]
    return FREECELL, problem("freecell", typed(card=map(title, cards), count=counts), init, goal)


def keys_on_grid(columns, rows, keys, locks, seed):
    """Keys of two shapes, some of which are to be at locked places; which can be reached is left to chance."""
    draw = random.Random(seed)
    cells, pairs = grid(columns, rows)
    bunch, shut = names("k", keys), draw.sample(cells[1:], locks)
    opened = [cell for cell in cells if cell not in shut]
    init = [f"(near {a} {b})" for a, b in pairs] + [f"(open {cell})" for cell in opened] + [f"(robot {cells[0]})", "(empty)"]
    init += [f"(locked {cell}) (lock {cell} s{k % 2})" for k, cell in enumerate(shut)]
    init += [f"(shaped {key} s{k % 2}) (at {key} {draw.choice(opened)})" for k, key in enumerate(bunch)]
    goal = [f"(at {key} {draw.choice(shut)})" for key in bunch[:keys // 2 + 1]]
    return GRID, problem("keys-on-grid", typed(place=cells, key=bunch, shape=["s0", "s1"]), init, goal)
