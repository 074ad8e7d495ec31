"""Tasks in which objects are interchangeable, so that one state stands for many: balls, sandwiches, lifts, crates, couples,
parcels for one place, images and goods."""

import random

from more_potential_tasks import satellite, storage, tpp
from tasks import gripper, problem
from vehicle_tasks import COST, ELEVATORS, logistics, moved, names, rising, typed

SNACKS = """(define (domain child-snack) (:requirements :typing)
  (:types child bread filling sandwich tray place) (:constants kitchen - place)
  (:predicates (here ?x - (either bread filling sandwich)) (gluten-free ?x - (either bread filling sandwich)) (unmade ?s - sandwich)
    (on ?s - sandwich ?t - tray) (allergic ?c - child) (tolerant ?c - child) (served ?c - child) (waits ?c - child ?p - place) (at ?t - tray ?p - place))
  (:action make-gluten-free :parameters (?s - sandwich ?b - bread ?f - filling)
    :precondition (and (here ?b) (here ?f) (gluten-free ?b) (gluten-free ?f) (unmade ?s))
    :effect (and (not (here ?b)) (not (here ?f)) (here ?s) (gluten-free ?s) (not (unmade ?s))))
  (:action make :parameters (?s - sandwich ?b - bread ?f - filling)
    :precondition (and (here ?b) (here ?f) (unmade ?s))
    :effect (and (not (here ?b)) (not (here ?f)) (here ?s) (not (unmade ?s))))
  (:action put :parameters (?s - sandwich ?t - tray)
    :precondition (and (here ?s) (at ?t kitchen))
    :effect (and (not (here ?s)) (on ?s ?t)))
  (:action serve-gluten-free :parameters (?s - sandwich ?c - child ?t - tray ?p - place)
    :precondition (and (allergic ?c) (on ?s ?t) (waits ?c ?p) (gluten-free ?s) (at ?t ?p))
    :effect (and (not (on ?s ?t)) (served ?c)))
  (:action serve :parameters (?s - sandwich ?c - child ?t - tray ?p - place)
    :precondition (and (tolerant ?c) (waits ?c ?p) (on ?s ?t) (at ?t ?p))
    :effect (and (not (on ?s ?t)) (served ?c)))
  (:action move :parameters (?t - tray ?p ?q - place)
    :precondition (at ?t ?p)
    :effect (and (not (at ?t ?p)) (at ?t ?q))))
"""

HIKING = """(define (domain hiking) (:requirements :typing)
  (:types couple person car tent place)
  (:predicates (drives-at ?c - car ?p - place) (at ?h - person ?p - place) (of ?h - person ?x - couple) (tent-at ?t - tent ?p - place)
    (up ?t - tent) (down ?t - tent) (walked ?x - couple ?p - place) (next ?p ?q - place))
  (:action put-up :parameters (?h - person ?p - place ?t - tent)
    :precondition (and (at ?h ?p) (tent-at ?t ?p) (down ?t))
    :effect (and (up ?t) (not (down ?t))))
  (:action put-down :parameters (?h - person ?p - place ?t - tent)
    :precondition (and (at ?h ?p) (tent-at ?t ?p) (up ?t))
    :effect (and (down ?t) (not (up ?t))))
  (:action drive :parameters (?h - person ?p ?q - place ?c - car)
    :precondition (and (at ?h ?p) (drives-at ?c ?p))
    :effect (and (at ?h ?q) (not (at ?h ?p)) (drives-at ?c ?q) (not (drives-at ?c ?p))))
  (:action drive-two :parameters (?h ?g - person ?p ?q - place ?c - car)
    :precondition (and (at ?h ?p) (at ?g ?p) (drives-at ?c ?p) (not (= ?h ?g)))
    :effect (and (at ?h ?q) (not (at ?h ?p)) (at ?g ?q) (not (at ?g ?p)) (drives-at ?c ?q) (not (drives-at ?c ?p))))
  (:action drive-tent :parameters (?h - person ?p ?q - place ?c - car ?t - tent)
    :precondition (and (at ?h ?p) (drives-at ?c ?p) (tent-at ?t ?p) (down ?t))
    :effect (and (at ?h ?q) (not (at ?h ?p)) (drives-at ?c ?q) (not (drives-at ?c ?p)) (tent-at ?t ?q) (not (tent-at ?t ?p))))
  (:action walk :parameters (?h ?g - person ?x - couple ?p ?q - place ?t - tent)
    :precondition (and (of ?h ?x) (of ?g ?x) (not (= ?h ?g)) (at ?h ?p) (at ?g ?p) (walked ?x ?p) (next ?p ?q) (tent-at ?t ?q) (up ?t))
    :effect (and (at ?h ?q) (at ?g ?q) (not (at ?h ?p)) (not (at ?g ?p)) (walked ?x ?q) (not (walked ?x ?p)))))
"""


def snacks(children, trays, tables, spare):
    """Every third child must have a sandwich without gluten."""
    guests = [f"child{k}" for k in range(children)]
    free = len(guests[::3])
    breads, fillings, loaves = [f"bread{k}" for k in range(children)], [f"filling{k}" for k in range(children)], [f"sandwich{k}" for k in range(children + spare)]
    boards, places = [f"tray{k}" for k in range(trays)], [f"table{k}" for k in range(tables)]
    init = [f"(here {x})" for x in breads + fillings] + [f"(gluten-free {x})" for x in breads[:free] + fillings[:free]]
    init += [f"(unmade {s})" for s in loaves] + [f"(at {t} kitchen)" for t in boards]
    init += [f"({'tolerant' if k % 3 else 'allergic'} {c}) (waits {c} {places[k % tables]})" for k, c in enumerate(guests)]
    kinds = {"child": guests, "bread": breads, "filling": fillings, "sandwich": loaves, "tray": boards, "place": places}
    objects = " ".join(f"{' '.join(names)} - {kind}" for kind, names in kinds.items())
    return SNACKS, problem("child-snack", objects, init, [f"(served {c})" for c in guests])


def hiking(couples, places, cars, tents):
    """All walk from the first place to the last."""
    pairs, points = [f"couple{k}" for k in range(couples)], [f"place{k}" for k in range(places)]
    people = [f"{h}{k}" for k in range(couples) for h in ("guy", "girl")]
    autos, shelters = [f"car{k}" for k in range(cars)], [f"tent{k}" for k in range(tents)]
    init = [f"(drives-at {c} place0)" for c in autos] + [f"(tent-at {t} place0) (down {t})" for t in shelters]
    init += [f"(at {h} place0) (of {h} {pairs[k // 2]})" for k, h in enumerate(people)]
    init += [f"(walked {x} place0)" for x in pairs] + [f"(next {p} {q})" for p, q in zip(points, points[1:])]
    kinds = {"couple": pairs, "person": people, "car": autos, "tent": shelters, "place": points}
    objects = " ".join(f"{' '.join(names)} - {kind}" for kind, names in kinds.items())
    return HIKING, problem("hiking", objects, init, [f"(walked {x} {points[-1]})" for x in pairs])


def lifts(count, passengers, floors, seed):
    """Lifts that stop everywhere and hold two."""
    storeys, crowd, cars, counts = names("f", floors), names("p", passengers), names("l", count), names("n", 3)
    init, goal = moved(random.Random(seed), crowd, storeys)
    init += rising("next", counts)
    for car in cars:
        init += [f"(at {car} f0) (load {car} n0) (holds {car} n1) (holds {car} n2)"] + [f"(stops {car} {f})" for f in storeys]
        init += [f"(= (ride {car} {storeys[a]} {storeys[b]}) {2 + abs(a - b)})" for a in range(floors) for b in range(floors) if a != b]
    return ELEVATORS, problem("elevators", typed(floor=storeys, lift=cars, passenger=crowd, count=counts), init, goal, COST)


def texts(task):
    return task.domain, task.problem


# each a title, the domain's text and the problem's
TASKS = [
    ("gripper, 12 balls", *texts(gripper(12, 0))),
    ("gripper, 40 balls", *texts(gripper(40, 0))),
    ("child-snack, 5 children", *snacks(5, 2, 2, 1)),
    ("elevators, 4 lifts, 4 passengers", *lifts(4, 4, 6, 1)),
    ("storage, 4 crates", *storage(4, 3, 3)),
    ("storage, 6 crates", *storage(6, 4, 3)),
    ("hiking, 3 couples", *hiking(3, 3, 3, 4)),
    ("logistics, 6 parcels, 2 cities", *logistics(6, 2, 3, 1)),
    ("satellite, 3 of 8 directions", *satellite(3, 8, 6, 1)),
    ("tpp, 5 goods", *tpp(5, 2, 2)),
    ("tpp, 7 goods", *tpp(7, 3, 2)),
]
