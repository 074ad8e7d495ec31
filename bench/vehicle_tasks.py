"""Tasks of six domains of planning competitions in which something is carried, written anew: generators of a few parameters."""

import random

from more_potential_tasks import COST, grid
from tasks import problem

TRANSPORT = """(define (domain transport-by-length) (:requirements :typing :action-costs)
  (:types place mobile size - object truck parcel - mobile)
  (:predicates (road ?x ?y - place) (at ?m - mobile ?x - place) (in ?p - parcel ?t - truck) (room ?t - truck ?s - size) (below ?s ?z - size))
  (:functions (total-cost) (length ?x ?y - place))
  (:action drive :parameters (?t - truck ?x ?y - place)
    :precondition (and (at ?t ?x) (road ?x ?y))
    :effect (and (not (at ?t ?x)) (at ?t ?y) (increase (total-cost) (length ?x ?y))))
  (:action pick-up :parameters (?t - truck ?x - place ?p - parcel ?s ?z - size)
    :precondition (and (at ?t ?x) (at ?p ?x) (below ?s ?z) (room ?t ?z))
    :effect (and (not (at ?p ?x)) (in ?p ?t) (not (room ?t ?z)) (room ?t ?s) (increase (total-cost) 1)))
  (:action drop :parameters (?t - truck ?x - place ?p - parcel ?s ?z - size)
    :precondition (and (at ?t ?x) (in ?p ?t) (below ?s ?z) (room ?t ?s))
    :effect (and (not (in ?p ?t)) (at ?p ?x) (not (room ?t ?s)) (room ?t ?z) (increase (total-cost) 1))))
"""

ZENOTRAVEL = """(define (domain zenotravel) (:requirements :typing)
  (:types city mobile level - object plane person - mobile)
  (:predicates (at ?m - mobile ?c - city) (in ?p - person ?a - plane) (fuel ?a - plane ?l - level) (below ?k ?l - level))
  (:action board :parameters (?p - person ?a - plane ?c - city)
    :precondition (and (at ?p ?c) (at ?a ?c))
    :effect (and (not (at ?p ?c)) (in ?p ?a)))
  (:action debark :parameters (?p - person ?a - plane ?c - city)
    :precondition (and (in ?p ?a) (at ?a ?c))
    :effect (and (not (in ?p ?a)) (at ?p ?c)))
  (:action fly :parameters (?a - plane ?c ?d - city ?k ?l - level)
    :precondition (and (at ?a ?c) (fuel ?a ?l) (below ?k ?l) (not (= ?c ?d)))
    :effect (and (not (at ?a ?c)) (at ?a ?d) (not (fuel ?a ?l)) (fuel ?a ?k)))
  (:action zoom :parameters (?a - plane ?c ?d - city ?j ?k ?l - level)
    :precondition (and (at ?a ?c) (fuel ?a ?l) (below ?k ?l) (below ?j ?k) (not (= ?c ?d)))
    :effect (and (not (at ?a ?c)) (at ?a ?d) (not (fuel ?a ?l)) (fuel ?a ?j)))
  (:action refuel :parameters (?a - plane ?c - city ?k ?l - level)
    :precondition (and (at ?a ?c) (fuel ?a ?k) (below ?k ?l))
    :effect (and (not (fuel ?a ?k)) (fuel ?a ?l))))
"""

DRIVERLOG = """(define (domain driverlog) (:requirements :typing)
  (:types place mobile - object driver truck parcel - mobile)
  (:predicates (at ?m - mobile ?x - place) (in ?p - parcel ?t - truck) (drives ?d - driver ?t - truck) (empty ?t - truck)
    (road ?x ?y - place) (path ?x ?y - place))
  (:action load :parameters (?p - parcel ?t - truck ?x - place)
    :precondition (and (at ?t ?x) (at ?p ?x))
    :effect (and (not (at ?p ?x)) (in ?p ?t)))
  (:action unload :parameters (?p - parcel ?t - truck ?x - place)
    :precondition (and (at ?t ?x) (in ?p ?t))
    :effect (and (not (in ?p ?t)) (at ?p ?x)))
  (:action board :parameters (?d - driver ?t - truck ?x - place)
    :precondition (and (at ?t ?x) (at ?d ?x) (empty ?t))
    :effect (and (not (at ?d ?x)) (drives ?d ?t) (not (empty ?t))))
  (:action leave :parameters (?d - driver ?t - truck ?x - place)
    :precondition (and (at ?t ?x) (drives ?d ?t))
    :effect (and (not (drives ?d ?t)) (at ?d ?x) (empty ?t)))
  (:action drive :parameters (?t - truck ?x ?y - place ?d - driver)
    :precondition (and (at ?t ?x) (drives ?d ?t) (road ?x ?y))
    :effect (and (not (at ?t ?x)) (at ?t ?y)))
  (:action walk :parameters (?d - driver ?x ?y - place)
    :precondition (and (at ?d ?x) (path ?x ?y))
    :effect (and (not (at ?d ?x)) (at ?d ?y))))
"""

ELEVATORS = """(define (domain elevators) (:requirements :typing :action-costs)
  (:types floor mobile count - object lift passenger - mobile)
  (:predicates (at ?m - mobile ?f - floor) (in ?p - passenger ?l - lift) (stops ?l - lift ?f - floor) (load ?l - lift ?n - count)
    (holds ?l - lift ?n - count) (next ?m ?n - count))
  (:functions (total-cost) (ride ?l - lift ?f ?g - floor))
  (:action go :parameters (?l - lift ?f ?g - floor)
    :precondition (and (at ?l ?f) (stops ?l ?g) (not (= ?f ?g)))
    :effect (and (not (at ?l ?f)) (at ?l ?g) (increase (total-cost) (ride ?l ?f ?g))))
  (:action board :parameters (?p - passenger ?l - lift ?f - floor ?m ?n - count)
    :precondition (and (at ?l ?f) (at ?p ?f) (load ?l ?m) (next ?m ?n) (holds ?l ?n))
    :effect (and (not (at ?p ?f)) (in ?p ?l) (not (load ?l ?m)) (load ?l ?n)))
  (:action leave :parameters (?p - passenger ?l - lift ?f - floor ?m ?n - count)
    :precondition (and (at ?l ?f) (in ?p ?l) (load ?l ?n) (next ?m ?n))
    :effect (and (not (in ?p ?l)) (at ?p ?f) (not (load ?l ?n)) (load ?l ?m))))
"""

NOMYSTERY = """(define (domain nomystery) (:requirements :typing)
  (:types place mobile level - object truck parcel - mobile)
  (:predicates (road ?x ?y - place) (at ?m - mobile ?x - place) (in ?p - parcel ?t - truck) (fuel ?t - truck ?l - level)
    (takes ?x ?y - place ?d - level) (sum ?k ?d ?l - level))
  (:action load :parameters (?p - parcel ?t - truck ?x - place)
    :precondition (and (at ?t ?x) (at ?p ?x))
    :effect (and (not (at ?p ?x)) (in ?p ?t)))
  (:action unload :parameters (?p - parcel ?t - truck ?x - place)
    :precondition (and (at ?t ?x) (in ?p ?t))
    :effect (and (not (in ?p ?t)) (at ?p ?x)))
  (:action drive :parameters (?t - truck ?x ?y - place ?d ?k ?l - level)
    :precondition (and (at ?t ?x) (road ?x ?y) (takes ?x ?y ?d) (sum ?k ?d ?l) (fuel ?t ?l))
    :effect (and (not (at ?t ?x)) (at ?t ?y) (not (fuel ?t ?l)) (fuel ?t ?k))))
"""

LOGISTICS = """(define (domain logistics) (:requirements :typing)
  (:types place city mobile - object airport - place vehicle parcel - mobile truck plane - vehicle)
  (:predicates (part ?x - place ?c - city) (at ?m - mobile ?x - place) (in ?p - parcel ?v - vehicle))
  (:action load :parameters (?p - parcel ?v - vehicle ?x - place)
    :precondition (and (at ?v ?x) (at ?p ?x))
    :effect (and (not (at ?p ?x)) (in ?p ?v)))
  (:action unload :parameters (?p - parcel ?v - vehicle ?x - place)
    :precondition (and (at ?v ?x) (in ?p ?v))
    :effect (and (not (in ?p ?v)) (at ?p ?x)))
  (:action drive :parameters (?t - truck ?x ?y - place ?c - city)
    :precondition (and (at ?t ?x) (part ?x ?c) (part ?y ?c) (not (= ?x ?y)))
    :effect (and (not (at ?t ?x)) (at ?t ?y)))
  (:action fly :parameters (?a - plane ?x ?y - airport)
    :precondition (and (at ?a ?x) (not (= ?x ?y)))
    :effect (and (not (at ?a ?x)) (at ?a ?y))))
"""


STOPS = """(define (domain lift-stops) (:requirements :adl)
  (:types floor passenger)
  (:predicates (origin ?p - passenger ?f - floor) (destination ?p - passenger ?f - floor) (next ?f ?g - floor) (lift-at ?f - floor)
    (boarded ?p - passenger) (served ?p - passenger))
  (:action move :parameters (?f ?g - floor)
    :precondition (and (lift-at ?f) (or (next ?f ?g) (next ?g ?f)))
    :effect (and (not (lift-at ?f)) (lift-at ?g)))
  (:action stop :parameters (?f - floor)
    :precondition (and (lift-at ?f) (exists (?p - passenger) (or (origin ?p ?f) (destination ?p ?f))))
    :effect (forall (?p - passenger)
      (and (when (and (boarded ?p) (destination ?p ?f)) (and (not (boarded ?p)) (served ?p)))
           (when (and (origin ?p ?f) (not (served ?p))) (boarded ?p))))))
"""


def names(kind, count):
    return [f"{kind}{k}" for k in range(count)]


def typed(**kinds):
    """The objects of a problem, by their types."""
    return " ".join(f"{' '.join(them)} - {kind}" for kind, them in kinds.items())


def rising(predicate, line):
    """The atoms that say of neighbours in a line which is before the other."""
    return [f"({predicate} {low} {high})" for low, high in zip(line, line[1:])]


def tree(draw, points, more):
    """Pairs of points by which each is reached from each, and so many more."""
    pairs = [(draw.choice(points[:k]), points[k]) for k in range(1, len(points))]
    rest = [(a, b) for k, a in enumerate(points) for b in points[k + 1:] if (a, b) not in pairs]
    return pairs + draw.sample(rest, more)


def both_ways(pairs):
    return [*pairs, *((b, a) for a, b in pairs)]


def moved(draw, things, points):
    """For each of these things the atom that says where it is, and that of another place, where it is to be."""
    ways = [(thing, *draw.sample(points, 2)) for thing in things]
    return [f"(at {thing} {start})" for thing, start, _ in ways], [f"(at {thing} {end})" for thing, _, end in ways]


def transport(parcels, trucks, columns, rows, room, seed):
    """Trucks with room for so many parcels, on a grid of roads that differ in length."""
    draw = random.Random(seed)
    cells, pairs = grid(columns, rows)
    fleet, wares, sizes = names("t", trucks), names("p", parcels), names("s", room + 1)
    init, goal = moved(draw, wares, cells)
    lengths = {tuple(sorted(pair)): draw.randint(1, 20) for pair in pairs}
    for a, b in pairs:
        init += [f"(road {a} {b})", f"(= (length {a} {b}) {lengths[tuple(sorted((a, b)))]})"]
    init += [f"(at {truck} {draw.choice(cells)}) (room {truck} {sizes[-1]})" for truck in fleet] + rising("below", sizes)
    return TRANSPORT, problem("transport-by-length", typed(place=cells, truck=fleet, parcel=wares, size=sizes), init, goal, COST)


def zenotravel(people, planes, cities, seed):
    draw = random.Random(seed)
    towns, fleet, crowd, levels = names("c", cities), names("a", planes), names("p", people), names("l", 5)
    init, goal = moved(draw, crowd, towns)
    init += [f"(at {plane} {draw.choice(towns)}) (fuel {plane} {draw.choice(levels)})" for plane in fleet] + rising("below", levels)
    return ZENOTRAVEL, problem("zenotravel", typed(city=towns, plane=fleet, person=crowd, level=levels), init, goal)


def driverlog(parcels, drivers, trucks, places, seed):
    """Between some of the places there are roads for trucks and, by places between, paths for drivers."""
    draw = random.Random(seed)
    points, crew, fleet, wares = names("x", places), names("d", drivers), names("t", trucks), names("p", parcels)
    init, goal = moved(draw, wares, points)
    init += [f"(road {a} {b})" for a, b in both_ways(tree(draw, points, places // 2))]
    paths = tree(draw, points, 1)
    between = names("y", len(paths))
    for middle, pair in zip(between, paths):
        init += [f"(path {a} {middle}) (path {middle} {a})" for a in pair]
    init += [f"(at {truck} {draw.choice(points)}) (empty {truck})" for truck in fleet] + [f"(at {driver} {draw.choice(points)})" for driver in crew]
    goal += [f"(at {fleet[0]} {draw.choice(points)})", f"(at {crew[0]} {draw.choice(points)})"]
    return DRIVERLOG, problem("driverlog", typed(place=points + between, driver=crew, truck=fleet, parcel=wares), init, goal)


def elevators(passengers, floors, seed):
    """Two slow lifts, each for a half of the floors, and a fast one that stops at every other floor."""
    draw = random.Random(seed)
    storeys, crowd, counts = names("f", floors + 1), names("p", passengers), names("n", 4)
    half = floors // 2
    init, goal = moved(draw, crowd, storeys)
    init += rising("next", counts)
    # each a lift, where it stops, what a ride costs at least and for each floor, and how many it holds
    lifts = (("low", range(half + 1), 6, 1, 2), ("high", range(half, floors + 1), 6, 1, 2), ("fast", range(0, floors + 1, 2), 2, 3, 3))
    for lift, stops, least, each, most in lifts:
        init += [f"(at {lift} {storeys[draw.choice(stops)]}) (load {lift} n0)"] + [f"(holds {lift} {n})" for n in counts[1:most + 1]]
        init += [f"(stops {lift} {storeys[k]})" for k in stops]
        init += [f"(= (ride {lift} {storeys[a]} {storeys[b]}) {least + each * abs(a - b)})" for a in stops for b in stops if a != b]
    return ELEVATORS, problem("elevators", typed(floor=storeys, lift=["low", "high", "fast"], passenger=crowd, count=counts), init, goal, COST)


def nomystery(parcels, places, fuel, seed):
    """A truck that is not fuelled again; so there may be no plan."""
    draw = random.Random(seed)
    points, wares, levels = names("x", places), names("p", parcels), names("l", fuel + 1)
    init, goal = moved(draw, wares, points)
    for pair in tree(draw, points, places // 2):
        taken = draw.randint(1, 5)
        init += [f"(road {a} {b}) (takes {a} {b} l{taken})" for a, b in both_ways([pair])]
    init += [f"(sum l{k} l{d} l{k + d})" for d in range(1, 6) for k in range(fuel + 1 - d)]
    init += [f"(at t {draw.choice(points)}) (fuel t l{fuel})"]
    return NOMYSTERY, problem("nomystery", typed(place=points, truck=["t"], parcel=wares, level=levels), init, goal)


def logistics(parcels, cities, places, seed):
    """Cities of an airport and other places, each with a truck, and one plane."""
    draw = random.Random(seed)
    towns, wares, fleet = names("c", cities), names("p", parcels), names("t", cities)
    ports, points = [f"{town}-port" for town in towns], {town: [f"{town}-port", *names(f"{town}-x", places - 1)] for town in towns}
    init, goal = moved(draw, wares, [point for town in towns for point in points[town]])
    init += [f"(part {point} {town})" for town in towns for point in points[town]]
    init += [f"(at {truck} {draw.choice(points[town])})" for truck, town in zip(fleet, towns)] + [f"(at a {draw.choice(ports)})"]
    others = [point for town in towns for point in points[town][1:]]
    objects = typed(airport=ports, place=others, city=towns, truck=fleet, plane=["a"], parcel=wares)
    return LOGISTICS, problem("logistics", objects, init, goal)


def stops(passengers, height, seed):
    """A lift that lets all on and off where it stops, by conditional effects. It goes from a floor to the next."""
    draw = random.Random(seed)
    people, floors = names("p", passengers), names("f", height)
    init = [f"(lift-at {floors[0]})"] + [f"(next {low} {high})" for low, high in zip(floors, floors[1:])]
    for person in people:
        origin, destination = draw.sample(floors, 2)
        init += [f"(origin {person} {origin})", f"(destination {person} {destination})"]
    return STOPS, problem("lift-stops", typed(floor=floors, passenger=people), init, [f"(served {person})" for person in people])
