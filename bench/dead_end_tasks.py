"""Ten tasks without a plan. Of the last one no potential function tells so, and of the one before not at the start."""

from tasks import TILES, problem

BOTTLENECK = """(define (domain bottleneck)
  (:predicates (walker ?w) (near ?a ?b) (at ?w ?a) (free ?a))
  (:action move :parameters (?w ?a ?b)
    :precondition (and (walker ?w) (near ?a ?b) (at ?w ?a) (free ?b))
    :effect (and (not (at ?w ?a)) (at ?w ?b) (not (free ?b)))))
"""

PEBBLING = """(define (domain pebbling)
  (:predicates (corner ?a ?right ?up) (pebble ?a))
  (:action split :parameters (?a ?right ?up)
    :precondition (and (corner ?a ?right ?up) (pebble ?a) (not (pebble ?right)) (not (pebble ?up)))
    :effect (and (not (pebble ?a)) (pebble ?right) (pebble ?up))))
"""

DELIVERY = """(define (domain delivery)
  (:predicates (parcel ?p) (slot ?s ?v) (waits ?p) (free ?s) (in ?p ?s) (brought ?p) (home ?v) (away ?v))
  (:action load :parameters (?p ?s ?v)
    :precondition (and (parcel ?p) (slot ?s ?v) (waits ?p) (free ?s) (home ?v))
    :effect (and (not (waits ?p)) (not (free ?s)) (in ?p ?s)))
  (:action leave :parameters (?v)
    :precondition (home ?v)
    :effect (and (not (home ?v)) (away ?v)))
  (:action unload :parameters (?p ?s ?v)
    :precondition (and (parcel ?p) (slot ?s ?v) (in ?p ?s) (away ?v))
    :effect (and (not (in ?p ?s)) (brought ?p))))
"""

LAMPS = """(define (domain lamps)
  (:predicates (lamp ?l) (on ?l) (fuel))
  (:action flip :parameters (?l) :precondition (and (lamp ?l) (not (on ?l))) :effect (on ?l))
  (:action drain :parameters () :precondition (fuel) :effect (not (fuel))))
"""

ROUTE = """(define (domain route)
  (:predicates (road ?a ?b) (at ?a) (full ?c) (can ?c))
  (:action drive :parameters (?a ?b ?c)
    :precondition (and (road ?a ?b) (at ?a) (can ?c) (full ?c))
    :effect (and (not (at ?a)) (at ?b) (not (full ?c)))))
"""

TOUR = """(define (domain tour)
  (:predicates (near ?a ?b) (at ?a) (seen ?a))
  (:action step :parameters (?a ?b)
    :precondition (and (near ?a ?b) (at ?a) (not (seen ?b)))
    :effect (and (not (at ?a)) (at ?b) (seen ?b))))
"""

DOMINOES = """(define (domain dominoes)
  (:predicates (near ?a ?b) (covered ?a))
  (:action place :parameters (?a ?b)
    :precondition (and (near ?a ?b) (not (covered ?a)) (not (covered ?b)))
    :effect (and (covered ?a) (covered ?b))))
"""

SOLDIERS = """(define (domain soldiers)
  (:predicates (line ?a ?b ?c) (peg ?a))
  (:action jump :parameters (?a ?b ?c)
    :precondition (and (line ?a ?b ?c) (peg ?a) (peg ?b) (not (peg ?c)))
    :effect (and (not (peg ?a)) (not (peg ?b)) (peg ?c))))
"""

TANK = """(define (domain tank)
  (:predicates (switch ?s) (on ?s) (next ?l ?m) (level ?l))
  (:action toggle :parameters (?x ?y)
    :precondition (and (switch ?x) (switch ?y) (not (= ?x ?y)))
    :effect (and (when (on ?x) (not (on ?x))) (when (not (on ?x)) (on ?x))
                 (when (on ?y) (not (on ?y))) (when (not (on ?y)) (on ?y))))
  (:action drain :parameters (?l ?m)
    :precondition (and (next ?l ?m) (level ?l))
    :effect (and (not (level ?l)) (level ?m))))
"""


def cells(columns, rows):
    return [(x, y) for y in range(rows) for x in range(columns)]


def name(cell):
    return f"c{cell[0]}-{cell[1]}"


def beside(board):
    """The facts on which cells are next to each other, both ways."""
    steps = ((1, 0), (-1, 0), (0, 1), (0, -1))
    return [f"(near {name((x, y))} {name((x + dx, y + dy))})" for x, y in board for dx, dy in steps if (x + dx, y + dy) in board]


def bottleneck(columns, rows):
    """Walkers from the first column to the last, over cells that bear one step each; one cell of the column between is missing."""
    gap = (columns // 2, 0)
    board = [it for it in cells(columns, rows) if it != gap]
    walkers = [f"w{k}" for k in range(rows)]
    init = beside(board) + [f"(walker {w}) (at {w} {name((0, y))})" for y, w in enumerate(walkers)]
    init += [f"(free {name(it)})" for it in board if it[0] > 0]
    goal = [f"(at {w} {name((columns - 1, y))})" for y, w in enumerate(walkers)]
    return BOTTLENECK, problem("bottleneck", " ".join([*map(name, board), *walkers]), init, goal)


def pebbling(size, diagonals):
    """A pebble on the first corner of a board splits into one beside it and one above; the cells near that corner are to be empty."""
    board = cells(size, size)
    init = [f"(corner {name((x, y))} {name((x + 1, y))} {name((x, y + 1))})" for x, y in board if x + 1 < size and y + 1 < size]
    goal = [f"(not (pebble {name((x, y))}))" for x, y in board if x + y < diagonals]
    return PEBBLING, problem("pebbling", " ".join(map(name, board)), ["(pebble c0-0)", *init], goal)


def delivery(parcels, vans):
    """Vans that leave once, with room for two parcels each; one parcel is too many."""
    slots = [(f"s{k}", f"v{k // 2}") for k in range(2 * vans)]
    objects = [f"p{k}" for k in range(parcels)] + [s for s, _ in slots] + [f"v{k}" for k in range(vans)]
    init = [f"(parcel p{k}) (waits p{k})" for k in range(parcels)] + [f"(slot {s} {v}) (free {s})" for s, v in slots]
    return DELIVERY, problem("delivery", " ".join(objects), init + [f"(home v{k})" for k in range(vans)], [f"(brought p{k})" for k in range(parcels)])


def lamps(count):
    """All lamps are to be lit with fuel left, of which there is none."""
    names = [f"l{k}" for k in range(count)]
    return LAMPS, problem("lamps", " ".join(names), [f"(lamp {it})" for it in names], ["(fuel)", *(f"(on {it})" for it in names)])


def route(columns, rows, cans):
    """From one corner of a town to the other, on fewer cans than the way is long."""
    board = cells(columns, rows)
    names = [f"can{k}" for k in range(cans)]
    init = [it.replace("near", "road") for it in beside(board)] + [f"(can {it}) (full {it})" for it in names]
    return ROUTE, problem("route", " ".join([*map(name, board), *names]), ["(at c0-0)", *init], [f"(at {name(board[-1])})"])


def tour(columns, rows):
    """Each cell of a board of an odd number is to be seen once, from a start of the colour that has fewer cells."""
    board = cells(columns, rows)
    return TOUR, problem("tour", " ".join(map(name, board)), ["(at c1-0) (seen c1-0)", *beside(board)], [f"(seen {name(it)})" for it in board])


def dominoes(columns, rows):
    """A board without two opposite corners is to be covered by dominoes."""
    board = cells(columns, rows)[1:-1]
    return DOMINOES, problem("dominoes", " ".join(map(name, board)), beside(board), [f"(covered {name(it)})" for it in board])


def soldiers(columns, rows, height, pegs):
    """Pegs below a line that jump over each other: one is to come this high above the line, for which they are too few."""
    board = cells(columns, rows + height)
    lines = [((x, y), (x + dx, y + dy), (x + 2 * dx, y + 2 * dy)) for x, y in board for dx, dy in ((1, 0), (-1, 0), (0, 1), (0, -1))]
    init = [f"(line {name(a)} {name(b)} {name(c)})" for a, b, c in lines if c in board]
    middle = columns // 2
    nearest = sorted((it for it in board if it[1] < rows), key=lambda it: (abs(it[0] - middle) + rows - it[1], it))
    init += [f"(peg {name(it)})" for it in nearest[:pegs]]
    return SOLDIERS, problem("soldiers", " ".join(map(name, board)), init, [f"(peg {name((middle, rows + height - 1))})"])


def tank(switches, levels):
    """Switches that are changed two by two, of which one alone is to be on, while a tank that may leak stays full."""
    names, steps = [f"s{k}" for k in range(switches)], [f"l{k}" for k in range(levels)]
    init = [f"(switch {it})" for it in names] + [f"(next {a} {b})" for a, b in zip(steps, steps[1:])] + ["(level l0)"]
    goal = ["(level l0)", "(on s0)", *(f"(not (on {it}))" for it in names[1:])]
    return TANK, problem("tank", " ".join(names + steps), init, goal)


def odd_tiles(columns, rows):
    """Sliding tiles of which two are to be swapped, which no even number of moves does."""
    board = cells(columns, rows)
    names = [f"t{k}" for k in range(1, columns * rows)]
    init = [f"(cell {name(it)})" for it in board] + [it.replace("near", "next") for it in beside(board)]
    init += [f"(tile {t}) (at {t} {name(it)})" for t, it in zip(names, board)] + [f"(blank {name(board[-1])})"]
    goal = [f"(at {t} {name(it)})" for t, it in zip([names[1], names[0], *names[2:]], board)]
    return TILES, problem("tiles", " ".join([*names, *map(name, board)]), init, goal)


TASKS = [
    ("bottleneck, 4 walkers", *bottleneck(5, 4)),
    ("chessboard pebbling, 5x5", *pebbling(5, 3)),
    ("delivery, 5 parcels in 2 vans", *delivery(5, 2)),
    ("lamps without fuel, 16", *lamps(16)),
    ("route of 8 roads on 7 cans", *route(5, 5, 7)),
    ("tour of a 5x5 board", *tour(5, 5)),
    ("dominoes on a 4x4 board", *dominoes(4, 4)),
    ("soldiers, 7 for a height of 3", *soldiers(7, 3, 3, 7)),
    ("tank of 6 levels, 8 switches", *tank(8, 6)),
    ("tiles, 3x3, of odd parity", *odd_tiles(3, 3)),
]
