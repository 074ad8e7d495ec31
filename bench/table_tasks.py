"""Tasks of twenty domains of planning competitions, most of them two of each, and of one with conditional effects, for which
`solve` looks for values over tables: by potentials alone it expands more than 50,000 states of each, in some fifteen seconds at
most."""

from more_potential_tasks import barman, depots, rovers, satellite, storage, termes, tpp
from potential_tasks import miconic
from stage_tasks import floortile, freecell, keys_on_grid, parking, woodworking
from tasks import blocks
from vehicle_tasks import driverlog, elevators, logistics, nomystery, stops, transport, zenotravel


def texts(task):
    return task.domain, task.problem


# each a title, the domain's text and the problem's
TASKS = [
    ("logistics, 5 parcels, 3 cities", *logistics(5, 3, 2, 2)),
    ("logistics, 6 parcels, 2 cities", *logistics(6, 2, 3, 1)),
    ("transport, 5 parcels, 2 trucks", *transport(5, 2, 3, 3, 2, 2)),
    ("transport, 5 parcels, 4x3", *transport(5, 1, 4, 3, 2, 3)),
    ("zenotravel, 7 people, a plane", *zenotravel(7, 1, 5, 2)),
    ("zenotravel, 7 people, 2 planes", *zenotravel(7, 2, 4, 4)),
    ("driverlog, 5 parcels, 2 trucks", *driverlog(5, 2, 2, 6, 3)),
    ("driverlog, 6 parcels, 2 trucks", *driverlog(6, 3, 2, 5, 4)),
    ("elevators, 4 passengers, 9 floors", *elevators(4, 8, 3)),
    ("elevators, 5 passengers, 9 floors", *elevators(5, 8, 2)),
    ("nomystery, 6 parcels", *nomystery(6, 7, 25, 2)),
    ("nomystery, 7 parcels", *nomystery(7, 7, 25, 4)),
    ("miconic, 8 passengers", *miconic(8, 10, 1)),
    ("miconic, 9 passengers", *miconic(9, 10, 2)),
    # by conditional effects
    ("lift that stops, 12 passengers", *stops(12, 20, 1)),
    ("lift that stops, 14 passengers", *stops(14, 22, 3)),
    ("rovers, 2 of 4 places", *rovers(2, 4, 2)),
    ("rovers, 2 of 6 places", *rovers(2, 6, 1)),
    ("satellite, 2 of 9 directions", *satellite(2, 9, 7, 3)),
    ("satellite, 3 of 8 directions", *satellite(3, 8, 6, 1)),
    ("tpp, 6 goods", *tpp(6, 3, 3)),
    ("tpp, 7 goods", *tpp(7, 3, 2)),
    ("depots, 6 crates", *depots(6, 4, 2)),
    ("depots, 7 crates", *depots(7, 3, 3)),
    ("storage, 6 crates", *storage(6, 4, 3)),
    ("barman, 2 cocktails, 3 shots", *barman(2, 3, 3)),
    ("barman, 3 cocktails, 3 shots", *barman(3, 3, 3)),
    ("woodworking, 5 parts", *woodworking(5, 1)),
    ("woodworking, 6 parts", *woodworking(6, 4)),
    ("floortile, 3x3", *floortile(3, 3, 1)),
    ("floortile, 4x2", *floortile(4, 2, 2)),
    ("parking, 10 cars", *parking(10, 6, 4)),
    ("parking, 10 other cars", *parking(10, 6, 7)),
    ("freecell, 24 cards", *freecell(6, 4, 5, 2, 5)),
    ("freecell, 28 cards", *freecell(7, 4, 6, 2, 1)),
    ("grid, 5 keys, 4x4", *keys_on_grid(4, 4, 5, 4, 1)),
    ("grid, 4 keys, 5x4", *keys_on_grid(5, 4, 4, 4, 2)),
    ("blocks, 9", *texts(blocks(9, 0))),
    ("blocks, 10", *texts(blocks(10, 0))),
    ("termes, 3 towers of 1 to 3", *termes(4, 3, {"c3-2": 3, "c3-1": 2, "c2-1": 1})),
    # no plan: what is put down as a ramp stays
    ("termes, 2 towers of 3, no plan", *termes(3, 3, {"c2-1": 3, "c1-2": 3})),
]
