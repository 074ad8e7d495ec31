"""Thirty tasks of twenty-three domains, at sizes that `solve` did not answer in ten seconds of a processor when they were chosen:
`bench/ten-seconds --larger` says which of them it answers today."""

from more_potential_tasks import barman, depots, rovers, satellite, storage, termes, tpp
from potential_tasks import ferry, miconic
from stage_tasks import floortile, freecell, parking, woodworking
from symmetric_tasks import lifts
from tasks import blocks, hanoi, tiles
from vehicle_tasks import driverlog, elevators, logistics, nomystery, stops, transport, zenotravel


def texts(task):
    return task.domain, task.problem


# each a title, the domain's text and the problem's
TASKS = [
    ("logistics, 11 parcels, 3 cities", *logistics(11, 3, 2, 2)),
    ("transport, 7 parcels, 2 trucks", *transport(7, 2, 3, 3, 2, 2)),
    ("transport, 7 parcels, 4x3", *transport(7, 1, 4, 3, 2, 3)),
    ("zenotravel, 9 people, 3 planes", *zenotravel(9, 3, 5, 2)),
    ("zenotravel, 10 people, 2 planes", *zenotravel(10, 2, 6, 4)),
    ("driverlog, 11 parcels, 3 trucks", *driverlog(11, 2, 3, 9, 3)),
    ("elevators, 7 passengers, 9 floors", *elevators(7, 8, 2)),
    ("elevators, 7 passengers, 13 floors", *elevators(7, 12, 3)),
    ("nomystery, 12 parcels, 9 places", *nomystery(12, 9, 40, 2)),
    ("miconic, 19 passengers", *miconic(19, 20, 1)),
    ("lift that stops, 18 passengers", *stops(18, 26, 1)),
    ("rovers, 4 of 10 places", *rovers(4, 10, 2)),
    ("satellite, 3 of 11 directions", *satellite(3, 11, 9, 1)),
    ("satellite, 3 of 15 directions", *satellite(3, 15, 13, 2)),
    ("tpp, 12 goods, 4 markets", *tpp(12, 4, 3)),
    ("depots, 9 crates, 4 places", *depots(9, 4, 2)),
    ("depots, 10 crates, 3 places", *depots(10, 3, 3)),
    ("storage, 8 crates", *storage(8, 4, 4)),
    ("barman, 4 cocktails, 4 shots", *barman(4, 4, 3)),
    ("woodworking, 8 parts", *woodworking(8, 1)),
    ("floortile, 6x3", *floortile(6, 3, 1)),
    ("floortile, 5x3, 2 robots", *floortile(5, 3, 2)),
    ("parking, 11 cars", *parking(11, 6, 4)),
    ("freecell, 36 cards", *freecell(9, 4, 6, 2, 1)),
    ("termes, 3 towers of 2 to 3", *termes(5, 3, {"c4-2": 3, "c4-1": 3, "c3-1": 2})),
    ("ferry, 18 cars", *ferry(18, 4)),
    ("blocks, 12", *texts(blocks(12, 0))),
    ("Hanoi, 16 discs", *texts(hanoi(16, 0))),
    ("tiles, 4x3", *texts(tiles(4, 3, 0))),
    ("4 lifts alike, 6 passengers", *lifts(4, 6, 8, 1)),
]
