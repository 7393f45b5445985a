"""Questions on a register, drawn: coordinates at the ends of the range, at pegs and beside them, and anywhere; radii that just reach a peg, and just not."""
from math import isqrt

LOWEST, HIGHEST, MOST_RADIUS = -2 ** 31, 2 ** 31 - 1, 2 ** 32 - 1


class Draws:
    """The same row of numbers for a seed, everywhere."""

    def __init__(self, seed):
        self.state = seed

    def below(self, n):
        self.state = (self.state * 6364136223846793005 + 1442695040888963407) % 2 ** 64
        return (self.state >> 32) % n

    def one(self, values):
        return values[self.below(len(values))]


def bounded(low, value, high):
    return max(low, min(value, high))


def coordinate(draws, places, axis):
    kind = draws.below(8)
    if kind == 0:
        return draws.one((LOWEST, LOWEST + 1, -1, 0, 1, HIGHEST - 1, HIGHEST))
    if kind == 1:
        return draws.below(2 ** 32) + LOWEST
    return bounded(LOWEST, draws.one(places)[axis] + draws.below(3) - 1, HIGHEST)


def point(draws, places):
    return coordinate(draws, places, 0), coordinate(draws, places, 1)


def sides(draws, places):
    """Mostly a rectangle; sometimes a low side exceeds its high side."""
    (west, south), (east, north) = point(draws, places), point(draws, places)
    if draws.below(8):
        (west, east), (south, north) = sorted((west, east)), sorted((south, north))
    return west, south, east, north


def reach(draws, places, centre):
    if draws.below(4) == 0:
        return draws.one((0, 1, MOST_RADIUS, draws.below(2 ** 32)))
    peg = draws.one(places)
    exact = isqrt((peg[0] - centre[0]) ** 2 + (peg[1] - centre[1]) ** 2)
    return bounded(0, exact + draws.below(3) - 1, MOST_RADIUS)


def drawn(count, seed, places):
    """Names of questions, and their numbers."""
    draws = Draws(seed)
    for _ in range(count):
        kind = draws.one(('inside', 'within', 'nearest'))
        if kind == 'inside':
            yield kind, sides(draws, places)
            continue
        centre = point(draws, places)
        yield kind, centre + (reach(draws, places, centre),) if kind == 'within' else centre
