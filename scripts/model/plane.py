"""Pegs in the plane (document 02, K5): those of a region, and the nearest one, in whole numbers of any size. What the exported functions answer."""
from . import register
from .layout import REGISTER_LENGTH


def squared(a, b):
    return (a[0] - b[0]) ** 2 + (a[1] - b[1]) ** 2


def region(buffer, answer, is_inside, sides_rise=True):
    """The number, and the answer's buffer behind it."""
    pegs = 7 if len(answer) < REGISTER_LENGTH else register.read(buffer)
    if isinstance(pegs, int):
        return pegs, answer
    if not sides_rise:
        return 12, answer
    return 0, register.written({name: place for name, place in pegs.items() if is_inside(place)}, answer)


def rectangle(buffer, answer, west, south, east, north):
    return region(buffer, answer, lambda p: west <= p[0] <= east and south <= p[1] <= north, west <= east and south <= north)


def radius(buffer, answer, easting, northing, most):
    return region(buffer, answer, lambda p: squared(p, (easting, northing)) <= most ** 2)


def nearest(buffer, easting, northing):
    """The number, whether there is one, which one it is, and its place."""
    pegs = register.read(buffer)
    if isinstance(pegs, int):
        return pegs, 0, 0, 0, 0
    if not pegs:
        return 0, 0, 0, 0, 0
    name = min(pegs, key=lambda name: (squared(pegs[name], (easting, northing)), name))
    return (0, 1, sorted(pegs).index(name), *pegs[name])
