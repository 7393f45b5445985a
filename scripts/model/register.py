"""The register that payloads make (document 02, K2), as a dict of names to places, and its image in a lent buffer (docs/LAYOUT.md)."""
import struct

from .layout import MOST_NAME, MOST_PEGS, REGISTER_LENGTH

SET, MOVE, RETIRE = 1, 2, 3
KINDS = {'set': SET, 'move': MOVE, 'retire': RETIRE}
COUNT, SLOT, PLACE = struct.Struct('>H'), struct.Struct('>B%dsii' % MOST_NAME), struct.Struct('>ii')


def payload(kind, name, place=()):
    return bytes([kind, len(name)]) + name + (PLACE.pack(*place) if place else b'')


def operation(data):
    """(operation byte, name, place) of a payload, or None where it is no operation."""
    if len(data) < 2 or data[0] not in (SET, MOVE, RETIRE) or not 1 <= data[1] <= MOST_NAME:
        return None
    kind, name, place = data[0], data[2:2 + data[1]], data[2 + data[1]:]
    if len(name) != data[1] or len(place) != (0 if kind == RETIRE else PLACE.size):
        return None
    return kind, name, () if kind == RETIRE else PLACE.unpack(place)


def refusal(pegs, done):
    """The number of an operation on a register."""
    if done is None:
        return 11
    kind, name, _ = done
    if kind != SET:
        return 0 if name in pegs else 10
    return 9 if name in pegs else 13 if len(pegs) == MOST_PEGS else 0


def slot(name, place):
    return SLOT.pack(len(name), name, *place)


def folded(pegs, payloads):
    """The register after these payloads, the number of each, and what slots hold that went out of use, by their places."""
    pegs, numbers, left = dict(pegs), [], {}
    for done in map(operation, payloads):
        numbers.append(refusal(pegs, done))
        if numbers[-1]:
            continue
        kind, name, place = done
        if kind == RETIRE:
            left[len(pegs) - 1] = max(pegs.items())
            del pegs[name]
        else:
            pegs[name] = place
    return pegs, numbers, left


def table(pegs):
    """As `sheet` prints it (examples/c/sheet.c), of names that are printable."""
    def metres(k):
        return '%s%d.%03d' % ('-' * (k < 0), abs(k) // 1000, abs(k) % 1000)

    shown = [('"%s"' % name.decode(), *map(metres, place)) for name, place in sorted(pegs.items())]
    widest = max(map(len, ['name'] + [name for name, *_ in shown]))
    return ['%-*s  %12s  %12s' % (widest, *row) for row in [('name', 'easting (m)', 'northing (m)')] + shown]


def used(pegs):
    """The bytes of a register, those behind its last slot left out."""
    return COUNT.pack(len(pegs)) + b''.join(slot(*peg) for peg in sorted(pegs.items()))


def written(pegs, buffer, left=()):
    """What is behind the last slot stays."""
    data = bytearray(buffer)
    for k, peg in left:
        at = COUNT.size + SLOT.size * k
        data[at:at + SLOT.size] = slot(*peg)
    data[:len(used(pegs))] = used(pegs)
    return bytes(data)


def read(buffer):
    """The register in a buffer: 7 or 8, where there is none, and else its pegs."""
    if len(buffer) < REGISTER_LENGTH:
        return 7
    count = COUNT.unpack_from(buffer)[0]
    if count > MOST_PEGS:
        return 8
    slots = list(SLOT.iter_unpack(buffer[COUNT.size:COUNT.size + SLOT.size * count]))
    names = [name[:k] for k, name, *_ in slots]
    if any(not 1 <= k <= MOST_NAME or any(name[k:]) for k, name, *_ in slots) or names != sorted(set(names)):
        return 8
    return dict(zip(names, (tuple(place) for _, _, *place in slots)))


# ---- what the exported functions answer

def start(buffer):
    return (7, buffer) if len(buffer) < REGISTER_LENGTH else (0, written({}, buffer))


def apply(buffer, *payloads):
    """The number of each payload in its turn, and the buffer in the end."""
    pegs = read(buffer)
    if isinstance(pegs, int):
        return [pegs for _ in payloads], buffer
    after, numbers, left = folded(pegs, payloads)
    return numbers, written(after, buffer, left.items())


def find(buffer, name):
    """The number, whether the peg is there, which one it is, and its place."""
    pegs = read(buffer)
    if isinstance(pegs, int):
        return pegs, 0, 0, 0, 0
    return (0, 1, sorted(pegs).index(name), *pegs[name]) if name in pegs else (0, 0, 0, 0, 0)
