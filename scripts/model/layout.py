"""Limits, and where the parts of a record, of the state's image and of the register lie (docs/LAYOUT.md): each size is named here and nowhere else."""

FEWEST_SERVERS, MOST_SERVERS = 2, 8
LEAST_QUOTA, MOST_QUOTA = 1, 256
MOST_PAYLOAD = 48
MOST_INDEX = 4_000_000_000
# K6: indexes of actions and cuts; positions and lengths.
MOST_NUMBER = 65_535
MOST_LENGTH = MOST_SERVERS * MOST_NUMBER
MOST_PEGS, MOST_NAME = 4096, 24

# By their numbers.
MODES = ('Non_prim', 'Reg_prim', 'Trans_prim', 'Exchange_states', 'Exchange_actions', 'Construct', 'No', 'Un')

# Fields in their order, with their sizes in bytes.
LAST = (('last.index', 4), ('last.attempt', 4), ('last.set', 1))
MARK = (('mark.status', 1), ('mark.index', 4), ('mark.attempt', 4), ('mark.set', 1), ('mark.bits', 1))
ID = (('creator', 1), ('index', 2))
ACTION = ID + (('green', 4), ('white', 4), ('payload', 1))
FRAME = (('length', 2), ('version', 1), ('kind', 1))
STATE_FRONT = FRAME + (('sender', 1), ('id', 4))
STATE_REST = (('green', 4), ('attempt', 4)) + LAST + MARK + (('yellow.status', 1), ('yellow.count', 2))
HEADER = (
    (('layout', 1), ('servers', 1), ('quota', 2), ('me', 1), ('state', 1))
    + (('configuration.status', 1), ('configuration.id', 4), ('configuration.set', 1))
    + (('transitional.status', 1), ('transitional.set', 1))
    + (('states', 1), ('cpcs', 1), ('come', 4))
    + (('queue.count', 4), ('green', 4), ('numbered', 2), ('own.count', 2), ('sent', 2), ('attempt', 4))
    + LAST + MARK + (('yellow.status', 1), ('yellow.count', 2))
)

# The register: how many pegs there are, then a slot for each. A payload that it takes: what stands in front of the name, and where a peg is put.
PEG_COUNT = (('count', 2),)
PLACE = (('easting', 4), ('northing', 4))
PEG = (('length', 1), ('name', MOST_NAME)) + PLACE
OPERATION = (('operation', 1), ('length', 1))

# Fields of the header whose value every image has; another value is 8.
FIXED = {'layout': 11}


def size(fields):
    return sum(width for _, width in fields)


def places(fields, at=0):
    """Name to (offset, width)."""
    found = {}
    for name, width in fields:
        found[name] = (at, width)
        at += width
    return found


CUT, NOTED = 2, 4
SLOT = size(ACTION) + MOST_PAYLOAD
RETRANSMISSION_HEAD = 1 + 4
# A retransmission with the longest payload.
MOST_RETRANSMISSION = size(FRAME) + RETRANSMISSION_HEAD + SLOT


def state_slot(n, q):
    return size(STATE_FRONT) + CUT * n + size(STATE_REST) + size(ID) * n * q


def sections(n, q):
    """Name to (offset, size of an entry)."""
    sizes = (
        ('cuts', CUT, n), ('noted', NOTED, n), ('State', state_slot(n, q), n),
        ('yellow', size(ID), n * q), ('own', SLOT, q), ('queue', SLOT, n * q), ('end', 0, 0),
    )
    found, at = {}, size(HEADER)
    for name, entry, count in sizes:
        found[name] = (at, entry)
        at += entry * count
    return found


def state_length(n, q):
    return sections(n, q)['end'][0]


def out_length(n, q):
    return 2 * MOST_RETRANSMISSION * n * q


def most_planned(n):
    """How many retransmissions can be planned."""
    return MOST_LENGTH + n * MOST_NUMBER


REGISTER_LENGTH = size(PEG_COUNT) + size(PEG) * MOST_PEGS


def in_register(name):
    """(offset, width) of a part of the register by its name: `count`, or a slot's number and its field, as `0`, `2.length`, `2.name`, `2.name.23`."""
    if name == 'count':
        return places(PEG_COUNT)[name]
    peg, *words = name.split('.')
    at = size(PEG_COUNT) + size(PEG) * int(peg)
    if not words:
        return (at, size(PEG))
    offset, width = places(PEG)[words[0]]
    return (at + offset + int(words[1]), 1) if words[1:] else (at + offset, width)


def sizes_ok(n, q):
    return FEWEST_SERVERS <= n <= MOST_SERVERS and LEAST_QUOTA <= q <= MOST_QUOTA


def in_state_record(n, words):
    """The place of a field of a State's record with n cuts: a name, `cuts.C` or `ids.K.FIELD`."""
    rest_at = size(STATE_FRONT) + CUT * n
    if words[0] == 'cuts':
        return (size(STATE_FRONT) + CUT * int(words[1]), CUT)
    if words[0] == 'ids':
        return in_entry(rest_at + size(STATE_REST) + size(ID) * int(words[1]), ID, size(ID), words[2:])
    return {**places(STATE_FRONT), **places(STATE_REST, rest_at)}['.'.join(words)]


def in_entry(at, fields, whole, words):
    """The place of a field of an entry, of a byte of its payload, or of the entry."""
    if not words:
        return (at, whole)
    if words[0] == 'byte':
        return (at + size(fields) + int(words[1]), 1)
    offset, width = places(fields)[words[0]]
    return (at + offset, width)


def place(n, q, name):
    """(offset, width) of a part of the image by its name, as `me`, `cuts.1`, `State.0.mark.set`, `queue.2.index`, `own.0.byte.47`."""
    header = places(HEADER)
    if name in header:
        return header[name]
    words = name.split('.')
    at, entry = sections(n, q)[words[0]]
    at += entry * int(words[1])
    if words[0] == 'State':
        if not words[2:]:
            return (at, entry)
        offset, width = in_state_record(n, words[2:])
        return (at + offset, width)
    fields = {'cuts': (), 'noted': (), 'yellow': ID, 'own': ACTION, 'queue': ACTION}[words[0]]
    return in_entry(at, fields, entry, words[2:])
