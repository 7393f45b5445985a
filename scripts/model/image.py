"""The state's image in its buffer: the start's, and what the state check answers of any bytes (rows 7 and 8; docs/DECISIONS.md, 31 to 34)."""
from . import layout
from .exchange import has, planned
from .layout import ACTION, HEADER, MODES, MOST_INDEX, MOST_LENGTH, MOST_NUMBER, MOST_PAYLOAD, most_planned, size
from .records import Context, Refused, id_ok, read, unpacked


def start(n, q, me):
    data = bytearray(layout.state_length(n, q))
    values = {**layout.FIXED, 'servers': n, 'quota': q, 'me': me, 'last.set': (1 << n) - 1}
    for name, value in values.items():
        put(data, layout.places(HEADER)[name], value)
    return data


def put(data, place, value):
    at, width = place
    data[at:at + width] = value.to_bytes(width, 'big')


def fields(data, names, at):
    return dict(zip((name for name, _ in names), unpacked(names, data, at)))


class View:
    """An image's header as numbers, and its sections."""

    def __init__(self, data):
        self.data, self.h = data, fields(data, HEADER, 0)
        self.n, self.q, self.me = self.h['servers'], self.h['quota'], self.h['me']
        self.all = self.n * self.q

    def at(self, section, k=0):
        at, entry = layout.sections(self.n, self.q)[section]
        return at + entry * k

    def context(self):
        return Context(self.n, self.q, self.me)

    def cut(self, c):
        at = self.at('cuts', c)
        return int.from_bytes(self.data[at:at + layout.CUT], 'big')


def set_ok(v, s):
    return s < 1 << v.n


def pair_ok(v, name):
    return v.h[name + '.index'] <= MOST_INDEX and v.h[name + '.attempt'] <= MOST_INDEX and set_ok(v, v.h[name + '.set'])


def configurations_ok(v):
    h = v.h
    regular, transitional = h['configuration.set'], h['transitional.set']
    if h['configuration.status'] > 1 or h['transitional.status'] > 1:
        return False
    if h['configuration.status'] == 0:
        if h['configuration.id'] != 0 or regular != 0:
            return False
    elif not set_ok(v, regular) or not has(regular, v.me):
        return False
    if h['transitional.status'] == 0:
        return transitional == 0
    inside = h['configuration.status'] == 0 or transitional & ~regular == 0
    return set_ok(v, transitional) and has(transitional, v.me) and inside


def header_ok(v):
    h = v.h
    return (all(h[name] == value for name, value in layout.FIXED.items()) and v.me < v.n and configurations_ok(v)
            and h['states'] & ~h['configuration.set'] == 0 and set_ok(v, h['cpcs']) and h['come'] <= most_planned(v.n)
            and h['queue.count'] <= v.all and h['green'] <= h['queue.count'] and h['own.count'] <= v.q and h['numbered'] <= MOST_NUMBER
            and h['sent'] <= h['numbered'] and h['attempt'] <= MOST_INDEX and pair_ok(v, 'last')
            and h['mark.status'] <= 1 and pair_ok(v, 'mark') and set_ok(v, h['mark.bits'])
            and h['yellow.status'] <= 1 and h['yellow.count'] <= v.all)


def filled(v, at):
    """A payload behind its length, and zeros behind it."""
    length = v.data[at]
    return length <= MOST_PAYLOAD and not any(v.data[at + 1 + length:at + 1 + MOST_PAYLOAD])


def cuts_ok(v):
    cuts = [v.cut(c) for c in range(v.n)]
    noted = unpacked((('noted', layout.NOTED),) * v.n, v.data, v.at('noted'))
    # "Number 8 counts white actions as held": what the cuts count and the queue lacks is white.
    return (all(c <= MOST_NUMBER for c in cuts) and sum(cuts) >= v.h['queue.count'] and cuts[v.me] + v.h['own.count'] == v.h['numbered']
            and all(k <= MOST_LENGTH for k in noted))


def ids_ok(v, ids):
    return all(id_ok(v.context(), d) for d in ids) and len(set(ids)) == len(ids)


def slots(v, section, count):
    """The ids of so many actions, or None where one's numbers or filling are wrong."""
    ids = []
    for k in range(count):
        at = v.at(section, k)
        a = fields(v.data, ACTION, at)
        if a['green'] > MOST_LENGTH or a['white'] > MOST_LENGTH or not filled(v, at + size(ACTION) - 1):
            return None
        ids.append((a['creator'], a['index']))
    return ids


def lists_ok(v):
    yellow = [tuple(unpacked(layout.ID, v.data, v.at('yellow', k))) for k in range(v.h['yellow.count'])]
    own, queue = slots(v, 'own', v.h['own.count']), slots(v, 'queue', v.h['queue.count'])
    if not ids_ok(v, yellow) or own is None or queue is None:
        return False
    cut, unwhite = v.cut(v.me), [sum(c == k for c, _ in queue) for k in range(v.n)]
    return (own == [(v.me, cut + 1 + k) for k in range(len(own))] and ids_ok(v, queue) and all(i <= v.cut(c) for c, i in queue)
            and all(k <= v.q for k in unwhite) and unwhite[v.me] + len(own) <= v.q)


def collected(v):
    """The States that are in, or None where one does not read or is another's or of another configuration."""
    found = []
    for k in range(v.n):
        if has(v.h['states'], k):
            at = v.at('State', k)
            end = min(at + 2 + int.from_bytes(v.data[at:at + 2], 'big'), v.at('State', k + 1))
            try:
                r = read(v.context(), bytes(v.data[at:end]))
            except Refused:
                return None
            if r.kind != 'State' or r.sender != k or r.id != v.h['configuration.id']:
                return None
            found.append(r)
    return found


def mode_ok(v, states):
    if v.h['state'] >= len(MODES):
        return False
    mode = MODES[v.h['state']]
    if mode != 'Non_prim' and v.h['configuration.status'] == 0:
        return False
    if mode == 'Exchange_actions':
        return v.h['configuration.set'] & ~v.h['states'] == 0 and v.h['come'] < planned(v.n, states)
    return mode not in ('Construct', 'No', 'Un') or v.h['last.index'] < MOST_INDEX


def state_number(data, out_size):
    """What the state check answers: 7, 8 or 0."""
    v = View(data)
    known = size(HEADER) <= len(data) and layout.sizes_ok(v.n, v.q)
    n, q = (v.n, v.q) if known else (layout.FEWEST_SERVERS, layout.LEAST_QUOTA)
    if len(data) < layout.state_length(n, q) or out_size < layout.out_length(n, q):
        return 7
    if not known or not header_ok(v) or not cuts_ok(v) or not lists_ok(v):
        return 8
    states = collected(v)
    return 0 if states is not None and mode_ok(v, states) else 8
