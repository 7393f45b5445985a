"""Records: their fields, their bytes, and how they are read (document 01, 'Records'; docs/DECISIONS.md, 1 to 7)."""
from dataclasses import dataclass

from . import layout
from .layout import ACTION, CUT, FRAME, ID, LAST, MARK, MOST_INDEX, MOST_LENGTH, MOST_NUMBER, MOST_PAYLOAD, RETRANSMISSION_HEAD, STATE_FRONT, STATE_REST, size

VERSION = 2
KINDS = ('', 'action', 'retransmission', 'State', 'CPC', 'regular', 'transitional', 'request', 'recovery', 'setup')


@dataclass
class Context:
    servers: int
    quota: int
    me: int
    configured: int = 0
    last: int = 0


@dataclass
class Record:
    """One of the eight kinds; a field that a kind does not have is left as it is here."""
    kind: str
    sender: int = 0
    position: int = 0
    creator: int = 0
    index: int = 0
    green: int = 0
    white: int = 0
    payload: bytes = b''
    id: int = 0
    set: int = 0
    cuts: tuple = ()
    attempt: int = 0
    last: tuple = (0, 0, 0)
    mark: tuple = (0, 0, 0, 0, 0)
    yellow: tuple = (0, ())

    def name(self):
        return (self.creator, self.index)

    def action(self):
        """What an action says, without who resends it and where."""
        return {'creator': self.creator, 'index': self.index, 'green': self.green, 'white': self.white, 'payload': self.payload}


class Refused(Exception):
    def __init__(self, number):
        super().__init__(number)
        self.number = number


def big(value, width):
    return value.to_bytes(width, 'big')


def packed(fields, values):
    return b''.join(big(v, width) for v, (_, width) in zip(values, fields))


def unpacked(fields, data, at):
    values = []
    for _, width in fields:
        values.append(int.from_bytes(data[at:at + width], 'big'))
        at += width
    return values


def framed(kind, body, version=VERSION):
    return packed(FRAME, (size(FRAME) - 2 + len(body), version, kind)) + body


def action_body(r):
    return packed(ACTION, (r.creator, r.index, r.green, r.white, len(r.payload))) + r.payload


def body(r):
    if r.kind == 'action':
        return action_body(r)
    if r.kind == 'retransmission':
        return big(r.sender, 1) + big(r.position, 4) + action_body(r)
    if r.kind == 'State':
        status, ids = r.yellow
        rest = (r.green, r.attempt, *r.last, *r.mark, status, len(ids))
        cuts = b''.join(big(c, CUT) for c in r.cuts)
        return big(r.sender, 1) + big(r.id, 4) + cuts + packed(STATE_REST, rest) + b''.join(packed(ID, d) for d in ids)
    if r.kind == 'CPC':
        return big(r.sender, 1) + big(r.id, 4)
    if r.kind == 'regular':
        return big(r.id, 4) + big(r.set, 1)
    if r.kind == 'transitional':
        return big(r.set, 1)
    return big(len(r.payload), 1) + r.payload if r.kind == 'request' else b''


def write(r):
    return framed(KINDS.index(r.kind), body(r))


def write_setup(servers, quota):
    return framed(KINDS.index('setup'), big(servers, 1) + big(quota, 2))


# ---- reading: every length first (1), then every range (2)

def need(ok, number):
    if not ok:
        raise Refused(number)


def read_payload(data, at):
    need(at < len(data) and at + 1 + data[at] == len(data), 1)
    return data[at + 1:]


def read_action(kind, data, at):
    need(at + size(ACTION) <= len(data), 1)
    creator, index, green, white, _ = unpacked(ACTION, data, at)
    return Record(kind, creator=creator, index=index, green=green, white=white, payload=read_payload(data, at + size(ACTION) - 1))


def read_state(n, data):
    rest_at = size(STATE_FRONT) + CUT * n
    ids_at = rest_at + size(STATE_REST)
    need(ids_at <= len(data), 1)
    sender, id_ = unpacked(STATE_FRONT, data, 0)[3:]
    rest = unpacked(STATE_REST, data, rest_at)
    need(ids_at + size(ID) * rest[-1] == len(data), 1)
    ids = tuple(tuple(unpacked(ID, data, ids_at + size(ID) * k)) for k in range(rest[-1]))
    cuts = tuple(unpacked((('cut', CUT),) * n, data, size(STATE_FRONT)))
    last, mark = tuple(rest[2:2 + len(LAST)]), tuple(rest[2 + len(LAST):2 + len(LAST) + len(MARK)])
    return Record('State', sender=sender, id=id_, cuts=cuts, green=rest[0], attempt=rest[1], last=last, mark=mark, yellow=(rest[-2], ids))


def read_fields(c, data):
    """The record that the bytes say, whatever its numbers."""
    need(size(FRAME) <= len(data), 1)
    length, version, kind = unpacked(FRAME, data, 0)
    need(length == len(data) - 2 and version == VERSION and 1 <= kind <= 8, 1)
    name, at, rest = KINDS[kind], size(FRAME), len(data) - size(FRAME)
    if name == 'action':
        return read_action(name, data, at)
    if name == 'retransmission':
        need(RETRANSMISSION_HEAD <= rest, 1)
        r = read_action(name, data, at + RETRANSMISSION_HEAD)
        r.sender, r.position = unpacked((('sender', 1), ('position', 4)), data, at)
        return r
    if name == 'State':
        return read_state(c.servers, data)
    if name == 'request':
        return Record(name, payload=read_payload(data, at))
    fields = {'CPC': (('sender', 1), ('id', 4)), 'regular': (('id', 4), ('set', 1)), 'transitional': (('set', 1),), 'recovery': ()}[name]
    need(rest == size(fields), 1)
    return Record(name, **dict(zip((f for f, _ in fields), unpacked(fields, data, at))))


def state_ok(c, r):
    def set_ok(s):
        return s < 1 << c.servers

    def pair_ok(p):
        return p[0] <= MOST_INDEX and p[1] <= MOST_INDEX and set_ok(p[2])

    status, ids = r.yellow
    return (r.sender < c.servers and all(k <= MOST_NUMBER for k in r.cuts) and r.green <= MOST_LENGTH and r.attempt <= MOST_INDEX
            and pair_ok(r.last) and r.mark[0] <= 1 and pair_ok(r.mark[1:]) and set_ok(r.mark[4]) and status <= 1
            and len(ids) <= c.servers * c.quota and all(id_ok(c, d) for d in ids) and len(set(ids)) == len(ids))


def id_ok(c, d):
    return d[0] < c.servers and 1 <= d[1] <= MOST_NUMBER


def range_ok(c, r):
    if not layout.sizes_ok(c.servers, c.quota) or c.me >= c.servers:
        return False
    action_ok = id_ok(c, r.name()) and r.green <= MOST_LENGTH and r.white <= MOST_LENGTH and len(r.payload) <= MOST_PAYLOAD
    here = r.set < 1 << c.servers and r.set >> c.me & 1 == 1
    return {
        'action': action_ok,
        'retransmission': action_ok and r.sender < c.servers and r.position <= MOST_LENGTH,
        'State': r.kind == 'State' and state_ok(c, r),
        'CPC': r.sender < c.servers,
        'regular': here,
        'transitional': here and (c.configured == 0 or r.set & ~c.last == 0),
        'request': len(r.payload) <= MOST_PAYLOAD,
        'recovery': True,
    }[r.kind]


def read(c, data):
    """The record, or Refused 1 or 2."""
    r = read_fields(c, data)
    need(range_ok(c, r), 2)
    return r
