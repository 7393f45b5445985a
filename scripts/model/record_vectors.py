"""Vectors for reader and writers: a record in words, read in a context, and where `write` is said written again.

    context NAME servers N quota Q server K [last SET]       names a context
    NAME [FIELD=NUMBER ..] [write] RECORD # LABEL            FIELD is servers, quota, server, configured or last

A vector of the program is the context (servers 1 byte, quota 2, own number 1, configured 1, set 1) and the event.
"""
import re
import zlib

from . import records, words
from .layout import FEWEST_SERVERS, LEAST_QUOTA, MOST_INDEX, MOST_LENGTH, MOST_NUMBER, MOST_PAYLOAD, MOST_QUOTA, MOST_SERVERS
from .records import Context, Refused

FIELDS = {'servers': 'servers', 'quota': 'quota', 'server': 'me', 'configured': 'configured', 'last': 'last'}
FEW_BYTES = 72
ROOM_FILL = 238
LIMITS = (FEWEST_SERVERS, MOST_SERVERS, LEAST_QUOTA, MOST_QUOTA, MOST_PAYLOAD, MOST_INDEX, MOST_NUMBER, MOST_LENGTH)


def context_of(w):
    values = {}
    while w:
        name = w.next()
        values[FIELDS[name]] = w.set() if name == 'last' else w.number()
    return Context(configured=int('last' in values), **values)


def digest(data):
    few = ' bytes ' + data.hex() if len(data) <= FEW_BYTES else ''
    return ' digest %08x%s' % (zlib.adler32(data), few)


def numbers(*values):
    return ''.join(' %d' % v for v in values)


def shown(r):
    """What the program prints of a record that was read."""
    if r.kind == 'action':
        return 'action' + numbers(r.creator, r.index, r.green, r.white) + ' payload ' + r.payload.decode()
    if r.kind == 'retransmission':
        return 'retransmission' + numbers(r.sender, r.position) + ' action' + numbers(r.creator, r.index, r.green, r.white) + ' payload ' + r.payload.decode()
    if r.kind == 'State':
        status, ids = r.yellow
        cuts = b''.join(records.big(c, records.CUT) for c in r.cuts).hex()
        ids_bytes = b''.join(records.packed(records.ID, d) for d in ids)
        return ('State' + numbers(r.sender, r.id, r.green, r.attempt, *r.last, *r.mark, status) + ' cuts ' + cuts
                + ' ids %d' % len(ids) + digest(ids_bytes))
    if r.kind == 'request':
        return 'request payload ' + r.payload.decode()
    fields = {'CPC': (r.sender, r.id), 'regular': (r.id, r.set), 'transitional': (r.set,), 'recovery': ()}[r.kind]
    return r.kind + numbers(*fields)


def rooms(c, data):
    """Written into buffers with room for one or two, and a byte less; only kinds that an engine sends."""
    r = records.read(c, data)
    for size in (len(data) - 1, len(data), 2 * len(data) - 1, 2 * len(data)):
        whole = size // len(data) if r.kind in ('action', 'retransmission', 'State', 'CPC') else 0
        line = '  room %d' % size + ''.join(' next %d %s' % (len(data) * (k + 1), shown(r)) for k in range(whole)) + ' full'
        yield line + digest(data * whole + bytes([ROOM_FILL]) * (size - len(data) * whole))


def answer(c, data):
    try:
        return shown(records.read(c, data))
    except Refused as refused:
        return 'refused %d' % refused.number


def vectors(text):
    """The lines of input and output."""
    contexts, given, expected = {}, [], ['limits' + numbers(*LIMITS)]
    for line, label in words.lines_of(text):
        if not line:
            given.append(label)
            expected.append(label)
            continue
        w = words.Words(line)
        if w.taken('context'):
            name = w.next()
            contexts[name] = context_of(w)
            continue
        c = Context(**vars(contexts[w.next()]))
        while w and re.match(r'\w+=', w.left[0]):
            name, value = w.next().split('=')
            setattr(c, FIELDS[name], words.set_of(value) if name == 'last' else int(value))
        written = w.taken('write')
        data = words.event(w, c.servers, c.quota)
        front = records.packed((('', 1), ('', 2), ('', 1), ('', 1), ('', 1)), (c.servers, c.quota, c.me, c.configured, c.last))
        given.append('%s%s %s' % ('w' if written else '', (front + data).hex(), label))
        expected.append(answer(c, data) + ' ' + label)
        expected += rooms(c, data) if written else ()
    return given, expected
