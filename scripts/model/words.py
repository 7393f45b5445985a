"""Records, sets and texts in words, for stories and tables of vectors.

    action 0/1 green 2 white 1 "peg"            creator/index; lengths 0 and no payload where they are not said
    retransmission 1 at 3 0/1 "peg"             sender and position, then as an action
    State 0 id 7 cuts 1,0 green 1 attempt 2 last 1/1 {0,1} mark 1/2 {0,1} bits {0} yellow valid 0/1,1/2
    CPC 1 id 7 · regular 7 {0,1} · transitional {0} · request "peg" · recovery · bytes 00 02 02 08
    request set "A1" 1000 -2500 · request move "A1" 1000 -2000 · request retire "A1"        an operation of the register as the payload

`unmarked` in the place of `mark` gives a mark's fields with status 0, `status` a status of any value behind `mark` or `yellow`. A payload of so
many letters and digits is `letters:48`; `{0..7}` is a set; `all` among yellow ids is every id, by creator, then index.
"""
import re

from . import records, register
from .layout import ACTION, CUT, FRAME, RETRANSMISSION_HEAD, STATE_FRONT, STATE_REST, size
from .records import Record

ALPHABET = b'abcdefghijklmnopqrstuvwxyz0123456789'


class Words:
    """The words of a line, taken from the front."""

    def __init__(self, text):
        self.left = re.findall(r'"[^"]*"|\S+', text)

    def __bool__(self):
        return bool(self.left)

    def next(self):
        if not self.left:
            raise ValueError('a word is missing')
        return self.left.pop(0)

    def number(self):
        return int(self.next())

    def taken(self, *names):
        """The word, if it is the next one and one of these."""
        return self.left.pop(0) if self.left and self.left[0] in names else None

    def pair(self):
        first, second = self.next().split('/')
        return int(first), int(second)

    def set(self):
        return set_of(self.next())

    def text(self):
        word = self.next()
        if word.startswith('letters:'):
            length = int(word[len('letters:'):])
            return (ALPHABET * (length // len(ALPHABET) + 1))[:length]
        return word.strip('"').encode()

    def has_text(self):
        return bool(self.left) and (self.left[0][0] == '"' or self.left[0].startswith('letters:'))


def set_of(word):
    if word[0] != '{' or word[-1] != '}':
        raise ValueError(word + ' is no set')
    found = 0
    for part in filter(None, word[1:-1].split(',')):
        first, _, last = part.partition('..')
        for k in range(int(first), int(last or first) + 1):
            found |= 1 << k
    return found


def ids_of(word, n, q):
    ids = ()
    for part in word.split(','):
        ids += tuple((c, i) for c in range(n) for i in range(1, q + 1)) if part == 'all' else (tuple(int(k) for k in part.split('/')),)
    return ids


def action(w, **more):
    creator, index = w.pair()
    green = w.number() if w.taken('green') else 0
    white = w.number() if w.taken('white') else 0
    return Record(creator=creator, index=index, green=green, white=white, payload=w.text() if w.has_text() else b'', **more)


def state(w, n, q, last):
    """A State; `last` is the last primary's set where none is said."""
    r = Record('State', sender=w.number(), id=1, cuts=(0,) * n, last=(0, 0, last))
    while w and w.left[0] != 'but':
        name = w.next()
        if name in ('id', 'green', 'attempt'):
            setattr(r, name, w.number())
        elif name == 'cuts':
            r.cuts = tuple(int(c) for c in w.next().split(','))
        elif name == 'last':
            r.last = (*w.pair(), w.set())
        elif name in ('mark', 'unmarked'):
            status = w.number() if w.taken('status') else int(name == 'mark')
            r.mark = (status, *w.pair(), w.set(), w.set() if w.taken('bits') else 0)
        elif name == 'yellow':
            word = w.next()
            status = w.number() if word == 'status' else int(word == 'valid')
            r.yellow = (status, ids_of(w.next(), n, q) if w and re.match(r'\d+/|all', w.left[0]) else ())
        else:
            raise ValueError(name + ' is no field of a State')
    return r


def operation(w, kind, name):
    return register.payload(register.KINDS[kind], name, () if kind == 'retire' else (w.number(), w.number()))


def asked(w):
    """A request's payload: text, an operation of the register, or nothing."""
    kind = w.taken(*register.KINDS)
    return operation(w, kind, w.text()) if kind else w.text() if w.has_text() else b''


def record(w, n, q, last=0):
    """The record that words say."""
    kind = w.next()
    if kind == 'action':
        return action(w, kind=kind)
    if kind == 'retransmission':
        sender = w.number()
        position = w.number() if w.taken('at') else 0
        return action(w, kind=kind, sender=sender, position=position)
    if kind == 'State':
        return state(w, n, q, last)
    if kind == 'CPC':
        return Record(kind, sender=w.number(), id=w.number() if w.taken('id') else 1)
    if kind == 'regular':
        return Record(kind, id=w.number(), set=w.set())
    if kind == 'transitional':
        return Record(kind, set=w.set())
    if kind == 'request':
        return Record(kind, payload=asked(w))
    if kind == 'recovery':
        return Record(kind)
    raise ValueError(kind + ' is no kind of record')


def changed(w, data, r):
    """The record's bytes with changes: `but length -1` its length bytes alone, `but body -1` and `but body +1` cut or filled up with zeros, `but
    behind 1` so many zeros behind it, `but version 2`, `but payload 4` and `but count 3` that byte or number alone."""
    data = bytearray(data)
    while w.taken('but'):
        name, value = w.next(), w.number()
        if name == 'length':
            data[0:2] = records.big(int.from_bytes(data[0:2], 'big') + value, 2)
        elif name == 'body':
            data = (data + bytes(max(value, 0)))[:len(data) + value]
            data[0:2] = records.big(len(data) - 2, 2)
        elif name == 'behind':
            data += bytes(value)
        elif name == 'version':
            data[2] = value
        elif name == 'payload':
            heads = {'action': size(ACTION), 'retransmission': RETRANSMISSION_HEAD + size(ACTION), 'request': 1}
            data[size(FRAME) + heads[r.kind] - 1] = value
        elif name == 'count':
            end = size(STATE_FRONT) + CUT * len(r.cuts) + size(STATE_REST)
            data[end - 2:end] = records.big(value, 2)
        else:
            raise ValueError(name + ' cannot be changed')
    return bytes(data)


def event(w, n, q, last=0):
    """The bytes of an event in words."""
    if w.taken('bytes'):
        data = bytes.fromhex(' '.join(w.left))
        w.left = []
        return data
    r = record(w, n, q, last)
    data = changed(w, records.write(r), r)
    if w:
        raise ValueError('more words: ' + ' '.join(w.left))
    return data


def lines_of(text):
    """(words, label) of each line of a table: from '#' on a label, '//' a comment, and a line that begins with a blank goes on the one before it."""
    found = []
    for line in text.splitlines():
        line = re.sub(r'(^|\s)//.*', '', line).rstrip()
        words, mark, label = line.partition('#')
        if line[:1] == ' ':
            found[-1][0] += ' ' + words.strip()
            found[-1][1] += mark + label
        elif line:
            found.append([words.strip(), mark + label])
    return found
