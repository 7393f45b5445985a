"""Vectors for the register of pegs. The buffer holds 238 everywhere at first, and is some bytes longer than the formula asks.

    start # LABEL                             the empty register
    OPERATION # LABEL                         a payload is applied
    find NAME # LABEL                         a peg by its name
    change PART VALUE # LABEL                 a part of the register (layout.in_register) is changed: to a number, to a text, or to `x` and bytes
    cuts OPERATION # LABEL                    its payload cut at every byte
    many COUNT from K by STEP OPERATION       applied so often: K, K + STEP, .. in the last two bytes of its name and in the high half of its easting
    sweep NUMBER # LABEL                      each used byte raised by NUMBER in its turn: the name of no bytes is searched
    inside WEST SOUTH EAST NORTH # LABEL      the pegs inside a rectangle, in an answer's buffer that holds 238 everywhere at first
    within RADIUS of EASTING NORTHING # LABEL the pegs within so many millimetres of a point, likewise
    nearest EASTING NORTHING # LABEL          the peg nearest to a point
    questions COUNT from SEED # LABEL         so many of these three, drawn (questions.py)

OPERATION is `set NAME EASTING NORTHING`, `move NAME EASTING NORTHING`, `retire NAME`, or `payload` and bytes in hexadecimal; `but operation 4`, `but
length 3` change that byte alone, `but behind 1` puts so many zeros behind it. NAME is a text, or `x` and bytes in hexadecimal.
In front of start, find, OPERATION and the last questions but the drawn ones: `lent -1` lends so many bytes more than the formula asks, `lent =2` so many;
`answer -1` and `answer =2` lend so much of the answer's buffer; `with PART VALUE` changes a part for this line alone.

A vector of the program is what it does (1 byte), the length lent (4), where bytes are changed (4), how many (1), these, and a payload or name. Many:
the first K, STEP and COUNT, 2 bytes each, and the payload. A question: the length lent of the answer's buffer (4; not of the nearest peg), and its
numbers, 4 bytes each.
"""
import zlib
from bisect import bisect_left

from . import plane, questions, register, words
from .layout import OPERATION, PEG, PEG_COUNT, REGISTER_LENGTH, in_register, places, size
from .records import big

ROOM, FILL, FEW_PEGS = REGISTER_LENGTH + 40, 238, 3
START, APPLY, MANY, FIND, CHANGE, INSIDE, WITHIN, NEAREST = range(8)
NUMBER_SIZE = 2
FOUND = '%d found %d index %d at %d %d'


def text_of(w):
    return bytes.fromhex(w.next()[1:]) if w.left[0][0] == 'x' else w.text()


def payload_of(w):
    """The payload that words say."""
    kind = w.next()
    if kind == 'payload':
        data, w.left = bytes.fromhex(''.join(w.left)), []
        return data
    data = bytearray(words.operation(w, kind, text_of(w)))
    while w.taken('but'):
        part, value = w.next(), w.number()
        if part == 'behind':
            data += bytes(value)
        else:
            data[places(OPERATION)[part][0]] = value
    return bytes(data)


def value_of(text, width):
    if text[0] in 'x"':
        return text_of(words.Words(text))
    return big(int(text), width)


def changes(old, new):
    """What the program prints of two buffers."""
    if old == new:
        return ' as before'
    first = bisect_left(range(len(old)), True, key=lambda k: old[:k + 1] != new[:k + 1])
    end = bisect_left(range(len(old)), True, key=lambda k: old[k:] == new[k:])
    count = int.from_bytes(new[:size(PEG_COUNT)], 'big')
    few = ' bytes ' + new[:size(PEG_COUNT) + size(PEG) * count].hex() if count <= FEW_PEGS else ''
    return ' changed %d-%d pegs %d digest %08x%s' % (first, end - 1, count, zlib.adler32(new), few)


def changed(w):
    at, width = in_register(w.next())
    return {'at': at, 'patch': value_of(w.next(), width)}


class Table:
    def __init__(self):
        self.base = bytes([FILL]) * ROOM

    def run(self, does, rest, run, length=REGISTER_LENGTH, at=0, patch=b''):
        """What the program is given, and what it prints where `run` gives the numbers to print and the buffer behind it."""
        old = self.base[:at] + patch + self.base[at + len(patch):]
        told, lent = run(old[:length])
        new = lent + old[length:]
        self.base = self.base if patch and does != CHANGE else new
        given = bytes([does]) + big(length, 4) + big(at, 4) + big(len(patch), 1) + patch + rest
        return given, told + (changes(old, new) if does <= MANY else '')

    def many(self, w):
        count, k, step = w.number(), w.taken('from') and w.number(), w.taken('by') and w.number()
        data = payload_of(w)
        name_end = size(OPERATION) + data[1]
        payloads = []
        for i in range(count):
            number = big((k + step * i) % 256 ** NUMBER_SIZE, NUMBER_SIZE)
            payloads.append((data[:name_end - NUMBER_SIZE] + number + number + data[name_end + NUMBER_SIZE:])[:len(data)])

        def run(lent):
            numbers, after = register.apply(lent, *payloads)
            return 'taken %d last %d' % (numbers.count(0), numbers[-1]), after

        return self.run(MANY, big(k, 2) + big(step, 2) + big(count, 2) + data, run)

    def sweep(self, by):
        count = int.from_bytes(self.base[:size(PEG_COUNT)], 'big')
        for k in range(size(PEG_COUNT) + size(PEG) * count):
            yield (*self.find(b'', at=k, patch=bytes([(self.base[k] + by) % 256])), ', byte %d' % k)

    def lent(self, w):
        """The words in front: the length lent, and what is changed where."""
        found = {}
        while kind := w.taken('lent', 'answer', 'with'):
            if kind == 'with':
                found.update(changed(w))
            else:
                word = w.next()
                found['length' if kind == 'lent' else kind] = int(word[1:]) if word[0] == '=' else REGISTER_LENGTH + int(word)
        return found

    def vector(self, w):
        """The vectors of a line: what the program is given, what it prints, and what is added to the label."""
        if w.taken('many'):
            return [(*self.many(w), '')]
        if w.taken('sweep'):
            return self.sweep(w.number())
        if w.taken('cuts'):
            data = payload_of(w)
            return [(*self.apply(data[:k]), ', %d of %d bytes' % (k, len(data))) for k in range(len(data))]
        if w.taken('change'):
            return [(*self.run(CHANGE, b'', lambda lent: ('', lent), **changed(w)), '')]
        lent = self.lent(w)
        if w.taken('start'):
            return [(*self.run(START, b'', lambda b: told(*register.start(b)), **lent), '')]
        if w.taken('find'):
            return [(*self.find(text_of(w), **lent), '')]
        if w.taken('inside'):
            return [(*self.question('inside', [w.number() for _ in range(4)], **lent), '')]
        if w.taken('within'):
            most, point = w.number(), w.taken('of') and [w.number(), w.number()]
            return [(*self.question('within', [*point, most], **lent), '')]
        if w.taken('nearest'):
            return [(*self.question('nearest', [w.number(), w.number()], **lent), '')]
        if w.taken('questions'):
            return self.questions(w.number(), w.taken('from') and w.number())
        return [(*self.apply(payload_of(w), **lent), '')]

    def find(self, name, **lent):
        return self.run(FIND, name, lambda b: (FOUND % register.find(b, name), b), **lent)

    def question(self, kind, numbers, answer=REGISTER_LENGTH, **lent):
        rest = b''.join(big(k % 256 ** 4, 4) for k in numbers)
        if kind == 'nearest':
            return self.run(NEAREST, rest, lambda b: (FOUND % plane.nearest(b, *numbers), b), **lent)
        ask, does = (plane.rectangle, INSIDE) if kind == 'inside' else (plane.radius, WITHIN)

        def run(b):
            held = bytes([FILL]) * ROOM
            number, after = ask(b, held[:answer], *numbers)
            return '%d' % number + changes(held, after + held[answer:]), b

        return self.run(does, big(answer, 4) + rest, run, **lent)

    def questions(self, count, seed):
        places = sorted(register.read(self.base[:REGISTER_LENGTH]).values())
        return [(*self.question(kind, numbers), ', %d %s' % (k + 1, kind)) for k, (kind, numbers) in enumerate(questions.drawn(count, seed, places))]

    def apply(self, data, **lent):
        def run(b):
            (number,), after = register.apply(b, data)
            return told(number, after)

        return self.run(APPLY, data, run, **lent)


def told(number, after):
    return '%d' % number, after


def vectors(text):
    """The lines of input and output."""
    table, given, expected = Table(), [], ['length %d' % REGISTER_LENGTH]
    for line, label in words.lines_of(text):
        if not line:
            given.append(label)
            expected.append(label)
            continue
        w = words.Words(line)
        for data, answer, more in table.vector(w):
            given.append('%s %s%s' % (data.hex(), label, more))
            expected.append('%s %s%s' % (answer, label, more))
        if w:
            raise ValueError('more words: ' + ' '.join(w.left))
    return given, expected
