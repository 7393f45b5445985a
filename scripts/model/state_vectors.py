"""Vectors for the state check.

    start SERVERS QUOTA ME # LABEL            begins anew with this start
    change NAME=VALUE .. # LABEL              changes the state for the lines that follow
    check [LENGTHS] [NAME=VALUE ..] # LABEL   the number of a changed copy
    sweep # LABEL                             how many changes of one byte leave 0, give 7 and give 8

NAME is a part of the image (layout.place). VALUE is a number, a state's name, a set, a text, `x` and bytes in hexadecimal, an action or id
`0/1`, `0/1:2:"peg"`, `0/1:2:1:"peg"` (green length, white length where not 0, payload), a State `<State 0 ..>`, or `none`: all of a field's parts zero. LENGTHS are `state` and
`out`, each followed by a number of bytes more than required (-1: one too few), or by `=` and the length, `header` being that of the header.

A vector of the program is 00 servers quota me; 01 patches; 02 lengths patches; 03 length; a patch is a place (2), a count (1) and bytes.
"""
import re

from . import image, layout, records, words
from .layout import ACTION, HEADER, ID, MODES, size

ROOM = 8192
CHANGES = (1, 128, 255)
GROUPS = {
    'configuration': ('configuration.status', 'configuration.id', 'configuration.set'),
    'transitional': ('transitional.status', 'transitional.set'),
    'mark': ('mark.status', 'mark.index', 'mark.attempt', 'mark.set', 'mark.bits'),
}


def patch(at, data):
    return records.big(at, 2) + records.big(len(data), 1) + data


class Table:
    def __init__(self):
        self.base, self.n, self.q = bytearray(ROOM), 0, 0

    def value(self, name, text, width):
        """The bytes of a value for a part of this width, from its beginning."""
        if text[0] == '<':
            w = words.Words(text[1:-1])
            return words.event(w, self.n, self.q)
        if text[0] == 'x':
            return bytes.fromhex(text[1:])
        if text[0] == '"':
            return text.strip('"').encode()
        if text[0] == '{':
            return records.big(words.set_of(text), width)
        if '/' in text:
            front, *more = text.split(':')
            data = records.packed(ID, words.Words(front).pair())
            if more:
                lengths = [int(word) for word in more if word.isdecimal()] + [0]
                payload = words.Words(more[-1]).text() if not more[-1].isdecimal() else b''
                data += records.packed(ACTION[len(ID):], (*lengths[:2], len(payload))) + payload
                data += bytes(layout.SLOT - len(data))
            return data
        return records.big(MODES.index(text) if text in MODES else int(text), width)

    def patches(self, w):
        found = []
        while w:
            name, text = w.next().split('=', 1)
            if text == 'none':
                found += [(layout.place(self.n, self.q, part)[0], bytes(layout.place(self.n, self.q, part)[1])) for part in GROUPS[name]]
                continue
            at, width = layout.place(self.n, self.q, name)
            found.append((at, self.value(name, text, width)))
        return found

    def length(self, w, required):
        if w.left and w.left[0][0] == '=':
            word = w.next()[1:]
            return size(HEADER) + int(word[len('header'):] or 0) if word.startswith('header') else int(word)
        return required + w.number()

    def check(self, w):
        lengths = {'state': layout.state_length(self.n, self.q), 'out': layout.out_length(self.n, self.q)}
        while w and w.left[0] in lengths:
            name = w.next()
            lengths[name] = self.length(w, lengths[name])
        found = self.patches(w)
        state = changed(self.base, found)
        number = image.state_number(state[:lengths['state']], lengths['out'])
        front = records.big(lengths['state'], 2) + records.big(lengths['out'], 2)
        return front + b''.join(patch(*p) for p in found), str(number)

    def sweep(self):
        length = layout.state_length(self.n, self.q)
        state, tally = self.base[:length], {0: 0, 7: 0, 8: 0}
        for at in range(length):
            old = state[at]
            for by in CHANGES:
                state[at] = (old + by) % 256
                tally[image.state_number(state, ROOM)] += 1
            state[at] = old
        return records.big(length, 2), '%d %d %d' % (tally[0], tally[7], tally[8])

    def vector(self, w):
        """What the program is given, and what it answers."""
        kind = w.next()
        if kind == 'start':
            self.n, self.q, me = w.number(), w.number(), w.number()
            begun = image.start(self.n, self.q, me)
            self.base = begun + bytes(ROOM - len(begun))
            return b'\x00' + records.packed((('', 1), ('', 2), ('', 1)), (self.n, self.q, me)), ''
        if kind == 'change':
            found = self.patches(w)
            self.base = changed(self.base, found)
            return b'\x01' + b''.join(patch(*p) for p in found), ''
        given, answer = self.check(w) if kind == 'check' else self.sweep()
        return (b'\x02' if kind == 'check' else b'\x03') + given, answer


def changed(state, found):
    state = bytearray(state)
    for at, data in found:
        state[at:at + len(data)] = data
    return state


def vectors(text):
    """The lines of input and output."""
    table, given, expected = Table(), [], []
    for line, label in words.lines_of(text):
        if not line:
            given.append(label)
            expected.append(label)
            continue
        w = words.Words('')
        w.left = re.findall(r'(?:[^\s"<]|"[^"]*"|<[^>]*>)+', line)
        data, answer = table.vector(w)
        given.append(data.hex() + ' ' + label)
        expected.append(answer + ' ' + label)
    return given, expected
