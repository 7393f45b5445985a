"""The journal of a recorded run (examples/c/office -j) as a story:

    servers 3 quota 4
    0 event 2 returned 0 put 1 sent 1 bytes 0007..                  an event at server 2: its answer, how many records it put out and sent
    7 event 0 returned 0 put 0 sent 0 bytes 002c.. source 0 0 position 3
                                                                    it delivers the first record of those sent by the entry 0, which has the
                                                                    position 3 in its configuration's one order
    9 event 0 returned 0 put 0 sent 0 bytes 000302.. name 1         it brings the transitional configuration 1
    12 crash 1 · 15 store 0

A line begins with its entry's number, by which sources name it; lines may be taken out or repeated.
"""
import re

from .records import KINDS, Record, VERSION
from .story import Entry, Story

EVENT = re.compile(r'event (\d+) returned (\d+) put (\d+) sent (\d+) bytes ([0-9a-f]*)'
                   r'(?: source (\d+) (\d+) position (\d+))?(?: name (\d+))?')
REGULAR = bytes([0, 7, VERSION, KINDS.index('regular')])


def entry(text, place, here):
    """An entry; `place` has the places of those before it, by their numbers, and `here` the configuration that each server took last."""
    plain = re.fullmatch(r'(crash|store) (\d+)', text)
    if plain:
        return Entry(int(plain[2]), stores=plain[1] == 'store')
    found = EVENT.fullmatch(text)
    if not found:
        raise ValueError('not an entry')
    server, returned, put, sent = (int(x) for x in found.groups()[:4])
    data = bytes.fromhex(found[5])
    e = Entry(server, data, returned, sent=sent, cut=sent < put, name=int(found[9] or 0))
    if returned == 0 and data[:4] == REGULAR:
        here[server] = int.from_bytes(data[4:8], 'big')
        e.record = Record('regular', id=here[server], set=data[8])
    if found[6]:
        e.source, e.position = (place.get(found[6]), int(found[7])), (here.get(server), int(found[8]))
    return e


def told(text):
    """The story of a journal's text."""
    lines = text.splitlines()
    n, q = re.fullmatch(r'servers (\d+) quota (\d+)', lines[0]).groups()
    story, place, here = Story(int(n), int(q)), {}, {}
    for number, line in enumerate(lines[1:], 2):
        label, _, rest = line.partition(' ')
        try:
            story.entries.append(entry(rest, place, here))
        except ValueError as error:
            raise SystemExit('line %d: %s' % (number, error))
        place.setdefault(label, len(story.entries) - 1)
    return story
