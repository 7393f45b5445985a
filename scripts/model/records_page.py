"""The numbers of docs/RECORDS.md: where each field of a record lies and how long records are, and the bytes of its worked examples. The page's words
are written by hand."""
import re

from . import records, register, register_vectors, words
from .layout import ACTION, CUT, FRAME, ID, OPERATION, PLACE, REGISTER_LENGTH, RETRANSMISSION_HEAD, STATE_FRONT, STATE_REST, size
from .machine import Server, step
from .tables import sections, with_places

# What a body ends with: its size, and how long the whole may be.
PAYLOAD = ('the rest', 'payload')
CUTS, IDS = ('%d n' % CUT, '%d n' % CUT), ('the rest', '%d for each id' % size(ID))

# The sizes of a record's fields behind the frame, in their order.
STATE_BODY = STATE_FRONT[len(FRAME):]
BODIES = {
    'Action': [w for _, w in ACTION] + [PAYLOAD],
    'Retransmission': [1, RETRANSMISSION_HEAD - 1] + [w for _, w in ACTION] + [PAYLOAD],
    'State': [w for _, w in STATE_BODY] + [CUTS] + [w for _, w in STATE_REST] + [IDS],
    'CPC': [1, 4],
    'Regular configuration': [4, 1],
    'Transitional configuration': [1],
    'Request': [1, PAYLOAD],
    'Recovery': [],
    'Set-up': [1, 2],
}
# An entry of guzbytor_green_entries has no frame.
ENTRY = [w for _, w in ID] + [1, PAYLOAD]

# A payload that the register takes: a retire ends behind the name.
NAME = ('k', 'k')
PEG_OPERATION = [w for _, w in OPERATION] + [NAME] + [w for _, w in PLACE]

# The worked example: words of an event, or None: what was sent last comes back; and what is said of it.
EXAMPLE = (
    ('regular 3 {2}', 'regular configuration 3 {2}'),
    (None, 'its own State comes back: it is alone, and no quorum of three'),
    ('request "P3"', 'a request with the payload "P3"'),
    (None, 'its own action comes back, and is red'),
    ('recovery', 'recovery, after a crash, with the stored image'),
)
SERVERS, QUOTA, ME = 3, 16, 2
# The register's, from the empty one.
OPERATIONS = (
    ('set "P3" 1204500 -1', 'set P3 at 1,204.500 metres east and 0.001 south'),
    ('set "P10" 250000 80000', 'set P10, which stands before P3: its second byte is lower'),
    ('set "P3" 0 0', 'set P3: it is there'),
    ('move "P3" 1204750 0', 'move P3'),
    ('retire "P10"', 'retire P10: what is behind the last peg stays, and is never read'),
    ('retire "P4"', 'retire P4: it is not there'),
    ('set "" 1 1', 'a name of no bytes'),
)
BYTES_A_LINE = 24


def hexed(first, data):
    """Lines of bytes behind the word `first`."""
    digits = ['%02x' % b for b in data]
    lines = [' '.join(digits[k:k + BYTES_A_LINE]) for k in range(0, len(digits), BYTES_A_LINE)]
    return ['%-6s %s' % (first if k == 0 else '', line) for k, line in enumerate(lines)]


def example():
    memory = stored = Server(SERVERS, QUOTA, ME)
    sent, lines = b'', []
    for event, said in EXAMPLE:
        data = sent if event is None else words.event(words.Words(event), SERVERS, QUOTA)
        outcome = step(stored if event == 'recovery' else memory, data)
        memory, sent = outcome.state, b''.join(records.write(r) for r in outcome.sent)
        stored = memory if outcome.store else stored
        lines += ['-- ' + said] + hexed('event', data) + ['%-6s number %d, store %d, sent %d' % ('answer', outcome.number, outcome.store, len(sent))]
        lines += hexed('out', sent) + ['']
    return '```\n' + '\n'.join(lines[:-1]) + '\n```'


def operations():
    buffer, lines = register.start(bytes(REGISTER_LENGTH))[1], []
    for said, label in OPERATIONS:
        data = register_vectors.payload_of(words.Words(said))
        (number,), buffer = register.apply(buffer, data)
        lines += ['-- ' + label] + hexed('bytes', data) + ['%-6s %d' % ('number', number)]
        lines += ([] if number else hexed('pegs', register.used(register.read(buffer)))) + ['']
    return '```\n' + '\n'.join(lines[:-1]) + '\n```'


def page(text):
    found = []
    for title, section in sections(text):
        if title in BODIES:
            section = with_places(section, size(FRAME), BODIES[title])
        elif title == 'Frame':
            section = with_places(section, 0, [w for _, w in FRAME])
        elif title == 'Green entries':
            section = with_places(section, 0, ENTRY)
        elif title == 'A worked example':
            section = re.sub(r'```\n.*?```', lambda _: example(), section, flags=re.S)
        elif title == 'Operations on the register':
            section = re.sub(r'```\n.*?```', lambda _: operations(), with_places(section, 0, PEG_OPERATION), flags=re.S)
        found.append(section)
    return ''.join(found)
