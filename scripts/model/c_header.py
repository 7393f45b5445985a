"""Numbers as C constants: those that a daemon needs, in include/guzbytor.h, and the layout, in include/guzbytor_layout.h."""
import re

from . import layout, records, register
from .layout import ACTION, FRAME, HEADER, ID, LAST, MARK, MODES, PEG, PEG_COUNT, STATE_FRONT, STATE_REST, places, size


def named(prefix, fields):
    return [(prefix + name.upper().replace('.', '_'), at) for name, (at, _) in places(fields).items()]


def short(fields):
    """Without the record's own name in front of its fields' names."""
    return [(name.split('.')[-1], width) for name, width in fields]


# What is said of a group of constants, and the constants. First those of include/guzbytor.h.
PUBLIC = (
    ('The eight states of a server.', [(mode.upper(), k) for k, mode in enumerate(MODES)]),
    ('The frame of a record: two length bytes, which count what follows them, version and kind; then its body.',
     named('AT_', FRAME) + [('AT_BODY', size(FRAME))]),
    ('The version of records, and their kinds.', [('VERSION', records.VERSION)] + [
        ('KIND_' + kind.upper(), k) for k, kind in enumerate(records.KINDS) if kind]),
    ('Limits.', [
        ('FEWEST_SERVERS', layout.FEWEST_SERVERS), ('MOST_SERVERS', layout.MOST_SERVERS), ('LEAST_QUOTA', layout.LEAST_QUOTA),
        ('MOST_QUOTA', layout.MOST_QUOTA), ('MOST_PAYLOAD', layout.MOST_PAYLOAD)]),
    ('The longest green entry that a reading puts.', [('MOST_ENTRY', size(ID) + 1 + layout.MOST_PAYLOAD)]),
    ('Operations on the register: a payload\'s first byte.', [('SET', register.SET), ('MOVE', register.MOVE), ('RETIRE', register.RETIRE)]),
    ('The register\'s buffer, and its limits.', [
        ('MOST_PEGS', layout.MOST_PEGS), ('MOST_NAME', layout.MOST_NAME), ('REGISTER_COUNT_SIZE', size(PEG_COUNT)),
        ('REGISTER_AT_NAME', places(PEG)['name'][0]), ('REGISTER_AT_PLACE', places(PEG)['easting'][0]), ('REGISTER_PEG_SIZE', size(PEG)),
        ('REGISTER_LENGTH', layout.REGISTER_LENGTH)]),
)
GROUPS = (
    ('The state\'s image: fields of its header, which come first.', named('AT_', HEADER) + [('HEADER_SIZE', size(HEADER))]
     + [('IMAGE_' + name.upper(), value) for name, value in layout.FIXED.items()]),
    ('Entries of its sections.', [
        ('CUT_SIZE', layout.CUT), ('NOTED_SIZE', layout.NOTED), ('ID_SIZE', size(ID)), ('SLOT_SIZE', layout.SLOT)]),
    ('An action: in a slot, and in a record\'s body. Its payload follows.', named('ACTION_', ACTION) + [('ACTION_SIZE', size(ACTION))]),
    ('A retransmission: what stands before its action, and the longest record.', [
        ('RETRANSMISSION_SIZE', layout.RETRANSMISSION_HEAD), ('MOST_RETRANSMISSION', layout.MOST_RETRANSMISSION)]),
    ('A last primary, and a mark.', named('LAST_', short(LAST)) + named('MARK_', short(MARK))),
    ('A State\'s record: up to its cuts; and behind them, up to its yellow ids.', [c for c in named('STATE_', STATE_FRONT) if c[1] >= size(FRAME)] + [
        ('STATE_CUTS', size(STATE_FRONT))] + named('REST_', STATE_REST) + [('REST_SIZE', size(STATE_REST))]),
)


def enums(groups, prefix=''):
    return ''.join('\n/* %s */\nenum {\n' % comment + ',\n'.join('    %s%s = %d' % (prefix, *c) for c in constants) + '\n};\n'
                   for comment, constants in groups)


def public(text):
    """include/guzbytor.h with its constants; all else in it is written by hand."""
    written = '/* Written by scripts/generate.py from here .. */\n%s\n/* .. to here. */' % enums(PUBLIC, 'GUZBYTOR_')
    found, count = re.subn(r'/\* Written by scripts/generate.py from here .*? to here. \*/', lambda _: written, text, flags=re.S)
    if count != 1:
        raise SystemExit('include/guzbytor.h: no place for its constants')
    return found


def header():
    text = '/* Where records and the state\'s image have their parts (docs/LAYOUT.md), for the C files of this repository: the names have no\n'
    text += '   prefix. Written by scripts/generate.py. */\n'
    text += '#ifndef GUZBYTOR_LAYOUT_H\n#define GUZBYTOR_LAYOUT_H\n\n#include "guzbytor.h"\n'
    text += enums(GROUPS)
    text += '\n/* The highest primary index and attempt. */\nstatic const uint32_t MOST_INDEX = %du;\n' % layout.MOST_INDEX
    return text + '\n#endif\n'
