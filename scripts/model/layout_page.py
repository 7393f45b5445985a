"""The numbers of docs/LAYOUT.md: offsets, the header's size, where sections begin, the formulas and their values. The page's words are written by hand."""
import re

from . import layout, tables
from .layout import HEADER, MOST_PEGS, PEG, PEG_COUNT, REGISTER_LENGTH, size


def with_offsets(text):
    """Each row of the header's table begins behind the row before it."""
    at = 0

    def moved(row):
        nonlocal at
        found = '| %d | %s |' % (at, row.group(1))
        at += sum(int(width) for width in row.group(1).split(','))
        return found

    text = re.sub(r'^\| \d+ \| ([\d, ]+) \|', moved, text, flags=re.M)
    if at != size(HEADER):
        raise SystemExit('docs/LAYOUT.md: its fields have %d bytes and not %d' % (at, size(HEADER)))
    return text


def with_lengths(text):
    def counted(row):
        n, q = int(row.group(1)), int(row.group(2))
        return '| %d, %d | %s | %s |' % (n, q, f'{layout.state_length(n, q):,}', f'{layout.out_length(n, q):,}')

    return re.sub(r'^\| (\d), (\d+) \| [\d,]+ \| [\d,]+ \|', counted, text, flags=re.M)


# The page's names of sections.
SECTIONS = {
    'header': None, 'cuts': 'cuts', 'noted lengths': 'noted', 'collected States': 'State', 'yellow ids': 'yellow',
    'own list': 'own', 'queue': 'queue', 'end': 'end',
}


def begins(section, n, q):
    return 0 if section is None else layout.sections(n, q)[section][0]


def quadratic(value):
    """The coefficients of 1, n and n², from a quadratic's values at 0, 1 and 2."""
    zero, one, two = value(0), value(1), value(2)
    square = (two - 2 * one + zero) // 2
    return zero, one - zero - square, square


def formula(section):
    """Where a section begins, in n and q: offsets have no higher powers than n² and q."""
    fixed = quadratic(lambda n: begins(section, n, 0))
    by_quota = quadratic(lambda n: begins(section, n, 1) - begins(section, n, 0))
    terms = [(c, power) for c, power in zip(fixed + by_quota, ('', ' n', ' n²', ' q', ' n q', ' n² q')) if c]

    def value(n, q):
        return sum(c * n ** power.count('n') * n ** power.count('²') * q ** power.count('q') for c, power in terms)

    if any(value(n, q) != begins(section, n, q) for n in range(2, 9) for q in (1, 2, 16, 255, 256)):
        raise SystemExit('docs/LAYOUT.md: no such formula for ' + str(section))
    return ' + '.join('%d%s' % t for t in terms) or '0'


def with_sections(text):
    """The table of where sections begin; its heading names n and q of each column."""
    heading = re.search(r'^\| Section \| Begins at \|(.*)$', text, flags=re.M).group(1)
    columns = [(int(n), int(q)) for n, q in re.findall(r'n (\d+), q (\d+)', heading)]

    def filled(row):
        section = SECTIONS[row.group(1)]
        cells = [row.group(1), formula(section)] + [f'{begins(section, n, q):,}' for n, q in columns]
        return '| ' + ' | '.join(cells) + ' |'

    names = '|'.join(SECTIONS)
    return re.sub(r'^\| (%s) \| [^|]* (?:\| [\d,]+ ){%d}\|$' % (names, len(columns)), filled, text, flags=re.M)


# What follows the count in a register's buffer.
SLOTS = '%d × %s' % (size(PEG), f'{MOST_PEGS:,}')


def with_formulas(text):
    text = re.sub(r'^State: \d+ \+', 'State: %d +' % size(HEADER), text, flags=re.M)
    return re.sub(r'^Register: .* = [\d,]*\d', 'Register: %d + %s = %s' % (size(PEG_COUNT), SLOTS, f'{REGISTER_LENGTH:,}'), text, flags=re.M)


def with_register(text):
    text = re.sub(r'begins at \d+ \+ \d+ k', 'begins at %d + %d k' % (size(PEG_COUNT), size(PEG)), text)
    return tables.with_places(text, 0, [size(PEG_COUNT), (SLOTS, SLOTS)])


def page(text):
    found = []
    for title, section in tables.sections(text):
        if title == 'Fields':
            section = with_sections(with_offsets(section))
            section = re.sub(r'^\| header \| \d+ \| the', '| header | %d | the' % size(HEADER), section, flags=re.M)
        elif title == 'Required lengths':
            section = with_lengths(with_formulas(section))
        elif title == 'The register\'s buffer':
            section = with_register(section)
        elif title == 'A peg\'s slot':
            section = tables.with_places(section, 0, [w for _, w in PEG])
        found.append(section)
    return ''.join(found)
