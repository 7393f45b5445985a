"""Vectors for the exchange's decisions.

    SERVERS QUOTA SET [cpcs SET] # LABEL      the configuration, and those whose CPC is in
      State ..                                the collected States; the last primary's set is everyone where none is said

A vector of the program is servers (1 byte), quota (2), both sets, and the States' records.
"""
from . import exchange, records, words


def shown_marks(states):
    return ''.join(' %d:%d %d %d %d %d;' % (x.sender, *exchange.judged(states, x)) for x in states)


def part(sender, bounds):
    return '' if sender is None else ' %d:%d-%d' % (sender, *bounds)


def answer(n, here, cpcs, states):
    """What the program prints."""
    senders = sum(1 << x.sender for x in states)
    status, ids = exchange.taken_yellow(states)
    reds = ''.join(part(exchange.red_resender(states, c), exchange.cuts(states, c)) for c in range(n))
    return (f'states {int(here & ~senders == 0)} cpcs {int(here & ~cpcs == 0)} planned {exchange.planned(n, states)}'
            f' quorum {int(exchange.quorum(states, here))} primary %d %d %d' % exchange.taken_primary(states)
            + f' attempt {exchange.taken_attempt(states)} yellow {status} ids {len(ids)} '
            + b''.join(records.packed(records.ID, d) for d in ids).hex()
            + ' green' + part(exchange.green_resender(states), exchange.greens(states)) + ' red' + reds + ' marks' + shown_marks(states))


def vectors(text):
    """The lines of input and output."""
    given, expected = [], []
    for line, label in words.lines_of(text):
        if not line:
            given.append(label)
            expected.append(label)
            continue
        front, *told = [words.Words(part) for part in line.replace(' State ', '\nState ').split('\n')]
        n, q, here = front.number(), front.number(), front.set()
        cpcs = front.set() if front.taken('cpcs') else 0
        states = [words.record(w, n, q, (1 << n) - 1) for w in told]
        data = records.packed((('', 1), ('', 2), ('', 1), ('', 1)), (n, q, here, cpcs))
        given.append(' '.join(d.hex() for d in [data] + [records.write(x) for x in states]) + ' ' + label)
        expected.append(answer(n, here, cpcs, states) + ' ' + label)
    return given, expected
