"""What the collected States decide (document 01, 'Plan' and 'End of exchange'). States are in the order of their senders."""
from .layout import MOST_INDEX

CLEARED = (0, 0, 0, 0, 0)


def has(s, k):
    return s >> k & 1 == 1


# ---- plan

def spread(values):
    return (min(values), max(values)) if values else (0, 0)


def greens(states):
    return spread([x.green for x in states])


def cuts(states, creator):
    return spread([x.cuts[creator] for x in states])


def planned(n, states):
    parts = [greens(states)] + [cuts(states, c) for c in range(n)]
    return sum(high - low for low, high in parts)


def first_with(states, highest, value):
    """"Lowest number wins ties." """
    return next((x.sender for x in states if value(x) == highest), None)


def green_resender(states):
    return first_with(states, greens(states)[1], lambda x: x.green)


def red_resender(states, creator):
    return first_with(states, cuts(states, creator)[1], lambda x: x.cuts[creator])


# ---- the taken primary, attempt and yellow list

def taken_primary(states):
    # max gives the first of equal ones: the lowest-numbered sender's.
    return max((x.last for x in states), key=lambda p: p[:2], default=(0, 0, 0))


def updated_group(states):
    pair = taken_primary(states)[:2]
    return [x for x in states if x.last[:2] == pair]


def taken_attempt(states):
    return max((x.attempt for x in updated_group(states)), default=0)


def taken_yellow(states):
    lists = [x.yellow[1] for x in updated_group(states) if x.yellow[0] == 1]
    if not lists:
        return (0, ())
    return (1, tuple(d for d in lists[0] if all(d in ids for ids in lists[1:])))


# ---- marks: (status, index, attempt, set, bits)

def joined_bits(states, v):
    bits = v.mark[4]
    for x in states:
        if x.mark[0] == 1 and x.mark[1:4] == v.mark[1:4]:
            bits |= x.mark[4] | 1 << x.sender
    return bits


def judged(states, v):
    status, index, attempt, members, _ = v.mark
    if status == 0:
        return CLEARED
    primary = taken_primary(states)
    if primary[0] > index and not has(primary[2], v.sender):
        return CLEARED
    if any(has(members, x.sender) and (x.mark[0] == 0 or x.mark[1:3] != (index, attempt)) for x in states):
        return CLEARED
    bits = joined_bits(states, v)
    return CLEARED if members & ~bits == 0 else (status, index, attempt, members, bits)


def outvotes(members, here):
    """More than half of the members are here; or half of them, with the lowest-numbered one (document 02, K1)."""
    numbers = [k for k in range(members.bit_length()) if has(members, k)]
    present = [k for k in numbers if has(here, k)]
    absent = [k for k in numbers if not has(here, k)]
    return len(present) > len(absent) or len(present) == len(absent) > 0 and min(present) < min(absent)


def quorum(states, here):
    index, _, members = taken_primary(states)
    return (all(judged(states, v)[0] == 0 for v in states) and outvotes(members, here)
            and index < MOST_INDEX and taken_attempt(states) < MOST_INDEX)
