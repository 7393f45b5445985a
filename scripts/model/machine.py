"""One server of document 01 with document 02's K1, K4 and K6: its state, and what each event does ('What each event does', 'Install', 'Returned numbers' rows 0 to 6)."""
import copy
from dataclasses import dataclass, field

from . import exchange
from .exchange import CLEARED, has
from .layout import MOST_NUMBER
from .records import Context, Record, Refused, need, read


@dataclass
class Server:
    servers: int
    quota: int
    me: int
    mode: str = 'Non_prim'
    configuration: tuple = None     # (id, set)
    transitional: int = None
    states: dict = field(default_factory=dict)
    cpcs: set = field(default_factory=set)
    come: int = 0
    green: list = field(default_factory=list)
    red: list = field(default_factory=list)
    cuts: list = None
    own: list = field(default_factory=list)
    numbered: int = 0
    sent: int = 0                   # up to which index own actions were sent
    noted: list = None
    white: int = 0                  # how many of the first green actions are white
    attempt: int = 0
    last: tuple = None
    mark: tuple = CLEARED
    yellow: tuple = (0, ())

    def __post_init__(self):
        self.cuts = [0] * self.servers
        self.noted = [0] * self.servers
        self.last = (0, 0, (1 << self.servers) - 1)

    def context(self):
        configured = self.configuration is not None
        return Context(self.servers, self.quota, self.me, int(configured), self.configuration[1] if configured else 0)

    def members(self):
        return [k for k in range(self.servers) if has(self.configuration[1], k)]

    def collected(self):
        return [self.states[k] for k in sorted(self.states)]

    def copied(self):
        """Records are never changed, so that lists of them are copied alone."""
        s = copy.copy(self)
        for name in ('states', 'cpcs', 'green', 'red', 'cuts', 'own', 'noted'):
            setattr(s, name, getattr(s, name).copy())
        return s


@dataclass
class Outcome:
    number: int
    state: Server
    sent: list = field(default_factory=list)
    store: bool = False


# ---- white actions (K6)

def places(s):
    """What has a place: all entered that is not white."""
    return s.green[s.white:] + s.red


def unwhite(s, creator):
    return sum(a.creator == creator for a in places(s))


def take_white(s, a):
    """"takes that white length if it is higher than its own, but never above its own green length" """
    s.white = max(s.white, min(len(s.green), a.white))


def whiten(s):
    """"An action green on every server, by the noted green lengths, becomes white" """
    s.white = max(s.white, min(len(s.green), min(s.noted)))


# ---- colours

def enter_red(s, a):
    """Whether it was entered. One whose creator has q unwhite ones here is passed over."""
    if a.index != s.cuts[a.creator] + 1:
        return False
    take_white(s, a)
    if unwhite(s, a.creator) >= s.quota:
        return False
    s.cuts[a.creator] += 1
    s.red.append(Record('action', **a.action()))
    s.own = [x for x in s.own if x.name() != a.name()]
    return True


def turn_green(s, name):
    for x in s.red:
        if x.name() == name:
            s.red.remove(x)
            s.green.append(x)
            return


def enter_green(s, a):
    enter_red(s, a)
    turn_green(s, a.name())


def enter_yellow(s, a):
    if enter_red(s, a) and a.name() not in s.yellow[1] and len(s.yellow[1]) < s.servers * s.quota:
        s.yellow = (s.yellow[0], s.yellow[1] + (a.name(),))


def note(s, k, length):
    s.noted[k] = max(s.noted[k], length)


# ---- requests

def quota_left(s):
    return unwhite(s, s.me) + len(s.own) < s.quota and s.numbered < MOST_NUMBER


def sends_now(s):
    return s.mode == 'Reg_prim' or s.mode == 'Non_prim' and s.configuration is not None and s.transitional is None


def send_waiting(s):
    """What is on the own list and was not sent, in order."""
    waiting = [a for a in s.own if a.index > s.sent]
    s.sent = s.numbered
    return waiting


# ---- exchange, Install

def join(s, r):
    s.mode, s.configuration, s.transitional = 'Exchange_states', (r.id, r.set), None
    s.states, s.cpcs = {}, set()
    told = Record('State', sender=s.me, id=r.id, cuts=tuple(s.cuts), green=len(s.green), attempt=s.attempt, last=s.last, mark=s.mark, yellow=s.yellow)
    return [told], True


def own_part(s):
    """Of what has a place; a white action is left out."""
    states, sent = s.collected(), []
    if exchange.green_resender(states) == s.me:
        low, high = exchange.greens(states)
        sent += [(p, s.green[p - 1]) for p in range(low + 1, high + 1) if s.white < p <= len(s.green)]
    for c in range(s.servers):
        if exchange.red_resender(states, c) == s.me:
            low, high = exchange.cuts(states, c)
            sent += [(0, a) for i in range(low + 1, high + 1) for a in places(s) if a.name() == (c, i)]
    return [Record('retransmission', sender=s.me, position=p, **a.action()) for p, a in sent]


def end_exchange(s):
    states = s.collected()
    for x in states:
        note(s, x.sender, x.green)
    go_on = exchange.quorum(states, s.configuration[1])
    s.last, s.attempt, s.yellow = exchange.taken_primary(states), exchange.taken_attempt(states), exchange.taken_yellow(states)
    s.mark = next((exchange.judged(states, v) for v in states if v.sender == s.me), CLEARED)
    if go_on:
        s.attempt += 1
        s.mark = (1, s.last[0], s.attempt, s.configuration[1], 0)
        s.mode = 'Construct'
        return [Record('CPC', sender=s.me, id=s.configuration[0])], True
    s.mode = 'Non_prim'
    return send_waiting(s), True


def install(s):
    for name in s.yellow[1]:
        turn_green(s, name)
    s.yellow = (0, ())
    s.last, s.attempt = (s.last[0] + 1, s.attempt, s.mark[3]), 0
    for name in sorted(a.name() for a in s.red):
        turn_green(s, name)


# ---- each kind of event in the states that take it: (records, whether to store)

def on_action(s, r):
    if s.mode in ('Non_prim', 'Exchange_states'):
        enter_red(s, r)
    elif s.mode == 'Reg_prim':
        enter_green(s, r)
        note(s, r.creator, r.green)
    else:
        if s.mode == 'Un':
            install(s)
        store, s.mode = s.mode == 'Un', 'Trans_prim'
        enter_yellow(s, r)
        return [], store
    return [], False


def on_retransmission(s, r):
    if s.mode == 'Non_prim':
        enter_red(s, r)
        return [], False
    if r.position == len(s.green) + 1:
        enter_green(s, r)
    elif not 0 < r.position <= len(s.green):
        enter_red(s, r)
    s.come += 1
    return end_exchange(s) if s.come >= exchange.planned(s.servers, s.collected()) else ([], False)


def on_state(s, r):
    if s.mode == 'Non_prim':
        return [], False
    s.states[r.sender] = r
    if not all(k in s.states for k in s.members()):
        return [], False
    if exchange.planned(s.servers, s.collected()) == 0:
        return end_exchange(s)
    s.mode, s.come = 'Exchange_actions', 0
    return own_part(s), False


def on_cpc(s, r):
    if s.mode == 'Non_prim':
        return [], False
    s.cpcs.add(r.sender)
    if not all(k in s.cpcs for k in s.members()):
        return [], False
    if s.mode == 'No':
        s.mode = 'Un'
        return [], False
    install(s)
    s.mode = 'Reg_prim'
    return send_waiting(s), True


def on_regular(s, r):
    if s.mode in ('Trans_prim', 'No'):
        s.mark = CLEARED
    if s.mode == 'Trans_prim':
        s.yellow = (1, s.yellow[1])
    return join(s, r)


def on_transitional(s, r):
    s.mode = {'Reg_prim': 'Trans_prim', 'Construct': 'No'}.get(s.mode, 'Non_prim')
    s.transitional = r.set
    return [], False


def on_request(s, r):
    s.numbered += 1
    s.own.append(Record('action', creator=s.me, index=s.numbered, green=len(s.green), white=s.white, payload=r.payload))
    return send_waiting(s) if sends_now(s) else [], True


def on_recovery(s, r):
    s.mode, s.configuration, s.transitional, s.states = 'Non_prim', None, None, {}
    for a in list(s.own):
        enter_red(s, a)
    return [], True


EVERY = ('Non_prim', 'Reg_prim', 'Trans_prim', 'Exchange_states', 'Exchange_actions', 'Construct', 'No', 'Un')
# The states that take an event, and what it does; "Any pair not named is refused 5".
TAKEN = {
    'action': (('Non_prim', 'Reg_prim', 'Trans_prim', 'Exchange_states', 'Un'), on_action),
    'retransmission': (('Non_prim', 'Exchange_actions'), on_retransmission),
    'State': (('Non_prim', 'Exchange_states'), on_state),
    'CPC': (('Non_prim', 'Construct', 'No'), on_cpc),
    'regular': (('Non_prim', 'Trans_prim', 'No', 'Un'), on_regular),
    'transitional': (('Non_prim', 'Reg_prim', 'Exchange_states', 'Exchange_actions', 'Construct'), on_transitional),
    'request': (EVERY, on_request),
    'recovery': (EVERY, on_recovery),
}


def possible(s, r):
    if s.mode not in TAKEN[r.kind][0]:
        return False
    if r.kind in ('action', 'retransmission'):
        return r.creator != s.me or r.index <= s.numbered
    if r.kind == 'regular':
        return s.configuration is None or s.transitional is not None
    return r.kind != 'transitional' or s.transitional is None


def ignored(s, r):
    return s.mode == 'Non_prim' and r.kind in ('State', 'CPC')


def from_member(s, r):
    if r.kind not in ('action', 'retransmission', 'State', 'CPC') or ignored(s, r):
        return True
    sender = r.creator if r.kind == 'action' else r.sender
    if s.configuration is None or not has(s.configuration[1], sender):
        return False
    if r.kind in ('State', 'CPC'):
        return r.id == s.configuration[0] and sender not in (s.states if r.kind == 'State' else s.cpcs)
    return True


def step(state, data):
    """The outcome of an event; a refusal leaves the state. For a recovery the state is the stored one."""
    s = state.copied()
    try:
        r = read(s.context(), data)
        need(possible(s, r), 5)
        need(from_member(s, r), 6)
        if r.kind == 'request':
            need(quota_left(s), 3)
    except Refused as refused:
        return Outcome(refused.number, state)
    ignoring = ignored(s, r)
    sent, store = TAKEN[r.kind][1](s, r)
    if not ignoring:
        whiten(s)
    return Outcome(0, s, sent, store)
