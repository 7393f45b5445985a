"""A run as a story, a line for each thing that happens:

    servers 3 quota 2
    0 1 2: regular 1 {0,1,2}         an event at each of these servers in turn, in words (words.py)
    0 1 2: deliver 0 1 2             the next records, of server 0, of 1 and of 2, that were sent in this server's configuration and it has not had
    1: request "A" sent 0            how many of the event's records are sent, if not all: a crash must follow
    crash 1 · 1: recover
    0: CPC 1 id 9 refused 6          an event that is refused says so
    0 1: has green 6 white 2 pegs 3  what these servers then have; `red` too; pegs in the register of the green actions
    alike 0 1 2                      these servers have the same green actions
    let day                          the lines up to `end` come where `day 1..25` stands, for each of these numbers in turn, which is put for each @
        0: request set "A@" @000 500
    end

From '//' on is a comment. Events that are refused 5 or 6 are strays. Whatever else a record's event says must come by `deliver`.
"""
import re
from dataclasses import dataclass, field

from . import records, register, words
from .machine import Server, step
from .records import Record

TOLD = ('action', 'retransmission', 'State', 'CPC')
HEADING = 'event server returned state red green prim sent'


@dataclass
class Entry:
    """A crash or a store between events, which have no bytes, or an event: its answer, the place and number of the sending that it delivers, the
    name of the transitional configuration that it brings; of a delivery also the configuration and the position in its order, if recorded."""
    server: int
    data: bytes = None
    number: int = 0
    line: str = ''
    record: Record = None
    source: tuple = None
    name: int = 0
    sent: int = 0
    cut: bool = False
    stores: bool = False
    position: tuple = None


@dataclass
class Story:
    servers: int
    quota: int
    entries: list = field(default_factory=list)
    left: list = field(default_factory=list)    # the servers' states in the end

    def events(self):
        return [e for e in self.entries if e.data is not None]

    def input(self):
        return records.write_setup(self.servers, self.quota) + b''.join(bytes([e.server]) + e.data for e in self.events())

    def output(self):
        return ''.join(line + '\n' for line in [HEADING] + [e.line for e in self.events()])

    def strays(self):
        """The places of the events refused 5 or 6."""
        return [k for k, e in enumerate(self.entries) if e.number in (5, 6)]


class Teller:
    def __init__(self, n, q):
        self.story = Story(n, q)
        self.memory = self.story.left = [Server(n, q, k) for k in range(n)]
        self.stored = list(self.memory)
        self.sendings = {}      # (configuration, sender): [(place, number, bytes)]
        self.had = {}           # (server, configuration, sender): how many of them
        self.names = {}         # (configuration, set): the name of the transitional configuration
        self.events = 0

    def here(self, k):
        c = self.memory[k].configuration
        return c and c[0]

    def deliver(self, k, sender):
        key = (self.here(k), sender)
        had = self.had.get((k, *key), 0)
        if had >= len(self.sendings.get(key, [])):
            raise ValueError('server %d has had all of server %d' % (k, sender))
        place, number, data = self.sendings[key][had]
        self.had[(k, *key)] = had + 1
        self.event(k, data, 0, (place, number), None)

    def event(self, k, data, refused, source, sent):
        recovery = data == records.write(Record('recovery'))
        outcome = step((self.stored if recovery else self.memory)[k], data)
        if outcome.number != refused:
            raise ValueError('returned %d' % outcome.number)
        before = self.here(k)
        if outcome.number == 0:
            self.memory[k] = outcome.state
            if outcome.store:
                self.stored[k] = outcome.state
        s, place = self.memory[k], len(self.story.entries)
        self.events += 1
        line = '%d %d %d %s %d %d %d %d' % (self.events, k, refused, s.mode, len(s.red), len(s.green), s.last[0], len(outcome.sent))
        record = None if refused else records.read_fields(s.context(), data)
        if record and record.kind in TOLD and source is None:
            raise ValueError('a record that was not sent is taken')
        count = len(outcome.sent) if sent is None else sent
        name = self.names.setdefault((before, record.set), len(self.names) + 1) if record and record.kind == 'transitional' else 0
        self.story.entries.append(Entry(k, data, refused, line, record, source, name, count, sent is not None))
        told = self.sendings.setdefault((self.here(k), k), [])
        told += [(place, i, records.write(r)) for i, r in enumerate(outcome.sent[:count])]

    def has(self, k, w):
        s = self.memory[k]
        counts = {'green': len(s.green), 'white': s.white, 'red': len(s.red), 'pegs': len(pegs(s))}
        while w:
            name, count = w.next(), w.number()
            if counts[name] != count:
                raise ValueError('server %d has %s %d' % (k, name, counts[name]))

    def alike(self, first, *others):
        if any(self.memory[k].green != self.memory[first].green for k in others):
            raise ValueError('their green actions differ')

    def line(self, text):
        if text.startswith('crash'):
            self.story.entries.append(Entry(int(text.split()[1])))
            return
        if text.startswith('alike'):
            self.alike(*map(int, text.split()[1:]))
            return
        servers, _, rest = text.partition(':')
        for k in (int(word) for word in servers.split()):
            rest_words = words.Words(rest)
            if rest_words.taken('deliver'):
                while rest_words:
                    self.deliver(k, rest_words.number())
                continue
            if rest_words.taken('has'):
                self.has(k, rest_words)
                continue
            plain, refused, sent = re.fullmatch(r'(.*?)(?: refused (\d))?(?: sent (\d+))?', rest.strip()).groups()
            w = words.Words('recovery' if plain == 'recover' else plain)
            data = words.event(w, self.story.servers, self.story.quota)
            self.event(k, data, int(refused or 0), None, None if sent is None else int(sent))


def pegs(s):
    return register.folded({}, [a.payload for a in s.green])[0]


def written_out(text):
    """(number, line) of each line, with the blocks in their places."""
    found, blocks = [], {}
    into = found
    for number, line in enumerate(text.splitlines(), 1):
        line = line.split('//')[0].strip()
        word, _, rest = line.partition(' ')
        if word == 'let':
            into = blocks[rest] = []
        elif word == 'end':
            into = found
        elif word in blocks:
            first, _, last = rest.partition('..')
            into += [(k, part.replace('@', str(i))) for i in range(int(first), int(last or first) + 1) for k, part in blocks[word]]
        elif line:
            into.append((number, line))
    return found


def told(text):
    """The story of a text."""
    teller = None
    for number, line in written_out(text):
        try:
            if teller is None:
                n, q = re.fullmatch(r'servers (\d+) quota (\d+)', line).groups()
                teller = Teller(int(n), int(q))
            else:
                teller.line(line)
        except ValueError as error:
            raise SystemExit('line %d, %s: %s' % (number, line, error))
    return teller.story
