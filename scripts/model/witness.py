"""What the run of a story or of a journal chose, for the audit (crates/replication/specs/Audit/Witness.antt): the sending that each delivery
delivers, the names of transitional configurations, and the ords. Entries that share a moment (deliveries of one record or of one configuration)
are one node of a graph whose edges are each server's own order, sending before delivery, and each configuration's one order where it is recorded;
its nodes are numbered in an order that keeps to the edges. In a run that is not allowed the edges may make a circle, and a sending may be missing:
the audit then says what fails."""
import heapq
from collections import defaultdict


class Witness:
    def __init__(self, story):
        strays = set(story.strays())
        kept = [k for k in range(len(story.entries)) if k not in strays]
        self.place = {k: place for place, k in enumerate(kept)}
        self.entries = [story.entries[k] for k in kept]
        self.sources = [(self.place.get(e.source[0], len(kept)), e.source[1]) if e.source else (0, 0) for e in self.entries]
        self.names = [e.name for e in self.entries]
        ords, self.circle = ordered(self.edges())
        self.ords = [ords[self.node(p)] for p in range(len(kept))]
        self.sending_ords = [[ords['sending', p, i] for i in range(e.sent)] for p, e in enumerate(self.entries)]

    def node(self, p):
        e = self.entries[p]
        if e.source:
            return ('delivery', *self.sources[p])
        if e.record and e.record.kind == 'regular':
            return ('regular', e.record.id)
        return ('transitional', self.names[p]) if self.names[p] else ('entry', p)

    def is_sent(self, place, number):
        return place < len(self.entries) and number < self.entries[place].sent

    def edges(self):
        """Pairs of nodes, in the story's order; (None, x) names the first node of a server."""
        found, last = [], {}
        for p, e in enumerate(self.entries):
            if e.source and self.is_sent(*self.sources[p]):
                found.append((('sending', *self.sources[p]), self.node(p)))
            for x in [self.node(p)] + [('sending', p, i) for i in range(e.sent)]:
                found.append((last.get(e.server), x))
                last[e.server] = x
        return found + self.one_orders()

    def one_orders(self):
        """Each configuration's records by their positions, one after another."""
        orders = defaultdict(dict)
        for p, e in enumerate(self.entries):
            if e.position:
                orders[e.position[0]][e.position[1]] = self.node(p)
        chains = [[x for _, x in sorted(order.items())] for order in orders.values()]
        return [pair for chain in chains for pair in zip(chain, chain[1:])]


def ordered(edges):
    """A number for each node, above those of the nodes before it, and whether there is a circle: a node of it is then numbered before its turn."""
    after, waits, nodes = defaultdict(list), defaultdict(int), {}
    for a, b in dict.fromkeys(edges):
        nodes.setdefault(b, len(nodes))
        if a is not None:
            after[a].append(b)
            waits[b] += 1
    ready = [(k, x) for x, k in nodes.items() if not waits[x]]
    ords, circle = {}, False
    while len(ords) < len(nodes):
        if not ready:
            circle = True
            ready.append(next((k, x) for x, k in nodes.items() if x not in ords))
        x = heapq.heappop(ready)[1]
        ords[x] = len(ords)
        for y in after[x]:
            waits[y] -= 1
            if not waits[y] and y not in ords:
                heapq.heappush(ready, (nodes[y], y))
    return ords, circle
