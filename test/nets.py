"""Nets of filters by which strangers make what another sends as dear as they can, for test/hostile and bench/strangers; and what
test/random-nets needs too."""
import os
import random

FILTERS = PORTS = 16
QUEUES = 8
SOURCES = 32
HOPS = 8
MOST = 2000
ALL = "65535 1023 0 127 0"


def words_of(place, scripts):
    """The words that name these scripts, which are written."""
    words = []
    for client, text in scripts:
        path = os.path.join(place, str(client))
        with open(path, "wb") as f:
            f.write(text)
        words.append(f"{client}={path}")
    return words


def chains_and_ways(edges, source):
    """How many chains of subscriptions begin at a node, none longer than a way may be; and how many of them end at a port, and so
    are ways."""
    targets = {}
    for start, target in edges:
        targets.setdefault(start, []).append(target)
    reached, chains, ways = {source: 1}, 0, 0
    for _ in range(HOPS):
        further = {}
        for node, count in reached.items():
            for target in targets.get(node, ()):
                chains += count
                if ":p" in target:
                    ways += count
                else:
                    further[target] = further.get(target, 0) + count
        reached = further
    return chains, ways


def rule_of(chance):
    """A rule that lets all pass: as it is, or with its notes shifted and its channel set at random."""
    if chance is None:
        return ALL
    return f"65535 1023 0 127 {chance.choice((-5, -3, -2, -1, 1, 2, 3, 4))} {chance.randrange(16)}"


class Net:
    """The net of so many strangers from client FIRST on, behind a port: each filter is joined to the 32 after it, whosever they are,
    and the ports of each stranger to the last 32 filters of its own and of the stranger before it.

    With `last` one client more has a port behind the last filter alone, and room for one message at a time. With `listens` all strangers
    do."""

    def __init__(self, strangers, source="128:p0", first=130, forms=False, last=False, listens=False):
        self.clients = range(first, first + strangers)
        self.source, self.last = source, first + strangers if last else None
        self.listens = listens
        self.chance = random.Random(strangers) if forms else None
        self.filters = [f"{client}:f{n}" for client in self.clients for n in range(FILTERS)]

    def edges(self):
        """The subscriptions, by the client that makes them."""
        filters = self.filters
        for at, target in enumerate(filters):
            # The port that sends is one of the sources of the first filters.
            sources = filters[max(0, at - SOURCES):at] + ([self.source] if at < SOURCES else [])
            for source in sources[-SOURCES:]:
                yield self.clients[at // FILTERS], source, target
        for place, client in enumerate(self.clients):
            behind = filters[max(0, (place - 1) * FILTERS):(place + 1) * FILTERS]
            for port in range(PORTS):
                for source in behind:
                    yield client, source, f"{client}:p{port}"
        if self.last:
            yield self.last, filters[-1], f"{self.last}:p0"

    def ways(self):
        """How many copies come of one message."""
        return chains_and_ways(((source, target) for _, source, target in self.edges()), self.source)[1]

    def scripts(self, receipts=()):
        """For each stranger its number and its script. The client with room for one takes what it has at each of the moments."""
        lines = {}
        for client in self.clients:
            lines[client] = [f"0 open s{client} {MOST} {MOST}"]
            lines[client] += [f"0 port {n} p{n} 99" for n in range(PORTS)]
            lines[client] += [f"0 filter {n} 99 {rule_of(self.chance)}" for n in range(FILTERS)]
        if self.last:
            lines[self.last] = ["0 open last 1 1", "0 port 0 p 99"]
        for client, source, target in self.edges():
            lines[client].append(f"1 connect {source} {target}")
        if self.last:
            lines[self.last] += [f"{moment} receive 1" for moment in receipts]
        if self.listens:
            for client in self.clients:
                lines[client].append("1 listen")
        return [(client, "\n".join(text).encode() + b"\n") for client, text in lines.items()]
