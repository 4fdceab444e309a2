"""A link: what waits for it, how much requests may take of it, and what it starts next."""
from typing import NamedTuple

from . import shims
from .shims import length


class Started(NamedTuple):
    """The start of a request, and what it costs."""

    time: int
    cost: int


class Entry(NamedTuple):
    """An entry of a link's log: what was queued, or what started. It is for those who look at a run afterwards."""

    word: str
    time: int
    kind: str
    keys: tuple
    packet: shims.Packet


# ## fair queues: a ring of turns, in each of which a line of packets waits, or a further ring


class Line:
    """Packets, oldest first."""

    def __init__(self):
        self.packets = []

    def first(self):
        return self.packets[0] if self.packets else None

    def take(self, _quantum):
        return self.packets.pop(0)

    def put(self, _keys, packet, _quantum):
        self.packets.append(packet)

    def waiting(self):
        return self.packets


class Turn:
    """What waits under a key."""

    def __init__(self, key, deficit, inside):
        self.key, self.deficit, self.inside = key, deficit, inside


class Ring:
    """Turns with a deficit each: deficit round robin."""

    def __init__(self):
        self.turns = []

    def turn_of(self, key):
        found = [turn for turn in self.turns if turn.key == key]
        return found[0] if found else None

    def first(self):
        """The packet that goes next."""
        return self.turns[0].inside.first() if self.turns else None

    def take(self, quantum):
        turn = self.turns[0]
        packet = turn.inside.take(quantum)
        turn.deficit -= length(packet)
        following = turn.inside.first()
        if following is not None and goes_on(turn, following):
            return packet
        self.turns.pop(0)
        if following is not None:
            self.turns.append(turn)
        if self.turns:
            self.turns[0].deficit += quantum
        return packet

    def put(self, keys, packet, quantum):
        turn = self.turn_of(keys[0])
        if turn is None:
            turn = new_turn(self, keys, quantum)
            self.turns.append(turn)
        turn.inside.put(keys[1:], packet, quantum)

    def waiting(self):
        """All packets."""
        return [packet for turn in self.turns for packet in turn.inside.waiting()]


def goes_on(turn, following):
    """Whether a turn has bytes left for what follows in it."""
    return turn.deficit >= length(following)


def new_turn(ring, keys, quantum):
    """A turn that goes last: alone it begins with a quantum."""
    return Turn(keys[0], 0 if ring.turns else quantum, Ring() if keys[1:] else Line())


def size(packets):
    return sum(length(packet) for packet in packets)


# ## the link


class Link:
    """The state of a link at a time, with the list of all requests that it started."""

    def __init__(self, plan):
        self.plan = plan
        self.requests, self.regular, self.legacy = Ring(), Ring(), Line()
        self.started = []
        self.free_at = 0
        # when it decides by itself: where it becomes free, or where a wait ends
        self.decides = None
        self.log = []

    def queue(self, now, packet):
        """Queues a packet. Returns why it is dropped, or None."""
        kind = shims.class_of(packet)
        keys = shims.keys_of(packet, self.plan.request_levels) if kind != "legacy" else []
        refusal = refuses_legacy(self, packet) if kind == "legacy" else refuses(self, kind, keys, packet)
        if refusal is None:
            self.line(kind).put(keys, packet, self.plan.quantum)
            self.log.append(Entry("queued", now, kind, tuple(keys), packet))
        return refusal

    def line(self, kind):
        return {"request": self.requests, "regular": self.regular, "legacy": self.legacy}[kind]

    def decide(self, now):
        """What a free link does: it starts a packet, which is returned with its class, or waits, or does nothing."""
        request = self.requests.first()
        self.decides = None
        if request is not None and is_paid(self, request, now):
            self.started.append(Started(now, cost(self.plan, request)))
            return self.start(now, "request", self.requests.take(self.plan.quantum))
        if self.regular.first() is not None:
            return self.start(now, "regular", self.regular.take(self.plan.quantum))
        if self.legacy.first() is not None:
            return self.start(now, "legacy", self.legacy.take(self.plan.quantum))
        if request is not None:
            self.decides = now + cost(self.plan, request) - credit(self, now)
        return None

    def start(self, now, kind, packet):
        self.free_at = self.decides = now + length(packet) * self.plan.ns_per_byte
        self.log.append(Entry("started", now, kind, (), packet))
        return kind, packet


def cost(plan, packet):
    """The nanoseconds of credit that a request takes."""
    return length(packet) * plan.share * plan.ns_per_byte


def is_paid(link, request, now):
    """Whether there is credit for a request."""
    return cost(link.plan, request) <= credit(link, now)


def credit(link, now):
    """The cap less the debt."""
    return link.plan.burst * link.plan.share * link.plan.ns_per_byte - debt(link.started, now)


def debt(started, now):
    """The greatest, over the starts, of the costs of it and all later ones less the time since it."""
    greatest, costs = 0, 0
    for start in reversed(started):
        costs += start.cost
        greatest = max(greatest, costs - (now - start.time))
    return greatest


def refuses(link, kind, keys, packet):
    """Why a request or a regular packet finds no place, or None."""
    plan = link.plan
    queues, ring, queue_bytes, all_bytes = [
        getattr(plan, f"{kind}_{limit}") for limit in ("queues", "ring", "queue_bytes", "bytes")
    ]
    inside = link.line(kind)
    for key, most in zip(keys, [queues, plan.request_inner]):
        turn = inside.turn_of(key)
        if turn is None and len(inside.turns) >= most:
            return "no-queue"
        inside = turn.inside if turn else Ring()
    waiting = inside.waiting()
    if len(waiting) + 1 > ring or size(waiting + [packet]) > queue_bytes:
        return "queue-full"
    return "queue-full" if size(link.line(kind).waiting() + [packet]) > all_bytes else None


def refuses_legacy(link, packet):
    waiting = link.legacy.waiting() + [packet]
    is_full = len(waiting) > link.plan.legacy_ring or size(waiting) > link.plan.legacy_bytes
    return "queue-full" if is_full else None
