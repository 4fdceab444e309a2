"""The run of a network: what reaches its nodes and what its links decide, one time after another."""
import heapq
from typing import NamedTuple

from . import host, link, router, shims
from .trace import SEND, TICK
from .transfers import File


class Input(NamedTuple):
    """What reaches a node at a time: a row, or a packet on a link."""

    time: int
    node: int
    link: int
    packet: shims.Packet
    row: object


# ## what happens


class Arrived(NamedTuple):
    time: int
    node: int
    packet: shims.Packet
    link: int
    kind: str
    cause: str
    charge: router.Charge
    outcome: str


class Sent(NamedTuple):
    time: int
    node: int
    packet: shims.Packet
    shape: str
    outcome: str


class Received(NamedTuple):
    time: int
    node: int
    packet: shims.Packet
    link: int
    receipt: host.Receipt
    reply: Sent


class Ticked(NamedTuple):
    """A tick that sent nothing."""

    time: int
    node: int


class Started(NamedTuple):
    time: int
    node: int
    packet: shims.Packet
    link: int
    kind: str
    end: int


# ## nodes


class Node:
    """A node with its links by number. What it does depends on what reaches it, and on nothing else."""

    def __init__(self, config, number):
        self.number, self.plan = number, config.nodes[number]
        self.names = [node.name for node in config.nodes]
        self.plans = config.links
        self.links = {plan.number: link.Link(plan) for plan in config.links if plan.source == number}

    def queue(self, now, number, packet):
        """Queues a packet on the link of that number, and tells the outcome."""
        refusal = self.links[number].queue(now, packet)
        return f"dropped:{refusal}" if refusal else f"queued:{self.names[self.links[number].plan.target]}"


class RouterNode(Node):
    """A router. It keeps the charges of all boots; what it takes is judged by the plan and the charges in force then."""

    def __init__(self, config, number):
        super().__init__(config, number)
        self.charges = []
        self.made = 0

    def take(self, reaching):
        """What comes of a row, or of a packet on a link."""
        now, plan = reaching.time, router.in_force(self.plan, reaching.time)
        packet = reaching.packet if reaching.row is None else self.injected(reaching.row)
        tag = self.plan.edge_tag if reaching.link is None else self.plans[reaching.link].tag
        if router.is_spent(packet):
            happened = shims.class_of(packet), None, None, "dropped:hop-limit"
        else:
            fate = router.fate(plan, self.charges_at(now), now, tag, packet)
            self.charges += [fate.charge] if fate.charge else []
            happened = shims.class_of(fate.packet), fate.cause, fate.charge, self.pass_on(plan, now, fate.packet)
        return Arrived(now, self.number, packet, reaching.link, *happened)

    def injected(self, row):
        self.made += 1
        return shims.Packet((self.number, self.made), row.flow, row.payload, row.carried)

    def charges_at(self, now):
        """The charges of the boot in force."""
        return router.charges_of_boot(self.plan, self.charges, router.boot(self.plan, now))

    def pass_on(self, plan, now, packet):
        target = router.way(plan, packet.flow.destination)
        if target is None:
            return "dropped:no-route"
        [number] = [it for it, link in self.links.items() if link.plan.target == target]
        return self.queue(now, number, packet)


class HostNode(Node):
    def __init__(self, config, number):
        super().__init__(config, number)
        self.host = host.Host(self.plan, number)
        [self.uplink] = self.links

    def take(self, reaching):
        now, row = reaching.time, reaching.row
        if row is None:
            return self.received(now, reaching.link, reaching.packet)
        if row.carried is SEND:
            return self.sent(now, *self.host.intend(now, row.flow.destination, row.payload))
        if row.carried is TICK:
            made = self.host.repeat(now, row.flow.destination)
            return Ticked(now, self.number) if made is None else self.sent(now, *made)
        if isinstance(row.carried, File):
            return self.sent(now, *self.host.send_file(now, row.carried))
        return self.sent(now, shims.Packet(self.host.identity(), row.flow, row.payload, row.carried), "trace")

    def sent(self, now, packet, shape):
        return Sent(now, self.number, packet, shape, self.queue(now, self.uplink, packet))

    def received(self, now, number, packet):
        receipt, reply = self.host.receive(packet), None
        if receipt.answer is not None or receipt.upper is not None:
            reply = self.sent(now, *self.host.reply(now, packet.flow.source, receipt))
        return Received(now, self.number, packet, number, receipt, reply)


# ## the run


def turn(reaching):
    """In which order things reach a node at one time: rows first, then packets by the number of their link."""
    return -1 if reaching.link is None else reaching.link


class Run:
    """A run up to a time, and the queue of what is still to reach a node, by time, node, turn and place."""

    def __init__(self, config, rows):
        self.config, self.rows = config, rows
        makes = [RouterNode] * len(config.routers) + [HostNode] * len(config.hosts)
        self.nodes = [make(config, number) for number, make in enumerate(makes)]
        self.queue, self.put = [], 0
        self.happened = []
        for row in rows:
            self.reach(Input(row.time, row.node, None, None, row))

    def reach(self, reaching):
        """Puts into the queue what reaches a node, unless that is past the horizon."""
        if self.is_within(reaching.time):
            heapq.heappush(self.queue, (reaching.time, reaching.node, turn(reaching), self.put, reaching))
            self.put += 1

    def next_time(self):
        """The next time at which something reaches a node or a link decides by itself, or None."""
        times = [self.queue[0][0]] if self.queue else []
        times += [link.decides for node in self.nodes for link in node.links.values() if link.decides is not None]
        return min(times) if times and self.is_within(min(times)) else None

    def is_within(self, time):
        """Whether a time is not behind the horizon."""
        return time <= self.config.top.horizon

    def work(self, now):
        """What happens at the next time: at each node first what reaches it, then what its links start, by number."""
        reached, happened = self.reached(now), []
        for node in self.nodes:
            reaching = reached.get(node.number, [])
            if reaching or now in [link.decides for link in node.links.values()]:
                happened += self.work_node(now, node, reaching)
        self.happened += happened
        return happened

    def work_node(self, now, node, reaching):
        happened = [node.take(it) for it in reaching]
        for number in sorted(node.links):
            link = node.links[number]
            if decides(link, now, bool(happened)):
                started = link.decide(now)
                if started is not None:
                    happened.append(self.send(now, node, number, *started))
        return happened

    def reached(self, now):
        """Takes from the queue what reaches the nodes now, by their numbers."""
        reached = {}
        while self.queue and self.queue[0][0] == now:
            reaching = heapq.heappop(self.queue)[-1]
            reached.setdefault(reaching.node, []).append(reaching)
        return reached

    def send(self, now, node, number, kind, packet):
        """A start on a link. The packet reaches the other end the link's delay after its end."""
        link = node.links[number]
        self.reach(Input(link.free_at + link.plan.delay_ns, link.plan.target, number, packet, None))
        return Started(now, node.number, packet, number, kind, link.free_at)


def decides(link, now, is_reached):
    """Whether a link decides at a time: it is free, and its node was reached or it decides by itself."""
    return link.free_at <= now and (is_reached or link.decides == now)


# ## windows


def is_in_window(now, end):
    return now < end


def window_length(config):
    """The least delay, or all of the run where there is no link."""
    return min([link.delay_ns for link in config.links], default=config.top.horizon + 1)


def windows(run):
    """What happens, window by window. A window begins at the next time that there is past the one before."""
    now = run.next_time()
    while now is not None:
        end, happened = now + window_length(run.config), []
        while now is not None and is_in_window(now, end):
            happened += run.work(now)
            now = run.next_time()
        yield happened
