"""Sums over time of what a report doesn't tell, but determines under its configuration: the credit of requests, and the
flows that live at routers."""
import array
import collections
import functools
import heapq

import plans
import reading
from series import Untold

NONCE = (1 << 32) - 1  # in the place of rights: a nonce shows none of its own


class Credit:
    """What requests may take of each link."""

    columns, outlasts = ["time", "from", "to", "requests", "credit", "least", "full"], False

    def __init__(self, step, plan):
        self.step, self.debts = step, {}  # for each link its debt, since when, the requests of the step, the most debt
        self.links = {(link.source, link.to): (link.share * link.ns_per_byte, link.burst * link.share * link.ns_per_byte) for link in plan.links}
        self.sees = {"start": self.start}

    def start(self, time, words):
        if words[6] == "request":
            key = words[1], words[5]
            if key not in self.links:
                raise Untold(f"it has no link from {key[0]} to {key[1]}")
            cost, full = self.links[key]
            there = self.debts.setdefault(key, [0, time, 0, 0])
            there[0] = max(0, there[0] - (time - there[1])) + int(words[4]) * cost
            if there[0] > full:
                raise Untold(f"the requests from {key[0]} to {key[1]} take more than there is")
            there[1:] = [time, there[2] + 1, max(there[3], there[0])]

    def lines(self, begin):
        over = begin + self.step
        for key, there in sorted(self.debts.items()):
            debt, full = max(0, there[0] - (over - there[1])), self.links[key][1]
            yield [begin, *key, there[2], full - debt, full - there[3], full]
            there[:] = [debt, over, 0, debt]
        self.debts = {key: there for key, there in self.debts.items() if there[0]}

    def goes_on(self):
        return bool(self.debts)


class Slots:
    """The flows that live at each router. Each charge puts its credit on top of the flow's end, by the rights of its grant."""

    columns, outlasts = ["time", "router", "flows", "most", "slots"], False

    def __init__(self, step, ends, plan, trace):
        self.step, self.ends = step, ends
        self.routers = {router.name: Living(router, plan) for router in plan.routers}
        self.hosts = {host.name: (host.n, host.t) for host in plan.hosts}
        self.shown = rights_of(trace)  # of each node's rows the rights that they show themselves
        ends.known.update((host.address, host.name) for host in plan.hosts)
        self.sees = {"in": self.arrive}

    def arrive(self, time, words):
        _, node, _, name, length, _, kind, cause, outcome = words
        router = self.routers.get(node)
        if router is None:
            raise Untold(f"it has no router {node}")
        if kind == "regular" and cause == "-" and outcome != "dropped:hop-limit":
            _, source, target = self.ends.of(name)
            shown = self.rights_shown(name)
            own = self.hosts.get(target) if not shown else None if shown == NONCE else (shown >> 8, shown & 255)
            router.charge(time, (source, target), int(length), own)

    def rights_shown(self, name):
        """What the row that made a packet shows, or 0."""
        sender, row = self.ends.row_of(name)
        shown = self.shown.get(sender, ())
        return shown[row - 1] if 0 < row <= len(shown) else 0

    def lines(self, begin):
        for name, router in self.routers.items():
            flows = router.living(begin + self.step - 1)
            if router.most:
                yield [begin, name, flows, router.most, router.slots]
            router.most = router.living(begin + self.step)  # what the next step begins with

    def goes_on(self):
        return any(router.ends for router in self.routers.values())


def rights_of(trace):
    """For each node what its rows show, in their order, as numbers: 0 is for what a host makes, and for what shows nothing
    that can be charged; N * 256 + T are the rights of a list or a renewal; a nonce shows none of its own."""
    found = collections.defaultdict(lambda: array.array("I"))
    reading.each_row(trace, lambda node, kind, _s, _d, _p, shim: functools.partial(found[node].append, rights_of_row(kind, shim)))
    return found


def rights_of_row(kind, shim):
    try:
        if kind in ("list", "renew"):
            _, units, seconds, _ = shim.split("/", 3)
            return int(units) << 8 | int(seconds)
        if kind == "raw" and shim:
            told = plans.shims.read_shim(bytes.fromhex(shim))
            kind = getattr(told, "kind", "")
            if kind in ("list", "renewal"):
                return told.rights.n << 8 | told.rights.t
    except ValueError:
        return 0
    return NONCE if kind == "nonce" else 0


class Living:
    """The flows of a router, with the ends of their lives, in the boot in force."""

    def __init__(self, router, plan):
        self.slots, self.most = router.slots, 0
        self.restarts = sorted((restart.at_ns for restart in plan.restarts if restart.router == router.name), reverse=True)
        self.ends, self.order = {}, []  # each flow's end and rights, and ends that may have risen since

    def living(self, now):
        while self.restarts and self.restarts[-1] <= now:
            self.living_before(self.restarts.pop())
            self.ends, self.order = {}, []
        return self.living_before(now + 1)

    def living_before(self, now):
        """How many live right before a time, so at the one before it."""
        while self.order and self.order[0][0] < now:
            end, flow = heapq.heappop(self.order)
            if self.ends[flow][0] > end:
                heapq.heappush(self.order, (self.ends[flow][0], flow))
            else:
                del self.ends[flow]
        return len(self.ends)

    def charge(self, now, flow, length, rights):
        self.living(now)
        end, units, seconds = self.ends.get(flow, (now, 0, 0))
        units, seconds = rights or (units, seconds)
        if not units:
            raise Untold("a packet is charged to a grant of which it tells nothing")
        if flow not in self.ends:
            heapq.heappush(self.order, (now, flow))
        self.ends[flow] = end - -length * seconds * 1_000_000_000 // (1024 * units), units, seconds
        self.most = max(self.most, len(self.ends))
        if self.most > self.slots:
            raise Untold("more flows live than there are slots")
