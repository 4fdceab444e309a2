"""Random traces over a network: honest rows, forged ones, files with ticks that go on with them, and what was seen in a
run of the same network before, shown again by those who own it, by others, and too late."""
from . import changes, networks
from .networks import SECOND, chance

from model import hashes, router, shims
from model import run as runs
from model.transfers import File

HEADER = "time,node,kind,src,dst,payload,shim"
NONCES = ["00000000000a", "00000000000b", "000000000001", "000000000002", "000000000003", "ffffffffffff", "000000000000"]
PAYLOADS = [0, 0, 1, 20, 77, 100, 472, 500, 984, 1_000, 1_500, 1_600]
HALVES = [472, 470, 464, 462, 984, 982, 976, 974, 0, 100, 1_000]
LARGE = [0, 500, 1_000, 1_000, 1_500, 1_500, 1_600]
SEGMENTS = [1, 1, 2, 7, 20, 69, 92, 100, 464, 500, 964, 1_000, 1_499, 1_500]
OWN = ("send", "file", "tick")
TALKS = [0, 10**6, 3 * 10**8, 6 * 10**8, SECOND, SECOND + 10**6]
STORMS = [0, 0, 0, 0, 1, 1_000, 10_000, 100_000]
STEPS = [0, 0, 0, 1, 20, 28, 100, 1_000, 100_000, 10**6, 10**6, 10**8, 5 * 10**8, SECOND - 1, SECOND]


# ## what a trace is drawn from


class Sources:
    """What the rows of a network are drawn from. `run` is one of the model before, or None."""

    def __init__(self, rng, network, run=None):
        self.rng, self.network = rng, network
        seen = run.happened if run else []
        self.nodes = [it["name"] for it in network.router + network.host]
        self.routers = {it["name"]: it for it in network.router}
        self.hosts = {it["name"]: it for it in network.host}
        own = [it["address"] for it in network.host]
        self.addresses = own * 4 + networks.ADDRESSES[:5]
        self.rights = [(it.get("n", 32), it.get("t", 10)) for it in network.host]
        self.rights += [(1, 2), (1, 1), (2, 4), (3, 10), (1, 63), (rng.choice([0, 1, 1_024, 5_000]), rng.choice([0, 3, 64, 127]))]
        self.flow = rng.choice(self.addresses), rng.choice(self.addresses)
        self.shown = rng.choice(self.rights), rng.choice(NONCES)
        packets = [it.packet for it in seen if not isinstance(it, runs.Ticked)]
        self.packets = [it for it in packets if isinstance(it.carried, shims.Shim)]
        self.times = [it.time for it in seen] + [it.end for it in seen if hasattr(it, "end")]
        nodes = run.nodes if run else []
        self.charged = [(node, place) for node in nodes for place in range(len(getattr(node, "charges", ())))]
        self.waits = [told for node in nodes for link in node.links.values() for told in waits(node, link)]
        self.changes = changes.all_times(network)
        self.restarted = [(node, place, it) for node, place in self.charged for it in later_restarts(node, place)]
        self.talks = False
        self.files = [(run.config.nodes[it.node].name, dotted(it.flow.destination)) for it in run.rows if is_file(it)] if run else []

    def a_flow(self):
        """The flow that this trace is about, or another."""
        if chance(self.rng, 0.6):
            return self.flow
        return self.rng.choice(self.addresses), self.rng.choice(self.addresses)

    def a_grant(self):
        """The rights and the nonce that this trace is about, or others."""
        rights, nonce = self.shown
        rights = self.rng.choice(self.rights) if chance(self.rng, 0.3) else rights
        return rights, self.rng.choice(NONCES) if chance(self.rng, 0.3) else nonce

    def payload(self):
        if self.network.mode == "storm":
            return self.rng.choice(LARGE)
        if self.talks:
            return self.rng.choice(HALVES)
        return self.rng.choice(PAYLOADS) if chance(self.rng, 0.9) else self.rng.randrange(1_601)

    def a_file(self):
        """The bytes of a segment and of a file: a few segments, mostly, and just that, a byte more or less, or anything;
        and as many as may be where the events end it."""
        rng = self.rng
        segment = rng.choice(SEGMENTS) if chance(rng, 0.8) else rng.randrange(1, 1_501)
        if self.network.top["max_events"] < 1_000 and chance(rng, 0.04):
            return segment, rng.choice([100_000_000, 99_999_999, 1 << 24])
        size = segment * rng.choice([1, 1, 2, 2, 3, 4, 6]) + rng.choice([0, 0, 0, 1, -1, rng.randrange(segment)])
        return segment, max(1, size)


def is_file(row):
    return isinstance(row.carried, File)


def later_restarts(node, place):
    """The restarts of a router behind one of its charges."""
    return [it for it in node.plan.restarts if it.at_ns > node.charges[place].time]


def number(address):
    return int.from_bytes(bytes(map(int, address.split("."))), "big")


def path(network, node, destination, now):
    """The routers on the way from a node, as far as five, as ways lead at a time."""
    names, found, address = [it["name"] for it in network.router], [], number(destination)
    if node not in names:
        node = [it["to"] for it in network.link if it["from"] == node][0]
    while node in names and len(found) < 5:
        found.append(node)
        ways = changes.ways(network, node, now).items()
        ways = [(bits, via) for (bits, front), via in ways if address >> (32 - bits) == front]
        node = max(ways)[1] if ways else None
    return found


# ## shims


def item(sources, name, now, flow, rights, second):
    """What a router gives in a second. By its name it is of its first master, and by its digits of the one at that time."""
    first, at_now = sources.routers[name]["master"], changes.master(sources.network, name, now)
    if first == at_now or chance(sources.rng, 0.3):
        return f"{name}@{second}"
    flow = shims.Flow(*map(number, flow))
    return hashes.capability(hashes.precapability(bytes.fromhex(at_now), flow, second), shims.Rights(*rights)).hex()


def capabilities(sources, now, node, flow, rights):
    """The items of a list: honest, late, early, forged."""
    rng, items = sources.rng, []
    for name in path(sources.network, node, flow[1], now) or [rng.choice([*sources.routers, "00"])]:
        second = (now + sources.routers.get(name, {}).get("clock_offset_ns", 0)) // SECOND
        second = max(0, second - rng.choice([0, 0, 0, 1, 1, 2, 3, 256, rng.randrange(70)]))
        is_known = name in sources.routers and second <= 2_000_000
        items.append(item(sources, name, now, flow, rights, second) if is_known else f"{rng.getrandbits(64):016x}")
    if chance(rng, 0.1):
        items.insert(rng.randrange(len(items) + 1), f"{rng.getrandbits(64):016X}")
    if chance(rng, 0.05):
        items = items[: rng.randrange(len(items) + 1)]
    if chance(rng, 0.02):
        items = (items * 16)[:16]
    return items


def shown(sources, now, node, flow):
    """The field of a list or a renewal."""
    (units, seconds), nonce = sources.a_grant()
    items = capabilities(sources, now, node, flow, (units, seconds))
    pointer = 0 if chance(sources.rng, 0.85) else sources.rng.randrange(len(items) + 1)
    return f"{nonce}/{units}/{seconds}/{pointer}/{';'.join(items)}"


def back(rng):
    if chance(rng, 0.3):
        return shims.Back()
    count = rng.choice([0, 1, 1, 2, 3, 16])
    return shims.Back(shims.Rights(rng.choice([0, 1, 2, 1_023]), rng.choice([0, 2, 10, 63])), tuple(rng.randbytes(8) for _ in range(count)))


def request(sources):
    rng = sources.rng
    counts, tags = ([0, 0, 1, 1, 2, 3, 14, 15, 16], [0, 0, 1, 2, 3, 65_535])
    if sources.network.mode == "storm":
        counts, tags = [1, 2, 3, 3, 4], [0, 1, 2, 3]
    return tuple(shims.Entry(rng.choice(tags), rng.randbytes(8)) for _ in range(rng.choice(counts)))


def shim(sources):
    """A shim of any kind."""
    rng = sources.rng
    (units, seconds), nonce = sources.a_grant()
    rights = shims.Rights(units, seconds)
    version = max(shims.version_of(rights), rng.choice([1, 1, 2]))
    told = shims.Shim(version, rng.choice(["request", "request", *shims.KINDS]), chance(rng, 0.2), rng.choice([6, 6, 17, 255]))
    told = told._replace(back=back(rng) if chance(rng, 0.3) else None)
    if told.kind == "request":
        return told._replace(entries=request(sources))
    told = told._replace(nonce=int(nonce, 16))
    if told.kind == "nonce":
        return told
    items = tuple(rng.randbytes(8) for _ in range(rng.choice([0, 1, 1, 2, 16])))
    return told._replace(rights=rights, capabilities=items, pointer=rng.randrange(len(items) + 1))


def raw(sources):
    """The field of a raw row."""
    rng = sources.rng
    if chance(rng, 0.15):
        return ""
    if chance(rng, 0.1):
        return rng.randbytes(rng.choice([1, 2, 3, 8, 13, 60, 400])).hex()
    told = shims.layout(shim(sources))
    if chance(rng, 0.1):
        told = damaged(rng, told)
    return told.hex() if chance(rng, 0.8) else told.hex().upper()


def damaged(rng, data):
    """Some bytes with one of them changed, left out, or put in."""
    place = rng.randrange(len(data)) if data else 0
    return rng.choice(
        [
            data[:place] + bytes([rng.choice([0, 1, 2, 3, 16, 17, 255, rng.randrange(256)])]) + data[place + 1 :],
            data[:place] + data[place + 1 :],
            data[:place] + rng.randbytes(1) + data[place:],
            data[:place],
        ]
    )


# ## rows


KNOWN = [(5, "05a306372d5b388a"), (127, "7f5b095cc11fa77a")]
MIXED = ["send"] * 8 + ["list"] * 5 + ["nonce"] * 3 + ["renew"] * 2 + ["raw"] * 4 + ["file", "tick"]
TALK = ["send"] * 20 + ["nonce", "list", "raw", "file", "tick"]
FILES = ["file"] * 6 + ["tick"] * 9 + ["send"] * 4 + ["nonce", "list", "raw"]
STORM = ["raw"] * 8 + ["list"] * 4 + ["nonce", "send", "file"]


def row(sources, now, node, kinds):
    """A row of a kind by chance."""
    rng, flow, payload = sources.rng, sources.a_flow(), sources.payload()
    kind = rng.choice(kinds)
    if node in sources.hosts and kind not in OWN and chance(rng, 0.5):
        flow = sources.hosts[node]["address"], flow[1]
    if kind in OWN and node in sources.hosts:
        flow = flow[::-1] if flow[1] == sources.hosts[node]["address"] and chance(rng, 0.95) else flow
        return own_row(sources, now, node, kind, flow[1], payload)
    if kind in ("list", "renew"):
        return now, node, kind, *flow, payload, shown(sources, now, node, flow)
    if kind == "nonce":
        return now, node, kind, *flow, payload, sources.a_grant()[1]
    return now, node, "raw", *flow, payload, raw(sources)


def own_row(sources, now, node, kind, destination, payload):
    """A row whose packet the host makes. A tick is for a file of this host, mostly."""
    if kind == "send":
        return now, node, kind, "", destination, payload, ""
    own = [it for name, it in sources.files if name == node]
    if kind == "tick":
        return now, node, kind, "", sources.rng.choice(own) if own and chance(sources.rng, 0.9) else destination, 0, ""
    destination = sources.rng.choice(own) if own and chance(sources.rng, 0.3) else destination
    sources.files.append((node, destination))
    return now, node, kind, "", destination, *sources.a_file()


def dotted(address):
    return ".".join(map(str, address.to_bytes(4, "big")))


def stolen(sources, now, node):
    """A row that shows what was seen in a run: just that, or a part of it, by its owner or by another."""
    rng = sources.rng
    packet = rng.choice(sources.packets)
    shim, flow = packet.carried, tuple(map(dotted, packet.flow))
    if chance(rng, 0.2):
        flow = sources.a_flow()
    payload = packet.payload if chance(rng, 0.5) else sources.payload()
    if shim.kind != "request" and chance(rng, 0.4):
        nonce = (shim.nonce + rng.choice([0, 0, 0, 1])) % (1 << 48)
        return now, node, "nonce", *flow, payload, f"{nonce:012x}"
    if shim.back and shim.back.rights and chance(rng, 0.5):
        flow, rights = flow[::-1], shim.back.rights
        items = ";".join(it.hex() for it in shim.back.capabilities)
        return now, node, rng.choice(["list", "renew"]), *flow, payload, f"{rng.choice(NONCES)}/{rights.n}/{rights.t}/0/{items}"
    if chance(rng, 0.1):
        shim = shim._replace(demoted=not shim.demoted)
    return now, node, "raw", *flow, payload, shims.layout(shim).hex()


def turning(sources):
    """A row at a router just at the end of a flow, or where its grant ends, or next to it."""
    rng = sources.rng
    node, place = rng.choice(sources.charged)
    charge = node.charges[place]
    grant, offset = charge.grant, node.plan.clock_offset_ns
    charges = router.charges_of_boot(node.plan, node.charges[: place + 1], router.boot(node.plan, charge.time))
    end = router.end_of(router.charges_of(charges, grant.flow))
    expiry = (grant.second + grant.rights.t) * SECOND - offset
    return charged(sources, node, charge, max(0, rng.choice([end, end, end, expiry]) + rng.choice([0, 0, -1, -1, 1])))


def rebooting(sources):
    """A row at a router that shows what was charged there before, just when it restarts, or next to it."""
    node, place, restart = sources.rng.choice(sources.restarted)
    return charged(sources, node, node.charges[place], max(0, restart.at_ns + sources.rng.choice([0, 0, 0, -1, 1, 10**6])))


def spending(sources):
    """Rows at a router that use one grant up in each of some boots: before a restart, and at some of those from it on, or
    behind them."""
    rng, network = sources.rng, sources.network
    name = rng.choice(network.restart)["router"]
    restarts = [it["at_ns"] for it in network.restart if it["router"] == name]
    first = rng.randrange(len(restarts))
    chosen = restarts[first : first + 4]
    begin = max(0, chosen[0] - rng.choice([1, 1, 1_000, 10**6, 10**8]))
    shown = sorted(rng.sample(chosen, rng.randrange(len(chosen)) + 1))
    times = [begin] + [at + rng.choice([0, 0, 0, 1, 10]) for at in shown]
    second = (begin + sources.routers[name].get("clock_offset_ns", 0)) // SECOND
    flow, rights, nonce = sources.a_flow(), (1, rng.choice([2, 4, 10, 63])), sources.a_grant()[1]
    found = []
    for now in times:
        told = f"{nonce}/1/{rights[1]}/0/{item(sources, name, now, flow, rights, second)}"
        found.append((now, name, "list", *flow, rng.choice([984, 984, 983, 500]), told))
    return found


def alike(sources):
    """Rows at a router that show two grants, one of twice the units and with twice the bytes, in any order."""
    rng, name = sources.rng, sources.rng.choice(list(sources.routers))
    now, size, destination = rng.choice([0, 1, SECOND]), rng.choice([0, 100, 472]), rng.choice(sources.addresses)
    second = (now + sources.routers[name].get("clock_offset_ns", 0)) // SECOND
    few, many = rng.sample(sorted(set(sources.addresses)), 2)
    found = []
    for source, units in rng.sample([(many, 2), (many, 2), (few, 1)], 3):
        flow, rights = (source, destination), (units, 10)
        told = f"{NONCES[0]}/{units}/10/0/{item(sources, name, now, flow, rights, second)}"
        found.append((now, name, "list", *flow, size, told))
        now += rng.choice([0, 1, 10**6, 10**8])
    return found


def charged(sources, node, charge, now):
    """A row that shows the grant of a charge again."""
    rng, grant = sources.rng, charge.grant
    flow, payload = tuple(map(dotted, grant.flow)), rng.choice([0, 0, 1, 100, 1_024 * grant.rights.n % 1_600])
    nonce = f"{charge.nonce:012x}"
    if chance(rng, 0.6):
        return now, node.plan.name, "nonce", *flow, payload, nonce
    told = item(sources, node.plan.name, now, flow, grant.rights, grant.second)
    return now, node.plan.name, "list", *flow, payload, f"{nonce}/{grant.rights.n}/{grant.rights.t}/0/{told}"


def overtaking(sources):
    """A legacy packet that a link starts while it waits for a request, so long that the wait would end on the way; and
    something a window later."""
    rng = sources.rng
    node, plan, packet, until = rng.choice(sources.waits)
    least = min(it["delay_ns"] for it in sources.network.link)
    now = max(0, until - rng.choice([1, 10, 100, least, least + 1, least + 100, 2 * least]))
    size = (until - now + rng.choice([1, least // 2, least])) // plan.ns_per_byte
    flow = tuple(map(dotted, packet.flow))
    told = [(now, node.plan.name, "raw", *flow, min(1_600, max(0, size - 20)), "")]
    if chance(rng, 0.7):
        later = until + least + rng.choice([0, 1, rng.randrange(least), rng.randrange(least)])
        told.append((later, rng.choice(sources.nodes), "raw", *flow, 0, ""))
    return told


def waits(node, link):
    """The requests for which a link waited, with the end of the wait."""
    found, free = [], 0
    queued = {}
    for it in link.log:
        if it.word == "queued":
            queued[id(it.packet)] = it.time
        else:
            if it.kind == "request" and it.time > max(free, queued[id(it.packet)]):
                found.append((node, link.plan, it.packet, it.time))
            free = it.time + shims.length(it.packet) * link.plan.ns_per_byte
    return found


def known(sources):
    """A row with a capability that stands here, for the first of the masters and its seconds 5 and 127."""
    rng = sources.rng
    routers = [it["name"] for it in sources.network.router if it["master"] == networks.MASTERS[0] and not it.get("clock_offset_ns")]
    second, item = rng.choice(KNOWN)
    now = (second + rng.choice([0, 0, 1, 9, 10])) * SECOND
    if not routers:
        return []
    return [(now, rng.choice(routers), "list", "10.0.0.1", "10.0.1.1", rng.choice(PAYLOADS), f"00000000000a/1/10/0/{item}")]


def twin(sources, told):
    """The same row at another node, where it may be."""
    node = sources.rng.choice(sources.nodes if told[2] not in OWN else list(sources.hosts))
    return told[:1] + (node,) + told[2:]


def times(sources, count):
    """Times that never fall: in clusters, with ties, and at times at which something happened in a run."""
    rng = sources.rng
    least = min([it["delay_ns"] for it in sources.network.link], default=1)
    begins = [0, 0, 0, 1, rng.randrange(least + 1), rng.randrange(least + 1), SECOND - 1, SECOND, 5 * SECOND, rng.randrange(3 * SECOND)]
    found, now = [], rng.choice(begins)
    steps = rng.choice([STEPS, STEPS, [0, 0, 1, 20, 100], [0, 10**6, 5 * 10**8, SECOND]])
    steps = TALKS if sources.talks else STORMS if sources.network.mode == "storm" else steps
    for _ in range(count):
        now += rng.choice(steps)
        if sources.changes and chance(rng, 0.25):
            found.append(max(0, rng.choice(sources.changes) + rng.choice([0, 0, 0, 1, -1, 10**6])))
        elif sources.times and chance(rng, 0.4):
            found.append(max(0, rng.choice(sources.times) + rng.choice([0, 0, 0, 0, 1, -1, SECOND])))
        else:
            found.append(now)
    return sorted(found)


def rows(rng, network, run=None):
    """The rows of a trace, or further rows for one of which there was a run."""
    sources = Sources(rng, network, run)
    if not sources.nodes:
        return []
    sources.talks = network.mode == "talk" and len(sources.hosts) > 1 and chance(rng, 0.8)
    count, kinds = rng.choice([0, 1, 2, 4, 6, 8, 10, 14, 20]), MIXED
    busy = rng.sample(sources.nodes, min(len(sources.nodes), rng.choice([1, 2, 2, 4])))
    if sources.talks:
        count, kinds = rng.choice([8, 12, 16]), TALK
        busy = rng.sample(list(sources.hosts), 2)
        sources.flow = tuple(sources.hosts[name]["address"] for name in busy)
    elif network.mode == "storm":
        count, kinds = rng.choice([10, 20, 30]), STORM
        busy = busy[:2]
    if sources.hosts and network.mode != "storm" and chance(rng, 0.35):
        kinds = FILES
        busy = busy if sources.talks else rng.sample(list(sources.hosts), min(len(sources.hosts), rng.choice([1, 2, 2, 3])))
    count = count if run is None else rng.choice([1, 2, 4, 8])
    found = [] if chance(rng, 0.95) else known(sources)
    found += spending(sources) if network.restart and chance(rng, 0.3) else []
    found += alike(sources) if sources.routers and run is None and chance(rng, 0.05) else []
    for now in times(sources, count):
        found += a_row(sources, now, rng.choice(busy), kinds)
        if chance(rng, 0.15) and (found[-1][2] not in OWN or len(sources.hosts) > 1):
            found.append(twin(sources, found[-1]))
    return merged([], [it for it in found if it[0] <= network.top["horizon_ns"]])


def a_row(sources, now, node, kinds):
    """A row, or two that belong together."""
    if sources.waits and chance(sources.rng, 0.6 if sources.network.mode == "storm" else 0.1):
        return overtaking(sources)
    if sources.restarted and chance(sources.rng, 0.3):
        return [rebooting(sources)]
    if sources.charged and chance(sources.rng, 0.4):
        return [turning(sources)]
    if sources.packets and chance(sources.rng, 0.5):
        return [stolen(sources, now, node)]
    return [row(sources, now, node, kinds)]


def merged(rows, others):
    return sorted(rows + others, key=lambda it: it[0])


def text_of(rng, rows):
    """A text of a trace."""
    end = rng.choice(["\n"] * 8 + ["\r\n", "\r"])
    lines = [",".join(map(str, it)) for it in rows]
    if chance(rng, 0.05):
        lines = [",".join(f'"{word}"' if chance(rng, 0.3) else str(word) for word in it) for it in rows]
    return end.join([HEADER, *lines]) + (end if chance(rng, 0.95) else "")
