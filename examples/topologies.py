"""Networks as configurations: a builder, and three topologies that floods, tests and benches share.

A `Network` takes routers, hosts and links, finds the routes, takes restarts and changed routes where there are to be any,
and gives the text of a configuration:

    network = Network(horizon_ns=10**9)
    network.router("R", slots=8)
    network.host("A", "10.0.0.1", policy="client")
    network.host("B", "10.0.1.1", policy="server")
    for host in ("A", "B"):
        network.join(host, "R", ns_per_byte=10, delay_ns=1_000_000)
    network.find_routes()
    print(network.text())

`dumbbell`, `parking_lot` and `tree` lay routers and the links between them, and say in a `Layout` where senders,
attackers, servers and colluders belong and which links are the bottlenecks. Whoever adds a topology adds a function
that returns a layout, and its name to `TOPOLOGIES`.
"""
import collections
import hashlib

EVENTS_MOST = 4_000_000
# the keys of a link that have a default
LINK_KEYS = ["tag", "share", "burst", "quantum", "request_queues", "regular_queues", "request_ring", "regular_ring"]
LINK_KEYS += ["request_queue_bytes", "regular_queue_bytes", "request_bytes", "regular_bytes", "legacy_ring", "legacy_bytes"]
LINK_KEYS += ["request_levels", "request_inner"]

# Where the hosts of a flood belong, each a list of routers that are taken in turn, and the links that are scarce.
Layout = collections.namedtuple("Layout", "senders attackers servers colluders bottlenecks")


def value(of):
    """A value as TOML: numbers, texts, and lists of them."""
    if isinstance(of, str):
        return '"' + of.replace("\\", "\\\\").replace('"', '\\"') + '"'
    if isinstance(of, (list, tuple)):
        return "[" + ", ".join(value(it) for it in of) + "]"
    return str(of)


def inline(keys):
    """A table of these keys within a line."""
    return "{" + ",".join(f"{key}={value(of)}" for key, of in keys.items()) + "}"


def master_of(name):
    """A router's master, which comes of its name."""
    return hashlib.sha256(f"master of {name}".encode()).hexdigest()


class Network:
    """A configuration in the making: its tables in the order in which they were added."""

    def __init__(self, horizon_ns, max_events=EVENTS_MOST, **keys):
        self.keys = dict(horizon_ns=horizon_ns, max_events=max_events, **keys)
        self.tables = []  # (comment, table, keys)
        self.comment = ""
        self.routers, self.hosts, self.links = {}, {}, {}

    def say(self, comment):
        """A comment above what is added next."""
        self.comment = comment

    def _add(self, table, keys):
        self.tables.append((self.comment, table, keys))
        self.comment = ""
        return keys

    def router(self, name, slots, master=None, **keys):
        self.routers[name] = self._add("router", dict(name=name, master=master or master_of(name), slots=slots, **keys))

    def host(self, name, address, **keys):
        self.hosts[name] = self._add("host", dict(name=name, address=address, **keys))

    def link(self, one, other, ns_per_byte, delay_ns, **keys):
        """A link of one direction."""
        keys = dict({"from": one, "to": other}, ns_per_byte=ns_per_byte, delay_ns=delay_ns, **keys)
        self.links[one, other] = self._add("link", keys)

    def join(self, one, other, there={}, **both):
        """A link each way; `there` is said of the one that leads from the first to the second alone."""
        self.link(one, other, **{**both, **there})
        self.link(other, one, **both)

    def route(self, router, prefix, via):
        return self._add("route", dict(router=router, prefix=prefix, via=via))

    def restart(self, router, at_ns, master=None):
        """From that time on the router has this master, or one that comes of its name and the time, and an empty cache."""
        return self._add("restart", dict(router=router, at_ns=at_ns, master=master or master_of(f"{router} at {at_ns}")))

    def reroute(self, router, at_ns, prefix, via):
        """From that time on the router's route of this prefix leads to another node."""
        return self._add("reroute", dict(router=router, at_ns=at_ns, prefix=prefix, via=via))

    def find_routes(self):
        """At each router a route to each host that can be reached from it, by fewest links; of ways alike that by the
        link that was added first."""
        came = collections.defaultdict(list)
        for one, other in self.links:
            came[other].append(one)
        for name, keys in self.hosts.items():
            toward, open_ones = {name: None}, collections.deque([name])
            while open_ones:
                at = open_ones.popleft()
                for before in came[at]:
                    if before not in toward and before in self.routers:
                        toward[before] = at
                        open_ones.append(before)
            for router in self.routers:
                if toward.get(router):
                    self.route(router, keys["address"] + "/32", toward[router])

    def text(self):
        """The configuration, a line a key."""
        lines = [f"{key} = {value(of)}" for key, of in self.keys.items()]
        for comment, table, keys in self.tables:
            lines += ["", *(f"# {line}" for line in comment.splitlines()), f"[[{table}]]"]
            lines += [f"{key} = {value(of)}" for key, of in keys.items()]
        return "\n".join(lines) + "\n"

    def packed(self):
        """The same configuration in few bytes, without comments: an array a line."""
        lines = [f"{key}={value(of)}" for key, of in self.keys.items()]
        for table in ("router", "host", "link", "route", "restart", "reroute"):
            told = [inline(keys) for _, kind, keys in self.tables if kind == table]
            lines += [f"{table}=[" + ",".join(told) + "]"] if told else []
        return "\n".join(lines) + "\n"


# ## topologies: each takes the keys of the bottlenecks, of the links back, and of all other links between routers


def dumbbell(network, slots, scarce, back, wide, border=False):
    """Two routers with a bottleneck between them. With a border all senders are behind one tagged link more."""
    network.router("West", slots)
    network.router("East", slots)
    if border:
        network.say("One tagged link leads from all senders to the router before the bottleneck.")
        network.router("Border", slots)
    near = "Border" if border else "West"
    network.say("The bottleneck. What isn't said of it is a default.")
    network.link(near, "East", **scarce)
    network.link("East", near, **back)
    if border:
        network.join("West", "Border", there=dict(tag=200, legacy_ring=1024), **wide)
    return Layout(["West"], ["West"], ["East"], ["East"], [(near, "East")])


def parking_lot(network, slots, scarce, back, wide, hops=3):
    """Routers in a row, each link a bottleneck. Honest senders pass them all; attackers come in at each router in turn,
    and colluders sit at each of the others."""
    names = [f"R{number}" for number in range(1, hops + 2)]
    for name in names:
        network.router(name, slots)
    pairs = list(zip(names, names[1:]))
    for number, (one, other) in enumerate(pairs, 1):
        network.say(f"Bottleneck {number}.")
        network.link(one, other, **scarce)
        network.link(other, one, **back)
    return Layout(names[:1], names[:-1], names[-1:], names[1:], pairs)


def tree(network, slots, scarce, back, wide, depth=2, fan=3):
    """A tree whose leaves are the senders' routers; each link towards the root has a tag of its own, and the bottleneck
    comes behind the root. The attackers are at the leaves of the first subtree, beside some of the honest senders."""
    levels = [["Root"]]
    for _ in range(depth):
        levels.append([f"{name[0] if name == 'Root' else name}{child}" for name in levels[-1] for child in range(1, fan + 1)])
    for name in (name for level in levels for name in level):
        network.router(name, slots)
    network.router("East", slots)
    network.say("The bottleneck. What isn't said of it is a default.")
    network.link("Root", "East", **scarce)
    network.link("East", "Root", **back)
    tag = 1_000
    for above, below in zip(levels, levels[1:]):
        for number, name in enumerate(below):
            tag += 1
            network.join(name, above[number // fan], there=dict(tag=tag, legacy_ring=1024), **wide)
    return Layout(levels[-1], levels[-1][: fan ** (depth - 1)], ["East"], ["East"], [("Root", "East")])


TOPOLOGIES = {"dumbbell": dumbbell, "parking-lot": parking_lot, "tree": tree}
