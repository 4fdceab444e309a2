"""Configurations as the second model (tests/model) reads them, entry by entry: with all their faults, not the first."""
import collections
import os
import sys
from types import SimpleNamespace

EXAMPLES = os.path.dirname(os.path.dirname(os.path.abspath(__file__)))
sys.path.insert(1, EXAMPLES)
sys.path.append(os.path.join(os.path.dirname(EXAMPLES), "tests"))
from model import configuration, shims, texts  # noqa: E402, F401
from words import refuse  # noqa: E402

MOST = {"host": configuration.NODES_MOST, "link": configuration.LINKS_MOST, "route": configuration.ROUTES_MOST}
MOST |= {"restart": configuration.CHANGES_MOST, "reroute": configuration.CHANGES_MOST}


class Plan:
    """A configuration: `top`, and lists of entries. What can't be read of an entry is None in it. `faults` are tuples of
    rule, table, entry and key, in the order in which the program looks for them."""

    def __init__(self, data):
        self.faults = []
        try:
            told = configuration.parsed(data)
        except configuration.Fault:
            told, self.faults = {}, [("syntax", "top", 0, "-")]
        self.top = self.entry(told, configuration.top_keys(), "top", 0, quiet=bool(self.faults))
        version = self.top.version or 1
        keys = {"router": configuration.router_keys(), "host": configuration.host_keys(version), "link": configuration.link_keys()}
        keys |= {"route": configuration.route_keys(), "restart": configuration.restart_keys(), "reroute": configuration.reroute_keys()}
        told = {table: getattr(self.top, table) or [] for table in keys}
        counts = {table: len(told[table]) for table in keys} | {"host": len(told["router"]) + len(told["host"])}
        self.faults += [("count", table, 0, "-") for table, most in MOST.items() if counts[table] > most]
        read = {table: [self.entry(it, keys[table], table, entry) for entry, it in enumerate(told[table])] for table in keys}
        self.routers, self.hosts, self.links, self.routes, self.restarts, self.reroutes = read.values()
        for link in self.links:
            link.source = getattr(link, "from")
        self.check_nodes()
        self.check_links()
        self.check_routes()
        self.check_restarts()
        self.check_reroutes()
        self.check_sums()

    def fault(self, rule, table, entry, key):
        self.faults.append((rule, table, entry, key))

    def entry(self, told, keys, table, entry, quiet=False):
        if not quiet and not set(told) <= {key for key, _, _ in keys}:
            self.fault("unknown", table, entry, "-")
        values = {}
        for key, reader, default in keys:
            values[key] = reader(told[key]) if key in told else None if default is configuration.REQUIRED else default
            if values[key] is None and not quiet:
                self.fault("value" if key in told else "missing", table, entry, key)
        return SimpleNamespace(**values)

    # faults that more than one entry has a part in; what couldn't be read has none

    def check_nodes(self):
        names, addresses = set(), set()
        for table, nodes in (("router", self.routers), ("host", self.hosts)):
            for entry, node in enumerate(nodes):
                if node.name in names:
                    self.fault("names", table, entry, "name")
                names.update({node.name} - {None})
        for entry, host in enumerate(self.hosts):
            if host.address in addresses:
                self.fault("addresses", "host", entry, "address")
            addresses.update({host.address} - {None})
        for entry, host in enumerate(self.hosts):
            if None not in (host.retry_ns, host.margin_ns) and host.retry_ns < configuration.SECOND + host.margin_ns:
                self.fault("retry", "host", entry, "retry_ns")

    def check_links(self):
        names = {node.name for node in self.routers + self.hosts} | {None}
        self.pairs, out = set(), collections.Counter()
        for entry, link in enumerate(self.links):
            pair = link.source, link.to
            if link.source not in names:
                self.fault("ends", "link", entry, "from")
            if link.to not in names or link.to == link.source and link.to:
                self.fault("ends", "link", entry, "to")
            if pair in self.pairs:
                self.fault("pair", "link", entry, "to")
            self.pairs.update({pair} if None not in pair else ())
            out[link.source] += 1
        for entry, host in enumerate(self.hosts):
            if host.name and out[host.name] != 1:
                self.fault("uplink", "host", entry, "name")

    def owned(self, told, table, entry, via=True):
        """Whether an entry names a router and, where it has one, a way of that router."""
        self.names = getattr(self, "names", None) or {router.name for router in self.routers}
        if told.router is not None and told.router not in self.names:
            self.fault("owner", table, entry, "router")
        elif via and None not in (told.router, told.via) and (told.router, told.via) not in self.pairs:
            self.fault("via", table, entry, "via")

    def check_routes(self):
        self.known = set()
        for entry, route in enumerate(self.routes):
            self.owned(route, "route", entry)
            if (route.router, route.prefix) in self.known:
                self.fault("prefix", "route", entry, "prefix")
            self.known.update({(route.router, route.prefix)} if None not in (route.router, route.prefix) else ())

    def rise(self, last, key, told, table, entry):
        if told.at_ns is not None:
            if last.get(key, -1) >= told.at_ns:
                self.fault("times", table, entry, "at_ns")
            last[key] = told.at_ns

    def check_restarts(self):
        last = {}
        for entry, restart in enumerate(self.restarts):
            self.owned(restart, "restart", entry, via=False)
            self.rise(last, restart.router, restart, "restart", entry)

    def check_reroutes(self):
        last = {}
        for entry, reroute in enumerate(self.reroutes):
            self.owned(reroute, "reroute", entry)
            key = reroute.router, reroute.prefix
            if None not in key and reroute.router in {router.name for router in self.routers} and key not in self.known:
                self.fault("prefix", "reroute", entry, "prefix")
            self.rise(last, key, reroute, "reroute", entry)

    def check_sums(self):
        if sum(router.slots or 0 for router in self.routers) > configuration.SLOTS_MOST:
            self.fault("slots", "router", 0, "slots")
        whole = [link for link in self.links if None not in vars(link).values()]
        if sum(map(configuration.places_of, whole)) > configuration.PLACES_MOST:
            self.fault("rings", "link", 0, "-")


def loaded(path):
    try:
        with open(path, "rb") as file:
            return file.read()
    except FileNotFoundError:
        refuse(f"there is no file {path}")
    except OSError as fault:
        refuse(f"{path}: {fault.strerror.lower()}")


def meant(path):
    """The plan of a configuration without faults."""
    plan = Plan(loaded(path))
    if plan.faults:
        refuse(f"{path} has faults, of which the first is: {' '.join(map(str, plan.faults[0]))}")
    return plan


def address_of(prefix):
    """An address, or with a number of bits a prefix, as it is written."""
    number, bits = prefix
    return f"{number >> 24}.{number >> 16 & 255}.{number >> 8 & 255}.{number & 255}" + ("" if bits is None else f"/{bits}")
