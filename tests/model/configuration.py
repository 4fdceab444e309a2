"""Reads a configuration: what it lays down, or its first fault."""
from types import SimpleNamespace

from . import shims, texts, toml

REQUIRED = object()
NODES_MOST, LINKS_MOST, ROUTES_MOST = 1_024, 4_096, 65_536
CHANGES_MOST = 65_536
MANY = 1_024
SLOTS_MOST = PLACES_MOST = 1_000_000
SECOND = 1_000_000_000


class Fault(Exception):
    """`RULE TABLE ENTRY KEY`."""

    def __init__(self, rule, table, entry, key):
        super().__init__(f"{rule} {table} {entry} {key}")


# ## values: a reader gives None where a value isn't meant


def whole(least, most):
    return lambda value: value if type(value) is int and is_from(least, value) and is_up_to(value, most) else None


def is_from(least, value):
    return least <= value


def is_up_to(value, most):
    return value <= most


def text(reader):
    return lambda value: reader(value.encode()) if isinstance(value, str) else None


def bytes_of(size):
    return text(lambda digits: texts.hexadecimal(digits, size))


def one_of(*words):
    return lambda value: value if value in words and isinstance(value, str) else None


def many(reader):
    def read(values):
        told = [reader(value) for value in values] if isinstance(values, list) and is_up_to(len(values), MANY) else [None]
        return None if None in told else told

    return read


def tables(value):
    return value if isinstance(value, list) and all(isinstance(it, dict) for it in value) else None


# ## keys, in the order in which they are checked, with their defaults


def top_keys():
    return [
        ("horizon_ns", whole(0, 10**15), REQUIRED),
        ("max_events", whole(1, 4_000_000), REQUIRED),
        ("version", whole(1, 2), 1),
        ("router", tables, []),
        ("host", tables, []),
        ("link", tables, []),
        ("route", tables, []),
        ("restart", tables, []),
        ("reroute", tables, []),
    ]


def router_keys():
    return [
        ("name", text(texts.name), REQUIRED),
        ("master", bytes_of(32), REQUIRED),
        ("slots", whole(0, 1_000_000), REQUIRED),
        ("clock_offset_ns", whole(0, 10**15), 0),
        ("edge_tag", whole(0, 65_535), 0),
    ]


def host_keys(version):
    return [
        ("name", text(texts.name), REQUIRED),
        ("address", text(texts.address), REQUIRED),
        ("nonce", bytes_of(6), bytes([0, 0, 0, 0, 0, 1])),
        ("margin_ns", whole(0, 10**12), 1_000_000),
        ("retry_ns", whole(0, 10**13), 2_000_000_000),
        ("policy", one_of("deny", "client", "server"), "deny"),
        ("n", whole(0, shims.units_most(version)), 32),
        ("t", whole(0, shims.seconds_most(version)), 10),
        ("grants", whole(0, 1_000_000), 1_000),
        ("deny", many(text(texts.address)), []),
        ("deny_tags", many(whole(1, 65_535)), []),
    ]


def link_keys():
    places, room = whole(1, 65_536), whole(2_048, 1 << 30)
    return [
        ("from", text(texts.name), REQUIRED),
        ("to", text(texts.name), REQUIRED),
        ("ns_per_byte", whole(1, 1_000_000), REQUIRED),
        ("delay_ns", whole(1, 10**12), REQUIRED),
        ("tag", whole(0, 65_535), 0),
        ("share", whole(2, 1_000), 20),
        ("burst", whole(4_096, 1_000_000), 8_192),
        ("quantum", whole(2_048, 1_000_000), 2_048),
        ("request_queues", places, 64),
        ("regular_queues", places, 64),
        ("request_ring", places, 32),
        ("regular_ring", places, 32),
        ("request_queue_bytes", room, 65_536),
        ("regular_queue_bytes", room, 65_536),
        ("request_bytes", room, 1_048_576),
        ("regular_bytes", room, 1_048_576),
        ("legacy_ring", places, 256),
        ("legacy_bytes", room, 262_144),
        ("request_levels", whole(1, 2), 1),
        ("request_inner", places, 4),
    ]


def route_keys():
    return [
        ("router", text(texts.name), REQUIRED),
        ("prefix", text(texts.prefix), REQUIRED),
        ("via", text(texts.name), REQUIRED),
    ]


def restart_keys():
    return [
        ("router", text(texts.name), REQUIRED),
        ("at_ns", whole(0, 10**15), REQUIRED),
        ("master", bytes_of(32), REQUIRED),
    ]


def reroute_keys():
    return [
        ("router", text(texts.name), REQUIRED),
        ("at_ns", whole(0, 10**15), REQUIRED),
        ("prefix", text(texts.prefix), REQUIRED),
        ("via", text(texts.name), REQUIRED),
    ]


def read_table(told, keys, table, entry):
    if not set(told) <= {key for key, _, _ in keys}:
        raise Fault("unknown", table, entry, "-")
    values = {}
    for key, reader, default in keys:
        if key not in told and default is REQUIRED:
            raise Fault("missing", table, entry, key)
        values[key] = reader(told[key]) if key in told else default
        if values[key] is None:
            raise Fault("value", table, entry, key)
    return SimpleNamespace(**values)


# ## the text


def parsed(data):
    """The table of a text."""
    try:
        return toml.read(data.decode().removeprefix("\ufeff"))
    except (ValueError, RecursionError):
        raise Fault("syntax", "top", 0, "-") from None


def read(data):
    """The configuration of a text. Raises its first fault."""
    top = read_table(parsed(data), top_keys(), "top", 0)
    check_counts(top)
    keys = {"router": router_keys(), "host": host_keys(top.version), "link": link_keys(), "route": route_keys()}
    keys |= {"restart": restart_keys(), "reroute": reroute_keys()}
    read_all = lambda table: [read_table(told, keys[table], table, entry) for entry, told in enumerate(getattr(top, table))]
    routers, hosts, links, routes, restarts, reroutes = [read_all(table) for table in keys]
    check_nodes(routers, hosts)
    check_links(routers + hosts, links)
    check_uplinks(hosts, links)
    check_routes(routers, links, routes)
    check_restarts(routers, restarts)
    check_reroutes(routers, links, routes, reroutes)
    check_sums(routers, links)
    return lay_down(top, routers, hosts, links, routes, restarts, reroutes)


# ## faults that more than one entry has a part in


def check_counts(top):
    for table, count, most in [
        ("host", len(top.router) + len(top.host), NODES_MOST),
        ("link", len(top.link), LINKS_MOST),
        ("route", len(top.route), ROUTES_MOST),
        ("restart", len(top.restart), CHANGES_MOST),
        ("reroute", len(top.reroute), CHANGES_MOST),
    ]:
        if is_past(count, most):
            raise Fault("count", table, 0, "-")


def check_nodes(routers, hosts):
    names = []
    for table, nodes in [("router", routers), ("host", hosts)]:
        for entry, node in enumerate(nodes):
            if node.name in names:
                raise Fault("names", table, entry, "name")
            names.append(node.name)
    for entry, host in enumerate(hosts):
        if host.address in [earlier.address for earlier in hosts[:entry]]:
            raise Fault("addresses", "host", entry, "address")
    for entry, host in enumerate(hosts):
        if is_too_soon(host):
            raise Fault("retry", "host", entry, "retry_ns")


def is_too_soon(host):
    """Whether a host asks again within the margin and a second."""
    return host.retry_ns < SECOND + host.margin_ns


def is_past(count, most):
    return count > most


def ends(link):
    return getattr(link, "from"), link.to


def check_links(nodes, links):
    names = [node.name for node in nodes]
    for entry, link in enumerate(links):
        source, target = ends(link)
        if source not in names:
            raise Fault("ends", "link", entry, "from")
        if target not in names or target == source:
            raise Fault("ends", "link", entry, "to")
        if ends(link) in [ends(earlier) for earlier in links[:entry]]:
            raise Fault("pair", "link", entry, "to")


def check_uplinks(hosts, links):
    for entry, host in enumerate(hosts):
        if len([link for link in links if ends(link)[0] == host.name]) != 1:
            raise Fault("uplink", "host", entry, "name")


def check_routes(routers, links, routes):
    for entry, route in enumerate(routes):
        check_owner(routers, route, "route", entry)
        check_via(links, route, "route", entry)
        if (route.router, route.prefix) in [(earlier.router, earlier.prefix) for earlier in routes[:entry]]:
            raise Fault("prefix", "route", entry, "prefix")


def check_owner(routers, told, table, entry):
    if told.router not in [router.name for router in routers]:
        raise Fault("owner", table, entry, "router")


def check_via(links, told, table, entry):
    if (told.router, told.via) not in [ends(link) for link in links]:
        raise Fault("via", table, entry, "via")


def check_time(last, key, told, table, entry):
    """Whether a change comes later than the last one with its key, whose time is noted."""
    if key in last and is_no_later(told.at_ns, last[key]):
        raise Fault("times", table, entry, "at_ns")
    last[key] = told.at_ns


def is_no_later(time, before):
    return time <= before


def check_restarts(routers, restarts):
    last = {}
    for entry, restart in enumerate(restarts):
        check_owner(routers, restart, "restart", entry)
        check_time(last, restart.router, restart, "restart", entry)


def check_reroutes(routers, links, routes, reroutes):
    last, known = {}, {(route.router, route.prefix) for route in routes}
    for entry, reroute in enumerate(reroutes):
        check_owner(routers, reroute, "reroute", entry)
        check_via(links, reroute, "reroute", entry)
        if (reroute.router, reroute.prefix) not in known:
            raise Fault("prefix", "reroute", entry, "prefix")
        check_time(last, (reroute.router, reroute.prefix), reroute, "reroute", entry)


def places_of(link):
    inner = link.request_inner if link.request_levels == 2 else 1
    requests = link.request_queues * inner * link.request_ring
    return requests + link.regular_queues * link.regular_ring + link.legacy_ring


def check_sums(routers, links):
    if is_past(sum(router.slots for router in routers), SLOTS_MOST):
        raise Fault("slots", "router", 0, "slots")
    if is_past(sum(places_of(link) for link in links), PLACES_MOST):
        raise Fault("rings", "link", 0, "-")


# ## what is laid down


def lay_down(top, routers, hosts, links, routes, restarts, reroutes):
    """The nodes by number, with the links by number, each of which knows the numbers of its ends."""
    nodes = routers + hosts
    names = [node.name for node in nodes]
    for number, link in enumerate(links):
        link.number = number
        link.source, link.target = [names.index(end) for end in ends(link)]
    for host in hosts:
        host.version = top.version
        host.nonce = int.from_bytes(host.nonce, "big")
        host.rights = shims.Rights(host.n, host.t)
    for router in routers:
        router.routes = [route for route in routes if route.router == router.name]
        router.restarts = [restart for restart in restarts if restart.router == router.name]
        router.reroutes = [reroute for reroute in reroutes if reroute.router == router.name]
        for way in router.routes + router.reroutes:
            way.target = names.index(way.via)
    top = SimpleNamespace(horizon=top.horizon_ns, most_events=top.max_events)
    return SimpleNamespace(top=top, routers=routers, hosts=hosts, nodes=nodes, links=links, routes=routes)


def words(config):
    """What the command `check` writes."""
    slots = sum(router.slots for router in config.routers)
    return f"config nodes={len(config.nodes)} links={len(config.links)} routes={len(config.routes)} slots={slots}\n"
