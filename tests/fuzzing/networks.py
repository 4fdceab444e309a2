"""Random networks, small enough that a replay takes some milliseconds."""
import json
from types import SimpleNamespace

SECOND = 10**9
ADDRESSES = ["10.0.0.1", "10.0.0.2", "10.0.1.1", "10.1.0.1", "192.168.0.1", "0.0.0.0", "255.255.255.255"]
MASTERS = ["000102030405060708090a0b0c0d0e0f101112131415161718191a1b1c1d1e1f", "00" * 32, "FF" * 32, "8badf00dcafebabe" * 4]
TABLES = ["router", "host", "link", "route", "restart", "reroute"]


def chance(rng, share):
    return rng.random() < share


def some(rng, told):
    """Some of these keys with one of their values each."""
    return {key: rng.choice(values) for key, values in told.items() if chance(rng, 0.5)}


# ## nodes


def router(rng, number):
    told = {"name": f"R{number}", "master": rng.choice(MASTERS), "slots": rng.choice([0, 1, 1, 2, 3, 8, 8, 8])}
    offsets = [1, SECOND - 1, SECOND, 127 * SECOND + 999_999_999, 250 * SECOND, 255 * SECOND + 5, 10**15]
    return told | some(rng, {"clock_offset_ns": offsets, "edge_tag": [0, 1, 2, 65_535]})


def host(rng, number, address, version):
    told = {"name": f"H{number}", "address": address, "policy": rng.choice(["server", "server", "client", "client", "deny"])}
    units = [0, 1, 2, 3, 4, 8, 32, 1_023] + ([1_024, 1_048_575] if version == 2 else [])
    seconds = [0, 1, 2, 3, 4, 5, 10, 63] + ([64, 127] if version == 2 else [])
    told |= some(
        rng,
        {
            "nonce": ["000000000001", "00000000000a", "ffffffffffff", "FFFFFFFFFFFE"],
            "n": units,
            "t": seconds,
            "grants": [0, 1, 1, 2, 3, 1_000_000],
            "deny": [[], [], ["10.0.0.1"], ["10.0.1.1", "10.0.0.2"]],
            "deny_tags": [[], [], [1], [2, 65_535]],
        },
    )
    if chance(rng, 0.7):
        margin = rng.choice([0, 0, 1, 1_000, 10**6, 10**8, SECOND])
        told |= {"margin_ns": margin, "retry_ns": SECOND + margin + rng.choice([0, 0, 1, 10**6, SECOND])}
    return told


# ## links


def link(rng, source, target, delays):
    told = {"from": source, "to": target, "ns_per_byte": rng.choice([1, 1, 1, 2, 10, 1_000]), "delay_ns": rng.choice(delays)}
    told |= some(rng, {"tag": [0, 1, 2, 3, 65_535], "share": [2, 2, 3, 20, 1_000], "burst": [4_096, 4_096, 5_000, 8_192]})
    if chance(rng, 0.6):
        rooms, places = [2_048, 2_048, 2_500, 4_096], [1, 1, 1, 2, 3]
        told |= some(rng, {"quantum": [2_048, 2_100, 3_000], "legacy_ring": places, "legacy_bytes": rooms})
        for kind in ("request", "regular"):
            told |= some(rng, {f"{kind}_queues": places, f"{kind}_ring": places})
            told |= some(rng, {f"{kind}_queue_bytes": rooms, f"{kind}_bytes": rooms})
    if chance(rng, 0.35):
        told |= {"request_levels": 2} | some(rng, {"request_inner": [1, 1, 2, 3]})
    return told


SLOW = {"ns_per_byte": 100_000, "request_queues": 1, "request_ring": 2, "regular_queues": 1, "regular_ring": 1, "legacy_ring": 1}


def links(rng, routers, hosts):
    delays, speed = delays_of(rng), rng.choice([None, None, 1, 10])
    pairs = []
    for name in hosts:
        others = [other for other in routers + hosts if other != name]
        up = rng.choice(routers if routers and chance(rng, 0.95) else others)
        pairs.append((name, up))
        if up in routers and chance(rng, 0.93):
            pairs.append((up, name))
    for place, name in enumerate(routers[1:], 1):
        other = rng.choice(routers[:place])
        pairs += [(name, other), (other, name)]
    for _ in range(rng.choice([0, 0, 1, 2]) if routers else 0):
        pairs.append((rng.choice(routers), rng.choice(routers + hosts)))
    pairs = [pair for pair in dict.fromkeys(pairs) if pair[0] != pair[1]]
    rng.shuffle(pairs)
    told = [link(rng, *pair, delays) for pair in pairs]
    for it in told:
        it["ns_per_byte"] = speed or it["ns_per_byte"]
        if chance(rng, 0.3 if it["from"] in hosts else 0.12):
            it |= some(rng, {key: [most] for key, most in SLOW.items()})
    return told


def delays_of(rng):
    """The delays of a network: alike, of a few kinds, or all over."""
    base = rng.choice([1, 7, 20, 100, 1_000, 10**6, 10**6, 10**8, SECOND])
    spread = [[base], [base, base + 1], [base, 2 * base, 3 * base], [1, base, 10 * base]]
    return rng.choice(spread)


# ## routes


def next_hops(pairs, target):
    """The first node of a shortest way to a node, from each node that has one."""
    found, edge = {target: None}, [target]
    while edge:
        reached = [(one, other) for other in edge for one, it in pairs if it == other and one not in found]
        found |= {one: other for one, other in reached}
        edge = list(dict.fromkeys(one for one, _ in reached))
    return found


def prefix(rng, address):
    return f"{address}/{rng.choice([32, 32, 24, 24, 16, 8, 31, 1, 0])}"


def routes(rng, routers, hosts, told_links, wild):
    """Ways to most hosts, some of them wild."""
    pairs = [(it["from"], it["to"]) for it in told_links]
    told = []
    for name in routers:
        near = [other for one, other in pairs if one == name]
        for it in hosts:
            hop = next_hops(pairs, it["name"]).get(name)
            if near and chance(rng, 0.9):
                via = rng.choice(near) if hop is None or wild and chance(rng, 0.4) else hop
                told.append((name, prefix(rng, it["address"]), via))
        if near and chance(rng, 0.2):
            told.append((name, rng.choice(["0.0.0.0/0", "10.0.0.0/8", "10.0.0.3/30"]), rng.choice(near)))
    rng.shuffle(told)
    kept = {(name, front(text)): (name, text, via) for name, text, via in told}
    return [{"router": name, "prefix": text, "via": via} for name, text, via in kept.values()]


def front(text):
    """A prefix as the bits that count."""
    address, bits = text.split("/")
    number = int.from_bytes(bytes(map(int, address.split("."))), "big")
    return int(bits), number >> (32 - int(bits))


# ## the whole


def made_easy(rng, network):
    """Lets hosts grant, and leaves links their room, so that hosts talk."""
    for told in network.router:
        told["slots"] = rng.choice([2, 8, 8])
    for told in network.host:
        told |= {"policy": rng.choice(["client", "server", "server"])}
        told |= {"n": rng.choice([1, 2, 3, 4, 8, 32]), "t": rng.choice([3, 4, 5, 10, 63])}
        told |= {"deny": [], "deny_tags": [], "grants": rng.choice([2, 5, 1_000])}
        margin = rng.choice([0, 10**6, 10**6])
        told |= {"margin_ns": margin, "retry_ns": SECOND + margin + rng.choice([0, 1, 10**6, SECOND])}
    for told in network.link:
        told["delay_ns"] = rng.choice([told["delay_ns"], 1, 1_000, 10**6]) % 10**8 + 1
        for key in list(told):
            if key.endswith(("_ring", "_queues", "_bytes")) and chance(rng, 0.8):
                del told[key]


def made_stormy(rng, network):
    """Gives links turns and little credit, so that packets wait for each other."""
    for told in network.router:
        told |= {"edge_tag": rng.choice([0, 0, 1, 2])}
    delay = rng.choice([1, 100, 1_000, 1_000, 5_000, 5_000, 10**6])
    for told in network.link:
        told["delay_ns"] = delay + rng.choice([0, 0, 0, 1, delay])
        told |= {"ns_per_byte": rng.choice([1, 1, 2, 10]), "share": rng.choice([2, 2, 3, 20]), "burst": rng.choice([4_096, 4_096, 5_000])}
        for kind in ("request", "regular"):
            told |= {f"{kind}_queues": rng.choice([1, 2, 3, 4]), f"{kind}_ring": rng.choice([1, 2, 3, 4, 5])}
            told |= {f"{kind}_queue_bytes": 65_536, f"{kind}_bytes": 65_536}


def network(rng):
    """A configuration, as tables of keys, with its mode: what its hosts and its traces are made for. Nothing changes in
    it in time; `changes` puts in what does."""
    version = rng.choice([1, 1, 2])
    routers = [router(rng, number) for number in range(rng.choice([0, 1, 1, 1, 2, 2, 2, 3, 3, 4]))]
    count = rng.choice([0, 1, 2, 2, 2, 3, 3, 4]) if routers else rng.choice([0, 2, 2, 3])
    hosts = [host(rng, number, address, version) for number, address in enumerate(rng.sample(ADDRESSES, count))]
    names = [[it["name"] for it in nodes] for nodes in (routers, hosts)]
    top = {"horizon_ns": 10**15, "max_events": rng.choice([300, 400, 600, 600, 4_000_000]), "version": version}
    if version == 1 and chance(rng, 0.5):
        del top["version"]
    if top["max_events"] == 4_000_000:
        top["horizon_ns"] = 30 * SECOND
    told, mode = links(rng, *names), rng.choice(["talk"] * 4 + ["storm"] * 2 + ["mixed"] * 4)
    told_routes = routes(rng, names[0], hosts, told, mode == "mixed" and chance(rng, 0.3))
    made = SimpleNamespace(top=top, router=routers, host=hosts, link=told, route=told_routes, restart=[], reroute=[], mode=mode)
    if mode == "talk":
        made_easy(rng, made)
    elif mode == "storm":
        made_stormy(rng, made)
    return made


# ## texts


def value(rng, told):
    if isinstance(told, int) and not isinstance(told, bool) and told >= 0 and chance(rng, 0.1):
        return rng.choice([hex(told), f"+{told}", f"{told:_}", f"0o{told:o}", f"0b{told:b}"])
    if isinstance(told, str) and told.isascii() and told.isprintable() and "'" not in told and chance(rng, 0.2):
        return f"'{told}'"
    if isinstance(told, list):
        return "[" + ", ".join(value(rng, it) for it in told) + "]"
    return json.dumps(told) if not isinstance(told, Raw) else told.text


class Raw:
    """A value as it stands in a text."""

    def __init__(self, text):
        self.text = text


def inline(rng, table):
    parted, ended = rng.choice([(", ", " }")] * 4 + [(",\n    ", "\n  }"), (", # so\n", ", }"), (" ,", "# end\n}")])
    return "{ " + parted.join(f"{key} = {value(rng, it)}" for key, it in table.items()) + ended


def text_of(rng, network):
    """A text of a configuration, in one of many forms, with an empty line between its tables."""
    lines, blocks = [f"{key} = {value(rng, it)}" for key, it in network.top.items()], []
    for table in TABLES:
        entries = [shuffled(rng, it) for it in getattr(network, table)]
        if chance(rng, 0.15):
            lines.append(f"{table} = [" + "".join(f"\n  {inline(rng, it)}," for it in entries) + "\n]")
        else:
            blocks.append([f"\n[[{table}]]" + "".join(f"\n{key} = {value(rng, it)}" for key, it in entry.items()) for entry in entries])
    rng.shuffle(lines)
    if chance(rng, 0.05):
        lines.insert(0, "# a comment")
    return "\n".join(lines + put_together(rng, blocks)) + "\n"


def put_together(rng, blocks):
    """The blocks of all tables, those of one table in their order: table after table, mostly."""
    if chance(rng, 0.9):
        return [it for of_table in blocks for it in of_table]
    turns = [place for place, of_table in enumerate(blocks) for _ in of_table]
    rng.shuffle(turns)
    return [blocks[place].pop(0) for place in turns]


def shuffled(rng, table):
    keys = list(table)
    if chance(rng, 0.3):
        rng.shuffle(keys)
    return {key: table[key] for key in keys}
