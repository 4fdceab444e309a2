"""Small networks with traces that are aimed at a limit, so that it is met exactly, or missed by one; and texts with a
fault, and shims, of one kind."""
from types import SimpleNamespace

from model import commands, configuration, host, link, router, run, shims, trace

from . import changes, networks, spoil, traces
from .networks import MASTERS, SECOND, chance
from .traces import NONCES, number

PEERS = {"A": "10.0.0.1", "B": "10.0.1.1"}
FLOWS = [("10.0.0.1", "10.0.1.1"), ("10.0.0.2", "10.0.1.1"), ("10.0.0.1", "10.0.0.3")]
BY_ONE = [0, 0, 0, 0, 1, -1]


def network_of(**tables):
    """A network with these tables."""
    top = {"horizon_ns": 10**15, "max_events": 4_000}
    empty = {table: [] for table in networks.TABLES}
    return SimpleNamespace(**empty | {"top": top, "mode": "mixed"} | tables)


def run_of(rng, network, rows):
    """A run of the model."""
    config = configuration.read(networks.text_of(rng, network).encode())
    running = run.Run(config, trace.read(traces.text_of(rng, rows).encode(), config))
    for _ in run.windows(running):
        if len(running.happened) > config.top.most_events:
            break
    return running


class Measured:
    """What is measured of the words of a function of the model, at each of its calls. It is a list."""

    def __init__(self, of, name, measure):
        self.of, self.name, self.measure, self.told = of, name, measure, []

    def __enter__(self):
        self.right = right = getattr(self.of, self.name)

        def function(*words):
            self.told.append(self.measure(*words))
            return right(*words)

        setattr(self.of, self.name, function)
        return self.told

    def __exit__(self, *_):
        setattr(self.of, self.name, self.right)


# ## links: a host sends all that it has at a time or two, and the limit is what its link came to


def two_hosts(rng, **keys):
    hosts = [{"name": name, "address": address} for name, address in PEERS.items()]
    ends = [{"from": one, "to": other, "delay_ns": rng.choice([1, 1_000, 10**6])} for one, other in ("AB", "BA")]
    for told in ends:
        told["ns_per_byte"] = rng.choice([1, 10, 1_000])
    ends[0] |= {"share": rng.choice([2, 2, 3]), "burst": rng.choice([4_096, 5_000])} | keys
    return network_of(host=hosts, link=ends)


def request_shim(rng):
    tags = rng.choices([0, 1, 2, 3], k=rng.choice([0, 1, 2, 2, 3]))
    return shims.Shim(1, "request", entries=tuple(shims.Entry(tag, rng.randbytes(8)) for tag in tags))


def raw_rows(rng, kind):
    """Rows of one class, mostly, with few keys."""
    found, now = [], rng.choice([0, 1, 7])
    for _ in range(rng.choice([6, 10, 16])):
        its_kind = kind if chance(rng, 0.8) else rng.choice(["request", "regular", "legacy"])
        shim = {"request": request_shim(rng), "regular": shims.Shim(1, "nonce", nonce=rng.choice([1, 2])), "legacy": None}[its_kind]
        payload = rng.choice([0, 500, 1_000, 1_500, rng.randrange(1_601)])
        text = shims.layout(shim).hex() if shim else ""
        found.append((now, "A", "raw", PEERS["A"], rng.choice(["10.0.1.1", "10.0.1.2", "10.0.1.3"]), payload, text))
        now += rng.choice([0, 0, 0, 0, 1, 5_000])
    return found


def link_measures(its_link, kind, keys, packet):
    """What a link comes to by a packet, by the keys of its limits."""
    inside, found = its_link.line(kind), {}
    for key, name in zip(keys, [f"{kind}_queues", "request_inner"]):
        turn = inside.turn_of(key)
        found |= {name: len(inside.turns)} if turn is None else {}
        inside = turn.inside if turn else link.Ring()
    waiting, every = inside.waiting() + [packet], its_link.line(kind).waiting() + [packet]
    return found | {f"{kind}_ring": len(waiting), f"{kind}_queue_bytes": link.size(waiting), f"{kind}_bytes": link.size(every)}


def legacy_measures(its_link, packet):
    waiting = its_link.legacy.waiting() + [packet]
    return {"legacy_ring": len(waiting), "legacy_bytes": link.size(waiting)}


def greatest_so_far(values):
    """Each value that is greater than all before it: up to there a limit of that size changes nothing."""
    return [it for place, it in enumerate(values) if it > max(values[:place], default=0)]


def of_link(key):
    """A limit of a link."""
    kind = key.partition("_")[0]
    least = 2_048 if key.endswith("bytes") else 1

    def make(rng):
        levels = 2 if key == "request_inner" else rng.choice([1, 1, 2])
        network, rows = two_hosts(rng, request_levels=levels, request_inner=64), raw_rows(rng, kind)
        replaced, measure = ("refuses_legacy", legacy_measures) if kind == "legacy" else ("refuses", link_measures)
        with Measured(link, replaced, measure) as told:
            run_of(rng, network, rows)
        found = [it for it in greatest_so_far([it[key] for it in told if key in it]) if it > least]
        if found:
            network.link[0][key] = rng.choice(found) + rng.choice(BY_ONE)
        return network, rows

    return make


def deficits(rng):
    """A quantum with which a turn has just the bytes of what follows."""
    quantum = rng.choice([2_048, 2_500])
    network = two_hosts(rng, quantum=quantum, burst=100_000, request_levels=rng.choice([1, 1, 2]))
    rows = raw_rows(rng, rng.choice(["request", "regular"]))
    with Measured(link, "goes_on", lambda turn, following: shims.length(following) - turn.deficit) as told:
        run_of(rng, network, rows)
    found = [quantum + it for it in told[:4] if quantum + it >= 2_048]
    if found:
        network.link[0]["quantum"] = rng.choice(found) + (rng.choice(BY_ONE) if found[0] > 2_048 else 0)
    return network, rows


def waits(rng):
    """Requests that wait for credit."""
    return two_hosts(rng, request_levels=rng.choice([1, 2])), raw_rows(rng, "request")


def reply_without_queue(rng):
    """A host whose requests wait for credit, under other keys than that of its reply."""
    network = two_hosts(rng)
    network.host[0] |= {"policy": "server"}
    network.link[0] |= {"request_queues": 1, "share": 1_000, "ns_per_byte": 1_000}
    tagged = shims.Shim(1, "request", entries=(shims.Entry(rng.choice([1, 2]), rng.randbytes(8)),))
    rows = [(0, "A", "raw", PEERS["A"], "10.0.1.2", 1_500, shims.layout(tagged).hex())] * rng.choice([5, 6, 8])
    return network, rows + [(rng.choice([0, 1, 100]), "B", "send", "", PEERS["A"], rng.choice([0, 77]), "")]


# ## routers, whose packets have no way, mostly


def one_router(rng, slots=8):
    told = {"name": "R", "master": rng.choice(MASTERS[:2]), "slots": slots} | ({"clock_offset_ns": SECOND} if chance(rng, 0.2) else {})
    return network_of(router=[told])


def listed(network, name, now, flow, rights, nonce):
    """The shim of a row that shows what a router gave in that second."""
    [its] = [it for it in network.router if it["name"] == name]
    second = (now + its.get("clock_offset_ns", 0)) // SECOND
    value = router.hashes.precapability(bytes.fromhex(its["master"]), shims.Flow(*map(number, flow)), second)
    return f"{nonce}/{rights[0]}/{rights[1]}/0/{router.hashes.capability(value, shims.Rights(*rights)).hex()}"


def shown_rows(rng, network, name="R"):
    """Rows of few flows, grants and times, which use up just a unit or a half."""
    found, now = [], 0
    flows, many = rng.sample(FLOWS, rng.choice([1, 2, 3])), rng.sample([(1, 2), (1, 10), (2, 4), (2, 63)], 2)
    for _ in range(rng.choice([4, 8, 12])):
        flow, nonce = rng.choice(flows), rng.choice(NONCES[:2])
        if chance(rng, 0.3):
            found.append((now, name, "nonce", *flow, rng.choice([996, 484, 100]), nonce))
        else:
            found.append((now, name, "list", *flow, rng.choice([984, 472, 100]), listed(network, name, now, flow, rng.choice(many), nonce)))
        now += rng.choice([0, 0, 1, 10**6, 5 * 10**8, SECOND])
    return found


def grants(rng):
    network = one_router(rng)
    return network, shown_rows(rng, network)


def turns(rng):
    """Rows at the end of a flow, or of a grant."""
    network, rows = grants(rng)
    sources = traces.Sources(rng, network, run_of(rng, network, rows))
    return network, traces.merged(rows, [traces.turning(sources) for _ in range(4)] if sources.charged else [])


def again(rng):
    """A grant that is shown once more at the end of its flow, where its budget counts anew."""
    network, seconds = one_router(rng), rng.choice([2, 10, 30])
    shown = listed(network, "R", 0, FLOWS[0], (1, seconds), NONCES[0])
    end = seconds * SECOND // 2
    return network, [(now, "R", "list", *FLOWS[0], 472, shown) for now in (0, end, end + rng.choice([0, 1, 10**6]))]


def slots(rng):
    network, rows = grants(rng)
    with Measured(router, "is_cache_full", lambda plan, charges, now: router.living(charges, now)) as told:
        run_of(rng, network, rows)
    network.router[0]["slots"] = max(0, rng.choice(greatest_so_far(told) or [0]) + rng.choice(BY_ONE))
    return network, rows


def paths(rng):
    entries = tuple(shims.Entry(0, rng.randbytes(8)) for _ in range(rng.choice([15, 16, 16])))
    shim = shims.layout(shims.Shim(1, "request", entries=entries)).hex()
    return one_router(rng), [(0, "R", "raw", *FLOWS[0], rng.choice([0, 100]), shim)]


def loops(rng):
    """Packets that go round until they have passed too many routers."""
    routers = [{"name": name, "master": MASTERS[0], "slots": rng.choice([0, 8])} for name in PEERS]
    ends = [{"from": one, "to": other, "ns_per_byte": 1, "delay_ns": rng.choice([1, 1_000])} for one, other in ("AB", "BA")]
    routes = [{"router": one, "prefix": "0.0.0.0/0", "via": other} for one, other in ("AB", "BA")]
    network = network_of(router=routers, link=ends, route=routes)
    shim = rng.choice(["", shims.layout(request_shim(rng)).hex()])
    rows = [(rng.choice([0, 1]), "A", "raw", *FLOWS[0], rng.choice([0, 100]), shim)]
    if chance(rng, 0.2):
        rows.append((1, "B", "list", *FLOWS[0], 100, listed(network, "B", 1, FLOWS[0], (1, 10), NONCES[0])))
    return network, sorted(rows)


def restarts(rng):
    network, rows = grants(rng)
    changes.put(rng, network, {"R": [it[0] for it in rows]})
    return network, rows


def equals(rng):
    """Two grants of which one has twice the units and takes twice the bytes."""
    network = one_router(rng)
    return network, traces.merged([], traces.alike(traces.Sources(rng, network)))


# ## hosts: one asks another over a router, and sends on


def over_router(rng):
    margin = rng.choice([0, 1, 10**6])
    rights = {"n": rng.choice([1, 2, 4, 32]), "t": rng.choice([4, 6, 10, 63])}
    one, other = [{"name": name, "address": address, "margin_ns": margin, "retry_ns": SECOND + margin} for name, address in PEERS.items()]
    told = {"ns_per_byte": 1, "delay_ns": rng.choice([1, 1_000, 10**6])}
    ends = [{"from": start, "to": end} | told for start, end in ("AR", "RA", "RB", "BR")]
    routes = [{"router": "R", "prefix": f"{address}/32", "via": name} for name, address in PEERS.items()]
    made = [{"name": "R", "master": MASTERS[0], "slots": 8}]
    return network_of(router=made, host=[one | {"policy": "client"}, other | {"policy": "server"} | rights], link=ends, route=routes)


def sends(rng, count=6):
    """A host that asks, and what it sends when it has its answer."""
    found, now = [(0, "A", "send", "", PEERS["B"], rng.choice([0, 77]), "")], 10**7
    for _ in range(rng.choice([2, 3, count])):
        found.append((now, "A", "send", "", PEERS["B"], rng.choice([0, 100, 472, 984]), ""))
        now += rng.choice([10**6, 10**8, SECOND, SECOND + 10**7])
    return found


def shape_measures(plan, entries, now, body):
    """What a host stands at when it makes a packet."""
    grant = host.held(entries)
    asks = host.asks(entries)
    size = grant and 30 + shims.rights_bytes(plan.version) + 8 * len(grant.capabilities) + body
    return SimpleNamespace(plan=plan, now=now, grant=grant, size=size, asked=asks[-1].time if asks else None)


def moved(told):
    """The times at which a limit of a host is met."""
    plan, grant = told.plan, told.grant
    return {
        "ask-again": told.asked + plan.retry_ns,
        "margin": grant.asked + (grant.rights.t - 1) * SECOND - plan.margin_ns,
        "half-seconds": grant.asked + grant.rights.t * SECOND // 2,
        "kept": grant.life - plan.margin_ns,
    }


def of_host(name):
    """A limit of a host, which its last packet meets: by its time, or by its size."""

    def make(rng):
        network, rows = over_router(rng), sends(rng)
        if name == "kept":
            rows[1:] = rows[1:3]
        with Measured(host, "shape", shape_measures) as told:
            run_of(rng, network, rows)
        told = [it for it in told if it.plan.name == "A" and it.now == rows[-1][0] and it.grant]
        if not told:
            return network, rows
        last, [now, *words] = told[-1], rows.pop()
        if name in ("units-left", "half-units"):
            units = 1_024 * last.grant.rights.n
            more = (units if name == "units-left" else units // 2) - last.grant.used - last.size
            words[4] += more + rng.choice(BY_ONE) if 1 <= words[4] + more < 1_600 else 0
        else:
            now = max(now if not rows else rows[-1][0], moved(last)[name] + rng.choice(BY_ONE))
        return network, rows + [(now, *words)]

    return make


def policy(rng):
    """Requests of one source, of which a host grants so many."""
    network = over_router(rng)
    network.host[0]["retry_ns"] = SECOND + network.host[0]["margin_ns"]
    network.host[1] |= {"grants": rng.choice([0, 1, 2]), "n": 1, "t": rng.choice([1, 2])}
    return network, [(it * (SECOND + 10**7), "A", "send", "", PEERS["B"], 0, "") for it in range(5)]


def rights_most(rng):
    network = over_router(rng)
    version = rng.choice([1, 1, 2])
    network.top["version"] = version
    network.host[1] |= {"n": shims.units_most(version), "t": shims.seconds_most(version)}
    return network, sends(rng)


def notices(rng):
    """A router that restarts with another master, so that what a host shows is demoted."""
    network, rows = over_router(rng), [(it, "A", "send", "", PEERS["B"], 0, "") for it in (0, 10**7)]
    network.host[1] |= {"n": 32, "t": 10}
    network.restart = [{"router": "R", "at_ns": 2 * 10**7, "master": MASTERS[1]}]
    return network, rows + [(3 * 10**7 + it * 10**7, "A", "send", "", PEERS["B"], 0, "") for it in range(rng.choice([2, 3, 4]))]


def notice_with_ack(rng):
    """The same with a file behind the restart."""
    network, rows = notices(rng)
    return network, rows[:2] + [(3 * 10**7, "A", "file", "", PEERS["B"], rng.choice([1, 100]), rng.choice([100, 200]))]


def renewal_with_range(rng):
    """A file that takes more than half of the units that are left, when its host may ask again."""
    network = over_router(rng)
    network.host[1] |= {"n": 1, "t": 10}
    size = rng.choice([600, 700, 900])
    return network, [(0, "A", "send", "", PEERS["B"], 0, ""), (SECOND + 10**7, "A", "file", "", PEERS["B"], size, size)]


def files(rng):
    """Files with ticks that come before what they would go on with."""
    network = two_hosts(rng)
    segment = rng.choice([1, 100, 1_500])
    rows = [(0, "A", "file", "", PEERS["B"], segment, segment * rng.choice([1, 2, 3]) + rng.choice([0, 0, 1]))]
    return network, rows + sorted((rng.choice([1, 1_000, 10**6, 10**7]), "A", "tick", "", PEERS["B"], 0, "") for _ in range(rng.choice([1, 2, 4])))


# ## ends of runs


def cut(rng):
    """A run that ends at its last event, or at a time at which something happens, or next to it."""
    network, rows = rng.choice([waits, grants, loops, files])(rng)
    happened = run_of(rng, network, rows).happened
    if chance(rng, 0.5):
        network.top["max_events"] = max(1, len(happened) - rng.choice([0, 0, 0, 1]))
    else:
        network.top["horizon_ns"] = max(rows[-1][0], rng.choice(happened).time + rng.choice(BY_ONE))
    return network, rows


# what is aimed at other kinds that are seldom
KINDS = {
    "outcome of a reply dropped:no-queue": reply_without_queue,
    "acknowledgement that is sent on a notice": notice_with_ack,
    "receipt with a range renewal": renewal_with_range,
}

# what is aimed at each limit
LINK_KEYS = [f"{kind}_{key}" for kind in ("request", "regular") for key in ("queues", "ring", "queue_bytes", "bytes")]
LINK_KEYS += ["request_inner", "legacy_ring", "legacy_bytes"]
NETWORKS = {key.replace("_", "-"): of_link(key) for key in LINK_KEYS}
NETWORKS |= {name: of_host(name) for name in ("ask-again", "margin", "units-left", "half-units", "half-seconds", "kept")}
NETWORKS |= {"paid": waits, "deficit": deficits, "free": waits, "window-end": waits, "horizon": cut, "max-events": cut}
NETWORKS |= {"change": restarts, "end-of-life": turns, "seconds": turns, "same-second": grants, "budget": grants, "slots": slots}
NETWORKS |= {"second-0": grants, "hop-limit-32": loops, "path": paths, "equal-grants": equals, "report-line": grants, "row-order": waits}
NETWORKS |= {"notices": notices, "grants": policy, "units-most": rights_most, "seconds-most": rights_most, "file-done": files, "told-before": files}
NETWORKS |= {"items": paths, "retry": policy, "least-value": cut, "greatest-value": policy, "number": notices}


# ## texts with a fault of a kind


def config_fault(rng, rule, table, network):
    """A configuration with a fault, by a way that makes its kind."""
    ways = {"prefix": spoil.prefix_of_none if table == "reroute" else spoil.prefix, "value": spoil.value, "times": spoil.times}
    if rule == "count":
        spoil.count(rng, network, rng.choice(["router", "host"]) if table == "host" else table)
    elif rule == "syntax":
        return (networks.text_of(rng, network) + rng.choice(spoil.TOML_SCRAPS)).encode()
    else:
        ways.get(rule, getattr(spoil, rule))(rng, network)
    return networks.text_of(rng, network).encode()


def trace_fault(rng, rule):
    """A configuration, and a trace with a fault by a way that makes its kind."""
    network, rows = rng.choice([grants, notices, files, waits])(rng)
    lines = [traces.HEADER, *(",".join(map(str, it)) for it in rows[: rng.randrange(1, 8)])]
    if rule in spoil.FIELDS:
        spoil.field(rng, lines, rule)
    else:
        {"order": spoil.order, "fields": spoil.fields, "header": spoil.header}[rule](rng, lines)
    return {"config": networks.text_of(rng, network).encode(), "trace": ("\n".join(lines) + "\n").encode()}


def shim_of(rng, version, kind=None):
    """A shim of a version and a kind, or bytes that are none."""
    if version == "malformed":
        return rng.randbytes(rng.choice([1, 2, 8, 60]))
    told = shims.Shim(int(version[1:]), kind, chance(rng, 0.3), rng.choice([6, 17]))
    if kind == "request":
        return shims.layout(told._replace(entries=request_shim(rng).entries))
    items = tuple(rng.randbytes(8) for _ in range(rng.choice([0, 1, 2, 16])))
    rights = shims.Rights(rng.choice([0, 1, 1_023]), rng.choice([0, 63]))
    more = {} if kind == "nonce" else {"rights": rights, "capabilities": items, "pointer": rng.randrange(len(items) + 1)}
    back = rng.choice([None, shims.Back(), shims.Back(shims.Rights(1, 2), (rng.randbytes(8),))])
    return shims.layout(told._replace(nonce=rng.getrandbits(48), back=back, **more))


# ## words with texts that meet a limit


def counts(rng):
    network = one_router(rng)
    way = rng.randrange(3)
    if way == 0:
        table = rng.choice(["router", "host", "link"])
        setattr(network, table, [])
        network.top[table] = networks.Raw("[" + "{}," * (spoil.COUNTS[table] - 1) + "]")
    elif way == 1:
        network.router = [network.router[0] | {"slots": 999_999}, {"name": "S", "master": MASTERS[0], "slots": 1}]
    else:
        network = two_hosts(rng, request_queues=1_000, request_ring=998, request_levels=1)
        small = {f"{kind}_{key}": 1 for kind in ("request", "regular") for key in ("queues", "ring")} | {"legacy_ring": 1}
        # the other link has three places, and this one the rest
        network.link[1] |= small
        network.link[0] |= {"regular_queues": 1, "regular_ring": 1, "legacy_ring": 1_996}
    return ["check", "config"], {"config": networks.text_of(rng, network).encode()}


def two_changes(rng):
    network = one_router(rng)
    at = rng.choice([0, 1, 10**15])
    network.restart = [{"router": "R", "at_ns": at, "master": rng.choice(MASTERS)} for _ in range(2)]
    return ["check", "config"], {"config": networks.text_of(rng, network).encode()}


def full_file(rng):
    config = networks.text_of(rng, one_router(rng)).encode() + b"#"
    return ["check", "config"], {"config": config.ljust(commands.CONFIG_MOST - 1, b"x") + b"\n"}


def long_words(rng):
    way = rng.randrange(3)
    if way == 0:
        return ["shim", rng.randbytes(400).hex()], {}
    network = one_router(rng)
    network.router[0]["name"] = "x" * 16
    files = {"config": networks.text_of(rng, network).encode()}
    if way == 1:
        return ["check", "config"], files
    row = (f"{rng.choice([0, 7]):020}", "x" * 16, "raw", *FLOWS[0], 0, "")
    return ["replay", "config", "trace"], files | {"trace": traces.text_of(rng, [row]).encode()}


def pointers(rng):
    """A shim whose pointer stands behind its last capability, or before it."""
    items = tuple(rng.randbytes(8) for _ in range(rng.choice([1, 2, 16])))
    told = shims.Shim(1, rng.choice(["list", "renewal"]), nonce=1, pointer=len(items) - rng.choice([0, 0, 1]), rights=shims.Rights(1, 2))
    return ["shim", shims.layout(told._replace(capabilities=items)).hex()], {}


def bare_hosts(rng):
    """The configuration of two hosts with a link each."""
    hosts = [{"name": name, "address": address} for name, address in PEERS.items()]
    ends = [{"from": one, "to": other, "ns_per_byte": 1, "delay_ns": 1} for one, other in ("AB", "BA")]
    return networks.text_of(rng, network_of(host=hosts, link=ends)).encode()


def trace_of(rows):
    return traces.HEADER.encode() + b"\n" + b"".join(rows)


def many_rows(rng):
    """A million rows and a record more, which is a row or none."""
    row = b"0,A,tick,,1.1.1.1,0,\n"
    rows = [row * 1_000_000, rng.choice([row, row * 2, b"x\n"])]
    return ["replay", "config", "trace"], {"config": bare_hosts(rng), "trace": trace_of(rows)}


def many_files(rng):
    """As many files as a host may have, or one less, and a file more; and a record behind them that is no row."""
    files = [b"0,A,file,,1.1.1.1,1,1\n"] * (65_536 - rng.choice([0, 0, 1]))
    others = [[b"0,B,file,,1.1.1.1,1,1\n"], [b"0,A,tick,,1.1.1.1,0,\n"], []]
    rows = files + rng.choice(others) + files[:1] + [b"x\n"]
    return ["replay", "config", "trace"], {"config": bare_hosts(rng), "trace": trace_of(rows)}


def wide_segments(rng):
    """A file in segments that are as long as they may be, or longer."""
    row = b"0,A,file,,1.1.1.1,%d,9000\n" % rng.choice([1_500, 1_501, 1_600, 1_601])
    return ["replay", "config", "trace"], {"config": bare_hosts(rng), "trace": trace_of([row])}


TEXTS = {"pointer": pointers, "counts": counts, "times": two_changes, "file-size": full_file, "characters": long_words, "segment-most": wide_segments}
LARGE = {"rows": many_rows, "files": many_files}
TEXTS |= LARGE

# what is made for readings that no limit's aim shows
READINGS = {"again": again}
