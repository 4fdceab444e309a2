"""Configurations and traces with a fault of each kind, and reports with changes."""
from . import networks
from .networks import Raw, TABLES, chance

# ## configurations

WRONG = [-1, 10**16, Raw("9223372036854775807"), "", "x" * 17, "a b", True, 1.5, [1], Raw("{}"), Raw("1979-05-27"), Raw("[{}]"), "ä"]
REQUIRED = {
    "router": ["name", "master", "slots"],
    "host": ["name", "address"],
    "link": ["from", "to", "ns_per_byte", "delay_ns"],
    "route": ["router", "prefix", "via"],
    "restart": ["router", "at_ns", "master"],
    "reroute": ["router", "at_ns", "prefix", "via"],
}
BOUNDS = {
    "top": {"horizon_ns": (0, 10**15), "max_events": (1, 4_000_000), "version": (1, 2)},
    "router": {"slots": (0, 1_000_000), "clock_offset_ns": (0, 10**15), "edge_tag": (0, 65_535)},
    "host": {"margin_ns": (0, 10**12), "retry_ns": (0, 10**13), "grants": (0, 1_000_000), "n": (0, 1_023), "t": (0, 63)},
    "link": {
        "ns_per_byte": (1, 1_000_000),
        "delay_ns": (1, 10**12),
        "tag": (0, 65_535),
        "share": (2, 1_000),
        "burst": (4_096, 1_000_000),
        "quantum": (2_048, 1_000_000),
        "request_levels": (1, 2),
        "request_inner": (1, 65_536),
    }
    | {f"{kind}_{key}": (1, 65_536) for kind in ("request", "regular") for key in ("queues", "ring")}
    | {f"{kind}_{key}": (2_048, 1 << 30) for kind in ("request", "regular") for key in ("queue_bytes", "bytes")}
    | {"legacy_ring": (1, 65_536), "legacy_bytes": (2_048, 1 << 30)},
    "restart": {"at_ns": (0, 10**15)},
    "reroute": {"at_ns": (0, 10**15)},
}
TEXTS = {
    "router": {"name": ["", "x" * 16, "a.b", "ö"], "master": ["0" * 63, "g" * 64, "0" * 66]},
    "host": {
        "name": ["a b", "x" * 17],
        "address": ["10.0.0", "10.0.0.01", "1.2.3.256", "1..2.3", "1.2.3.4.", "+1.2.3.4"],
        "nonce": ["0" * 11, "0" * 13, "00000000000g"],
        "policy": ["Server", "", "both"],
        "deny": [["10.0.0.1"] * 1_025, [1], ["10.0.0"], "10.0.0.1"],
        "deny_tags": [[0], [65_536], [1] * 1_025, ["1"], 1],
    },
    "link": {"from": ["", "x" * 17], "to": ["", "a.b"]},
    "route": {"router": [""], "prefix": ["10.0.0.0", "10.0.0.0/33", "10.0.0.0/08", "10.0.0.0/", "/8", "1.2.3.4/8/8"], "via": ["-" * 17]},
    "restart": {"router": ["", "x" * 17], "master": ["0" * 63, "g" * 64, "0" * 66]},
    "reroute": {"router": ["a.b"], "prefix": ["10.0.0.0", "10.0.0.0/33", "10.0.0.0/-1", "/0"], "via": ["", 1]},
    "top": {
        "router": [1, [1], Raw("{}"), "x"],
        "host": [[[]], Raw("{ a = 1 }")],
        "link": [False],
        "route": [Raw("[{}, 1]")],
        "restart": [5, Raw("{}"), [5]],
        "reroute": ["", Raw("[{}, []]")],
    },
}


def entries(network, table):
    return [network.top] if table == "top" else getattr(network, table)


def an_entry(rng, network, *tables):
    """An entry of one of the tables, which is made where there is none. Returns it with its table."""
    table = rng.choice(tables)
    if not entries(network, table):
        made = {"router": lambda: networks.router(rng, 9), "host": lambda: networks.host(rng, 9, "10.9.9.9", 1)}
        made |= {"link": lambda: networks.link(rng, "R0", "R1", [1]), "route": lambda: {"router": "R0", "prefix": "1.2.3.4/5", "via": "R1"}}
        made |= {"restart": lambda: a_restart(rng, network), "reroute": lambda: a_reroute(rng, network)}
        entries(network, table).append(made[table]())
    return rng.choice(entries(network, table)), table


def a_restart(rng, network):
    name = network.router[0]["name"] if network.router else "R0"
    return {"router": name, "at_ns": rng.choice([0, 5, 10**15]), "master": rng.choice(networks.MASTERS)}


def a_reroute(rng, network):
    """The change of a route that there is, or one without a route."""
    routes = network.route or [{"router": "R0", "prefix": "1.2.3.4/5", "via": "R1"}]
    return dict(rng.choice(routes)) | {"at_ns": rng.choice([0, 5, 10**15])}


def unknown(rng, network):
    entry, _ = an_entry(rng, network, "top", *TABLES)
    entry[rng.choice(["x", "Name", "slot", "horizon"])] = 1


def missing(rng, network):
    entry, table = an_entry(rng, network, "top", *TABLES)
    entry.pop(rng.choice(["horizon_ns", "max_events"] if table == "top" else REQUIRED[table]), None)


def value(rng, network):
    entry, table = an_entry(rng, network, "top", *TABLES)
    if chance(rng, 0.4) and table in BOUNDS:
        key, (least, most) = rng.choice(list(BOUNDS[table].items()))
        entry[key] = rng.choice([least - 1, most + 1, least, most])
    elif chance(rng, 0.6):
        key, values = rng.choice(list(TEXTS[table].items()))
        entry[key] = rng.choice(values)
    else:
        entry[rng.choice(list(entry))] = rng.choice(WRONG)
    if table == "top" and not all(isinstance(network.top.get(key, []), list) for key in TABLES):
        for key in TABLES:
            setattr(network, key, [] if key in network.top else getattr(network, key))


COUNTS = {"router": 1_025, "host": 1_025, "link": 4_097, "route": 65_537, "restart": 65_537, "reroute": 65_537}


def count(rng, network, table=None):
    table = table or rng.choice(list(COUNTS))
    number = COUNTS[table] - rng.choice([0, 0, 0, 1])
    setattr(network, table, [])
    network.top[table] = Raw("[" + "{}," * number + "]")


def names(rng, network):
    one, table = an_entry(rng, network, "router", "host")
    entries(network, table).append(dict(one))


def addresses(rng, network):
    one, _ = an_entry(rng, network, "host")
    network.host.append(dict(one) | {"name": "twin"})


def retry(rng, network):
    one, _ = an_entry(rng, network, "host")
    one["margin_ns"] = rng.choice([0, 1, 10**9])
    one["retry_ns"] = one["margin_ns"] + 10**9 - rng.choice([0, 1, 1, 5])


def ends(rng, network):
    one, _ = an_entry(rng, network, "link")
    one[rng.choice(["from", "to"])] = rng.choice(["nobody", one["from"], one["to"]])


def pair(rng, network):
    one, _ = an_entry(rng, network, "link")
    network.link.append(dict(one))


def uplink(rng, network):
    one, _ = an_entry(rng, network, "host")
    if chance(rng, 0.5):
        network.link = [it for it in network.link if it["from"] != one["name"]]
    else:
        network.link += [networks.link(rng, one["name"], it["name"], [5]) for it in network.router + network.host]


def owner(rng, network):
    one, _ = an_entry(rng, network, "route", "restart", "reroute")
    one["router"] = rng.choice(["nobody"] + [it["name"] for it in network.host])


def via(rng, network):
    one, _ = an_entry(rng, network, "route", "reroute")
    one["via"] = rng.choice(["nobody", one["router"]] + [it["name"] for it in network.router + network.host])


def prefix(rng, network):
    one, _ = an_entry(rng, network, "route")
    address, bits = one["prefix"].split("/")
    address = address[:-1] + "7" if bits != "32" and address[-2] == "." else address
    network.route.append(dict(one) | {"prefix": f"{address}/{bits}"})


def prefix_of_none(rng, network):
    """A change of a prefix that its router has no route of, mostly."""
    one, _ = an_entry(rng, network, "reroute")
    address, bits = one["prefix"].split("/")
    others = [it["prefix"] for it in network.route if it["router"] != one["router"]]
    one["prefix"] = rng.choice([f"{address}/{max(0, int(bits) - 1)}", f"{address}/{min(32, int(bits) + 1)}", "9.9.9.9/32", *others])


def times(rng, network):
    """A further change at the time of an earlier one, before it, or behind it, alone or before the others."""
    one, table = an_entry(rng, network, "restart", "reroute")
    told = entries(network, table)
    further = dict(one) | {"at_ns": max(0, one["at_ns"] + rng.choice([0, 0, 0, -1, 1, -(10**9)]))}
    told.insert(rng.choice([len(told), len(told), rng.randrange(len(told) + 1)]), further)


def slots(rng, network):
    while len(network.router) < 2:
        network.router.append(networks.router(rng, len(network.router) + 90))
    network.router[0]["slots"] = 1_000_000 - rng.choice([0, 1, 500])
    network.router[1]["slots"] = rng.choice([0, 1, 2, 500])


def rings(rng, network):
    one, _ = an_entry(rng, network, "link")
    one |= {"request_queues": 1_000, "regular_queues": 1, "regular_ring": 1, "request_levels": rng.choice([1, 2])}
    one |= {"request_ring": 999 if one["request_levels"] == 1 else 333, "request_inner": 3, "legacy_ring": rng.choice([999, 1_000, 998])}
    network.link[:] = [one] if chance(rng, 0.3) else network.link


CONFIG_FAULTS = [unknown, missing, value, value, value, names, addresses, retry, ends, pair, uplink, owner, via, prefix, slots, rings]
CONFIG_FAULTS += [unknown, missing, value, owner, via, prefix_of_none, prefix_of_none, times, times, times]
TOML_SCRAPS = [
    *("x = ", "= 1", "[router]", "[[router]]", "[top", "horizon_ns = 1", 'a = "\\x"', "a = 'b", "a.b = 1", "a = 1 2"),
    *("\x00", "a = 08", "a = 0x", 'a = """', "a = [1,", "a = {b = 1", "a = 9223372036854775808", "a = -9223372036854775809"),
    *("a = [0x8000000000000000]", "a = 1_", "a = tru", "a = 1979-13-01", "a = {b = 9999999999999999999}", 'a = "\\ud800"'),
    *("a = { b = 1,\n }", "a = {b =\n1}", 'a = "\\e\\x41"', "a = 07:32", "a = 1e400"),
    *("a = " + "[" * 80 + "]" * 80, "a = " + "[" * 81 + "]" * 81, "a" + ".a" * 79 + " = 1", "a" + ".a" * 80 + " = 1", "a = {\n# b\n}", "a = {,}"),
    *("\r", "a = 1 # \x07", "[a]\n[a]", "a = inf", "[[host]]\n[host]"),
]
MARK = b"\xef\xbb\xbf"


def damage(rng, text):
    """A text that lost a line, or has one twice, or some characters changed."""
    lines = text.split("\n")
    place = rng.randrange(len(lines))
    way = rng.randrange(5)
    if way == 0:
        return "\n".join(lines[:place] + lines[place + 1 :])
    if way == 1:
        return "\n".join(lines[: place + 1] + lines[place:])
    at = rng.randrange(len(text))
    if way == 2:
        return text[:at] + text[at + 1 :]
    return text[:at] + rng.choice('"=[]{},.#\n0a _-') + text[at + (way == 3) :]


def config(rng, network):
    """The bytes of a configuration with a fault, mostly."""
    if chance(rng, 0.12):
        text = networks.text_of(rng, network)
        lines = text.split("\n")
        lines.insert(rng.randrange(len(lines)), rng.choice(TOML_SCRAPS))
        return "\n".join(lines).encode()
    if chance(rng, 0.12):
        return damage(rng, networks.text_of(rng, network)).encode()
    if chance(rng, 0.05):
        data = networks.text_of(rng, network).encode()
        return rng.choice([MARK + data, data + b"#\xff\n", b"\xff" + data, data.replace(b"\n", b"\r\n"), MARK * 2 + data])
    fault = count if chance(rng, 0.07) else rng.choice(CONFIG_FAULTS)
    fault(rng, network)
    if chance(rng, 0.1):
        rng.choice([unknown, missing, value])(rng, network)
    return networks.text_of(rng, network).encode()


# ## traces

BARE = ["x", "0", "100", "100600", "zz", "00000000000a", "0000000000a", "00" * 401, "00" * 400, "0" * 801, "0x10"]
SHOWN = [
    *("1/1/0/", "1/1/1/", "1/1/0", "1/1/0//", "1048576/1/0/", "1/128/0/", "1048575/127/0/", "1/1/0/R0@5", "1/1/0/H0@5", "1/1/0/R0@"),
    *("1/1/0/R0@2000001", "1/1/0/R0@2000000", "1/1/0/@5", "1/1/0/R0@5@5", "1/1/0/R0@5;", "1/1/0/;", "01/001/0/R0@05", "1/1/2/R0@5"),
]
ITEMS = ["1/1/17/" + ";".join(["0" * 16] * 17), "1/1/16/" + ";".join(["0" * 16] * 16), "1/1/0/00112233445566gg"]
NONCE = "00000000000a/"
SIZES = ["1", "00000000000100000000", "100000000", "100000001", "-1", "1e3", "4294967297", "000000000000000000001"]
FIELDS = {
    "time": ["", "x", "-1", "+1", "1.0", " 1", "0x1", "1" * 21, "0" * 21, "0" * 20, "1000000000000001", "99999999999999999999"],
    "node": ["", "nobody", "r0", " R0", "R0 "],
    "kind": ["", "Send", "renewal", "request", "lists", "send", "file", "tick", "File", "ticks", "data"],
    "src": ["", "10.0.0", "10.0.0.01", "x", "256.1.1.1", "10.0.0.1"],
    "dst": ["", "10.0.0", "10.0.0.1.1", "H0", "1.2.3.4 "],
    "payload": ["", "1601", "-1", "x", "0001600", "00000000000000000001", "000000000000000000001", "16e2", "0", "1500", "1501", "000"],
    "shim": BARE + SIZES + [NONCE + it for it in SHOWN] + ["0000000000/1/1/0/"] + [NONCE + it for it in ITEMS],
}
COLUMNS = list(FIELDS)


def field(rng, lines, name=None):
    """A field that isn't meant, mostly."""
    place = rng.randrange(1, len(lines))
    words = lines[place].split(",")
    name = name or rng.choice(COLUMNS)
    words[COLUMNS.index(name) % len(words)] = rng.choice(FIELDS[name])
    lines[place] = ",".join(words)


def order(rng, lines):
    """A later row first."""
    place = rng.randrange(1, len(lines))
    words = lines[place].split(",")
    lines.insert(place, ",".join([str(int(words[0].strip(chr(34))) + rng.choice([0, 1, 1, 10**9]))] + words[1:]))


def fields(rng, lines):
    place = rng.randrange(1, len(lines))
    lines[place] = rng.choice([lines[place] + ",", lines[place].rpartition(",")[0], "", " ", ",", ",,,,,,", '""', "x"])


def header(rng, lines):
    changed = ["", lines[0] + ",", lines[0].upper(), lines[0].replace("src,dst", "dst,src")]
    lines[0] = rng.choice(changed + ['"time",node,kind,"src",dst,payload,shim', lines[-1]])


def scraps(rng, lines):
    """Quotes and line ends where none are meant."""
    place = rng.randrange(len(lines))
    at = rng.randrange(len(lines[place]) + 1)
    lines[place] = lines[place][:at] + rng.choice(['"', '""', "\r", "\n", ",", '","', "\x00", "ä"]) + lines[place][at:]


def trace(rng, text):
    """The bytes of a trace with a fault, mostly."""
    if chance(rng, 0.03):
        return rng.choice([b"", b"\n\n", MARK, b"\xff\xfe"])
    if chance(rng, 0.05):
        return rng.choice([MARK, b"\n\r\n", MARK * 2]) + text.encode()
    lines = text.splitlines()
    if len(lines) < 2:
        lines.append("0,R0,raw,10.0.0.1,10.0.1.1,0,")
    ways = [field] * 8 + [order, order, fields, header, scraps]
    if chance(rng, 0.5):
        lines = lines[: rng.randrange(2, len(lines) + 1)]
    rng.choice(ways)(rng, lines)
    return "\n".join(lines).encode() + b"\n"


# ## reports. Each change takes the lines with their line feeds, and there is one at least.


def a_place(rng, lines):
    """A line, and a place in it that isn't its line feed."""
    place = rng.randrange(len(lines))
    return place, rng.randrange(max(1, len(lines[place]) - 1))


def put_byte(rng, lines, told):
    """Puts a byte in place of another, or before it."""
    place, at = a_place(rng, lines)
    line = lines[place]
    lines[place] = line[:at] + bytes([told]) + line[at + rng.choice([1, 1, 1, 0]) :]


def a_byte(rng, lines):
    put_byte(rng, lines, rng.choice([rng.randrange(32, 127), rng.randrange(48, 58), 32, 126]))


def unprintable(rng, lines):
    put_byte(rng, lines, rng.choice([0, 9, 11, 13, 31, 127, 128, 255, rng.randrange(128, 256)]))


def left_out(rng, lines):
    del lines[rng.choice([rng.randrange(len(lines)), len(lines) - 1])]


def doubled(rng, lines):
    place = rng.choice([rng.randrange(len(lines)), len(lines) - 1])
    lines.insert(place, lines[place])


def exchanged(rng, lines):
    one = rng.randrange(len(lines))
    other = rng.choice([rng.randrange(len(lines)), (one + 1) % len(lines)])
    lines[one], lines[other] = lines[other], lines[one]


def without_end(rng, lines):
    lines[-1] = lines[-1].removesuffix(b"\n")


def empty_line(rng, lines):
    lines.insert(rng.randrange(len(lines) + 1), b"\n")


def long_line(rng, lines):
    """A line of as many bytes as it may have, or of one more."""
    place = rng.randrange(len(lines))
    lines[place] = lines[place].removesuffix(b"\n").ljust(rng.choice([255, 256]), b"~") + b"\n"


REPORT_CHANGES = {
    "a byte": a_byte,
    "an unprintable byte": unprintable,
    "a line left out": left_out,
    "a line doubled": doubled,
    "two lines exchanged": exchanged,
    "no last line feed": without_end,
    "an empty line": empty_line,
    "a long line": long_line,
}


def report(rng, text):
    """A report with a change, or with two, and the names of these."""
    lines, names = text.splitlines(keepends=True) or [b"x\n"], []
    for _ in range(rng.choice([1, 1, 2])):
        name = rng.choice(list(REPORT_CHANGES))
        REPORT_CHANGES[name](rng, lines or [b"x\n"])
        names.append(name)
    return b"".join(lines), names
