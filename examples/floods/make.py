#!/usr/bin/env python3
"""Writes the configuration and the trace of a flood.

    make.py FLOOD RATE FOLDER [--without] [--seed N] [--attackers K] [--colluders K] [--mix KINDS] [--forge WHAT]
            [--forge-every MS] [--topology NAME] [--shared-tag] [--one-tag] [--levels L] [--restart SECONDS]
            [--same-master] [--set KEY=NUMBER].. [--pulse MS,PERCENT] [--attack-at SECONDS] [--honest-at SECONDS]
            [--transfers] [--tick MS] [--delay MS]

FLOOD is one of those below, and RATE says how many times the bottleneck's rate the attackers send, all together: 0
is no flood. The files are FOLDER/NAME.toml, FOLDER/NAME.csv and FOLDER/NAME.json, which says what was made; NAME is
printed. The same words and the same seed give the same bytes. Each file is written as NAME.part, and gets its name when
it is whole.

Ten honest senders send 80 packets each to the server, one every 50 milliseconds from 0.5 seconds on. Ten
attackers send from the start to the fifth second, packets with a payload of 1,500 bytes:

    legacy       to the server, without a shim
    requests     to the server, as requests
    authorised   to colluders, who grant all that they can: what the attackers send is authorised
    mixed        kinds of the above in turn, an attacker each: --mix requests,legacy, or three kinds
    forged       as in legacy, and beside it forged packets that cost the attackers next to nothing: --forge
        notices  packets of 24 bytes under the server's address that tell each honest sender of a packet that
                 came marked, one every --forge-every milliseconds (125)
        grants   packets under the server's address that grant each honest sender capabilities that are none,
                 one every --forge-every milliseconds (20), so that one comes before the true grant does
        packets  the flood itself is of packets under the honest senders' addresses with a nonce that no router
                 knows: the server tells the honest senders of each that comes through

With --without nobody uses the defence: all packets come without a shim, at the same times and with the
same payloads, through the same network. With --attackers there are K of them, each with a tag of its own, who send as
much together as ten would. With --colluders there are K colluding destinations in place of one, to whom each attacker
sends in turn. With --shared-tag the first honest sender's link into the network has
the tag of the first attacker's. With --one-tag all senders are behind one tagged link, and the bottleneck
comes after it. With --levels 2 the bottleneck queues its requests by two tags, the last and the one before.
With --restart all routers restart at that time, each with a new master, or with --same-master with its
own; there may be several times, joined by commas.
--set gives the bottlenecks another number for a key of links, as request_queues=128; there may be several.
--topology is dumbbell, parking-lot (three bottlenecks in a row) or tree (nine routers with senders below a root).

With --pulse 500,20 attackers are on for the first 20 % of each 500 milliseconds since they began, and off for the rest;
RATE is how much they send while they are on. With --attack-at they begin at that second in place of 0; at several,
joined by commas, in turn (`0,1,2`); and at one of its own, drawn by the seed, each with `0..4`. With --honest-at the
honest senders begin so in place of 0.5, or users with --transfers in place of 10. Forged notices and grants keep their
own times. Attackers are as many as the 1,024 nodes of a configuration leave room for.

With --transfers the honest senders are ten users who transfer files of 20,000 bytes again and again, four each, over a
bottleneck of 10 Mbit/s, and RATE is the number of attackers, each of whom sends 1 Mbit/s until the end. A user begins a
file each ten seconds, sends its segments of 1,000 bytes one after another, and where that stands still sends the next
one once more each --tick milliseconds (1000). Each link takes --delay milliseconds (2.5). With --without all hosts
send legacy packets: they ask once at the start, in vain.
"""
import argparse
import heapq
import itertools
import json
import math
import os
import random
import sys

HERE = os.path.dirname(os.path.abspath(__file__))
sys.path.insert(0, os.path.dirname(HERE))
import runs  # noqa: E402
import topologies  # noqa: E402
import transfers  # noqa: E402
from words import Words, whole  # noqa: E402

SECOND = 1_000_000_000
MILLISECOND = 1_000_000

HONEST = 10
ATTACKERS = 10

HONEST_FROM = SECOND // 2
HONEST_EVERY = 50 * MILLISECOND
HONEST_PACKETS = 80
HONEST_PAYLOAD = 1_000

FLOOD_PAYLOAD = 1_500
HEADER = 20  # bytes of a packet's header
ROWS_MOST = 1_000_000  # of at most 64 bytes, so that they fit into a trace's 64 MiB
NODES_MOST = 1_024  # of a configuration, and its bytes
BYTES_MOST = 1 << 20
NAME_MOST = 200  # letters of a run's name, which names files

KINDS = ["legacy", "requests", "authorised"]
FLOODS = [*KINDS, "mixed", "forged"]
FORGED = {"notices": 125, "grants": 20, "packets": None}  # milliseconds between two to one sender
COLLUDERS_MOST = 200
TIMES_MOST = 32  # restarts, or times at which senders begin in turn

# shims in hexadecimal: a request without entries; a marked one that brings a notice; one that brings a grant of 1,023
# units within 63 seconds with two capabilities, stamped with second 0; and a nonce that nobody was given
REQUEST = "100600"
NOTICE = "1c060001"
GRANT = "1c06000202" + "ffff" + "00f0f0f0f0f0f0f0" * 2
STRANGE_NONCE = "1206" + "ffffffffffff"

# limits of the links of single hosts, past which no flood needs them
SMALL = dict(request_queues=4, regular_queues=8, request_ring=32, regular_ring=64, legacy_ring=64)
# and those of attackers where there are more than so many of them, since all queues together have a million places
MANY = 200
SMALLEST = dict(request_queues=4, regular_queues=8, request_ring=16, regular_ring=16, legacy_ring=32)


class Starts:
    """When senders begin: at these times in turn, or each at one that it draws between two. In nanoseconds."""

    def __init__(self, times, drawn):
        self.times, self.drawn = times, drawn

    def of(self, seed, name, number):
        """When the number-th sender of this name begins."""
        if not self.drawn:
            return self.times[(number - 1) % len(self.times)]
        low, high = self.times
        return low + int(random.Random(f"{seed} start of {name} {number}").random() * (high - low))

    def text(self, between=","):
        return (".." if self.drawn else between).join(f"{time / SECOND:g}" for time in self.times)


class Setting:
    """What is otherwise where users transfer files: times are in nanoseconds, a bottleneck's in nanoseconds a byte."""

    def __init__(self, bottleneck, until, horizon, near, far, servers, slots, **scarce):
        self.bottleneck, self.until, self.horizon, self.near, self.far = bottleneck, until, horizon, near, far
        self.servers, self.slots = [f"10.3.0.{number}" for number in range(1, servers + 1)], slots
        self.scarce = dict(ns_per_byte=bottleneck, delay_ns=far, legacy_ring=64, **scarce)

    def server_at(self, time):
        """The address of the server that honest senders send to at that time."""
        return self.servers[transfers.place_at(time)] if len(self.servers) > 1 else self.servers[0]


def setting_of(it):
    if not it.transfers:
        return Setting(bottleneck=2_000, until=5 * SECOND, horizon=8 * SECOND, near=5 * MILLISECOND, far=10 * MILLISECOND, servers=1, slots=256)
    # with the defaults 22 tags that flood leave no room to the requests of others
    room = dict(request_queues=256, request_bytes=1 << 24)
    delay = round(it.delay * MILLISECOND)
    return Setting(bottleneck=800, until=transfers.UNTIL, horizon=transfers.UNTIL, near=delay, far=delay, servers=transfers.FILES, slots=8_192, **room)


# ## the network


def in_turn(routers, number):
    """The router of the number-th host."""
    return routers[(number - 1) % len(routers)]


def join_host(it, network, name, router, there={}, **both):
    """Joins a host by its router: `there` is said of its own link, `both` of both."""
    network.join(name, router, there=there, **dict(ns_per_byte=80, delay_ns=it.setting.near, **both))


def levels_of(it):
    """The numbers of two levels, with more queues behind a tag than there are senders behind one."""
    if it.levels == 1:
        return {}
    if it.transfers:
        return dict(request_levels=2, **(dict(request_queues=8, request_inner=256) if it.one_tag else dict(request_inner=16)))
    return dict(request_levels=2, request_inner=32)


def colluders_of(it):
    return it.colluders if "authorised" in it.kinds else 0


def join_honest(it, network, layout):
    """The servers and the honest senders, with the defence or, where they transfer files, without it."""
    bare = it.transfers and it.without
    if bare:
        network.say("Nobody grants anything, and whoever asked once sends legacy packets.")
    else:
        network.say("The server grants 100 units, 102,400 bytes, within 10 seconds to whoever asks.")
    for number, address in enumerate(it.setting.servers, 1):
        name = "S" if len(it.setting.servers) == 1 else f"S{number}"
        network.host(name, address, **(dict(retry_ns=transfers.NEVER) if bare else dict(policy="server", n=100, t=10)))
        join_host(it, network, name, in_turn(layout.servers, number))
    if not bare:
        network.say("An honest sender reckons that one of its packets takes up to 100 milliseconds longer to a router than another.")
    for number in range(1, HONEST + 1):
        keys = dict(retry_ns=transfers.NEVER) if bare else dict(policy="client", margin_ns=100 * MILLISECOND)
        network.host(f"H{number}", f"10.1.0.{number}", **keys)
        join_host(it, network, f"H{number}", in_turn(layout.senders, number), there=dict(tag=number), **SMALL)


def address_of(number):
    """The address of an attacker."""
    return f"10.2.{number // 256}.{number % 256}"


def build(it):
    """The network of a flood, and where its hosts and bottlenecks are."""
    network = topologies.Network(it.setting.horizon)
    scarce = {**it.setting.scarce, **levels_of(it), **dict(it.set)}
    back = dict(ns_per_byte=it.setting.bottleneck, delay_ns=it.setting.far)
    wide = dict(ns_per_byte=80, delay_ns=MILLISECOND)
    more = dict(border=True) if it.one_tag else {}
    layout = topologies.TOPOLOGIES[it.topology](network, it.setting.slots, scarce, back, wide, **more)
    join_honest(it, network, layout)
    for number in range(1, it.attackers + 1):
        tag = 1 if it.shared_tag and number == 1 else 100 + number
        network.host(f"F{number}", address_of(number), policy="client", retry_ns=1_001 * MILLISECOND)
        fast = dict(tag=tag, ns_per_byte=it.setting.bottleneck // 200)
        join_host(it, network, f"F{number}", in_turn(layout.attackers, number), there=fast, **(SMALL if it.attackers <= MANY else SMALLEST))
    network.say("A colluder grants all that it can to whoever asks.")
    for number in range(1, colluders_of(it) + 1):
        network.host(f"C{number}", f"10.3.1.{number}", policy="server", n=1023, t=63, grants=1_000_000)
        join_host(it, network, f"C{number}", in_turn(layout.colluders, number), **SMALL)
    network.find_routes()
    for at in it.restart:
        network.say(f"At {at / SECOND:g} seconds each router restarts with {'its own' if it.same_master else 'a new'} master.")
        for router, keys in network.routers.items():
            network.restart(router, at, keys["master"] if it.same_master else None)
    return network, layout


# ## the trace


def honest_rows(it, number):
    """The rows of an honest sender: (time, row)."""
    if it.transfers:
        yield from transfers.rows(it, number, it.setting.servers)
        return
    draw, [server] = random.Random(f"{it.seed} honest {number}"), it.setting.servers
    begin = it.honest_at.of(it.seed, "honest", number) if it.honest_at else HONEST_FROM
    time = begin + int(draw.random() * HONEST_EVERY)
    for _ in range(HONEST_PACKETS):
        if it.without:
            what = f"raw,10.1.0.{number},{server},{HONEST_PAYLOAD},"
        else:
            what = f"send,,{server},{HONEST_PAYLOAD},"
        at = time + int(draw.random() * HONEST_EVERY / 2)
        yield at, f"{at},H{number},{what}"
        time += HONEST_EVERY


def every_of(it):
    """Nanoseconds between the packets of one attacker."""
    return (HEADER + FLOOD_PAYLOAD) * it.setting.bottleneck * it.attackers / it.load


def flood_rows(it, number):
    """What the rows of an attacker say behind time and node, in turn, with SERVER for the server's address."""
    kind = it.kinds[(number - 1) % len(it.kinds)]
    own = address_of(number)
    if kind == "authorised":
        targets = [f"10.3.1.{colluder}" for colluder in range(1, it.colluders + 1)]
        if not it.without:
            return [f"send,,{target},{FLOOD_PAYLOAD}," for target in targets]
        return [f"raw,{own},{target},{FLOOD_PAYLOAD}," for target in targets]
    if it.flood == "forged" and it.forge == "packets" and not it.without:
        victims = [(number + place - 1) % HONEST + 1 for place in range(HONEST)]
        return [f"raw,10.1.0.{victim},SERVER,{FLOOD_PAYLOAD},{STRANGE_NONCE}" for victim in victims]
    shim = REQUEST if kind == "requests" and not it.without else ""
    return [f"raw,{own},SERVER,{FLOOD_PAYLOAD},{shim}"]


def attacker_rows(it, number):
    """The rows of an attacker, who sends its part of so many times the bottleneck's rate."""
    if it.load == 0:
        return
    every, until = every_of(it), it.setting.until
    begin = it.attack_at.of(it.seed, "attacker", number) if it.attack_at else 0
    draw = random.Random(f"{it.seed} attacker {number}")
    time, rows = begin + draw.random() * every, itertools.cycle(flood_rows(it, number))
    while time < until:
        if it.pulse and (time - begin) % it.pulse[0] >= it.pulse[1]:
            # the next pulse, within which the first packet comes as within the first one
            time = begin + ((time - begin) // it.pulse[0] + 1) * it.pulse[0] + draw.random() * every
            continue
        at = int(time + draw.random() * every / 2)
        yield at, f"{at},F{number},{next(rows).replace('SERVER', it.setting.server_at(at))}"
        time += every


def forged_rows(it, number):
    """The packets that an attacker forges, under the server's address, to the number-th honest sender."""
    if it.flood != "forged" or it.forge == "packets" or not it.attackers:
        return
    shim = NOTICE if it.forge == "notices" else GRANT
    payload, shim = (len(shim) // 2, "") if it.without else (0, shim)
    every = it.forge_every * MILLISECOND
    draw = random.Random(f"{it.seed} forger {number}")
    time, attacker = HONEST_FROM + draw.random() * every, (number - 1) % it.attackers + 1
    while time < it.setting.until:
        at = int(time)
        yield at, f"{at},F{attacker},raw,{it.setting.server_at(at)},10.1.0.{number},{payload},{shim}"
        time += every


def trace(it):
    sources = [honest_rows(it, number) for number in range(1, HONEST + 1)]
    sources += [attacker_rows(it, number) for number in range(1, it.attackers + 1)]
    sources += [forged_rows(it, number) for number in range(1, HONEST + 1)]
    yield "time,node,kind,src,dst,payload,shim\n"
    for at, row in heapq.merge(*sources, key=lambda pair: pair[0]):
        if at <= it.setting.horizon:
            yield row + "\n"


def rows_most(it):
    """No more rows than these come of the words. A forged one counts as two, since it may be longer than 64 bytes."""
    flood = 0
    if it.load:
        period, on = it.pulse or (it.setting.until, it.setting.until)
        flood = math.ceil(it.setting.until / period) * math.ceil(on / every_of(it)) * it.attackers
    forged = math.ceil(it.setting.until / (it.forge_every * MILLISECOND)) * HONEST if it.forge_every else 0
    return HONEST * (transfers.rows_most(it) if it.transfers else HONEST_PACKETS) + flood + 2 * forged


# ## words


def rate(word):
    """A rate: finite, not negative, of at most six digits, since it stands in names."""
    try:
        told = float(word)
    except ValueError:
        told = math.nan
    if not 0 <= told < math.inf or float(f"{told:g}") != told:
        raise argparse.ArgumentTypeError(f"{word!r} is no rate: a number from 0 on, of at most six digits")
    return told


def milliseconds(word):
    """Milliseconds to the microsecond, up to a second."""
    try:
        told = float(word)
    except ValueError:
        told = math.nan
    if not 0.001 <= told <= 1_000 or round(told, 3) != told:
        raise argparse.ArgumentTypeError(f"{word!r} is no delay: milliseconds from 0.001 to 1000, to the microsecond")
    return told


def kinds(word):
    told = word.split(",")
    if len(told) < 2 or any(kind not in KINDS for kind in told):
        raise argparse.ArgumentTypeError(f"{word!r} is no mix: two or more of {', '.join(KINDS)}, joined by commas")
    return told


def setting(word):
    key, _, number = word.partition("=")
    if key not in topologies.LINK_KEYS or not (number.isascii() and number.isdigit()):
        raise argparse.ArgumentTypeError(f"{word!r} sets no number of a link: KEY=NUMBER, where KEY is one of {', '.join(topologies.LINK_KEYS)}")
    return key, int(number)


def restarts(word):
    """Rising times in nanoseconds, of a word that has them in seconds."""
    try:
        told = [round(float(part) * SECOND) for part in word.split(",")]
    except (ValueError, OverflowError):
        told = []
    if not told or len(told) > TIMES_MOST or not 0 <= told[0] or any(one >= other for one, other in zip(told, told[1:])):
        raise argparse.ArgumentTypeError(f"{word!r} is no time of restarts: rising seconds, at most {TIMES_MOST}, joined by commas")
    return told


def seconds(word):
    """Nanoseconds of a word that has them in seconds, of at most six digits, since they stand in names; else -1."""
    try:
        told = float(word)
        return round(told * SECOND) if float(f"{told:g}") == told else -1
    except (ValueError, OverflowError):
        return -1


def starts(word):
    """The times at which senders begin."""
    drawn = ".." in word
    times = [seconds(part) for part in word.split(".." if drawn else ",")]
    if min(times) < 0 or len(times) > TIMES_MOST or drawn and (len(times) != 2 or times[0] >= times[1]):
        raise argparse.ArgumentTypeError(f"{word!r} says no beginnings: seconds, at most {TIMES_MOST}, joined by commas, or two that rise with .. between them")
    return Starts(times, drawn)


def pulse(word):
    """How long a pulse and what comes behind it take together, and how long it takes, in nanoseconds."""
    period, _, percent = word.partition(",")
    if not (all(part.isascii() and part.isdigit() for part in (period, percent)) and 1 <= int(period) <= 60_000 and 1 <= int(percent) <= 99):
        raise argparse.ArgumentTypeError(f"{word!r} is no pulse: milliseconds from 1 to 60000, a comma, and percent from 1 to 99")
    return int(period) * MILLISECOND, int(period) * MILLISECOND * int(percent) // 100


def reader(program):
    """A reader of the words of this script."""
    words = Words(program, __doc__, usage=argparse.SUPPRESS)
    words.add_argument("flood", choices=FLOODS)
    words.add_argument("rate", type=rate)
    words.add_argument("folder")
    words.add_argument("--without", action="store_true")
    words.add_argument("--seed", type=whole(0, 10**9), default=1)
    words.add_argument("--attackers", type=whole(1, NODES_MOST), metavar="K")
    words.add_argument("--colluders", type=whole(1, COLLUDERS_MOST), metavar="K")
    words.add_argument("--mix", type=kinds)
    words.add_argument("--forge", choices=list(FORGED))
    words.add_argument("--forge-every", type=whole(1, 5_000), metavar="MS")
    words.add_argument("--topology", choices=list(topologies.TOPOLOGIES), default="dumbbell")
    words.add_argument("--shared-tag", action="store_true")
    words.add_argument("--one-tag", action="store_true")
    words.add_argument("--levels", type=int, choices=[1, 2], default=1)
    words.add_argument("--restart", type=restarts, default=[], metavar="SECONDS")
    words.add_argument("--same-master", action="store_true")
    words.add_argument("--set", type=setting, action="append", default=[], metavar="KEY=NUMBER")
    words.add_argument("--pulse", type=pulse, metavar="MS,PERCENT")
    words.add_argument("--attack-at", type=starts, metavar="SECONDS")
    words.add_argument("--honest-at", type=starts, metavar="SECONDS")
    words.add_argument("--transfers", action="store_true")
    words.add_argument("--tick", type=whole(50, 5_000), metavar="MS")
    words.add_argument("--delay", type=milliseconds, metavar="MS")
    return words


def settle_transfers(words, it):
    """What the words of transfers mean, and how many attackers there are and what they send."""
    if (it.tick or it.delay) and not it.transfers:
        words.error("--tick and --delay are for transfers")
    if it.transfers and it.attackers:
        words.error("with --transfers the rate is the number of attackers")
    if it.transfers and not (it.rate <= NODES_MOST and it.rate.is_integer()):
        words.error(f"with --transfers the rate is a number of attackers from 0 to {NODES_MOST}, and not {it.rate:g}")
    it.tick, it.delay = it.tick or transfers.TICK, it.delay or transfers.DELAY
    it.attackers = int(it.rate) if it.transfers else it.attackers or ATTACKERS
    it.load = it.rate / 10 if it.transfers else it.rate
    it.setting = setting_of(it)


def settle_times(words, it):
    """What is wrong with the times of words."""
    until, last = it.setting.until / SECOND, (it.setting.horizon - HONEST_PACKETS * HONEST_EVERY) / SECOND - 0.1
    if it.transfers:
        last = (transfers.FIRST + transfers.WITHIN) / SECOND
    if it.restart and it.restart[-1] > it.setting.horizon:
        words.error(f"a restart past {it.setting.horizon / SECOND:g} seconds is none")
    if it.attack_at and max(it.attack_at.times) >= it.setting.until:
        words.error(f"attackers begin before {until:g} seconds, when the flood ends")
    if it.honest_at and max(it.honest_at.times) > round(last * SECOND):
        words.error(f"honest senders begin within {last:g} seconds, so that they can send all")


def settle(words, it):
    """What the words mean together, or what is wrong with them."""
    it.kinds = it.mix or ["requests", "legacy"] if it.flood == "mixed" else ["legacy" if it.flood == "forged" else it.flood]
    if it.mix and it.flood != "mixed":
        words.error("--mix is for mixed floods")
    if it.colluders and "authorised" not in it.kinds:
        words.error("--colluders is for floods of authorised packets")
    if (it.forge or it.forge_every) and it.flood != "forged":
        words.error("--forge and --forge-every are for forged floods")
    it.colluders = it.colluders or 1
    it.forge = it.forge or ("notices" if it.flood == "forged" else None)
    if it.forge == "packets" and it.forge_every:
        words.error("--forge-every is for forged notices and grants")
    it.forge_every = it.forge_every or FORGED.get(it.forge)
    settle_transfers(words, it)
    settle_times(words, it)
    if it.same_master and not it.restart:
        words.error("--same-master is for restarts")
    if it.one_tag and it.topology != "dumbbell":
        words.error("--one-tag is for a dumbbell")
    if it.rate and rows_most(it) > ROWS_MOST:
        words.error(f"at rate {it.rate:g} the trace would have more than {ROWS_MOST} rows or 64 MiB")
    if len(name_of(it)) > NAME_MOST:
        words.error(f"the name of such a run would be longer than {NAME_MOST} letters")
    if it.attackers > MANY:  # fewer always fit
        look_at_size(words, it)
    return it


def look_at_size(words, it):
    """Says what is too much of a network with many attackers."""
    network, _ = build(it)
    nodes = len(network.routers) + len(network.hosts)
    if nodes > NODES_MOST:
        words.error(f"with {it.attackers} attackers there would be {nodes} nodes, and a configuration has at most {NODES_MOST}")
    configuration(words, it, network)


# ## names


def series_of(it):
    """The name of all runs that differ in rate and seed alone."""
    name = it.flood
    if it.flood == "mixed" and it.kinds != ["requests", "legacy"]:
        name += "-" + "-".join(it.kinds)
    if it.forge:
        name += f"-{it.forge}" + (f"-{it.forge_every}" if it.forge_every != FORGED[it.forge] else "")
    if it.transfers:
        name += "-transfers" + (f"-tick-{it.tick}" if it.tick != transfers.TICK else "") + (f"-delay-{it.delay:g}" if it.delay != transfers.DELAY else "")
    elif it.attackers != ATTACKERS:
        name += f"-{it.attackers}-attacker" + ("s" if it.attackers > 1 else "")
    if it.colluders > 1:
        name += f"-{it.colluders}-colluders"
    if it.topology != "dumbbell":
        name += f"-{it.topology}"
    name += ("-shared-tag" if it.shared_tag else "") + ("-one-tag" if it.one_tag else "") + ("-two-levels" if it.levels == 2 else "")
    name += "-restart" * bool(it.restart) + "".join(f"-{at / SECOND:g}" for at in it.restart) + ("-same-master" if it.same_master else "")
    name += f"-pulse-{it.pulse[0] // MILLISECOND}-{100 * it.pulse[1] // it.pulse[0]}" if it.pulse else ""
    name += f"-attack-at-{it.attack_at.text('-')}" if it.attack_at else ""
    name += f"-honest-at-{it.honest_at.text('-')}" if it.honest_at else ""
    name += "".join(f"-{key}-{number}" for key, number in it.set)
    return f"{name}-{'without' if it.without else 'with'}"


def name_of(it):
    return f"{series_of(it)}-{it.rate:g}" + ("" if it.seed == 1 else f"-seed-{it.seed}")


def said_of(it):
    """A series in words, without the defence's."""
    names = {"legacy": "legacy packets", "requests": "requests", "authorised": "authorised packets"}
    said = " and ".join(names[kind] for kind in it.kinds) if it.flood != "forged" else f"forged {it.forge}"
    if it.transfers:
        said += (f", tick {it.tick} ms" if it.tick != transfers.TICK else "") + (f", delay {it.delay:g} ms" if it.delay != transfers.DELAY else "")
    elif it.attackers != ATTACKERS:
        said += f", {it.attackers} attacker" + ("s" if it.attackers > 1 else "")
    if "authorised" in it.kinds and it.colluders > 1:
        said += f", {it.colluders} colluders"
    if it.topology != "dumbbell":
        said += f", {it.topology.replace('-', ' ')}"
    said += (", shared tag" if it.shared_tag else "") + (", one tag" if it.one_tag else "") + (", two levels" if it.levels == 2 else "")
    said += f", restart at {', '.join(f'{at / SECOND:g}' for at in it.restart)} s" if it.restart else ""
    said += " with the same masters" if it.same_master else ""
    said += f", on for {100 * it.pulse[1] // it.pulse[0]} % of {it.pulse[0] // MILLISECOND} ms" if it.pulse else ""
    said += f", from {it.attack_at.text(', ')} s" if it.attack_at else ""
    said += f", honest from {it.honest_at.text(', ')} s" if it.honest_at else ""
    return said + "".join(f", {key} {number}" for key, number in it.set)


def words_of(it):
    """The words of a run, the same for all words that mean the same: flood, rate, seed, and what isn't a default."""
    words = [it.flood, f"{it.rate:g}", "--seed", str(it.seed)] + ["--without"] * it.without
    words += ["--attackers", str(it.attackers)] if not it.transfers and it.attackers != ATTACKERS else []
    words += ["--colluders", str(it.colluders)] if it.colluders > 1 else []
    words += ["--mix", ",".join(it.kinds)] if it.flood == "mixed" and it.kinds != ["requests", "legacy"] else []
    words += ["--forge", it.forge] if it.forge else []
    words += ["--forge-every", str(it.forge_every)] if it.forge and it.forge_every != FORGED[it.forge] else []
    words += ["--topology", it.topology] if it.topology != "dumbbell" else []
    words += ["--shared-tag"] * it.shared_tag + ["--one-tag"] * it.one_tag + (["--levels", "2"] if it.levels == 2 else [])
    words += ["--restart", ",".join(f"{at / SECOND:.9f}".rstrip("0").rstrip(".") for at in it.restart)] if it.restart else []
    words += ["--same-master"] * it.same_master
    words += ["--pulse", f"{it.pulse[0] // MILLISECOND},{100 * it.pulse[1] // it.pulse[0]}"] if it.pulse else []
    words += ["--attack-at", it.attack_at.text()] if it.attack_at else []
    words += ["--honest-at", it.honest_at.text()] if it.honest_at else []
    words += [part for key, number in it.set for part in ("--set", f"{key}={number}")]
    words += ["--transfers"] * it.transfers
    words += ["--tick", str(it.tick)] if it.transfers and it.tick != transfers.TICK else []
    return words + (["--delay", f"{it.delay:g}"] if it.transfers and it.delay != transfers.DELAY else [])


def made(it, network, layout):
    """What draw.py and others read of a flood, so that nothing of it is wired to them."""
    told = {
        "series": series_of(it),
        "flood": it.flood,
        "said": said_of(it),
        "defence": not it.without,
        "rate": it.rate,
        "seed": it.seed,
        "words": words_of(it),
        "topology": it.topology,
        "honest": [f"H{number}" for number in range(1, HONEST + 1)],
        "attackers": [f"F{number}" for number in range(1, it.attackers + 1)],
        "servers": [name for name in network.hosts if name.startswith("S")],
        "colluders": [name for name in network.hosts if name.startswith("C")],
        "bottlenecks": [{"from": one, "to": other, "ns_per_byte": network.links[one, other]["ns_per_byte"]} for one, other in layout.bottlenecks],
        "honest_every_ns": it.tick * MILLISECOND if it.transfers else HONEST_EVERY,
        "flood_until_ns": it.setting.until,
        "restarts_ns": it.restart,
        "horizon_ns": it.setting.horizon,
    }
    if it.transfers:
        begun = {f"H{number}": transfers.begins(it, number) for number in range(1, HONEST + 1)}
        told["transfers"] = {"bytes": transfers.FILE, "limit_ns": transfers.EVERY, "begin_ns": begun}
    return told


def configuration(words, it, network):
    """The text of the configuration, in the form that has room: by lines with comments, or an array a line."""
    text = f"# {HONEST} honest senders, {it.attackers} attackers and {'servers' if it.transfers else 'a server'}: {name_of(it)}.\n" + network.text()
    text = text if len(text) <= BYTES_MOST else network.packed()
    if len(text) > BYTES_MOST:
        words.error(f"with {it.attackers} attackers the configuration would have more than {BYTES_MOST} bytes")
    return text


def write(words, it, lean=False):
    """Writes the files, and gives their path without an ending and that of the trace, which keeps its `.part` for one
    who will remove it again."""
    network, layout = build(it)
    stem = os.path.join(it.folder, name_of(it))
    text = configuration(words, it, network)
    try:
        os.makedirs(it.folder, exist_ok=True)
        with runs.whole_file(stem + ".toml") as file:
            file.write(text)
        with runs.whole_file(stem + ".csv", stays=lean) as file:
            file.writelines(trace(it))
        with runs.whole_file(stem + ".json") as file:
            json.dump(made(it, network, layout), file, indent=1)
            file.write("\n")
    except OSError as fault:
        words.error(f"{fault.filename or it.folder}: {fault.strerror}")
    return stem, stem + (".csv.part" if lean else ".csv")


def main():
    words = reader("make.py")
    it = settle(words, words.parse_args())
    write(words, it)
    print(name_of(it))


if __name__ == "__main__":
    runs.stoppable("make.py", main)
