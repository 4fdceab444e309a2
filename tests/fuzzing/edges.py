"""Reports that just keep a promise, and reports that break it by the least there is. These come of the model with a wrong
reading; a check of promises that lets a little more through than it may is found by them."""
import contextlib
from typing import NamedTuple

from model import commands, configuration, link, router, trace, transfers
from model.shims import Data

from . import aims, networks, promises, traces
from .readings import Reading, read_so


class Edge(NamedTuple):
    """What a report comes to, the reading that it comes of, or None, its network with rows, and whether it breaks a promise."""

    says: str
    reading: Reading
    made: tuple
    is_broken: bool


def replacing(of, name, function):
    reading = Reading(name, name)
    reading.replaced.append((of, name, function))
    return reading


right_credit = link.credit


def twice(charges, grant, now, packet):
    return router.used(charges, grant, now) + router.length(packet) > 2 * router.UNIT * grant.rights.n


def a_byte_more(its_link, now):
    return right_credit(its_link, now) + its_link.plan.share * its_link.plan.ns_per_byte


def longer(file, taken, number):
    first = transfers.acknowledged(taken, number)
    return Data(number, first, min(file.segment, file.size - first + 1))


TWICE = replacing(router, "is_over", twice)
A_BYTE_MORE = replacing(link, "credit", a_byte_more)
LONGER = replacing(transfers, "segment", longer)


def budget(rng, *payloads):
    """Packets with lists of one capability, whose rights are one unit. Each has 40 bytes beside its payload."""
    network = aims.one_router(rng)
    shown = aims.listed(network, "R", 0, aims.FLOWS[0], (1, 10), aims.NONCES[0])
    return network, [(0, "R", "list", *aims.FLOWS[0], payload, shown) for payload in payloads]


def file(rng):
    return aims.two_hosts(rng), [(0, "A", "file", "", aims.PEERS["B"], 200, 100)]


def requests(rng):
    """Requests of which the last ones wait for credit."""
    network = aims.two_hosts(rng, request_levels=1)
    return network, [(0, "A", "raw", aims.PEERS["A"], aims.PEERS["B"], 1_500, "100600")] * 6


def edges(rng):
    yield Edge("a grant of one unit lets 2,048 bytes through", TWICE, budget(rng, 984, 984), True)
    yield Edge("a grant of one unit lets 2,047 bytes through", TWICE, budget(rng, 984, 983), False)
    yield Edge("requests have a byte more than their credit", A_BYTE_MORE, requests(rng), True)
    yield Edge("requests use their credit up", None, requests(rng), False)
    yield Edge("a file has a byte more than its size", LONGER, file(rng), True)
    yield Edge("a file has its size", None, file(rng), False)


def is_refused(rng, edge):
    """Whether the report of an edge breaks a promise."""
    network, rows = edge.made
    config = configuration.read(networks.text_of(rng, network).encode())
    rows = trace.read(traces.text_of(rng, rows).encode(), config)
    with read_so(edge.reading) if edge.reading else contextlib.nullcontext():
        answer = commands.replay_of(config, rows)
    return bool(promises.broken(answer.run, b"".join(answer.written)))


# what an audit tells of a report with one authorised packet, and whether it can't be
AUDITS = [(b"R grants=1 charges=1 bytes=2048 worst=%d/2048\nreport ok lines=2\n" % most, most == 2_048) for most in (2_047, 2_048)]
REPORT = b"x\ntotal events=1 routed=1 authorised=1 demoted=0 dropped=0 started=0 received=0 bytes=0\n"


def wrong(rng):
    """The edges that are judged otherwise than they are to be, in words."""
    for edge in edges(rng):
        if is_refused(rng, edge) != edge.is_broken:
            yield f"{edge.says}: that is {'taken' if edge.is_broken else 'refused'}"
    for told, is_broken in AUDITS:
        if bool(promises.broken_sums(REPORT, told)) != is_broken:
            yield f"{told.decode().splitlines()[0]}: that is {'taken' if is_broken else 'refused'}"
