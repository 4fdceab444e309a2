"""Secrets, pre-capabilities and capabilities, of eight bytes each, and what a router makes of one that is shown."""
from hashlib import sha256
from typing import NamedTuple

from . import shims

SECOND = 1_000_000_000
EPOCH = 128
STAMPS = 256


class Grant(NamedTuple):
    """What a valid capability stands for: a flow, its rights, and the second in which it was minted."""

    flow: shims.Flow
    rights: shims.Rights
    second: int


def router_second(plan, now):
    return (now + plan.clock_offset_ns) // SECOND


def epoch_of(second):
    return second // EPOCH


def secret(master, epoch):
    return sha256(master + epoch.to_bytes(8, "big")).digest()


def seven(data):
    """The first seven bytes of a digest."""
    return sha256(data).digest()[:7]


def precapability(master, flow, second):
    stamp = bytes([second % STAMPS])
    addresses = flow.source.to_bytes(4, "big") + flow.destination.to_bytes(4, "big")
    return stamp + seven(secret(master, epoch_of(second)) + addresses + stamp)


def capability(of, rights):
    """The capability that a pre-capability gives with these rights."""
    if shims.version_of(rights) == 1:
        told = rights.n.to_bytes(2, "big")
    else:
        told = bytes([2]) + rights.n.to_bytes(4, "big")
    return of[:1] + seven(of + told + bytes([rights.t]))


def age(second, shown):
    """The seconds since the last one with the stamp that is shown."""
    return (second - shown[0]) % STAMPS


def is_over(old, rights):
    """Whether the seconds of a grant are over, so many after it was minted."""
    return old >= rights.t


def is_before_all(second):
    return second < 0


def check(plan, now, flow, shown, rights):
    """The grant for which a value stands at a router, `expired` or `bad-hash`."""
    second = router_second(plan, now)
    old = age(second, shown)
    if is_over(old, rights):
        return "expired"
    minted = second - old
    if is_before_all(minted) or shown != capability(precapability(plan.master, flow, minted), rights):
        return "bad-hash"
    return Grant(flow, rights, minted)
