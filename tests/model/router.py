"""A router: its charges, its verdicts, and what becomes of an arrival; and what changes at it in time."""
from types import SimpleNamespace
from typing import NamedTuple

from . import hashes, shims
from .hashes import Grant
from .shims import length

UNIT = 1_024
HOPS_MOST = 32


class Charge(NamedTuple):
    """An authorised packet."""

    time: int
    grant: Grant
    nonce: int
    length: int


class Fate(NamedTuple):
    """What becomes of an arrival before it is queued."""

    packet: shims.Packet
    cause: str = None
    charge: Charge = None


# ## what changes in time: restarts, and links of routes


def come(changes, now):
    """Those that have come by a time."""
    return [change for change in changes if change.at_ns <= now]


def boot(plan, now):
    """How many restarts have come."""
    return len(come(plan.restarts, now))


def master_in_force(plan, now):
    """That of the last restart, or that of the router's table."""
    return ([plan.master] + [restart.master for restart in come(plan.restarts, now)])[-1]


def target_in_force(plan, route, now):
    """Where the last change of the prefix leads, or the route itself. Changes of a prefix stand in order of time."""
    changed = [reroute.target for reroute in come(plan.reroutes, now) if reroute.prefix == route.prefix]
    return ([route.target] + changed)[-1]


def in_force(plan, now):
    """The plan as it is at a time: the master and the links of the routes are those in force."""
    routes = [SimpleNamespace(prefix=route.prefix, target=target_in_force(plan, route, now)) for route in plan.routes]
    return SimpleNamespace(**vars(plan) | {"master": master_in_force(plan, now), "routes": routes})


def charges_of_boot(plan, charges, number):
    return [charge for charge in charges if boot(plan, charge.time) == number]


# ## what is said of a list of charges, those of one boot


def credit(size, rights):
    """The time in which the rights would let so many bytes through, rounded up."""
    whole, rest = divmod(size * rights.t * hashes.SECOND, UNIT * rights.n)
    return whole + (1 if rest else 0)


def charges_of(charges, flow):
    return [charge for charge in charges if charge.grant.flow == flow]


def end_of(charges):
    """The end of one flow: the greatest of a charge's time and the credits of it and all later ones."""
    greatest, credits = 0, 0
    for charge in reversed(charges):
        credits += credit(charge.length, charge.grant.rights)
        greatest = max(greatest, charge.time + credits)
    return greatest


def lives(charges, now):
    return now < end_of(charges)


def run_of(charges):
    """The charges of one flow from the last one on that found it not living."""
    begins = [place for place, charge in enumerate(charges) if not lives(charges[:place], charge.time)]
    return charges[begins[-1] :] if begins else []


def used(charges, grant, now):
    """The bytes of a grant in its flow's run."""
    own = charges_of(charges, grant.flow)
    return sum(charge.length for charge in run_of(own) if charge.grant == grant) if lives(own, now) else 0


def living(charges, now):
    """How many flows live."""
    flows = {charge.grant.flow for charge in charges}
    return len([flow for flow in flows if lives(charges_of(charges, flow), now)])


# ## verdicts: the charge of an authorised packet, or the cause


def list_verdict(plan, charges, now, packet):
    shim = packet.carried
    if shim.pointer == len(shim.capabilities):
        return "no-capability"
    grant = hashes.check(plan, now, packet.flow, shim.capabilities[shim.pointer], shim.rights)
    if not isinstance(grant, Grant):
        return grant
    own = charges_of(charges, packet.flow)
    if lives(own, now) and is_superseded(own[-1].grant, grant):
        return "superseded"
    if is_over(charges, grant, now, packet):
        return "over-n"
    if not lives(own, now) and is_cache_full(plan, charges, now):
        return "cache-full"
    return Charge(now, grant, shim.nonce, length(packet))


def is_cache_full(plan, charges, now):
    return living(charges, now) >= plan.slots


def is_superseded(holder, grant):
    return holder != grant and holder.second >= grant.second


def is_over(charges, grant, now, packet):
    return used(charges, grant, now) + length(packet) > UNIT * grant.rights.n


def nonce_verdict(plan, charges, now, packet):
    own = charges_of(charges, packet.flow)
    if not lives(own, now) or own[-1].nonce != packet.carried.nonce:
        return "unknown-nonce"
    grant = own[-1].grant
    if hashes.is_over(hashes.router_second(plan, now) - grant.second, grant.rights):
        return "expired"
    if is_over(charges, grant, now, packet):
        return "over-n"
    return Charge(now, grant, packet.carried.nonce, length(packet))


# ## arrivals


def is_spent(packet):
    """Whether it is dropped since it has passed too many routers."""
    return packet.hops == HOPS_MOST


def marked(packet):
    return packet._replace(carried=packet.carried._replace(demoted=True))


def fresh(plan, now, flow):
    """A pre-capability of this second."""
    return hashes.precapability(plan.master, flow, hashes.router_second(plan, now))


def fate(plan, charges, now, tag, packet):
    """What becomes of a packet that isn't spent."""
    packet = packet._replace(hops=packet.hops + 1)
    shim = packet.carried
    if isinstance(shim, shims.Malformed):
        return Fate(packet, "malformed")
    if shim is None or shim.demoted:
        return Fate(packet)
    if shim.kind == "request":
        return request_fate(plan, now, tag, packet)
    verdict = nonce_verdict if shim.kind == "nonce" else list_verdict
    verdict = verdict(plan, charges, now, packet)
    if not isinstance(verdict, Charge):
        return Fate(marked(packet), verdict)
    return Fate(passed(plan, now, packet), None, verdict)


def request_fate(plan, now, tag, packet):
    shim = packet.carried
    if is_path_full(shim):
        return Fate(marked(packet), "path-full")
    entry = shims.Entry(tag, fresh(plan, now, packet.flow))
    return Fate(packet._replace(carried=shim._replace(entries=shim.entries + (entry,))))


def is_path_full(shim):
    return len(shim.entries) == shims.CAPABILITIES_MOST


def passed(plan, now, packet):
    """An authorised packet as it goes on."""
    shim = packet.carried
    if shim.kind == "renewal":
        capabilities = list(shim.capabilities)
        capabilities[shim.pointer] = fresh(plan, now, packet.flow)
        shim = shim._replace(capabilities=tuple(capabilities))
    if shim.kind != "nonce":
        shim = shim._replace(pointer=shim.pointer + 1)
    return packet._replace(carried=shim)


def way(plan, destination):
    """The number of the next node, by the longest prefix that holds the destination, or None."""
    holding = [route for route in plan.routes if holds(route.prefix, destination)]
    return max(holding, key=lambda route: route.prefix[1]).target if holding else None


def holds(prefix, destination):
    front, bits = prefix
    return destination >> (32 - bits) == front >> (32 - bits)
