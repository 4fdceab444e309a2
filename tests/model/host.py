"""A host: what its sender shows, whom its policy grants, and what it makes of what it receives."""
from typing import NamedTuple

from . import hashes, router, shims, transfers
from .shims import Back, Rights, Shim, length

NONCES = 1 << 48


class Prepared(NamedTuple):
    """A packet that a sender prepared for a peer, with the nonce that it was offered."""

    time: int
    shape: str
    length: int
    nonce: int


class Taken(NamedTuple):
    """A grant that a sender took."""

    rights: Rights
    capabilities: tuple


class Notice(NamedTuple):
    """A notice that came."""


# ## what is said of the list of one peer


def is_prepared(entry, *shapes):
    return isinstance(entry, Prepared) and entry.shape in shapes


def asks(entries):
    return [entry for entry in entries if is_prepared(entry, "request", "renewal")]


def is_answered(entries):
    """Whether a grant was taken after the last ask."""
    places = [place for place, entry in enumerate(entries) if is_prepared(entry, "request", "renewal")]
    return any(isinstance(entry, Taken) for entry in entries[places[-1] :])


def notices(entries):
    return [place for place, entry in enumerate(entries) if isinstance(entry, Notice)]


class Held(NamedTuple):
    """The grant that a sender holds of a peer."""

    rights: Rights
    capabilities: tuple
    asked: int
    used: int
    life: int
    nonce: int


def held(entries):
    """The last grant that was taken, unless two notices came since."""
    places = [place for place, entry in enumerate(entries) if isinstance(entry, Taken)]
    before, since = (entries[: places[-1] + 1], entries[places[-1] + 1 :]) if places else ([], [])
    if not before or is_given_up(since):
        return None
    rights, capabilities = before[-1]
    shown = [entry for entry in since if is_prepared(entry, "renewal", "list", "nonce")]
    nonce = shown[0].nonce if shown else None
    return Held(rights, capabilities, asked(before), sum(it.length for it in shown), life(since, rights), nonce)


def asked(before):
    """When the last ask before a grant was sent."""
    return asks(before)[-1].time


def is_given_up(since):
    return len(notices(since)) >= 2


def life(since, rights):
    """As a router reckons it, over what was shown since the first notice, if there was one."""
    counted = since[notices(since)[0] :] if notices(since) else since
    greatest, credits = 0, 0
    for entry in reversed(counted):
        if is_prepared(entry, "renewal", "list", "nonce"):
            credits += router.credit(entry.length, rights)
            greatest = max(greatest, entry.time + credits)
    return greatest


def may_ask(plan, entries, now):
    return not asks(entries) or now >= asks(entries)[-1].time + plan.retry_ns


def fits(plan, grant, now, size):
    return is_in_time(plan, grant, now) and has_left(grant, size)


def is_in_time(plan, grant, now):
    return now + plan.margin_ns + hashes.SECOND <= grant.asked + grant.rights.t * hashes.SECOND


def has_left(grant, size):
    """Whether a grant has units left for so many bytes."""
    return grant.used + size <= router.UNIT * grant.rights.n


def is_half_gone(grant, now, size):
    """Whether more than half of the units are used with this, or more than half of the seconds are over."""
    units_gone = 2 * (grant.used + size) > router.UNIT * grant.rights.n
    return units_gone or 2 * (now - grant.asked) > grant.rights.t * hashes.SECOND


def is_kept(plan, grant, now):
    """Whether routers still keep a grant, by a host's reckoning."""
    return now + plan.margin_ns < grant.life


def shape(plan, entries, now, body):
    """The shape of the next packet, by the first row that holds."""
    grant = held(entries)
    if grant is not None:
        list_size = 30 + shims.rights_bytes(plan.version) + 8 * len(grant.capabilities) + body
        list_fits, nonce_fits = fits(plan, grant, now, list_size), fits(plan, grant, now, 28 + body)
        if may_ask(plan, entries, now) and list_fits and is_half_gone(grant, now, list_size):
            return "renewal"
        if is_kept(plan, grant, now) and nonce_fits:
            return "nonce"
        if list_fits:
            return "list"
    return "request" if may_ask(plan, entries, now) else "legacy"


def takes(plan, entries, rights):
    """Whether a grant that comes in is taken."""
    fitting = rights.n <= shims.units_most(plan.version) and rights.t <= shims.seconds_most(plan.version)
    return bool(asks(entries)) and not is_answered(entries) and fitting


# ## the host


class Receipt(NamedTuple):
    """What a packet was, what became of its return info, and what comes back: a notice, a grant, or None, and an upper
    part or None; and the range that was delivered, if any."""

    what: str
    back: str = "-"
    answer: Back = None
    upper: object = None
    delivered: shims.Data = None


class Host:
    """A host with all that it did: the lists of its peers, whom it sent to, whom it granted, its transfers, and what it
    made."""

    def __init__(self, plan, number):
        self.plan, self.number = plan, number
        self.peers = {}
        self.sent = []
        self.granted = []
        self.transfers = transfers.Transfers()
        self.made = 0
        self.prepared = 0

    def identity(self):
        """The identity of the next packet, be it made here or injected."""
        self.made += 1
        return self.number, self.made

    def entries(self, peer):
        return self.peers.setdefault(peer, [])

    def offered(self):
        """The nonce that goes with the next packet that is prepared."""
        return (self.plan.nonce + self.prepared) % NONCES

    def prepare(self, now, peer, payload, upper=None, back=None, is_reply=False):
        """A packet of the host's own to a peer, and its shape."""
        entries = self.entries(peer)
        body = payload + shims.back_bytes(self.plan.version, back)
        kind = shape(self.plan, entries, now, body)
        flow = shims.Flow(self.plan.address, peer)
        carried = self.carried(entries, kind, back, is_reply)
        packet = shims.Packet(self.identity(), flow, payload, carried, upper=upper)
        entries.append(Prepared(now, kind, length(packet), self.offered()))
        self.prepared += 1
        return packet, kind

    def carried(self, entries, kind, back, is_reply):
        if kind == "legacy" and not is_reply:
            return None
        shim = Shim(self.plan.version, kind, back=back)
        if kind in ("legacy", "request"):
            return shim._replace(kind="request", demoted=kind == "legacy")
        grant = held(entries)
        nonce = self.offered() if grant.nonce is None else grant.nonce
        if kind == "nonce":
            return shim._replace(nonce=nonce)
        return shim._replace(nonce=nonce, rights=grant.rights, capabilities=grant.capabilities)

    def intend(self, now, destination, payload):
        """A row that sends."""
        self.sent.append(destination)
        return self.prepare(now, destination, payload)

    def send_file(self, now, file):
        """A row with a file."""
        self.sent.append(file.destination)
        return self.prepare_upper(now, file.destination, self.transfers.start(file))

    def repeat(self, now, destination):
        """A tick: a packet with its shape, or None."""
        upper = self.transfers.repeat(destination)
        return None if upper is None else self.prepare_upper(now, destination, upper)

    def prepare_upper(self, now, peer, upper):
        return self.prepare(now, peer, shims.upper_bytes(upper), upper)

    def reply(self, now, peer, receipt):
        """What comes back, with return info, with an upper part, or with both."""
        return self.prepare(now, peer, shims.upper_bytes(receipt.upper), receipt.upper, receipt.answer, True)

    def decide(self, source, tags):
        """Whether the policy grants, which is noted."""
        if not grants(self.plan, self.sent, self.granted, source, tags):
            return False
        self.granted.append(source)
        return True

    def receive(self, packet):
        """What a packet is to the host. Its upper part counts whatever its shim says."""
        if packet.flow.destination != self.plan.address:
            return Receipt("stray")
        delivered, upper = self.transfers.receive(packet.flow.source, packet.upper)
        return self.judge(packet)._replace(upper=upper, delivered=delivered)

    def judge(self, packet):
        """What the shim of a packet makes of it. Its return info is handed to the sender first."""
        shim = packet.carried
        if not isinstance(shim, Shim):
            return Receipt("legacy")
        back = "-" if shim.back is None else self.hand_on(packet.flow.source, shim.back)
        if shim.demoted:
            tells = shim.kind != "request" and shim.back is None
            return Receipt("demoted", back, Back() if tells else None)
        if shim.kind not in ("request", "renewal"):
            return Receipt("regular", back)
        return Receipt(shim.kind, back, self.answer(packet.flow.source, shim))

    def hand_on(self, source, back):
        if back.rights is None:
            self.entries(source).append(Notice())
            return "notice"
        if not takes(self.plan, self.entries(source), back.rights):
            return "ignored"
        self.entries(source).append(Taken(back.rights, back.capabilities))
        return "grant"

    def answer(self, source, shim):
        """The grant that an unmarked request or renewal is answered with, if any."""
        if shim.kind == "request":
            shown, tags = [entry.precapability for entry in shim.entries], [entry.tag for entry in shim.entries]
        else:
            shown, tags = shim.capabilities, []
        is_whole = shim.kind == "request" or shim.pointer == len(shim.capabilities)
        if not is_whole or not self.decide(source, tags):
            return None
        rights = self.plan.rights
        return Back(rights, tuple(hashes.capability(it, rights) for it in shown))


def grants(plan, sent, granted, source, tags):
    """Whether a policy grants, by whom its host sent to and whom it granted before."""
    lets_in = plan.policy == "server" or plan.policy == "client" and source in sent
    denies = source in plan.deny or any(tag in plan.deny_tags for tag in tags)
    return lets_in and not denies and granted.count(source) < plan.grants
