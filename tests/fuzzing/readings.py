"""Wrong readings of the rules. Each puts other functions into the model in place of some of its own, by name, and is to
be found by a difference from the program within some minutes. Those of restarts and reroutes stand in `turns`, those of files
in `segments`, and those of audits in `audits`."""
from contextlib import contextmanager

from model import configuration, hashes, host, link, report, router, run, shims


class Reading:
    """What it says, which functions stand in place of which (the class or module, the name, and the function), and the
    name of what is made for it where random networks seldom show it (tests/fuzzing/aims.py)."""

    def __init__(self, name, says, aim=None):
        self.name, self.says, self.aim, self.replaced = name, says, aim, []


READINGS, BREACHES = [], []


def reading(name, says, of, replaced, among=READINGS, aim=None):
    """A wrong reading, with the function below in place of one of the model."""
    among.append(Reading(name, says, aim))
    return also(of, replaced, among)


def also(of, replaced, among=READINGS):
    """A further function of the last reading."""

    def keep(function):
        among[-1].replaced.append((of, replaced, function))
        return function

    return keep


@contextmanager
def read_so(reading):
    """The model with a wrong reading."""
    right = [(of, name, getattr(of, name)) for of, name, _ in reading.replaced]
    for of, name, function in reading.replaced:
        setattr(of, name, function)
    try:
        yield
    finally:
        for of, name, function in right:
            setattr(of, name, function)


# the functions of the model that readings call
Link, Run, Host = link.Link, run.Run, host.Host
right_link, right_decide, right_next, right_work = Link.__init__, Link.decide, Run.next_time, Run.work
right_prepare, right_receive, right_sums = Host.prepare, Host.receive, report.sums


# ## windows and times


@reading("window", "a window is a nanosecond shorter than the least delay", run, "window_length")
def _(config):
    return max(1, min([it.delay_ns for it in config.links], default=config.top.horizon + 2) - 1)


@reading("at-zero", "a link that never started anything decides at time 0", Link, "__init__")
def _(self, plan):
    right_link(self, plan)
    self.decides = 0


@reading("overtaken-wait", "the end of a wait that a start has overtaken can begin a window", Link, "decide")
def _(self, now):
    waits = self.decides is not None and self.decides > now
    overtaken = {self.decides} if waits else set()
    started = right_decide(self, now)
    self.overtaken = getattr(self, "overtaken", set()) | (overtaken if started else set())
    return started


@also(Run, "next_time")
def _(self):
    times = {it for node in self.nodes for link in node.links.values() for it in getattr(link, "overtaken", ())}
    times = [it for it in [right_next(self), *times] if it is not None and it <= self.config.top.horizon]
    return min(times, default=None)


@also(Run, "work")
def _(self, now):
    for node in self.nodes:
        for link in node.links.values():
            link.overtaken = {it for it in getattr(link, "overtaken", ()) if it > now}
    return right_work(self, now)


@reading("idle-end", "a link that becomes free where nothing waits decides nothing", run, "decides")
def _(link, now, is_reached):
    if link.decides == now and not link.requests.turns and not link.regular.turns and not link.legacy.packets:
        link.decides = None
    return link.free_at <= now and (is_reached or link.decides == now)


@also(Run, "next_time")
def _(self):
    for node in self.nodes:
        for link in node.links.values():
            if not link.requests.turns and not link.regular.turns and not link.legacy.packets:
                link.decides = None
    return right_next(self)


@reading("ties", "packets come before rows at one time", run, "turn")
def _(reaching):
    return 1 << 20 if reaching.link is None else reaching.link


@reading("ties-of-links", "packets that come at one time come by the number of the node before", run, "turn")
def _(reaching):
    return -1 if reaching.link is None else reaching.packet.identity[0]


@reading("each-decides", "links decide after each thing that reaches their node, and not after all of a time", Run, "work_node")
def _(self, now, node, reaching):
    happened = []
    for it in reaching or [None]:
        if it is not None:
            happened.append(node.take(it))
        for number in sorted(node.links):
            if run.decides(node.links[number], now, bool(happened)):
                started = node.links[number].decide(now)
                happened += [self.send(now, node, number, *started)] if started else []
    return happened


# ## routers


@reading("hop-limit", "the hop limit is looked at last: the cause and the charge come before", run.RouterNode, "take")
def _(self, reaching):
    now, plan = reaching.time, router.in_force(self.plan, reaching.time)
    packet = reaching.packet if reaching.row is None else self.injected(reaching.row)
    tag = self.plan.edge_tag if reaching.link is None else self.plans[reaching.link].tag
    fate = router.fate(plan, self.charges_at(now), now, tag, packet)
    self.charges += [fate.charge] if fate.charge else []
    way = "dropped:hop-limit" if router.is_spent(packet) else self.pass_on(plan, now, fate.packet)
    return run.Arrived(now, self.number, packet, reaching.link, shims.class_of(fate.packet), fate.cause, fate.charge, way)


@reading("hops", "a packet passes 31 routers", router, "is_spent")
def _(packet):
    return packet.hops == router.HOPS_MOST - 1


@reading("credit", "credit is rounded down", router, "credit")
def _(size, rights):
    return size * rights.t * hashes.SECOND // (router.UNIT * rights.n)


@reading("life", "a flow still lives at its very end", router, "lives")
def _(charges, now):
    return bool(charges) and now <= router.end_of(charges)


@reading("run", "the used bytes of a grant are those of all its charges while its flow lives", router, "run_of", aim="again")
def _(charges):
    return charges


@reading("superseded", "a grant takes the place of another one of its second", router, "is_superseded")
def _(holder, grant):
    return holder != grant and holder.second > grant.second


@reading("over-n", "a grant may not be used up to its last byte", router, "is_over")
def _(charges, grant, now, packet):
    return router.used(charges, grant, now) + shims.length(packet) >= router.UNIT * grant.rights.n


@reading("charged", "a charge is of what stands behind the header", router, "length")
def _(packet):
    return shims.length(packet) - shims.HEADER


@reading("clock", "a router's second is that of the time, without its clock's offset", hashes, "router_second")
def _(_plan, now):
    return now // hashes.SECOND


@reading("epoch", "secrets change a second earlier", hashes, "epoch_of")
def _(second):
    return (second + 1) // hashes.EPOCH


@reading("stamp", "a stamp comes round after 128 seconds", hashes, "age")
def _(second, shown):
    return (second - shown[0]) % 128


@reading("prefix", "the way is that of the first prefix that holds the destination", router, "way")
def _(plan, destination):
    holding = [route for route in plan.routes if router.holds(route.prefix, destination)]
    return holding[0].target if holding else None


@reading("key", "the key of a request is its first nonzero tag", shims, "request_key")
def _(packet):
    return (shims.tags_of(packet) or [0])[0]


@reading("inner-key", "the inner key of a request is its first nonzero tag", shims, "inner_key")
def _(packet):
    return (shims.tags_of(packet)[:-1] or [0])[0]


# ## links


@reading("cap", "request credit has no cap", link, "debt")
def _(started, now):
    return sum(it.cost for it in started) - now if started else 0


@reading("newcomer", "a newcomer in a ring begins with a quantum", link, "new_turn")
def _(ring, keys, quantum):
    return link.Turn(keys[0], quantum, link.Ring() if keys[1:] else link.Line())


@reading("two-levels", "with two levels the deficits of tags stay as they are", link.Ring, "take")
def _(self, quantum):
    turn = self.turns[0]
    packet = turn.inside.take(quantum)
    turn.deficit -= 0 if isinstance(turn.inside, link.Ring) else shims.length(packet)
    following = turn.inside.first()
    if following is not None and turn.deficit >= shims.length(following):
        return packet
    self.turns.pop(0)
    self.turns += [turn] if following is not None else []
    if self.turns:
        self.turns[0].deficit += quantum
    return packet


# ## hosts


@reading("ordinals", "packets that rows inject at a host have no number of their own", Host, "identity")
def _(self):
    self.made = self.prepared + 1
    return self.number, self.made


@reading("second-notice", "a notice counts once: a second one gives nothing up", host, "is_given_up")
def _(since):
    return False


@reading("first-notice", "the first notice gives the grant up", host, "is_given_up")
def _(since):
    return bool(host.notices(since))


@reading("spare-second", "a packet fits without a second to spare", host, "fits")
def _(plan, grant, now, size):
    in_time = now + plan.margin_ns <= grant.asked + grant.rights.t * hashes.SECOND
    return in_time and grant.used + size <= router.UNIT * grant.rights.n


@reading("half", "a renewal is due where just half of the units are used", host, "is_half_gone")
def _(grant, now, size):
    units_gone = 2 * (grant.used + size) >= router.UNIT * grant.rights.n
    return units_gone or 2 * (now - grant.asked) > grant.rights.t * hashes.SECOND


@reading("nonces", "a host's nonces count only the packets that show one", Host, "offered")
def _(self):
    shown = [it for entries in self.peers.values() for it in entries if host.is_prepared(it, "list", "nonce", "renewal")]
    return (self.plan.nonce + len(shown)) % host.NONCES


@reading("answered", "each grant that comes in is taken", host, "takes")
def _(plan, entries, rights):
    return bool(host.asks(entries)) and rights.n <= shims.units_most(plan.version) and rights.t <= shims.seconds_most(plan.version)


@reading("client", "a client grants to whom it replied", Host, "prepare")
def _(self, now, peer, *more):
    self.sent.append(peer)
    return right_prepare(self, now, peer, *more)


@reading("marked-back", "the return info of a marked packet isn't looked at", Host, "receive")
def _(self, packet):
    shim = packet.carried
    if isinstance(shim, shims.Shim) and shim.demoted:
        packet = packet._replace(carried=shim._replace(back=None))
    return right_receive(self, packet)


# ## texts


@reading("stray-bytes", "the payloads of strays count", report, "sums")
def _(happened):
    told = right_sums(happened)
    return told | {"bytes": happened.packet.payload} if isinstance(happened, run.Received) else told


@reading("places", "the places of two levels are counted once", configuration, "places_of")
def _(plan):
    return plan.request_queues * plan.request_ring + plan.regular_queues * plan.regular_ring + plan.legacy_ring


# ## readings whose reports break a promise, though program and model would read alike


@reading("no-budget", "a grant lets any number of bytes through", router, "is_over", BREACHES)
def _(charges, grant, now, packet):
    return grant.rights.n == 0


@reading("no-cap", "request credit has no cap", link, "debt", BREACHES)
def _(started, now):
    return sum(it.cost for it in started) - now if started else 0


@reading("legacy-first", "legacy packets go before all others", Link, "decide", BREACHES)
def _(self, now):
    if self.legacy.first() is None:
        return right_decide(self, now)
    return self.start(now, "legacy", self.legacy.take(self.plan.quantum))


@reading("requests-last", "requests go where nothing else waits", Link, "decide", BREACHES)
def _(self, now):
    if self.regular.first() is not None:
        return self.start(now, "regular", self.regular.take(self.plan.quantum))
    if self.legacy.first() is not None:
        return self.start(now, "legacy", self.legacy.take(self.plan.quantum))
    return right_decide(self, now)
