"""How often each cause, outcome, shape, word of a receipt, fault and status came, when restarts and reroutes did, what came
of files and of audits, how many links had two levels, and in how many runs each limit was met exactly."""
from collections import Counter

from model import audit
from model import run as runs
from model.shims import Ack, Data

from .limits import LIMITS

CONFIG_FAULTS = """syntax top, unknown top, unknown router, unknown host, unknown link, unknown route, missing top, missing router,
missing host, missing link, missing route, value top, value router, value host, value link, value route, count host, count link,
count route, names router, names host, addresses host, retry host, ends link, pair link, uplink host, owner route, via route,
prefix route, slots router, rings link, unknown restart, unknown reroute, missing restart, missing reroute, value restart,
value reroute, count restart, count reroute, owner restart, times restart, owner reroute, via reroute, prefix reroute,
times reroute"""
OUTCOMES = "queued, dropped:hop-limit, dropped:no-route, dropped:no-queue, dropped:queue-full"
WHEN = "at an arrival, between arrivals, before all arrivals, behind all arrivals"
RIDES = "by itself, on a grant, on a notice"

# all that is to come, by what is counted
EXPECTED = {
    "status": "0, 1, 2, 3, 5, 6, 7, 8, 10",
    "class": "request, regular, legacy",
    "cause": "-, no-capability, expired, bad-hash, superseded, over-n, cache-full, unknown-nonce, path-full, malformed",
    "outcome at a router": OUTCOMES,
    "shape of a row": "request, list, nonce, renewal, legacy, trace",
    "outcome of a row": "queued, dropped:no-queue, dropped:queue-full",
    "receipt": "stray, demoted, request, renewal, regular, legacy",
    "return": "-, notice, grant, ignored",
    "shape of a reply": "request, list, nonce, renewal, legacy",
    "reply": "notice, grant, -",
    "outcome of a reply": "queued, dropped:no-queue, dropped:queue-full",
    "start": "request, regular, legacy",
    "range": "first, further",
    "receipt with a range": "demoted, request, renewal, regular, legacy",
    "data": "delivered, delivered before, stray",
    "acknowledgement": "goes on, is the last, told before, stray",
    "row with a segment": "file, tick",
    "tick": "without a packet",
    "acknowledgement that is sent": RIDES,
    "segment that answers": RIDES,
    "restart": WHEN,
    "reroute": WHEN,
    "change of a report": "-, a byte, an unprintable byte, a line left out, a line doubled, two lines exchanged, no last line feed,"
    " an empty line, a long line",
    "audit": "report ok, found, event limit, bad report",
    "router of an audit": "no charge, one grant, several grants, several boots, equal to the worst, a greater sum than the worst",
    "fault of a configuration": CONFIG_FAULTS,
    "fault of a trace": "header, rows, fields, time, order, node, kind, src, dst, payload, shim",
    "link": "one level, two levels",
    "limit": ", ".join(it.name for it in LIMITS),
    "word of shim": "v1 request, v1 list, v1 nonce, v1 renewal, v2 request, v2 list, v2 nonce, v2 renewal, malformed",
}

AUDITS = {0: "report ok", 1: "found", 8: "event limit", 10: "bad report"}


def outcome(word):
    return "queued" if word.startswith("queued:") else word


def when(now, arrivals):
    """When a change comes, beside what arrives at its router."""
    if now in arrivals:
        return "at an arrival"
    if all(it > now for it in arrivals):
        return "before all arrivals" if arrivals else "behind all arrivals"
    return "between arrivals" if any(it > now for it in arrivals) else "behind all arrivals"


class Coverage:
    def __init__(self):
        self.counts = {group: Counter() for group in EXPECTED}
        self.lines = 0

    def add(self, group, word):
        self.counts[group][word] += 1

    def take(self, other):
        """Takes what was counted elsewhere."""
        self.lines += other.lines
        for group, counts in other.counts.items():
            self.counts[group] += counts

    def see(self, words, status, out, said):
        """One run of the program."""
        self.add("status", str(status))
        if status == 6:
            self.add("fault of a configuration", " ".join(said.split()[2:4]))
        elif status == 7:
            self.add("fault of a trace", said.split()[-1])
        elif words[:1] == ["shim"] and status == 0:
            self.add("word of shim", " ".join(out.decode().split()[:2]))
        elif words[:1] == ["replay"]:
            for line in out.decode().splitlines():
                self.see_line(line.split(" "))
        elif words[:1] == ["audit"] and status in AUDITS:
            self.add("audit", AUDITS[status])

    def see_line(self, line):
        self.lines += 1
        match line:
            case [_, _, "in", _, _, _, kind, cause, way]:
                self.add("class", kind)
                self.add("cause", cause)
                self.add("outcome at a router", outcome(way))
            case [_, _, "send", _, _, shape, way]:
                self.add("shape of a row", shape)
                self.add("outcome of a row", outcome(way))
            case [_, _, "tick"]:
                self.add("tick", "without a packet")
            case [_, _, "recv", _, _, _, what, back, reply, *delivered]:
                self.add("receipt", what)
                self.add("return", back)
                for it in delivered:
                    self.add("range", "first" if it.split(":")[2] == "0" else "further")
                    self.add("receipt with a range", what)
                if reply != "-":
                    _, _, shape, word, way = reply.split("/")
                    self.add("shape of a reply", shape)
                    self.add("reply", word)
                    self.add("outcome of a reply", outcome(way))
            case [_, _, "start", _, _, _, kind, _]:
                self.add("start", kind)

    def see_run(self, run):
        """What a run of the model tells and a report doesn't."""
        self.see_changes(run)
        acked = {}
        for it in run.happened:
            if isinstance(it, runs.Sent) and it.packet.upper:
                transfer = it.node, it.packet.upper.transfer
                self.add("row with a segment", "tick" if transfer in acked else "file")
                acked.setdefault(transfer, 0)
            elif isinstance(it, runs.Received) and it.packet.upper:
                self.see_upper(it.node, it.packet.upper, it.receipt, acked)

    def see_upper(self, node, upper, receipt, acked):
        """What came of the upper part of a packet that was received, and what answers it. `acked` has how much of each
        transfer its sender knows to be delivered."""
        answer = receipt.upper
        if receipt.what == "stray":
            self.add("data" if isinstance(upper, Data) else "acknowledgement", "stray")
        elif isinstance(upper, Data):
            self.add("data", "delivered" if receipt.delivered else "delivered before")
        else:
            is_new = upper.next > acked[node, upper.transfer]
            self.add("acknowledgement", "goes on" if answer else "is the last" if is_new else "told before")
            acked[node, upper.transfer] = max(acked[node, upper.transfer], upper.next)
        if answer:
            back = receipt.answer
            rides = "by itself" if back is None else "on a notice" if back.rights is None else "on a grant"
            self.add("acknowledgement that is sent" if isinstance(answer, Ack) else "segment that answers", rides)

    def see_network(self, network):
        """The links of a random network."""
        for it in network.link:
            self.add("link", "two levels" if it.get("request_levels") == 2 else "one level")

    def see_report(self, changes):
        """The changes of a report that is audited."""
        for it in changes:
            self.add("change of a report", it)

    def see_audit(self, run, status):
        """What the routers of a run of the model let through, where the report is that of the run."""
        for node in run.nodes[: len(run.config.routers)] if status == 0 else []:
            told = audit.sums(node.plan, node.charges)
            worst = audit.worst(told)
            self.add("router of an audit", "several grants" if told[1:] else "one grant" if told else "no charge")
            if len({it.boot for it in told}) > 1:
                self.add("router of an audit", "several boots")
            if any(it is not worst and not audit.is_worse(worst, it) for it in told):
                self.add("router of an audit", "equal to the worst")
            if any(it.bytes > worst.bytes for it in told):
                self.add("router of an audit", "a greater sum than the worst")

    def see_changes(self, run):
        """The changes of a run of the model."""
        for router in run.config.routers:
            arrivals = {it.time for it in run.happened if isinstance(it, runs.Arrived) and run.nodes[it.node].plan is router}
            for group, changes in (("restart", router.restarts), ("reroute", router.reroutes)):
                for it in changes:
                    self.add(group, when(it.at_ns, arrivals))

    def table(self):
        """A line for each group, with what came seldom at its front."""
        told = []
        for group, words in EXPECTED.items():
            counts = self.counts[group]
            known = [" ".join(word.split()) for word in words.split(",")]
            every = known + sorted(set(counts) - set(known))
            told.append(f"{group}: " + ", ".join(f"{word} {counts[word]:,}" for word in sorted(every, key=lambda it: counts[it])))
        return "\n".join(told)

    def seldom(self, least, groups=tuple(EXPECTED)):
        """What came less often than that, as groups and words."""
        known = [(group, " ".join(word.split())) for group in groups for word in EXPECTED[group].split(",")]
        return [(group, word) for group, word in known if self.counts[group][word] < least]
