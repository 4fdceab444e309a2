"""Reads reports: their events, what they say of each packet, and what that comes to for the honest ones."""
import collections
import json
import os
import sys

import transfers

Event = collections.namedtuple("Event", "time node what id length fields")

CAUSES = ["no-capability", "expired", "bad-hash", "superseded", "over-n", "cache-full", "unknown-nonce", "path-full", "malformed"]
DROPS = ["hop-limit", "no-route", "no-queue", "queue-full"]
CLASSES = ["request", "regular", "legacy"]
RECEIVED = ["regular", "renewal", "request", "legacy", "demoted"]
# of the numbers of a run: what arrives as more than a legacy packet
RIGHTFUL = ["as_regular", "as_renewal", "as_request"]

CLASS_OF_SHAPE = {"request": "request", "list": "regular", "nonce": "regular", "renewal": "regular", "legacy": "legacy"}


def lines_of(report):
    """The lines of a report: of a path, or of lines as they come."""
    if not isinstance(report, (str, os.PathLike)):
        yield from report
        return
    with open(report, encoding="ascii") as file:
        yield from file


def breaks_off(path):
    """Whether a report lacks its last line, and so is no whole one."""
    with open(path, "rb") as file:
        file.seek(max(0, os.path.getsize(path) - 512))
        last = file.read().splitlines()[-1:]
    return not (last and last[0].startswith(b"total "))


def events(report):
    """The events of a report, a path or lines, without its last line, each as (time, node, what, id, length, fields):
    the fields are what stands behind the length. A tick that sends nothing has no packet: no id, and length 0."""
    for line in lines_of(report):
        words = line.split()
        if words and words[0] != "total":
            name, length, *fields = words[3:] or ["", 0]
            yield Event(int(words[0]), words[1], words[2], name, int(length), fields)


class Packet:
    """What a report says of one packet, from the node that made it to where it ended up."""

    __slots__ = ("id", "row", "answers", "sent", "shape", "length", "kind", "cause", "marked_at", "dropped", "dropped_at", "received", "receiver", "what", "ended")

    def __init__(self, name):
        self.id = name
        self.row = False  # it came of a row of the trace
        self.answers = None  # the packet to which it is the reply
        self.sent = None  # when a node made it or took it from the trace
        self.shape = None  # in which shape a host made it, or `trace`
        self.length = 0  # as it was sent
        self.kind = None  # its class, so far as the report tells
        self.cause = None  # why a router didn't take it as what it claimed to be
        self.marked_at = None  # which router
        self.dropped = None  # why it was dropped
        self.dropped_at = None  # at which node
        self.received = None  # when a host received it
        self.receiver = None  # which host
        self.what = None  # what it was to that host: `stray`, `demoted`, `request`, `renewal`, `regular` or `legacy`
        self.ended = None  # the time of the last event that names it

    @property
    def sender(self):
        """The node that made it or took it from the trace."""
        return self.id.rpartition("#")[0]

    def fate(self):
        """In one word: `dropped`, `demoted`, `request`, `regular`, `legacy`, or `under way` at the end."""
        if self.dropped:
            return "dropped"
        if self.cause not in (None, "malformed"):
            return "demoted"
        return "under way" if self.received is None else self.kind

    def _begins(self, time, length):
        if self.sent is None:
            self.sent, self.length = time, length

    def _goes(self, outcome, node):
        if outcome.startswith("dropped:"):
            self.dropped, self.dropped_at = outcome.partition(":")[2], node


def packets(report, senders=None):
    """The packets of a report by their names, in the order in which they were made: of all senders, or of these."""
    found = {}
    for event in events(report):
        if event.what == "tick" or senders is not None and event.id.partition("#")[0] not in senders:
            continue
        packet = found.get(event.id) or found.setdefault(event.id, Packet(event.id))
        packet.ended = event.time
        if event.what == "send":
            shape, outcome = event.fields
            packet.row, packet.shape = True, shape
            packet.kind = CLASS_OF_SHAPE.get(shape)
            packet._begins(event.time, event.length)
            packet._goes(outcome, event.node)
        elif event.what == "start":
            packet.kind = event.fields[1]
        elif event.what == "in":
            source, packet.kind, cause, outcome = event.fields
            packet.row = packet.row or source == "trace"
            packet._begins(event.time, event.length)
            if cause != "-":
                packet.cause, packet.marked_at = cause, event.node
            packet._goes(outcome, event.node)
        elif event.what == "recv":
            packet.received, packet.receiver, packet.what = event.time, event.node, event.fields[1]
            if event.fields[3] != "-":
                name, length, shape, _, outcome = event.fields[3].split("/")
                if senders is not None and name.partition("#")[0] not in senders:
                    continue
                reply = found.setdefault(name, Packet(name))
                reply.answers, reply.kind, reply.shape, reply.ended = event.id, CLASS_OF_SHAPE[shape], shape, event.time
                reply._begins(event.time, int(length))
                reply._goes(outcome, event.node)
    return found


def refuse(text, status=2):
    """Ends with one line, and the status of wrong words unless another is said."""
    print(f"{os.path.basename(sys.argv[0])}: {text}", file=sys.stderr)
    sys.exit(status)


def made_of(report):
    """What was made, by the .json that make.py wrote beside the configuration of a report."""
    path = os.path.splitext(report)[0] + ".json"
    try:
        with open(path, encoding="utf-8") as file:
            return json.load(file)
    except (OSError, ValueError):
        refuse(f"there is no {path} that says what was made: make.py writes it")


def honest(found, made):
    """The packets that the honest senders of a flood were to send."""
    senders = set(made["honest"])
    return [packet for packet in found.values() if packet.row and packet.sender in senders]


def quantile(numbers, percent):
    """The least of some numbers that so many percent of them don't exceed, or None without any."""
    return sorted(numbers)[max(1, -(-percent * len(numbers) // 100)) - 1] if numbers else None


def numbers_of(report, made):
    """What a report, a path or lines, comes to for the honest packets: how many were to be sent; how many of those a sender sent as
    legacy by its own choice, and how many a router marked; how many arrived, and as what; and of those that arrived
    the median delay, and the one that 95 of 100 don't exceed, in nanoseconds. Where users transfer files, it is what
    becomes of these."""
    if "transfers" in made:
        return transfers.numbers_of(lines_of(report), made)
    those = honest(packets(report, set(made["honest"])), made)
    arrived = [packet for packet in those if packet.received is not None]
    delays = [packet.received - packet.sent for packet in arrived]
    return {
        "sent": len(those),
        "own_legacy": sum(packet.shape == "legacy" for packet in those),
        "marked": sum(packet.cause is not None for packet in those),
        "dropped": sum(packet.dropped is not None for packet in those),
        "arrived": len(arrived),
        **{f"as_{what}": sum(packet.what == what for packet in arrived) for what in RECEIVED},
        "delay": quantile(delays, 50),
        "late": quantile(delays, 95),
    }


def numbers(stem):
    """The numbers of one run, which `one` keeps beside it in a file of its own, or else those of its report."""
    try:
        with open(stem + ".numbers", encoding="utf-8") as file:
            return json.load(file)
    except (OSError, ValueError):
        if breaks_off(stem + ".report"):
            refuse(f"{stem}.report breaks off: it has no last line with its sums")
        return numbers_of(stem + ".report", made_of(stem + ".report"))
