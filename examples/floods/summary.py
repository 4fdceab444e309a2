#!/usr/bin/env python3
"""Writes what a report says as CSV, a line for each flow and class.

    summary.py REPORT [CONFIG TRACE] [--partial] > summary.csv

A flow is a node that sent and the host to which it sent. A report doesn't tell for whom a packet was that
no host received; with the configuration and the trace those are found too, else they stand under `-`.
The class of a packet is the last one that the report tells of it.

Of each: packets sent and received, the bytes of both, how many were demoted and dropped for each cause, the
times of the first sending and of the last event in nanoseconds, and the mean delay of those received.

REPORT may be a pipe, or - for standard input. A report that lacks its last line is refused, or with --partial summed
as far as it goes. It takes some 50 MB of memory at most, whatever the report is: what is known of a packet is kept until
it is received or dropped, in 24 bytes where they are many. It ends with 2 where its words are wrong, or what it reads is no report or no
trace.
"""
import array
import collections
import itertools
import os
import sys

sys.path.insert(0, os.path.dirname(os.path.dirname(os.path.abspath(__file__))))
import reading  # noqa: E402
import words  # noqa: E402
from reports import CAUSES, CLASS_OF_SHAPE, CLASSES, DROPS  # noqa: E402

HEADER = ["sender", "receiver", "class", "sent", "received", "bytes_sent", "bytes_received"]
HEADER += ["malformed" if cause == "malformed" else "demoted_" + cause for cause in CAUSES]
HEADER += ["dropped_" + cause for cause in DROPS]
HEADER += ["first_ns", "last_ns", "mean_delay_ns"]

COLUMNS = len(HEADER) - 4  # numbers of a flow and class, without the mean
SENT, RECEIVED, BYTES_SENT, BYTES_RECEIVED = range(4)
FIRST, LAST, DELAY = COLUMNS - 2, COLUMNS - 1, COLUMNS
ALL_KINDS = ["-", *CLASSES]
KINDS = {kind: kind for kind in CLASSES}
SHAPES = {**CLASS_OF_SHAPE, "trace": "-"}
MARKS = {cause: 4 + place for place, cause in enumerate(CAUSES)}
DROPPED = {"dropped:" + cause: 4 + len(CAUSES) + place for place, cause in enumerate(DROPS)}
LATEST = 1 << 64

NEAR_MOST = 20_000  # packets under way that are kept as such
BLOCK, FIELDS = 256, 3  # others are numbers: when it was sent, its last event, and its fields one behind the other
GONE = (1 << 64) - 1  # in the place of the first
LENGTH, KIND, MARK, TARGET = 0, 16, 18, 24  # the lowest bits of fields


def joined(those):
    """One record of several: sums, but for the first and the last time."""
    sums = [sum(numbers) for numbers in zip(*those)]
    sums[FIRST], sums[LAST] = min(it[FIRST] for it in those), max(it[LAST] for it in those)
    return sums


class Packet:
    """A packet under way. Its target is FAR and the number of an address, or the place of a name, or 0."""

    __slots__ = ("sender", "sent", "last", "length", "kind", "mark", "target")

    def __init__(self, sender, sent, last, length, kind, mark, target):
        self.sender, self.sent, self.last, self.length, self.kind, self.mark, self.target = sender, sent, last, length, kind, mark, target


class Far:
    """Packets under way, as numbers in blocks of some packets of one node. A block is let go when all of it is gone."""

    def __init__(self):
        self.blocks = collections.defaultdict(dict)  # for each sender and place how many there are, and the numbers

    def put(self, name, packet):
        sender, _, number = name.partition("#")
        blocks, (block, place) = self.blocks[sender], divmod(int(number), BLOCK)
        if block not in blocks:
            blocks[block] = [0, array.array("Q", [GONE]) * (BLOCK * FIELDS)]
        place *= FIELDS
        fields = packet.length << LENGTH | ALL_KINDS.index(packet.kind) << KIND | packet.mark << MARK | packet.target << TARGET
        blocks[block][0] += 1
        blocks[block][1][place : place + FIELDS] = array.array("Q", (packet.sent, int(packet.last), fields))

    def take(self, name):
        """A packet, which is no longer here. KeyError where it isn't."""
        sender, _, number = name.partition("#")
        blocks, (block, place) = self.blocks[sender], divmod(int(number), BLOCK)
        there, place = blocks[block], place * FIELDS
        packet = self.packet(sender, *there[1][place : place + FIELDS])
        there[0] -= 1
        there[1][place] = GONE
        if not there[0]:
            del blocks[block]
        return packet

    def packet(self, sender, sent, last, fields):
        if sent == GONE:
            raise KeyError
        return Packet(sender, sent, last, fields & 0xFFFF, ALL_KINDS[fields >> KIND & 3], fields >> MARK & 63, fields >> TARGET)

    def packets(self):
        for sender, blocks in self.blocks.items():
            for _, numbers in blocks.values():
                for place in range(0, len(numbers), FIELDS):
                    if numbers[place] != GONE:
                        yield self.packet(sender, *numbers[place : place + FIELDS])


class Summary:
    """The sums of flows and classes, and the packets under way."""

    def __init__(self, config, trace):
        self.table = reading.Table(lambda: [0] * FIRST + [LATEST, 0, 0], joined)
        self.near, self.far, self.counts = {}, Far(), collections.Counter()
        self.names, self.places, self.texts = ["", "-"], reading.Known(self.place), reading.Known(self.text)
        self.hosts, self.flows, self.rows = {}, None, collections.Counter()
        if trace:
            self.hosts, (self.flows, _) = hosts_of(config), reading.flows_of(trace)
        self.sees = {"start": self.start, "in": self.arrive, "send": self.send, "recv": self.receive, "tick": self.tick}

    def place(self, name):
        self.names.append(name)
        return len(self.names) - 1

    def text(self, target):
        """The name of a target."""
        return self.names[target] if target < reading.FAR else self.hosts.get(target - reading.FAR) or reading.address_of(target - reading.FAR)

    def begin(self, time, name, length, kind, target=None):
        """A packet that a node makes: their numbers rise one by one. One without a target is of a row."""
        sender, _, number = name.partition("#")
        count = self.counts[sender] = self.counts[sender] + 1
        if int(number) != count:
            raise ValueError
        if target is None:
            target = 0
            if self.flows is not None:
                at = self.rows[sender] = self.rows[sender] + 1
                flow = self.flows.get(sender, ())
                target = flow[2 * at - 1] if 2 * at <= len(flow) else 1
        if len(self.near) == NEAR_MOST:
            for other, packet in self.near.items():
                self.far.put(other, packet)
            self.near.clear()
        packet = self.near[name] = Packet(sender, int(time), time, int(length), kind, 0, target)
        return packet

    def fetch(self, name):
        packet = self.near[name] = self.far.take(name)
        return packet

    def end(self, packet, last, receiver="-"):
        """The sums of a packet that was received, dropped, or is under way at the end."""
        to = self.texts[packet.target] if packet.target else receiver
        sums = self.table.of((packet.sender, to, packet.kind))
        sums[SENT] += 1
        sums[BYTES_SENT] += packet.length
        if packet.mark:
            sums[packet.mark] += 1
        if packet.sent < sums[FIRST]:
            sums[FIRST] = packet.sent
        if last > sums[LAST]:
            sums[LAST] = last
        return sums

    # for each kind of event what it says

    def start(self, words):
        time, _, _, name, _, _, kind, _ = words
        packet = self.near.get(name) or self.fetch(name)
        packet.last, packet.kind = time, KINDS[kind]

    def arrive(self, words):
        time, _, _, name, length, origin, kind, cause, outcome = words
        if origin == "trace":
            packet = self.begin(time, name, length, "-")
        else:
            packet = self.near.get(name) or self.fetch(name)
        packet.last, packet.kind = time, KINDS[kind]
        if cause != "-":
            packet.mark = MARKS[cause]
        if outcome.startswith("dropped:"):
            self.drop(name, packet, time, outcome)

    def drop(self, name, packet, time, outcome):
        self.end(packet, int(time))[DROPPED[outcome]] += 1
        del self.near[name]

    def receive(self, words):
        time, node, _, name, _, _, _, _, reply = words[:9]
        packet = self.near.get(name) or self.fetch(name)
        last = int(time)
        sums = self.end(packet, last, node)
        sums[RECEIVED] += 1
        sums[BYTES_RECEIVED] += packet.length
        sums[DELAY] += last - packet.sent
        del self.near[name]
        if reply != "-":
            name, length, shape, _, outcome = reply.split("/")
            reply = self.begin(time, name, length, SHAPES[shape], self.places[packet.sender])
            if outcome.startswith("dropped:"):
                self.drop(name, reply, time, outcome)

    def send(self, words):
        time, _, _, name, length, shape, outcome = words
        packet = self.begin(time, name, length, SHAPES[shape])
        if outcome.startswith("dropped:"):
            self.drop(name, packet, time, outcome)

    def tick(self, words):
        self.rows[words[1]] += 1  # a row that sends nothing

    def close(self):
        """What is under way."""
        for packet in itertools.chain(self.near.values(), self.far.packets()):
            self.end(packet, int(packet.last))


def hosts_of(config):
    """The names of hosts by the numbers of their addresses."""
    import tomllib

    try:
        with open(config, "rb") as file:
            return {reading.number_of(host["address"]): host["name"] for host in tomllib.load(file).get("host", [])}
    except FileNotFoundError:
        words.refuse(f"there is no file {config}")
    except (OSError, ValueError, KeyError, TypeError, AttributeError):
        words.refuse(f"{config} is no configuration")


def main():
    reader = words.Words("summary.py", __doc__)
    reader.add_argument("report", metavar="REPORT")
    reader.add_argument("config", nargs="?", metavar="CONFIG")
    reader.add_argument("trace", nargs="?", metavar="TRACE")
    reader.add_argument("--partial", action="store_true", help="go on where the report breaks off")
    it = reader.parse_args()
    if it.config and not it.trace:
        reader.error("summary.py REPORT [CONFIG TRACE]")
    report, summary = reading.Report(it.report, it.partial), Summary(it.config, it.trace)
    for part in report.parts():
        try:
            for line in part:
                event = line.split(" ")
                summary.sees[event[2]](event)
        except (ValueError, LookupError, TypeError, OverflowError):
            report.wrong(line)
    summary.close()
    print(",".join(HEADER))
    for key, sums in summary.table.items():
        print(*key, *sums[:DELAY], sums[DELAY] // sums[1] if sums[1] else "", sep=",")


if __name__ == "__main__":
    words.ended(main)
