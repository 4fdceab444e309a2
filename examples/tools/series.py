"""Sums over time of what a report tells. A view has for each kind of event that it wants a function, which sees the time
and the words of one; at the end of a step it gives its lines, and says whether the next step has any without further
events."""
import collections

import reading

KNOWN = ("in", "start", "recv", "send", "tick")
CLASSES = ["request", "regular", "legacy"]


def sees_of(view):
    """For each kind of event the function of a view, or None."""
    return {kind: view.sees.get(kind) for kind in KNOWN}


def each(report, view):
    """Shows each event to a view, which raises ValueError or LookupError for what is none."""
    sees = sees_of(view)
    for part in report.parts():
        try:
            for line in part:
                words = line.split(" ")
                see = sees[words[2]]
                if not words[0].isdigit():
                    raise ValueError
                if see:
                    see(int(words[0]), words)
        except (ValueError, LookupError):
            report.wrong(line)


class Untold(Exception):
    """Why a report doesn't tell what is asked for."""


def lines(report, step, view):
    """The lines of a view, step by step."""
    sees, begin, over = sees_of(view), None, 0
    for part in report.parts():
        try:
            for line in part:
                words = line.split(" ")
                see = sees[words[2]]
                if not words[0].isdigit():
                    raise ValueError
                time = int(words[0])
                if time >= over:
                    now = time - time % step
                    while begin is not None and begin < now:
                        yield from view.lines(begin)
                        begin = begin + step if view.goes_on() else now
                    begin, over = now, now + step
                elif time < begin:
                    raise ValueError
                if see:
                    see(time, words)
        except (ValueError, LookupError):
            report.wrong(line)
    while begin is not None:
        yield from view.lines(begin)
        begin = begin + step if view.goes_on() and view.outlasts else None


class Links:
    """What starts on each link, by class; the time that a packet occupies its link counts in the steps in which it does."""

    columns, outlasts = ["time", "from", "to", "class", "packets", "bytes", "busy_percent"], True

    def __init__(self, step):
        self.step, self.found, self.late = step, collections.defaultdict(lambda: [0, 0, 0]), []
        self.sees = {"start": self.start}

    def start(self, time, words):
        _, node, _, _, length, to, kind, end = words
        key, end = (node, to, kind), int(end)
        counted, over = self.found[key], time - time % self.step + self.step
        counted[0] += 1
        counted[1] += int(length)
        counted[2] += min(end, over) - time
        if end > over:
            self.late.append((end, key))

    def lines(self, begin):
        for key, (packets, size, busy) in sorted(self.found.items()):
            yield [begin, *key, packets, size, round(100 * busy / self.step, 2)]
        late, begin = self.late, begin + self.step
        self.found.clear()
        self.late = [(end, key) for end, key in late if end > begin + self.step]
        for end, key in late:
            self.found[key][2] += min(end, begin + self.step) - begin

    def goes_on(self):
        return bool(self.found)


class Flows:
    """What is received, by source, destination and what it was to its receiver."""

    columns, outlasts = ["time", "source", "destination", "was", "packets", "bytes", "bits_per_second"], False

    def __init__(self, step, ends):
        self.step, self.ends = step, ends
        self.table = reading.Table(lambda: [0, 0], lambda those: [sum(numbers) for numbers in zip(*those)])
        self.sees = {"recv": self.receive}

    def receive(self, _time, words):
        _, source, target = self.ends.of(words[3])
        sums = self.table.of((source, target, words[6]))
        sums[0] += 1
        sums[1] += int(words[4])

    def lines(self, begin):
        for key, (packets, size) in self.table.items():
            yield [begin, *key, packets, size, round(size * 8_000_000_000 / self.step)]

    def goes_on(self):
        return False


class Queues:
    """What waits for each link, by class."""

    columns, outlasts = ["time", "from", "to", "class", "packets", "bytes", "most_packets", "most_bytes"], False
    classes = {"request": "request", "list": "regular", "nonce": "regular", "renewal": "regular", "legacy": "legacy"}

    def __init__(self, report):
        self.waiting, self.touched, self.now = {}, set(), 0  # for each link and class how much, and the most
        self.kinds = collections.defaultdict(bytearray)  # of packets by their own nodes: the classes in which they start
        self.sees = {"in": self.arrive, "send": self.send, "recv": self.receive, "start": self.start}
        for part in report.parts():
            try:
                for line in part:
                    if " start " in line:
                        _, node, _, name, _, _, kind, _ = line.split(" ", 7)
                        sender, _, number = name.partition("#")
                        if sender == node:
                            self.first(node, int(number), 1 + CLASSES.index(kind))
            except (ValueError, LookupError, TypeError):
                report.wrong(line)

    def first(self, node, number, kind):
        """Notes in which class a packet starts at its own node."""
        kinds = self.kinds[node]
        if number == len(kinds) + 1:
            kinds.append(kind)
        else:
            if number > len(kinds):
                if number > len(kinds) + 1_000_000:
                    raise ValueError
                kinds.extend(bytes(number - len(kinds)))
            kinds[number - 1] = kind

    def kind_of(self, name):
        node, _, number = name.partition("#")
        kinds, number = self.kinds[node], int(number)
        return (["-"] + CLASSES)[kinds[number - 1]] if 0 < number <= len(kinds) else "-"

    def arrive(self, time, words):
        if words[8].startswith("queued:"):
            more = 10 if words[6] == "request" else 0  # the entry that the router adds
            self.change(time, (words[1], words[8][7:], words[6]), 1, int(words[4]) + more)

    def send(self, time, words):
        if words[6].startswith("queued:"):
            kind = self.kind_of(words[3]) if words[5] == "trace" else self.classes[words[5]]
            self.change(time, (words[1], words[6][7:], kind), 1, int(words[4]))

    def receive(self, time, words):
        if words[8] != "-":
            _, length, shape, _, outcome = words[8].split("/")
            if outcome.startswith("queued:"):
                self.change(time, (words[1], outcome[7:], self.classes[shape]), 1, int(length))

    def start(self, time, words):
        self.change(time, (words[1], words[5], words[6]), -1, -int(words[4]))

    def change(self, time, key, packets, size):
        if time != self.now:
            self.settle(time)
        there = self.waiting.get(key)
        if there is None:
            there = self.waiting[key] = [0, 0, 0, 0]
        there[0] += packets
        there[1] += size
        if there[0] < 0 or there[1] < 0:
            raise ValueError  # what starts was queued
        self.touched.add(key)

    def settle(self, now):
        """What starts at the time at which it was queued doesn't wait."""
        self.now = now
        for key in self.touched:
            there = self.waiting[key]
            there[2], there[3] = max(there[2], there[0]), max(there[3], there[1])
        self.touched.clear()

    def lines(self, begin):
        self.settle(self.now)
        for key, there in sorted(self.waiting.items()):
            if there[2]:
                yield [begin, *key, *there]
            there[2:] = there[:2]
        self.waiting = {key: there for key, there in self.waiting.items() if there[0]}

    def goes_on(self):
        return bool(self.waiting)
