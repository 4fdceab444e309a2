"""What every run promises, by plain sums over the lines of a report, and over those of an audit. What a report doesn't
tell, which grant a packet was charged to and under which key it waits, is the model's, whose lines are the same."""
from collections import defaultdict

from model import shims
from model.transfers import File

UNIT, PACKET_MOST = 1_024, 2_048


def broken(run, report):
    """The promises that a report breaks, as texts. `run` is the model's, up to the last line of the report or further."""
    lines = [line.split(" ") for line in report.decode().splitlines() if not line.startswith("total ")]
    last = int(lines[-1][0]) if lines else 0
    found = []
    for node in run.nodes:
        of_node = [line for line in lines if line[1] == node.plan.name]
        found += budgets(node, of_node) if hasattr(node, "charges") else []
        for link in node.links.values():
            found += rates(run, link, of_node) + waits(run, link, of_node, last)
    return found + ranges(run, lines)


def budgets(node, lines):
    """The regular packets of each grant between two restarts are less than twice its units. One at the hop limit is
    regular, and not charged."""
    regular = [line for line in lines if line[2] == "in" and line[6] == "regular" and line[8] != "dropped:hop-limit"]
    told = [(int(line[0]), int(line[4])) for line in regular]
    if told != [(it.time, it.length) for it in node.charges][: len(told)]:
        return [f"{node.plan.name}: what is regular isn't what is charged"]
    sums = defaultdict(int)
    for (now, length), charge in zip(told, node.charges):
        boot = sum(restart.at_ns <= now for restart in node.plan.restarts)
        sums[boot, charge.grant] += length
    over = [(*of, had) for of, had in sums.items() if had >= 2 * UNIT * of[1].rights.n]
    return [f"{node.plan.name}: {grant} has {had} bytes in boot {boot}" for boot, grant, had in over]


def broken_sums(report, told):
    """What an audit of a report tells against it: each router is charged for what it authorises, and each worst sum is
    below its limit."""
    *sums, last = [line.split(" ") for line in told.decode().splitlines()]
    numbers = [[word.partition("=")[2] for word in line[1:]] for line in sums]
    total = report.decode().splitlines()[-1].split(" ")
    found = [] if f"authorised={sum(int(charges) for _, charges, _, _ in numbers)}" in total else ["charges aren't what is authorised"]
    if last != ["report", "ok", f"lines={report.count(bytes([10]))}"]:
        found.append("the report has another number of lines")
    for line, (grants, charges, size, worst) in zip(sums, numbers):
        most, limit = map(int, worst.split("/")) if worst != "-" else (0, 1)
        if not most < limit or most > int(size) or int(grants) > int(charges):
            found.append(f"{' '.join(line)} can't be")
    return found


def ranges(run, lines):
    """The ranges of each file are delivered by the host with its address, one behind the other from 0 on, and end within
    its size."""
    had, found = defaultdict(int), []
    for line in lines:
        if line[2:3] == ["recv"] and line[9:]:
            source, (number, first, count) = line[3].rpartition("#")[0], map(int, line[9].split(":")[1:])
            file = files_of(run, source)[number]
            [address] = [it.address for it in run.config.hosts if it.name == line[1]]
            is_next = first == had[source, number] and count >= 1 and first + count <= file.size
            if not is_next or address != file.destination:
                found.append(f"{line[1]}: {line[9]} of {source} comes behind {had[source, number]} of {file.size} bytes")
            had[source, number] = first + count
    return found


def files_of(run, name):
    """The files of a host, by the rows of its trace."""
    return [it.carried for it in run.rows if run.config.nodes[it.node].name == name and isinstance(it.carried, File)]


def rates(run, link, lines):
    """The requests that start from any start to any other cost at most a burst and the time between."""
    name, plan = run.config.nodes[link.plan.target].name, link.plan
    starts = [(int(line[0]), int(line[4])) for line in lines if line[2] == "start" and line[5:7] == [name, "request"]]
    factor = plan.share * plan.ns_per_byte
    for place, (begin, _) in enumerate(starts):
        bytes_started = 0
        for now, length in starts[place:]:
            bytes_started += length
            if bytes_started * factor > plan.burst * factor + now - begin:
                return [f"link {plan.number}: {bytes_started} bytes of requests start from {begin} to {now}"]
    return []


def waits(run, link, lines, last):
    """Each request and each regular packet starts within its bound, where that is over. The names of packets and the
    times of starts are the report's, and so is each outcome; keys are the model's."""
    name, plan = run.config.nodes[link.plan.target].name, link.plan
    told = [line for line in lines if line[2] == "start" and line[5] == name]
    started = [(int(line[0]), line[3], int(line[4])) for line in told]
    waiting, found, place = [], [], 0
    for entry in link.log:
        if entry.time > last:
            break
        identity, length = f"{run.config.nodes[entry.packet.identity[0]].name}#{entry.packet.identity[1]}", shims.length(entry.packet)
        if entry.word == "started":
            if place >= len(started) or started[place] != (entry.time, identity, length):
                break
            place += 1
            [first] = [it for it in waiting if it[0].packet is entry.packet][:1] or [None]
            waiting = [it for it in waiting if it is not first]
            if first is None or first[1] is not None and entry.time > first[1]:
                found.append(f"link {plan.number}: {identity} starts at {entry.time}, and was to start by {first and first[1]}")
        else:
            waiting.append((entry, bound(plan, waiting, entry)))
    found += [f"link {plan.number}: {it.packet.identity} still waits after {by}" for it, by in waiting if by is not None and by < last]
    return found


def bound(plan, waiting, entry):
    """When a packet that is queued has started at the latest, or None for a legacy packet."""
    if entry.kind == "legacy":
        return None
    same = [it for it, _ in waiting if (it.kind, it.keys) == (entry.kind, entry.keys)]
    size = sum(shims.length(it.packet) for it in same + [entry])
    longest = longest_request_wait if entry.kind == "request" else longest_regular_wait
    return entry.time + longest(plan, size)


def ahead(queues, quantum, waiting):
    """The bytes that go up to the last of the bytes that wait in one queue, and with it."""
    turns = (waiting + quantum - 1) // quantum
    return (queues - 1) * (turns * quantum + PACKET_MOST) + waiting


def longest_request_wait(plan, waiting):
    if plan.request_levels == 2:
        waiting = ahead(plan.request_inner, plan.quantum, waiting)
    waiting = ahead(plan.request_queues, plan.quantum, waiting)
    return (waiting + 2 * PACKET_MOST) * plan.share * plan.ns_per_byte


def longest_regular_wait(plan, waiting):
    before = ahead(plan.regular_queues, plan.quantum, waiting) + PACKET_MOST + plan.burst
    time = before * plan.ns_per_byte * plan.share
    return (time + plan.share - 2) // (plan.share - 1)
