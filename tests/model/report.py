"""The lines of a report."""
from collections import Counter

from . import run
from .shims import length

CAUSES_THAT_COUNT_NOT = (None, "malformed")


def identity(config, packet):
    node, number = packet.identity
    return f"{config.nodes[node].name}#{number}"


def back_word(back):
    if back is None:
        return "-"
    return "notice" if back.rights is None else "grant"


def range_words(delivered):
    return [] if delivered is None else [f"data:{delivered.transfer}:{delivered.first}:{delivered.bytes}"]


def reply_word(config, happened):
    reply = happened.reply
    if reply is None:
        return "-"
    words = [identity(config, reply.packet), length(reply.packet), reply.shape, back_word(happened.receipt.answer), reply.outcome]
    return "/".join(map(str, words))


def told(config, happened):
    """The words of an event behind its time and node."""
    if isinstance(happened, run.Ticked):
        return ["tick"]
    name = identity(config, happened.packet)
    size = length(happened.packet)
    match happened:
        case run.Arrived(link=number, kind=kind, cause=cause, outcome=outcome):
            source = "trace" if number is None else config.nodes[config.links[number].source].name
            return ["in", name, size, source, kind, cause or "-", outcome]
        case run.Sent(shape=shape, outcome=outcome):
            return ["send", name, size, shape, outcome]
        case run.Received(link=number, receipt=receipt):
            source = config.nodes[config.links[number].source].name
            words = ["recv", name, size, source, receipt.what, receipt.back, reply_word(config, happened)]
            return words + range_words(receipt.delivered)
        case run.Started(link=number, kind=kind, end=end):
            return ["start", name, size, config.nodes[config.links[number].target].name, kind, end]


def line(config, happened):
    words = [happened.time, config.nodes[happened.node].name] + told(config, happened)
    return " ".join(map(str, words)) + "\n"


def sums(happened):
    """What one event adds to the last line."""
    match happened:
        case run.Arrived(cause=cause, charge=charge, outcome=outcome):
            demoted = cause not in CAUSES_THAT_COUNT_NOT
            return {"routed": 1, "authorised": charge is not None, "demoted": demoted, "dropped": is_dropped(outcome)}
        case run.Sent(outcome=outcome):
            return {"dropped": is_dropped(outcome)}
        case run.Received(packet=packet, receipt=receipt, reply=reply):
            payload = 0 if receipt.what == "stray" else packet.payload
            return {"received": 1, "bytes": payload, "dropped": reply is not None and is_dropped(reply.outcome)}
        case run.Started():
            return {"started": 1}
        case run.Ticked():
            return {}


def is_dropped(outcome):
    return outcome.startswith("dropped:")


def total(events):
    counts = Counter(events=len(events))
    for happened in events:
        counts.update(sums(happened))
    words = ["events", "routed", "authorised", "demoted", "dropped", "started", "received", "bytes"]
    return "total " + " ".join(f"{word}={int(counts[word])}" for word in words) + "\n"
