"""Reads a trace: its rows, or the first broken rule of its first bad record."""
import re
from collections import Counter
from typing import NamedTuple

from . import hashes, shims, texts
from .transfers import File

HEADER = b"time,node,kind,src,dst,payload,shim".split(b",")
ROWS_MOST = 1_000_000
PAYLOAD_MOST = 1_600
SEGMENT_MOST, SIZE_MOST, FILES_MOST = 1_500, 100_000_000, 65_536
SHIM_MOST = 400
SECOND_MOST = 2_000_000
MARK = b"\xef\xbb\xbf"

# a field, which is quoted where it begins with a quote, and what ends it
FIELD = re.compile(rb'(?:"((?:[^"]|"")*)(?:"|\Z))?([^,\r\n]*)(,|\r|\n|\Z)')
LINE_ENDS = re.compile(rb"[\r\n]*")


class Fault(Exception):
    """`record R: RULE`."""

    def __init__(self, record, rule):
        super().__init__(f"record {record}: {rule}")


class Row(NamedTuple):
    """What happens at a node: a host sends where `carried` is SEND, begins a transfer where it is a file, and repeats a
    segment where it is TICK; else a packet that carries this is injected."""

    time: int
    node: int
    flow: shims.Flow
    payload: int
    carried: object


SEND, TICK = "send", "tick"
INJECTED, OWN = [b"raw", b"list", b"renew", b"nonce"], [b"send", b"file", b"tick"]
PAYLOADS = {b"file": (1, SEGMENT_MOST), b"tick": (0, 0)}


class Before:
    """What counts of the rows before: the time of the last, and the number of files of each node."""

    def __init__(self):
        self.last, self.files = 0, Counter()

    def note(self, row):
        self.last = row.time
        if isinstance(row.carried, File):
            self.files[row.node] += 1


def records(data):
    """The records of the text, as lists of fields. Without quotes they are lines, and their fields have no commas."""
    data = data.removeprefix(MARK)
    if b'"' not in data:
        yield from (line.split(b",") for line in re.split(rb"[\r\n]+", data) if line)
        return
    place, fields = LINE_ENDS.match(data).end(), []
    while place < len(data) or fields:
        found = FIELD.match(data, place)
        quoted, rest, end = found.groups()
        fields.append(rest if quoted is None else quoted.replace(b'""', b'"') + rest)
        place = found.end()
        if end != b",":
            yield fields
            place, fields = LINE_ENDS.match(data, place).end(), []


def read(data, config):
    """The rows of a text. Raises its first fault."""
    rows, number, before = [], 0, Before()
    names = [node.name.encode() for node in config.nodes]
    for number, fields in enumerate(records(data), 1):
        if number == 1:
            check(fields == HEADER, 1, "header")
        else:
            rows.append(read_row(config, names, number, fields, before))
            before.note(rows[-1])
    check(number, 1, "header")
    return rows


def check(holds, record, rule):
    if not holds:
        raise Fault(record, rule)


def is_kind(config, kind, node, before):
    """Whether a node may have a row of a kind behind those before."""
    is_own = kind in OWN and node >= len(config.routers)
    return kind in INJECTED or is_own and (kind != b"file" or has_place(before, node))


def has_place(before, node):
    """Whether a host may have a file more."""
    return before.files[node] < FILES_MOST


def is_in_order(time, before):
    return time >= before.last


def payload_of(kind, text):
    """The payload of a row: at a file the bytes of a segment."""
    least, most = PAYLOADS.get(kind, (0, PAYLOAD_MOST))
    payload = texts.decimal(text, most)
    return payload if payload is not None and payload >= least else None


def is_row(record):
    """Whether there may be a record of that number. The first one is the header."""
    return record <= ROWS_MOST + 1


def read_row(config, names, record, fields, before):
    check(is_row(record), record, "rows")
    check(len(fields) == len(HEADER), record, "fields")
    time, node, kind, source, destination, payload, shim = fields
    time = texts.decimal(time, config.top.horizon)
    check(time is not None, record, "time")
    check(is_in_order(time, before), record, "order")
    check(node in names, record, "node")
    node = names.index(node)
    check(is_kind(config, kind, node, before), record, "kind")
    check(source == b"" or kind not in OWN, record, "src")
    source = config.nodes[node].address if kind in OWN else texts.address(source)
    check(source is not None, record, "src")
    destination = texts.address(destination)
    check(destination is not None, record, "dst")
    flow = shims.Flow(source, destination)
    payload = payload_of(kind, payload)
    check(payload is not None, record, "payload")
    try:
        carried = read_file(shim, flow, payload) if kind == b"file" else READERS[kind](shim, config, flow)
        return Row(time, node, flow, payload, carried)
    except ValueError:
        raise Fault(record, "shim") from None


# ## shims: each reader gives what a row carries, or raises ValueError


def meant(value):
    if value is None:
        raise ValueError
    return value


def read_nothing(word):
    def read(text, _config, _flow):
        return meant(word if text == b"" else None)

    return read


def read_file(text, flow, segment):
    size = meant(texts.decimal(text, SIZE_MOST))
    return File(flow.destination, meant(size or None), segment)


def read_raw(text, _config, _flow):
    data = meant(texts.hexadecimal(text))
    if not texts.has_at_most(data, SHIM_MOST):
        raise ValueError
    return (shims.read_shim(data) or shims.Malformed(len(data))) if data else None


def read_nonce(text):
    return int.from_bytes(meant(texts.hexadecimal(text, 6)), "big")


def read_nonce_packet(text, _config, _flow):
    return shims.Shim(1, "nonce", nonce=read_nonce(text))


def read_list(text, config, flow):
    nonce, units, seconds, pointer, items = text.split(b"/", 4)
    units = meant(texts.decimal(units, shims.units_most(2)))
    rights = shims.Rights(units, meant(texts.decimal(seconds, shims.seconds_most(2))))
    items = items.split(b";") if items else []
    if not shims.is_list(items):
        raise ValueError
    return shims.Shim(
        shims.version_of(rights),
        "list",
        nonce=read_nonce(nonce),
        pointer=meant(texts.decimal(pointer, len(items))),
        rights=rights,
        capabilities=tuple(read_item(item, config, flow, rights) for item in items),
    )


def read_renewal(text, config, flow):
    return read_list(text, config, flow)._replace(kind="renewal")


def read_item(item, config, flow, rights):
    """A capability of sixteen digits, or the one that a router gives in a second."""
    if b"@" not in item:
        return meant(texts.hexadecimal(item, 8))
    name, second = item.split(b"@")
    routers = [router for router in config.routers if router.name.encode() == name]
    second = meant(texts.decimal(second, SECOND_MOST))
    master = meant(routers[0] if routers else None).master
    return hashes.capability(hashes.precapability(master, flow, second), rights)


READERS = {
    b"raw": read_raw,
    b"list": read_list,
    b"renew": read_renewal,
    b"nonce": read_nonce_packet,
    b"send": read_nothing(SEND),
    b"tick": read_nothing(TICK),
}
