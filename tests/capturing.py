"""What tests/captures makes: networks, packets, captures and shims; and how it reads captures."""
import collections
import random
import struct

import topologies

HEADER = "time,node,kind,src,dst,payload,shim"
HORIZON = 100_000_000_000
ETHERNET, RAW, SLL, IPV4, SLL2 = 1, 101, 113, 228, 276
ENDS = {"dst": "02:00:00:00:00:01", "src": "02:00:00:00:00:02"}

# a packet of a capture: the name of its link, its time in nanoseconds since 1970, its bytes and its comment
Seen = collections.namedtuple("Seen", "link time data comment")


# ## networks and packets


def network(**keys):
    """Three hosts at a router, each with a prefix, and a second router that nothing leads to."""
    it = topologies.Network(horizon_ns=HORIZON, max_events=100_000, **keys)
    for router in ("R", "S"):
        it.router(router, slots=100)
    for number, name in enumerate("ABC"):
        it.host(name, f"10.0.{number}.1", policy="server")
        it.join(name, "R", ns_per_byte=10, delay_ns=1_000_000)
        it.route("R", f"10.0.{number}.0/24", name)
    return it


class Case:
    """A packet of IPv4, and what becomes of it: the node, the address of the destination's host, or why it is left out."""

    def __init__(self, packet, node="A", target="10.0.1.1", why=None, frame=None):
        self.packet, self.node, self.target, self.why, self.frame = packet, node, target, why, frame

    def row(self, time, raw=False, shim="", as_is=False):
        data = bytes(self.packet)
        source, target = (".".join(map(str, data[at : at + 4])) for at in (12, 16))
        target = target if as_is else self.target
        kind = f"raw,{source}" if raw else "send,"
        return f"{time},{self.node},{kind},{target},{struct.unpack('>H', data[2:4])[0] - 20},{shim}"


def cases(it):
    """Packets that each kind of link can carry."""

    def ip(source="10.0.0.1", target="10.0.1.1", size=100, **more):
        return it.IP(src=source, dst=target, **more) / it.UDP(sport=53, dport=53) / it.Raw(bytes(size))

    options = it.IP(src="10.0.0.1", dst="10.0.1.1", options=[it.IPOption_NOP()] * 4)
    error = it.IP(src="10.0.2.1", dst="10.0.0.1") / it.ICMP(type=3, code=1) / ip()
    fragment = lambda flags, place: it.IP(src="10.0.0.1", dst="10.0.1.1", flags=flags, frag=place, proto=17) / it.Raw(bytes(80))
    return [
        Case(ip()),
        Case(ip("10.0.0.77", "10.0.1.99", 0)),
        Case(ip("10.0.1.1", "10.0.2.200"), "B", "10.0.2.1"),
        Case(options / it.UDP()),
        Case(it.IP(src="10.0.0.1", dst="10.0.1.1", proto=200)),
        Case(ip(size=1592)),
        Case(ip(size=1593), why="1,620"),
        Case(ip(size=8972), why="1,620"),
        Case(error, "C", "10.0.0.1"),
        Case(it.IP(src="10.0.0.1", dst="10.0.1.1") / it.IPv6() / it.UDP()),
        Case(it.IP(src="10.0.0.1", dst="10.0.1.1") / it.GRE() / ip("9.9.9.9", "8.8.8.8")),
        Case(it.IPv6() / it.UDP(), why="IPv6"),
        Case(it.IPv6() / ip(), why="IPv6"),
        Case(fragment(0, 0)),
        Case(fragment("MF", 0), why="fragments"),
        Case(fragment(0, 10), why="fragments"),
        Case(ip(source="11.0.0.1"), why="from addresses"),
        Case(ip(target="224.0.0.1"), why="to addresses"),
        Case(ip(target="10.0.0.9"), why="itself"),
        Case(it.Raw(bytes(ip())[:10]), why="cut or none"),
        Case(it.Raw(b"\x44" + bytes(ip())[1:]), why="cut or none"),
    ]


# ## captures and shims


def pcap(packets, link=ETHERNET, order="<", nano=False, magic=None):
    """The bytes of a capture of (time, data) or (time, data, length)."""
    magic = magic or (0xA1B23C4D if nano else 0xA1B2C3D4)
    data = struct.pack(order + "IHHiIII", magic, 2, 4, 0, 0, 262_144, link)
    for time, frame, *length in packets:
        second, rest = divmod(time, 10**9)
        data += struct.pack(order + "IIII", second, rest if nano else rest // 1000, len(frame), *(length or [len(frame)])) + frame
    return data


def block(order, kind, body):
    body += bytes(-len(body) % 4)
    return struct.pack(order + "II", kind, 12 + len(body)) + body + struct.pack(order + "I", 12 + len(body))


def pcapng(packets, links, order="<"):
    """One of packets that go round over interfaces, each of a kind of link, a resolution (ticks a second) and the byte
    that says it; the last packet has no time."""
    data = block(order, 0x0A0D0D0A, struct.pack(order + "IHHq", 0x1A2B3C4D, 1, 0, -1))
    for link, _, resolution in links:
        options = struct.pack(order + "HHB3xHH", 9, 1, resolution, 0, 0) if resolution != 6 else b""
        data += block(order, 1, struct.pack(order + "HHI", link, 0, 0) + options)
    for place, (time, frame) in enumerate(packets):
        ticks = time * links[place % len(links)][1] // 10**9
        head = struct.pack(order + "IIIII", place % len(links), ticks >> 32, ticks & 0xFFFFFFFF, len(frame), len(frame))
        data += block(order, 6, head + frame + bytes(-len(frame) % 4))
    return data


def framed(it, link, packet):
    """A packet as it stands on a kind of link."""
    kind = 0x86DD if bytes(packet)[:1] == b"\x60" else 0x0800
    front = {ETHERNET: it.Ether(**ENDS, type=kind), SLL: it.CookedLinux(proto=kind), SLL2: it.CookedLinuxV2(proto=kind)}.get(link)
    return bytes(packet) if front is None else bytes(front) + bytes(packet)


def random_shims():
    """Shims of every layout and at every limit, and others that are none."""
    lot, found = random.Random(67), []
    for version, kind, back, mark in ((v, k, b, m) for v in (1, 2) for k in range(4) for b in (None, 1, 2) for m in (0, 8)):
        for count in (0, 1, 16) if kind != 2 else (0,):
            most = 1 << (16 if version == 1 else 27)
            rights = lambda: lot.choice([0, most - 1, lot.randrange(most)]).to_bytes(2 * version, "big")
            data = bytes([version << 4 | kind | mark | (4 if back else 0), lot.randrange(256)])
            if kind == 0:
                data += bytes([count]) + lot.randbytes(10 * count)
            else:
                data += lot.randbytes(6) + (b"" if kind == 2 else bytes([count, lot.randint(0, count)]) + rights() + lot.randbytes(8 * count))
            if back:
                granted = lot.choice([0, 1, 2, 16])
                data += b"\x01" if back == 1 else bytes([2, granted]) + rights() + lot.randbytes(8 * granted)
            found += [data, data[:-1]]
            if count == 1:
                found += [data + b"\0", b"\x30" + data[1:], b"\0" + data[1:]]
    found += [bytes.fromhex(it) for it in ("", "10", "1006", "100611" + "00" * 170, "11060000000000010001000000", "11060000000000010102002a" + "00" * 8)]
    found += [bytes.fromhex(it) for it in ("1406000300", "140600", "1406000211" + "0000" + "00" * 136, "21060000000000010000" + "08000000", "21060000000000010000" + "07ffffff", "24060002" + "00" + "08000000")]
    return found + [lot.randbytes(400), bytes(3), bytes(400)]


# ## read


def meet(what, text):
    """Raises what a capture doesn't meet."""
    if not what:
        raise ValueError(text)


def read_pcapng(data):
    """The names of a capture's links, and its packets."""
    names, packets, place = [], [], 0
    while place < len(data):
        kind, size = struct.unpack_from("<II", data, place)
        body, end = data[place + 8 : place + size - 4], data[place + size - 4 : place + size]
        meet(end == struct.pack("<I", size) and size % 4 == 0, "a block doesn't end with its size")
        place += size
        if kind == 1:
            options = read_options(body[8:])
            meet(body[:2] == struct.pack("<H", IPV4) and options[9] == b"\x09", "an interface isn't of IPv4 and nanoseconds")
            names.append(options[2].decode())
        elif kind == 6:
            number, high, low, kept, length = struct.unpack_from("<IIIII", body)
            meet(kept == length, "a packet isn't kept whole")
            options = read_options(body[20 + kept + -kept % 4 :])
            packets.append(Seen(names[number], high << 32 | low, body[20 : 20 + kept], options[1].decode()))
    return names, packets


def read_options(data):
    found, place = {}, 0
    while True:
        code, size = struct.unpack_from("<HH", data, place)
        if code == 0:
            meet(size == 0 and len(data) == place + 4, "options don't end with their end")
            return found
        found[code] = data[place + 4 : place + 4 + size]
        place += 4 + size + -size % 4


def shim_of(packet):
    return packet.data[20 : 20 + int.from_bytes(packet.data[4:6], "big")]
