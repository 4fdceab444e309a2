"""What is sent: packets, the bytes of their shims, and the words that `shim` writes of them."""
from typing import NamedTuple

HEADER, UPPER_HEADER = 20, 8
CAPABILITIES_MOST = 16
KINDS = ["request", "list", "nonce", "renewal"]
DEMOTED_BIT, BACK_BIT = 8, 4
NOTICE, GRANT = 1, 2
PROTOCOL = 6


class Flow(NamedTuple):
    source: int
    destination: int


class Rights(NamedTuple):
    """`n` units within `t` seconds."""

    n: int
    t: int


class Entry(NamedTuple):
    tag: int
    precapability: bytes


class Back(NamedTuple):
    """Return info: a notice, where it has no rights, or a grant."""

    rights: Rights = None
    capabilities: tuple = ()


class Shim(NamedTuple):
    """A request has entries, a nonce packet a nonce, and a list or a renewal all but entries."""

    version: int
    kind: str
    demoted: bool = False
    protocol: int = PROTOCOL
    entries: tuple = ()
    nonce: int = 0
    pointer: int = 0
    rights: Rights = Rights(0, 0)
    capabilities: tuple = ()
    back: Back = None


class Malformed(NamedTuple):
    """So many bytes that are no layout of a shim."""

    size: int


class Data(NamedTuple):
    """So many bytes of a file, from `first` on. Transfers have numbers at the host that sends the file."""

    transfer: int
    first: int
    bytes: int


class Ack(NamedTuple):
    """An acknowledgement: all of a file before `next` was delivered."""

    transfer: int
    next: int


class Packet(NamedTuple):
    """`carried` is a shim, a malformed one, or None; the identity is the node's number and the packet's there. The upper
    part is data, an acknowledgement, or None, and counts within the payload."""

    identity: tuple
    flow: Flow
    payload: int
    carried: object
    hops: int = 0
    upper: object = None


# ## versions


def rights_bytes(version):
    return 2 if version == 1 else 4


def seconds_bits(version):
    return 6 if version == 1 else 7


def units_most(version):
    return 1_023 if version == 1 else 1_048_575


def seconds_most(version):
    return 63 if version == 1 else 127


def version_of(rights):
    """The least version that can carry the rights."""
    return 1 if rights.n <= units_most(1) and rights.t <= seconds_most(1) else 2


# ## bytes


def length(packet):
    """The bytes of a packet."""
    return HEADER + shim_bytes(packet.carried) + packet.payload


def upper_bytes(upper):
    """The payload of a packet with an upper part, or of one with neither that nor a payload of its own."""
    if upper is None:
        return 0
    return UPPER_HEADER + (upper.bytes if isinstance(upper, Data) else 0)


def shim_bytes(carried):
    if carried is None:
        return 0
    if isinstance(carried, Malformed):
        return carried.size
    listed = 10 + rights_bytes(carried.version) + 8 * len(carried.capabilities)
    own = {"request": 3 + 10 * len(carried.entries), "nonce": 8}.get(carried.kind, listed)
    return own + back_bytes(carried.version, carried.back)


def back_bytes(version, back):
    if back is None:
        return 0
    return 1 if back.rights is None else 2 + rights_bytes(version) + 8 * len(back.capabilities)


def rights_layout(version, rights):
    number = rights.n << seconds_bits(version) | rights.t
    return number.to_bytes(rights_bytes(version), "big")


def back_layout(version, back):
    if back is None:
        return b""
    if back.rights is None:
        return bytes([NOTICE])
    return bytes([GRANT, len(back.capabilities)]) + rights_layout(version, back.rights) + b"".join(back.capabilities)


def kind_layout(shim):
    if shim.kind == "request":
        entries = [entry.tag.to_bytes(2, "big") + entry.precapability for entry in shim.entries]
        return bytes([len(entries)]) + b"".join(entries)
    nonce = shim.nonce.to_bytes(6, "big")
    if shim.kind == "nonce":
        return nonce
    rights = rights_layout(shim.version, shim.rights)
    return nonce + bytes([len(shim.capabilities), shim.pointer]) + rights + b"".join(shim.capabilities)


def layout(shim):
    """The bytes of a shim."""
    bits = KINDS.index(shim.kind)
    bits += DEMOTED_BIT if shim.demoted else 0
    bits += BACK_BIT if shim.back is not None else 0
    return bytes([shim.version << 4 | bits, shim.protocol]) + kind_layout(shim) + back_layout(shim.version, shim.back)


# ## reading


class Reading:
    """Bytes that are taken from the front. Behind the end there are zeros, so that whoever reads needs no care: what
    was read is compared with the bytes afterwards."""

    def __init__(self, data):
        self.data, self.place = data, 0

    def take(self, count):
        taken = self.data[self.place : self.place + count]
        self.place += count
        return taken + bytes(count - len(taken))

    def number(self, count):
        return int.from_bytes(self.take(count), "big")

    def rights(self, version):
        bits = seconds_bits(version)
        number = self.number(rights_bytes(version))
        return Rights(number >> bits, number & (1 << bits) - 1)

    def capabilities(self, count):
        return tuple(self.take(8) for _ in range(count))

    def kind(self, shim):
        if shim.kind == "request":
            return shim._replace(entries=tuple(Entry(self.number(2), self.take(8)) for _ in range(self.number(1))))
        shim = shim._replace(nonce=self.number(6))
        if shim.kind == "nonce":
            return shim
        count, pointer, rights = self.number(1), self.number(1), self.rights(shim.version)
        return shim._replace(pointer=pointer, rights=rights, capabilities=self.capabilities(count))

    def back(self, version):
        if self.number(1) == NOTICE:
            return Back()
        count = self.number(1)
        return Back(self.rights(version), self.capabilities(count))


def read_shim(data):
    """The shim whose layout these bytes are, or None."""
    reading = Reading(data)
    first = reading.number(1)
    version, bits = first >> 4, first & 15
    if version not in (1, 2):
        return None
    shim = Shim(version, KINDS[bits & 3], bool(bits & DEMOTED_BIT), reading.number(1))
    shim = reading.kind(shim)
    if bits & BACK_BIT:
        shim = shim._replace(back=reading.back(version))
    return shim if is_within_limits(shim) and layout(shim) == data else None


def is_within_limits(shim):
    granted = shim.back.capabilities if shim.back else ()
    if not all(map(is_list, (shim.entries, shim.capabilities, granted))):
        return False
    rights = [shim.rights] + ([shim.back.rights] if shim.back and shim.back.rights else [])
    return points_within(shim) and all(it.n <= units_most(shim.version) for it in rights)


def is_list(items):
    """Whether a shim may have as many entries or capabilities."""
    return len(items) <= CAPABILITIES_MOST


def points_within(shim):
    return shim.pointer <= len(shim.capabilities)


# ## words


def list_words(words):
    return ",".join(words) or "-"


def capabilities_words(capabilities):
    return "caps=" + list_words(it.hex() for it in capabilities)


def kind_words(shim):
    if shim.kind == "request":
        return ["entries=" + list_words(f"{it.tag:04x}:{it.precapability.hex()}" for it in shim.entries)]
    words = [f"nonce={shim.nonce:012x}"]
    if shim.kind != "nonce":
        words += [f"pointer={shim.pointer}", f"n={shim.rights.n}", f"t={shim.rights.t}", capabilities_words(shim.capabilities)]
    return words


def back_words(back):
    if back is None:
        return ["return=-"]
    if back.rights is None:
        return ["return=notice"]
    return ["return=grant", f"n={back.rights.n}", f"t={back.rights.t}", capabilities_words(back.capabilities)]


def words(data):
    """What the command `shim` writes of these bytes."""
    shim = read_shim(data)
    if shim is None:
        return "malformed"
    front = [f"v{shim.version}", shim.kind, f"demoted={int(shim.demoted)}", f"protocol={shim.protocol}"]
    return " ".join(front + kind_words(shim) + back_words(shim.back))


# ## classes and keys


def class_of(packet):
    """The class by the shim alone."""
    shim = packet.carried
    if not isinstance(shim, Shim) or shim.demoted:
        return "legacy"
    return "request" if shim.kind == "request" else "regular"


def tags_of(packet):
    """The nonzero tags of a request, from the first router's on."""
    return [entry.tag for entry in packet.carried.entries if entry.tag]


def request_key(packet):
    """The last nonzero tag."""
    return (tags_of(packet) or [0])[-1]


def inner_key(packet):
    """The nonzero tag before the last."""
    return ([0, 0] + tags_of(packet))[-2]


def keys_of(packet, levels):
    """Under which key a packet waits, or under which two."""
    if class_of(packet) == "regular":
        return [packet.flow.destination]
    return [request_key(packet), inner_key(packet)][:levels]
