"""Traces of a seed. The words are those of PCG, XSH RR 64/32."""
MASK = (1 << 64) - 1
FACTOR = 6_364_136_223_846_793_005
STREAM = 1
HEADER = "time,node,kind,src,dst,payload,shim\n"


class Words:
    """Numbers of 32 bits, one after another."""

    def __init__(self, seed):
        self.step_by = STREAM << 1 | 1
        self.state = (seed + self.step_by) & MASK
        self.step()

    def step(self):
        self.state = (self.state * FACTOR + self.step_by) & MASK

    def next(self):
        state = self.state
        self.step()
        word, turn = ((state >> 18 ^ state) >> 27) & 0xFFFFFFFF, state >> 59
        return (word >> turn | word << (-turn & 31)) & 0xFFFFFFFF


def dotted(address):
    return ".".join(map(str, address.to_bytes(4, "big")))


def generate(seed, count, config):
    """The text of a trace."""
    words, time, lines = Words(seed), 0, [HEADER]
    for _ in range(count if config.hosts else 0):
        a, b, c, e = [words.next() for _ in range(4)]
        time = min(time + a % 100_000, config.top.horizon)
        host, peer = [config.hosts[word % len(config.hosts)] for word in (b, c)]
        to, payload = dotted(peer.address), e % 1_001
        if e // 65_536 % 8 == 0:
            lines.append(f"{time},{host.name},raw,{dotted(host.address)},{to},{payload},100600\n")
        else:
            lines.append(f"{time},{host.name},send,,{to},{payload},\n")
    return "".join(lines)
