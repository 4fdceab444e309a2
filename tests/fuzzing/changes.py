"""What changes in random networks: restarts of routers, and other links of routes."""
from . import networks
from .networks import MASTERS, SECOND, chance, front

TIMES = [0, 0, 1, 1_000, 10**6, 10**6, 3 * 10**8, SECOND - 1, SECOND, SECOND, 2 * SECOND, 3 * SECOND, 5 * SECOND]
LATE = [20 * SECOND, 130 * SECOND, 10**15 - 1, 10**15]
COUNTS = [1, 1, 1, 1, 2, 2, 3]


def time(rng, seen):
    """A time: one at which something happens, or next to it; soon, later, or never."""
    if seen and chance(rng, 0.7):
        told = rng.choice(seen) + rng.choice([0, 0, 0, 0, 1, -1])
    elif chance(rng, 0.1):
        told = rng.choice(LATE)
    else:
        told = rng.choice(TIMES) + rng.choice([0, 0, 0, 1, rng.randrange(SECOND)])
    return min(max(told, 0), 10**15)


def times(rng, seen):
    """Times that rise: one or a few, or many close to each other."""
    if chance(rng, 0.06):
        begin, step = time(rng, seen), rng.choice([1, 1, 1_000, 10**6, 10**8])
        return [it for it in range(begin, begin + rng.choice([20, 100]) * step, step) if it <= 10**15]
    return sorted({time(rng, seen) for _ in range(rng.choice(COUNTS))})


def together(rng, lists):
    """All elements, those of each list in their order: list after list, or by turns."""
    if chance(rng, 0.4):
        return [it for told in lists for it in told]
    turns = [place for place, told in enumerate(lists) for _ in told]
    rng.shuffle(turns)
    rest = [list(told) for told in lists]
    return [rest[place].pop(0) for place in turns]


def restarts(rng, network, seen):
    told = []
    for it in network.router:
        if chance(rng, 0.6):
            masters = [it["master"]] * 4 + MASTERS
            own = times(rng, seen.get(it["name"]))
            told.append([{"router": it["name"], "at_ns": at, "master": rng.choice(masters)} for at in own])
    return together(rng, told)


def reroutes(rng, network, seen):
    told = []
    for it in network.route:
        near = [link["to"] for link in network.link if link["from"] == it["router"]]
        if chance(rng, 0.5):
            told.append([reroute(rng, it, at, near) for at in times(rng, seen.get(it["router"]))])
    return together(rng, told)


def reroute(rng, route, at, near):
    return {"router": route["router"], "at_ns": at, "prefix": rewritten(rng, route["prefix"]), "via": rng.choice(near)}


def rewritten(rng, prefix):
    """The same prefix, now and then with other bits behind its length."""
    address, bits = prefix.split("/")
    others = [f"{address[: address.rindex('.')]}.{end}/{bits}" for end in (0, 1, 9, 77, 255)]
    others = [it for it in others if front(it) == front(prefix)]
    return rng.choice(others) if others and chance(rng, 0.2) else prefix


def put(rng, network, seen):
    """Puts changes into a network, in place of those that it has. `seen` has by name of a router times at which something
    happens there."""
    network.restart = restarts(rng, network, seen) if chance(rng, 0.75) else []
    network.reroute = reroutes(rng, network, seen) if chance(rng, 0.75) else []


# ## what is in force


def come(entries, name, now):
    """The entries of a router that have come by a time."""
    return [it for it in entries if it["router"] == name and it["at_ns"] <= now]


def master(network, name, now):
    """The master of a router that is in force at a time."""
    [first] = [it["master"] for it in network.router if it["name"] == name]
    return ([first] + [it["master"] for it in come(network.restart, name, now)])[-1]


def ways(network, name, now):
    """The routes of a router at a time: what counts of each prefix, and the next node."""
    told = {front(it["prefix"]): it["via"] for it in network.route if it["router"] == name}
    return told | {front(it["prefix"]): it["via"] for it in come(network.reroute, name, now)}


def all_times(network):
    return [it["at_ns"] for it in network.restart + network.reroute]
