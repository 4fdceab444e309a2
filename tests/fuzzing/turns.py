"""Wrong readings of what changes in time: of restarts and of reroutes."""
import itertools
from types import SimpleNamespace

from model import configuration, hashes, link, router, run, trace
from .readings import also, reading, right_next, right_work

# the functions of the model that readings call
Run = run.Run
right_router, right_take = run.RouterNode.__init__, run.RouterNode.take
right_charges_of_boot, right_in_force = router.charges_of_boot, router.in_force
right_used, right_living, right_check = router.used, router.living, hashes.check
right_row, right_item = trace.read_row, trace.read_item
right_time, right_reroutes = configuration.check_time, configuration.check_reroutes


# ## both


@reading("change-behind", "a change is in force behind its time, and not from its time on", router, "come")
def _(changes, now):
    return [it for it in changes if it.at_ns < now]


@reading("change-window", "a change begins a window", Run, "next_time")
def _(self):
    nodes = self.nodes[: len(self.config.routers)]
    times = [it.at_ns for node in nodes for it in node.plan.restarts + node.plan.reroutes]
    times = [it for it in times if getattr(self, "worked", -1) < it <= self.config.top.horizon]
    return min([it for it in [right_next(self), *times] if it is not None], default=None)


@also(Run, "work")
def _(self, now):
    self.worked = now
    return right_work(self, now)


# ## restarts


@reading("restart-cache", "a restart keeps the cache", router, "charges_of_boot")
def _(plan, charges, number):
    return charges


@reading("restart-master", "a restart keeps the master", router, "master_in_force")
def _(plan, now):
    return plan.master


@reading("restart-once", "a router restarts once: the master of its first restart stays", router, "master_in_force")
def _(plan, now):
    return (router.come(plan.restarts[:1], now) or [plan])[0].master


@reading("restart-same", "a restart with the master in force changes nothing", router, "boot")
def _(plan, now):
    masters = [plan.master] + [it.master for it in router.come(plan.restarts, now)]
    return len([one for one, other in zip(masters, masters[1:]) if one != other])


@reading("restart-back", "boots with one master are one boot", router, "charges_of_boot")
def _(plan, charges, number):
    masters = [plan.master] + [it.master for it in plan.restarts]
    return [it for it in charges if masters[router.boot(plan, it.time)] == masters[number]]


class Beside(list):
    """The charges of a boot, with those of all boots beside."""

    def __init__(self, charges, every):
        super().__init__(charges)
        self.every = every


def beside(plan, charges, number):
    return Beside(right_charges_of_boot(plan, charges, number), charges)


reading("restart-budget", "the used bytes of a grant outlive a restart", router, "charges_of_boot")(beside)


@also(router, "used")
def _(charges, grant, now):
    return right_used(charges.every, grant, now)


reading("restart-slots", "the flows of earlier boots keep their slots", router, "charges_of_boot")(beside)


@also(router, "living")
def _(charges, now):
    return right_living(charges.every, now)


@reading("restart-of-all", "a restart of one router empties the caches of all", run.RouterNode, "__init__")
def _(self, config, number):
    right_router(self, config, number)
    self.plan.every = [it for plan in config.routers for it in plan.restarts]


@also(router, "boot")
def _(plan, now):
    return len(router.come(plan.every, now))


@reading("restart-due", "of the restarts between two arrivals the first one's master stays", run.RouterNode, "__init__")
def _(self, config, number):
    right_router(self, config, number)
    self.plan.before, self.plan.held = -1, self.plan.master


@also(run.RouterNode, "take")
def _(self, reaching):
    taken = right_take(self, reaching)
    self.plan.before = reaching.time
    return taken


@also(router, "master_in_force")
def _(plan, now):
    due = [it for it in router.come(plan.restarts, now) if it.at_ns > plan.before]
    plan.held = due[0].master if due else plan.held
    return plan.held


@reading("restart-mints", "what is minted is still of the first master", router, "in_force")
def _(plan, now):
    plan_now = right_in_force(plan, now)
    plan_now.first = plan.master
    return plan_now


@also(router, "fresh")
def _(plan, now, flow):
    return hashes.precapability(plan.first, flow, hashes.router_second(plan, now))


@reading("restart-checks", "a capability is checked by the master of its own second", router, "in_force")
def _(plan, now):
    plan_now = right_in_force(plan, now)
    plan_now.built = plan
    return plan_now


@also(hashes, "check")
def _(plan, now, flow, shown, rights):
    built = getattr(plan, "built", plan)
    second = hashes.router_second(built, now) - hashes.age(hashes.router_second(built, now), shown)
    minted = min(now, (second + 1) * hashes.SECOND - 1 - built.clock_offset_ns)
    return right_check(right_in_force(built, minted), now, flow, shown, rights)


@reading("restart-queues", "a restart loses what is queued", run.RouterNode, "take")
def _(self, reaching):
    if is_first_of_boot(self, reaching.time):
        for it in self.links.values():
            it.requests, it.regular, it.legacy = link.Ring(), link.Ring(), link.Line()
    return right_take(self, reaching)


@reading("restart-credit", "a restart gives the whole request credit back", run.RouterNode, "take")
def _(self, reaching):
    if is_first_of_boot(self, reaching.time):
        for it in self.links.values():
            it.started = []
    return right_take(self, reaching)


def is_first_of_boot(node, now):
    """Whether nothing reached a router yet since its last restart."""
    before, node.booted = getattr(node, "booted", 0), router.boot(node.plan, now)
    return node.booted != before


@reading("restart-items", "an item of a row is of the master in force at the row's time", trace, "read_row")
def _(config, names, record, fields, before):
    config.now = int(fields[0]) if fields[0].isdigit() else 0
    return right_row(config, names, record, fields, before)


@also(trace, "read_item")
def _(item, config, flow, rights):
    return read_item_at(item, config, flow, rights, lambda plan, second: config.now)


@reading("restart-seconds", "an item of a row is of the master in force in its second", trace, "read_item")
def _(item, config, flow, rights):
    return read_item_at(item, config, flow, rights, lambda plan, second: second * hashes.SECOND - plan.clock_offset_ns)


def read_item_at(item, config, flow, rights, time_of):
    """An item, of the master in force at a time."""
    right = right_item(item, config, flow, rights)
    if b"@" not in item:
        return right
    name, second = item.split(b"@")
    [plan] = [it for it in config.routers if it.name.encode() == name]
    master = router.master_in_force(plan, time_of(plan, int(second)))
    return hashes.capability(hashes.precapability(master, flow, int(second)), rights)


# ## reroutes


@reading("reroute-never", "routes stay as they are", router, "target_in_force")
def _(plan, route, now):
    return route.target


@reading("reroute-once", "the first change of a prefix stays", router, "target_in_force")
def _(plan, route, now):
    changed = [it.target for it in router.come(plan.reroutes, now) if it.prefix == route.prefix]
    return (changed + [route.target])[0]


@reading("reroute-in-turn", "a change of a route waits for those that stand before it", router, "target_in_force")
def _(plan, route, now):
    come = itertools.takewhile(lambda it: it.at_ns <= now, plan.reroutes)
    return ([route.target] + [it.target for it in come if it.prefix == route.prefix])[-1]


@reading("reroute-within", "a change of a prefix changes the longer ones in it too", router, "target_in_force")
def _(plan, route, now):
    within = [it for it in router.come(plan.reroutes, now) if it.prefix[1] <= route.prefix[1] and router.holds(it.prefix, route.prefix[0])]
    return ([route.target] + [it.target for it in sorted(within, key=lambda it: it.at_ns)])[-1]


@reading("reroute-cache", "a change of a route begins a boot", router, "boot")
def _(plan, now):
    return len(router.come(plan.restarts, now)) + len(router.come(plan.reroutes, now))


# ## faults


@reading("times-over-all", "times of restarts and of reroutes rise over the file", configuration, "check_time")
def _(last, key, told, table, entry):
    return right_time(last, table, told, table, entry)


@reading("times-of-routers", "times of reroutes rise for each router", configuration, "check_time")
def _(last, key, told, table, entry):
    return right_time(last, told.router, told, table, entry)


@reading("times-equal", "two changes may come at one time", configuration, "check_time")
def _(last, key, told, table, entry):
    if last.get(key) != told.at_ns:
        right_time(last, key, told, table, entry)


@reading("prefix-of-any", "a reroute's prefix may be that of another router's route", configuration, "check_reroutes")
def _(routers, links, routes, reroutes):
    every = [SimpleNamespace(router=it.name, prefix=route.prefix) for it in routers for route in routes]
    right_reroutes(routers, links, every, reroutes)
