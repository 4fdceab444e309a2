"""Random networks with rows, those that change in time among them, and their files."""
from model import configuration, trace
from model import run as runs

from . import changes, networks, traces
from .networks import chance


def network_and_rows(rng):
    """A network with rows. Of some the routers restart and the routes change: at times that the rows know, or at those
    at which something happens in a run without."""
    network = networks.network(rng)
    if chance(rng, 0.3):
        changes.put(rng, network, {})
    rows = traces.rows(rng, network)
    if chance(rng, 0.4 if network.mode == "storm" else 0.2):
        changes.put(rng, network, times_of(rng, network, rows))
    return network, rows


def times_of(rng, network, rows):
    """The times at which something happens in a network, by the name of a node; those at which a request waits for credit
    there come up more often."""
    run = model_run(rng, configuration.read(networks.text_of(rng, network).encode()), rows)
    found = {node.plan.name: [it.time for it in run.happened if it.node == node.number] for node in run.nodes}
    for node in run.nodes:
        own = found[node.plan.name]
        ends = [until for link in node.links.values() for _, _, _, until in traces.waits(node, link)]
        found[node.plan.name] = own + [it for until in ends for it in [time for time in own if time < until][-2:] * 5]
    return found


def model_run(rng, config, rows):
    """A run of the model, as far as events go."""
    running = runs.Run(config, trace.read(traces.text_of(rng, rows).encode(), config))
    for _ in runs.windows(running):
        if len(running.happened) > config.top.most_events:
            break
    return running


def files_of(rng, network, rows):
    return {"config": networks.text_of(rng, network).encode(), "trace": traces.text_of(rng, rows).encode()}
