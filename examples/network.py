#!/usr/bin/env python3
"""Prints the configuration of a network of three routers and two hosts, in which a router restarts and a way changes.

    examples/network.py > network.toml
"""
from topologies import Network

MILLISECOND, SECOND = 1_000_000, 1_000_000_000

network = Network(horizon_ns=3 * SECOND)
for name in ("R1", "R2", "R3"):
    network.router(name, slots=16)
network.host("A", "10.0.1.1", policy="client")
network.host("B", "10.0.3.1", policy="server")
network.join("A", "R1", there=dict(tag=1), ns_per_byte=80, delay_ns=MILLISECOND)
network.join("B", "R3", there=dict(tag=2), ns_per_byte=80, delay_ns=MILLISECOND)
network.join("R1", "R3", ns_per_byte=800, delay_ns=5 * MILLISECOND)
network.join("R1", "R2", ns_per_byte=800, delay_ns=10 * MILLISECOND)
network.join("R2", "R3", ns_per_byte=800, delay_ns=10 * MILLISECOND)
network.find_routes()
network.restart("R3", at_ns=SECOND)
network.reroute("R1", at_ns=SECOND, prefix="10.0.3.1/32", via="R2")
print(network.text(), end="")
