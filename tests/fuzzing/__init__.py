"""What `tests/fuzz` is made of: random networks, what changes in them, and traces, their faults, plain sums over reports,
the making small of what differs, the table of what came, and wrong readings of the model."""
