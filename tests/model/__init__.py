"""A second model of the program, in plain Python with the standard library alone.

It is written from docs/MODEL.md and docs/FORMATS.md, and shares no line with the program. It keeps whole lists of
what happened and sums over them, and takes one time after another; so it is slow, and easy to follow.

- texts: numbers, addresses and digits
- shims: what is sent, its bytes and its words
- hashes: secrets, pre-capabilities, capabilities, and their check
- toml, configuration, trace: the readers, with the first fault
- router: what changes in time, charges, verdicts, and what becomes of an arrival
- link: fair queues, request credit, and what a link starts next
- host: senders, policies and receipts
- transfers: files that hosts send in segments, and what is delivered of them
- run: the nodes of a network, time after time
- report: the lines
- audit: the lines of a report that is audited, and what routers let through
- generator: traces of a seed
- commands: the words of the command line

What comes to be is added where it belongs: a command to `commands`, a table of a configuration to `configuration`, a
kind of row to `trace`, and what changes at a router in time to its plan in force in `router`.
`tests/fuzz readings` replaces functions of the model by name, one at a time.
"""
