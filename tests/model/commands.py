"""The words of the command line: what is written, with which status, and what is said on standard error."""
import sys
from typing import NamedTuple

from . import audit as audits
from . import configuration, generator, report, run, shims, texts, trace

CONFIG_MOST, TRACE_MOST, REPORT_MOST = 1 << 20, 1 << 26, 1 << 30
SEED_MOST, COUNT_MOST, SHIM_MOST = (1 << 64) - 1, 500_000, 400
USAGE = "usage: tva replay CONFIG TRACE, check CONFIG, shim HEX, gen SEED COUNT CONFIG, audit CONFIG TRACE REPORT"
DONE, FOUND, WRONG_WORDS, READ_FAULT, WRITE_FAULT, TOO_LARGE, BAD_CONFIG, BAD_TRACE, EVENT_LIMIT, BAD_REPORT = 0, 1, 2, 3, 4, 5, 6, 7, 8, 10


class Answer(NamedTuple):
    """What is written stands piece by piece: a replay writes a piece for each window in which something happens, and
    one for the last line. The run is for those who look at it afterwards: there is one where a replay came so far, and
    where a report was compared."""

    status: int
    written: tuple = ()
    said: str = ""
    run: object = None


class Refused(Exception):
    """A status with its text."""

    def __init__(self, status, said):
        super().__init__(said)
        self.status, self.said = status, said


def load(name, most):
    """The bytes of a file."""
    try:
        with open(name, "rb") as file:
            data = file.read(most + 1)
    except (OSError, ValueError):
        raise Refused(READ_FAULT, "read fault") from None
    if is_too_large(data, most):
        raise Refused(TOO_LARGE, f"too large: {most + 1}")
    return data


def is_too_large(data, most):
    return len(data) > most


def read_config(name):
    try:
        return configuration.read(load(name, CONFIG_MOST))
    except configuration.Fault as fault:
        raise Refused(BAD_CONFIG, f"bad config: {fault}") from None


def read_trace(name, config):
    try:
        return trace.read(load(name, TRACE_MOST), config)
    except trace.Fault as fault:
        raise Refused(BAD_TRACE, f"bad trace: {fault}") from None


# ## commands


def replay(config_name, trace_name):
    config = read_config(config_name)
    rows = read_trace(trace_name, config)
    return replay_of(config, rows)


def replay_of(config, rows):
    running, written, events, most = run.Run(config, rows), (), [], config.top.most_events
    for window in run.windows(running):
        if are_too_many(len(events) + len(window), most):
            return Answer(EVENT_LIMIT, written, f"more than {most} events", running)
        events += window
        written += ("".join(report.line(config, it) for it in window).encode(),) if window else ()
    return Answer(DONE, written + (report.total(events).encode(),), "", running)


def are_too_many(count, most):
    return count > most


def audit(config_name, trace_name, report_name):
    config = read_config(config_name)
    rows = read_trace(trace_name, config)
    text = load(report_name, REPORT_MOST)
    return audit_of(replay_of(config, rows), text)


def audit_of(replayed, text):
    """The audit of a text as the report of what was replayed."""
    refused = next((it for it in refusals(replayed, text) if it is not None), None)
    return refused or Answer(DONE, (sums_of(replayed.run, text).encode(),), "", replayed.run)


def refusals(replayed, text):
    """What may be wrong with it, in the order in which it is told."""
    yield bad_line(text)
    yield replayed._replace(written=()) if replayed.status == EVENT_LIMIT else None
    yield difference(replayed, text)


def bad_line(text):
    number = audits.first_bad(text)
    return number and Answer(BAD_REPORT, (), f"bad report: line {number}")


def difference(replayed, text):
    number = audits.first_difference(audits.lines(b"".join(replayed.written)), audits.lines(text))
    return number and Answer(FOUND, (), f"found: line {number}", replayed.run)


def sums_of(running, text):
    """A line for each router, and how many lines the report has."""
    told = [audits.line(node.plan, node.charges) for node in running.nodes[: len(running.config.routers)]]
    return "".join(told) + f"report ok lines={len(audits.lines(text))}\n"


def check(name):
    return done(configuration.words(read_config(name)))


def shim(digits):
    data = meant(texts.hexadecimal(digits.encode()))
    meant(data if texts.has_at_most(data, SHIM_MOST) else None)
    return done(shims.words(data) + "\n")


def gen(seed, count, name):
    seed = meant(texts.decimal(seed.encode(), SEED_MOST))
    count = meant(texts.decimal(count.encode(), COUNT_MOST))
    return done(generator.generate(seed, count, read_config(name)))


def done(text):
    return Answer(DONE, (text.encode(),))


def meant(value):
    if value is None:
        raise Refused(WRONG_WORDS, USAGE)
    return value


COMMANDS = {"replay": (replay, 2), "check": (check, 1), "shim": (shim, 1), "gen": (gen, 3), "audit": (audit, 3)}


def answer(words):
    """What the words come to."""
    command, count = COMMANDS.get(words[0], (None, 0)) if words else (None, 0)
    if command is None or len(words) != 1 + count:
        return Answer(WRONG_WORDS, (), USAGE)
    try:
        return command(*words[1:])
    except Refused as refused:
        return Answer(refused.status, (), refused.said)


def main(words):
    given = answer(words)
    try:
        sys.stdout.buffer.write(b"".join(given.written))
        sys.stdout.buffer.flush()
    except OSError:
        given = Answer(WRITE_FAULT, said="write fault")
    if given.said:
        print(given.said, file=sys.stderr)
    return given.status
