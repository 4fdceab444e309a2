"""Wrong readings of audits: of the lines of a report, of the order of refusals, and of what routers let through."""
from model import audit, commands

from .readings import reading

# the functions of the model that readings call
right_refusals, right_pieces = commands.refusals, audit.pieces
right_sums, right_line = audit.sums, audit.line


def found_in(lines, others):
    """A difference of two lists of lines, where there is one."""
    number = audit.first_difference(lines, others)
    return number and commands.Answer(commands.FOUND, (), f"found: line {number}")


def expected(replayed):
    return audit.lines(b"".join(replayed.written))


# ## what is told first


@reading("limit-behind", "a difference in what was written before the event limit is told, and not the limit", commands, "refusals")
def _(replayed, text):
    bad, passed, differs = right_refusals(replayed, text)
    yield bad
    yield found_in(expected(replayed), audit.lines(text)[: len(expected(replayed))])
    yield passed
    yield differs


@reading("limit-before", "the event limit is told before a bad line", commands, "refusals")
def _(replayed, text):
    bad, passed, differs = right_refusals(replayed, text)
    yield from (passed, bad, differs)


@reading("bad-behind", "a bad line behind a difference isn't told", commands, "refusals")
def _(replayed, text):
    bad, passed, differs = right_refusals(replayed, text)
    front = audit.first_bad(text) and audit.first_bad(text) - 1
    yield found_in(expected(replayed)[:front], audit.lines(text)[:front]) if bad and not passed else None
    yield from (bad, passed, differs)


# ## lines


@reading("last-line", "a last line without its line feed is taken", audit, "first_bad")
def _(text):
    told = text if not text or text.endswith(b"\n") else text + b"\n"
    return next((number for number, it in enumerate(right_pieces(told), 1) if not audit.is_line(it)), None)


@reading("empty-line", "an empty line is a line", audit, "is_line")
def _(piece):
    return piece == b"\n" or piece.endswith(b"\n") and bool(audit.LINE.fullmatch(piece.removesuffix(b"\n")))


@reading("line-most", "the 255 bytes of a line count its line feed", audit, "is_line")
def _(piece):
    return piece.endswith(b"\n") and len(piece) <= 255 and bool(audit.LINE.fullmatch(piece.removesuffix(b"\n")))


@reading("tilde", "the last byte of a line may be any above the blank", audit, "is_line")
def _(piece):
    line = piece.removesuffix(b"\n")
    return piece.endswith(b"\n") and 1 <= len(line) <= 255 and all(byte >= 32 for byte in line)


@reading("total-alone", "the last lines alone are compared", audit, "first_difference")
def _(lines, others):
    return None if lines[-1:] == others[-1:] else max(1, len(others))


@reading("front", "a report that is whole and goes on is that of the run", audit, "first_difference")
def _(lines, others):
    return next((number for number, line in enumerate(lines, 1) if others[number - 1 : number] != [line]), None)


# ## what routers let through


@reading("later-of-equals", "among equal grants the last one is the worst", audit, "is_worse")
def _(one, other):
    return one.bytes * audit.limit(other.grant) >= other.bytes * audit.limit(one.grant)


@reading("sums-alone", "the worst grant is that with the greatest sum", audit, "is_worse")
def _(one, other):
    return one.bytes > other.bytes


@reading("whole-parts", "parts of limits are compared by their thousandths", audit, "is_worse")
def _(one, other):
    return one.bytes * 1_000 // audit.limit(one.grant) > other.bytes * 1_000 // audit.limit(other.grant)


@reading("all-boots", "the charges of a grant are summed over all boots", audit, "boot")
def _(plan, now):
    return 0


@reading("grants-of-boots", "a grant that is charged in two boots counts once", audit, "line")
def _(plan, charges):
    told = right_sums(plan, charges)
    words = right_line(plan, charges).split(" ")
    words[1] = f"grants={len({it.grant for it in told})}"
    return " ".join(words)


@reading("by-flow", "what a flow lets through is summed, whatever its grants", audit, "sums")
def _(plan, charges):
    told = {}
    for it in right_sums(plan, charges):
        told.setdefault((it.boot, it.grant.flow), []).append(it)
    return [its[0]._replace(bytes=sum(it.bytes for it in its)) for its in told.values()]


@reading("newest-boot", "the charges of the last boot alone count", audit, "sums")
def _(plan, charges):
    told = right_sums(plan, charges)
    return [it for it in told if it.boot == told[-1].boot]


@reading("as-reached", "among equal grants the worst is the one that came to its sum first", audit, "sums")
def _(plan, charges):
    last = {(audit.boot(plan, it.time), it.grant): place for place, it in enumerate(charges)}
    return sorted(right_sums(plan, charges), key=lambda it: last[it.boot, it.grant])
