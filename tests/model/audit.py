"""Audits: whether a text is the report of a run, and what each router let through in it."""
import io
import itertools
import re
from typing import NamedTuple

from .hashes import Grant
from .router import UNIT, boot

LINE = re.compile(rb"[ -~]{1,255}")
FEED = b"\n"


# ## lines


def pieces(text):
    """A text, cut behind each of its line feeds."""
    return list(io.BytesIO(text))


def lines(text):
    return [piece.removesuffix(FEED) for piece in pieces(text)]


def is_line(piece):
    """Whether it is 1 to 255 bytes from the blank to `~`, and a line feed."""
    return piece.endswith(FEED) and bool(LINE.fullmatch(piece.removesuffix(FEED)))


def first_bad(text):
    """The number of the first line that is none, from 1, or None."""
    return next((number for number, piece in enumerate(pieces(text), 1) if not is_line(piece)), None)


def first_difference(expected, found):
    """The number of the first line in which two lists of lines differ, or which one of them hasn't, or None."""
    pairs = enumerate(itertools.zip_longest(expected, found), 1)
    return next((number for number, (one, other) in pairs if one != other), None)


# ## sums


class Sum(NamedTuple):
    """What a grant let through in a boot."""

    boot: int
    grant: Grant
    bytes: int


def limit(grant):
    return 2 * UNIT * grant.rights.n


def sums(plan, charges):
    """One for each boot and grant with a charge, in the order of their first charges."""
    keys = [(boot(plan, charge.time), charge.grant) for charge in charges]
    sizes = dict.fromkeys(keys, 0)
    for key, charge in zip(keys, charges):
        sizes[key] += charge.length
    return [Sum(*key, size) for key, size in sizes.items()]


def is_worse(one, other):
    """Whether the first is the greater part of its limit, by cross products."""
    return one.bytes * limit(other.grant) > other.bytes * limit(one.grant)


def worst(told):
    """The greatest part of its limit, and among equals the first."""
    found = None
    for one in told:
        if found is None or is_worse(one, found):
            found = one
    return found


def line(plan, charges):
    """What one router let through."""
    told = sums(plan, charges)
    most = worst(told)
    words = [plan.name, f"grants={len(told)}", f"charges={len(charges)}", f"bytes={sum(it.length for it in charges)}"]
    return " ".join(words + [f"worst={most.bytes}/{limit(most.grant)}" if most else "worst=-"]) + "\n"
