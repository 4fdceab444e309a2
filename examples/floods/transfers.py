"""Users who transfer files again and again: their rows, and what a report says of their transfers.

A user begins a file each ten seconds, each to another address of the server, so that each begins with a request and
none gets in the way of the next. A tick comes each second until the next file begins, and has something to send where
the transfer stands still. A transfer finishes where its last byte is delivered before the user's next one would begin;
its time goes from its beginning to that delivery.
"""
import os
import random
import sys

SECOND = 1_000_000_000
MILLISECOND = 1_000_000

FILE = 20_000  # bytes
SEGMENT = 1_000
FILES = 4  # of each user
FIRST = 10 * SECOND  # the first files begin then, or up to WITHIN later: by then attackers have what grants they get
WITHIN = 200 * MILLISECOND
EVERY = 10 * SECOND
TICK = 1_000  # milliseconds
DELAY = 2.5  # milliseconds of a link
UNTIL = FIRST + WITHIN + FILES * EVERY
NEVER = 10**13  # nanoseconds: no host asks again in so short a run


def begins(it, number):
    """When the number-th user begins each of its files."""
    first = FIRST + int(random.Random(f"{it.seed} user {number}").random() * WITHIN)
    if it.honest_at:
        first = it.honest_at.of(it.seed, "honest", number)
    return [first + place * EVERY for place in range(FILES)]


def place_at(time):
    """Which of their files users transfer at a time, counted from 0."""
    return min(max(0, time - FIRST) // EVERY, FILES - 1)


def rows(it, number, servers):
    """The rows of a user: (time, row). Without the defence each asks each server once, in vain, and never again."""
    for server in servers if it.without else []:
        yield 0, f"0,H{number},send,,{server},0,"
    for begin, server in zip(begins(it, number), servers):
        yield begin, f"{begin},H{number},file,,{server},{SEGMENT},{FILE}"
        for at in range(begin + it.tick * MILLISECOND, begin + EVERY, it.tick * MILLISECOND):
            yield at, f"{at},H{number},tick,,{server},0,"


def rows_most(it):
    """So many rows have all users for one."""
    return FILES * (2 + EVERY // (it.tick * MILLISECOND))


def numbers_of(lines, made):
    """How many transfers were begun, and of those that finish the times in nanoseconds, by the lines of a report."""
    told, times = made["transfers"], []
    for line in lines:
        if " data:" not in line:
            continue
        words = line.split()
        number, first, length = map(int, words[-1].split(":")[1:])
        if first + length == told["bytes"]:
            time = int(words[0]) - told["begin_ns"][words[3].partition("#")[0]][number]
            times += [time] if time < told["limit_ns"] else []
    return {"begun": sum(map(len, told["begin_ns"].values())), "finished": len(times), "times": sorted(times)}


if __name__ == "__main__":
    sys.path.append(os.path.dirname(os.path.dirname(os.path.abspath(__file__))))
    from words import Words, refuse

    Words("transfers.py", __doc__).parse_args()
    refuse("it is make.py --transfers that makes transfers")
