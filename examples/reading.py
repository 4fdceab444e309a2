"""How the scripts of examples read reports and traces, which may be large: part by part, and of what they keep no more
than numbers of eight bytes. What is summed by many keys goes through files without names."""
import array
import bisect
import collections
import csv
import functools
import gc
import heapq
import io
import itertools
import marshal
import os
import shutil
import socket
import struct
import sys
import tempfile

from words import refuse

gc.disable()  # of what is read lists of words are made in great numbers, none of which holds itself

PART = 1 << 16  # bytes that are read at once
LINE_MOST = 255
KEYS_MOST = 10_000  # keys of a table that are held at once


class Known(dict):
    """What a function says of keys. It is asked once for each, as long as they are few."""

    def __init__(self, say):
        self.say = say

    def __missing__(self, key):
        if len(self) == KEYS_MOST:
            self.clear()
        said = self[key] = self.say(key)
        return said


# ## reports


class Report:
    """A report in a file, a pipe or, as `-`, standard input. What can't be read twice is copied to a file without a
    name first. A report without its last line is refused, or with `partial` told of."""

    def __init__(self, path, partial=False):
        self.path, self.before, self.lines = path, 0, []
        try:
            self.file = open(0 if path == "-" else path, "rb", closefd=path != "-")
            if not self.file.seekable() or not os.path.isfile(path):
                copy = tempfile.TemporaryFile()
                shutil.copyfileobj(self.file, copy)
                self.file = copy
        except OSError as fault:
            refuse(f"there is no file {path}" if isinstance(fault, FileNotFoundError) else f"{path}: {fault.strerror.lower()}")
        self.whole = self.last_line().startswith(b"total events=")
        if not self.whole and not partial:
            refuse(f"{path} is no whole report: its last line, with the total, is missing (--partial goes on without it)")

    def last_line(self):
        """The last line, or nothing where it lacks its line feed."""
        size = self.file.seek(0, os.SEEK_END)
        self.file.seek(max(0, size - 2 * LINE_MOST))
        *_, line, rest = [b""] + self.file.read().split(b"\n")
        return line if rest == b"" else b""

    def parts(self):
        """Lists of lines, without the last one of the report and without what follows the last line feed."""
        self.file.seek(0)
        self.before, self.lines, rest = 0, [], b""
        while data := self.file.read(PART):
            data, found, rest = (rest + data).rpartition(b"\n")
            self.before += len(self.lines)
            self.lines = []
            if found:
                self.lines = self.split(data)
                yield self.lines[:-1] if self.whole and not rest and self.lines[-1].startswith("total ") else self.lines
            elif len(rest) > PART:
                self.wrong("", "is no line of a report")
        if not self.whole:
            print(f"{os.path.basename(sys.argv[0])}: {self.path} breaks off behind line {self.before + len(self.lines)}", file=sys.stderr)
            self.whole = True  # that is told once

    def split(self, data):
        """The lines of these bytes. None has what would have to be quoted elsewhere."""
        try:
            text = data.decode("ascii")
        except UnicodeDecodeError as fault:
            self.lines = data[: fault.start].decode("ascii").split("\n")
            self.wrong(self.lines[-1], "is no text of a report")
        if '"' in text or "," in text or "\\" in text:
            self.lines = text.split("\n")
            self.wrong(next(line for line in self.lines if '"' in line or "," in line or "\\" in line), "is no line of a report")
        return text.split("\n")

    def wrong(self, line, text="is no event of a report"):
        """Refuses the report for one of the lines of the part that was read last."""
        number = self.before + (self.lines.index(line) + 1 if line in self.lines else 1)
        shown = f": {line[:60]}" if line.isprintable() and line else ""
        refuse(f"{self.path}: line {number} {text}{shown}")


# ## traces


def number_of(address):
    """The number of an address that is written as four numbers."""
    try:
        return int.from_bytes(socket.inet_pton(socket.AF_INET, address), "big")
    except OSError:
        raise ValueError from None


packed = struct.Struct(">I").pack


def address_of(number):
    return socket.inet_ntoa(packed(number))


def numbers_of(addresses):
    """The numbers of many addresses."""
    try:
        told = array.array("I", b"".join(map(socket.inet_pton, itertools.repeat(socket.AF_INET), addresses)))
    except OSError:
        raise ValueError from None
    if sys.byteorder == "little":
        told.byteswap()
    return told


HEADER = "time,node,kind,src,dst,payload,shim"


def each_row(trace, note, note_all=None):
    """Calls for each row of a trace what `note` gives for its fields behind the time. Most rows are like others but for
    that, and `note` is asked once for them. Where `note_all` is given, it is asked first for many lines at once: it says
    whether it took them."""

    def of_line(rest):
        fields = rest.split(",")
        return note(*fields) if len(fields) == 6 else functools.partial(refuse_row, len(fields) + 1)

    def refuse_row(count):
        refuse(f"{trace}: record {number} has {count} fields")

    calls, number = Known(of_line), 1
    try:
        with open(trace, newline="", encoding="utf-8-sig") as file:
            text = file.readline()
            begun = text == HEADER + "\n"
            if begun:
                # a record is a line, as long as nothing is quoted
                while (text := file.read(PART) + file.readline()) and '"' not in text and "\r" not in text:
                    lines = list(filter(None, text.split("\n")))
                    if note_all and note_all(lines):
                        number += len(lines)
                        continue
                    for number, line in enumerate(lines, number + 1):
                        calls[line.partition(",")[2]]()
            records = (fields for fields in csv.reader(itertools.chain(io.StringIO(text, newline=""), file)) if fields)
            if not begun and next(records, None) != HEADER.split(","):
                refuse(f"{trace} is no trace: it has another header")
            for number, fields in enumerate(records, number + 1):
                if len(fields) != 7:
                    refuse_row(len(fields))
                note(*fields[1:])()
    except FileNotFoundError:
        refuse(f"there is no file {trace}")
    except (OSError, ValueError, csv.Error):
        refuse(f"{trace} is no trace")


FAR = 1 << 32  # what is added to the number of an address, where it stands for a node of which no name is known


def flows_of(trace):
    """For each node the source and the destination of each of its rows, in their order: FAR and the number of an address,
    or 0 where the row has none. And whether there are ticks."""
    found, kinds, targets = collections.defaultdict(lambda: array.array("Q")), set(), Known(number_of)
    pack = struct.Struct("=QQ").pack

    def note(node, kind, source, destination, _payload, _shim):
        kinds.add(kind)
        try:
            codes = FAR + number_of(source) if source else 0, FAR + targets[destination]
        except ValueError:
            refuse(f"{trace} is no trace: {source or destination} is no address")
        return functools.partial(found[node].frombytes, pack(*codes))

    def note_all(lines):
        """The same of many rows, where there is nothing to refuse."""
        rows = [line.split(",") for line in lines]
        if any(len(fields) != 7 for fields in rows):
            return False
        _, nodes, its, sources, destinations, _, _ = zip(*rows)
        try:
            ends = zip(nodes, sources, numbers_of([it or "0.0.0.0" for it in sources]), numbers_of(destinations))
        except ValueError:
            return False
        kinds.update(its)
        for node, source, begin, end in ends:
            told = found[node]
            told.append(FAR + begin if source else 0)
            told.append(FAR + end)
        return True

    each_row(trace, note, note_all)
    return found, "tick" in kinds


# ## sums by keys, in their order


class Table:
    """Records by keys. Where the keys are many, those so far go to a file, and `joined` makes one of the records of a
    key at last. A record is a list of numbers, or an array of them."""

    def __init__(self, fresh, joined):
        self.fresh, self.joined, self.found, self.files = fresh, joined, {}, []

    def of(self, key):
        record = self.found.get(key)
        if record is None:
            if len(self.found) == KEYS_MOST:
                self.spill()
            record = self.found[key] = self.fresh()
        return record

    def spill(self):
        file = tempfile.TemporaryFile()
        for item in sorted(self.found.items(), key=lambda item: item[0]):
            marshal.dump(item, file)
        self.files.append(file)
        self.found = {}

    def items(self):
        """Keys and records by the order of keys. The table is empty afterwards."""
        if not self.files:
            yield from sorted(self.found.items(), key=lambda item: item[0])
        else:
            self.spill()
            merged = heapq.merge(*map(items_of, self.files), key=lambda item: item[0])
            for key, those in itertools.groupby(merged, key=lambda item: item[0]):
                yield key, self.joined([record for _, record in those])
        self.found, self.files = {}, []


def items_of(file):
    file.seek(0)
    while True:
        try:
            yield marshal.load(file)
        except EOFError:
            return


# ## quantiles


def quantiles(numbers, percents):
    """For each of these the least of some numbers that so many percent of them don't exceed. They are exact, and what
    isn't asked for isn't sorted."""
    ranks = [max(1, -(-percent * len(numbers) // 100)) - 1 for percent in percents]
    told = of_ranks(numbers, sorted(set(ranks)))
    return [told[rank] for rank in ranks]


def of_ranks(numbers, ranks):
    """For each of these ranks, which count from 0, the number that has it."""
    if len(numbers) <= PART:
        inorder = sorted(numbers)
        return {rank: inorder[rank] for rank in ranks}
    bounds = sorted({bound for number in numbers[:: len(numbers) // 256] for bound in (number, number + 1)})
    counts = collections.Counter(bisect.bisect_right(bounds, number) for number in numbers)
    told, first = {}, 0
    for place in range(len(bounds) + 1):
        inside = [rank - first for rank in ranks if first <= rank < first + counts[place]]
        least, most = bounds[place - 1] if place else 0, bounds[place] if place < len(bounds) else 1 << 64
        if inside and most - least == 1:
            told.update((rank + first, least) for rank in inside)
        elif inside:
            those = of_ranks(array.array("Q", (number for number in numbers if least <= number < most)), inside)
            told.update((rank + first, number) for rank, number in those.items())
        first += counts[place]
    return told
