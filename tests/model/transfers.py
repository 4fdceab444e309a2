"""File transfers at a host: the files that it sends, which acknowledgements it took, and what it delivered."""
from typing import NamedTuple

from .shims import Ack, Data


class File(NamedTuple):
    """A file that a host sends: to whom, its bytes, and those of a segment."""

    destination: int
    size: int
    segment: int


class Delivered(NamedTuple):
    """A range that was delivered, of whose file."""

    source: int
    data: Data


# ## what is said of the lists of a host


def acknowledged(taken, number):
    """How much of a file its receiver has, as far as its sender was told."""
    return max([ack.next for ack in taken if ack.transfer == number], default=0)


def is_done(file, taken, number):
    return acknowledged(taken, number) >= file.size


def segment(file, taken, number):
    """The next segment of a file."""
    first = acknowledged(taken, number)
    return Data(number, first, min(file.segment, file.size - first))


def due(files, taken, destination):
    """The number of the transfer that a tick goes on with, or None."""
    numbers = [number for number, file in enumerate(files) if file.destination == destination]
    return min([number for number in numbers if not is_done(files[number], taken, number)], default=None)


def received(delivered, source, number):
    """How much was delivered of a file."""
    return sum(it.data.bytes for it in delivered if (it.source, it.data.transfer) == (source, number))


def is_next(data, delivered, source):
    """Whether a range that comes is the next one of its file."""
    return data.first == received(delivered, source, data.transfer)


def tells(ack, files, taken, source):
    """Whether an acknowledgement is for a file to its source, and tells of more than those before."""
    is_own = ack.transfer < len(files) and files[ack.transfer].destination == source
    return is_own and ack.next > acknowledged(taken, ack.transfer)


# ## the transfers


class Transfers:
    """The files of a host by their numbers, the acknowledgements that it took, and the ranges that it delivered."""

    def __init__(self):
        self.files, self.taken, self.delivered = [], [], []

    def start(self, file):
        """The first segment of a file."""
        self.files.append(file)
        return self.segment(len(self.files) - 1)

    def segment(self, number):
        return segment(self.files[number], self.taken, number)

    def repeat(self, destination):
        """What a tick sends, or None."""
        number = due(self.files, self.taken, destination)
        return None if number is None else self.segment(number)

    def receive(self, source, upper):
        """The range that is delivered of an upper part that comes, and the upper part of the answer; each may be None."""
        if isinstance(upper, Data):
            return self.deliver(source, upper)
        return None, self.take(source, upper) if isinstance(upper, Ack) else None

    def deliver(self, source, data):
        delivers = is_next(data, self.delivered, source)
        self.delivered += [Delivered(source, data)] if delivers else []
        return data if delivers else None, Ack(data.transfer, received(self.delivered, source, data.transfer))

    def take(self, source, ack):
        """Takes an acknowledgement that tells something. The answer is the next segment, unless all is done."""
        if not tells(ack, self.files, self.taken, source):
            return None
        self.taken.append(ack)
        number = ack.transfer
        return None if is_done(self.files[number], self.taken, number) else self.segment(number)
