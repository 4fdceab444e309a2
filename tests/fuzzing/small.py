"""Makes small what differs: leaves out blocks and lines of files as long as it differs still."""
import itertools


class Tries:
    """So many more tries, and what is asked of a text: whether it still differs."""

    def __init__(self, most):
        self.left, self.differs = most, None

    def ask(self, text):
        if not self.left:
            return False
        self.left -= 1
        return self.differs(text)


def without_stretches(part, told, tries):
    """The pieces without as many stretches of them as may be left out, long ones first."""
    width = max(1, len(told) // 2)
    while width:
        place = 0
        while place < len(told):
            fewer = told[:place] + told[place + width :]
            if tries.ask(part.join(fewer)):
                told = fewer
            else:
                place += width
        width //= 2
    return told


def without_pairs(part, told, tries):
    """The pieces without two of them that can't be left out alone: a host and its link, say."""
    for one, other in itertools.combinations(range(len(told)), 2):
        fewer = told[:one] + told[one + 1 : other] + told[other + 1 :]
        if tries.ask(part.join(fewer)):
            return without_pairs(part, fewer, tries)
    return told


def smaller(text, tries):
    """The text without blocks, which empty lines part, and then without lines."""
    for part in (b"\n\n", b"\n", b"\r"):
        told = text.split(part)
        if len(told) > 1:
            told = without_stretches(part, told, tries)
            text = part.join(without_pairs(part, told, tries) if part == b"\n\n" else told)
    return text


def make_small(files, differs, most=1_000):
    """The files, by name, with as much as may be left out. `differs` tells of files whether they still differ."""
    tries, before = Tries(most), None
    while files != before and tries.left:
        before = dict(files)
        for name in reversed(list(files)):
            tries.differs = lambda text, name=name: differs(files | {name: text})
            files = files | {name: smaller(files[name], tries)}
    return files
