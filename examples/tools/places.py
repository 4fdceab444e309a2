"""Where the keys of a configuration stand in its text, and what docs/FORMATS.md says of them."""
import collections
import os
import re

TOP = os.path.dirname(os.path.dirname(os.path.dirname(os.path.abspath(__file__))))
TABLES = ("router", "host", "link", "route", "restart", "reroute")

# the forms that FORMATS.md says below its table
ADDRESS = "four numbers from 0 to 255 without leading zeros, joined by dots"
FORMS = {
    "a name as above": "1 to 16 letters, digits, _, -",
    "an address": f"{ADDRESS}, as 10.0.1.1",
    "a prefix": f"{ADDRESS}, then / and 0 to 32, as 10.0.1.0/24",
    "at most 1,024 addresses": f"at most 1,024 addresses, each {ADDRESS}",
}


class Key(collections.namedtuple("Key", "said later default")):
    """What is said of a key's value, in version 1 and in version 2, and its default."""

    def of(self, version):
        return self.later if version == 2 else self.said


def known_keys():
    """For each table its keys, with what docs/FORMATS.md says of their values and defaults."""
    found, inside = collections.defaultdict(dict), False
    with open(os.path.join(TOP, "docs", "FORMATS.md"), encoding="utf-8") as file:
        for line in file:
            inside = line.startswith("| Where | Key |") or inside and line.startswith("|")
            cells = [cell.strip() for cell in line.strip().strip("|").split("|")]
            if not inside or len(cells) != 4 or cells[0] not in ("top", *TABLES):
                continue
            names = re.findall(r"`(\w+)`", cells[1])
            said, _, later = cells[2].replace("`", "").partition(". Where version is 2, ")
            for place, name in enumerate(names):
                own, own_later = (FORMS.get(it, it) for it in (of(place, names, said), of(place, names, later or said)))
                found[cells[0]][name] = Key(own, own_later, of(place, names, cells[3].replace("`", "")) or None)
    return found


def of(place, names, said):
    """What is said of one of some keys that share a row: each its own part, or all of it."""
    for mark in ("; ", ", "):
        if len(parts := said.split(mark)) == len(names):
            return parts[place]
    return said


# ## the text: a walk over TOML that keeps where tables and keys begin


class Places:
    """For each (table, entry) where it begins, and for each (table, entry, key) where its key stands: places are
    numbers of characters. The walk stops where the text is no TOML."""

    def __init__(self, text):
        self.text, self.at = text, 0
        self.entries, self.keys, self.counts = {("top", 0): 0}, {}, collections.Counter()
        try:
            self.walk()
        except (IndexError, AttributeError):
            pass

    def line(self, place):
        return self.text.count("\n", 0, place) + 1

    def line_text(self, place):
        begin, end = self.text.rfind("\n", 0, place) + 1, self.text.find("\n", place)
        return self.text[begin : end if end >= 0 else None].strip()

    def of(self, table, entry, key=None):
        """The place of a key, or else of its entry, or else of the text."""
        return self.keys.get((table, entry, key), self.entries.get((table, entry), 0))

    def keys_of(self, table, entry):
        return [key for one, other, key in self.keys if (one, other) == (table, entry)]

    # the walk

    def skip(self, lines=True):
        """Past blanks and comments, and ends of lines where told."""
        self.at = re.compile(r"(?:[ \t\r]|\n|#[^\n]*)*" if lines else r"[ \t\r]*").match(self.text, self.at).end()

    def word(self):
        """A key, bare, quoted or dotted."""
        found = re.compile(r"""(?:"(?:[^"\\\n]|\\.)*"|'[^'\n]*'|[\w-]+)(?:[ \t]*\.[ \t]*(?:"[^"\n]*"|'[^'\n]*'|[\w-]+))*""").match(self.text, self.at)
        self.at = found.end()
        return found.group().strip("\"'")

    def walk(self):
        here = ("top", 0)
        self.skip()
        while self.at < len(self.text):
            if self.text[self.at] == "[":
                header = re.compile(r"\[\[?[ \t]*([^\]\n]*?)[ \t]*\]\]?").match(self.text, self.at)
                here = self.begin(header.group(1).strip("\"'"), self.at)
                self.at = header.end()
            else:
                place, key = self.at, self.word()
                self.keys[(*here, key)] = place
                self.skip(lines=False)
                self.at += 1  # the equals sign
                self.skip(lines=False)
                self.value(key if here == ("top", 0) else None)
            self.skip()

    def begin(self, table, place):
        here = (table, self.counts[table])
        self.counts[table] += 1
        self.entries[here] = place
        return here

    def value(self, table=None, here=None):
        """Past a value. Tables in the array of a key of the top are entries, and their keys are kept."""
        opening = self.text[self.at]
        if opening == "[":
            self.at += 1
            self.skip()
            while self.text[self.at] != "]":
                self.value(here=self.begin(table, self.at) if table in TABLES and self.text[self.at] == "{" else None)
                self.skip()
                self.at += self.text[self.at] == ","
                self.skip()
            self.at += 1
        elif opening == "{":
            self.at += 1
            self.skip()
            while self.text[self.at] != "}":
                place, key = self.at, self.word()
                if here:
                    self.keys[(*here, key)] = place
                self.skip(lines=False)
                self.at += 1
                self.skip(lines=False)
                self.value()
                self.skip()
                self.at += self.text[self.at] == ","
                self.skip()
            self.at += 1
        else:
            plain = r'''"""(?:[^\\]|\\.)*?"""|\'\'\'.*?\'\'\'|"(?:[^"\\\n]|\\.)*"|'[^'\n]*'|[^,\]}\n#]+'''
            self.at = re.compile(plain, re.S).match(self.text, self.at).end()
