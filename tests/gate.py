"""What the scripts about the gate read: the crates and who stands on whom, their edits, and the table of what each
takes, tests/times.csv."""
import csv
import os
import re

TOP = os.path.dirname(os.path.dirname(os.path.abspath(__file__)))
APART = os.path.join(TOP, "tests", "edits")
TIMES = os.path.join(TOP, "tests", "times.csv")
# what a check of a crate reads
PARTS = ("src", "specs", "proofs")
NAME = re.compile(r"[A-Za-z0-9_-][A-Za-z0-9_.-]*\.edit")
# what the toolchain takes for a test
TEST = r"#\s*\[[^]]*\btest\b"


def read(path):
    with open(path, encoding="utf-8") as file:
        return file.read()


# ## crates


def crates_in(text):
    """The crates of a text of crates.txt, in its order, each with those of them that it names behind the colon."""
    lines = [line.partition(":") for line in text.split("\n") if re.match(r"[a-z0-9_]+ *:", line)]
    names = [name.strip() for name, _, _ in lines]
    return {name: [it for it in below.split() if it in names] for name, (_, _, below) in zip(names, lines)}


def crates():
    return crates_in(read(os.path.join(TOP, "crates.txt")))


def with_those_below(every, names):
    found, left = set(), list(names)
    while left:
        name = left.pop()
        if name not in found:
            found.add(name)
            left += every[name]
    return [name for name in every if name in found]


def with_those_above(every, names):
    return [name for name in every if set(names) & set(with_those_below(every, [name]))]


def has_tests(crate):
    for at, _, names in os.walk(os.path.join(TOP, "crates", crate, "src")):
        if any(re.search(TEST, read(os.path.join(at, name))) for name in names if name.endswith(".rt")):
            return True
    return False


# ## edits


class Unfit(Exception):
    """Says why an edit can't be applied."""


def edits_in(folder):
    found = os.listdir(folder) if os.path.isdir(folder) else []
    return {name[: -len(".edit")]: os.path.join(folder, name) for name in sorted(found) if name.endswith(".edit")}


def edits_of_gate(crate):
    """The paths of the edits that the gate tries, by their names."""
    return edits_in(os.path.join(TOP, "crates", crate, "must-fail"))


def edits_apart(crate):
    """The paths of those that are tried where the crate changed."""
    return edits_in(os.path.join(APART, crate))


def edited(edit, crate):
    """The texts of the files that an edit changes, by their paths in the crate, as the toolchain reads an edit."""
    path, old, texts, were = None, None, {}, {}
    for line in read(edit).split("\n"):
        if line.startswith("file: "):
            path = line[len("file: ") :].strip()
            if os.path.normpath(path) != path or path.split("/")[0] not in PARTS:
                raise Unfit(f"{path} is no file of src, specs or proofs")
        elif line.startswith("old: "):
            if old is not None:
                raise Unfit(f"no new text stands behind: {old}")
            old = line[len("old: ") :]
        elif line.startswith("new:"):
            if not path or not old:
                raise Unfit("a new text stands before a file or an old text")
            if path not in texts:
                file = os.path.join(TOP, "crates", crate, path)
                if not os.path.isfile(file):
                    raise Unfit(f"there is no file {path}")
                texts[path] = were[path] = read(file)
            times = texts[path].count(old)
            if times != 1:
                raise Unfit(f"an old text stands {times} times in {path}: {old.strip()}")
            texts[path], old = texts[path].replace(old, line[len("new:") :].removeprefix(" ")), None
        elif line.strip() and not line.startswith(("#", "--", "//")):
            raise Unfit(f"a line is neither file, old nor new: {line.strip()}")
    if old is not None:
        raise Unfit(f"no new text stands behind: {old}")
    if texts == were:
        raise Unfit("it changes nothing")
    return texts


# ## the table

COLUMNS = ("crate", "library", "tests", "ends", "seconds", "edits", "own_ends", "own_seconds", "own_edits", "run", "own_run")


class Row:
    """A crate's line of the table: processor seconds, numbers of edits, and the runs that they were measured in. None is what wasn't."""

    def __init__(self, crate, cells=None):
        self.crate = crate
        for name in COLUMNS[1:]:
            text = (cells or {}).get(name) or ""
            if text and not re.fullmatch(r"\d+", text):
                raise ValueError(f"{crate}: {name} is {text!r}")
            setattr(self, name, int(text) if text else None)

    def cells(self):
        return [self.crate, *("" if getattr(self, name) is None else getattr(self, name) for name in COLUMNS[1:])]


class Times:
    """The table: the lines of its head, of which each `# run N: ` says what one run was, and its rows by crate."""

    def __init__(self, path=TIMES):
        self.path, self.runs, self.rows = path, {}, {}
        if os.path.exists(path):
            lines = read(path).split("\n")
            heads = (re.fullmatch(r"# run (\d+): (.*)", line) for line in lines)
            self.runs = {int(it[1]): it[2] for it in heads if it}
            for cells in csv.DictReader(line for line in lines if line and not line.startswith("#")):
                self.rows[cells["crate"]] = Row(cells["crate"], cells)

    def add_run(self, text):
        number = max(self.runs, default=0) + 1
        self.runs[number] = text
        return number

    def write(self):
        """Writes the table, with its rows in the order of crates.txt, and the runs that some row is from."""
        rows = [self.rows[name] for name in crates() if name in self.rows]
        used = {it for row in rows for it in (row.run, row.own_run)}
        kept = [number for number in sorted(self.runs) if number in used]
        new = {number: at for at, number in enumerate(kept, 1)}
        with open(self.path, "w", encoding="utf-8", newline="") as file:
            file.write(HEAD + "".join(f"# run {new[number]}: {self.runs[number]}\n" for number in kept))
            table = csv.writer(file, lineterminator="\n")
            table.writerow(COLUMNS)
            for row in rows:
                row.run, row.own_run = new.get(row.run), new.get(row.own_run)
                table.writerow(row.cells())
        self.runs = {new[number]: self.runs[number] for number in kept}


HEAD = """\
# What each crate takes at the gate, in processor seconds, as tests/gate-times measures it: its library; its tests; its
# edits of must-fail (the crate as it stands, checked before and after them; the edits; their number); and its edits of
# tests/edits (the same three). What is empty wasn't measured, or there is none. The last two columns have the numbers
# of the runs that a row is from.
"""
