"""The runs of a folder: how their files come to be whole, what made them, and all their numbers as CSV.

A run has NAME.json, by make.py, with what was made, and NAME.numbers, by `one`, with what it came to and, under `of`,
what made it: the digest of the program, that of the scripts, the words, the commit, and the versions of Python and of
this file's form. A folder's `runs.csv` has a row for each run, and its `means.csv` one for each number of the runs that
differ in their seed alone: its mean, and the interval that has the true one with 95 % by Student's t. Neither says when
or where a run was made, so the same runs give the same bytes.
"""
import contextlib
import csv
import glob
import hashlib
import io
import json
import math
import os
import platform
import signal
import subprocess
import sys

FORM = 1  # of NAME.numbers: another one is made anew
STOPPED = 130

HERE = os.path.dirname(os.path.abspath(__file__))
# what a run's numbers depend on beside its words and the program
SCRIPTS = ["make.py", "one", "reports.py", "transfers.py", os.path.join("..", "topologies.py")]
# what a run's numbers are called in runs.csv, where users transfer files and where they send packets
PACKETS = ["sent", "own_legacy", "marked", "dropped", "arrived", "as_regular", "as_renewal", "as_request", "as_legacy", "as_demoted"]
TRANSFERS = ["begun", "finished"]
DERIVED = ["delay_ns", "late_ns", "mean_time_ns", "late_time_ns"]
NUMBERS = [*PACKETS, *TRANSFERS, *DERIVED]


# ## files that are whole or aren't there, and scripts that end at once


@contextlib.contextmanager
def whole_file(path, stays=False):
    """A text file to be written, which gets its name when it is whole. With `stays` it keeps its `.part`."""
    part = path + ".part"
    try:
        with open(part, "w", encoding="utf-8", newline="") as file:
            yield file
        if not stays:
            os.replace(part, path)
    except BaseException:
        remove(part)
        raise


def remove(*paths):
    for path in paths:
        with contextlib.suppress(FileNotFoundError):
            os.remove(path)


class Stopped(BaseException):
    """The script was asked to end."""


def stop(number, frame):
    # a second signal is not to break off what the first one begins
    for each in (signal.SIGINT, signal.SIGTERM):
        signal.signal(each, signal.SIG_IGN)
    raise Stopped


def heed_signals():
    for each in (signal.SIGINT, signal.SIGTERM):
        signal.signal(each, stop)


def stoppable(name, main):
    """Runs a script that ends with one line and status 130 when it is interrupted or told to end."""
    heed_signals()
    try:
        sys.exit(main())
    except Stopped:
        print(f"{name}: stopped", file=sys.stderr)
        sys.exit(STOPPED)


# ## what made a run


def digest_of(*paths):
    told = hashlib.sha256()
    for path in paths:
        with open(path, "rb") as file:
            told.update(file.read())
    return told.hexdigest()


def commit():
    """The commit of this repository, with `+` behind it where files differ from it, or `unknown`."""
    words = ["git", "-C", HERE, "describe", "--always", "--abbrev=40", "--exclude=*", "--dirty=+"]
    try:
        done = subprocess.run(words, stdin=subprocess.DEVNULL, capture_output=True, text=True, env={**os.environ, "GIT_OPTIONAL_LOCKS": "0"})
    except OSError:
        return "unknown"
    return done.stdout.strip() if done.returncode == 0 else "unknown"


def makers(program):
    """What two runs have in common that were made in the same way, whatever their words."""
    scripts = digest_of(*(os.path.join(HERE, script) for script in SCRIPTS))
    return {"program": digest_of(program), "scripts": scripts, "form": FORM}


def record(program, words):
    """What made a run."""
    return {**makers(program), "words": words, "commit": commit(), "python": platform.python_version()}


def otherwise(numbers, wanted):
    """In what the maker of a run differs from the wanted one: nothing, or a word for it."""
    of = numbers.get("of") or {}
    said = {"program": "by another program", "scripts": "by other scripts", "form": "in another form", "words": "of other words"}
    return next((text for key, text in said.items() if of.get(key) != wanted[key]), None)


def names_in(folder):
    """The names of the runs in a folder, done or not."""
    if not os.path.isdir(folder):
        return set()
    stems = {kind: {os.path.splitext(name)[0] for name in os.listdir(folder) if name.endswith(kind)} for kind in (".json", ".toml", ".numbers")}
    return stems[".json"] & stems[".toml"] | stems[".numbers"]


def loaded(path):
    """What stands in a file of JSON, or None where that is none."""
    try:
        with open(path, encoding="utf-8") as file:
            return json.load(file)
    except (OSError, ValueError):
        return None


# ## numbers as CSV


def mean(numbers):
    return math.fsum(numbers) / len(numbers)


def within(t, freedom):
    """How likely Student's t of so many degrees of freedom lies between -t and t, by the finite sums for whole ones."""
    angle = math.atan(t / math.sqrt(freedom))
    sine, square = math.sin(angle), math.cos(angle) ** 2
    odd = freedom % 2
    term = math.cos(angle) if odd else 1.0
    total = 0.0
    for place in range(2 + odd, freedom + 1, 2):
        total += term
        term *= square * (place - 1) / place
    return 2 / math.pi * (angle + sine * total) if odd else sine * total


def student(freedom):
    """The t between whose negative and which 95 of 100 lie."""
    low, high = 0.0, 20.0
    for _ in range(100):
        middle = (low + high) / 2
        low, high = (middle, high) if within(middle, freedom) < 0.95 else (low, middle)
    return high


def interval(numbers):
    """The mean of some numbers, and from where to where the true one lies with 95 %: None without a second number."""
    middle = mean(numbers)
    if len(numbers) < 2:
        return middle, None, None
    variance = math.fsum((number - middle) ** 2 for number in numbers) / (len(numbers) - 1)
    half = student(len(numbers) - 1) * math.sqrt(variance / len(numbers))
    return middle, middle - half, middle + half


def row_of(made, numbers):
    """The row of a run, by the names of its fields."""
    from reports import quantile  # which takes other things from here

    row = {"series": made["series"], "flood": made["flood"], "defence": "with" if made["defence"] else "without", "rate": f"{made['rate']:g}", "seed": made["seed"]}
    row["words"] = " ".join(made.get("words", []))
    row["program"] = (numbers.get("of") or {}).get("program", "")
    row.update({name: numbers[name] for name in (*PACKETS, *TRANSFERS) if name in numbers})
    times = numbers.get("times")
    if times:
        row.update(mean_time_ns=round(mean(times)), late_time_ns=quantile(times, 95))
    for name in ("delay", "late"):
        if numbers.get(name) is not None:
            row[name + "_ns"] = numbers[name]
    return row


KEYS = ["series", "flood", "defence", "rate"]


def rows_in(folder):
    """The rows of all runs of a folder whose numbers are there, in order."""
    rows = []
    for path in glob.glob(os.path.join(glob.escape(folder), "*.numbers")):
        made, numbers = loaded(path[: -len("numbers")] + "json"), loaded(path)
        if made and numbers:
            rows.append(row_of(made, numbers))
    return sorted(rows, key=lambda row: (row["series"], float(row["rate"]), row["seed"]))


def means_of(rows):
    """The rows of means.csv."""
    groups = {}
    for row in rows:
        groups.setdefault(tuple(row[key] for key in KEYS), []).append(row)
    for key, group in groups.items():
        for name in NUMBERS:
            those = [row[name] for row in group if name in row]
            if those:
                told = ["" if it is None else f"{it:.10g}" for it in interval(those)]
                yield dict(zip([*KEYS, "number", "seeds", "mean", "low", "high"], [*key, name, len(those), *told]))


def as_csv(header, rows):
    text = io.StringIO()
    writer = csv.DictWriter(text, header, restval="", lineterminator="\n")
    writer.writeheader()
    writer.writerows(rows)
    return text.getvalue()


def write_tables(folder):
    """Writes runs.csv and means.csv of the runs of a folder into it."""
    rows = rows_in(folder)
    with whole_file(os.path.join(folder, "runs.csv")) as file:
        file.write(as_csv([*KEYS, "seed", "words", "program", *NUMBERS], rows))
    with whole_file(os.path.join(folder, "means.csv")) as file:
        file.write(as_csv([*KEYS, "number", "seeds", "mean", "low", "high"], means_of(rows)))
