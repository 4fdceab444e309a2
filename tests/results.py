"""How scripts keep what they measured: of which commit, when and where it was, and the rows of a file of results/."""
import csv
import datetime
import os
import subprocess

TOP = os.path.dirname(os.path.dirname(os.path.abspath(__file__)))
FOLDER = os.path.join(TOP, "results")
# what runs write, so that it may differ from the last commit
WRITTEN = ("results", "tests/edits/tried.txt", "tests/times.csv")


def git(*words, folder=TOP):
    return subprocess.run(["git", *words], cwd=folder, check=True, capture_output=True).stdout


def commit(folder=TOP):
    """The last commit, in eight digits, of the repository that a folder is in."""
    return git("rev-parse", "--short=8", "HEAD", folder=folder).decode().strip()


def differs(but=WRITTEN):
    """Whether files differ from the last commit, or are new, but for these and what git ignores."""
    return bool(git("status", "--porcelain", "--", ".", *(f":!{path}" for path in but)).strip())


def machine():
    """How many processors there are, and which."""
    with open("/proc/cpuinfo", encoding="utf-8", errors="replace") as file:
        names = [line.partition(":")[2].strip() for line in file if line.startswith("model name")]
    return f"{os.cpu_count()} of {names[0] if names else 'a processor'}"


def where(is_own=True):
    """The first fields of a row: the commit, which isn't known of a program that somebody names; the date; the machine; and
    how many processes ran in the mean of the last minute."""
    of = (commit() + " with changes" * differs()) if is_own else "-"
    return {"commit": of, "date": datetime.date.today().isoformat(), "machine": machine(), "load": f"{os.getloadavg()[0]:.1f}"}


def rows_of(path):
    """The rows of a file, or none where there is no file."""
    if not os.path.exists(path):
        return []
    with open(path, newline="", encoding="utf-8") as file:
        return list(csv.DictReader(file))


def write(path, head, rows):
    """Writes a file of rows; a field that a row hasn't stays empty."""
    with open(path + ".new", "w", newline="", encoding="utf-8") as file:
        table = csv.DictWriter(file, head, lineterminator="\n")
        table.writeheader()
        table.writerows(rows)
    os.replace(path + ".new", path)


def put(path, head, rows, key):
    """Puts rows into a file: each in the place of that which is the same in these fields, or behind all."""
    found = {tuple(row[field] for field in key): row for row in rows_of(path)}
    write(path, head, (found | {tuple(row[field] for field in key): row for row in rows}).values())
