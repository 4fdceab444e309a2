"""How edits of the repository's own files are tried, which a check must find: what tests/wrong-scripts/run and
tests/wrong-code/run share. An edit has a line `check: COMMAND`, maybe a line `says: TEXT`, a line `file: PATH`, and
`old: TEXT`, which stands there once and becomes `new: TEXT`."""
import glob
import os
import re
import shlex
import shutil
import tempfile

from bounded import bounded
from program import TOP, parts_of, refuse

SECONDS = 900
FORM = re.compile(
    r"check: (?P<check>.+)\n(?:says: (?P<says>.+)\n)?file: (?P<file>\S+)\nold: (?P<old>.*(?:\n(?!new: ).*)*)\nnew: (?P<new>(?:.|\n)*)\n\Z"
)


def edit(path, script):
    """The edit of a file, by its words."""
    with open(path, encoding="utf-8") as file:
        found = FORM.match(file.read())
    return found.groupdict() if found else refuse(f"{os.path.basename(path)} hasn't the form of an edit", script)


def every(folder, script):
    """The edits of a folder of tests, by their names."""
    paths = sorted(glob.glob(os.path.join(TOP, "tests", folder, "*.edit")))
    return {os.path.basename(path)[: -len(".edit")]: edit(path, script) for path in paths}


def chosen(folder, script, text):
    """The edits of a folder of tests that the words of the script name, or all."""
    edits = every(folder, script)
    return {name: edits[name] for name in parts_of(script, text, edits) or edits}


def copied(folder):
    """Copies the repository to a folder, but for what was built."""
    room = os.path.join(folder, "copy")
    shutil.copytree(TOP, room, symlinks=True, ignore=shutil.ignore_patterns("out", ".git", "__pycache__"))
    return room


def tried(check, room):
    """How a check ends in the copy, None where it gives no answer in time, and what it says."""
    return bounded(shlex.split(check), SECONDS, cwd=room, env=dict(os.environ, PYTHONDONTWRITEBYTECODE="1"))


def ends(check, status, said):
    if status is None:
        return f"not found (no answer in {SECONDS} seconds of `{check}`): {said[-2_000:]}"
    return f"`{check}` ends with {status}: {said[-2_000:]}"


def unfit(its, room=TOP):
    """Why an edit can't be applied, in words, if it can't."""
    path = os.path.join(room, its["file"])
    if not os.path.exists(path):
        return f"there is no {its['file']}"
    with open(path, encoding="utf-8") as file:
        count = file.read().count(its["old"])
    return None if count == 1 else f"what it edits stands in {its['file']} {count} times"


def missed(its, room):
    """Why an edit isn't found, in words, if it isn't: its check doesn't end with 1, or with a traceback; or, where a text
    is told that it says, it ends with 0 or without that."""
    why = unfit(its, room)
    if why:
        return why
    path = os.path.join(room, its["file"])
    with open(path, encoding="utf-8") as file:
        text = file.read()
    with open(path, "w", encoding="utf-8") as file:
        file.write(text.replace(its["old"], its["new"]))
    status, said = tried(its["check"], room)
    with open(path, "w", encoding="utf-8") as file:
        file.write(text)
    if its["says"] and status and its["says"] in said.splitlines():
        return None
    if not its["says"] and status == 1 and "Traceback (most recent call last)" not in said:
        return None
    return ends(its["check"], status, said)


def try_each(edits, script, what):
    """Tries each check without an edit, which ends with 0, and then each edit. Prints a line for each, and returns 0
    where each is found."""
    wrong = 0
    with tempfile.TemporaryDirectory(prefix="tva-wrong-") as folder:
        room = copied(folder)
        for check in dict.fromkeys(its["check"] for its in edits.values()):
            status, said = tried(check, room)
            if status != 0:
                wrong += 1
                print(f"{script}: without an edit: {ends(check, status, said)}", flush=True)
        for name, its in edits.items():
            why = missed(its, room)
            wrong += why is not None
            print(f"{script}: {name}: {why or 'found'}", flush=True)
    print(f"{script}: {len(edits)} {what}, {wrong} wrong")
    return 1 if wrong or not edits else 0
