"""What the scripts of tests share: the words that they read, and the program that they run. That is the one that a word
or the variable TVA names, or that of crates/tva/out, which is proved and built first where it isn't there."""
import argparse
import os
import shutil
import subprocess
import sys

TOP = os.path.dirname(os.path.dirname(os.path.abspath(__file__)))
CRATE = os.path.join(TOP, "crates", "tva")
PROVED = os.path.join(CRATE, "out", "tva")
sys.path.append(os.path.join(TOP, "examples"))

from words import Words, refuse  # noqa: E402, F401


def words_of(name, text):
    """The words of a script. `--help` and `-h` print its docstring, and a wrong word ends it with status 2."""
    words = Words(name, text, usage=argparse.SUPPRESS)
    words.add_argument("words", nargs="*", help=argparse.SUPPRESS)
    return words.parse_args().words


def words_and_folder(name, text):
    """The same, and the folder that `--csv` names, or None. A folder that isn't there ends the script."""
    words = Words(name, text, usage=argparse.SUPPRESS)
    words.add_argument("words", nargs="*", help=argparse.SUPPRESS)
    words.add_argument("--csv", help=argparse.SUPPRESS)
    given = words.parse_args()
    if given.csv and not os.path.isdir(given.csv):
        refuse(f"there is no folder {given.csv}", name)
    return given.words, given.csv and os.path.abspath(given.csv)


def unknown(word, parts):
    return f"there is no {word}" + (f": there are {' '.join(parts)}" if len(parts) < 40 else "")


def program_and_parts(name, text, parts):
    """The words of a script that name another program, or None, and parts of it. A second program ends the script."""
    words = words_of(name, text)
    others = [word for word in words if word not in parts]
    if len(others) > 1:
        refuse(unknown(others[1], parts), name)
    return (others or [None])[0], [word for word in words if word in parts]


def parts_of(name, text, parts):
    """The words of a script that name parts of it. Another one ends the script."""
    words = words_of(name, text)
    for word in words:
        if word not in parts:
            refuse(unknown(word, parts), name)
    return words


def program(name, given=None):
    """The path of the program. `given` names another one, as TVA does. Ends the script `name` where there is none."""
    wanted = given or os.environ.get("TVA")
    if wanted:
        path = shutil.which(wanted)
        if path is None:
            refuse(f"there is no program {wanted}", name)
        return os.path.abspath(path)
    if not os.path.exists(PROVED):
        print(f"{name}: proves and builds the program first", file=sys.stderr)
        if shutil.which("rt"):
            subprocess.run(["rt", "run", "--", "shim", "100600"], cwd=CRATE, stdin=subprocess.DEVNULL, stdout=subprocess.DEVNULL)
    if not os.path.exists(PROVED):
        refuse("there is no program: `rt run` in crates/tva builds it, or the variable TVA names one", name)
    return PROVED
