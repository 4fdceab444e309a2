"""What docs/CLAUSES.md is made from, which tests/documents and tests/reached share.

docs/promises.csv has the promises in words, by crate: each with the calls and clauses that carry it, and their files in
crates/CRATE/src. docs/refusals.csv has what stands after a refusal, with files in crates. A row without clauses is a
paragraph of the page. All else is the code's: which public calls have a contract, the names of its clauses, and what each
call does by the first sentence of its docstring.
"""
import collections
import csv
import os
import re

TOP = os.path.dirname(os.path.dirname(os.path.abspath(__file__)))
PAGE, PROMISES, REFUSALS = "docs/CLAUSES.md", "docs/promises.csv", "docs/refusals.csv"
MARK = "†"
NAMES = re.compile(rf"((?:`[\w:]+`{MARK}?(?:, )?)+)(?:: ((?:`\w+`(?:, )?)+))?")
HEAD = f"""\
# Clauses

`tests/documents clauses` makes this page, from [promises.csv](promises.csv), [refusals.csv](refusals.csv) and the code, and `tests/documents` holds it to them. [PROMISES.md](PROMISES.md) says in short what is promised, and [BELIEVE.md](BELIEVE.md) what its words mean.

Every function is safe and returns, whatever bytes come in. Beyond that, crate by crate, from the program down: the promises in words, each with the calls that carry it and their clauses behind the colon; then each public call that has a contract, with the names of its clauses, and what it does by the first sentence of its docstring. A clause without a name stands alone. A law is a function whose contract is that law. A call marked {MARK} is one that the program doesn't make: others may, and its clauses hold for them. Each promise has a call that the program makes, or a law (`tests/reached` follows the calls from `main`).
"""


def rows_of(path):
    """The rows of a table, each with its line."""
    with open(os.path.join(TOP, path), encoding="utf-8", newline="") as file:
        rows = csv.DictReader(file)
        return [(rows.line_num, row) for row in rows]


# ## contracts


class Contracts:
    """The clauses and docstrings of functions, as their files have them."""

    def __init__(self, code):
        self.code, self.lines = code, {}

    def lines_of(self, it):
        if it.path not in self.lines:
            self.lines[it.path] = self.code.text(it.path).split("\n")
        return self.lines[it.path]

    def clauses(self, it):
        """The names of a function's clauses in their order, empty where one has none; None without a contract."""
        found, depth = [], 0
        for line in self.lines_of(it)[it.line - 1 :]:
            begun = re.match(r"\s*(ensures|requires|decreases)\*? (?:(\w+) )?\{", line)
            if begun and begun.group(1) == "ensures":
                found.append(begun.group(2) or "")
            if depth or begun:
                depth += line.count("{") - line.count("}")
                if not depth and line.endswith(";"):
                    break
            elif not line.lstrip().startswith("//") and re.search(r"[{};]$", line):
                break
        return found or None

    def says(self, it):
        """The first sentence of a function's docstring, or of that of the method of a trait that it is."""
        above = [other for other in self.code.methods[it.name] if other.trait == it.trait and other.owner.name == it.trait]
        return self.docstring(it) or "".join(self.docstring(other) for other in above if it.trait and other is not it)

    def docstring(self, it):
        lines, at, told = self.lines_of(it), it.line - 2, []
        while lines[at].lstrip().startswith(("#[", "///")):
            if lines[at].lstrip().startswith("///"):
                told.insert(0, lines[at].lstrip("/ "))
            at -= 1
        text = " ".join(told)
        sentence = re.match(r"(.*?)\.(?: [A-Z`]|$)", text)
        return (sentence.group(1) if sentence else text).replace("|", "\\|")


# ## rows


def named_in(text):
    """The calls that a cell names, each with the type of the one before it, whether it is marked, and its clauses. None
    for what names no calls."""
    for part in text.split("; "):
        found, owner = NAMES.fullmatch(part), None
        if not found:
            yield part, None, None, None
            continue
        wanted = re.findall(r"\w+", found.group(2) or "")
        for name, mark in re.findall(rf"`([\w:]+)`({MARK}?)", found.group(1)):
            yield name, owner, bool(mark), wanted
            owner = name.rpartition("::")[0] or owner


class Rows:
    """The rows of both tables, held to the code: what is wrong with them, and how many there are."""

    def __init__(self, code, reach):
        self.code, self.reach, self.contracts, self.wrong, self.count = code, reach, Contracts(code), [], 0
        for number, row in rows_of(PROMISES):
            if row["crate"] not in code.below:
                self.say(PROMISES, number, f"there is no crate {row['crate']}")
            elif row["clauses"]:
                paths = [f"crates/{row['crate']}/src/{it}" for it in row["files"].split()]
                self.hold(PROMISES, number, list(named_in(row["clauses"])), paths)
        for number, row in rows_of(REFUSALS):
            if not row["clauses"]:
                continue
            paths = [f"crates/{it}" for it in row["files"].split()]
            named = [it for part in re.split(" of an? ", row["calls"])[:1] for it in named_in(part)]
            told = self.hold(REFUSALS, number, named, paths)
            for name in re.findall(r"\w+", row["clauses"]):
                if name not in told:
                    self.say(REFUSALS, number, f"none of its calls has a clause {name}")

    def say(self, path, number, text):
        self.wrong.append(f"{path}:{number}: {text}")

    def hold(self, path, number, named, paths):
        """Holds a row: its calls, their marks and their clauses. Returns all clauses of its calls."""
        self.count += 1
        stands, clauses = False, set()
        for name, owner, is_marked, wanted in named:
            if wanted is None:
                self.say(path, number, f"no calls and clauses are {name}")
                continue
            meant = self.functions(f"{owner}::{name}", paths) or self.functions(name, paths)
            told = [self.contracts.clauses(it) for it in meant]
            clauses.update(*filter(None, told))
            is_reached = any(it in self.reach.found or it.is_law for it in meant)
            stands = stands or is_reached
            if not meant:
                self.say(path, number, f"its files have no {name}")
            elif not any(it is not None and set(wanted) <= set(it) for it in told):
                self.say(path, number, f"its files have no {name} with {', '.join(wanted) or 'a contract'}")
            elif is_marked and is_reached:
                self.say(path, number, f"{name} has the mark {MARK}, and the program reaches it")
            elif not is_marked and not is_reached:
                self.say(path, number, f"{name} lacks the mark {MARK}: no code of the program reaches it")
        if not stands:
            self.say(path, number, "no call of it is one that the program reaches, and none is a law")
        return clauses

    def functions(self, name, paths):
        """The functions of a name in the files of a row."""
        return [it for it in self.code.functions if it.told() == name and it.path in paths]


# ## the page


def table(*head):
    return ["| " + " | ".join(head) + " |", "|---" * len(head) + "|"]


def links(paths):
    """The files under crates, as links by their last names"""
    return ", ".join(f"[`{it.rpartition('/')[2]}`](../crates/{it})" for it in paths)


def promises_of(crate, rows):
    """The promises of a crate, with its paragraphs where they stand among them."""
    inside = False
    for row in rows:
        if not row["clauses"]:
            yield from ["", row["promise"]]
        else:
            yield from [] if inside else ["", *table("Promise", "Clauses", "File")]
            files = links(f"{crate}/src/{it}" for it in row["files"].split())
            yield f"| {row['promise']} | {row['clauses']} | {files} |"
        inside = bool(row["clauses"])


def refusals(rows):
    """What stands after a refusal, behind its paragraphs."""
    yield from (line for _, row in rows if not row["clauses"] for line in ("", row["stands"]))
    yield from ["", *table("Call", "Answer", "What stands then", "Clauses", "File")]
    for _, row in rows:
        if row["clauses"]:
            yield f"| {row['calls']} | {row['answer']} | {row['stands']} | {row['clauses']} | {links(row['files'].split())} |"


def calls_of(crate, code, reach, contracts):
    """The public calls of a crate that have a contract."""
    for it in code.functions:
        clauses = contracts.clauses(it) if it.crate == crate and it.is_exported else None
        if clauses is not None:
            mark = ", a law" if it.is_law else "" if it in reach.found else MARK
            names = ", ".join(f"`{name}`" if name else "one without a name" for name in clauses)
            yield f"| [`{it.told()}`](../{it.path}){mark} | {names} | {contracts.says(it)} |"


def page(code, reach):
    """The page as it is to be."""
    contracts, lines, rows = Contracts(code), [HEAD], collections.defaultdict(list)
    for _, row in rows_of(PROMISES):
        rows[row["crate"]].append(row)
    for crate in reversed(list(code.below)):
        calls = list(calls_of(crate, code, reach, contracts))
        lines += [f"## `{crate}`", *promises_of(crate, rows[crate])]
        lines += ["", *table("Call", "Clauses", "What it does"), *calls] if calls else []
        lines += [""]
    lines += ["## After a refusal", *refusals(rows_of(REFUSALS))]
    return "\n".join(lines) + "\n"
