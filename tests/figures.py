"""The numbers of pages that results stand behind: a text of a page, in which they stand as a row of results/ has them."""
import importlib.machinery
import importlib.util
import os
import re

import results

TOP = os.path.dirname(os.path.dirname(os.path.abspath(__file__)))
BENCH, TESTING, FLOODS = "bench/README.md", "docs/TESTING.md", "examples/floods/README.md"
WORDS = "no one two three four five six seven eight nine ten".split()
# the cases of bench/run that a page calls otherwise
CALLED = {"two routers, rows at both within two delays": "rows at two routers", "1,000 hosts and a server": "1,000 hosts"}
# numbers of that part of a page which aren't results
GIVEN = {(BENCH, "What is not as wanted"): ("400,000 peers", "19 steps", "1 ms", "10 ms")}


class Rows(dict):
    """The rows of a file that have these fields."""

    def __init__(self, name, /, **fields):
        self.name, self.fields = name, fields
        path = os.path.join(results.FOLDER, name)
        self.rows = [row for row in results.rows_of(path) if all(row[field] == value for field, value in fields.items())]

    def one(self, field):
        """The number of the one row."""
        if len(self.rows) != 1:
            raise LookupError(f"results/{self.name} has {len(self.rows)} rows of {', '.join(self.fields.values())}")
        return float(self.rows[0][field])

    def most(self, field):
        return max(float(row[field]) for row in self.rows)


def bench(part, case, **more):
    return Rows("bench.csv", part=part, case=case, scale="1", **more)


def small():
    """The cases of tests/sizes that `small` stands for."""
    loader = importlib.machinery.SourceFileLoader("sizes", os.path.join(TOP, "tests", "sizes"))
    module = importlib.util.module_from_spec(importlib.util.spec_from_loader("sizes", loader))
    loader.exec_module(module)
    return module.SMALL


def megabytes(cases=None):
    """The most memory of these cases of tests/sizes, or all, and which it is."""
    return max((float(row["megabytes"]), row["case"]) for row in Rows("sizes.csv").rows if cases is None or row["case"] in cases)


def held():
    """How many megabytes a case of tests/sizes may hold, where it has a limit of its own."""
    text = read("tests/sizes")
    return {case: int(most.replace("_", "")) // 1_000_000 for case, most in re.findall(r"^def (\w+)\((?:.+\n)*?.*held=([\d_]+)", text, re.M)}


def minutes(crate):
    """The minutes that a crate's library takes, in words."""
    with open(os.path.join(TOP, "tests", "times.csv"), encoding="utf-8") as file:
        return WORDS[round(float(re.search(rf"^{crate},(\d+)", file.read(), re.M)[1]) / 60)]


def as_wanted():
    """The works of `versus` that took at most the part of the other's time that is wanted, each time."""
    found = {}
    for row in Rows("versus.csv", beside="c21f3df").rows:
        found[row["case"]] = found.get(row["case"], True) and float(row["ratio"]) <= float(row["wanted"])
    return [CALLED.get(case, case) for case in found if found[case]]


def wanted():
    """What is wanted of each work of `versus`."""
    return list({row["case"]: row["wanted"] for row in Rows("versus.csv", beside="c21f3df").rows}.values())


def told(what):
    rows = Rows("told.csv", what=what).rows
    return rows[0]["number"] if rows else "no row of results/told.csv"


def figures():
    """Each page with a text that it is to have."""
    grid, apart = (bench("networks", f"{name}, on all processors beside one").one("ratio") for name in ("grid of 8 routers and 64 hosts", "the same with links of 10 ms"))
    time, memory = (bench("audit", f"{what} beside the replay{more}").one("ratio") for what, more in (("time", ""), ("memory", ", without the report's bytes")))
    hosts = Rows("bench.csv", part="hosts", scale="1", unit="ns").most("ratio")
    slot, known = bench("memory", "a slot full of a flow").one("much"), bench("cache", "known nonce", unit="ns")
    most, case = megabytes()
    damage = {part: Rows("damage.csv", part=part).one("runs") for part in ("memory", "transfer", "audit")}
    yield BENCH, f"- `audit`: {time:.1f} times the replay's time and {memory:.2f} times its memory"
    yield BENCH, f"- `hosts`: {hosts:.1f} times,"
    yield BENCH, f"- `networks`: {grid:.1f} for the grid with links of 1 ms, whose windows are mostly too small to be split, and {apart:.1f} with 10 ms."
    yield BENCH, f"A slot takes {slot:.0f} bytes."
    yield BENCH, f"- `versus`: all but the {' and the '.join(as_wanted())}."
    yield BENCH, f"nearest to the limit: {known.one('ratio'):.2f} times, by {known.one('much') - known.one('little'):.0f} ns."
    yield BENCH, f"of commit c21f3df's time at most {', '.join(wanted()[:-1])} and {wanted()[-1]} |"
    yield TESTING, f"| {told('`tests/sizes small`')}, {megabytes(small())[0] / 1000:.1f} GB |"
    yield TESTING, f"| {told('`tests/sizes`')}, {most / 1000:.1f} GB |"
    yield TESTING, f"`{case}`, 64 MiB of {case}, takes the most, {most / 1000:.1f} GB."
    limit = held()
    limits = f"{limit['million']} MB for `million`, since a replay forgets, {limit['audit']} MB for `audit`, {limit['among']} MB for `among`"
    yield TESTING, f"Further limits are {limits}, {limit['busy']} MB for `busy` and {limit['links']} MB for `links`;"
    yield TESTING, f"`memory` has {damage['memory']:,.0f} runs."
    yield TESTING, f"the same over the transfer: {damage['transfer']:,.0f} runs |"
    yield TESTING, f"its report changed too: {damage['audit']:,.0f} runs |"
    yield "docs/EXTENDING.md", f"{minutes('tva_config_entries')} minutes for the whole crate"
    yield "docs/EXTENDING.md", f"| {minutes('tva_config')} minutes; {minutes('tva')} |"
    yield "results/README.md", f"over {Rows('fuzz.csv', what='run', name='networks').one('count'):,.0f} networks"
    yield "results/README.md", f"when these were {Rows('wrong-programs.csv').most('commands'):.0f} small ones"
    yield "README.md", f"in some {told('minutes until the program is proved and built')} minutes on four processors"
    yield "README.md", f"with {told('events a second of the second model')} events a second for the program's {told('events a second of the program')}."
    yield "README.md", f"The gate takes {told('memory of the gate')} of memory on four processors, {told('disk of the gate')} of disk"
    yield "docs/GUIDE.md", f"16 runs, in {told('the 16 runs of GUIDE')} once"
    yield FLOODS, f"a run at rate 100 has some {told('rows of a flood at rate 100')} rows and {told('events of a flood at rate 100')} events"
    transfers = [told(f"{what} of transfers against 100 attackers") for what in ("rows", "events")]
    yield FLOODS, f"with transfers and 100 attackers it has {transfers[0]} rows and some {transfers[1]} events"
    yield "examples/tools/README.md", f"they take some {told('memory of `events` and `summary.py`')} of memory at most"
    waits = [told("wait for requests among a hundred tags"), told("the same with one part in five")]
    yield "docs/THREATS.md", f"a hundred tags make requests wait {waits[0]}; with one part in five for requests, {waits[1]}."


def read(page):
    with open(os.path.join(TOP, page), encoding="utf-8") as file:
        return file.read()


def wrong_runs():
    """Where the table of scripts and what they take isn't that of results."""
    table = read(TESTING).split("| Run | What it shows | It takes |\n")[1].split("\n\n")[0]
    rows = [[cell.strip() for cell in line.strip("|").split(" | ")] for line in table.split("\n")]
    takes = {row[0].strip(): row[2].partition(",")[0].strip() for row in rows if len(row) == 3}
    kept = {row["what"]: row["number"] for row in Rows("told.csv").rows if row["what"].startswith("`")}
    return [f"{what} takes {takes.get(what)!r} here, and {kept.get(what)!r} in results/told.csv" for what in {**takes, **kept} if takes.get(what) != kept.get(what)]


def wrong_parts():
    """Where the list of what isn't as wanted has other parts of bench/run than results."""
    section = read(BENCH).split("## What is not as wanted\n")[1]
    told = set(re.findall(r"^- `(\w+)`: (?!.* is as wanted)", section, re.M)) - {"versus"}
    came = {row["part"] for row in Rows("bench.csv", as_wanted="no").rows if row["unit"] != "instructions"}
    return [f"its list of what isn't as wanted and results/bench.csv differ by {part}" for part in sorted(told ^ came)]


def wrong_numbers(texts):
    """The numbers of some parts of pages of which no text has them."""
    for (page, part), given in GIVEN.items():
        section = read(page).split(f"## {part}\n")[1].split("\n## ")[0]
        for text in [*(text for of, text in texts if of == page), *given]:
            section = section.replace(text, "")
        for number in re.findall(r"(?<![`\w])\d[\d.,]*\d|\d+", section):
            yield page, f"no results are told to stand behind {number}"


def wrong():
    """What is wrong with the numbers of pages: each page and what is to be told of it."""
    try:
        texts = list(figures())
    except LookupError as error:
        return [("tests/figures.py", str(error))]
    found = [(page, f"by results/ it is to have the text: {text}") for page, text in texts if text not in read(page)]
    return found + [(TESTING, text) for text in wrong_runs()] + [(BENCH, text) for text in wrong_parts()] + list(wrong_numbers(texts))
