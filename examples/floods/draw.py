#!/usr/bin/env python3
"""Draws pictures of floods from what was made and what reports say of it.

    draw.py shares FOLDER [FLOOD..] PICTURE     what becomes of the honest packets, against the attackers' rate
    draw.py transfers FOLDER [FLOOD..] PICTURE  how many transfers finish and how long they take, against the attackers
    draw.py classes REPORT.. PICTURE            how the first bottleneck is filled over time, by class
    draw.py packets REPORT.. PICTURE            what became of each honest packet
    draw.py data shares|transfers|classes|packets ..   the numbers of each curve or area of such a picture, as CSV
    draw.py table FOLDER [FLOOD..]              the numbers of the first picture, as lines of a table
    draw.py table-of-transfers FOLDER [FLOOD..] those of the second

FOLDER holds the runs of a sweep: FLOOD is a flood or a series (legacy-with) in it, and without any all are taken; runs
with transfers are for the second picture and its table, all others for the first. The tables write FOLDER/runs.csv and
FOLDER/means.csv anew as well, as a sweep does at its end.
Names, rates, seeds and links are those in the .json beside each report. PICTURE ends in .svg, .pdf or .png, and is as
wide as a column of a paper, 84 mm, with letters of 8 pt; with `--columns 2` behind the first word it is 178 mm wide.
A series has the same colour and mark in each picture; without the defence its line is dashed and its marks are hollow.
Where there are several seeds a point is their mean, and its bar the 95 % interval of it by Student's t. The caption is
printed. The same numbers give the same bytes. It wants matplotlib: apt-get install python3-matplotlib, or what your
system calls it.
"""
import glob
import hashlib
import itertools
import os
import sys

import make
import reports
import runs
from debian import import_debian  # of examples, which make.py looks into
from runs import mean
from words import refuse

SECOND = 1_000_000_000
STEP = 100_000_000  # nanoseconds of one step of the picture of classes
MORE = SECOND  # how long the pictures over time go on behind the flood

BLACK, ORANGE, BLUE, GREEN, PINK, YELLOW, SKY, WINE = COLOURS = ["#000000", "#D55E00", "#0072B2", "#009E73", "#CC79A7", "#E69F00", "#56B4E9", "#882255"]
MARKS = ["o", "^", "s", "D", "v", "P", "X", "*", "<", ">", "p", "h", "d", "8"]
# a series' colour and mark, by its name without `-transfers` and the defence; others have theirs by their names' digest
STYLES = {
    "legacy": (BLACK, "o"),
    "requests": (ORANGE, "^"),
    "authorised": (BLUE, "s"),
    "authorised-4-colluders": (SKY, "D"),
    "mixed": (GREEN, "v"),
    "forged-grants": (PINK, "P"),
    "forged-notices": (YELLOW, "X"),
    "forged-packets": (WINE, "*"),
}
# areas are told apart by their shades and hatches; colours come on top
HATCHED = dict(facecolor="#FFFFFF", edgecolor=PINK, hatch="//////", linewidth=0.3)
PARTS = [
    ("requests", dict(facecolor=BLACK)),
    ("regular, honest", dict(facecolor=BLUE)),
    ("regular, others", HATCHED),
    ("legacy", dict(facecolor="#CCCCCC")),
]
FATES = [
    ("regular", dict(facecolor=BLUE)),
    ("request", dict(facecolor=BLACK)),
    ("legacy", dict(facecolor="#CCCCCC")),
    ("demoted", HATCHED),
    ("dropped", dict(facecolor="#FFFFFF", edgecolor=ORANGE, linewidth=0.5)),
]
WIDTHS = {1: 84, 2: 178}  # millimetres
# millimetres from one row of panels to the next, to the upper edge of a plot and to its lower one; of a line of the key,
# and of the title
ROW, UPPER, LOWER, LINE, TOP = 42, 6, 33, 4.2, 6


# ## the runs of a folder


class Series:
    """The runs that differ in rate and seed alone: for each rate the numbers of its seeds."""

    def __init__(self, made):
        self.name, self.flood, self.defence = made["series"], made["flood"], made["defence"]
        self.said, self.rates, self.transfers = made["said"], {}, "transfers" in made

    def percent(self, rate, *fields):
        """For each seed how many of a hundred honest packets these numbers count."""
        return [100 * sum(numbers[field] for field in fields) / max(1, numbers["sent"]) for numbers in self.rates[rate]]

    def milliseconds(self, rate, field):
        return [numbers[field] / 1e6 for numbers in self.rates[rate] if numbers[field] is not None]

    def finished(self, rate):
        """For each seed how many of a hundred transfers finish."""
        return [100 * numbers["finished"] / max(1, numbers["begun"]) for numbers in self.rates[rate]]

    def seconds(self, rate, of):
        """For each seed with transfers that finish what `of` makes of their times, in seconds."""
        return [of(numbers["times"]) / SECOND for numbers in self.rates[rate] if numbers["times"]]

    def base(self):
        """What is drawn in one colour: with the defence and without it, and with transfers and without."""
        return self.name.rpartition("-")[0].replace("-transfers", "", 1)


def found_in(folder, floods, transfers=False):
    """The series of a folder, of transfers or of packets, in the order of the floods and then of their names."""
    if not os.path.isdir(folder):
        refuse(f"there is no folder {folder}")
    found, makers = {}, {}
    for path in sorted(glob.glob(os.path.join(glob.escape(folder), "*.json"))):
        stem = os.path.splitext(path)[0]
        if not (os.path.exists(stem + ".numbers") or os.path.exists(stem + ".report")):
            continue
        made = reports.made_of(path)
        if transfers == ("transfers" in made):
            series = found.setdefault(made["series"], Series(made))
            series.rates.setdefault(made["rate"], []).append(reports.numbers(stem))
            of = series.rates[made["rate"]][-1].get("of")
            makers.setdefault((of["program"], of["scripts"]) if of else None, os.path.basename(stem))
    if len(set(makers) - {None}) > 1:
        one, other = [name for of, name in makers.items() if of][:2]
        refuse(f"{folder} has runs of two programs or by two versions of the scripts, such as {one} and {other}: sweep --resume makes the old ones anew")
    what = "runs with transfers" if transfers else "runs"
    for flood in floods:
        if not any(flood in (it.flood, it.name) for it in found.values()):
            refuse(f"{folder} has no {what} of {flood}")
    if not found:
        refuse(f"{folder} has no {what}")
    taken = [it for it in found.values() if not floods or it.flood in floods or it.name in floods]
    return sorted(taken, key=lambda it: (make.FLOODS.index(it.flood), not it.defence, len(it.name), it.name))


def said_rate(rate):
    return f"{rate:g}"


# ## drawing


def matplotlib():
    """Its pyplot, with settings of our own alone."""
    try:
        whole = import_debian("matplotlib")
        whole.use("Agg")
        plot = import_debian("matplotlib.pyplot")
    except ImportError:
        refuse("matplotlib isn't installed: apt-get install python3-matplotlib, or what your system calls it")
    whole.rcParams.update(whole.rcParamsDefault)
    ours = {"font.family": "DejaVu Sans", "font.size": 8, "axes.titlesize": 8, "axes.labelsize": 8, "xtick.labelsize": 7, "ytick.labelsize": 7}
    ours |= {"axes.spines.top": False, "axes.spines.right": False, "axes.linewidth": 0.6, "hatch.linewidth": 0.6, "legend.frameon": False, "legend.fontsize": 7}
    # letters as outlines look alike everywhere, and names in the file come of the salt and not of chance
    whole.rcParams.update({**ours, "svg.fonttype": "path", "svg.hashsalt": "tva", "pdf.fonttype": 42})
    return plot


class Panel:
    """A part of a picture: its title, its numbers as rows for `data`, and how it is drawn into axes."""

    def __init__(self, title, header, rows, onto):
        self.title, self.header, self.rows, self.onto = title, header, rows, onto


def draw(picture, title, panels, key, columns, caption):
    """Draws panels in so many columns, with a key below them: pairs of a text and what makes its sample."""
    plot = matplotlib()
    width = WIDTHS[columns]
    rows = -(-len(panels) // columns)
    across = columns * (2 if max(len(text) for text, _ in key) < 27 else 1)
    foot = 3 + LINE * -(-len(key) // across)
    height = TOP + ROW * rows + foot
    figure = plot.figure(figsize=(width / 25.4, height / 25.4))
    figure.text(0.5, 1 - 3 / height, title, ha="center", va="center", fontweight="bold")
    for place, panel in enumerate(panels):
        row, column = divmod(place, columns)
        left, right = column * width / columns + 14, (column + 1) * width / columns - 3
        top, bottom = TOP + row * ROW + UPPER, TOP + row * ROW + LOWER
        axes = figure.add_axes([left / width, 1 - bottom / height, (right - left) / width, (bottom - top) / height])
        axes.set_title(panel.title, pad=4)
        axes.tick_params(width=0.6, length=2, pad=2)
        axes.grid(axis="y", color="#DDDDDD", linewidth=0.4)
        axes.set_axisbelow(True)
        panel.onto(axes)
    samples = [sample(plot) for _, sample in key]
    figure.legend(samples, [text for text, _ in key], loc="lower left", bbox_to_anchor=(2 / width, 1 / height), ncol=across, handlelength=2.6, columnspacing=1.2, labelspacing=0.35, borderaxespad=0, borderpad=0)
    # no times and no versions, so that the same numbers give the same bytes
    told = {".svg": {"Date": None, "Creator": None, "Title": title, "Description": caption}, ".pdf": {"CreationDate": None, "Creator": None, "Producer": None, "Title": title, "Subject": caption}, ".png": {"Software": None}}
    kind = os.path.splitext(picture)[1]
    part = picture + ".part"
    try:
        figure.savefig(part, format=kind[1:], metadata=told[kind], dpi=192)
        os.replace(part, picture)
    except OSError as fault:
        runs.remove(part)
        refuse(f"{picture}: {fault.strerror}")


# ## what becomes of the honest packets


def styles(every):
    """The colour and mark of each of these series. One whose name has none of its own has that of its digest, or of two
    with the same in one picture the next."""
    others = [(colour, mark) for mark in MARKS for colour in COLOURS if (colour, mark) not in STYLES.values()]
    taken = {}
    for base in sorted({series.base() for series in every}):
        if base not in STYLES:
            place = int(hashlib.sha256(base.encode()).hexdigest(), 16)
            taken[base] = next(it for it in (others[(place + more) % len(others)] for more in range(len(others))) if it not in taken.values())
    return {**STYLES, **taken}


def place_of(rate, rates):
    """Where a rate stands on an axis that has no zero: 0 is half the least other one."""
    return rate or min((it for it in rates if it), default=1) / 2


def rates_axis(axes, rates, label):
    """The axis of rates, which has just those that were made."""
    places = [place_of(rate, rates) for rate in rates]
    # where the next one is near, a rate has its tick alone
    near = {place for place, after in zip(places, places[1:]) if after < 1.4 * place}
    axes.set_xscale("log")
    axes.set_xlim(min(places) / 1.3, max(places) * 1.3)
    axes.set_xticks(places, ["" if place in near else said_rate(rate) for rate, place in zip(rates, places)])
    axes.set_xticks([], minor=True)
    axes.set_xlabel(label, labelpad=1)


def points(series, numbers):
    """The points of a curve: the rate, how many seeds, their mean, and the ends of its interval."""
    told = [(rate, numbers(series, rate)) for rate in sorted(series.rates)]
    return [(rate, len(of), *runs.interval(of)) for rate, of in told if of]


RATE = "attackers' rate, in times the bottleneck's"
CURVES = ["panel", "series", "rate", "seeds", "mean", "low", "high"]


def curve_panel(title, settings, rates, all_series, numbers, label=RATE):
    """A panel of curves. Those that lie on one another are told apart: each is thinner than the ones below it, and its
    marks stand a little beside theirs."""
    curves = [(series, points(series, numbers)) for series in all_series]
    curves = [(series, those) for series, those in curves if those]
    look = styles(all_series)

    def onto(axes):
        for place, (series, those) in enumerate(curves):
            beside = 1.025 ** (place - (len(curves) - 1) / 2)
            at = [place_of(rate, rates) * beside for rate, *_ in those]
            middles = [middle for _, _, middle, _, _ in those]
            colour, mark = look[series.base()]
            line = dict(color=colour, marker=mark, markersize=3.6, markeredgewidth=0.7, linewidth=2.6 - 1.8 * place / max(1, len(curves) - 1))
            axes.plot(at, middles, **line, **({} if series.defence else dict(linestyle=(0, (3, 1.5)), markerfacecolor="#FFFFFF")), zorder=2 + place)
            bars = [(x, middle, low, high) for x, (_, _, middle, low, high) in zip(at, those) if low is not None and high > low]
            if bars:
                spans = [[middle - low for _, middle, low, _ in bars], [high - middle for _, middle, _, high in bars]]
                axes.errorbar([x for x, *_ in bars], [middle for _, middle, *_ in bars], spans, fmt="none", ecolor=colour, elinewidth=0.7, capsize=1.6, capthick=0.7, zorder=20)
        rates_axis(axes, rates, label)
        settings(axes, [middle for _, those in curves for _, _, middle, _, _ in those])

    rows = [[title, series.name, said_rate(rate), seeds, *("" if it is None else f"{it:.6g}" for it in numbers)] for series, those in curves for rate, seeds, *numbers in those]
    return Panel(title, CURVES, rows, onto) if curves else None


def key_of(every):
    """The key of curves: each series once, and what is otherwise without the defence."""
    look, key, seen = styles(every), [], set()
    for series in every:
        if series.base() not in seen:
            seen.add(series.base())
            colour, mark = look[series.base()]
            key.append((series.said, sample_of(color=colour, marker=mark, linewidth=1.4)))
    if any(not series.defence for series in every):
        key.append(("with the defence", sample_of(color="#777777", marker="o", linewidth=1.4)))
        key.append(("without the defence", sample_of(color="#777777", marker="o", linewidth=1.4, linestyle=(0, (3, 1.5)), markerfacecolor="#FFFFFF")))
    return key


def sample_of(**keys):
    return lambda plot: plot.Line2D([], [], markersize=3.6, markeredgewidth=0.7, **keys)


def percents(what):
    def settings(axes, middles):
        axes.set_ylim(-2, 104)
        axes.set_yticks(range(0, 101, 25))
        axes.set_ylabel(what, labelpad=2)

    return settings


def logarithmic(what, ticks):
    """An axis that has room for all points; a bar may go past its ends."""

    def settings(axes, middles):
        axes.set_yscale("log", nonpositive="clip")
        low, high = min(ticks[0], *middles) / 1.15, max(ticks[-2], *middles) * 1.5
        axes.set_ylim(low, high)
        axes.set_yticks([it for it in ticks if it <= high], [f"{it:g}" for it in ticks if it <= high])
        axes.set_yticks([], minor=True)
        axes.set_ylabel(what, labelpad=2)

    return settings


def points_of(every):
    """What the points of curves are."""
    seeds = sorted({len(those) for series in every for those in series.rates.values()})
    if seeds == [1]:
        return "By one seed."
    return f"Points are means over {' or '.join(map(str, seeds))} seeds, bars their 95 % intervals by Student's t."


def shares(folder, floods):
    every = found_in(folder, floods)
    rates = sorted({rate for series in every for rate in series.rates})
    share, delay = percents("honest packets, %"), logarithmic("milliseconds", (10, 100, 1_000, 10_000))
    late = lambda field: lambda it, rate: it.milliseconds(rate, field)
    panels = [
        curve_panel("that arrive", share, rates, every, lambda it, rate: it.percent(rate, "arrived")),
        curve_panel("that arrive in their own right", share, rates, [it for it in every if it.defence], lambda it, rate: it.percent(rate, *reports.RIGHTFUL)),
        curve_panel("delay of those that arrive: median", delay, rates, every, late("delay")),
        curve_panel("delay of those that arrive: 95 of 100", delay, rates, every, late("late")),
    ]
    caption = (
        "What becomes of the honest packets against the attackers' rate: the share that arrives; the share that arrives"
        " in its own right, as a regular packet, a renewal or a request, which without the defence is none; and of those that"
        " arrive the median delay, and the least that 95 of 100 don't exceed. A delay is that of packets that arrive: where"
        f" most are lost, one that falls means no better service. {points_of(every)}"
    )
    return "What becomes of the honest packets", panels, key_of(every), caption


def transfers(folder, floods):
    every = found_in(folder, floods, transfers=True)
    rates = sorted({rate for series in every for rate in series.rates})
    time, label = logarithmic("seconds", (0.3, 1, 3, 10)), "attackers of 1 Mbit/s each"
    panels = [
        curve_panel("that finish", percents("transfers, %"), rates, every, lambda it, rate: it.finished(rate), label),
        curve_panel("mean time of those that finish", time, rates, every, lambda it, rate: it.seconds(rate, mean), label),
    ]
    caption = (
        "Transfers against the number of attackers: the share that finishes before the user's next one begins, and the"
        " mean time of those that finish, with the defence and without it. Where none finishes there is no time, and where"
        f" few do it is that of the lucky ones. {points_of(every)}"
    )
    return "What becomes of the users' transfers", panels, key_of(every), caption


# ## tables

# what a table has beside flood, rate and defence: a head, the form of a number, and the number of each seed
PACKETS = [
    ("Arrive", "{:.1f} %", lambda it, rate: it.percent(rate, "arrived")),
    ("In their own right", "{:.1f} %", lambda it, rate: it.percent(rate, *reports.RIGHTFUL)),
    ("Sent as legacy", "{:.1f} %", lambda it, rate: it.percent(rate, "own_legacy")),
    ("Marked", "{:.1f} %", lambda it, rate: it.percent(rate, "marked")),
    ("Median delay", "{:.1f} ms", lambda it, rate: it.milliseconds(rate, "delay")),
    ("95 of 100", "{:.1f} ms", lambda it, rate: it.milliseconds(rate, "late")),
]
TRANSFERS = [
    ("Finish", "{:.1f} %", lambda it, rate: it.finished(rate)),
    ("Mean time", "{:.2f} s", lambda it, rate: it.seconds(rate, mean)),
    ("95 of 100 within", "{:.2f} s", lambda it, rate: it.seconds(rate, lambda those: reports.quantile(those, 95))),
]


def head_of(transfers):
    return ["Flood", "Attackers" if transfers else "Rate", "Defence", *(head for head, _, _ in (TRANSFERS if transfers else PACKETS))]


def cells_of(folder, floods, transfers=False):
    """The rows of a folder's table: how many seeds each has, and its cells."""
    for series in found_in(folder, floods, transfers):
        for rate in sorted(series.rates):
            cells = [series.said, said_rate(rate), "with" if series.defence else "without"]
            cells += [over(of(series, rate), form) for _, form, of in (TRANSFERS if transfers else PACKETS)]
            yield len(series.rates[rate]), cells


def table(folder, floods, transfers=False):
    head, rows = head_of(transfers), list(cells_of(folder, floods, transfers))
    print("| " + " | ".join(head) + " |")
    print("|---" * len(head) + "|")
    for _, cells in rows:
        print("| " + " | ".join(cells) + " |")


def over(numbers, form):
    """A mean, and where there are several seeds from where to where they go."""
    if not numbers:
        return "-"
    said = form.format(mean(numbers))
    least, most = (form.format(it).split()[0] for it in (min(numbers), max(numbers)))
    return said if least == most else f"{said} ({least} to {most})"


# ## pictures over time


def title_of(made):
    return f"{said_rate(made['rate'])} times: {made['said']}" + ("" if made["defence"] else ", without the defence")


def seconds_axis(axes, made):
    until = (made["flood_until_ns"] + MORE) / SECOND
    axes.set_xlim(0, until)
    axes.set_xticks(range(0, int(until) + 1, int(max(1, until // 8))))
    axes.set_xlabel("seconds", labelpad=1)


def part_of(event, honest):
    """Which of the parts a start on the bottleneck belongs to."""
    kind = event.fields[1]
    if kind == "request":
        return 0
    if kind == "legacy":
        return 3
    return 1 if event.id.rpartition("#")[0] in honest else 2


def filled(report, made):
    """For each step the nanoseconds in which the bottleneck is busy with each part: a packet counts in each step in
    which it is under way, so no step has more than there is of it."""
    link, honest = made["bottlenecks"][0], set(made["honest"])
    sums = [[0] * len(PARTS) for _ in range((made["flood_until_ns"] + MORE) // STEP)]
    for event in reports.events(report):
        if event.what == "start" and (event.node, event.fields[0]) == (link["from"], link["to"]):
            begin, end, part = event.time, int(event.fields[2]), part_of(event, honest)
            for step in range(begin // STEP, min(-(-end // STEP), len(sums))):
                sums[step][part] += min(end, (step + 1) * STEP) - max(begin, step * STEP)
    return sums


def area_of(keys):
    return lambda plot: plot.Rectangle((0, 0), 1, 1, **keys)


def fill_panel(path):
    """How the bottleneck of a report is filled over time: each part stands on those below it."""
    made = reports.made_of(path)
    title, steps = title_of(made), filled(path, made)
    heights = [[100 * sum(parts[: place + 1]) / STEP for parts in steps] for place in range(len(PARTS))]
    edges = [step * STEP / SECOND for step in range(len(steps) + 1)]

    def onto(axes):
        for place, (_, drawn) in enumerate(PARTS):
            axes.stairs(heights[place], edges, baseline=heights[place - 1] if place else 0, fill=True, **{**drawn, "linewidth": 0})
        axes.set_ylim(0, 100)
        axes.set_yticks(range(0, 101, 25))
        axes.set_ylabel("of the time, %", labelpad=2)
        seconds_axis(axes, made)

    rows = [[title, PARTS[place][0], f"{edges[step]:g}", f"{100 * parts[place] / STEP:.6g}"] for place in range(len(PARTS)) for step, parts in enumerate(steps)]
    return Panel(title, ["panel", "part", "from_s", "percent"], rows, onto)


def classes(paths):
    caption = "With what the bottleneck is busy, in steps of a tenth of a second, by the class of its packets; regular ones by whose they are."
    return "With what the bottleneck is busy", [fill_panel(path) for path in paths], [(text, area_of(drawn)) for text, drawn in PARTS], caption


def spans(those, every):
    """Packets by their senders and fates: (fate, sender, from, to), a span for each run of packets with one
    fate, from its first packet to the next one of the sender."""
    for sender, own in itertools.groupby(sorted(those, key=lambda packet: (packet.sender, packet.sent)), key=lambda packet: packet.sender):
        runs = [(fate, [packet.sent for packet in run]) for fate, run in itertools.groupby(own, key=reports.Packet.fate)]
        ends = [sent[0] for _, sent in runs[1:]] + [runs[-1][1][-1] + every]
        for (fate, sent), end in zip(runs, ends):
            yield fate, sender, sent[0], end


def fate_panel(path):
    """What became of each honest packet of a report: a bar for each run of packets with one fate."""
    made = reports.made_of(path)
    title = title_of(made)
    place = {name: number for number, name in enumerate(made["honest"], 1)}
    every = sorted(spans(reports.honest(reports.packets(path, set(place)), made), made["honest_every_ns"]), key=lambda span: (place[span[1]], span[2]))

    def onto(axes):
        for fate, drawn in FATES:
            for name, number in place.items():
                bars = [(begin / SECOND, (end - begin) / SECOND) for told, sender, begin, end in every if (told, sender) == (fate, name)]
                if bars:
                    axes.broken_barh(bars, (number - 0.35, 0.7), **{"linewidth": 0, **drawn})
        axes.set_ylim(len(place) + 0.6, 0.4)
        axes.set_yticks(list(place.values()), list(place))
        axes.grid(False)
        seconds_axis(axes, made)

    rows = [[title, fate, sender, f"{begin / SECOND:.6f}", f"{end / SECOND:.6f}"] for fate, sender, begin, end in every]
    return Panel(title, ["panel", "fate", "sender", "from_s", "until_s"], rows, onto)


def packets(paths):
    caption = "What became of each packet of each honest sender, at the time at which it was sent."
    return "What became of each honest packet", [fate_panel(path) for path in paths], [(text, area_of(drawn)) for text, drawn in FATES], caption


# ## words


FORMS = "shares or transfers FOLDER [FLOOD..] PICTURE, classes or packets REPORT.. PICTURE, data with one of these without PICTURE, table or table-of-transfers FOLDER [FLOOD..]"


def picture_of(what, words):
    """The title, panels, key and caption of a picture."""
    if what in ("shares", "transfers"):
        return (shares if what == "shares" else transfers)(words[0], words[1:])
    for report in words:
        if not os.path.isfile(report):
            refuse(f"there is no report {report}")
        if reports.breaks_off(report):
            refuse(f"{report} breaks off: it has no last line with its sums")
    return {"classes": classes, "packets": packets}[what](words)


def print_data(panels):
    """The numbers of a picture as CSV."""
    rows = [dict(zip(panel.header, row)) for panel in panels for row in panel.rows]
    print(runs.as_csv(panels[0].header, rows), end="")


def main():
    words = sys.argv[1:]
    if words[:1] in (["--help"], ["-h"]):
        return print(__doc__)
    columns, data = 1, words[:1] == ["data"]
    words = words[1:] if data else words
    if words[1:2] == ["--columns"]:
        if words[2:3] not in (["1"], ["2"]):
            refuse("--columns is 1 or 2")
        columns, words = int(words[2]), words[:1] + words[3:]
    what, words = (words[0], words[1:]) if words else ("", [])
    if what in ("table", "table-of-transfers") and words and not data:
        table(words[0], words[1:], transfers=what == "table-of-transfers")
        try:
            return runs.write_tables(words[0])
        except OSError as fault:
            refuse(f"{fault.filename}: {fault.strerror}")
    if what not in ("shares", "transfers", "classes", "packets") or len(words) < (1 if data else 2):
        refuse(FORMS)
    if data:
        _, panels, _, _ = picture_of(what, words)
        return print_data([panel for panel in panels if panel])
    *those, picture = words
    if os.path.splitext(picture)[1] not in (".svg", ".pdf", ".png"):
        refuse(f"{picture} is no name of a picture: it ends in .svg, .pdf or .png")
    if not os.path.isdir(os.path.dirname(os.path.abspath(picture))):
        refuse(f"there is no folder {os.path.dirname(picture)}")
    title, panels, key, caption = picture_of(what, those)
    draw(picture, title, [panel for panel in panels if panel], key, columns, caption)
    print(caption)


if __name__ == "__main__":
    runs.stoppable("draw.py", main)
