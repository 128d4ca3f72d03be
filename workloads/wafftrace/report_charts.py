"""The charts of a report, drawn by matplotlib as SVG. Colours are variables of the page, so that one picture serves light and dark."""

import importlib
import io
import re
from collections.abc import Sequence
from dataclasses import dataclass
from itertools import pairwise
from typing import Any

from .report_answers import Ran, Row, Under

# A colour that stands for a variable of the page.
STANDS_FOR = re.compile(r"#ab01([0-9a-f]{2})")
INK, QUIET, LINE, HEAT = "#ab0100", "#ab0101", "#ab0102", "#ab0103"
NAMES = {0: "ink", 1: "quiet", 2: "line", 3: "heat"}
FIRST_HUE = 16
HUES = 8

# So wide are the charts of a page, in inches: where a window has 400 pixels their letters are still to be read.
NARROW = 4.2
# So many letters of a legend are an inch wide.
LETTERS = 15.3

# So many affinities has a map of waits at most.
MOST_IN_MAP = 24
# So many bars of limits are drawn; of more only those for the greatest number of workers.
MOST_STACKS = 16


def hue(number: int) -> str:
    return f"#ab01{FIRST_HUE + number % HUES:02x}"


def variable(found: re.Match[str]) -> str:
    number = int(found[1], 16)
    return f"var(--{NAMES.get(number, f'hue{number - FIRST_HUE}')})"


@dataclass(frozen=True, slots=True)
class Stack:
    """The length of a plan in parts: what each limit adds to those before it."""

    label: str
    workers: int
    length: int
    parts: list[int]


# What the parts of a stack are called.
PARTS = ("data, clients", "tree", "order", "workers", "plan")


def stack_of(under: Under, workers: int) -> Stack:
    """A limit is never less than those before it here, and none is above the length of the plan, which may serve in another order."""
    found: dict[str, int] = {}
    for row in under.limits.rows():
        if row["workers"] in ("-", str(workers)):
            found[row["limit"]] = int(row["length"])
    parts, reached = [], 0
    for level in (max(found["data"], found["clients"], found.get("after", 0)), found["tree"], found["order"], found["work"], found["plan"]):
        level = min(max(level, reached), found["plan"])
        parts.append(level - reached)
        reached = level
    return Stack(under.label, workers, found["plan"], parts)


def stacks_of(trees: list[Under], workers: list[int]) -> list[Stack]:
    """A bar for each tree and number of workers, or where these are many for the greatest number alone."""
    counts = workers if len(trees) * len(workers) <= MOST_STACKS else [max(workers)]
    return [stack_of(under, count) for under in trees for count in dict.fromkeys(counts)]


def map_of(under: Under) -> tuple[list[str], dict[tuple[str, str], int], int]:
    """The affinities of the map of waits in the order of the tree, those with most waits where there are many, and `-` for workers;
    the ticks of each pair; and how many ticks of others are left out."""
    ticks: dict[tuple[str, str], int] = {}
    for row in under.waits.rows():
        pair = (row["affinity"], row["for"])
        ticks[pair] = ticks.get(pair, 0) + int(row["ticks"])
    sums: dict[str, int] = {}
    for (one, other), count in ticks.items():
        for it in {one, other} - {"-"}:
            sums[it] = sums.get(it, 0) + count
    kept = set(sorted(sums, key=lambda it: (-sums[it], it))[:MOST_IN_MAP])
    order = [row["affinity"] for row in under.where.rows() if row["affinity"] in kept]
    if any(other == "-" for _, other in ticks):
        order.append("-")
    shown = {pair: count for pair, count in ticks.items() if set(pair) <= {*order}}
    return order, shown, sum(ticks.values()) - sum(shown.values())


def bounds_of(under: Under) -> list[Row]:
    """The line of each limit, from the clients down to the plan for the greatest number of workers."""
    rows = {row["limit"]: row for row in under.limits.rows() if row["workers"] in ("-", str(under.workers))}
    return [rows[it] for it in ("clients", "after", "writes", "data", "work", "tree", "order", "plan") if it in rows]


def least_of_any_tree(under: Under) -> int:
    """The length that no tree goes below, for the greatest number of workers. What is read alone may be shared under another one."""
    rows = {row["limit"]: int(row["length"]) for row in under.limits.rows() if row["workers"] in ("-", str(under.workers))}
    return max(rows["work"], rows["clients"], rows.get("after", 0), rows.get("writes", rows["data"]))


def number_of(value: str) -> float:
    """A figure as a number; 0 where there is none."""
    return 0.0 if value == "-" else float(value)


def shortened(text: str, most: int = 30) -> str:
    """A name that is longer than a picture has room for, without its middle."""
    half = (most - 1) // 2
    return text if len(text) <= most else f"{text[:half]}\u2026{text[-half:]}"


def columns_of(texts: list[str], room: float, most: int) -> int:
    """So many columns, filled one after another as a legend is, have room for these texts, each behind its colour: the room is in letters."""
    for columns in range(most, 1, -1):
        size, more = divmod(len(texts), columns)
        begins = [at * size + min(at, more) for at in range(columns + 1)]
        if sum(max(map(len, texts[begin:end]), default=0) + 7 for begin, end in pairwise(begins)) <= room:
            return columns
    return 1


def most_speed(under: Under, row: Row) -> float:
    """The speed-up that no plan passes, of a line of `sweep`: all costs over the lower bound."""
    return int(under.plan.values()["total"]) / max(1, int(row["least"]))


class Charts:
    """Draws by matplotlib, so many inches wide. Raises ImportError where there is none."""

    def __init__(self, width: float = NARROW) -> None:
        self.width = width
        matplotlib: Any = importlib.import_module("matplotlib")
        matplotlib.use("svg")
        matplotlib.rcParams.update({
            "svg.fonttype": "none", "svg.hashsalt": "waff", "font.family": "sans-serif", "font.size": 9, "text.parse_math": False,
            "text.color": INK, "axes.edgecolor": LINE, "axes.labelcolor": QUIET, "axes.facecolor": "none", "axes.titlesize": 9,
            "axes.spines.top": False, "axes.spines.right": False, "axes.axisbelow": True, "figure.facecolor": "none",
            "xtick.color": LINE, "ytick.color": LINE, "xtick.labelcolor": QUIET, "ytick.labelcolor": QUIET, "grid.color": LINE,
            "grid.linewidth": 0.6, "legend.frameon": False, "legend.fontsize": 8.5, "savefig.facecolor": "none",
        })
        # The first run of a user says that it builds a cache of fonts: nobody asked.
        importlib.import_module("logging").getLogger("matplotlib").setLevel("ERROR")
        self.pyplot: Any = importlib.import_module("matplotlib.pyplot")
        self.ticker: Any = importlib.import_module("matplotlib.ticker")
        self.patches: Any = importlib.import_module("matplotlib.patches")

    def new(self, height: float) -> tuple[Any, Any]:
        figure, axes = self.pyplot.subplots(figsize=(self.width, height), layout="constrained")
        return figure, axes

    def text(self, figure: Any, name: str) -> str:
        """The picture as an element of a page, whose names are like those of no other picture."""
        out = io.StringIO()
        figure.savefig(out, format="svg", metadata={"Date": None, "Creator": None, "Format": None, "Type": None})
        self.pyplot.close(figure)
        text = out.getvalue()
        text = text[text.index("<svg ") :]
        text = re.sub(r"<metadata>.*?</metadata>|<style type=\"text/css\">.*?</style>", "", text, flags=re.S)
        # It is as wide as there is room.
        text = re.sub(r' (?:width|height)="[0-9.]+pt"', "", text)
        text = re.sub(r'\bid="', f'id="{name}-', text)
        text = re.sub(r'(href="#|url\(#)', rf"\g<1>{name}-", text)
        return STANDS_FOR.sub(variable, text).strip()

    def thousands(self, axis: Any) -> None:
        axis.set_major_formatter(self.ticker.FuncFormatter(lambda it, _: f"{it:,.0f}"))

    def bounds(self, trees: list[Under], name: str) -> str:
        """Bars of lengths: how long each limit by itself makes a plan."""
        rows = [bounds_of(under) for under in trees]
        bars = [row["limit"] if row["workers"] == "-" else f"{row['limit']}, {row['workers']}" for row in rows[0]]
        figure, axes = self.new(0.9 + 0.21 * len(bars) * (len(trees) + 0.6))
        step = 0.8 / len(trees)
        most = max(int(row["length"]) for it in rows for row in it)
        for at, lines in enumerate(rows):
            for line, row in enumerate(lines):
                self.bar(axes, line - 0.4 + step * (at + 0.5), [int(row["length"])], [hue(at)], step * 0.9, most, f"mark-{at}-{line}")
        self.lengths(axes, bars, most)
        axes.set_ylabel("limit")
        self.legend(axes, [(hue(at), under.label) for at, under in enumerate(trees)] if len(trees) > 1 else [], self.room(bars))
        return self.text(figure, name)

    def bar(self, axes: Any, place: float, parts: list[int], hues: list[str], height: float, most: int, mark: str) -> None:
        """A bar that begins at 0, of parts that follow each other, with their sum behind it. A part has the mark, with its number where they
        are several."""
        reached = 0
        for number, (length, color) in enumerate(zip(parts, hues, strict=True)):
            (bar,) = axes.barh(place, length, height, left=reached, color=color)
            bar.set_gid(f"{mark}-{number}" if len(parts) > 1 else mark)
            reached += length
        axes.text(reached + most / 100, place, f"{reached:,}", va="center", fontsize=8)

    def room(self, bars: Sequence[str] = ("123456",)) -> float:
        """So many letters have room at the side of the names of bars, or of the figures of an axis."""
        return self.width * LETTERS - 4 - max(map(len, bars))

    def lengths(self, axes: Any, bars: list[str], most: int) -> None:
        """The axes of bars of lengths, from the first one down."""
        axes.set_xlim(0, max(1, most) * 1.18)
        axes.set_yticks(range(len(bars)), bars)
        axes.invert_yaxis()
        axes.set_xlabel("ticks")
        ticks = int(0.8 * self.room(bars)) // len(f"{most:,}  ")
        axes.xaxis.set_major_locator(self.ticker.MaxNLocator(max(2, min(6, ticks)), integer=True))
        self.thousands(axes.xaxis)
        axes.grid(axis="x")

    def legend(self, axes: Any, entries: Sequence[tuple[str, str]], room: float, most: int = 3) -> None:
        """A legend above the picture, which is higher where the legend has many lines."""
        if entries:
            handles = [self.patches.Patch(color=color) for color, _ in entries]
            # matplotlib leaves out what begins with an underscore.
            told = [text if not text.startswith("_") else f"\u200b{text}" for text in (shortened(it) for _, it in entries)]
            columns = columns_of(told, room, most)
            figure = axes.figure
            figure.set_figheight(figure.get_figheight() + 0.17 * max(0, -(-len(told) // columns) - 2))
            axes.legend(handles, told, loc="lower left", bbox_to_anchor=(0, 1), ncols=columns, handlelength=1, borderaxespad=0.3)

    def stacks(self, stacks: list[Stack], name: str) -> str:
        """Bars of lengths, each with the part that each limit adds."""
        figure, axes = self.new(1.0 + 0.27 * len(stacks))
        most = max((it.length for it in stacks), default=0)
        hues = [hue(part + 1) for part in range(len(PARTS))]
        for line, stack in enumerate(stacks):
            self.bar(axes, line, stack.parts, hues, 0.72, most, f"mark-{line}")
        bars = [f"{shortened(it.label, 16)}, {it.workers}" for it in stacks]
        self.lengths(axes, bars, most)
        axes.set_ylabel("tree, workers")
        self.legend(axes, list(zip(hues, PARTS, strict=True)), self.room(bars), 5)
        return self.text(figure, name)

    def speeds(self, trees: list[Under], name: str) -> str:
        """Speed-up against workers, with the upper bound of all plans as a dashed line."""
        figure, axes = self.new(3.2)
        top, widest = 1.0, 1
        ends: list[tuple[float, int, str]] = []
        for at, under in enumerate(trees):
            rows = sorted((row for row in under.sweep.rows() if row["workers"] != "-"), key=lambda row: int(row["workers"]))
            workers = [int(row["workers"]) for row in rows]
            speeds = [number_of(row["speedup"]) for row in rows]
            ceilings = [most_speed(under, row) for row in rows]
            (line,) = axes.plot(workers, speeds, color=hue(at), marker="o", markersize=4, linewidth=1.8)
            line.set_gid(f"mark-{at}")
            (line,) = axes.plot(workers, ceilings, color=hue(at), linestyle=(4 * at, (4, 4)), linewidth=1)
            line.set_gid(f"ceiling-{at}")
            ends.append((speeds[-1], workers[-1], rows[-1]["speedup"]))
            top, widest = max(top, *speeds, *ceilings), max(widest, *workers)
        for number, (speed, workers_of, told) in enumerate(sorted(ends)):
            # Of curves that end together one has its number here, and all in the table.
            if number == 0 or speed - sorted(ends)[number - 1][0] > top / 20:
                axes.annotate(told, (workers_of, speed), (5, 0), textcoords="offset points", va="center", fontsize=8)
        axes.plot([1, widest], [1, widest], color=QUIET, linewidth=0.8, linestyle=":")
        axes.set_ylim(0, top * 1.12)
        axes.set_xlim(left=min(1, widest))
        axes.margins(x=0.08)
        axes.xaxis.set_major_locator(self.ticker.MaxNLocator(integer=True))
        axes.set_xlabel("workers")
        axes.set_ylabel("speed-up")
        axes.grid()
        self.legend(axes, [(hue(at), under.label) for at, under in enumerate(trees)], self.room())
        return self.text(figure, name)

    def waits(self, under: Under, name: str) -> str:
        """A map: the row waits for the column, the stronger the colour the longer in all."""
        order, ticks, _ = map_of(under)
        told = [shortened(it) if it != "-" else "a worker" for it in order]
        names = 0.075 * max(map(len, told), default=1) + 0.5
        side = min(max(1.3, 0.3 * len(order)), 2.4)
        figure, axes = self.new(min(max(side, 0.165 * len(order)), self.width - names) + names)
        place = {affinity: at for at, affinity in enumerate(order)}
        most = max(ticks.values(), default=1) or 1
        for number, ((one, other), count) in enumerate(sorted(ticks.items())):
            depth = 0.12 + 0.88 * (count / most) ** 0.5
            cell = self.patches.Rectangle((place[other] - 0.5, place[one] - 0.5), 1, 1, facecolor=HEAT, alpha=depth, linewidth=0)
            cell.set_gid(f"mark-{number}")
            axes.add_patch(cell)
        axes.set_xlim(-0.5, len(order) - 0.5)
        axes.set_ylim(len(order) - 0.5, -0.5)
        axes.set_aspect("equal")
        axes.set_xticks(range(len(order)), told, rotation=90, fontsize=7.5)
        axes.set_yticks(range(len(order)), told, fontsize=7.5)
        axes.tick_params(length=0)
        axes.set_ylabel("waits")
        axes.set_xlabel("for")
        for edge in ("top", "right"):
            axes.spines[edge].set_visible(True)
        for at in range(1, len(order)):
            axes.axhline(at - 0.5, color=LINE, linewidth=0.3)
            axes.axvline(at - 0.5, color=LINE, linewidth=0.3)
        return self.text(figure, name)

    def latencies(self, under: Under, name: str) -> str:
        """The latency that so many of 100 messages do not pass, by both rules."""
        figure, axes = self.new(2.8)
        for at, it in enumerate(under.latencies):
            # Where both are the same, the second shows the first between its dashes.
            style = "-" if at == 0 else (0, (3, 2))
            (line,) = axes.plot(range(1, len(it.percentiles) + 1), it.percentiles, color=hue(at), linewidth=1.8, linestyle=style)
            line.set_gid(f"mark-{at}")
        axes.set_xlim(0, 100)
        axes.set_ylim(bottom=0)
        axes.set_xlabel("of 100 messages")
        axes.set_ylabel("ticks from issue to finish")
        self.thousands(axes.yaxis)
        axes.grid()
        self.legend(axes, [(hue(at), it.rule) for at, it in enumerate(under.latencies)], self.room())
        return self.text(figure, name)

    def run(self, ran: Ran, name: str) -> str:
        """The lengths of the plan, of the run, and of the plan for what was measured."""
        figure, axes = self.new(1.5)
        lengths = [int(row["length"]) for row in run_rows(ran)]
        for line, length in enumerate(lengths):
            self.bar(axes, line, [length], [hue(line)], 0.7, max(lengths), f"mark-{line}")
        self.lengths(axes, [it.replace(", ", ",\n") for it in RUN_WORDS], max(lengths))
        return self.text(figure, name)


RUN_WORDS = ("predicted", "ran", "predicted, of measured costs")


def run_rows(ran: Ran) -> list[Row]:
    """The figures of the plan, of the run, and of the plan for the measured costs."""
    planned, again = (next(row for row in it.rows() if row["workers"] == ran.workers) for it in (ran.planned, ran.again))
    return [planned, ran.ran.values(), again]
