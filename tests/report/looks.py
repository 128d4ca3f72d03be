"""What the charts of a page show, read out of their SVG, and how wide the style of a page makes its parts."""

import re
import xml.etree.ElementTree as ElementTree
from collections.abc import Iterator

SVG = "{http://www.w3.org/2000/svg}"
# The limits of a chart, from the first one down.
LIMITS = ("clients", "after", "writes", "data", "work", "tree", "order", "plan")
# A page of a window of 400 pixels has so much room beside its margins.
NARROW = 376
# Letters are at least so wide, in parts of their height.
LETTER = 0.55

Points = list[tuple[float, float]]
Found = list[str]
Tables = dict[str, list[list[str]]]


def number(text: str) -> float:
    return float(text.replace(",", ""))


class Chart:
    """The picture of an `svg` element, whose names all begin with its own."""

    def __init__(self, text: str) -> None:
        self.root = ElementTree.fromstring(text)
        self.name = self.root.get("id", "")
        self.named = {it.get("id", "").removeprefix(f"{self.name}-"): it for it in self.root.iter() if it.get("id")}
        self.width, self.height = map(float, self.root.get("viewBox", "").split()[2:])

    def points(self, name: str) -> Points:
        """The points of the first path in the element of this name."""
        path = next(self.named[name].iter(f"{SVG}path")).get("d", "")
        return [(float(x), float(y)) for x, y in re.findall(r"[ML] (\S+) (\S+)", path)]

    def texts(self, beginning: str) -> Found:
        """The texts of the elements whose names begin so and end in a number, in the order of these."""
        named = sorted((int(it[len(beginning) :]), it) for it in self.named if re.fullmatch(rf"{beginning}[0-9]+", it))
        return ["".join(self.named[it].itertext()).strip() for _, it in named]

    def axis(self, letter: str) -> tuple[float, float]:
        """Where 0 is on an axis, and how far 1 is from there: of its first and last tick. Raises ValueError where one between lies
        elsewhere, as on an axis of logarithms."""
        told = [number(it) for it in self.texts(f"{letter}tick_")]
        at = [self.points(f"{letter}tick_{it}")[0]["xy".index(letter)] for it in range(1, len(told) + 1)]
        scale = (at[-1] - at[0]) / (told[-1] - told[0])
        origin = at[0] - told[0] * scale
        if any(abs(origin + value * scale - place) > 0.05 for value, place in zip(told, at, strict=True)):
            raise ValueError(f"{self.name}: the ticks {told} are at {at}")
        return origin, scale

    def opacities(self) -> list[float]:
        """Those of the marks of a map, from the least."""
        marks = [next(it.iter(f"{SVG}path")) for name, it in self.named.items() if name.startswith("mark-")]
        found = [re.search(r"opacity: ?([0-9.]+)", it.get("style", "")) for it in marks]
        return sorted(float(it[1]) if it else 1.0 for it in found)

    def outside(self) -> Iterator[str]:
        """The texts that end outside of the picture by how many letters they have, and those whose letters are small in a narrow window."""
        for it in self.root.iter(f"{SVG}text"):
            told, style = "".join(it.itertext()), it.get("style", "")
            size = float(re.findall(r"font: ([0-9.]+)px", style)[0])
            length = LETTER * size * len(told)
            if size * NARROW / self.width < 9:
                yield f"small: {told}"
            if it.get("x") is not None and "rotate(-0" in it.get("transform", ""):
                begin = float(it.get("x", "0")) - length * (("start", "middle", "end").index(anchor(style)) / 2)
                if begin < 0 or begin + length > self.width:
                    yield f"cut: {told}"


    def crowded(self) -> Iterator[str]:
        """The figures of the lower axis that stand in each other."""
        reached = 0.0
        ticks = [self.named[f"xtick_{it}"] for it in range(1, len(self.texts("xtick_")) + 1)]
        for it in (text for tick in ticks for text in tick.iter(f"{SVG}text") if text.get("x") is not None):
            told = "".join(it.itertext())
            middle, half = float(it.get("x", "0")), LETTER * 9 * len(told) / 2
            if middle - half < reached:
                yield f"crowded: {told}"
            reached = middle + half


def anchor(style: str) -> str:
    found = re.search(r"text-anchor: (\w+)", style)
    return found[1] if found else "start"


def charts_of(text: str) -> list[Chart]:
    return [Chart(it) for it in re.findall(r"<svg id=.*?</svg>", text, re.S)]


def bars_wrong(chart: Chart, figures: list[list[float]], marks: list[list[str]]) -> Found:
    """The parts of bars that do not begin where the one before ends, the first at 0, or are not as long as their figures."""
    origin, scale = chart.axis("x")
    found = [] if chart.texts("xtick_")[0] == "0" else ["no tick of 0"]
    for lengths, names in zip(figures, marks, strict=True):
        reached = origin
        for length, name in zip(lengths, names, strict=True):
            places = [x for x, _ in chart.points(name)]
            if abs(min(places) - reached) > 0.05 or abs(max(places) - min(places) - length * scale) > 0.05:
                found.append(f"{name}: {min(places)} to {max(places)}, not from {reached} for {length}")
            reached += length * scale
    return found


def curve_wrong(chart: Chart, name: str, figures: Points, rounded: float = 0) -> Found:
    """The points of a curve that are not at their figures, where these are rounded so far."""
    (left, wide), (bottom, high) = chart.axis("x"), chart.axis("y")
    wanted = [(left + x * wide, bottom + y * high) for x, y in figures]
    points = chart.points(name)
    apart = 0.05 + abs(rounded * high)
    good = len(points) == len(wanted) and all(
        abs(x - a) < 0.05 and abs(y - b) < apart for (x, y), (a, b) in zip(points, wanted, strict=True)
    )
    return [] if good else [f"{name}: {points}, not {wanted}"]


def map_wrong(chart: Chart, rows: list[list[str]]) -> Found:
    """The marks of a map whose depths are not those of the ticks between its affinities."""
    labels = set(chart.texts("text_"))
    ticks = sorted(number(row[3]) for row in rows if {row[0], row[1]} <= labels)
    wanted = [0.12 + 0.88 * (it / max(ticks)) ** 0.5 for it in ticks]
    found = chart.opacities()
    good = len(found) == len(wanted) and all(abs(a - b) < 0.001 for a, b in zip(found, wanted, strict=True))
    return [] if good else [f"{found}, not {wanted}"]


def of_trees(tables: Tables, kind: str) -> list[tuple[str, list[list[str]]]]:
    """The numbers of the trees that have a table of this kind, and these."""
    return [(name.removeprefix(kind), rows) for name, rows in sorted(tables.items()) if name.startswith(kind)]


def bounds_wrong(chart: Chart, tables: Tables, most: str) -> Found:
    found = []
    for tree, rows in of_trees(tables, "table-limits-"):
        lengths = {row[0]: number(row[2]) for row in rows if row[1] in ("-", most)}
        bars = [[lengths[it]] for it in LIMITS if it in lengths]
        found += bars_wrong(chart, bars, [[f"mark-{tree}-{it}"] for it in range(len(bars))])
    return found


def speeds_wrong(chart: Chart, tables: Tables) -> Found:
    found = []
    for tree, lines in of_trees(tables, "table-sweep-"):
        rows = sorted((it for it in lines if it[0] != "-"), key=lambda row: int(row[0]))
        for mark, column in (("mark", 2), ("ceiling", 3)):
            found += curve_wrong(chart, f"{mark}-{tree}", [(number(row[0]), number(row[column])) for row in rows], 0.006)
    return found


def figures_wrong(chart: Chart, tables: Tables, most: str) -> Found:
    """Where a chart does not show what the tables beside it have, for the greatest number of workers where it is of that alone."""
    kind, _, tree = chart.name.removeprefix("chart-").partition("-")
    if kind == "bounds":
        return bounds_wrong(chart, tables, most)
    if kind == "limits":
        stacks = [[number(it) for it in row[2:-1]] for row in tables["table-stacks"]]
        return bars_wrong(chart, stacks, [[f"mark-{line}-{it}" for it in range(len(row))] for line, row in enumerate(stacks)])
    if kind == "run":
        return bars_wrong(chart, [[number(row[1])] for row in tables["table-run"]], [[f"mark-{it}"] for it in range(3)])
    if kind == "speeds":
        return speeds_wrong(chart, tables)
    if kind == "latencies":
        rows = tables[f"table-percentiles-{tree}"]
        return [fault for it in (0, 1) for fault in curve_wrong(chart, f"mark-{it}", [(number(row[0]), number(row[1 + it])) for row in rows])]
    return map_wrong(chart, tables[f"table-waits-{tree}"] + tables.get(f"table-waits-more-{tree}", []))


def rules_of(style: str) -> Iterator[tuple[str, str, str]]:
    """The condition, the selector and the declarations of each rule of a style."""
    style = re.sub(r"/\*.*?\*/", "", style, flags=re.S)
    for condition, block in re.findall(r"(@media[^{]*)\{((?:[^{}]*\{[^{}]*\})*[^{}]*)\}", style):
        yield from ((condition, it, told) for it, told in re.findall(r"([^{}]+)\{([^{}]*)\}", block))
    rest = re.sub(r"@media[^{]*\{(?:[^{}]*\{[^{}]*\})*[^{}]*\}", "", style)
    yield from (("", it, told) for it, told in re.findall(r"([^{}]+)\{([^{}]*)\}", rest))


def widths_wrong(text: str) -> Found:
    """What is wider than a narrow window by a width of its own, in a style or an attribute, and may not be moved there."""
    style = "".join(re.findall(r"<style>(.*?)</style>", text, re.S))
    moved = {it.strip() for _, it, told in rules_of(style) if "overflow-x:auto" in told}
    found = []
    for condition, selector, told in rules_of(style):
        inside = selector.strip().rpartition(" ")[0] in moved
        for what, value in re.findall(r"(?:^|;|\s)(min-width|width|flex|flex-basis|grid-template-columns)\s*:\s*([^;]*)", told):
            fixed = re.findall(r"([0-9.]+)(rem|px|em)\b", re.sub(r"min\(100%,[^)]*\)", "", value))
            wide = any(float(size) * {"px": 1, "rem": 16, "em": 16}[unit] > NARROW for size, unit in fixed)
            if wide and not inside and "min-width" not in condition:
                found.append(f"{selector.strip()}: {what}:{value}")
    bare = re.sub(r"data:image[^\"]*", "", text)
    found += [it for it in re.findall(r'<(?:svg|img|table|div|figure|td)\b[^>]*\bwidth="?[0-9]+[^>]*>', bare)]
    for columns, table in re.findall(r"<table id=\"[^\"]*\"([^>]*)>(.*?)</table>", text, re.S):
        heads, cells, named = (len(re.findall(it, table)) for it in (r"<th\b", r"<td\b", r"<td\b[^>]*data-of=\"[^\"]*\""))
        if heads > 5 and ("many" not in columns or cells != named):
            found.append(f"a table of {heads} columns stays as wide")
    return found


def contrast(one: str, other: str) -> float:
    """That of two colours, as the guidelines of the web define it: from 1 to 21."""
    lights: list[float] = []
    for colour in (one, other):
        parts = [int(colour[it : it + 2], 16) / 255 for it in (1, 3, 5)]
        red, green, blue = (float(it / 12.92 if it <= 0.04045 else ((it + 0.055) / 1.055) ** 2.4) for it in parts)
        lights.append(0.2126 * red + 0.7152 * green + 0.0722 * blue)
    return (max(lights) + 0.05) / (min(lights) + 0.05)


def colours_wrong(colours: dict[str, str]) -> Found:
    """Texts that stand out less than 4.5 to 1, and marks that do so less than 3 to 1."""
    pairs = [(text, ground, 4.5) for text in ("ink", "quiet") for ground in ("ground", "raised")]
    pairs += [(mark, "ground", 3) for mark in colours if mark.startswith(("hue", "heat"))]
    return [f"{one} on {other}" for one, other, least in pairs if contrast(colours[one], colours[other]) < least]
