"""Trees with other numbers of stripes and other units, or of a search, and how the proved program plans traces under each."""

import argparse
import itertools
import re
import signal
import sys
import tempfile
import time
from argparse import ArgumentParser, Namespace
from collections.abc import Callable
from dataclasses import replace
from fractions import Fraction

from . import limits
from .calls import Late, words_of_calls
from .clients import ONE_CLIENT
from .deals import bounds_of, homes_of
from .gaining import gains
from .hierarchy import Tree, read_tree
from .logs import Refusal, shown, tell
from .pricing import verdict
from .ranking import ORDERS, Order, Ranker, Row, Source, order
from .sampling import MOST_PLANNED, SAMPLE, sampled
from .searching import CAPS, Found, Search
from .traces import write_file
from .words import Words, number, run_words

STRIPES = (1, 2, 4, 8, 16, 32)
UNITS = tuple(1 << n for n in range(11))
MOST_TREES = 1000
# What a search alone takes, and what it takes without such a word.
OF_SEARCH: dict[str, object] = {
    "any_place": False, "price": 1.0, "most": limits.AFFINITIES, "enough": 1.0, "curve": False, "minutes": None, "sample": None,
}


def with_stripes(tree: Tree, spaces: list[str], count: int, unit: int) -> Tree:
    """The tree in which these spaces have so many stripes, each in a unit of so many cells; the same affinities stay where their
    number is the same. Where other spaces have the same list of stripes, they get the new list too."""
    parents, maps = tree.parents, dict(tree.maps)
    for old in dict.fromkeys(tuple(tree.maps[space][1]) for space in spaces):
        new = list(old)
        if len(new) != count:
            parents, new = striped(parents, new, count)
        maps = {space: (width, new if tuple(to) == old else to) for space, (width, to) in maps.items()}
    for space in spaces:
        maps[space] = unit, maps[space][1]
    return tree.changed(parents, maps)


def striped(parents: dict[str, str | None], owners: list[str], count: int) -> tuple[dict[str, str | None], list[str]]:
    """The affinities, and the names of the stripes, if there are so many of these: leaves below one parent, named alike."""
    above = {parents[it] for it in owners}
    if len(above) != 1 or None in above or len(set(owners)) != len(owners) or set(owners) & set(parents.values()):
        raise Refusal(3, f"{', '.join(owners[:4])}: no stripes, which are leaves below one affinity")
    stem = re.sub(r"[0-9]+$", "", owners[0])
    new = [f"{stem}{n}" for n in range(count)]
    if any(name in new for name in parents if name not in owners) or any(len(name) > limits.NAME for name in new):
        raise Refusal(3, f"{owners[0]}: no names for {count} stripes like it")
    found: dict[str, str | None] = {}
    for name, parent in parents.items():
        if name not in owners:
            found[name] = parent
        elif new[0] not in found:
            found |= dict.fromkeys(new, parent)
    return found, new


def largest(tree: Tree) -> list[str]:
    """The spaces that are tuned where none is named: the largest of those that have stripes, and those as large."""
    sizes = {space: size for space, size in tree.sizes.items() if len(tree.maps[space][1]) > 1}
    if not sizes:
        raise Refusal(3, "no space has stripes: name one with --space")
    return [space for space, size in sizes.items() if size == max(sizes.values())]


def order_of(row: Row, sources: list[Source]) -> str:
    """What trees are sorted by where nobody says: by the mean latency where the last message is released in the second half of the
    plan (of each trace and number of workers), so that it is the releases that make the plan long, and else by the length."""
    count = len(row) // len(sources)
    lasts = [it.last for it in sources for _ in range(count)]
    return "mean" if all(last and 2 * last >= it.length for last, it in zip(lasts, row, strict=True)) else "length"


def columns(names: list[str], workers: list[int], traces: int) -> str:
    """The header of a table with figures for so many workers and traces; their numbers are told where there are several."""
    told = list(names)
    for trace, count, it in itertools.product(range(1, traces + 1), workers, ("length", "mean", "p99")):
        told.append(it + (f"-{count}" if len(workers) > 1 else "") + (f"-t{trace}" if traces > 1 else ""))
    return ",".join(told)


def cells(row: Row) -> str:
    return ",".join(f"{it.length},{it.mean},{it.p99}" for it in row)


def numbers(word: str) -> list[int]:
    return [number(1, limits.LARGE_UNIT, "number")(it) for it in word.split(",")]


def workers_of(word: str) -> list[int]:
    found = [number(1, limits.WORKERS, "number")(it) for it in word.split(",")]
    if len(set(found)) != len(found):
        raise argparse.ArgumentTypeError(f"{word!r} has a number twice")
    return found


def decimal(least: Fraction, most: int, what: str) -> Callable[[str], float]:
    def read(word: str) -> float:
        if re.fullmatch(r"[0-9]{1,6}(\.[0-9]{1,4})?", word) is None or not least <= Fraction(word) <= most:
            raise argparse.ArgumentTypeError(f"{word!r} is no {what} from {least} to {most}")
        return float(word)

    return read


def words() -> ArgumentParser:
    top = Words(
        prog="waff-tune",
        description="Tries other numbers of stripes and other units for spaces of a tree, and prints for each how the proved program"
        " plans the trace for K workers: its length, the mean latency of its messages, and the latency that 99 of 100 have at most."
        " The best comes first. The first line is the tree as it is. Tested, not proved; its numbers are the program's.",
    ).version()
    top.add_argument("hier", metavar="HIER", help="the hierarchy, a TOML file")
    top.add_argument("trace", metavar="TRACE", help="the trace, a CSV file")
    top.add_argument(
        "--workers", type=workers_of, metavar="K,K..", required=True,
        help="how many messages may run at once, from 1 to 64; of several numbers the table shows the figures of each",
    )
    top.add_argument(
        "--space", nargs="+", metavar="NAME",
        help="spaces that are tuned together; by default the largest of those with stripes, and in a search all of several cells",
    )
    top.add_argument("--stripes", type=numbers, metavar="N,N..", help="numbers of stripes (1,2,4 .. 32)")
    top.add_argument("--unit", type=numbers, metavar="N,N..", help="units (1,2,4 .. 1024, up to the size of the space)")
    top.add_argument(
        "--by", choices=list(ORDERS),
        help="the best is the tree of the least length, mean or p99; by default of the least mean where the last message is released"
        " in the second half of the plan under the tree as it is, else of the least length",
    )
    top.add_argument(
        "--over", choices=["sum", "worst"], default="sum",
        help="with several numbers of workers or several traces the best is the tree whose figures have the least sum (sum), or of whose"
        " figures the greatest is the least (worst)",
    )
    top.add_argument("--rule", choices=["arrival", "longest"], default="arrival", help="the rule of the plans (arrival)")
    top.add_argument(
        "--also", action="append", metavar="TRACE", default=[],
        help="another trace that the tree is for (several times); the table shows the figures of each",
    )
    top.add_argument(
        "--hold", action="append", metavar="TRACE", default=[],
        help="a trace that the tree is not made for (several times): the best tree is ranked for it at the end, beside the tree as it is",
    )
    top.add_argument(
        "--beside", metavar="HIER",
        help="try no tree but this one: show its figures below those of the tree as it is, and whether its gain holds at other prices",
    )
    top.add_argument(
        "--gain", action="store_true",
        help="try no tree: print for each name of messages and each space what is planned if these messages did not name its cells, the"
        " greatest gain first",
    )
    top.add_argument(
        "--pricings", choices=["ten", "none"], default="ten",
        help="plan both trees at ten pricings too, and say whether the gain holds (ten, the default); none leaves that out",
    )
    words_of_search(top)
    top.add_argument("--write", metavar="FILE", help="write the best of the trees that are tried to this file; a search writes it after each change")
    words_of_calls(top)
    top.add_argument("--folder", metavar="DIR", help="where the trees that are tried are written (a folder of their own in it)")
    return top


def words_of_search(top: ArgumentParser) -> None:
    top.add_argument(
        "--search", action="store_true",
        help="search for a tree instead: change the unit, the number of stripes or the affinities of one space after another, or of"
        " two together, each time as is best, until nothing gains; prints each change, and the lower bound for all trees",
    )
    top.add_argument(
        "--any-place", action="store_true", default=None,
        help="search trees in which a space may go anywhere; by default a space stays below the lowest affinity that is no stripe and is"
        " at or above all that it has in HIER",
    )
    top.add_argument(
        "--price", type=decimal(Fraction(0), 10, "price"), metavar="PERCENT",
        help="what each additional affinity has to gain (1); a search ends by taking away those that gain less: these changes begin with `fewer:`",
    )
    top.add_argument("--most", type=number(1, limits.AFFINITIES, "number"), metavar="N", help="how many affinities a tree of a search may have")
    top.add_argument(
        "--enough", type=decimal(Fraction(0), 1000, "part"), metavar="PERCENT",
        help="end the search at a length that is at most PERCENT above the lower bound for all trees (1)",
    )
    top.add_argument(
        "--curve", action="store_true", default=None,
        help=f"print the best tree of at most {', '.join(map(str, CAPS))} affinities in place of the changes, and the lower bound for all trees",
    )
    top.add_argument(
        "--minutes", type=decimal(Fraction(1, 10000), 100000, "time"), metavar="M",
        help="end the search after M minutes with the best tree so far, as an interrupt does",
    )
    top.add_argument(
        "--sample", type=number(1, limits.MESSAGES, "number"), metavar="N",
        help="search with windows of a longer trace, of N messages together, and rank what is found on the whole"
        f" ({SAMPLE} for traces of more than {MOST_PLANNED})",
    )


def tune(asked: Namespace) -> str:
    if "-" in [asked.trace, *asked.also, *asked.hold]:
        raise Refusal(2, "the trace is read once for each tree, so it is a file")
    for word, usual in OF_SEARCH.items():
        if getattr(asked, word) is None:
            setattr(asked, word, usual)
        elif not asked.search:
            raise Refusal(2, f"--{word.replace('_', '-')}: wanted is --search beside it")
    if asked.gain and (asked.search or asked.stripes or asked.unit or asked.space or asked.write or asked.also or asked.beside is not None):
        raise Refusal(2, "--gain tries no tree, for one trace: it takes no --search, --stripes, --unit, --space, --write, --also and --beside")
    if asked.beside is not None and (asked.search or asked.stripes or asked.unit or asked.space or asked.write):
        raise Refusal(2, "--beside tries no tree but that one: it takes no --search, --stripes, --unit, --space and --write")
    tree = read_tree(asked.hier)
    sources = [Source.of(it) for it in (asked.trace, *asked.also)]
    if asked.beside is not None:
        return beside(asked, tree, sources)
    if asked.gain:
        return gained(asked, tree, sources)
    # A space of one cell stands for the whole of a volume or a device, so a search leaves it where it is.
    usual = [space for space, size in tree.sizes.items() if size > 1] if asked.search else largest(tree)
    spaces = list(dict.fromkeys(asked.space or usual))
    for space in spaces:
        if space not in tree.maps:
            raise Refusal(2, f"--space {shown(space)}: {shown(asked.hier)} has no such space")
    if asked.search and (asked.stripes or asked.unit):
        raise Refusal(2, "--search tries stripes and units of its own: it takes no --stripes and no --unit")
    if asked.search:
        return searched(asked, tree, spaces, sources)
    return tried(asked, tree, spaces, sources)


def tried(asked: Namespace, tree: Tree, spaces: list[str], sources: list[Source]) -> str:
    """The table of trees with other stripes and units for these spaces."""
    most = max(tree.sizes[space] for space in spaces)
    units = asked.unit or [unit for unit in UNITS if unit <= most]
    most_cells = limits.LARGE_UNIT if tree.is_large else limits.CELLS
    if max(units) > most_cells:
        raise Refusal(2, f"--unit {max(units)}: a unit of this hierarchy has at most {most_cells} cells")
    stripes = asked.stripes or STRIPES
    tries = list(dict.fromkeys(itertools.product(stripes, units)))
    if len(tries) > MOST_TREES or max(stripes) > limits.OWNERS:
        raise Refusal(2, f"{len(tries)} trees of up to {max(stripes)} stripes: at most {MOST_TREES} of {limits.OWNERS}")
    trees = [with_stripes(tree, spaces, *it) for it in tries]
    tell(f"{many(len(trees), 'tree', 'trees')} with other stripes or units for {', '.join(spaces)}")
    first, *others = Ranker(asked, sources).rank([tree, *trees])
    by = asked.by or order_of(first, sources)
    tell_calm(first, sources)
    key = order(by, asked.over)
    found = sorted(zip(others, tries, trees, strict=True), key=lambda it: (key(it[0]), it[1]))
    lines = [columns(["stripes", "unit"], asked.workers, len(sources)), f"-,-,{cells(first)}"]
    lines += [f"{stripes},{unit},{cells(it)}" for it, (stripes, unit), _ in found]
    row, (count, unit), best = found[0]
    if asked.write:
        write_file(asked.write, best.text())
    tell_pricings(asked, sources, (tree, first), (best, row), key)
    tell_held(asked, tree, best, key)
    name = f"{many(count, 'stripe', 'stripes')} of unit {unit}"
    if key(row) >= key(first):
        name = f"the tree as it is; the best of the others is {name}"
    tell(f"the best by {deciding(asked, by)} is {name}: {gain(asked, by, row, first)}{written(asked)}")
    return "\n".join(lines) + "\n"


def tell_calm(row: Row, sources: list[Source]) -> None:
    """Tells where messages hardly wait under the tree as it is, so that other trees can gain nothing, and what may be done about it."""
    most = max(row, key=lambda it: it.waits / max(1, it.cost))
    if 100 * most.waits < most.cost:
        told = f"messages wait {most.waits} ticks in all, and cost {most.cost}"
        tell(f"under the tree as it is {told}: another tree gains little{cure(sources)}")


def cure(sources: list[Source]) -> str:
    """What to do where messages hardly wait: nothing where no client ever pauses."""
    if all(it.clients == 1 for it in sources):
        return f"; {ONE_CLIENT}"
    return "" if all(it.is_at_once for it in sources) else " (`waff-trace pace --at-once` leaves out the pauses of the trace)"


def tell_pricings(asked: Namespace, sources: list[Source], old: tuple[Tree, Row], new: tuple[Tree, Row], key: Order) -> None:
    """Tells whether what a tree gains over the first one holds at other prices."""
    if asked.pricings == "ten" and key(new[1])[0] < key(old[1])[0]:
        tell(f"gain {verdict(asked, sources, old[0], new[0], key).text()}")


def beside(asked: Namespace, tree: Tree, sources: list[Source]) -> str:
    """The figures of two trees, and whether what the second one gains holds at other prices."""
    other = read_tree(asked.beside)
    first, second = Ranker(asked, sources).rank([tree, other])
    by = asked.by or order_of(first, sources)
    key = order(by, asked.over)
    if asked.pricings == "ten":
        tell(f"gain {verdict(asked, sources, tree, other, key).text()}")
    name = shown(asked.beside)
    tell(f"{name} by {deciding(asked, by)}: {gain(asked, by, second, first)}")
    lines = [columns(["hierarchy"], asked.workers, len(sources)), f"{shown(asked.hier)},{cells(first)}", f"{name},{cells(second)}"]
    return "\n".join(lines) + "\n"


def deciding(asked: Namespace, by: str) -> str:
    """By what the best tree is the best, in words. Of several means it is by all latencies."""
    several = [f"{', '.join(map(str, asked.workers))} workers"] if len(asked.workers) > 1 else []
    several += [f"{1 + len(asked.also)} traces"] if asked.also else []
    if not several:
        return by
    return f"{'latencies' if by == 'mean' else by} ({asked.over} for {' and '.join(several)})"


def figure(asked: Namespace, by: str, row: Row) -> str:
    """The figure of a tree that decides."""
    return row[0].mean if by == "mean" and len(row) == 1 else str(order(by, asked.over)(row)[0])


def gain(asked: Namespace, by: str, new: Row, old: Row) -> str:
    """The figure of a tree that decides, beside that of the tree as it is."""
    after, before = (order(by, asked.over)(row)[0] for row in (new, old))
    if after == before:
        return f"{figure(asked, by, new)}, as under the tree as it is"
    percent = f"{100 * abs(after - before) / before:.1f} % {'less' if after < before else 'more'}"
    return f"{figure(asked, by, new)}, {percent} than {figure(asked, by, old)} under the tree as it is"


def written(asked: Namespace) -> str:
    """Where the tree is that was told of."""
    return f"; it is in {shown(asked.write)}" if asked.write else ""


def tell_held(asked: Namespace, first: Tree, best: Tree, key: Order) -> None:
    """Tells how the traces that the tree was not made for are planned under it."""
    for name in asked.hold:
        old, new = Ranker(asked, [Source.of(name)]).rank([first, best])
        tell(f"{shown(name)}: {told(new)}; under the tree as it is {told(old)}")
        if key(new) > key(old):
            tell(f"WARNING: {shown(name)}: the tree that was found is worse there than the tree as it is")


def told(row: Row) -> str:
    return "; ".join(f"length {it.length}, mean {it.mean}, p99 {it.p99}" for it in row)


def gained(asked: Namespace, tree: Tree, sources: list[Source]) -> str:
    """The table of what is planned where messages of one name do not name the cells of one space, the greatest gain first."""
    (first,) = Ranker(asked, sources).rank([tree])
    by = asked.by or order_of(first, sources)
    rows = gains(asked, tree, sources[0], order(by, asked.over))
    name, space, _, best = rows[1]
    tell(f"the most is gained by {by} where {name} does without {space}: {gain(asked, by, best, first)}")
    lines = [columns(["name", "space", "messages"], asked.workers, 1)]
    lines += [f"{name},{space},{count or sources[0].messages},{cells(row)}" for name, space, count, row in rows]
    return "\n".join(lines) + "\n"


class Progress:
    """A line at a terminal that tells how far a search is."""

    def __init__(self) -> None:
        self.is_seen = sys.stderr.isatty()
        self.best = ""

    def show(self, count: int) -> None:
        if self.is_seen:
            print(f"\r\033[Kwaff-tune: {count} trees planned; the best has {self.best}", end="", file=sys.stderr, flush=True)

    def clear(self) -> None:
        if self.is_seen:
            print("\r\033[K", end="", file=sys.stderr, flush=True)

    def tell(self, text: str) -> None:
        self.clear()
        tell(text)


def searched(asked: Namespace, tree: Tree, spaces: list[str], sources: list[Source]) -> str:
    """The changes that a search made for these spaces, and the figures after each; or the best trees of few affinities."""
    signal.signal(signal.SIGTERM, signal.default_int_handler)
    whole = Ranker(asked, sources)
    (first,) = whole.rank([tree])
    by = asked.by or order_of(first, sources)
    tell_calm(first, sources)
    tell(f"searching for the least {deciding(asked, by)}")
    floors = whole.floors(asked.hier) if by == "length" else []
    locked = whole.floors(asked.hier, "writes") if by == "length" else []
    with tempfile.TemporaryDirectory(dir=asked.folder) as folder:
        windows = [it for source in sources for it in sampled(source, asked.sample, folder)]
        made = search_of(asked, tree, spaces, Ranker(asked, windows, known=whole.known if windows == sources else {}), by)
        is_done = run(asked, made, tree)
    steps, curve = made.steps, made.curve() if asked.curve else []
    if windows != sources:
        # What gained on the windows counts by what it is on the whole. Who interrupts it waits for one tree alone.
        steps = ranked(whole, steps if is_done else [steps[0], steps[-1]])
        curve = [(cap, it and ranked(whole, [it])[0]) for cap, it in curve]
    best = best_of(made, steps)
    if asked.write:
        write_file(asked.write, best.tree.text())
    # Whether it holds comes first of what is told of the tree that was found.
    if is_done:
        tell_pricings(asked, sources, (tree, first), (best.tree, best.row), order(by, asked.over))
    tell(f"{many(made.ranker.count, 'tree was', 'trees were')} planned")
    tell_held(asked, tree, best.tree, order(by, asked.over))
    told_best = f"the best by {deciding(asked, by)} is {tree_found(asked, made, best, first, by)}"
    tell(f"{told_best}{written(asked)}{floor(asked, best.row, floors, locked)}")
    if asked.curve:
        return curve_text(asked, curve, floors)
    lines = [columns(["change"], asked.workers, len(sources)), *(f"{it.what},{cells(it.row)}" for it in steps)]
    return "\n".join(lines) + "\n"


def search_of(asked: Namespace, tree: Tree, spaces: list[str], ranker: Ranker, by: str) -> Search:
    bounds = bounds_of(tree, spaces) + ([] if asked.any_place else [*homes_of(tree, spaces).items()])
    floors = ranker.floors(asked.hier) if by == "length" else []
    enough = total(asked, floors) * (1 + asked.enough / 100) if floors else -1.0
    longest = max(it.longest for it in ranker.traces)
    return Search(spaces, longest, bounds, ranker, order(by, asked.over), asked.price / 100, asked.most, enough)


def run(asked: Namespace, made: Search, tree: Tree) -> bool:
    """Searches, and tells and writes what is found. False where it is stopped before its end."""
    progress, ranker = Progress(), made.ranker

    def changed(found: Found) -> None:
        progress.best = "; ".join(f"length {it.length}, mean {it.mean}" for it in found.row)
        progress.tell(f"{found.what}: {progress.best}")
        if asked.write:
            write_file(asked.write, found.tree.text())

    ranker.on_step, made.on_change = progress.show, changed
    ranker.until = asked.minutes and time.monotonic() + 60 * asked.minutes
    if not made.begin(tree):
        raise Refusal(2, f"--most {asked.most}: {made.steps[-1].count()} affinities are left where no space has any of its own")
    try:
        made.improve()
        made.lessen()
        if asked.curve:
            made.climb()
    except KeyboardInterrupt:
        progress.tell("interrupted: the best tree so far")
        return False
    except Late:
        progress.tell(f"{asked.minutes:g} minutes are over: the best tree so far")
        return False
    progress.clear()
    return True


def ranked(ranker: Ranker, found: list[Found]) -> list[Found]:
    """These trees, with the figures of other traces."""
    return [replace(it, row=row) for it, row in zip(found, ranker.rank([it.tree for it in found]), strict=True)]


def best_of(made: Search, steps: list[Found]) -> Found:
    """The best of these trees of a search: the last that gains or is worth it, in the order in which they were made."""
    best = steps[-1] if steps[0].count() > made.most else steps[0]
    for it in steps[1:]:
        if it.count() <= made.most and (made.gains(it, best) or made.is_worth(it, best)):
            best = it
    return best


def total(asked: Namespace, lengths: list[int]) -> int:
    return max(lengths) if asked.over == "worst" else sum(lengths)


def tree_found(asked: Namespace, made: Search, best: Found, first: Row, by: str) -> str:
    """The best tree of a search, by its changes, and the figure that decides beside that of the tree as it is."""
    changes = next(number for number, it in enumerate(made.steps) if it.tree is best.tree)
    if changes == 0:
        return f"the tree as it is: {figure(asked, by, first)}"
    name = f"the tree after {many(changes, 'change', 'changes')}, of {many(best.count(), 'affinity', 'affinities')}"
    return f"{name}: {gain(asked, by, best.row, first)}"


def many(count: int, one: str, several: str) -> str:
    return f"{count} {one if count == 1 else several}"


def floor(asked: Namespace, row: Row, floors: list[int], locked: list[int]) -> str:
    """What is less under no tree, and where readers would gain by locks that they share under none with any locks, beside a tree whose plans
    have these figures."""
    if not floors:
        return ""
    least, below, length = total(asked, floors), total(asked, locked), total(asked, [it.length for it in row])
    told = "; no tree has less" + (f" than {least}" if least < length else "")
    return told + (f", none with shared locks less than {below}" if below < least else "")


def curve_text(asked: Namespace, curve: list[tuple[int, Found | None]], floors: list[int]) -> str:
    """The table of the best trees of few affinities."""
    traces = 1 + len(asked.also)
    lines = [columns(["most", "affinities"], asked.workers, traces)]
    none = ",-,-,-" * traces * len(asked.workers)
    lines += [f"{cap},{it.count()},{cells(it.row)}" if it else f"{cap},-{none}" for cap, it in curve]
    lines += ["floor,-" + "".join(f",{it},-,-" for it in floors)] if floors else []
    return "\n".join(lines) + "\n"


def main(given: list[str]) -> int:
    return run_words(given, words, tune)
