"""Traces at other prices, by the names and cells of their messages; and whether a gain holds at them."""

import os
import re
import tempfile
from argparse import Namespace
from collections.abc import Callable, Iterator, Sequence
from dataclasses import dataclass
from fractions import Fraction

from . import clients, limits
from .hierarchy import Tree, read_tree
from .logs import Refusal, shown
from .model import BLOCKS_SHARE, LEAST_CELL, shares
from .prices import Prices, by_size, installed, read_prices, upwards
from .ranking import Order, Ranker, Row, Source
from .sampling import sampled
from .traces import Message, Trace, cells, read_trace, write_file

# The names of messages that take and give back blocks for the one before them of their client.
BLOCKS = ("alloc", "free")
# Kinds of messages by their names: what is made four times as dear and as cheap together.
CLASSES = {
    "data": ("read", "write", "trim", "discard"),
    "names": ("create", "mkdir", "symlink", "mknod", "link", "rename", "unlink", "remove", "rmdir", "lookup"),
    "syncs": ("sync", "commit", "flush"),
}
TIMES = 4
# A gain holds if it is everywhere more than this part of the one told, and than so many per cent.
PART_HELD, LEAST_HELD = 3, 1.0

CELL = re.compile(r"A cell of data is ([0-9]{1,15}) bytes")
TICK = re.compile(r"^# Costs: .*, tick ([0-9]{1,9})(?:\.([0-9]{1,3}))? us;")
LATENCIES = re.compile(r"^# Latencies in the log, means in us: (.*)$")
SCALE = re.compile(r"([^=]+)=([0-9]{1,6}(?:\.[0-9]{1,4})?)")


@dataclass(frozen=True, slots=True)
class Made:
    """How a trace was made, as the remarks of its tree tell: the bytes of a cell, the nanoseconds of a tick (None where that is not known),
    and the mean latencies in nanoseconds by name."""

    cell: int
    tick: int | None
    latencies: dict[str, int]

    @staticmethod
    def of(tree: Tree) -> "Made":
        remarks = tree.comments.before.get(("model", ""), [])
        cell, tick, latencies = LEAST_CELL, None, dict[str, int]()
        for line in remarks:
            if found := CELL.search(line):
                cell = int(found[1]) or LEAST_CELL
            if found := TICK.match(line):
                tick = nanoseconds_of(found[1], found[2]) or None
            if found := LATENCIES.match(line):
                latencies = dict(latencies_of(found[1]))
        return Made(cell, tick, latencies)


def nanoseconds_of(whole: str, digits: str | None) -> int:
    """Microseconds with up to three digits after the point, in nanoseconds."""
    return 1000 * int(whole) + int((digits or "").ljust(3, "0"))


def latencies_of(text: str) -> Iterator[tuple[str, int]]:
    for word in text.split(", "):
        found = re.fullmatch(r"(\S+) ([0-9]{1,12})(?:\.([0-9]{1,3}))?", word)
        if found:
            yield found[1], nanoseconds_of(found[2], found[3])


@dataclass(slots=True)
class Group:
    """A message with those that take or give back blocks for it."""

    head: Message
    behind: list[Message]

    def cost(self) -> int:
        return self.head.cost + sum(it.cost for it in self.behind)


def groups_of(messages: Sequence[Message]) -> list[Group]:
    latest: dict[str, Group] = {}
    found: list[Group] = []
    for it in messages:
        group = latest.get(it.client)
        if it.name in BLOCKS and group is not None and it.client != clients.NONE and it.think == 0:
            group.behind.append(it)
            continue
        latest[it.client] = Group(it, [])
        found.append(latest[it.client])
    return found


# What a group costs: in ticks, or beside the others where all are made to cost the same together.
Price = Callable[[Group], int]


def within(cost: int) -> int:
    return min(max(1, cost), limits.COST)


def give(group: Group, cost: int) -> None:
    """Gives a request this cost. What takes blocks gets a part of it, as an import gives it."""
    if group.behind:
        share = max(1, cost // BLOCKS_SHARE)
        for it, part in zip(group.behind, shares(share, [it.count() for it in group.behind]), strict=True):
            it.cost = within(part)
        cost -= share
    group.head.cost = within(cost)


def balanced(trace: Trace, price: Price) -> None:
    """Gives the messages of a trace other costs, whose sum is about the one that they had: which cost more than which is what changes."""
    groups = groups_of(trace.messages)
    total, prices = sum(it.cost() for it in groups), [price(it) for it in groups]
    whole = max(1, sum(prices))
    for group, it in zip(groups, prices, strict=True):
        give(group, (2 * it * total + whole) // (2 * whole))


def by_table(called: str, table: Prices, version: int, cell: int) -> Price:
    """The price of a message in nanoseconds, by its name and the cells of data that it names."""

    def price(group: Group) -> int:
        named = cells(called, 1, group.head.ops, version)
        data = sum(last - first + 1 for space, first, last in named if space.endswith(".data"))
        return table.of(group.head.name, data * cell)

    return price


def by_latencies(latencies: dict[str, int]) -> Price:
    """The mean latency in the log of messages of the same name; of a name that has none that of all names."""
    others = sum(latencies.values()) // max(1, len(latencies))
    return lambda group: latencies.get(group.head.name, others)


def scaled(names: Sequence[str], by: Fraction) -> Price:
    """The cost, made so many times as great for messages of these names."""
    return lambda group: group.cost() * (by.numerator if group.head.name in names else by.denominator)


def all_one(group: Group) -> int:
    return 1


def pricings(made: Made, version: int) -> dict[str, Price]:
    """The pricings at which a gain is looked at, by what they are called."""
    found = {
        "size": by_table("", by_size(), version, made.cell),
        "table": by_table("", installed(), version, made.cell),
    }
    if made.latencies:
        found["latencies"] = by_latencies(made.latencies)
    found["all 1"] = all_one
    for kind, names in CLASSES.items():
        found[f"{kind} / {TIMES}"] = scaled(names, Fraction(1, TIMES))
        found[f"{kind} * {TIMES}"] = scaled(names, Fraction(TIMES))
    return found


@dataclass(frozen=True, slots=True)
class Verdict:
    """A gain in per cent as priced, and at other prices."""

    told: float
    others: dict[str, float]

    def text(self) -> str:
        """Whether it holds, in words."""
        least, most = min(self.others.values()), max(self.others.values())
        at = min(self.others, key=lambda it: self.others[it])
        by = f"{self.told:.1f} % as priced; {least:.1f} to {most:.1f} % over {len(self.others)} pricings"
        if least <= 0:
            return f"{by}: flips: {at}, {least:.1f} %"
        is_held = PART_HELD * least > self.told and least > LEAST_HELD
        return f"{by}, least by {at}: {'holds' if is_held else 'weak'}"


def gain_of(order: Order, first: Row, other: Row) -> float:
    """What the second of two trees gains, in per cent of the first one's figure."""
    before, after = order(first)[0], order(other)[0]
    return 100 * (before - after) / before if before else 0.0


def verdict(asked: Namespace, sources: Sequence[Source], first: Tree, other: Tree, order: Order) -> Verdict:
    """What a tree gains over another one as the traces are priced, and at other prices."""
    made = Made.of(first)
    with tempfile.TemporaryDirectory(dir=asked.folder) as folder:
        parts = [it for source in sources for it in sampled(source, None, folder)]
        every: dict[str, list[Source]] = {"": parts}
        for number, it in enumerate(parts):
            # Each pricing begins with the costs of the file.
            for at, (name, price) in enumerate(pricings(made, read_trace(it.name).version).items()):
                trace = read_trace(it.name)
                balanced(trace, price)
                file = os.path.join(folder, f"priced-{number}-{at}.csv")
                write_file(file, trace.text())
                every.setdefault(name, []).append(Source.of(file))
        ranked = Ranker(asked, [it for of in every.values() for it in of]).rank([first, other])
    width = len(parts) * len(asked.workers)
    rows = [[row[at : at + width] for row in ranked] for at in range(0, len(ranked[0]), width)]
    told, *others = (gain_of(order, *it) for it in rows)
    return Verdict(told, dict(zip([*every][1:], others, strict=True)))


def scale_of(word: str) -> tuple[str, Fraction]:
    """What `--scale` asks for: a name, and how many times its messages are as dear."""
    found = SCALE.fullmatch(word)
    if found is None:
        raise Refusal(2, f"--scale {shown(word)}: wanted is NAME=F, of a number F as 4 or 0.25")
    return found[1], Fraction(found[2])


def price(asked: Namespace) -> str:
    """The trace with other costs: by a table, or with those of some names made greater or less."""
    scales = [scale_of(it) for it in asked.scale]
    if bool(scales) == (asked.prices is not None):
        raise Refusal(2, "price: wanted is either --prices FILE or --scale NAME=F")
    trace = read_trace(asked.trace)
    for it in trace.messages:
        for name, by in scales:
            if it.name == name:
                it.cost = within(upwards(it.cost * by.numerator, by.denominator))
    if asked.prices is not None:
        made = Made.of(read_tree(asked.tree)) if asked.tree else Made(LEAST_CELL, None, {})
        table, tick = read_prices(asked.prices), asked.tick or made.tick or 1000
        price_of = by_table(shown(asked.trace), table, trace.version, asked.cell or made.cell)
        for group in groups_of(trace.messages):
            give(group, upwards(price_of(group), tick))
    return trace.text()
