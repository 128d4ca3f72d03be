"""What a trace has, counted: `waff-trace stats`."""

import collections
import re
from argparse import Namespace
from collections.abc import Iterator, Sequence

from . import clients, limits, lists
from .logs import rows_of, shown, tell
from .traces import LINES, NAME, PART, Opened, cells, opened, record_of

# A line whose message has one operation, on a cell or a range, as most have, by the version of the trace: its fields, and the space and
# the first and the last cell.
CELL = r"(?:(?P<read>read)|set|add) ([^ :;,\"\r\n]+):([0-9]{1,18})(?:-([0-9]{1,18}))?(?(read)| [^ ;,\"\r\n]*)"
ONES = {version: re.compile(line.pattern.removesuffix(f"{NAME}$") + f"{CELL}$", re.M) for version, line in LINES.items()}


# The cells of a space that have a byte each, where they are touched.
MOST_NEAR = 1 << 24


class Touched:
    """The cells of a space that are touched: a byte for each of the first ones, and the ranges of the others: of those with the same first
    cell the longest."""

    def __init__(self) -> None:
        self.near = bytearray()
        self.far: dict[int, int] = {}

    def add(self, first: int, last: int) -> None:
        """Takes the cells from one to another."""
        near, end = self.near, min(last + 1, MOST_NEAR)
        if end > len(near):
            near.extend(bytes(min(max(end, 2 * len(near)), MOST_NEAR) - len(near)))
        if first < end:
            near[first:end] = b"\1" * (end - first)
        if last >= MOST_NEAR:
            begun = max(first, MOST_NEAR)
            self.far[begun] = max(last, self.far.get(begun, -1))

    def count(self) -> int:
        count, end = self.near.count(1), -1
        for first, last in sorted(self.far.items()):
            if last > end:
                count += last - (end if end >= first else first - 1)
                end = last
        return count


def ratio(number: int, by: int) -> str:
    """A quotient with two digits after the point, or with so many that two are not the zeros before them; rounded down."""
    if by == 0:
        return "-"
    places = 2
    while 0 < number * 10**places < 10 * by:
        places += 1
    found = number * 10**places // by
    return f"{found // 10**places}.{found % 10**places:0{places}}"


class Tally:
    """How many messages there are of each name or client, and what they cost."""

    def __init__(self) -> None:
        self.counts: collections.Counter[str] = collections.Counter()
        self.costs: dict[str, int] = {}

    def add(self, names: Sequence[str], costs: Sequence[int]) -> None:
        """Takes messages of these names."""
        self.counts.update(names)
        found = self.costs
        for name, cost in zip(names, costs, strict=True):
            found[name] = found.get(name, 0) + cost

    def lines(self) -> Iterator[str]:
        return (f"{name},{count},{self.costs[name]}" for name, count in self.counts.items())


class Counts:
    """What the messages of a trace come to."""

    def __init__(self, called: str, version: int) -> None:
        self.called = called
        self.version = version
        self.most_ops = limits.OPS if version > 2 else limits.EARLIER_OPS
        # Of lists: how many messages have one, the pieces of all, the most of one, gaps that are too long; and when messages are issued, as
        # recorded and at once.
        self.waiting = self.pieces = self.longest = self.over_gap = 0
        self.issues, self.at_once = lists.Issues(), lists.Issues()
        self.operations = self.last = self.think = 0
        self.over_ops = self.over_cost = self.over_release = self.over_think = 0
        self.touched: dict[str, Touched] = collections.defaultdict(Touched)
        self.names = Tally()
        self.clients = Tally()
        # When each client began, and its last message ended.
        self.begun: dict[str, int] = {}
        self.ends: dict[str, int] = {}

    def add(self, found: Opened) -> None:
        """Takes all messages, those of one operation by columns."""
        if found.plain is None:
            for number, record in enumerate(found.records, 2):
                self.message(number, record)
            return
        number = 2
        for _, rows, part in rows_of(found.plain, ONES[self.version], PART):
            if rows and self.ones(list(zip(*rows, strict=True))):
                number += len(rows)
                continue
            for line in filter(None, part.split("\n")):
                self.message(number, record_of(self.called, self.version, number, line))
                number += 1

    def ones(self, columns: list[tuple[str, ...]]) -> bool:
        """Takes messages of one operation each. False where a range is none, and nothing is taken."""
        firsts = list(map(int, columns[-2]))
        lasts = [int(last) if last else first for first, last in zip(firsts, columns[-1], strict=True)]
        counts = [last - first + 1 for first, last in zip(firsts, lasts, strict=True)]
        if min(counts) < 1 or self.version < 3 and any(columns[-1]):
            return False
        touched = self.touched
        for space, first, last in zip(columns[-3], firsts, lasts, strict=True):
            near = touched[space].near
            if last < len(near):
                near[first : last + 1] = b"\1" * (last - first + 1)
            else:
                touched[space].add(first, last)
        self.of_messages(columns, counts)
        return True

    def message(self, number: int, record: Sequence[str]) -> None:
        """Takes a message of any operations."""
        found = cells(self.called, number, record[-1], self.version)
        for space, first, last in found:
            self.touched[space].add(first, last)
        self.of_messages([(it,) for it in record], [sum(last - first + 1 for _, first, last in found)])

    def of_messages(self, columns: Sequence[Sequence[str]], counts: list[int]) -> None:
        """Takes the names, the costs and the times of messages of so many operations."""
        costs = list(map(int, columns[1]))
        self.operations += sum(counts)
        self.over_ops += above(counts, self.most_ops)
        self.over_cost += above(costs, limits.COST) + costs.count(0)
        self.names.add(columns[0], costs)
        if self.version == 1:
            return
        releases = list(map(int, columns[2]))
        self.over_release += above(releases, limits.RELEASE)
        if self.version == 2:
            self.last = max(self.last, *releases)
            return
        thinks = list(map(int, columns[4]))
        self.over_think += above(thinks, limits.THINK)
        self.think += sum(thinks)
        self.clients.add(columns[3], costs)
        if self.version == 4:
            self.of_lists(columns[3], costs, releases, thinks, columns[5])
            return
        self.of_clients(columns[3], costs, releases, thinks)

    def of_lists(self, names: Sequence[str], costs: list[int], releases: list[int], thinks: list[int], after: Sequence[str]) -> None:
        """Takes when messages start that wait for others too."""
        for client, cost, release, think, it in zip(names, costs, releases, thinks, after, strict=True):
            if it:
                count = it.count(" ") + 1
                self.over_gap += sum(gap > limits.THINK for _, gap in lists.pieces_of(it)) if "+" in it else 0
                self.waiting, self.pieces, self.longest = self.waiting + 1, self.pieces + count, max(self.longest, count)
            self.at_once.next(cost, 0, client, 0, lists.without_gaps(it))
            start = self.issues.next(cost, release, client, think, it)
            self.last = max(self.last, start)
            if client != clients.NONE:
                self.begun.setdefault(client, start)
                self.ends[client] = start + cost

    def of_clients(self, names: Sequence[str], costs: list[int], releases: list[int], thinks: list[int]) -> None:
        """Takes when the messages of these clients start."""
        ends, last = self.ends, self.last
        for client, cost, release, think in zip(names, costs, releases, thinks, strict=True):
            start = ends.get(client, 0) + think
            if release > start:
                start = release
            if start > last:
                last = start
            if client != clients.NONE:
                if client not in ends:
                    self.begun[client] = start
                ends[client] = start + cost
        self.last = last


def above(numbers: list[int], most: int) -> int:
    """How many of these numbers are greater."""
    return sum(it > most for it in numbers) if max(numbers) > most else 0


def stats(asked: Namespace) -> str:
    """What a trace has, and how much of it is over the limits of waff."""
    trace = opened(asked.trace)
    version = trace.version
    found = Counts(shown(asked.trace), version)
    found.add(trace)
    messages, cost = found.names.counts.total(), sum(found.names.costs.values())
    has_clients = bool(found.begun)
    spaces = {space: found.touched[space].count() for space in sorted(found.touched)}
    most = limits.MESSAGES if version > 2 else limits.EARLIER_MESSAGES
    lines = [
        f"messages,{messages}",
        f"operations,{found.operations}",
        f"cells,{sum(spaces.values())}",
        f"cost,{cost}",
        f"release,{found.last}",
        f"load,{ratio(cost, found.last)}",
        f"over-messages,{max(0, messages - most)}",
        f"over-operations,{found.over_ops}",
        f"over-cost,{found.over_cost}",
        f"over-release,{found.over_release}",
    ]
    if version > 2:
        lines += [
            f"over-all-operations,{max(0, found.operations - limits.ALL_OPS)}",
            f"over-think,{found.over_think}",
            f"clients,{len(found.begun)}",
            f"clients-at-once,{clients.most_at_once((found.begun[it], found.ends[it]) for it in found.begun)}",
            f"think,{found.think}",
        ]
    if version == 4:
        lines += [
            f"lists,{found.waiting}",
            f"pieces,{found.pieces}",
            f"longest-list,{found.longest}",
            f"over-pieces,{max(0, found.pieces - limits.AWAITED)}",
            f"over-gap,{found.over_gap}",
            f"at-once,{max(found.at_once.finishes, default=0)}",
            f"at-once-without-lists,{max(found.clients.costs.values(), default=0)}",
        ]
    lines += ["space,cells", *(f"{space},{count}" for space, count in spaces.items()), "name,messages,cost", *found.names.lines()]
    if version > 2:
        lines += ["client,messages,cost", *found.clients.lines()]
    if not has_clients:
        tell("the trace has no clients: speed-ups are those of as many clients as messages")
    return "\n".join(lines) + "\n"
