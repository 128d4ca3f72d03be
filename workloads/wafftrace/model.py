"""A volume or devices as spaces of cells, and requests as messages of a trace over them."""

import collections
import csv
import io
import operator
from argparse import Namespace
from collections.abc import Iterable, Iterator
from dataclasses import dataclass, field
from typing import Protocol

from . import limits
from .clients import Loop
from .hierarchy import Tree
from .logs import Data, File, Lines, Meta, Refusal, Request, counted, named, seconds, tell
from .order import Item, Lists, Order
from .prices import Costs, upwards

LEAST_CELL = 4096
SECTOR = 512
LEAST_UNIT = 8
INODE_CELLS = 65536
DIRECTORY_CELLS = 32768

# Of a request that takes or gives back blocks, the part of its cost that is for them is one of so many.
BLOCKS_SHARE = 4

VOLUME = "Vol"


def power_from(number: int) -> int:
    """The least power of two that is no less."""
    return 1 << max(0, number - 1).bit_length()


class Store(Protocol):
    """What a log is of: its files, and how they are laid out as cells."""

    # Whether it has a map of blocks that requests take and give back.
    has_map: bool

    def data_space(self, file: File) -> str:
        """The space of a file's data."""

    def block(self, requests: Iterable[Request]) -> int:
        """The bytes of a block, which no cell needs to be smaller than."""

    def place(self, cell: int, unit: int) -> dict[str, int]:
        """Places the files, in cells and units of so many bytes and cells. Tells how many cells there are, by their spaces."""

    def index(self, store: str, space: str, number: int) -> int:
        """The cell of a directory or an inode of a volume."""

    def cells(self, cell: int) -> Iterator[tuple[str, int, int, str]]:
        """Which cells are whose: space, first and last cell, and name."""

    def tree(self, spaces: dict[str, int], stripes: int, unit: int) -> tuple[Tree, dict[str, str]]:
        """The hierarchy for these spaces, and what each is of."""


@dataclass(slots=True)
class Found:
    """What logs tell: the requests of a store, the lines of the logs themselves and of those beside them, and what else is to be told."""

    store: Store
    requests: list[Request]
    logs: list[Lines]
    beside: list[Lines] = field(default_factory=list)
    said: list[str] = field(default_factory=list)
    # What each request waits for, where the trace is to have lists.
    order: Order | None = None

    def report(self, messages: int) -> None:
        """Tells what was kept, then what was left out."""
        lines = counted(sum(it.count for it in self.logs), self.logs[0].what)
        name = f"{self.logs[0].name}: " if len(self.logs) == 1 else ""
        tell(f"{name}kept {counted(messages, 'messages')} of {lines}{f' in {len(self.logs)} logs' if not name else ''}")
        for log in [*self.logs, *self.beside]:
            log.report()
        for text in self.said:
            tell(text)


class Log(Protocol):
    """The reader of a form of logs, by the words of its command."""

    def __call__(self, asked: Namespace) -> Found: ...


class Volume:
    """A tree of files: what its directories and inodes are numbered, and where its files lie in the space of its data."""

    has_map = True

    def __init__(self, name: str = VOLUME) -> None:
        self.name = name
        self.files: list[File] = []
        self.directories = 0

    def new_file(self, name: str) -> File:
        file = File(name, len(self.files), volume=self.name)
        self.files.append(file)
        return file

    def directory(self, file: File) -> int:
        """The number of a directory."""
        if file.directory is None:
            file.directory = self.directories
            self.directories += 1
        return file.directory

    def data_space(self, file: File) -> str:
        return self.name + ".data"

    def block(self, requests: Iterable[Request]) -> int:
        return LEAST_CELL

    def place(self, cell: int, unit: int) -> dict[str, int]:
        """Places the files one behind another, each in cells of its own where these are small, and none across the edge of a
        unit without need. Tells how many cells there are, by their spaces."""
        at = 0
        for file in self.files:
            if file.end:
                step = max(min(power_from(file.end), unit * cell), min(cell, LEAST_CELL))
                file.base = upwards(at, step) * step
                at = file.base + file.end
        data = max(1, upwards(at, cell))
        self.inodes_a_cell = power_from(upwards(len(self.files), INODE_CELLS))
        self.directories_a_cell = power_from(upwards(self.directories, DIRECTORY_CELLS))
        return {
            self.name + ".vol": 1,
            self.name + ".dir": max(1, upwards(self.directories, self.directories_a_cell)),
            self.name + ".inode": max(1, upwards(len(self.files), self.inodes_a_cell)),
            self.name + ".data": data,
            self.name + ".map": upwards(data, unit),
        }

    def index(self, store: str, space: str, number: int) -> int:
        """The cell of a directory or an inode."""
        if space == "dir":
            return number // self.directories_a_cell
        return number // self.inodes_a_cell if space == "inode" else 0

    def cells(self, cell: int) -> Iterator[tuple[str, int, int, str]]:
        for file in self.files:
            if file.end:
                yield self.name + ".data", file.base // cell, (file.base + file.end - 1) // cell, file.name
        for space, numbers in (
            ("inode", [(file.inode, file.name) for file in self.files]),
            ("dir", sorted((file.directory, file.name) for file in self.files if file.directory is not None)),
        ):
            for number, name in numbers:
                index = self.index(self.name, space, number)
                yield f"{self.name}.{space}", index, index, name

    def tree(self, spaces: dict[str, int], stripes: int, unit: int) -> tuple[Tree, dict[str, str]]:
        root, above, below = self.name, self.name + ".Logical", self.name + ".VBN"
        logical = [f"{self.name}.S{n}" for n in range(stripes)]
        ranges = [f"{self.name}.R{n}" for n in range(stripes)]
        parents: dict[str, str | None] = {"Serial": None, root: "Serial", above: root, **dict.fromkeys(logical, above)}
        parents |= {below: root, **dict.fromkeys(ranges, below)}
        tables = {
            self.name + ".vol": (1, [root], "the volume's own blocks"),
            self.name + ".dir": (1, [above], "directories"),
            self.name + ".inode": (1, logical, "inodes"),
            self.name + ".data": (unit, logical, "user data"),
            self.name + ".map": (1, ranges, "the map of free blocks: a cell for each unit of the data"),
        }
        maps = {space: (unit, owners) for space, (unit, owners, _) in tables.items()}
        return Tree("hierarchical", parents, spaces, maps), {space: what for space, (_, _, what) in tables.items()}


class Volumes:
    """Several volumes."""

    has_map = True

    def __init__(self, volumes: list[Volume]) -> None:
        self.volumes = {it.name: it for it in volumes}

    def data_space(self, file: File) -> str:
        return file.volume + ".data"

    def block(self, requests: Iterable[Request]) -> int:
        return LEAST_CELL

    def place(self, cell: int, unit: int) -> dict[str, int]:
        return {space: size for it in self.volumes.values() for space, size in it.place(cell, unit).items()}

    def index(self, store: str, space: str, number: int) -> int:
        return self.volumes[store].index(store, space, number)

    def cells(self, cell: int) -> Iterator[tuple[str, int, int, str]]:
        for it in self.volumes.values():
            yield from it.cells(cell)

    def tree(self, spaces: dict[str, int], stripes: int, unit: int) -> tuple[Tree, dict[str, str]]:
        parents: dict[str, str | None] = {}
        maps: dict[str, tuple[int, list[str]]] = {}
        remarks: dict[str, str] = {}
        for it in self.volumes.values():
            tree, told = it.tree(spaces, stripes, unit)
            parents |= tree.parents
            maps |= tree.maps
            remarks |= told
        return Tree("hierarchical", parents, spaces, maps), remarks


class Devices:
    """Block devices: each is a file of its own, from byte 0 on."""

    has_map = False

    def __init__(self) -> None:
        self.files: dict[str, File] = {}

    def device(self, name: str) -> File:
        return self.files.setdefault(name, File(name, len(self.files)))

    def data_space(self, file: File) -> str:
        return file.name + ".data"

    def block(self, requests: Iterable[Request]) -> int:
        """That of the file system above, where all requests are of whole ones, and else a sector."""
        is_whole = all((it.offset | it.length) % LEAST_CELL == 0 for it in requests if isinstance(it, Data))
        return LEAST_CELL if is_whole else SECTOR

    def place(self, cell: int, unit: int) -> dict[str, int]:
        spaces = {}
        for file in self.files.values():
            spaces[file.name + ".dev"] = 1
            spaces[file.name + ".data"] = max(1, upwards(file.end, cell))
        return spaces or {"dev": 1}

    def index(self, store: str, space: str, number: int) -> int:
        return 0

    def cells(self, cell: int) -> Iterator[tuple[str, int, int, str]]:
        for file in self.files.values():
            yield file.name + ".dev", 0, 0, file.name
            yield self.data_space(file), 0, max(1, upwards(file.end, cell)) - 1, file.name

    def tree(self, spaces: dict[str, int], stripes: int, unit: int) -> tuple[Tree, dict[str, str]]:
        parents: dict[str, str | None] = {"Serial": None}
        maps: dict[str, tuple[int, list[str]]] = {}
        remarks: dict[str, str] = {}
        for file in self.files.values():
            owners = [f"{file.name}.S{n}" for n in range(stripes)]
            parents |= {file.name: "Serial", **dict.fromkeys(owners, file.name)}
            dev, data = file.name + ".dev", file.name + ".data"
            maps |= {dev: (1, [file.name]), data: (unit, owners)}
            remarks |= {dev: "the device as a whole", data: "its sectors"}
        if not maps:
            maps, remarks = {"dev": (1, ["Serial"])}, {"dev": "no device"}
        return Tree("hierarchical", parents, spaces, maps), remarks


class Shape:
    """How large a cell and a unit are, the cells that come of that, and whether they want a hierarchy of format 2 (`is_large`).
    A message has `most` operations."""

    def __init__(self, store: Store, requests: list[Request], options: Namespace, most: int) -> None:
        self.store = store
        self.asked_unit: int | None = options.unit
        self.most = most
        moved = [it for it in requests if isinstance(it, Data) and it.kind != "free"]
        self.longest = max((it.length for it in moved), default=1)
        self.lay(options.cell or LEAST_CELL)
        self.is_large: bool = options.large or max(self.count, self.unit) > limits.CELLS
        if self.is_large:
            self.lay_large(moved, options.cell)

    def lay(self, cell: int) -> None:
        """Lays the files in cells of so many bytes."""
        self.cell = cell
        self.unit = self.asked_unit or min(max(power_from(upwards(self.longest, cell)), LEAST_UNIT), self.most)
        self.spaces = self.store.place(cell, self.unit)
        self.count = sum(self.spaces.values())

    def lay_large(self, moved: list[Data], cell: int | None) -> None:
        """Lays them in cells of so many bytes, or in those of the least power of two, from a block on, with which each request that
        moves data is one message."""
        if cell is None:
            self.lay(max(self.store.block(moved), power_from(upwards(self.longest, self.most))))
            while self.has_parts(moved) or max(self.spaces.values()) > limits.LARGE_SIZE:
                self.lay(self.cell * 2)
        elif max(self.spaces.values()) > limits.LARGE_SIZE:
            raise Refusal(2, f"--cell {cell} makes {self.count} cells, and a space has at most {limits.LARGE_SIZE}")

    def has_parts(self, moved: list[Data]) -> bool:
        """Whether a request is more than one message. The longer ones alone can be in so many cells."""
        cell, most = self.cell, self.most
        if self.longest <= (most - 1) * cell:
            return False
        ends = ((it.place.base + it.offset, it.length) for it in moved if it.length > (most - 1) * cell)
        return any((at + length - 1) // cell - at // cell >= most for at, length in ends)


def shares(total: int, weights: list[int]) -> list[int]:
    """A cost divided by weights, so that the parts add up to it and each is at least 1."""
    whole, before, sum_so_far = sum(weights), 0, 0
    parts = []
    for weight in weights:
        sum_so_far += weight
        upto = total * sum_so_far // whole
        parts.append(max(1, upto - before))
        before = upto
    return parts


def pieces(first: int, last: int, most: int) -> list[tuple[int, int]]:
    """The cells from one to another in runs of so many that a message has room for, which end before a multiple of that."""
    if last - first < most:
        return [(first, last)]
    runs = []
    while first <= last:
        end = min(last, first - first % most + most - 1)
        runs.append((first, end))
        first = end + 1
    return runs


# A name, a cost and operations.
Line = tuple[str, int, str]


class Messages:
    """The lines of a trace, made of the requests in the order of their times. Their costs are those that were measured, or those of
    their sizes. With a `loop` the trace has clients, with an `order` lists of what each message waits for."""

    def __init__(self, store: Store, shape: Shape, options: Namespace, costs: Costs, loop: Loop | None, order: Order | None = None) -> None:
        self.store = store
        self.cell = shape.cell
        self.unit = shape.unit
        self.most = shape.most
        self.options = options
        self.measured = costs.measured
        self.tick = costs.tick
        self.costs = costs
        self.loop = loop
        self.lines = ["message,cost,release,client,think,ops" if loop else "message,cost,release,ops"]
        self.order = order if loop is not None and loop.is_closed else None
        self.lists = Lists()
        # The list of the next message, where messages have some; and the requests as they were issued, with their costs.
        self.after = ""
        self.items: list[Item] = []
        self.item_costs: list[int] = []
        if self.order is not None:
            self.lines = ["message,cost,release,client,think,after,ops"]
        self.client = "-"
        self.release = self.think = self.latest = self.count = 0
        self.cut_costs = 0
        self.guessed: collections.Counter[str] = collections.Counter()
        self.number = 0
        # How the operations of reads and writes of a file begin.
        self.heads: dict[str, dict[File, str]] = {"read": {}, "write": {}, "free": {}}
        # Whether requests take or give back blocks, and each write does.
        self.takes = store.has_map and options.blocks != "none"
        self.takes_all = self.takes and options.blocks == "all"

    def add(self, requests: list[Request]) -> None:
        if self.order is not None:
            self.add_ordered(self.order, requests)
            return
        requests.sort(key=operator.attrgetter("time"))
        start = requests[0].time if requests else 0
        times = self.loop.times(requests, start) if self.loop else (((it.time - start) // self.tick, 0) for it in requests)
        if self.measured:
            guessed = [it for it in requests if it.took is None]
            self.guessed.update(it.name for it in guessed if isinstance(it, Data) or it.ops)
        heads, costs, tick, cell, most, add = self.heads, self.costs.of, self.tick, self.cell, self.most, self.lines.append
        measured, takes = self.measured, self.takes
        # A read or write without blocks is one line, and so are most requests.
        is_one = {"read": self.loop is not None, "write": self.loop is not None and not self.takes_all, "free": False}
        operations = latest = 0
        for it, (release, think) in zip(requests, times, strict=True):
            if not isinstance(it, Data):
                self.meta(it, release, think)
                continue
            self.number += 1
            file, kind, took = it.place, it.kind, it.took if measured else None
            head = heads[kind].get(file) or self.head(kind, file)
            at = file.base + it.offset
            first, last = at // cell, (at + it.length - 1) // cell
            cost = costs(it.name, it.length) if took is None else -(-took // tick) or 1
            if not is_one[kind] or last - first >= most or cost > limits.COST or it.fresh is not None and takes:
                self.data(it, release, think, cost, head, first, last)
                continue
            operations += last - first + 1
            if release > latest:
                latest = release
            cells = first if first == last else f"{first}-{last}"
            if kind == "read":
                add(f"{it.name},{cost},{release},{it.client},{think},{head}{cells}")
            else:
                add(f"{it.name},{cost},{release},{it.client},{think},{head}{cells} {self.number}")
        self.count += operations
        self.latest = max(self.latest, latest)

    def add_ordered(self, order: Order, requests: list[Request]) -> None:
        """The same with lists: each names the last messages of the requests that it waits for."""
        self.items = list(order.items(requests))
        tick, start = self.tick, min((it.time for it in requests), default=0)
        last: dict[int, int] = {}
        if self.measured:
            self.guessed.update(it.name for it in requests if it.took is None and (isinstance(it, Data) or it.ops))
        for item in self.items:
            it = item.request
            release = (it.time - start if item.came else item.release) // tick
            self.after = self.list_of(item, last) if item.after else ""
            self.item_costs.append(self.of_request(it, release, self.gap(item.think)))
            last[item.number] = len(self.lines) - 1
            self.lists.messages = len(self.lines) - 1

    def of_request(self, it: Request, release: int, think: int) -> int:
        """The messages of a request. Answers what it costs."""
        if not isinstance(it, Data):
            return self.meta(it, release, think)
        self.number += 1
        head = self.heads[it.kind].get(it.place) or self.head(it.kind, it.place)
        at = it.place.base + it.offset
        cost = self.price(it.name, it.length, it.took if self.measured else None)
        self.data(it, release, think, cost, head, at // self.cell, (at + it.length - 1) // self.cell)
        return cost

    def price(self, name: str, length: int, took: int | None) -> int:
        return self.costs.of(name, length) if took is None else -(-took // self.tick) or 1

    def gap(self, nanoseconds: int) -> int:
        """A think time in ticks, cut where it is longer than a trace has it."""
        return self.loop.think(nanoseconds) if self.loop is not None else 0

    def gap_behind(self, nanoseconds: int) -> int:
        """The gap behind a message that another one waits for, in the same way."""
        ticks = nanoseconds // self.tick
        if ticks <= limits.THINK:
            return ticks
        self.lists.cut += 1
        self.lists.longest = max(self.lists.longest, nanoseconds)
        return limits.THINK

    def list_of(self, item: Item, last: dict[int, int]) -> str:
        """What a message waits for: the numbers of messages, and the gaps behind them."""
        pieces = []
        for number, gap, kind in item.after:
            if last[number] > 0:
                pieces.append((last[number], self.gap_behind(gap)))
                self.lists.by_kind[kind] += 1
        if len(pieces) > 1:
            pieces.sort()
        self.lists.pieces += len(pieces)
        self.lists.waiting += bool(pieces)
        return " ".join([f"{number}+{gap}" if gap else f"{number}" for number, gap in pieces])

    def head(self, kind: str, file: File) -> str:
        """How an operation on the data of a file begins."""
        found = self.heads[kind][file] = f"{'read' if kind == 'read' else 'set'} {self.store.data_space(file)}:"
        return found

    def data(self, it: Data, release: int, think: int, cost: int, head: str, first: int, last: int) -> None:
        """The messages of a request for these cells."""
        self.release, self.think, self.client = release, think, it.client
        blocks = self.taken(it, first, last) if self.takes else None
        cost, after = self.blocks(cost, it.place.volume, [blocks]) if blocks else (cost, [])
        tail = "" if it.kind == "read" else " 0" if it.kind == "free" else f" {self.number}"
        if last - first < self.most:
            self.line(it.name, cost, self.operations(head, first, last, tail))
        else:
            runs = pieces(first, last, self.most)
            parts = shares(cost, [end - begin + 1 for begin, end in runs])
            for (begin, end), part in zip(runs, parts, strict=True):
                self.line(it.name, part, self.operations(head, begin, end, tail))
        for line in after:
            self.line(*line)

    def line(self, name: str, cost: int, ops: str) -> None:
        if cost > limits.COST:
            self.cut_costs += 1
            cost = limits.COST
        if self.release > self.latest:
            self.latest = self.release
        if self.loop is None:
            self.lines.append(f"{name},{cost},{self.release},{ops}")
            return
        after = f"{self.after}," if self.order is not None else ""
        self.lines.append(f"{name},{cost},{self.release},{self.client},{self.think},{after}{ops}")
        self.after = ""
        # What else comes of the request follows at once.
        self.release = 0 if self.loop.is_closed else self.release
        self.think = 0

    def operations(self, head: str, first: int, last: int, tail: str) -> str:
        """An operation on each of these cells; a trace with clients has it once, with their range."""
        self.count += last - first + 1
        if self.loop is None:
            return ";".join([f"{head}{n}{tail}" for n in range(first, last + 1)])
        return f"{head}{first}{tail}" if first == last else f"{head}{first}-{last}{tail}"

    def taken(self, it: Data, first: int, last: int) -> tuple[str, int, int] | None:
        """The blocks that a request takes or gives back, as `blocks` wants them; None where it does not."""
        if it.later:
            return None
        if it.kind == "free":
            return "free", first, last
        if it.kind == "write":
            if self.takes_all:
                return "alloc", first, last
            if it.fresh is not None:
                first = upwards(it.place.base + it.fresh, self.cell)
                if first <= last:
                    return "alloc", first, last
        return None

    def blocks(self, cost: int, volume: str, every: list[tuple[str, int, int]]) -> tuple[int, list[Line]]:
        """What is left of a cost behind the messages for the blocks of these cells of a volume, and these messages."""
        share = max(1, cost // BLOCKS_SHARE)
        wanted: list[tuple[str, int, int]] = []
        for name, begin, end in sorted((name, first // self.unit, last // self.unit) for name, first, last in every):
            if wanted and wanted[-1][0] == name and begin <= wanted[-1][2] + 1:
                wanted[-1] = name, wanted[-1][1], max(end, wanted[-1][2])
            else:
                wanted.append((name, begin, end))
        runs = [(name, *it) for name, first, last in wanted for it in pieces(first, last, self.most)]
        parts = shares(share, [end - begin + 1 for _, begin, end in runs])
        lines = [
            (name, part, self.operations(f"add {volume}.map:", begin, end, " 1"))
            for (name, begin, end), part in zip(runs, parts, strict=True)
        ]
        return max(1, cost - share), lines

    def meta(self, it: Meta, release: int, think: int) -> int:
        """The messages of a request that moves no data; one that does nothing has none. Answers what it costs."""
        if not it.ops:
            return 0
        self.number += 1
        self.release, self.think, self.client = release, think, it.client
        took = it.took if self.measured else None
        whole = cost = self.price(it.name, 0, took)
        after: list[Line] = []
        if it.blocks and self.options.blocks != "none":
            runs = []
            for file, begin, end, name in it.blocks:
                first, last = upwards(file.base + begin, self.cell), (file.base + end - 1) // self.cell
                if first <= last:
                    runs.append((name, first, last))
            if runs:
                cost, after = self.blocks(cost, it.blocks[0][0].volume, runs)
        words = []
        for word, store, space, number in it.ops:
            cell = f"{store}.{space}:{self.store.index(store, space, number)}"
            words.append({"read": f"read {cell}", "set": f"set {cell} {self.number}", "add": f"add {cell} 1"}[word])
        words = list(dict.fromkeys(words))
        self.count += len(words)
        for line in [(it.name, cost, ";".join(words)), *after]:
            self.line(*line)
        return whole


def trace_text(messages: Messages) -> str:
    return "\n".join(messages.lines) + "\n"


def map_text(store: Store, shape: Shape) -> str:
    """Which cells are whose, as CSV."""
    text = io.StringIO()
    rows = csv.writer(text, lineterminator="\n")
    rows.writerow(("space", "first", "last", "name"))
    rows.writerows((space, first, last, named(name)) for space, first, last, name in store.cells(shape.cell))
    return text.getvalue()


def tree_text(store: Store, shape: Shape, stripes: int, remarks_of_trace: list[str]) -> str:
    """The hierarchy that accepts the trace, with remarks of what the trace was made of."""
    tree, remarks = store.tree(shape.spaces, stripes, shape.unit)
    if len(tree.parents) > limits.AFFINITIES or len(tree.maps) > limits.SPACES:
        raise Refusal(3, f"{len(tree.parents)} affinities, {len(tree.maps)} spaces: more than a hierarchy has (fewer --stripes may do)")
    tree.is_large = shape.is_large
    tree.comments.before["model", ""] = [f"# Made by waff-trace. A cell of data is {shape.cell} bytes.", *remarks_of_trace]
    tree.comments.beside = {("space", space): f"# {what}" for space, what in remarks.items()}
    return tree.text()


def refuse_clock(messages: Messages, logs: list[Lines]) -> None:
    """Refuses logs in which a clock goes back so far that waff would refuse the trace."""
    tick: int = messages.options.tick
    for log in logs:
        back = log.back // tick
        if messages.latest > limits.RELEASE and (back > limits.RELEASE or messages.latest - back <= limits.RELEASE):
            told = f"the last release is {messages.latest:,}, above {limits.RELEASE:,}"
            raise Refusal(3, f"{log.name}: its clock goes back by {seconds(log.back)} s, so that {told}: part the log there")


def warn(messages: Messages, shape: Shape, logs: list[Lines]) -> None:
    """Tells what of the trace waff would refuse, and what was cut so that it does not."""
    if shape.is_large and shape.count > limits.CELLS:
        tell(f"{shape.count} cells: the hierarchy is of format 2, and `waff replay` takes at most {limits.CELLS} (a larger --cell)")
    count = len(messages.lines) - 1
    if messages.guessed:
        names = ", ".join(f"{name} {times}" for name, times in sorted(messages.guessed.items()))
        tell(f"requests without a latency, which cost their price: {messages.guessed.total()} ({names})")
    if advice := messages.costs.advice(messages.number):
        tell(advice)
    if messages.cut_costs:
        tell(f"costs above {limits.COST} ticks, which were cut to that: {messages.cut_costs} (a larger --tick keeps them)")
    most = limits.MESSAGES if messages.loop else limits.EARLIER_MESSAGES
    if count > most:
        tell(f"{count} messages are more than the {most} that waff takes: `waff-trace window` parts the trace")
    if messages.loop:
        messages.loop.warn()
        if messages.count > limits.ALL_OPS:
            tell(f"{messages.count} operations are more than the {limits.ALL_OPS} that waff takes: a larger --cell, or `waff-trace window`")
    if messages.lists.pieces > limits.AWAITED:
        tell(f"{messages.lists.pieces} pieces of lists are more than the {limits.AWAITED} that waff takes: `waff-trace window` parts the trace")
    refuse_clock(messages, logs)
    if messages.latest > limits.RELEASE:
        tell(f"the last release, {messages.latest}, is above {limits.RELEASE}: a larger --tick, or `waff-trace window`")
