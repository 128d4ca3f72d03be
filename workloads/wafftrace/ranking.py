"""How the proved program plans traces under trees, and what no tree passes."""

import csv
import os
import tempfile
import time
from argparse import Namespace
from collections.abc import Callable, Iterator
from dataclasses import dataclass, field
from typing import TypeVar

from .calls import Job, Late, answers
from .clients import NONE
from .deals import Key, key_of
from .hierarchy import Tree
from .logs import Refusal, shown
from .traces import read_trace, write_file

MOST_RANKED = 64


@dataclass(slots=True)
class Figures:
    """What the program tells of a tree's list plan: its length, how long its messages wait in all and what they cost, their mean latency,
    and the one that 99 of 100 are at most."""

    length: int
    waits: int
    cost: int
    mean: str
    p99: int

    @staticmethod
    def of(row: dict[str, str], cost: int) -> "Figures":
        return Figures(int(row["list"]), int(row["waits"]), cost, row["mean"], int(row["p99"]))

    def latencies(self) -> int:
        """The sum of which the mean is taken, and not rounded."""
        return self.waits + self.cost


# The figures of a tree for each trace, and of each for each number of workers.
Row = tuple[Figures, ...]

# By what trees are sorted: first the figure that was asked for, then the others.
ORDERS: dict[str, Callable[[Figures], tuple[int, ...]]] = {
    "length": lambda it: (it.length, it.latencies(), it.p99),
    "mean": lambda it: (it.latencies(), it.p99, it.length),
    "p99": lambda it: (it.p99, it.latencies(), it.length),
}

Order = Callable[[Row], tuple[int, ...]]


def order(by: str, over: str) -> Order:
    """The order of trees by the sums, or the worst, of their figures for each trace and number of workers."""
    is_worst = over == "worst"
    return lambda row: tuple(max(it) if is_worst else sum(it) for it in zip(*map(ORDERS[by], row), strict=True))


@dataclass(frozen=True, slots=True)
class Source:
    """A trace that trees are ranked for: its file, how many messages it has, their cost, the last release, the operations of the
    largest, how many clients it has (0 where it has none), and whether no message is released later, no client
    ever thinks and no list has a gap."""

    name: str
    messages: int
    cost: int
    last: int
    longest: int
    clients: int
    is_at_once: bool

    @staticmethod
    def of(name: str) -> "Source":
        found = read_trace(name).messages
        return Source(
            name, len(found), sum(it.cost for it in found), max((it.release for it in found), default=0),
            max((it.count() for it in found), default=1), len({it.client for it in found} - {NONE}),
            not any(it.release or it.think or "+" in it.after for it in found),
        )


@dataclass(slots=True)
class Ranker:
    """Asks the program for what it tells of traces under trees, no tree twice; with a time of `time.monotonic` at which it ends."""

    asked: Namespace
    traces: list[Source]
    until: float | None = None
    # What is told while it asks: how many trees were asked for.
    on_step: Callable[[int], None] = lambda _count: None
    known: dict[Key, Row] = field(default_factory=dict)
    count: int = 0

    def rank(self, trees: list[Tree]) -> list[Row]:
        """The figures of the trees' list plans, in order."""
        keys = [key_of(it) for it in trees]
        new = {key: tree for key, tree in zip(keys, trees, strict=True) if key not in self.known}
        for part in parts([*new], self.at_once()):
            if self.until is not None and time.monotonic() >= self.until:
                raise Late
            found = self.told([new[key] for key in part])
            self.known |= zip(part, found, strict=True)
            self.count += len(part)
            self.on_step(self.count)
        return [self.known[key] for key in keys]

    def at_once(self) -> int:
        """How many trees are asked for before anything is told: all that a runner can share out, or some for each processor."""
        return 1 << 20 if self.asked.runner else MOST_RANKED * (os.cpu_count() or 1)

    def told(self, trees: list[Tree]) -> list[Row]:
        """What the program tells of these trees."""
        asked = self.asked
        if asked.folder and not os.path.isdir(asked.folder):
            raise Refusal(4, f"{shown(asked.folder)}: no folder")
        plans = [(trace, workers) for trace in self.traces for workers in asked.workers]
        with tempfile.TemporaryDirectory(dir=asked.folder) as folder:
            names = [os.path.abspath(os.path.join(folder, f"{number}.toml")) for number, _ in enumerate(trees, 1)]
            for name, tree in zip(names, trees, strict=True):
                write_file(name, tree.text())
            # As many calls as there are processors, at least.
            size = max(1, min(MOST_RANKED, -(-len(names) * len(plans) // (os.cpu_count() or 1))))
            texts = answers(asked, [self.job(*it, part) for it in plans for part in parts(names, size)], self.until)
        rows = [row for text in texts for row in csv.DictReader(text.splitlines())]
        if len(rows) != len(trees) * len(plans):
            raise Refusal(3, f"{len(rows)} trees were told of, and {len(trees) * len(plans)} were asked for")
        figures = [Figures.of(row, plans[at // len(trees)][0].cost) for at, row in enumerate(rows)]
        return [tuple(figures[at :: len(trees)]) for at in range(len(trees))]

    def job(self, trace: Source, workers: int, names: list[str]) -> Job:
        """The words of a call that ranks the trees of these files."""
        return ["rank", "--workers", str(workers), "--rule", self.asked.rule, "--", os.path.abspath(trace.name), *names]

    def floors(self, tree: str, data: str = "data") -> list[int]:
        """The least length that any tree allows, for each trace and number of workers: the greatest of what `waff limits` tells of the
        workers, the clients, the lists of what messages wait for, and the data; with `writes` in place of these that which any tree with any
        locks allows."""
        workers = ",".join(map(str, self.asked.workers))
        jobs = [["limits", "--workers", workers, "--", os.path.abspath(tree), os.path.abspath(it.name)] for it in self.traces]
        found: list[int] = []
        for text in answers(self.asked, jobs, self.until):
            rows = {(row["limit"], row["workers"]): int(row["length"]) for row in csv.DictReader(text.splitlines())}
            try:
                of_all = max(rows["clients", "-"], rows.get(("after", "-"), 0), rows[data, "-"])
                found += [max(of_all, rows["work", str(it)]) for it in self.asked.workers]
            except KeyError as fault:
                raise Refusal(3, f"`waff limits` told nothing of {fault}") from None
        return found


T = TypeVar("T")


def parts(them: list[T], size: int) -> Iterator[list[T]]:
    """A list in parts of so many."""
    return (them[at : at + size] for at in range(0, len(them), size))
