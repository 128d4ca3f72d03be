#!/usr/bin/env python3
"""Small traces, and all trees that a search could make for them.

    small.py keep [N ..]     ranks all trees for the traces of these numbers, or for all, and writes the least lengths to small.csv

A trace has up to eight cells of each of three spaces, and 10 to 40 messages, at random or of a window of a recorded log. A tree has up
to seven affinities. `small.csv` has for each trace the number of workers, how many trees there are, and the length of the best."""

import csv
import itertools
import os
import random
import re
import subprocess
import sys
import tempfile
from collections.abc import Iterator
from concurrent.futures import ThreadPoolExecutor
from dataclasses import dataclass
from pathlib import Path

sys.dont_write_bytecode = True
HERE = Path(__file__).resolve().parent
sys.path[:0] = [str(HERE.parent), str(HERE.parent.parent / "workloads")]

from common import program  # noqa: E402
from wafftrace.deals import key_of  # noqa: E402
from wafftrace.hierarchy import Tree  # noqa: E402

KEPT = HERE / "small.csv"
COUNT = 200
MOST = 7
SPACES = ("a", "b", "c")
LOGS = ("box/box.csv", "jobs/jobs.csv", "nfs3/nfs3.csv", "nfs4/nfs4.csv")
# The spaces of a recorded log: its names, its data, and the map of its blocks. A small cell of data is eight cells.
KINDS = {"vol": "a", "dir": "a", "inode": "a", "data": "b", "map": "c"}
HEADER = "message,cost,release,client,think,ops"


@dataclass(slots=True)
class Small:
    """A trace with its first tree, for so many workers."""

    name: str
    workers: int
    first: Tree
    trace: str


def small(number: int) -> Small:
    dice = random.Random(number)
    lines, sizes = recorded(dice) if number % 2 else drawn(dice)
    return Small(f"small-{number}", dice.choice((2, 3, 4, 8)), first(sizes, number % 4 < 2), "\n".join([HEADER, *lines]) + "\n")


def first(sizes: list[int], is_deep: bool) -> Tree:
    """The tree of a volume with names above two stripes and a map beside them; or one affinity, and two stripes below it."""
    parents: dict[str, str | None] = {"V": None}
    if is_deep:
        parents |= {"V.L": "V", "V.S0": "V.L", "V.S1": "V.L", "V.B": "V"}
    else:
        parents |= {"V.S0": "V", "V.S1": "V"}
    names, blocks = ("V.L", "V.B") if is_deep else ("V", "V")
    maps = {"a": (1, [names]), "b": (2, ["V.S0", "V.S1"]), "c": (1, [blocks])}
    return Tree("hierarchical", parents, dict(zip(SPACES, sizes, strict=True)), maps)


def drawn(dice: random.Random) -> tuple[list[str], list[int]]:
    """A trace at random: of messages of one or two cells, with clients, with releases or all at once."""
    sizes = [dice.randint(2, 8) for _ in SPACES]
    weights = [dice.randint(1, 5) for _ in SPACES]
    clients = [f"c{n}" for n in range(dice.randint(2, 6))] if dice.randrange(3) else ["-"]
    step = dice.choice((0, 0, 3))
    lines = []
    for number in range(dice.randint(10, 40)):
        ops = []
        for _ in range(dice.choice((1, 1, 1, 2))):
            at = dice.choices(range(3), weights)[0]
            ops.append(f"read {SPACES[at]}:{dice.randrange(sizes[at])}")
        lines.append(f"m,{dice.randint(1, 20)},{number * step},{dice.choice(clients)},0,{';'.join(ops)}")
    return lines, sizes


def recorded(dice: random.Random) -> tuple[list[str], list[int]]:
    """A window of a recorded log, whose cells are few: those that come first have the first numbers, and from eight on they come again."""
    rows = list(csv.DictReader((HERE / dice.choice(LOGS)).read_text().splitlines()))
    count = dice.randint(10, 40)
    begin = dice.randrange(len(rows) - count)
    met: dict[str, dict[int, int]] = {it: {} for it in SPACES}
    lines = []
    for row in rows[begin : begin + count]:
        ops = []
        for kind, index, last in re.findall(r" Vol\.(\w+):([0-9]+)(?:-([0-9]+))?", row["ops"]):
            space = KINDS[kind]
            width = 8 if kind == "data" else 1
            # An inode is no directory, and the volume is neither.
            apart = {"inode": 1 << 20, "vol": 1 << 30}.get(kind, 0)
            for cell in range(int(index) // width, int(last or index) // width + 1):
                numbers = met[space]
                ops.append(f"read {space}:{numbers.setdefault(cell + apart, len(numbers) % 8)}")
        lines.append(f"m,{row['cost']},0,{row.get('client', '-')},0,{';'.join(dict.fromkeys(ops))}")
    return lines, [max(2, min(8, len(met[it]))) for it in SPACES]


def trees(first: Tree) -> Iterator[Tree]:
    """All trees of at most so many affinities that a search could make of this one: each space is in one of the affinities that stay, or
    is dealt out to some of its own or of it and others, which stand below one that stays or the first one of others."""
    inner = [it for it in first.parents if it in first.parents.values()]
    for blocks in blocks_of(list(SPACES)):
        # The number of affinities of each block, 0 for one that stays.
        for counts in itertools.product(range(MOST), repeat=len(blocks)):
            if 1 + sum(counts) <= MOST:
                yield from placed(first, inner, blocks, counts)


def blocks_of(spaces: list[str]) -> Iterator[list[list[str]]]:
    """All ways of spaces to be together."""
    if not spaces:
        yield []
        return
    for rest in blocks_of(spaces[1:]):
        yield [[spaces[0]], *rest]
        for at in range(len(rest)):
            yield [*rest[:at], [spaces[0], *rest[at]], *rest[at + 1 :]]


def placed(first: Tree, inner: list[str], blocks: list[list[str]], counts: tuple[int, ...]) -> Iterator[Tree]:
    """The trees of these blocks of spaces with so many affinities each."""
    others = [f"{it}0" for it in range(len(blocks)) if counts[it]]
    units = [[1, 2, 4, 8] if counts[at] > 1 else [1] for at, block in enumerate(blocks) for _ in block]
    for places in itertools.product(*([*inner, *(it for it in others if it != f"{at}0" and counts[at])] for at in range(len(blocks)))):
        parents: dict[str, str | None] = {it: first.parents[it] for it in inner}
        waiting = [at for at in range(len(blocks)) if counts[at]]
        while ready := [at for at in waiting if places[at] in parents]:
            for at in ready:
                parents |= {f"{at}{n}": places[at] for n in range(counts[at])}
            waiting = [at for at in waiting if at not in ready]
        owners = [[f"{at}{n}" for n in range(counts[at])] or [places[at]] for at in range(len(blocks))]
        used = {above for it in owners if not waiting for owner in it for above in Tree("", parents, {}, {}).way(owner)}
        parents = {it: parent for it, parent in parents.items() if it in used}
        if waiting or len(parents) > MOST:
            continue
        flat = [(space, owners[at]) for at, block in enumerate(blocks) for space in block]
        for choice in itertools.product(*units):
            maps = {space: (unit, to) for (space, to), unit in zip(flat, choice, strict=True)}
            yield first.changed(parents, {it: maps[it] for it in SPACES})


def least(given: Small, waff: str) -> tuple[int, int]:
    """How many trees there are, and the least length of a plan."""
    found = {key_of(it): it for it in trees(given.first)}
    lengths: list[int] = []
    with tempfile.TemporaryDirectory() as folder:
        trace = Path(folder, "trace.csv")
        trace.write_text(given.trace)
        texts = [it.text() for it in found.values()]
        for at in range(0, len(texts), 64):
            names = []
            for number, text in enumerate(texts[at : at + 64]):
                names.append(os.path.join(folder, f"{number}.toml"))
                Path(names[-1]).write_text(text)
            words = [waff, "rank", "--workers", str(given.workers), str(trace), *names]
            told = subprocess.run(words, capture_output=True, text=True, check=True).stdout
            lengths += [int(row["list"]) for row in csv.DictReader(told.splitlines())]
    return len(lengths), min(lengths)


def kept() -> dict[str, tuple[int, int, int]]:
    """Of each trace the number of workers, how many trees there are, and the least length."""
    rows = csv.DictReader(KEPT.read_text().splitlines()) if KEPT.exists() else []
    return {row["trace"]: (int(row["workers"]), int(row["trees"]), int(row["best"])) for row in rows}


def keep(numbers: list[int]) -> None:
    waff = program()

    def one(number: int) -> str:
        given = small(number)
        count, best = least(given, waff)
        print(f"{given.name}: {count} trees, the best has {best}", file=sys.stderr)
        return f"{given.name},{given.workers},{count},{best}\n"

    lines = {it: f"{it},{','.join(map(str, row))}\n" for it, row in kept().items()}
    with ThreadPoolExecutor(os.cpu_count()) as pool:
        lines |= {line.partition(",")[0]: line for line in pool.map(one, numbers)}
    ordered = sorted(lines, key=lambda it: int(it.removeprefix("small-")))
    KEPT.write_text("trace,workers,trees,best\n" + "".join(lines[it] for it in ordered))


if __name__ == "__main__":
    if sys.argv[1:2] != ["keep"]:
        sys.exit("usage: small.py keep [N ..]")
    keep([*map(int, sys.argv[2:])] or list(range(COUNT)))
