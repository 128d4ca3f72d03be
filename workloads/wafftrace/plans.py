"""The text of a plan that another scheduler made: its starts, and the workers if it has some."""

import csv
import io
import itertools
from argparse import Namespace
from collections.abc import Iterator, Sequence

from . import limits
from .clients import NONE
from .hierarchy import Tree, read_tree
from .lists import pieces_of
from .logs import Refusal, is_number, read_text, shown
from .traces import Cells, Trace, cells, read_trace


def affinities_of(tree: Tree, trace: Trace, name: str) -> Iterator[tuple[str, list[Cells]]]:
    """For each message of the trace of this file its affinity, and the cells that it names."""
    called = shown(name)
    for number, it in enumerate(trace.messages, 2):
        named = cells(called, number, it.ops, trace.version)
        owners = [tree.owners(*it) for it in named]
        if not all(owners):
            raise Refusal(3, f"{called}: record {number}: a cell that the hierarchy does not have")
        yield tree.lowest(owner for found in owners for owner in found), named


def read_starts(name: str, count: int) -> tuple[list[int], list[int | None], bool]:
    """The start and the worker (None where there is none) of each message. The rows are a message's number, its start and, if the
    plan is for workers, its worker; a header is skipped."""
    called = "standard input" if name == "-" else shown(name)
    rows: dict[int, tuple[int, int | None]] = {}
    width = 0
    try:
        for number, record in enumerate((it for it in csv.reader(io.StringIO(read_text(name), newline="")) if it), 1):
            if number == 1 and record[0] == "message":
                continue
            width = width or len(record)
            if len(record) != width or width not in (2, 3) or not all(is_number(it) for it in record):
                raise Refusal(3, f"{called}: record {number} is no message's number, start and (if all have one) worker")
            message = int(record[0])
            if not 1 <= message <= count or message in rows:
                raise Refusal(3, f"{called}: record {number}: message {message} is none of the trace, or had its start before")
            rows[message] = int(record[1]), int(record[2]) if width == 3 else None
    except (csv.Error, ValueError) as fault:
        raise Refusal(3, f"{called}: no CSV: {fault}") from None
    for message in range(1, count + 1):
        if message not in rows:
            raise Refusal(3, f"{called}: no start of message {message}")
    found = [rows[message] for message in range(1, count + 1)]
    return [start for start, _ in found], [worker for _, worker in found], width == 3


class Seen:
    """The greatest finish of the messages that were seen, and the lowest number with it, by their affinities: of those in one, and of
    those in it or below it."""

    def __init__(self, tree: Tree) -> None:
        self.tree = tree
        self.own: dict[str, tuple[int, int]] = {}
        self.below: dict[str, tuple[int, int]] = {}

    def last(self, affinity: str) -> list[tuple[int, int]]:
        """Those of the messages that exclude this affinity: the greatest is the last one."""
        found = [self.own[it] for it in self.tree.way(affinity)[1:] if it in self.own]
        return found + [self.below[affinity]] if affinity in self.below else found

    def add(self, affinity: str, finish: int, number: int) -> None:
        entry = finish, -number
        self.own[affinity] = max(self.own.get(affinity, entry), entry)
        for it in self.tree.way(affinity):
            self.below[it] = max(self.below.get(it, entry), entry)


def chain_of(tree: Tree, affinities: list[str], trace: Trace, starts: list[int], finishes: list[int]) -> list[int]:
    """The printed chain: it ends with the message of greatest finish, and before each message stands the one of greatest finish
    among those that it waits for, unless its release is no less. It waits for the earlier ones that exclude it; in a trace with clients
    for those that exclude it and start before it, a think time for the one before of its client, and a gap for those of its list. The
    lowest number decides a tie."""
    seen = Seen(tree)
    own = ones_before(trace)
    before: dict[int, int] = {}
    for group in groups_of(trace, starts):
        for number in group:
            last = seen.last(affinities[number])
            last += [(finishes[one] + gap, -one) for one, gap in awaited(trace, own, number).items() if starts[one] < starts[number]]
            if last and max(last)[0] > floor_of(trace, own, number):
                before[number] = -max(last)[1]
        for number in group:
            seen.add(affinities[number], finishes[number], number)
    if not finishes:
        return []
    chain = [max(range(len(finishes)), key=lambda n: (finishes[n], -n))]
    while chain[-1] in before:
        chain.append(before[chain[-1]])
    return chain[::-1]


def ones_before(trace: Trace) -> dict[int, int]:
    """The message before each one of its client, by their numbers from 0."""
    latest: dict[str, int] = {}
    found = {}
    for number, it in enumerate(trace.messages):
        if it.client != NONE:
            if it.client in latest:
                found[number] = latest[it.client]
            latest[it.client] = number
    return found


def awaited(trace: Trace, own: dict[int, int], number: int) -> dict[int, int]:
    """The messages that one waits for by its client or its list, and the ticks behind their finishes."""
    found = {one - 1: gap for one, gap in pieces_of(trace.messages[number].after)}
    if number in own:
        found[own[number]] = max(trace.messages[number].think, found.get(own[number], 0))
    return found


def floor_of(trace: Trace, own: dict[int, int], number: int) -> int:
    """The tick from which on a message may start, whatever the plan."""
    it = trace.messages[number]
    return it.release if number in own else max(it.release, it.think)


def groups_of(trace: Trace, starts: list[int]) -> Iterator[list[int]]:
    """The messages in the order of their numbers, or in a trace with clients in that of their starts, those of one start together."""
    if not trace.has_clients:
        yield from ([number] for number in range(len(starts)))
        return
    order = sorted(range(len(starts)), key=lambda n: (starts[n], n))
    yield from (list(group) for _, group in itertools.groupby(order, key=lambda n: starts[n]))


def plan(asked: Namespace) -> str:
    """The text of the plan, for `waff check` and `waff draw`."""
    tree = read_tree(asked.hier)
    trace = read_trace(asked.trace)
    starts, workers, has_workers = read_starts(asked.starts, len(trace.messages))
    affinities = [affinity for affinity, _ in affinities_of(tree, trace, asked.trace)]
    count = asked.workers or max((it for it in workers if it is not None), default=1) if has_workers or asked.workers else None
    if count is not None and not 1 <= count <= limits.WORKERS:
        raise Refusal(3, f"{shown(asked.starts)}: {count} workers: a plan is for 1 to {limits.WORKERS}")
    return plan_text(tree, affinities, trace, starts, workers, count)


def plan_text(
    tree: Tree, affinities: list[str], trace: Trace, starts: list[int], workers: Sequence[int | None], count: int | None
) -> str:
    """The text of a plan with these starts and workers, for so many workers or (None) with no limit on them."""
    messages = trace.messages
    finishes = [start + it.cost for start, it in zip(starts, messages, strict=True)]
    chain = chain_of(tree, affinities, trace, starts, finishes)
    own = ones_before(trace)

    total = sum(it.cost for it in messages)
    length = max(finishes, default=0)
    release = floor_of(trace, own, chain[0]) if chain else 0
    release += sum(awaited(trace, own, number).get(one, 0) for one, number in itertools.pairwise(chain))
    cost = sum(messages[it].cost for it in chain)
    lines = ["message,affinity,start,finish,worker"]
    for number, (affinity, start, finish, worker) in enumerate(zip(affinities, starts, finishes, workers, strict=True), 1):
        lines.append(f"{number},{affinity},{start},{finish},{'-' if worker is None else worker}")
    lines += [f"workers,{count or '-'}", f"total,{total}", f"length,{length}"]
    lines.append("chain," + " ".join(str(it + 1) for it in chain))
    if trace.has_releases:
        lines.append(f"release,{release}")
    lines.append(f"cost,{cost}")
    if count is None:
        lines.append(f"bound,{length},{release + cost}")
    else:
        lines.append(f"bound,{count * length},{total + count * release + (count - 1) * cost}")
    return "\n".join(lines) + "\n"
