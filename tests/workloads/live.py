#!/usr/bin/env python3
"""A live queue, simulated: what a server would do with the clients of a trace, from event to event.

    live.py HIER TRACE K     the speed-up and the mean latency for K workers

Each client asks for one thing at a time: for the next one a think time after the answer, and not before its release; what has no client
comes at its release or after its think time. Requests stand in a queue, in the order in which they came. A free worker takes the first one that
neither excludes one that runs nor one before it in the queue. It shares no line with the program, nor with the planner of tests/random."""

import csv
import heapq
import sys
import tomllib
from collections import defaultdict, deque

Asked = tuple[int, int, str | int]


class Tree:
    def __init__(self, name: str) -> None:
        with open(name, "rb") as file:
            tree = tomllib.load(file)
        self.above: dict[str, str | None] = {it["name"]: it.get("parent") for it in tree["affinity"]}
        self.maps: dict[str, tuple[int, list[str]]] = {it["space"]: (it["unit"], it["to"]) for it in tree["map"]}

    def way(self, affinity: str) -> list[str]:
        """The affinity and all above it."""
        found = [affinity]
        while (above := self.above[found[-1]]) is not None:
            found.append(above)
        return found

    def affinity(self, ops: str) -> str:
        """The lowest affinity at or above the owners of all cells that the operations name."""
        owners = set[str]()
        for op in ops.split(";"):
            for word in op.split(" ")[1:]:
                space, colon, cells = word.rpartition(":")
                if colon:
                    first, _, last = cells.partition("-")
                    unit, to = self.maps[space]
                    owners |= {to[n % len(to)] for n in range(int(first) // unit, int(last or first) // unit + 1)}
        common = set.intersection(*(set(self.way(it)) for it in owners))
        return max(common, key=lambda it: len(self.way(it)))


def simulate(tree: Tree, rows: list[dict[str, str]], workers: int) -> list[tuple[int, int, int]]:
    """The cost, the tick of the request, and that of the answer of each message."""
    ways = [tree.way(tree.affinity(row["ops"])) for row in rows]
    # What has no client is one of its own, by its number.
    to_ask: dict[str | int, deque[int]] = defaultdict(deque)
    for number, row in enumerate(rows):
        to_ask[row["client"] if row["client"] != "-" else number].append(number)
    asked, answered = dict[int, int](), dict[int, int]()
    # When each comes, came or ends, its number, and its client.
    coming, queue, running = list[Asked](), list[Asked](), list[Asked]()

    def ask(client: str | int, answer: int) -> None:
        """The client thinks about its next request, if it has one."""
        if to_ask[client]:
            number = to_ask[client].popleft()
            asked[number] = max(int(rows[number]["release"]), answer + int(rows[number]["think"]))
            heapq.heappush(coming, (asked[number], number, client))

    for client in list(to_ask):
        ask(client, 0)
    while coming or queue or running:
        now = min([it[0] for it in coming[:1]] + [it[0] for it in running[:1]])
        while running and running[0][0] == now:
            _, number, client = heapq.heappop(running)
            answered[number] = now
            ask(client, now)
        while coming and coming[0][0] == now:
            queue.append(heapq.heappop(coming))
        left, named, under = list[Asked](), set[str](), set[str]()
        for _, number, _ in running:
            named.add(ways[number][0])
            under.update(ways[number])
        for came, number, client in queue:
            # One that excludes it has its affinity or one below it, or one above it.
            excluded = ways[number][0] in under or not named.isdisjoint(ways[number])
            named.add(ways[number][0])
            under.update(ways[number])
            if excluded or len(running) == workers:
                left.append((came, number, client))
            else:
                heapq.heappush(running, (now + int(rows[number]["cost"]), number, client))
        queue = left
    return [(int(row["cost"]), asked[number], answered[number]) for number, row in enumerate(rows)]


def ratio(p: int, q: int) -> str:
    """Two digits after the point, rounded down, as the program prints them."""
    return f"{p // q}.{100 * p // q % 100:02}"


def figures(hier: str, trace: str, workers: int) -> tuple[str, str]:
    with open(trace, newline="") as file:
        found = simulate(Tree(hier), list(csv.DictReader(file)), workers)
    length = max(answer for _, _, answer in found)
    return ratio(sum(cost for cost, _, _ in found), length), ratio(sum(answer - asked for _, asked, answer in found), len(found))


if __name__ == "__main__":
    print(*figures(sys.argv[1], sys.argv[2], int(sys.argv[3])))
