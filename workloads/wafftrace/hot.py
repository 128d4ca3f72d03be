"""Which files, and messages of which names, the time of affinities is of."""

import collections
import csv
import io
import itertools
from argparse import Namespace
from bisect import bisect_right

from . import limits
from .hierarchy import Tree, read_tree
from .logs import Refusal, is_number, read_text, shown
from .plans import affinities_of
from .traces import read_trace


# What time may be of, in the order of the table.
KINDS = ("name", "client", "file")


class Names:
    """Whose cells are, of a file that an import wrote with `--map`: for each space its records in the order of their first cells, and
    beside each the last cell of those up to it."""

    def __init__(self, name: str, tree: Tree) -> None:
        called = shown(name)
        try:
            records = list(csv.reader(io.StringIO(read_text(name), newline="")))
        except csv.Error as fault:
            raise Refusal(3, f"{called}: no CSV: {fault}") from None
        if records[:1] != [["space", "first", "last", "name"]]:
            raise Refusal(3, f"{called}: its first record is not space,first,last,name")
        most = limits.LARGE_SIZE if tree.is_large else limits.CELLS
        self.spaces: dict[str, list[tuple[int, int, int, str]]] = collections.defaultdict(list)
        for number, record in enumerate(records[1:], 2):
            if len(record) != 4 or not (is_number(record[1]) and is_number(record[2])) or int(record[2]) >= most:
                raise Refusal(3, f"{called}: record {number} is no space, first cell, last cell and name")
            self.spaces[record[0]].append((int(record[1]), number, int(record[2]), record[3]))
        self.ends: dict[str, list[int]] = {}
        for space, found in self.spaces.items():
            found.sort()
            self.ends[space] = list(itertools.accumulate((last for _, _, last, _ in found), max))

    def of(self, space: str, first: int, last: int) -> list[str]:
        """The names of what has a cell from the first to the last one, in the order of the file; `-` where nothing has."""
        records = self.spaces.get(space, [])
        found = []
        at = bisect_right(records, last, key=lambda it: it[0]) - 1
        while at >= 0 and self.ends[space][at] >= first:
            if records[at][2] >= first:
                found.append(records[at][1:])
            at -= 1
        return [name for _, _, name in sorted(found)] or ["-"]


def hot(asked: Namespace) -> str:
    """For each affinity the names of its messages, their clients if they have some, and the files whose cells they name, the dearest first: how many messages, and
    their cost. A message of several files counts for each."""
    tree, trace = read_tree(asked.hier), read_trace(asked.trace)
    for affinity in asked.affinity or ():
        if affinity not in tree.parents:
            raise Refusal(2, f"--affinity {shown(affinity)}: {shown(asked.hier)} has no such affinity")
    tallies: dict[tuple[str, str, str], list[int]] = collections.defaultdict(lambda: [0, 0])
    whose = Names(asked.map, tree)
    for it, (affinity, cells) in zip(trace.messages, affinities_of(tree, trace, asked.trace), strict=True):
        files = dict.fromkeys(name for cell in cells for name in whose.of(*cell))
        by_client = [("client", it.client)] if trace.has_clients else []
        for what, which in [("name", it.name), *by_client, *(("file", name) for name in files)]:
            tally = tallies[affinity, what, which]
            tally[0] += 1
            tally[1] += it.cost
    text = io.StringIO()
    rows = csv.writer(text, lineterminator="\n")
    rows.writerow(("affinity", "what", "which", "messages", "cost"))
    order = {affinity: number for number, affinity in enumerate(tree.parents)}
    for (affinity, what, which), tally in sorted(
        tallies.items(), key=lambda it: (order[it[0][0]], KINDS.index(it[0][1]), -it[1][1], it[0][2])
    ):
        if not asked.affinity or affinity in asked.affinity:
            rows.writerow((affinity, what, which, *tally))
    return text.getvalue()
