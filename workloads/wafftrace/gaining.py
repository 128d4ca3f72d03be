"""Which one change of code gains most: the plans without the cells of one space that messages of one name have."""

import os
import tempfile
from argparse import Namespace
from collections.abc import Iterator

from .hierarchy import Tree
from .logs import Refusal, tell
from .ranking import Order, Ranker, Row, Source
from .traces import Trace, read_trace, write_file

# So many changes are tried.
MOST_CHANGES = 1000


def space_of(op: str) -> str:
    """The space of the cell that an operation names first."""
    return op.split(" ", 2)[1].rpartition(":")[0]


def without(ops: str, space: str) -> str:
    """The operations without those on a space; all of them where no other one is left."""
    return ";".join(it for it in ops.split(";") if space_of(it) != space) or ops


def changes_of(trace: Trace) -> Iterator[tuple[str, str, int]]:
    """Each name and each space whose cells some messages of this name can do without, and how many can."""
    counts: dict[tuple[str, str], int] = {}
    for it in trace.messages:
        spaces = {space_of(op) for op in it.ops.split(";")}
        for space in sorted(spaces) if len(spaces) > 1 else ():
            counts[it.name, space] = counts.get((it.name, space), 0) + 1
    return ((*key, count) for key, count in counts.items())


def gains(asked: Namespace, tree: Tree, source: Source, key: Order) -> list[tuple[str, str, int, Row]]:
    """What is planned without the cells of a space in messages of a name, the best first; before all of them what is planned as it is."""
    trace = read_trace(source.name)
    changes = list(changes_of(trace))
    if not changes:
        raise Refusal(3, "--gain: no message names cells of two spaces")
    if len(changes) > MOST_CHANGES:
        raise Refusal(3, f"--gain: {len(changes)} names and spaces: at most {MOST_CHANGES}")
    tell(f"{len(changes)} changes of code: messages of a name without the cells of a space")
    with tempfile.TemporaryDirectory(dir=asked.folder) as folder:
        sources = [source]
        kept = [it.ops for it in trace.messages]
        for number, (name, space, _) in enumerate(changes):
            for it, ops in zip(trace.messages, kept, strict=True):
                it.ops = without(ops, space) if it.name == name else ops
            file = os.path.join(folder, f"{number}.csv")
            write_file(file, trace.text())
            sources.append(Source.of(file))
        (row,) = Ranker(asked, sources).rank([tree])
    width = len(asked.workers)
    rows = [row[at : at + width] for at in range(0, len(row), width)]
    found = [(*change, it) for change, it in zip(changes, rows[1:], strict=True)]
    return [("-", "-", 0, rows[0]), *sorted(found, key=lambda it: (key(it[3]), it[:2]))]
