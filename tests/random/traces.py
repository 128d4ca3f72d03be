"""Hierarchies of all formats and traces of all four versions as the plain planner beside this reads them. A hierarchy has to be right but for
its sizes; traces are refused as waff does."""

import csv
import io
import re
import sys
import tomllib
from collections.abc import Iterator
from dataclasses import dataclass, field

HEADERS = {("message", "cost", "ops"): 1, ("message", "cost", "release", "ops"): 2}
HEADERS |= {("message", "cost", "release", "client", "think", "ops"): 3}
HEADERS |= {("message", "cost", "release", "client", "think", "after", "ops"): 4}
MOST_MESSAGES = {1: 65536, 2: 65536, 3: 1048576, 4: 1048576}
MOST_OPS = {1: 32, 2: 32, 3: 1024, 4: 1024}
MOST_OPS_OF_TRACE = 16777216
MOST_AFTER_OF_TRACE = 4194304
MOST_THINK = 10000000
MOST_CELLS = 262144
MOST_LARGE = 4294967295

NAME = re.compile(r"[A-Za-z0-9._-]{1,32}", re.ASCII)
NUMBER = re.compile(r"0|[1-9][0-9]*", re.ASCII)
PIECE = re.compile(r"(0|[1-9][0-9]*)(?:\+(0|[1-9][0-9]*))?", re.ASCII)
CELL = re.compile(r"([A-Za-z0-9._-]{1,32}):(0|[1-9][0-9]*)(?:-(0|[1-9][0-9]*))?", re.ASCII)


class Fault(Exception):
    """A fault as it is printed, after `waff: `."""


# Hierarchies and traces


@dataclass(slots=True)
class Tree:
    """Affinities by number, the parent of each (None for the root), and the spaces in their order. `locks` are the kinds of locks of the
    spaces that have some; without a map these are the root's."""

    model: str
    names: list[str]
    parents: list[int | None]
    sizes: dict[str, int]
    units: dict[str, int]
    owners: dict[str, list[int]]
    locks: dict[str, str] = field(default_factory=dict)

    @property
    def root(self) -> int:
        return self.parents.index(None)

    def way(self, affinity: int) -> list[int]:
        """From an affinity up to the root."""
        parent = self.parents[affinity]
        return [affinity] + ([] if parent is None else self.way(parent))

    def excludes(self, one: int, other: int) -> bool:
        return one in self.way(other) or other in self.way(one)

    def owner(self, space: str, index: int) -> int:
        to = self.owners[space]
        return to[index // self.units[space] % len(to)]

    def lowest(self, owners: set[int]) -> int:
        """The lowest affinity at or above all of these."""
        ways = [self.way(it) for it in owners]
        return next(it for it in ways[0] if all(it in way for way in ways))

    def preorder(self, affinity: int = 0) -> list[int]:
        """An affinity, and what is below it: each child with what is below that one."""
        children = [it for it, parent in enumerate(self.parents) if parent == affinity]
        return [affinity] + [it for child in children for it in self.preorder(child)]


Cell = tuple[str, int]


@dataclass(slots=True)
class Message:
    """`ops` are verbs with their cells and numbers, a range as one operation for each cell. A client is None for `-`. `after` has the gap
    by the message that is awaited, which is numbered from 0."""

    name: str
    cost: int
    release: int = 0
    client: str | None = None
    think: int = 0
    after: dict[int, int] = field(default_factory=dict)
    ops: list[tuple[str, Cell, Cell | int | None]] = field(default_factory=list)


@dataclass(slots=True)
class Trace:
    version: int
    messages: list[Message]


def read_tree(name: str, number: int = 1) -> Tree:
    return tree_of(read_text(name), number)


def tree_of(text: str, number: int = 1) -> Tree:
    """A hierarchy; `number` is its place among those that are read."""
    table = tomllib.loads(text)
    number_of_format = table["format"] if type(table.get("format")) is int else 1
    is_large = number_of_format in (2, 3)
    most = MOST_LARGE if is_large else MOST_CELLS
    maps = table.get("map", []) if number_of_format == 3 else table["map"]
    for fault, numbers in (("Size", [it["size"] for it in table["space"]]), ("Unit", [it["unit"] for it in maps])):
        if not all(1 <= it <= most for it in numbers):
            raise Fault(f"Hier.Layout.{fault} {number}")
    if not is_large and sum(it["size"] for it in table["space"]) > most:
        raise Fault(f"Hier.Layout.TooManyCells {number}")
    names = [it["name"] for it in table["affinity"]]
    parents = [names.index(it["parent"]) if "parent" in it else None for it in table["affinity"]]
    sizes = {it["name"]: it["size"] for it in table["space"]}
    units = {it["space"]: it["unit"] for it in maps}
    owners = {it["space"]: [names.index(owner) for owner in it["to"]] for it in maps}
    locks = {it["name"]: it["locks"] for it in table["space"] if "locks" in it and number_of_format == 3}
    for it in locks:
        units.setdefault(it, 1)
        owners.setdefault(it, [parents.index(None)])
    return Tree(table["model"], names, parents, sizes, units, owners, locks)


def is_number(word: str, most: int | None = None, least: int = 0) -> bool:
    return NUMBER.fullmatch(word) is not None and least <= int(word) and (most is None or int(word) <= most)


def read_text(name: str) -> str:
    if name == "-":
        return sys.stdin.buffer.read().decode("utf-8-sig")
    with open(name, "rb") as file:
        return file.read().decode("utf-8-sig")


def records_of(text: str) -> list[list[str]]:
    return [it for it in csv.reader(io.StringIO(text, newline="")) if it]


def trace_of(text: str, tree: Tree) -> Trace:
    records = records_of(text)
    version = HEADERS.get(tuple(records[0])) if records else None
    if version is None:
        raise Fault("Trace.Header 1")
    messages: list[Message] = []
    count = pieces = 0
    for at, record in enumerate(records[1:], 2):
        messages.append(message_of(record, at, tree, version))
        count += len(messages[-1].ops)
        if len(messages[-1].ops) > MOST_OPS[version] or version >= 3 and count > MOST_OPS_OF_TRACE:
            raise Fault(f"Trace.TooManyOps {at}")
        if len(messages) > MOST_MESSAGES[version]:
            raise Fault(f"Trace.TooManyMessages {at}")
        for fault, wrong in late_faults(record, version):
            if wrong:
                raise Fault(f"Trace.{fault} {at}")
        if version == 4:
            after = after_of(record[5], len(messages))
            if after is None:
                raise Fault(f"Trace.After {at}")
            pieces += len(after)
            if pieces > MOST_AFTER_OF_TRACE:
                raise Fault(f"Trace.TooManyAfter {at}")
            messages[-1].after = after
    return Trace(version, messages)


def late_faults(record: list[str], version: int) -> Iterator[tuple[str, bool]]:
    """What is looked at last in a record."""
    if version >= 2:
        yield "Release", not is_number(record[2], 1000000000)
    if version >= 3:
        yield "Client", NAME.fullmatch(record[3]) is None
        yield "Think", not is_number(record[4], MOST_THINK)


def after_of(text: str, number: int) -> dict[int, int] | None:
    """The gap by the message that the one of this number awaits; None where these are no such pieces."""
    after: dict[int, int] = {}
    last = 0
    for piece in text.split(" ") if text else []:
        match = PIECE.fullmatch(piece)
        if match is None or not last < int(match[1]) < number or int(match[2] or 0) > MOST_THINK:
            return None
        last = int(match[1])
        after[last - 1] = int(match[2] or 0)
    return after


def message_of(record: list[str], at: int, tree: Tree, version: int) -> Message:
    """A message, where nothing is refused before the number of its operations. What is looked at last may be 0 here."""
    if len(record) != {1: 3, 2: 4, 3: 6, 4: 7}[version]:
        raise Fault(f"Trace.Fields {at}")
    if NAME.fullmatch(record[0]) is None:
        raise Fault(f"Trace.Name {at}")
    if not is_number(record[1], 1000000, 1):
        raise Fault(f"Trace.Cost {at}")
    if record[-1] == "":
        raise Fault(f"Trace.NoOps {at}")
    ops = ops_of(record[-1], at, tree, version)
    message = Message(record[0], int(record[1]), ops=ops)
    if version >= 2 and is_number(record[2]):
        message.release = int(record[2])
    if version >= 3:
        message.client = None if record[3] == "-" else record[3]
        message.think = int(record[4]) if is_number(record[4]) else 0
    return message


def ops_of(text: str, at: int, tree: Tree, version: int) -> list[tuple[str, Cell, Cell | int | None]]:
    """The operations; each check is over all of them in turn."""
    parts = [part_of(it, version) for it in text.split(";")]
    if None in parts:
        raise Fault(f"Trace.Op {at}")
    found = [it for it in parts if it]
    cells = [cell for _, words, _ in found for cell in words]
    if any(space not in tree.sizes for space, _, _ in cells):
        raise Fault(f"Trace.SpaceUnknown {at}")
    if any(last >= tree.sizes[space] for space, _, last in cells):
        raise Fault(f"Trace.IndexTooLarge {at}")
    ops: list[tuple[str, Cell, Cell | int | None]] = []
    for verb, words, value in found:
        space, first, last = words[0]
        other = words[1][:2] if len(words) > 1 else value
        ops += [(verb, (space, index), other) for index in range(first, last + 1)]
    return ops


# A verb, cells (each a space, its first and its last index), and a number.
Part = tuple[str, list[tuple[str, int, int]], int | None]


def part_of(text: str, version: int) -> Part | None:
    """An operation as it is written; None where it is none."""
    verb, *words = text.split(" ")
    value = None
    if verb in ("set", "add"):
        if len(words) != 2 or not is_number(words[1], 2**64 - 1):
            return None
        value = int(words.pop())
    if len(words) != {"set": 1, "add": 1, "read": 1, "copy": 2, "swap": 2}.get(verb):
        return None
    cells = []
    for word in words:
        match = CELL.fullmatch(word)
        if match is None or match[3] and (version < 3 or verb in ("copy", "swap") or int(match[2]) > int(match[3])):
            return None
        cells.append((match[1], int(match[2]), int(match[3] or match[2])))
    return verb, cells, value
