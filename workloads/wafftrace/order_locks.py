"""Locks of files, and of ranges of them: who gave one up last, whom the next one waits for."""

import collections
from bisect import bisect_left
from collections.abc import Iterator
from typing import NamedTuple

from .order_frontier import Frontiers, Point

# Behind the last byte of any file.
BEHIND = 1 << 63
# Whose a lock is: a process, or a descriptor of it.
Holder = tuple[str, int]
# A file and a kind of its locks, which know nothing of the other kind.
Key = tuple[str, str]


class Range(NamedTuple):
    """Bytes of a file, from one up to another."""

    first: int = 0
    end: int = BEHIND

    def without(self, other: "Range") -> Iterator["Range"]:
        if self.first < min(self.end, other.first):
            yield Range(self.first, min(self.end, other.first))
        if max(self.first, other.end) < self.end:
            yield Range(max(self.first, other.end), self.end)

    def meets(self, other: "Range") -> "Range | None":
        if self == other:
            return self
        first, end = max(self.first, other.first), min(self.end, other.end)
        return Range(first, end) if first < end else None


class Segments:
    """Of each part of a file that was locked alike: where the last writer gave it up, and where the readers since did."""

    def __init__(self) -> None:
        self.cuts = [0, BEHIND]
        self.writer: list[Point | None] = [None]
        self.readers: list[Point | None] = [None]

    def over(self, of: Range) -> range:
        """The parts of a range, which begin and end with it."""
        first = self.cut(of.first)
        return range(first, self.cut(of.end))

    def cut(self, where: int) -> int:
        """The number of the part that begins there."""
        at = bisect_left(self.cuts, where)
        if at == len(self.cuts) or self.cuts[at] != where:
            self.cuts.insert(at, where)
            self.writer.insert(at, self.writer[at - 1])
            self.readers.insert(at, self.readers[at - 1])
        return at


class Locks:
    """All locks: who holds what, and the points at which it was given up."""

    def __init__(self, frontiers: Frontiers) -> None:
        self.frontiers = frontiers
        self.files: dict[Key, Segments] = collections.defaultdict(Segments)
        # What each holder has of a file: ranges, and whether for writing.
        self.held: dict[Holder, dict[Key, list[tuple[Range, bool]]]] = collections.defaultdict(dict)
        # The descriptors with locks of their own, by process.
        self.descriptors: dict[str, set[int]] = collections.defaultdict(set)

    def before(self, key: Key, of: Range, writes: bool) -> list[Point]:
        """The points that whoever takes a lock waits for: of writers, and where it writes of readers too."""
        segments, found = self.files[key], []
        for at in segments.over(of):
            found += [it for it in (segments.writer[at], segments.readers[at] if writes else None) if it is not None]
        return found

    def take(self, key: Key, holder: Holder, of: Range, writes: bool, point: Point) -> None:
        """Takes a lock. What was held for writing, and now is for reading alone, is given up at this point."""
        held = self.held[holder].get(key, [])
        if not writes and any(wrote and old.meets(of) for old, wrote in held):
            self.give_up(key, holder, of, point)
            held = self.held[holder].get(key, [])
        left = [(part, wrote) for old, wrote in held for part in old.without(of)]
        self.held[holder][key] = [*left, (of, writes)]
        if holder[1] >= 0:
            self.descriptors[holder[0]].add(holder[1])

    def give_up(self, key: Key, holder: Holder, of: Range, point: Point) -> None:
        """Gives up what is held of a range."""
        held = self.held[holder].get(key)
        if not held:
            return
        left: list[tuple[Range, bool]] = []
        for old, wrote in held:
            shared = old.meets(of)
            if shared is not None:
                self.free(key, shared, wrote, point)
            if shared != old:
                left += [(part, wrote) for part in old.without(of)]
        self.held[holder][key] = left

    def free(self, key: Key, of: Range, wrote: bool, point: Point) -> None:
        segments = self.files[key]
        parts = segments.over(of)
        if wrote:
            # All of it is alike now.
            segments.cuts[parts.start + 1 : parts.stop] = []
            segments.writer[parts.start : parts.stop] = [point]
            segments.readers[parts.start : parts.stop] = [None]
        else:
            for at in parts:
                segments.readers[at] = self.frontiers.both(segments.readers[at], point)

    def close(self, path: str, process: str, descriptor: int, point: Point) -> None:
        """Gives up what the closing of a descriptor gives up: the record locks of the process, and the locks of the descriptor."""
        for key, holder in (
            ((path, "record"), (process, -1)), ((path, "record"), (process, descriptor)), ((path, "flock"), (process, descriptor))
        ):
            if holder in self.held:
                self.give_up(key, holder, Range(), point)

    def leave(self, process: str, point: Point) -> None:
        """Gives up all that a process has, which has ended."""
        for holder in [(process, -1), *((process, it) for it in sorted(self.descriptors.pop(process, ())))]:
            for key in [*self.held.get(holder, {})]:
                self.give_up(key, holder, Range(), point)
            self.held.pop(holder, None)
