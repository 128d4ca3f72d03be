"""Pipes and sockets: which bytes are read that were written where, in each direction."""

import collections
import functools
import re
from dataclasses import dataclass, field

from .order_frontier import Frontiers, Point

PIPE = re.compile(r"pipe:\[\d+\]")
UNIX = re.compile(r"(?:UNIX-STREAM|UNIX-SEQPACKET|UNIX):\[(\d+)->(\d+)")
INET = re.compile(r"TCP(?:v6)?:\[(.*?)->(.*?)\]$")
# A socket of which strace shows no other end.
ALONE = re.compile(r"socket:\[\d+\]$")
# The bytes that a pipe holds.
ROOM = 65536
# So many reads of a pipe are remembered, for writers that wait for room, and so many writes that nobody has read.
MOST_READS, MOST_WRITES = 4096, 16384

# A stream in one direction: the box, and a pipe or the two ends.
Channel = tuple[str, ...]


@functools.lru_cache(maxsize=1 << 14)
def channel_of(box: str, path: str, writes: bool) -> Channel | None:
    """The stream that a descriptor is of; None where it is of none with two known ends."""
    if PIPE.match(path):
        return box, path
    found = UNIX.match(path) or INET.match(path)
    if found is None:
        return None
    return (box, found[1], found[2]) if writes else (box, found[2], found[1])


@dataclass(slots=True)
class Stream:
    """What was written and is not read yet: up to which byte, and where; how much was written and read; where it was closed; and, of a
    pipe, up to which byte was read where."""

    written: int = 0
    read: int = 0
    parts: collections.deque[tuple[int, int, Point]] = field(default_factory=lambda: collections.deque(maxlen=MOST_WRITES))
    closed: Point | None = None
    reads: collections.deque[tuple[int, Point]] = field(default_factory=lambda: collections.deque(maxlen=MOST_READS))


class Streams:
    def __init__(self, frontiers: Frontiers) -> None:
        self.frontiers = frontiers
        self.all: dict[Channel, Stream] = collections.defaultdict(Stream)
        # The streams that each process wrote to.
        self.writers: dict[str, set[Channel]] = collections.defaultdict(set)

    def write(self, channel: Channel, process: str, count: int, point: Point) -> None:
        stream = self.all[channel]
        stream.parts.append((stream.written, stream.written + count, point))
        stream.written += count
        self.writers[process].add(channel)

    def close(self, channel: Channel, point: Point) -> None:
        stream = self.all[channel]
        stream.closed = self.frontiers.both(stream.closed, point)

    def leave(self, process: str, point: Point) -> None:
        """Closes what a process wrote to, which has ended."""
        for channel in sorted(self.writers.pop(process, ())):
            self.close(channel, point)

    def take(self, channel: Channel, count: int) -> list[Point]:
        """The points at which the next bytes were written: of several writers all of them, of one the last."""
        stream = self.all[channel]
        if count == 0:
            return [stream.closed] if stream.closed is not None else []
        stream.read += count
        found: list[Point] = []
        while stream.parts and stream.parts[0][0] < stream.read:
            found.append(stream.parts[0][2])
            if stream.parts[0][1] > stream.read:
                break
            stream.parts.popleft()
        return found[-1:] if len({it.who for it in found}) == 1 else found

    def note_read(self, channel: Channel, point: Point) -> None:
        """Notes how far a pipe is read, for whoever waits for room in it."""
        if len(channel) == 2:
            self.all[channel].reads.append((self.all[channel].read, point))

    def room(self, channel: Channel) -> Point | None:
        """The point at which a pipe that was full had room for what is written now; None where it was not full."""
        stream = self.all[channel]
        needed = stream.written - ROOM
        # What is needed only grows.
        while stream.reads and stream.reads[0][0] < needed:
            stream.reads.popleft()
        return stream.reads[0][1] if needed > 0 and stream.reads else None
