"""Clients of a trace: threads, processes or jobs that ask for one thing after another, and when they do."""

import collections
import heapq
import operator
from argparse import Namespace
from collections.abc import Callable, Iterable, Iterator, Sequence

from . import limits
from .logs import Data, Refusal, Request, tell
from .prices import keeping_thinks

# The bytes of a name that is no client.
NONE = "-"
# What to do where there is one alone.
ONE_CLIENT = (
    "one client asks for one thing after another, and no tree changes that: record what runs at the same time, as `strace -f` of a shell"
    " that starts several programs, or of a server (-p) and its clients"
)


def kind_of(asked: Namespace) -> str | None:
    """What a client is, None where a trace is to have none."""
    kind: str = asked.clients or asked.usual
    asked.family_depth = None
    if kind.startswith("family:"):
        kind, depth = "family", kind.removeprefix("family:")
        asked.family_depth = int(depth)
    if kind == "none":
        for word, given in (("--loop", asked.loop), ("--depth", asked.depth)):
            if given:
                raise Refusal(2, f"{word}: the trace has no clients")
        return None
    if asked.trace_version == "2":
        raise Refusal(2, "--trace-version 2: a trace of version 2 has no clients (--clients none)")
    return kind


def deal(requests: list[Request], depth: int | None, slack: int) -> None:
    """Gives each request a lane of its client, which is a client of its own: the one that is free longest, of two as long the one of
    the lower number, or a new one where none is free. Those of a client without latencies go to so many lanes in turn. The times of a log
    are rounded down by less than `slack` nanoseconds, so that a request may seem to begin before the one before it has ended. What
    follows in the same call stays in its lane."""
    measured = {it.client for it in requests if it.took is not None}
    if depth is not None and measured:
        raise Refusal(2, "--depth: the latencies of the log tell how many requests were in flight")
    requests.sort(key=operator.attrgetter("time"))
    lanes: dict[str, Lanes] = collections.defaultdict(Lanes)
    for it in requests:
        of = lanes[it.client]
        if it.client in measured:
            ends = of.ends
            if it.follows:
                lane, begun = of.latest, ends[of.latest]
            else:
                lane, begun = ends.index(min(ends)) if len(ends) > 1 else 0, it.time
                if not ends or ends[lane] >= begun + slack:
                    lane = len(ends)
                    ends.append(0)
            # How long a request took that has no latency is not known, and a guess opens no lane.
            ends[lane] = begun + (it.took or 0)
            of.latest = lane
        else:
            lane = of.latest
            of.latest = (lane + 1) % (depth or 1)
        if lane == len(of.names):
            of.names.append(f"{it.client}.{lane + 1}")
        it.client = of.names[lane]


class Lanes:
    """The lanes of a client: when the last request of each ends, their names, and the lane of the last request or the next one."""

    def __init__(self) -> None:
        self.ends: list[int] = []
        self.names: list[str] = []
        self.latest = 0


# How long a request takes, in nanoseconds.
Took = Callable[[Request], int]


def loop_of(asked: Namespace, kind: str | None, requests: list[Request], took: Took) -> "Loop | None":
    """When the requests come, whose clients get their lanes; None for a trace of version 2. Without clients all come when they came in the
    log."""
    if kind is None and asked.trace_version == "2":
        return None
    if kind is None:
        for it in requests:
            it.client = NONE
    elif asked.has_lanes:
        deal(requests, asked.depth, asked.slack)
    return Loop(kind is not None and asked.loop != "open", took, asked.tick)


class Loop:
    """When requests come. In a closed loop a client's first one has its release, and each other one comes a think time after the end of
    the one before; in an open one all come as they were recorded. Times are in nanoseconds, releases and think times in ticks."""

    def __init__(self, is_closed: bool, took: Took, tick: int) -> None:
        self.is_closed = is_closed
        self.took = took
        self.tick = tick
        # How many think times were cut, and the longest one, in nanoseconds.
        self.cut = 0
        self.longest = 0

    def times(self, requests: list[Request], start: int) -> Iterator[tuple[int, int]]:
        """The release and the think time of each request, the first of which came at this time."""
        return self.closed(requests, start) if self.is_closed else (((it.time - start) // self.tick, 0) for it in requests)

    def closed(self, requests: list[Request], start: int) -> Iterator[tuple[int, int]]:
        """The same in a closed loop. What one call asks for at once is done in turn."""
        tick = self.tick
        # The time at which each client's last request began, and the one at which it ended; and the clients that have no message yet.
        last: dict[str, tuple[int, int]] = {}
        waiting: set[str] = set()
        for it in requests:
            client, time = it.client, it.time
            took = it.took if it.took is not None else self.took(it)
            before = last.get(client)
            if before is None:
                waiting.add(client)
                last[client] = time, time + took
            else:
                began, end = before
                last[client] = time, (end if began == time else time) + took
            if waiting and client in waiting:
                if isinstance(it, Data) or it.ops:
                    waiting.remove(client)
                yield (time - start) // tick, 0
            else:
                yield 0, self.think(time - end) if time > end else 0

    def think(self, pause: int) -> int:
        """The think time of a pause of so many nanoseconds."""
        if pause > self.longest:
            self.longest = pause
        ticks = pause // self.tick
        if ticks > limits.THINK:
            self.cut += 1
            return limits.THINK
        return ticks

    def warn(self) -> None:
        if self.cut:
            tell(f"think times above {limits.THINK} ticks, which were cut to that: {self.cut} (--tick {keeping_thinks(self.longest)} keeps them)")


# Of each client when it began, and its last message ended.
Spans = dict[str, tuple[int, int]]


def spans(messages: Iterable[tuple[str, int, int]]) -> Spans:
    """The spans of the clients of these messages, each with its client, start and end."""
    found: Spans = {}
    for client, start, end in messages:
        if client != NONE:
            first, last = found.get(client, (start, end))
            found[client] = min(first, start), max(last, end)
    return found


def most_at_once(found: Iterable[tuple[int, int]]) -> int:
    """How many clients were under way at once at most. One that ends when another one begins is not under way any more."""
    # The ends before the beginnings of the same tick, but for one that begins and ends there.
    most = now = 0
    for _, step in sorted((time, step) for first, last in found for time, step in ((first, 1), (max(last, first + 1), -1))):
        now += step
        most = max(most, now)
    return most


def places(found: Spans, most: int) -> dict[str, tuple[int, str]]:
    """Gives each client one of so many places, in the order in which they began: the one that is free longest. Tells how much later it
    begins for that, and the name of the place's first client."""
    free: list[tuple[int, int, str]] = []
    answer: dict[str, tuple[int, str]] = {}
    for number, (client, (first, last)) in enumerate(sorted(found.items(), key=lambda it: it[1])):
        is_taken = bool(free) and (free[0][0] <= first or len(free) >= most)
        before, at, name = heapq.heappop(free) if is_taken else (first, number, client)
        later = max(0, before - first)
        answer[client] = later, name
        heapq.heappush(free, (last + later, at, name))
    return answer


def starts(clients: Sequence[tuple[str, int, int, int]]) -> list[int]:
    """When each of these messages (client, cost, release, think) starts if none waits for another but the one before it of its
    client. Of messages that were recorded in a closed loop that is about when they were issued."""
    ends: dict[str, int] = {}
    found = []
    for client, cost, release, think in clients:
        start = max(release, ends.get(client, 0) + think)
        if client != NONE:
            ends[client] = start + cost
        found.append(start)
    return found
