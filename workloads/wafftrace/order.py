"""Order between clients: what in a log of strace makes one thread wait for another, as lists of requests that each request waits for.

While the log is read, each call that orders threads or makes requests is walked, in the order of the log, as soon as what it asks for is known."""

import collections
import dataclasses
import heapq
from array import array
from collections.abc import Callable, Iterable, Iterator, Sequence
from dataclasses import dataclass, field

from . import limits
from .logs import Data, Refusal, Request, counted, shown
from .order_frontier import Edge, Frontiers
from .order_steps import NO_REQUESTS, Birth, Step, Whose, asked_of
from .order_walk import KINDS, Named, Tally, Walk
from .order_window import Window
from .prices import keeping_thinks
from .processes import Who

# What `--order` is without this word, where there are clients in a closed loop.
USUAL = "all"


def kinds_of(word: str) -> frozenset[str]:
    """The kinds that `--order` asks for."""
    if word in ("all", "none"):
        return frozenset(KINDS if word == "all" else ())
    found = word.split(",")
    if not set(found) <= set(KINDS):
        raise Refusal(2, f"--order {shown(word)}: wanted is all, none, or some of {', '.join(KINDS)}")
    return frozenset(found)


class Record:
    """The calls of a log that order threads or make requests, as they are read."""

    def __init__(self, kinds: frozenset[str], fifos: Iterable[str], births: Iterable[int]) -> None:
        """`fifos` are the paths of named pipes, as far as they are known before, `births` the places of calls that make threads."""
        self.named: dict[int, list[Named]] = {}
        self.whose: dict[str, Whose] = {}
        # The paths of named pipes that were shown.
        self.fifos: set[str] = set()
        self.walk = Walk(kinds, self.named, set(fifos))
        self.window = Window(self.walk, births)
        # Where the call of each request began.
        self.begun = array("q")

    def of(self, who: Who, number: str, box: str) -> Whose:
        """Whose a call is. A thread has the number that it was seen with first."""
        found = self.whose.get(who.thread)
        if found is None:
            found = self.whose[who.thread] = Whose(who.thread, number, who.process, box)
        return found

    def line(self, whose: Whose, at: int, time: int, text: str) -> None:
        """A signal, or the end of a thread."""
        self.window.add(Step(whose, asked_of(text[:3], text, "", ""), at, at, time, time, NO_REQUESTS))

    def made(self, requests: Sequence[Request], begun: int) -> range:
        """A call that began at this place has made requests. Answers their numbers."""
        first = len(self.begun)
        self.walk.frontiers.more(requests)
        self.begun.extend([begun] * len(requests))
        return range(first, len(self.begun))

    def birth(self, child: Who, number: str, box: str, parent: Who, begun: int) -> None:
        self.window.born(Birth(begun, Whose(child.thread, number, child.process, box), parent.thread))

    def fifo(self, path: str) -> None:
        """A named pipe was shown."""
        self.fifos.add(path)
        self.walk.fifos.add(path)

    def makes(self, request: int, *keys: object) -> None:
        """Others find by this name what a request made, or that it is free."""
        self.named.setdefault(request, []).extend(("makes", key) for key in keys)

    def needs(self, request: int, key: object) -> None:
        self.named.setdefault(request, []).append(("needs", key))

    def solved(self, requests: Sequence[Request]) -> "Order":
        self.window.finish()
        self.walk.frontiers.release(min((it.time for it in requests), default=0))
        return Order(requests, self.walk.frontiers, self.begun, self.walk.tally)


@dataclass(slots=True)
class Item:
    """A request in the order of its issue: its think time and release and those that it waits for, in nanoseconds; `came` where it comes
    when it came in the log, since one that it waited for is left out."""

    number: int
    request: Request
    think: int
    release: int
    after: list[Edge]
    came: bool


class Order:
    """What each request of a log waits for."""

    def __init__(self, requests: Sequence[Request], frontiers: Frontiers, begun: Sequence[int], tally: Tally) -> None:
        self.requests = requests
        self.frontiers = frontiers
        self.begun = begun
        self.tally = tally
        # How many are left out of those that wait for a request which began later by the clock.
        self.backwards = 0
        self.number = {id(it): at for at, it in enumerate(requests)}

    def items(self, kept: Sequence[Request]) -> Iterator[Item]:
        """These requests, in the order in which they began."""
        numbers = sorted((self.number[id(it)] for it in kept), key=lambda at: (self.requests[at].time, self.begun[at], at))
        wanted, known, of = set(numbers), set[int](), self.frontiers
        # The last request of each thread; and what is in turn where clients are no threads.
        last: dict[str, int] = {}
        turns = None if all(self.requests[at].client == of.whose[at] for at in numbers) else Turns(self.requests)
        for at in numbers:
            it, thread = self.requests[at], of.whose[at]
            every = after = of.after[at]
            before = last.get(thread)
            if any(entry[0] not in known for entry in every):
                after = [entry for entry in every if entry[0] in known]
                self.backwards += sum(entry[0] in wanted and entry[0] not in known for entry in every)
            came = len(after) < len(every) or before is None and of.thinks[at] > 0
            item = Item(at, it, 0 if before is None else of.thinks[at], of.releases[at], after, came)
            yield item if turns is None else turns.take(item, before)
            known.add(at)
            last[thread] = at


class Turns:
    """The requests of clients that have several threads. What a thread waits for within its client becomes the order of that client, whose
    requests are done in turn."""

    def __init__(self, requests: Sequence[Request]) -> None:
        self.requests = requests
        # When each request ended, and the last one of each client.
        self.ended: dict[int, int] = {}
        self.last: dict[str, int] = {}

    def take(self, item: Item, before: int | None) -> Item:
        """The next one, with its client's think time and what it waits for of other clients. `before` is the last one of its thread."""
        it, came = item.request, 0 if before is None else self.ended[before]
        begun, others = came + item.think, list[Edge]()
        for edge in item.after:
            if self.requests[edge[0]].client == it.client:
                begun = max(begun, self.ended[edge[0]] + edge[1])
            else:
                others.append(edge)
        last = self.last.get(it.client)
        self.last[it.client] = item.number
        self.ended[item.number] = max(it.time, came) + (it.took or 0)
        return dataclasses.replace(item, think=0 if last is None else max(0, begun - self.ended[last]), after=others)


@dataclass(slots=True)
class Lists:
    """The lists of a trace: how many messages there are, the pieces of all, how many messages have some, and why."""

    messages: int = 0
    pieces: int = 0
    waiting: int = 0
    by_kind: collections.Counter[str] = field(default_factory=collections.Counter)
    # The gaps that are longer than a trace has them, and the longest of these, in nanoseconds.
    cut: int = 0
    longest: int = 0


def told(order: Order, lists: Lists) -> list[str]:
    """What is told of the order of a log."""
    tally = order.tally
    lines = [
        f"order between clients: {counted(lists.pieces, 'edges')} on {lists.waiting:,} of {counted(lists.messages, 'messages')}"
        + by_kind(" (", {kind: f"{count:,}" for kind, count in lists.by_kind.most_common()})
    ]
    known, others = +tally.explained, +tally.unexplained
    if known or others:
        whole, with_cause = known.total() + others.total(), known.total()
        lines.append(
            f"waits {in_seconds(whole)} s: {in_seconds(with_cause)} s have their cause in the log"
            + by_kind(" (", {kind: in_seconds(time) for kind, time in known.most_common(3)})
            + f", {in_seconds(others.total())} s have none and stay thinking"
            + by_kind(" (", {name: in_seconds(time) for name, time in others.most_common(3)})
        )
    if lists.cut:
        lines.append(f"gaps above {limits.THINK} ticks, which were cut to that: {lists.cut} (--tick {keeping_thinks(lists.longest)} keeps them)")
    if order.backwards:
        lines.append(f"{counted(order.backwards, 'edges')} left out, to requests that the clock of the log tells to be later")
    if tally.has_threads and not tally.is_delayed:
        lines.append("WARNING: threads share memory, and a mutex that is free shows in no log: the order may lack edges (record slow: workloads/README.md)")
    if tally.without_peer:
        lines.append(f"WARNING: {counted(tally.without_peer, 'calls')} on sockets without another end, which order nobody (strace -yy ties both ends)")
    return lines


def by_kind(before: str, of: dict[str, str]) -> str:
    return f"{before}{', '.join(f'{name} {what}' for name, what in of.items())})" if of else ""


def in_seconds(nanoseconds: int) -> str:
    return f"{nanoseconds / 10**9:.2f}"


class Bracket:
    """How many requests run at once in the mean where nothing but these waits: by clients and order, by clients alone, where there are any, and if
    each comes behind all that had finished before it. They are taken in the order of their beginnings; of a group of one call the first began."""

    def __init__(self, has_clients: bool = True) -> None:
        self.has_clients = has_clients
        self.total = 0
        # By the number of a request and by client, when it ends if costs are all the time that there is.
        self.ends: dict[int, int] = {}
        self.last: dict[str, int] = {}
        self.alone: dict[str, int] = {}
        self.finished: dict[str, int] = {}
        # Those that had not finished when the last one began: when each did, and its end here; the latest end of the others, and of all.
        self.running: list[tuple[int, int]] = []
        self.before = self.latest = 0

    def take(self, it: Request, cost: int, took: int) -> None:
        """Takes a request that waits for its client alone, and took so long in the log."""
        client, running = it.client, self.running
        self.total += cost
        while running and running[0][0] <= it.time:
            self.before = max(self.before, heapq.heappop(running)[1])
        end = self.before + cost
        if self.has_clients:
            self.alone[client] = self.alone.get(client, 0) + cost
            end = self.finished[client] = max(self.before, self.finished.get(client, 0)) + cost
        self.latest = max(self.latest, end)
        heapq.heappush(running, (it.time + took, end))

    def take_ordered(self, item: Item, cost: int) -> None:
        """Takes one that waits for others too."""
        self.take(item.request, cost, item.request.took or 0)
        client = item.request.client
        self.ends[item.number] = self.last[client] = max([self.last.get(client, 0), *[self.ends[it] for it, _, _ in item.after]]) + cost

    def figure(self, longest: int) -> str:
        return f"{self.total / max(1, longest):.2f}"

    def text(self) -> str:
        ways = [f"{self.figure(max(self.ends.values()))} times in parallel by clients and order"] if self.ends else []
        if self.has_clients:
            ways.append(f"{self.figure(max(self.alone.values(), default=0))} by clients alone")
        ways.append(f"{self.figure(self.latest)} if all comes behind what had finished before it")
        if not self.ends:
            ways[0] = ways[0].replace(" ", " times in parallel ", 1)
        return f"at once {', '.join(ways)}"


def bracket(requests: Iterable[Request], price_of: Callable[[Request], int], measured: bool, has_clients: bool) -> Bracket:
    """The bracket of requests in the order of their beginnings, of whose order nothing but clients is known. What has no latency takes its price."""
    found = Bracket(has_clients)
    for it in requests:
        if isinstance(it, Data) or it.ops:
            price = price_of(it)
            took = price if it.took is None else it.took
            found.take(it, took if measured else price, took)
    return found


def bracket_of(items: Sequence[Item], costs: Sequence[int]) -> Bracket:
    """The bracket of requests with these costs, in the order of their beginnings."""
    found = Bracket()
    for item, cost in zip(items, costs, strict=True):
        found.take_ordered(item, cost)
    return found
