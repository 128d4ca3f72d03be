"""What a thread comes after: of each client the last requests that it has waited for, and how long ago; and the lists of requests that come of
that.

A thread has a clock, which runs while it does not wait. A gap is the time of clocks from the end of a request to a point, and of two ways from
the one to the other the longer counts."""

from array import array
from collections.abc import Sequence
from dataclasses import dataclass, field
from operator import itemgetter

from .logs import Request

# The beginning of all time, as a client with the request -1: what is not known to come of a request comes so long after it.
START = ""
# What a request is known to come after: of each client the latest request, and the gap behind it.
Known = dict[str, tuple[int, int]]
# A request by its number, the gap behind it, and what it is known to come after. So what is known of it goes when nobody may wait for it any more.
Entry = tuple[int, int, Known]
# The same, and why it is waited for.
Edge = tuple[int, int, str]
# Of each client the entries of which none makes another one needless.
Entries = dict[str, list[Entry]]
NO_ENTRIES: list[Entry] = []
NOTHING_KNOWN: Known = {}
NO_EDGES: list[Edge] = []
NUMBER = itemgetter(0)
# In place of the request before the first one of a thread.
NONE = -1


@dataclass(slots=True)
class Point:
    """A place in a thread that others may wait for: when it was, whose it is, and what had come before it, with gaps less the clock. Points
    and their thread share entries, which nobody changes."""

    time: int
    who: str
    of: Entries
    clock: int = 0


@dataclass(slots=True)
class Thread:
    """A thread: its names, the time up to which it is known, its clock, and what it comes after, with gaps less its clock."""

    name: str
    process: str
    box: str
    last: int
    clock: int = 0
    own: Entries = field(default_factory=dict)
    # Why it comes after the requests of others that it does.
    why: dict[int, str] = field(default_factory=dict)
    # Whether it tries for a lock; what it polled for and since when; and where the call began that it is in.
    tries: bool = False
    poll: tuple[int, int] | None = None
    point: Point | None = None
    is_over: bool = False

    def here(self) -> Point:
        """The point at which the thread is."""
        return Point(self.last, self.name, self.own, self.clock)


class Frontiers:
    """What each request waits for, found one after another in the order of their beginnings."""

    def __init__(self) -> None:
        self.took: list[int] = []
        self.whose: list[str] = []
        # What is found: the think time and the release of each request, and whom it waits for besides the one before of its client.
        self.thinks: list[int] = []
        self.releases: list[int] = []
        self.after: list[list[Edge]] = []
        # How many entries there were before those went that others make needless.
        self.raw = 0
        # When each ends in its client's own time.
        self.ends: list[int] = []
        # Requests of a client without lists share what is known of the first of them, with gaps less `since`: the think times up to each.
        self.since: list[int] = []
        # The requests in the order of their issue; the one before of each one's thread; and the time after which each comes of which that is
        # known, what it waits for aside.
        self.issued, self.before = array("q"), array("q")
        self.times: dict[int, int] = {}

    def more(self, requests: Sequence[Request]) -> None:
        """Takes requests that have the next numbers."""
        for it in requests:
            self.took.append(it.took or 0)
            self.whose.append("")
            self.after.append(NO_EDGES)
            for column in (self.thinks, self.ends, self.since):
                column.append(0)
            self.before.append(NONE)

    def put(self, every: list[Entry], new: Entry) -> list[Entry]:
        """These entries of a client and another one, without those that others make needless at the times of the log: the same list where
        that is the other one."""
        ends, left = self.ends, list[Entry]()
        number, gap, _ = new
        for entry in every:
            other, behind, _ = entry
            if other < number:
                if behind > gap + ends[number] - ends[other]:
                    left.append(entry)
            elif gap <= (behind if other == number else behind + ends[other] - ends[number]):
                return every
            elif other > number:
                left.append(entry)
        left.append(new)
        return left if left[0] is new else sorted(left, key=NUMBER)

    def both(self, first: Point | None, second: Point) -> Point:
        """A point that comes after both; its time is the later one."""
        if first is None:
            return second
        of, more = dict(first.of), second.clock - first.clock
        for client, every in second.of.items():
            for number, gap, known in every:
                of[client] = self.put(of.get(client, NO_ENTRIES), (number, gap + more, known))
        return Point(max(first.time, second.time), second.who, of, first.clock)

    def join(self, thread: Thread, point: Point, more: int, kind: str) -> None:
        """Lets a thread come after a point by so much more, for a reason of this kind."""
        own, more = thread.own, point.clock + more - thread.clock
        for client, every in point.of.items():
            for number, gap, known in every:
                old, new = own.get(client), (number, gap + more, known)
                found = [new] if old is None else self.put(old, new)
                if found is not old:
                    # Points have those of the thread, so they stay as they are.
                    own = dict(own) if own is thread.own else own
                    own[client] = found
                    thread.why[number] = kind
        thread.own = own

    def issue(self, thread: Thread, numbers: range) -> None:
        """The requests of a call of this thread: the first waits for what the thread comes after, the others for the one before."""
        number = numbers.start
        self.issued.append(number)
        self.whose[number] = thread.name
        known = self.first(thread, number)
        for number in numbers[1:] if len(numbers) > 1 else ():
            self.issued.append(number)
            self.whose[number] = thread.name
            self.before[number] = number - 1
            self.note(thread.name, number, (number - 1, 0, known), NO_ENTRIES)
        thread.own = {thread.name: [(number, -thread.clock, known)]}
        thread.why.clear()

    def first(self, thread: Thread, number: int) -> Known:
        """Answers what the request is known to come after."""
        name, clock = thread.name, thread.clock
        mine = thread.own.get(name)
        own = (mine[-1][0], max(0, clock + mine[-1][1]), mine[-1][2]) if mine else None
        others: list[tuple[str, int, int, Known]] = []
        for client, every in thread.own.items():
            if client == name:
                every = every[:-1]
            if client != START:
                for it, gap, known in every:
                    others.append((client, it, clock + gap if clock + gap > 0 else 0, known))
        self.raw += len(others)
        found = self.reduced(name, own, others) if others else NO_ENTRIES
        if found:
            self.after[number] = [(it, gap, thread.why[it]) for it, gap, _ in found]
        if own is not None:
            self.before[number], self.thinks[number], _ = own
        begun = thread.own.get(START)
        if begun is not None:
            self.times[number] = clock + begun[0][1]
        return self.note(name, number, own, found)

    def release(self, start: int) -> None:
        """Finds the releases, which count from the time of the first request on: when each comes where that is later than what it waits for lets
        it come if nothing costs anything."""
        self.releases = [0] * len(self.took)
        least = [0] * len(self.took)
        for number in self.issued:
            before, soonest = self.before[number], 0
            if before != NONE:
                soonest = least[before] + self.thinks[number]
            for it, gap, _ in self.after[number]:
                if least[it] + gap > soonest:
                    soonest = least[it] + gap
            time = self.times.get(number)
            if time is not None and time - start > soonest:
                self.releases[number] = soonest = time - start
            least[number] = soonest

    def way(self, number: int, known: Known, client: str, before: int) -> int | None:
        """The gaps from a request of a client to this one that are certain; None where this one is not known to come after it."""
        found = known.get(client)
        if found is None or found[0] < before:
            return None
        return found[1] + self.since[number] + self.since[found[0]] - self.since[before]

    def reduced(self, name: str, own: Entry | None, others: list[tuple[str, int, int, Known]]) -> list[Entry]:
        """The entries that no other one makes needless, whatever requests cost."""
        ways = [*others, (name, *own)] if own is not None else others
        found = []
        for client, number, gap, known in others:
            for other, via, behind, before in ways:
                if other != client:
                    way = self.way(via, before, client, number)
                    if way is not None and way + behind >= gap:
                        break
            else:
                found.append((number, gap, known))
        return sorted(found, key=NUMBER)

    def note(self, name: str, number: int, own: Entry | None, found: list[Entry]) -> Known:
        """Notes when a request ends. Answers what it is known to come after: the one before of its client, and these."""
        known, now = Known(), 0
        if own is None:
            self.ends[number] = self.took[number]
        else:
            before, think, earlier = own
            now = self.since[number] = self.since[before] + think
            self.ends[number] = self.ends[before] + think + self.took[number]
            if not found:
                return earlier
            known = dict(earlier)
            known[name] = before, think - now
        for via, gap, others in found:
            more, client = gap - now, self.whose[via]
            old = known.get(client)
            if old is None or via > old[0] or via == old[0] and more > old[1]:
                known[client] = via, more
            keep_latest(known, others, more + self.since[via])
        return known


def keep_latest(known: Known, others: Known, more: int) -> None:
    """Takes other entries, with gaps that are so much greater, where they are of later requests."""
    for client, (number, gap) in others.items():
        old = known.get(client)
        if old is None or number > old[0] or number == old[0] and gap + more > old[1]:
            known[client] = number, gap + more
