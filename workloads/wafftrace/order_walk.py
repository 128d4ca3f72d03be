"""The calls of a log in the order of their beginnings and ends: what each releases, and what it waits for."""

import collections
import functools
import re
import signal
from bisect import bisect_right
from collections.abc import Callable, Sequence
from dataclasses import dataclass, field
from typing import NamedTuple

from .order_frontier import NOTHING_KNOWN, START, Frontiers, Known, Point, Thread
from .order_locks import BEHIND, Holder, Key, Locks, Range
from .order_steps import BEGIN, DELAYED, END, EXITS, FORKS, KILLS, POLLS, READS, SLEEPS, WAITS, WRITES, Birth, Step, Whose, descriptor_of
from .order_streams import ALONE, Channel, Streams, channel_of

# Why one waits for another, by the words of `--order`.
KINDS = ("lock", "futex", "pipe", "socket", "wait", "fork", "signal", "name")

SHOWN = re.compile(r"\d+<((?:->|[^<>])*)>")
LOCK = re.compile(r"l_type=(F_[A-Z]+).*?l_whence=(\w+), l_start=(-?\d{1,19})(?!\d), l_len=(\d{1,19})(?!\d)")
FUTEX = re.compile(r"(0x[0-9a-f]+), (FUTEX_[A-Z_]+)((?:\|\w+)*)(?:, (\d+|0x[0-9a-f]+))?")
DUPLICATED = re.compile(r", (\d+)<((?:->|[^<>])*)>")
CONNECT = re.compile(r'sin6?_port=htons\((\d+)\)|sun_path=@?"([^"]*)"')
ACCEPT = re.compile(r':(\d+)\]$|"([^"]*)"')
SIGNAL = re.compile(r"--- (SIG\w+) .*?si_pid=(\d+)")
SENDER = re.compile(r"si_pid=(\d+)")
# How strace shows an eventfd.
EVENT = "eventfd"
TEXT = re.compile(r'"((?:[^"\\]|\\.)*)"')
ESCAPED = re.compile(r"\\([0-7]{1,3}|.)")
LETTERS = {"n": "\n", "t": "\t", "r": "\r", "v": "\v", "f": "\f"}
NUMBERS = {it.name: int(it) for it in signal.Signals}
# In what signalfd tells, the number of a signal is the first byte, that of its sender the four from this one on.
SENDER_AT = 12
# The value of a mutex of the C library that somebody waits for, and what wakes all that wait at an address.
CONTENDED, EVERYBODY = "2", "2147483647"
# Times of a log are told to the microsecond, so that a release may seem to be a little before a beginning.
SLACK = 1000
# A call that takes less did not wait for room in a pipe; a wait of less is not told.
NO_WAIT, NOT_TOLD = 20_000, 500_000
# So many signals are remembered that came nowhere yet, and so many calls that woke threads at an address.
MOST_SIGNALS, MOST_WAKES = 64, 256


# A request that makes or needs a name: that of a file, or that a path is free.
Named = tuple[str, object]


@dataclass(slots=True)
class Wake:
    """A call that woke threads: which of its address it is, its place, how many more it may have woken, and where it was made."""

    number: int
    begun: int
    left: int
    point: Point


@dataclass(slots=True)
class Wakes:
    """The calls that woke threads at an address: how many there were, and of the last ones those that may have woken more, the very last, and the
    last of another thread than that one's."""

    count: int = 0
    left: list[Wake] = field(default_factory=list)
    last: Wake | None = None
    other: Wake | None = None

    def add(self, begun: int, amount: int, point: Point) -> None:
        wake = Wake(self.count, begun, amount, point)
        self.count += 1
        if self.last is not None and self.last.point.who != point.who:
            self.other = self.last
        self.last = wake
        if amount:
            self.left.append(wake)
        if self.left and self.left[0].number < self.count - MOST_WAKES:
            del self.left[0]

    def before(self, who: str) -> Point | None:
        """Where the last one was made that is of another thread."""
        for it in (self.last, self.other):
            if it is not None and it.point.who != who:
                return it.point if it.number >= self.count - MOST_WAKES else None
        return None

    def take(self, begun: int) -> Point | None:
        """Where the first one was made that may have woken more, of those from this place on."""
        at = bisect_right(self.left, begun, key=lambda it: it.begun)
        if at == len(self.left):
            return None
        wake = self.left[at]
        wake.left -= 1
        if not wake.left:
            del self.left[at]
        return wake.point


@dataclass(slots=True)
class Tally:
    """What is told of the order: nanoseconds of waits whose cause the log has, by kind, and of others, by call, what could not be followed, and
    whether strace was told to delay calls."""

    explained: collections.Counter[str] = field(default_factory=collections.Counter)
    unexplained: collections.Counter[str] = field(default_factory=collections.Counter)
    without_peer: int = 0
    has_threads: bool = False
    is_delayed: bool = False


class Walk:
    """Goes through the steps of a log. `kinds` are the reasons that count, `named` what requests make and need, up to their ends, `fifos` paths of
    pipes."""

    def __init__(self, kinds: frozenset[str], named: dict[int, list[Named]], fifos: set[str]) -> None:
        self.frontiers = Frontiers()
        self.kinds = kinds
        self.named = named
        self.fifos = fifos
        self.tally = Tally()
        self.threads: dict[str, Thread] = {}
        self.alive: dict[str, set[str]] = collections.defaultdict(set)
        # The latest thread of each number; where it and its process ended; and where each began another program.
        self.numbers: dict[str, str] = {}
        self.exits: dict[str, Point] = {}
        self.ends: dict[str, Point] = {}
        self.programs: dict[str, Point] = {}
        self.locks = Locks(self.frontiers)
        self.streams = Streams(self.frontiers)
        self.mutexes: dict[tuple[str, str], Point] = {}
        self.wakes: dict[tuple[str, str], Wakes] = collections.defaultdict(Wakes)
        # By address, who waits there as at a barrier, and since where; and each eventfd by the process that made it and its descriptor.
        self.arrived: dict[tuple[str, str], dict[str, Point]] = collections.defaultdict(dict)
        self.events: dict[tuple[str, int], str] = {}
        self.parents: dict[str, str] = {}
        self.connects: dict[tuple[str, str], collections.deque[Point]] = collections.defaultdict(collections.deque)
        self.kills: dict[str, list[tuple[str, Point]]] = collections.defaultdict(list)
        self.makers: dict[object, tuple[int, str, Known]] = {}

    def take(self, what: int, step: Step) -> None:
        """Takes the beginning of the next step, the end of one, or both, in the order of the places of their lines."""
        thread = self.threads.get(step.whose.thread) or self.newcomer(step)
        if what != END:
            self.begin(thread, step)
        if what != BEGIN:
            self.end(thread, step)

    # Threads

    def newcomer(self, step: Step) -> Thread:
        """A thread that the log does not tell to be made."""
        whose = step.whose
        found = self.threads[whose.thread] = Thread(whose.thread, whose.process, whose.box, step.time)
        found.own[START] = [(-1, step.time, NOTHING_KNOWN)]
        self.note(found, whose.number)
        return found

    def note(self, thread: Thread, number: str) -> None:
        self.alive[thread.process].add(thread.name)
        self.tally.has_threads = self.tally.has_threads or len(self.alive[thread.process]) > 1
        self.numbers[number] = thread.name

    def born(self, birth: Birth) -> None:
        parent = self.threads.get(birth.parent)
        if parent is None or birth.whose.thread in self.threads:
            return
        found = self.threads[birth.whose.thread] = Thread(birth.whose.thread, birth.whose.process, birth.whose.box, parent.last)
        self.note(found, birth.whose.number)
        if found.process != parent.process:
            self.parents[found.process] = parent.process
        if self.join(found, parent.here(), 0, "fork"):
            # What the parent had waited for keeps its kind.
            found.why.update(parent.why)
        else:
            found.own[START] = [(-1, parent.last, NOTHING_KNOWN)]

    def called(self, box: str, number: str) -> str:
        """The latest thread of this number in a box."""
        return self.numbers.get(box + number, box + number)

    # What waits

    def join(self, thread: Thread, point: Point, more: int, kind: str) -> bool:
        """Lets a thread come after a point, if that kind counts."""
        if kind not in self.kinds:
            return False
        self.frontiers.join(thread, point, more, kind)
        return True

    def wait_for(self, thread: Thread, step: Step, points: Sequence[Point], kind: str) -> bool:
        """A call has ended that waited for these. Its time is a wait where the latest of them came after its beginning, else thinking."""
        counts = kind in self.kinds
        latest: int | None = None
        for it in points:
            if it.who != thread.name and (latest is None or it.time > latest):
                latest = it.time
        took = step.end - step.time
        is_known = counts and latest is not None and latest > step.time - SLACK
        if counts and latest is not None and thread.poll and latest > thread.poll[1]:
            # What it polled for has come.
            thread.clock -= thread.poll[0]
            self.tally.explained[kind] += thread.poll[0]
            self.tally.unexplained["poll"] -= thread.poll[0]
        thread.poll = None
        more = took
        if is_known and latest is not None:
            self.tally.explained[kind] += took
            more = max(0, step.end - max(latest, step.time))
        else:
            thread.clock += took
        for it in points:
            self.join(thread, it, max(more, step.end - max(it.time, step.time)) if is_known else more, kind)
        return True

    # Beginnings

    def begin(self, thread: Thread, step: Step) -> None:
        time, asked, requests = step.time, step.asked, step.requests
        if time > thread.last:
            thread.clock += time - thread.last
            thread.last = time
        name = asked.name
        if name == "+++":
            return
        if requests:
            thread.poll = None
            if self.named:
                self.come_after_names(thread, step)
            self.frontiers.issue(thread, requests)
        thread.point = None
        release = RELEASES.get(name)
        if release is not None:
            point = thread.point = Point(thread.last, thread.name, thread.own, thread.clock)
            if not asked.has_failed or name == "connect":
                release(self, thread, step, point)
        elif name in EXITS:
            thread.point = thread.here()
            self.leave(thread, name == "exit_group")

    def come_after_names(self, thread: Thread, step: Step) -> None:
        """A request that finds by its name what another thread made comes after that."""
        for number in step.requests:
            for what, key in self.named.get(number, ()):
                maker = self.makers.get(key) if what == "needs" else None
                if maker is not None and maker[1] != thread.name:
                    made, name, known = maker
                    self.join(thread, Point(0, name, {name: [(made, 0, known)]}), 0, "name")

    def give_up(self, thread: Thread, step: Step, point: Point) -> None:
        """A record lock is given up."""
        asked = record_lock_of(step.asked.args)
        if asked is not None and asked.kind == "F_UNLCK":
            self.locks.give_up(asked.key, (step.whose.process, asked.descriptor), asked.of, point)

    def give_up_whole(self, thread: Thread, step: Step, point: Point) -> None:
        if "LOCK_UN" in step.asked.args:
            number, path = descriptor_of(step.asked.args)
            self.locks.give_up((path, "flock"), (step.whose.process, number), Range(), point)

    def channel(self, step: Step, path: str, writes: bool) -> Channel | None:
        if EVENT in path:
            return step.whose.box, self.event(step.whose.process, descriptor_of(step.asked.args)[0])
        return (step.whose.box, path) if path in self.fifos else channel_of(step.whose.box, path, writes)

    def event(self, process: str, descriptor: int) -> str:
        """The eventfd that a process has under this descriptor: one that it made, or has of its parent."""
        maker: str | None = process
        while maker is not None and (maker, descriptor) not in self.events:
            maker = self.parents.get(maker)
        return self.events.get((maker or process, descriptor), f"{process} {descriptor}")

    def new_event(self, thread: Thread, step: Step) -> bool:
        if step.asked.result.isdecimal():
            self.events[thread.process, step.asked.amount] = f"{thread.process} {step.begun}"
        return False

    def close(self, thread: Thread, step: Step, point: Point) -> None:
        number, path = descriptor_of(step.asked.args)
        channel = self.channel(step, path, True)
        if channel is not None:
            self.streams.close(channel, point)
        elif path:
            self.locks.close(path, step.whose.process, number, point)

    def closed_by_copy(self, thread: Thread, step: Step, point: Point) -> None:
        """dup2 closes what was open under the second descriptor."""
        found = DUPLICATED.search(step.asked.args)
        channel = self.channel(step, found[2], True) if found else None
        if channel is not None and len(channel) == 2:
            self.streams.close(channel, point)

    def wake(self, thread: Thread, step: Step, point: Point) -> None:
        found = futex_of(step.asked.args)
        if found is None:
            return
        key = found.key(step.whose)
        if found.waits and not found.is_bitset and found.value != CONTENDED:
            self.arrived[key][thread.name] = point
        elif found.wakes and step.asked.result.isdecimal():
            if found.value == EVERYBODY and self.arrived[key]:
                # The last one at a barrier comes after all that wait there.
                for it in self.arrived.pop(key).values():
                    self.join(thread, it, 0, "futex")
                point = thread.point = thread.here()
            self.mutexes[key] = self.frontiers.both(self.mutexes.get(key), point)
            self.wakes[key].add(step.begun, step.asked.amount, point)

    def write(self, thread: Thread, step: Step, point: Point) -> None:
        self.written(step, descriptor_of(step.asked.args)[1], point)

    def splice(self, thread: Thread, step: Step, point: Point) -> None:
        paths = SHOWN.findall(step.asked.args)
        if len(paths) > 1:
            self.written(step, paths[0] if step.asked.name == "sendfile" else paths[1], point)

    def written(self, step: Step, path: str, point: Point) -> None:
        channel = self.channel(step, path, True)
        if channel is not None:
            self.streams.write(channel, step.whose.process, count_of(step, path), point)
        elif ALONE.match(path):
            self.tally.without_peer += 1

    def connect(self, thread: Thread, step: Step, point: Point) -> None:
        found = CONNECT.search(step.asked.args)
        if found and (not step.asked.has_failed or "EINPROGRESS" in step.asked.tail):
            self.connects[step.whose.box, found[1] or found[2]].append(point)

    def kill(self, thread: Thread, step: Step, point: Point) -> None:
        words = step.asked.args.rstrip(") ").split(", ")
        target = words[1] if step.asked.name == "tgkill" and len(words) > 1 else words[0]
        queue = self.kills[self.called(step.whose.box, target.strip())]
        queue.append((words[-1].strip(), point))
        del queue[:-MOST_SIGNALS]

    def program(self, thread: Thread, step: Step, point: Point) -> None:
        self.programs[step.whose.thread] = self.programs[step.whose.process] = point

    def leave(self, thread: Thread, is_all: bool) -> None:
        """A thread ends, or its process."""
        point = thread.point or thread.here()
        self.exits[thread.name] = point
        self.ends[thread.process] = self.frontiers.both(self.ends.get(thread.process), point)
        self.alive[thread.process].discard(thread.name)
        if is_all or not self.alive[thread.process]:
            self.locks.leave(thread.process, point)
            self.streams.leave(thread.process, self.ends[thread.process])

    # Ends

    def end(self, thread: Thread, step: Step) -> None:
        asked, end = step.asked, step.end
        name = asked.name
        if name == "+++":
            if thread.name not in self.exits:
                thread.point = None
                self.leave(thread, False)
            return
        if name == "---":
            self.signalled(thread, step)
            return
        if asked.tail and DELAYED in asked.tail:
            self.tally.is_delayed = True
        # The time of a request is no thinking.
        if step.requests:
            if self.named:
                self.note_makers(thread, step)
        elif not (asked.has_failed and self.interrupted(thread, step)):
            acquire = ACQUIRES.get(name)
            if acquire is None or not acquire(self, thread, step):
                thread.clock += end - step.time
                self.not_explained(step)
        if end > thread.last:
            thread.last = end

    def note_makers(self, thread: Thread, step: Step) -> None:
        # The last request of the thread is one of this call, whose requests share what is known of them.
        _, _, known = thread.own[thread.name][-1]
        for number in step.requests:
            for what, key in self.named.pop(number, ()):
                if what == "makes":
                    self.makers[key] = number, thread.name, known

    def not_explained(self, step: Step) -> None:
        if step.end - step.time > NOT_TOLD and step.asked.name in ACQUIRES and step.asked.name not in POLLS:
            self.tally.unexplained[step.asked.name] += step.end - step.time

    def interrupted(self, thread: Thread, step: Step) -> bool:
        """A call that is begun again: what it waited for shows when it returns."""
        if step.asked.name not in BEGUN_AGAIN or not ("ERESTART" in step.asked.tail or "EINTR" in step.asked.tail):
            return False
        took = step.end - step.time
        thread.clock += took
        before, since = thread.poll or (0, step.time)
        thread.poll = before + took, since
        self.tally.unexplained["poll"] += took
        return True

    def signalled(self, thread: Thread, step: Step) -> None:
        found = SIGNAL.match(step.asked.args)
        if found is None:
            return
        name, sender = found[1], self.called(step.whose.box, found[2])
        if name == "SIGCHLD" and thread.poll and sender in self.ends:
            self.wait_for(thread, step, [self.ends[sender]], "wait")
            return
        queue = self.kills.get(thread.name) or self.kills.get(thread.process) or []
        sent = next((it for it in queue if it[0] == name), None)
        if sent is None:
            return
        queue.remove(sent)
        if thread.poll:
            self.wait_for(thread, step, [sent[1]], "signal")
        else:
            self.join(thread, sent[1], max(0, step.time - sent[1].time), "signal")

    def lock(self, thread: Thread, step: Step) -> bool:
        """A record lock that was tried for, or taken."""
        asked = record_lock_of(step.asked.args)
        if asked is None or asked.kind == "F_UNLCK":
            return False
        return self.locked(thread, step, asked.key, (step.whose.process, asked.descriptor), asked.of, asked.kind == "F_WRLCK")

    def lock_whole(self, thread: Thread, step: Step) -> bool:
        if "LOCK_UN" in step.asked.args:
            return False
        number, path = descriptor_of(step.asked.args)
        return self.locked(thread, step, (path, "flock"), (step.whose.process, number), Range(), "LOCK_EX" in step.asked.args)

    def locked(self, thread: Thread, step: Step, key: Key, holder: Holder, of: Range, writes: bool) -> bool:
        if step.asked.has_failed:
            if "EAGAIN" in step.asked.tail or "EACCES" in step.asked.tail:
                thread.tries = True
            return False
        thread.tries = False
        self.wait_for(thread, step, self.locks.before(key, of, writes), "lock")
        thread.last = max(thread.last, step.end)
        self.locks.take(key, holder, of, writes, thread.point or thread.here())
        return True

    def futex(self, thread: Thread, step: Step) -> bool:
        found = futex_of(step.asked.args)
        if found is None or not found.waits:
            return False
        ended = self.exits.get(self.called(step.whose.box, found.value)) if found.is_bitset else None
        if ended is not None:
            return self.wait_for(thread, step, [ended], "futex")
        if step.asked.has_failed and "EAGAIN" not in step.asked.tail:
            return False
        key = found.key(step.whose)
        self.arrived[key].pop(thread.name, None)
        if found.value == CONTENDED and not found.is_bitset:
            return key in self.mutexes and self.wait_for(thread, step, [self.mutexes[key]], "futex")
        # Where the call was made that woke this one: the first that may have, or where the value had changed before the last one.
        wakes = self.wakes[key]
        woken = wakes.before(thread.name) if step.asked.has_failed else wakes.take(step.begun)
        return woken is not None and self.wait_for(thread, step, [woken], "futex")

    def receive(self, thread: Thread, step: Step) -> bool:
        if step.asked.has_failed or step.asked.name == "sendfile":
            return False
        path = descriptor_of(step.asked.args)[1]
        if step.asked.name == "splice":
            path = next(iter(SHOWN.findall(step.asked.args)), "")
        if "signalfd" in path:
            return self.told_of_signal(thread, step)
        channel = self.channel(step, path, False)
        if channel is None:
            self.tally.without_peer += ALONE.match(path) is not None
            return False
        points = self.streams.take(channel, count_of(step, path))
        is_known = bool(points) and self.wait_for(thread, step, points, kind_of(channel))
        if step.asked.amount:
            here = thread.here()
            self.streams.note_read(channel, Point(step.end, here.who, here.of, here.clock))
        return is_known

    def told_of_signal(self, thread: Thread, step: Step) -> bool:
        """A read of a signalfd: the first signal of its number that this sender sent. Those of one number do not queue up."""
        raw = shown_bytes(step.asked.args)
        if len(raw) < SENDER_AT + 4:
            return False
        number, sender = raw[0], self.called(step.whose.box, str(int.from_bytes(raw[SENDER_AT : SENDER_AT + 4], "little")))
        queue = self.kills.get(thread.name) or self.kills.get(thread.process) or []
        alike = [it for it in queue if NUMBERS.get(it[0]) == number]
        sent = next((it for it in alike if it[1].who == sender), None)
        if sent is not None:
            for it in alike:
                queue.remove(it)
            return self.wait_for(thread, step, [sent[1]], "signal")
        return number == signal.SIGCHLD and sender in self.ends and self.wait_for(thread, step, [self.ends[sender]], "wait")

    def send(self, thread: Thread, step: Step) -> bool:
        """A write to a pipe that was full waits for the read that made room."""
        channel = self.channel(step, descriptor_of(step.asked.args)[1], True)
        if step.asked.has_failed or channel is None or len(channel) != 2 or step.end - step.time < NO_WAIT:
            return False
        point = self.streams.room(channel)
        return point is not None and self.wait_for(thread, step, [point], "pipe")

    def wait(self, thread: Thread, step: Step) -> bool:
        if step.asked.has_failed:
            return False
        number = step.asked.result
        if step.asked.name == "waitid":
            found = SENDER.search(step.asked.args)
            number = found[1] if found else "0"
        ended = self.ends.get(self.called(step.whose.box, number)) if number != "0" else None
        return ended is not None and self.wait_for(thread, step, [ended], "wait")

    def forked(self, thread: Thread, step: Step) -> bool:
        """vfork ends when the child has another program, or none any more."""
        if step.asked.has_failed or step.asked.name != "vfork" and "VFORK" not in step.asked.args:
            return False
        child = self.called(step.whose.box, step.asked.result)
        point = self.programs.get(child) or self.ends.get(child)
        return point is not None and self.wait_for(thread, step, [point], "fork")

    def accept(self, thread: Thread, step: Step) -> bool:
        found = ACCEPT.search(descriptor_of(step.asked.args)[1])
        queue = self.connects.get((step.whose.box, found[1] or found[2])) if found and not step.asked.has_failed else None
        return bool(queue) and queue is not None and self.wait_for(thread, step, [queue.popleft()], "socket")

    def poll(self, thread: Thread, step: Step) -> bool:
        """Its time is thinking, until what it polled for shows."""
        took = step.end - step.time
        thread.clock += took
        has_found = "EINTR" in step.asked.tail or "ERESTART" in step.asked.tail or not step.asked.has_failed and step.asked.result != "0"
        thread.poll = (took, step.time) if has_found else None
        self.tally.unexplained["poll"] += took
        return True

    def sleep(self, thread: Thread, step: Step) -> bool:
        """A sleep is thinking, but for one between tries for a lock."""
        if not thread.tries or "lock" not in self.kinds:
            return False
        self.tally.explained["lock"] += step.end - step.time
        return True


def kind_of(channel: Channel) -> str:
    return "pipe" if len(channel) == 2 else "socket"


def count_of(step: Step, path: str) -> int:
    """How much is written or read: of an eventfd the number that the bytes are, and where they are not shown one."""
    return step.asked.amount if EVENT not in path else int.from_bytes(shown_bytes(step.asked.args)[:8], "little") or 1


def shown_bytes(args: str) -> bytes:
    """The bytes of the first text that strace shows."""
    found = TEXT.search(args)
    text = ESCAPED.sub(lambda it: chr(int(it[1], 8)) if it[1][0] in "01234567" else LETTERS.get(it[1], it[1]), found[1]) if found else ""
    return bytes(min(ord(it), 255) for it in text)


class RecordLock(NamedTuple):
    """What a call asks for that takes or gives up a record lock: its file, the descriptor that has it (-1 where the process has), its bytes, and
    its kind."""

    key: Key
    descriptor: int
    of: Range
    kind: str


@functools.lru_cache(maxsize=1 << 14)
def record_lock_of(args: str) -> RecordLock | None:
    """None where a call of fcntl is on something else, or asks what holds a lock (F_GETLK)."""
    if "_SETLK" not in args:
        return None
    number, path = descriptor_of(args)
    of, kind = range_of(args)
    return RecordLock((path, "record"), number if "F_OFD" in args else -1, of, kind)


def range_of(args: str) -> tuple[Range, str]:
    """The bytes of a record lock, and its kind. One that does not begin at a place of the file is of the whole file."""
    found = LOCK.search(args)
    if found is None or found[2] != "SEEK_SET" or int(found[3]) < 0:
        return Range(), found[1] if found else "F_UNLCK" if "F_UNLCK" in args else ""
    first, length = min(int(found[3]), BEHIND - 1), int(found[4])
    return Range(first, min(first + length, BEHIND) if length else BEHIND), found[1]


class Futex(NamedTuple):
    """What a call on a futex asks for: its address, which a process has alone or shares, and the value behind that."""

    address: str
    waits: bool
    wakes: bool
    is_bitset: bool
    is_private: bool
    value: str

    def key(self, whose: Whose) -> tuple[str, str]:
        """Where the futex is: an address of a process, or of all that share it."""
        return whose.process if self.is_private else whose.box, self.address


@functools.lru_cache(maxsize=1 << 14)
def futex_of(args: str) -> Futex | None:
    found = FUTEX.match(args)
    if found is None:
        return None
    address, what, flags, value = found.groups("")
    waits, wakes = what.startswith("FUTEX_WAIT"), what.startswith("FUTEX_WAKE")
    return Futex(address, waits, wakes, "BITSET" in what, "PRIVATE" in what + flags, value)


# What is done at the beginning of a call, and at its end: True where it says what became of its time.
Release = Callable[[Walk, Thread, Step, Point], None]
Acquire = Callable[[Walk, Thread, Step], bool]

RELEASES: dict[str, Release] = {
    "fcntl": Walk.give_up, "flock": Walk.give_up_whole, "close": Walk.close, "futex": Walk.wake, "connect": Walk.connect,
    "execve": Walk.program, "splice": Walk.splice, "sendfile": Walk.splice, "dup2": Walk.closed_by_copy, "dup3": Walk.closed_by_copy,
    **dict.fromkeys(WRITES, Walk.write), **dict.fromkeys(KILLS, Walk.kill),
}
ACQUIRES: dict[str, Acquire] = {
    "fcntl": Walk.lock, "flock": Walk.lock_whole, "futex": Walk.futex, "accept": Walk.accept, "accept4": Walk.accept,
    "splice": Walk.receive, "sendfile": Walk.receive, "eventfd": Walk.new_event, "eventfd2": Walk.new_event,
    **dict.fromkeys(READS, Walk.receive), **dict.fromkeys(WRITES, Walk.send),
    **dict.fromkeys(WAITS, Walk.wait), **dict.fromkeys(FORKS, Walk.forked), **dict.fromkeys(POLLS, Walk.poll),
    **dict.fromkeys(SLEEPS, Walk.sleep),
}
BEGUN_AGAIN = WAITS | READS | {"futex", "fcntl", "flock"}
