"""Lines of a log of `strace -f`: what each tells of which process, and which process made which."""

import collections
import heapq
import re
from collections.abc import Iterable, Iterator, Sequence
from dataclasses import dataclass

from .logs import File, Lines, as_name, stem_of

# A line: who, when (before the year 2286), perhaps an instruction pointer (-i) or the number of a call (-n), and what.
HEAD = re.compile(
    r"(?:\[pid +(\d{1,9})\] +|(\d{1,9}) +)?(\d{1,10})\.(\d{6}|\d{9}) (?:\[(?: *\d{1,4}|[0-9a-f?]{8,16})\] )*(.*)", re.ASCII
)
# What stands behind the arguments of a call: its result, perhaps the path of a descriptor or the two ends of a socket (-y, -yy), and
# how long it took.
PATH_SHOWN = r"<((?:->|[^<>])*)(?:<[^<>]*>)?>"
# How strace -T shows how long a call took: seconds, and micro- or nanoseconds.
LATENCY = r" <(\d{1,9})\.(\d{6}|\d{9})>"
TAIL = re.compile(
    rf"(-?\d{{1,18}}|\?|0x[0-9a-f]{{1,16}})(?:{PATH_SHOWN})?([^<>]*?)(?:{LATENCY})?$", re.ASCII
)
# The arguments up to the bracket behind them: what stands in quotes, and the paths of descriptors, may have brackets.
ARGUMENTS = re.compile(r'(?:[^"<)]|"(?:[^"\\]|\\.)*"(?:\.\.\.)?|<(?:->|[^<>])*>|<|\)(?! += ))*\) += ', re.ASCII)
FORKS = ("clone", "clone3", "fork", "vfork")
FORKED = re.compile(r"(?:clone3?|v?fork)\(", re.ASCII)
# What strace says on standard error, which may come in the middle of a line of a log that goes there too.
ATTACHED = re.compile(r"strace: Process (\d{1,9}) attached", re.ASCII)

UNFINISHED = "<unfinished ...>"
RESUMED = " resumed>"
# No log goes on for so long without a line, in nanoseconds.
YEAR = 365 * 24 * 3600 * 10**9


def nanoseconds(seconds: str, digits: str) -> int:
    """Seconds with six or nine digits after the point, in nanoseconds."""
    return int(seconds + digits) * (1000 if len(digits) == 6 else 1)


@dataclass(slots=True)
class Open:
    """An open file with its offset, which descriptors share."""

    path: str
    file: File
    append: bool
    offset: int = 0


@dataclass(slots=True)
class Who:
    """What may be the client of a process's requests, by the words of `--clients`: a thread, a process, or with all that comes of it a
    process that stands somewhere below the log's first one. `way` are the processes from a first one on (`is_first`) to this one."""

    thread: str
    process: str
    way: tuple[str, ...]
    is_first: bool

    def child(self, name: str, flags: str) -> "Who":
        if "CLONE_THREAD" in flags:
            return Who(name, self.process, self.way, self.is_first)
        return Who(name, name, (*self.way, name), self.is_first)

    def family(self, depth: int) -> str:
        """The process so deep below the log's first one that this one comes of; this one itself above that. What comes of another one
        is a family."""
        return self.way[min(depth, len(self.way) - 1)] if self.is_first else self.way[0]


class Children:
    """Which process has several children at once: those that have begun, and not ended."""

    def __init__(self) -> None:
        self.alive: dict[str, set[str]] = collections.defaultdict(set)
        self.parents: dict[str, str] = {}
        # The way to each process that had several.
        self.with_several: dict[tuple[str, ...], None] = {}

    def born(self, who: Who) -> None:
        if len(who.way) > 1:
            parent = who.way[-2]
            self.parents[who.way[-1]] = parent
            self.alive[parent].add(who.way[-1])
            if len(self.alive[parent]) > 1 and who.is_first:
                self.with_several.setdefault(who.way[:-1])

    def ended(self, who: Who) -> None:
        if who.thread == who.process and who.process in self.parents:
            self.alive[self.parents[who.process]].discard(who.process)

    def depth(self) -> int:
        """How deep the families stand: below the first process, from the log's first one on, that has several children at once."""
        ways = sorted(self.with_several, key=len)
        return len(ways[0]) if ways else 1


@dataclass(slots=True)
class Process:
    """Who a process is, and what it has: descriptors (a table that threads share), those that a new program does not get, a directory (a list of
    one, which threads share), and a call that is not finished: its time and its text."""

    who: Who
    files: dict[int, Open]
    closing: set[int]
    directory: list[str | None]
    # What stands before its number, where there are several boxes.
    box: str = ""
    pending: tuple[int, str] | None = None
    # The place of the line with which the call began.
    begun: int = 0

    def child(self, name: str, flags: str) -> "Process":
        shares_files = "CLONE_FILES" in flags
        return Process(
            self.who.child(name, flags),
            self.files if shares_files else dict(self.files),
            self.closing if shares_files else set(self.closing),
            self.directory if "CLONE_FS" in flags else list(self.directory),
            self.box,
        )


@dataclass(slots=True)
class Source:
    """A file of a log: its lines, what stands before the numbers of its processes (`box`), its text, and the name of the process of all lines
    where none has a number."""

    log: Lines
    box: str
    text: Iterable[str]
    alone: str | None = None


@dataclass(slots=True)
class Event:
    """A line of the log: whose it is, its time in nanoseconds, and what it tells. `pid` is None where it tells that strace has
    attached itself to a process, and the box alone where the line has no number."""

    source: Source
    number: int
    line: str
    pid: str | None
    time: int
    rest: str

    @property
    def has_number(self) -> bool:
        return self.pid not in (None, self.source.box)

    @property
    def is_bracketed(self) -> bool:
        """Whether it is of a log on standard error, where a process has its number in brackets as long as it is not alone."""
        return self.line.startswith("[pid ")


def events_of(source: Source, log: Lines) -> Iterator[Event]:
    """What the lines tell, in their order, and to `log` what is not understood. A first line that is cut is not."""
    events = all_events(source, log)
    first, second = next(events, None), next(events, None)
    if first is not None and second is not None and is_first_cut(first, second):
        log.not_understood(first.number, first.line)
    elif first is not None:
        yield first
    if second is not None:
        yield second
        yield from events


def all_events(source: Source, log: Lines) -> Iterator[Event]:
    begun, box, number = "", source.box, 0
    for number, line in enumerate(source.text, 1):
        line, begun = begun + line, ""
        if "strace: Process " in line:
            attached = ATTACHED.search(line)
            if attached:
                log.without["lines of strace itself (attached)"] += 1
                begun = line[: attached.start()]
                yield Event(source, number, line, None, 0, box + attached[1])
                continue
        head = HEAD.match(line)
        if head is None:
            log.not_understood(number, line)
            continue
        alone, first, seconds, digits, rest = head.groups()
        yield Event(source, number, line, source.alone or box + (alone or first or ""), nanoseconds(seconds, digits), rest)
    log.count = number


def is_first_cut(first: Event, second: Event) -> bool:
    """Whether the first line is the end of one: its time is none, or its process has no number and the next one has one, of which
    nothing told before."""
    if first.pid is None or second.pid is None:
        return False
    if abs(second.time - first.time) > YEAR:
        return True
    makes_it = second.is_bracketed and FORKED.match(first.rest) is not None
    return not first.has_number and second.has_number and not makes_it


def numbers_of(events: Iterable[Event]) -> tuple[bool, bool]:
    """Whether a line has a number, and whether the process without a number has one later: it is alone until strace tells of another one,
    or it makes one."""
    is_followed = is_there = False
    for it in events:
        if it.has_number:
            return True, is_followed and is_there and it.is_bracketed
        is_followed = is_followed or it.pid is None or FORKED.match(it.rest) is not None
        is_there = is_there or it.pid is not None
    return False, False


@dataclass(slots=True)
class Birth:
    """A call that made a process: whose call, its arguments, and the places of the events with which it began and returned."""

    parent: str
    args: str
    begun: int
    returned: int


class Births:
    """For each process the calls that made one of this number, in their order."""

    def __init__(self) -> None:
        self.found: dict[str, collections.deque[Birth]] = collections.defaultdict(collections.deque)
        # Of each process the call that has not returned: its place and its text.
        self.begun: dict[str, tuple[int, str]] = {}

    def take(self, at: int, event: Event) -> None:
        """Takes the next line of the log, which stands at this place."""
        pid, rest = event.pid, event.rest
        if pid is None or "clone" not in rest and "fork" not in rest:
            return
        first = at
        if rest.startswith("<... "):
            # The first process of a log on standard error has no number at first.
            half = self.begun.pop(pid, None) or (self.begun.pop(event.source.box, None) if event.is_bracketed else None)
            if half is None:
                return
            first, text = half
            rest = text + rest[rest.find(RESUMED) + len(RESUMED) :]
        elif not FORKED.match(rest):
            return
        elif rest.endswith(UNFINISHED):
            self.begun[pid] = at, rest[: -len(UNFINISHED)]
            return
        args, tail = parted(rest)
        if tail and tail[1].isdecimal() and int(tail[1]):
            self.found[event.source.box + str(int(tail[1]))].append(Birth(pid, args, first, at))

    def places(self) -> Iterator[int]:
        """Where the calls began."""
        return (birth.begun for every in self.found.values() for birth in every)


def parted(args: str) -> tuple[str, re.Match[str] | None]:
    """The arguments of a call, and what stands behind them, as TAIL finds it."""
    at = args.rfind(" = ")
    tail = TAIL.match(args, at + 3) if at >= 0 and args[:at].rstrip().endswith(")") else None
    if tail is None:
        behind = ARGUMENTS.match(args)
        if behind is None:
            return args, None
        at, tail = behind.end() - 3, TAIL.match(args, behind.end())
    return args[:at], tail


class Merged:
    """What the files of a log tell, in the order of time, as often as it is wanted. A file of `strace -ff` has lines without numbers, and the
    number of its process in its name."""

    def __init__(self, sources: Sequence[Source]) -> None:
        self.sources = sources
        # The boxes of which a process without a number has one later.
        self.with_number_later: set[str] = set()
        for source in sources:
            has_number, is_later = numbers_of(events_of(source, Lines("", 0)))
            if is_later:
                self.with_number_later.add(source.box)
            if len(sources) > 1 and not has_number:
                name = stem_of(source.log.name)
                number = name.rpartition(".")[2]
                source.alone = source.box + (number if number.isdecimal() and len(number) <= 9 else as_name(name))

    def events(self) -> Iterator[Event]:
        """What they tell, and to their logs what is not understood."""
        return self.told([it.log for it in self.sources])

    def beforehand(self) -> Iterator[Event]:
        """The same, and nothing to their logs."""
        return self.told([Lines("", 0) for _ in self.sources])

    def told(self, logs: list[Lines]) -> Iterator[Event]:
        files = [events_of(source, log) for source, log in zip(self.sources, logs, strict=True)]
        return iter(heapq.merge(*files, key=lambda it: it.time)) if len(files) > 1 else files[0]
