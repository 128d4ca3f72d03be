"""Traces: read, paced, cut into windows, sorted, counted. A trace may pass the limits of waff here, but not its spelling."""

import collections
import csv
import io
import operator
import os
import re
from argparse import Namespace
from collections.abc import Iterable, Iterator
from dataclasses import dataclass
from fractions import Fraction

from . import clients, limits, lists
from .logs import Refusal, is_number, read_text, rows_of, shown, tell

# How many messages the windows of a trace may have in all.
MOST_IN_WINDOWS = 20000000

# The headers of traces, and their versions.
HEADERS = {
    "message,cost,ops": 1, "message,cost,release,ops": 2, "message,cost,release,client,think,ops": 3,
    "message,cost,release,client,think,after,ops": 4,
}
FIELDS = {1: 3, 2: 4, 3: 6, 4: 7}
RANGE = re.compile(r":([0-9]+)-([0-9]+)(?= |;|$)", re.ASCII)
WORDS: dict[str, tuple[int | None, bool]] = {"set": (2, True), "add": (2, True), "read": (1, False), "copy": (2, False), "swap": (2, False)}


@dataclass(slots=True)
class Message:
    """A message: its name, its cost, its release (0 where the trace has none), its operations as they are written, its client (`-` for
    none), its think time, and the list of those that it waits for, as it is written."""

    name: str
    cost: int
    release: int
    ops: str
    client: str = clients.NONE
    think: int = 0
    after: str = ""

    def line(self, version: int) -> str:
        """Its record in a trace of this version."""
        if version == 4:
            return f"{self.name},{self.cost},{self.release},{self.client},{self.think},{self.after},{self.ops}"
        if version == 3:
            return f"{self.name},{self.cost},{self.release},{self.client},{self.think},{self.ops}"
        return f"{self.name},{self.cost},{self.release},{self.ops}" if version == 2 else f"{self.name},{self.cost},{self.ops}"

    def count(self) -> int:
        """How many operations it has; a range is one for each of its cells. They are spelled right."""
        count = self.ops.count(";") + 1
        for first, last in RANGE.findall(self.ops):
            count += int(last) - int(first)
        return count


@dataclass(slots=True)
class Trace:
    """The messages of a trace. One of version 2 has releases, one of version 3 clients too, one of version 4 lists."""

    version: int
    messages: list[Message]

    @property
    def has_releases(self) -> bool:
        return self.version > 1

    @property
    def has_clients(self) -> bool:
        return self.version > 2

    def text(self) -> str:
        lines = [header_of(self.version), *(it.line(self.version) for it in self.messages)]
        return "\n".join(lines) + "\n"

    def starts(self) -> list[int]:
        """When each message came as it was recorded: its release, or where it has a client about when that one issued it."""
        if self.version == 4:
            issues = lists.Issues()
            return [issues.next(it.cost, it.release, it.client, it.think, it.after) for it in self.messages]
        if self.has_clients:
            return clients.starts([(it.client, it.cost, it.release, it.think) for it in self.messages])
        return [it.release for it in self.messages]


def header_of(version: int) -> str:
    return next(it for it, number in HEADERS.items() if number == version)


# A record as it is written in a line without quotes, by the version of the trace.
NAME = r'([^,"\r\n]*)'
NUMBER = r"([0-9]{1,18})"
AFTER = r"((?:[0-9]{1,18}(?:\+[0-9]{1,18})?(?: (?=[0-9])|(?=,)))*)"
LINES = {
    1: re.compile(f"^{NAME},{NUMBER},{NAME}$", re.M),
    2: re.compile(f"^{NAME},{NUMBER},{NUMBER},{NAME}$", re.M),
    3: re.compile(f"^{NAME},{NUMBER},{NUMBER},{NAME},{NUMBER},{NAME}$", re.M),
    4: re.compile(f"^{NAME},{NUMBER},{NUMBER},{NAME},{NUMBER},{AFTER},{NAME}$", re.M),
}
# The characters of a part of a long text.
PART = 1 << 14
# The fields of a record.
Record = tuple[str, ...]


@dataclass(slots=True)
class Opened:
    """A file that is a trace: its name as it is told, its version, what stands behind its header if no field of it is in quotes, and its
    records, of which one that is none is refused when it is met."""

    called: str
    version: int
    plain: str | None
    records: Iterator[Record]


def records_of(name: str) -> tuple[int, Iterator[Record]]:
    """The version of the trace of a file, and its records as texts, whose numbers are numbers."""
    found = opened(name)
    return found.version, found.records


def opened(name: str) -> Opened:
    text = read_text(name).removeprefix("\ufeff")
    called = "standard input" if name == "-" else shown(name)
    is_plain = '"' not in text and "\r" not in text
    # The header is the first line that is not empty.
    first, _, plain = text.lstrip("\n").partition("\n") if is_plain else ("", "", "")
    lines = [first] if is_plain else io.StringIO(text, newline="")
    records = (it for it in csv.reader(lines, strict=True) if it)
    try:
        header: list[str] = next(records, [])
    except (csv.Error, ValueError) as fault:
        raise Refusal(3, f"{called}: no CSV: {fault}") from None
    version = HEADERS.get(",".join(header))
    if version is None:
        raise Refusal(3, f"{called}: its first record is no header of a trace: {' or '.join(HEADERS)}")
    if is_plain:
        return Opened(called, version, plain, by_lines(called, version, plain))
    return Opened(called, version, None, by_csv(called, version, records))


def by_lines(called: str, version: int, plain: str) -> Iterator[Record]:
    """The records of a text without quotes, a line each."""
    number = 2
    for _, rows, part in rows_of(plain, LINES[version], PART):
        yield from rows
        number += len(rows)
        for line in [] if rows else filter(None, part.split("\n")):
            yield record_of(called, version, number, line)
            number += 1


def by_csv(called: str, version: int, records: Iterator[list[str]]) -> Iterator[Record]:
    """The records of any text."""
    numbers = {1: (1,), 2: (1, 2), 3: (1, 2, 4), 4: (1, 2, 4)}[version]
    try:
        for number, record in enumerate(records, 2):
            if len(record) != FIELDS[version] or not all(is_number(record[at]) for at in numbers):
                raise no_message(called, number, version)
            if version == 4 and re.fullmatch(AFTER + ",", record[5] + ",") is None:
                raise no_message(called, number, version)
            yield tuple(record)
    except (csv.Error, ValueError) as fault:
        raise Refusal(3, f"{called}: no CSV: {fault}") from None


def record_of(called: str, version: int, number: int, line: str) -> Record:
    """The record of a line without quotes."""
    found = LINES[version].fullmatch(line)
    if found is None:
        raise no_message(called, number, version)
    return found.groups()


def no_message(called: str, number: int, version: int) -> Refusal:
    return Refusal(3, f"{called}: record {number} is no message of {FIELDS[version]} fields")


def read_trace(name: str) -> Trace:
    """The trace of a file; a record that is none of a trace is refused."""
    version, records = records_of(name)
    if version == 1:
        return Trace(version, [Message(it[0], int(it[1]), 0, it[2]) for it in records])
    if version == 2:
        return Trace(version, [Message(it[0], int(it[1]), int(it[2]), it[3]) for it in records])
    if version == 3:
        return Trace(version, [Message(it[0], int(it[1]), int(it[2]), it[5], it[3], int(it[4])) for it in records])
    return Trace(version, [Message(it[0], int(it[1]), int(it[2]), it[6], it[3], int(it[4]), it[5]) for it in records])


# Cells of a space: the first and the last.
Cells = tuple[str, int, int]


def cells(called: str, number: int, ops: str, version: int) -> list[Cells]:
    """The cells that the operations of a message name."""
    found: list[Cells] = []
    for op in ops.split(";"):
        words = op.split(" ")
        count, has_value = WORDS.get(words[0], (None, False))
        if len(words) - 1 != count:
            raise Refusal(3, f"{called}: record {number}: no operation: {shown(op)}")
        for cell in words[1:2] if has_value else words[1:]:
            space, colon, indices = cell.rpartition(":")
            first, dash, last = indices.partition("-")
            may_be_range = version > 2 and words[0] in ("set", "add", "read")
            if not colon or not is_number(first) or dash and not (may_be_range and is_number(last) and int(first) <= int(last)):
                raise Refusal(3, f"{called}: record {number}: no cell: {shown(cell)}")
            found.append((space, int(first), int(last or first)))
    return found


def pace(asked: Namespace) -> str:
    """The trace with its releases and think times divided by the speed, rounded down; or without them."""
    if asked.most and not asked.at_once:
        raise Refusal(2, "--most: wanted is --at-once beside it")
    version, records = records_of(asked.trace)
    if asked.at_once:
        return "\n".join(few_at_once(version, list(records), asked.most) if asked.most else at_once(version, records)) + "\n"
    if version == 1:
        raise Refusal(3, f"{shown(asked.trace)}: it has no releases")
    return "\n".join(paced(version, records, asked.speed)) + "\n"


def at_once(version: int, records: Iterable[Record]) -> Iterator[str]:
    """A trace without releases and think times."""
    yield header_of(version if version > 2 else 1)
    if version > 2:
        names = set()
        for name, cost, _, client, _, *others, ops in records:
            names.add(client)
            after = f"{lists.without_gaps(others[0])}," if others else ""
            yield f"{name},{cost},0,{client},0,{after}{ops}"
        if len(names) == 1 and clients.NONE not in names:
            tell(clients.ONE_CLIENT)
    else:
        for it in records:
            yield f"{it[0]},{it[1]},{it[-1]}"


def paced(version: int, records: Iterable[Record], speed: Fraction) -> Iterator[str]:
    """A trace that is so many times as fast."""
    times, by = speed.denominator, speed.numerator
    yield header_of(version)
    if version > 2:
        # The same times come often.
        known: dict[str, int] = {}
        for name, cost, release, client, think, *others, ops in records:
            for it in (release, think):
                if it not in known:
                    known[it] = int(it) * times // by
            after = f"{lists.paced(others[0], lambda gap: gap * times // by)}," if others else ""
            yield f"{name},{cost},{known[release]},{client},{known[think]},{after}{ops}"
    else:
        for name, cost, release, ops in records:
            yield f"{name},{cost},{int(release) * times // by},{ops}"


def few_at_once(version: int, records: list[Record], most: int) -> Iterator[str]:
    """A trace without releases and think times, of which so many clients at most are under way at once. A client that began in the log when
    another one had ended comes behind that one: the two are one client, which is called as the first of them."""
    if version == 4:
        raise Refusal(3, "--most: the trace has lists of what messages wait for, which tell how many clients are under way")
    if version != 3:
        raise Refusal(3, "--most: the trace has no clients")
    starts = clients.starts([(it[3], int(it[1]), int(it[2]), int(it[4])) for it in records])
    spans = clients.spans((it[3], start, start + int(it[1])) for it, start in zip(records, starts, strict=True))
    places = clients.places(spans, most)
    # Each client is moved to when its place is free.
    order = sorted(range(len(records)), key=lambda at: starts[at] + places.get(records[at][3], (0, ""))[0])
    yield header_of(version)
    for at in order:
        name, cost, _, client, _, ops = records[at]
        yield f"{name},{cost},0,{places[client][1] if client in places else client},0,{ops}"


# A message: when it came, its client, and its line.
Entry = tuple[int, str, str]
# The first tick of a window, and its messages.
Windows = Iterator[tuple[int, list[Entry]]]


def entries_of(name: str) -> tuple[int, list[Entry]]:
    """The version of a trace, and its messages in the order of the trace, each with when it came as it was recorded."""
    version, records = records_of(name)
    if version < 3:
        return version, [(int(it[2]) if version == 2 else 0, clients.NONE, ",".join(it)) for it in records]
    found: list[Entry] = []
    ends: dict[str, int] = {}
    names: dict[str, str] = {}
    if version == 4:
        issues = lists.Issues()
        for it in records:
            client = names.setdefault(it[3], it[3])
            found.append((issues.next(int(it[1]), int(it[2]), client, int(it[4]), it[5]), client, ",".join(it)))
        return version, found
    for it in records:
        client = names.setdefault(it[3], it[3])
        start = max(int(it[2]), ends.get(client, 0) + int(it[4]))
        if client != clients.NONE:
            ends[client] = start + int(it[1])
        found.append((start, client, ",".join(it)))
    return version, found


def in_order(version: int, entries: list[Entry]) -> list[Entry]:
    """The messages in the order in which they came; where some wait for others, with the numbers that these have then."""
    if version < 4:
        return sorted(entries, key=operator.itemgetter(0))
    order = sorted(range(len(entries)), key=lambda at: entries[at][0])
    lines = lists.renumbered([line for _, _, line in entries], order)
    return [(*entries[at][:2], line) for at, line in zip(order, lines, strict=True)]


def sort(asked: Namespace) -> str:
    """The trace in the order of its releases, or where it has clients of its starts as recorded; those that are equal keep theirs."""
    version, entries = entries_of(asked.trace)
    entries = in_order(version, entries)
    return "\n".join([header_of(version), *(line for _, _, line in entries)]) + "\n"


def windows_of_messages(messages: list[Entry], width: int, every: int) -> Windows:
    """The windows of so many messages, each from the first that came on."""
    for first in range(0, len(messages), every):
        found = messages[first : first + width]
        yield min((it[0] for it in found), default=0), found


def windows_of_ticks(messages: list[Entry], width: int, every: int) -> Windows:
    """The windows of so many ticks: a message is in each one in which it came."""
    found: dict[int, list[Entry]] = collections.defaultdict(list)
    for it in messages:
        last = it[0] // every
        first = max(0, -(-(it[0] - width + 1) // every))
        for number in range(first, last + 1):
            found[number].append(it)
    for number in sorted(found):
        yield number * every, found[number]


def moved(messages: list[Entry], begin: int, version: int, numbers: dict[int, int]) -> Iterator[str]:
    """The lines of a window that begins at this tick. The first message of a client comes when it came, whatever was before. `numbers` are
    those of all messages, by their entries."""
    if version == 4:
        yield from lists.moved(messages, begin, numbers)
        return
    known: set[str] = set()
    for start, client, line in messages:
        if version == 1:
            yield line
        elif version == 2:
            name, cost, release, ops = line.split(",", 3)
            yield f"{name},{cost},{max(0, int(release) - begin)},{ops}"
        elif client in known:
            name, cost, release, _, think, ops = line.split(",", 5)
            yield line if release == "0" else f"{name},{cost},{max(0, int(release) - begin)},{client},{think},{ops}"
        else:
            if client != clients.NONE:
                known.add(client)
            name, cost, _, _, _, ops = line.split(",", 5)
            yield f"{name},{cost},{start - begin},{client},0,{ops}"


def numbers_of(version: int, entries: list[Entry]) -> dict[int, int]:
    """The number of each message, where lists name them."""
    return {id(it): number for number, it in enumerate(entries, 1)} if version == 4 else {}


def prefix_of(out: str) -> str:
    """How the names of windows begin: with the words that were given, or in a folder, which is made if it is not there."""
    if not out.endswith(os.sep) and not os.path.isdir(out):
        return out
    try:
        os.makedirs(out, exist_ok=True)
    except OSError as fault:
        raise Refusal(4, f"{shown(out)}: {fault.strerror}") from None
    return os.path.join(out, "window-")


def window(asked: Namespace) -> str:
    """Writes a trace for each window, with its releases from 0, and answers the names of the files."""
    version, entries = entries_of(asked.trace)
    width = asked.messages or asked.ticks
    every = asked.every or width
    if asked.ticks and version == 1:
        raise Refusal(3, f"{shown(asked.trace)}: it has no releases")
    if len(entries) * max(1, width // every) > MOST_IN_WINDOWS:
        raise Refusal(2, f"--every {every}: more than {MOST_IN_WINDOWS} messages in all windows")
    parts = windows_of_messages if asked.messages else windows_of_ticks
    prefix = prefix_of(asked.out)
    lines = ["file,messages,from"]
    most = limits.MESSAGES if version > 2 else limits.EARLIER_MESSAGES
    # Where think times or costs are not those of the log any more, clients are ahead of others that were before them there.
    if version > 2:
        entries = in_order(version, entries)
    numbers = numbers_of(version, entries)
    for number, (start, messages) in enumerate(parts(entries, width, every), 1):
        name = f"{prefix}{number:05}.csv"
        if len(messages) > most:
            tell(f"{shown(name)}: {len(messages)} messages are more than the {most} that waff takes")
        write_file(name, "\n".join([header_of(version), *moved(messages, start, version, numbers)]) + "\n")
        lines.append(f"{name},{len(messages)},{start}")
    return "\n".join(lines) + "\n"


def write_file(name: str | os.PathLike[str], text: str) -> None:
    try:
        with open(name, "w", encoding="utf-8", errors="surrogateescape", newline="") as file:
            file.write(text)
    except OSError as fault:
        raise Refusal(4, f"{shown(os.fspath(name))}: {fault.strerror}") from None
