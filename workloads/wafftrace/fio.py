"""Logs of fio: iologs of version 2 and 3 (`write_iolog`), and logs of latencies (`write_lat_log`).

The times of version 3 are in microseconds, as fio 3.33 writes them; latencies are in nanoseconds, as all of fio 3 does.
"""

import collections
import itertools
import os
import re
from argparse import Namespace
from collections.abc import Iterator
from fractions import Fraction

from .logs import Data, File, Lines, Meta, Refusal, Request, Rows, is_number, lines_in, lines_of, read_plain, rows_of, shown, stem_of
from .model import VOLUME, Found, Volume

HEADER = re.compile(r"fio version ([23]) iolog")
KINDS = {"read": "read", "write": "write", "trim": "free"}
DIRECTIONS = {"read": "0", "write": "1", "trim": "2"}
# What of a job's name stands before the number of a lane.
JOB_NAME = 20
FLUSHES = {"sync": "sync", "datasync": "sync", "sync_file_range": "sync"}


# A line of either log in the form that most have.
ACTION = re.compile(r"^([0-9]{1,18}) (\S+) (read|write|trim) ([0-9]{1,18}) ([0-9]{1,18})$", re.ASCII | re.M)
LATENCY = re.compile(r"^[0-9]{1,18}, ([0-9]{1,18}), ([0-9]{1,18}, [0-9]{1,18}, [0-9]{1,18}), [^,\n]*$", re.ASCII | re.M)
# The characters of a part of a log, whose lines are taken at once where all are of that form.
PART = 1 << 12


def without_offset(key: str) -> str:
    """The key of a latency in a log that has no offsets."""
    return key.rpartition(" ")[0] + " -"


class Latencies:
    """The latencies of a log, by direction and size, and by offset where the log has it (as `0, 4096, 8192`), in the order of the log."""

    def __init__(self, name: str) -> None:
        text = read_plain(name)
        self.lines = Lines(name, lines_in(text))
        # Those that are not read yet: mostly the next one is that of the next request.
        self.unread: Iterator[tuple[str, ...]] = self.read(text)
        # Those that were read, and which no request had yet, the first one first.
        self.waiting: dict[str, collections.deque[str]] = {}

    def read(self, text: str) -> Iterator[tuple[str, ...]]:
        """Each latency with its key."""
        for first, rows, part in rows_of(text, LATENCY, PART):
            yield from rows
            for number, line in enumerate([] if rows else lines_of(part), first):
                found = LATENCY.fullmatch(line)
                read = found.groups() if found is not None else self.parsed(number, line)
                if read is not None:
                    yield read

    def parsed(self, number: int, line: str) -> tuple[str, str] | None:
        """The latency and the key of a line in another form than most have; None where it is not understood."""
        fields = line.replace(" ", "").split(",")
        if len(fields) < 4 or not all(is_number(it) for it in fields[:4]):
            self.lines.not_understood(number, line)
            return None
        # Time, latency, direction, size; then the offset (with log_offset=1), and the priority.
        return fields[1], f"{fields[2]}, {fields[3]}, {fields[4] if len(fields) >= 6 else '-'}"

    def take(self, keys: list[str]) -> list[int | None]:
        """The latencies of the next such requests, in nanoseconds; None where there is none."""
        if not self.waiting:
            next_ones = list(itertools.islice(self.unread, len(keys)))
            if [told for _, told in next_ones] == keys:
                return [int(took) for took, _ in next_ones]
            self.unread = itertools.chain(next_ones, self.unread)
        return [self.take_one(key) for key in keys]

    def take_one(self, key: str) -> int | None:
        if self.waiting:
            found = self.waiting.get(key) or self.waiting.get(without_offset(key))
            if found:
                return int(found.popleft())
        for took, told in self.unread:
            if told == key or told == without_offset(key):
                return int(took)
            self.waiting.setdefault(told, collections.deque()).append(took)
        return None

    def left(self) -> int:
        """How many latencies no request had. The rest of the log is read for that."""
        self.take_one("")
        return sum(map(len, self.waiting.values()))


class Reader:
    """What is read of iologs. Several logs of jobs that ran together have one clock, which begins at 0 in each."""

    def __init__(self) -> None:
        self.store = Volume()
        self.requests: list[Request] = []
        self.logs: list[Lines] = []
        self.beside: list[Lines] = []
        self.known: dict[str, File] = {}

    def file(self, name: str) -> File:
        file = self.known.get(name)
        if file is None:
            file = self.known[name] = self.store.new_file(name)
        return file

    def read(self, name: str, latencies: Latencies | None, start: int, client: str) -> None:
        """Adds the requests of a log whose job started so many nanoseconds after the others."""
        text = read_plain(name)
        log = Lines(name, lines_in(text))
        has_times = True
        if text:
            first, _, actions = text.partition("\n")
            header = HEADER.fullmatch(first.strip())
            if header is None:
                raise Refusal(3, f"{log.name}: no iolog: its first line is not `fio version 2 iolog` or `.. 3 ..`")
            has_times = header[1] == "3"
            self.actions(log, actions, has_times, latencies, start, client)
            log.without["headers"] = 1
        self.logs.append(log)
        if not has_times:
            log.said.append("version 2 has waits and no times, so that requests come as soon as they can")
        if latencies:
            latencies.lines.without["latencies of no request"] += latencies.left()
            self.beside.append(latencies.lines)

    def actions(self, log: Lines, text: str, has_times: bool, latencies: Latencies | None, start: int, client: str) -> None:
        """Adds what stands behind the header."""
        now = start
        of_version_2: list[tuple[int, Rows, str]] = [(2, [], text)]
        for first, rows, part in rows_of(text, ACTION, PART, 2) if has_times else of_version_2:
            self.rows(log, rows, latencies, start, client)
            for number, line in enumerate([] if rows else lines_of(part), first):
                usual = ACTION.fullmatch(line) if has_times else None
                if usual is not None:
                    self.rows(log, [usual.groups()], latencies, start, client)
                else:
                    now = self.action(log, number, line, has_times, now, latencies, start, client)

    def rows(self, log: Lines, rows: Rows, latencies: Latencies | None, start: int, client: str) -> None:
        """Adds the reads, writes and trims of these times, names, actions, offsets and lengths."""
        known, add, sizes = self.known, self.requests.append, {it: int(it) for it in {row[4] for row in rows}}
        tooks: Iterator[int | None] = itertools.repeat(None)
        if latencies:
            tooks = iter(latencies.take([f"{DIRECTIONS[it[2]]}, {it[4]}, {it[3]}" for it in rows if sizes[it[4]]]))
        for time, name, action, offset, length in rows:
            now, begin, size = start + int(time) * 1000, int(offset), sizes[length]
            if log.latest is not None and now < log.latest:
                log.at(now)
            else:
                log.latest = now
            file = known.get(name) or self.file(name)
            if size == 0:
                log.without["requests for no bytes"] += 1
                continue
            if begin + size > file.end:
                file.end = begin + size
            add(Data(now, next(tooks), action, KINDS[action], file, begin, size, None, client))

    def action(
        self, log: Lines, number: int, line: str, has_times: bool, now: int, latencies: Latencies | None, start: int, client: str
    ) -> int:
        """Takes a line of another form, or of version 2. Answers the time that it is at, for what comes behind it."""
        if HEADER.search(line):
            log.notes["headers of other jobs, whose lines may be mixed with those before (each job has a log of its own)"] += 1
            if HEADER.fullmatch(line.strip()):
                return now
        words, time = line.split(), "0"
        if has_times:
            if not words or not is_number(words[0]):
                log.not_understood(number, line)
                return now
            now, time = start, words.pop(0)
        is_of_bytes = len(words) == 4 and is_number(words[2]) and is_number(words[3])
        if is_of_bytes and words[1] in KINDS:
            self.rows(log, [(time, *words)], latencies, now, client)
            return now + int(time) * 1000
        now += int(time) * 1000
        if has_times:
            log.at(now)
        if is_of_bytes and words[1] == "wait" and not has_times:
            now += int(words[2]) * 1000
            log.without["waits"] += 1
        elif not self.other(log, now, words, is_of_bytes, client):
            log.not_understood(number, line)
        return now

    def other(self, log: Lines, now: int, words: list[str], is_of_bytes: bool, client: str) -> bool:
        """Takes an action that moves no data. False where it is none."""
        if len(words) < 2:
            return False
        name, action, *_ = words
        if is_of_bytes:
            file = self.file(name)
            if action in FLUSHES:
                self.requests.append(Meta(now, None, FLUSHES[action], [("read", VOLUME, "inode", file.inode)], (), client))
            return action in FLUSHES
        if len(words) != 2 or action not in ("add", "close", "open"):
            return False
        file = self.file(name)
        if action == "open":
            self.requests.append(Meta(now, None, "open", [("read", VOLUME, "inode", file.inode)], (), client))
        else:
            log.without[{"add": "names of files", "close": "closes of files"}[action]] += 1
        return True


def starts_of(asked: Namespace) -> dict[str, int]:
    """When the job of each log started, in nanoseconds."""
    starts = dict.fromkeys(asked.logs, 0)
    for word in asked.starts or ():
        name, _, seconds = word.rpartition("=")
        if name not in starts or re.fullmatch(r"[0-9]{1,9}(\.[0-9]{1,9})?", seconds) is None:
            raise Refusal(2, f"--starts {shown(word)}: wanted is LOG=SECONDS, of a LOG that is given")
        starts[name] = int(Fraction(seconds) * 10**9)
    return starts


def jobs_of(logs: list[str]) -> list[str]:
    """The names of the jobs: those of their logs, up to the last point, as a client may be named. One that is there twice gets a
    number."""
    found: list[str] = []
    for log in logs:
        stem = re.sub(r"[^A-Za-z0-9_.-]", "_", os.path.splitext(stem_of(log))[0]).strip("-")[:JOB_NAME] or "job"
        names = (stem, *(f"{stem}_{number}" for number in range(2, len(logs) + 1)))
        found.append(next(it for it in names if it not in found))
    return found


def read(asked: Namespace) -> Found:
    """What the logs tell. `asked.latencies` has as many files as there are logs, or none."""
    if not asked.logs:
        raise Refusal(2, "fio: no LOG is given (--latencies takes all names behind it, so the logs stand before it)")
    if asked.latencies and len(asked.latencies) != len(asked.logs):
        raise Refusal(2, f"fio: {len(asked.logs)} logs and {len(asked.latencies)} logs of latencies: one is wanted for each, NAME_clat.N.log of job N")
    starts = starts_of(asked)
    reader = Reader()
    for place, (name, job) in enumerate(zip(asked.logs, jobs_of(asked.logs), strict=True)):
        reader.read(name, Latencies(asked.latencies[place]) if asked.latencies else None, starts[name], job)
    found = Found(reader.store, reader.requests, reader.logs, reader.beside)
    if len(asked.logs) > 1 and not asked.starts:
        found.said.append("the times of each log are from the start of its own job, and all jobs are taken to start together (--starts)")
    return found
