"""Logs of block devices: the default text of blkparse, and block traces in the form of SNIA's MSR Cambridge set."""

import re
from argparse import Namespace
from dataclasses import dataclass

from .logs import Data, File, Lines, Meta, Refusal, Request, Rows, is_number, lines_in, lines_of, read_lines, read_plain, rows_of
from .model import Devices, Found

SECTOR = 512

# Device, processor, sequence, seconds, process, action, kind; then the sector and the sectors where it has some.
EVENT = re.compile(
    r"\s*(\d{1,6}),(\d{1,7})\s+\d+\s+\d+\s+(\d{1,12})\.(\d{9})\s+(\d+)\s+([A-Z]+)\s+([A-Z]+)"
    r"(?:\s+(\d{1,18}) \+ (\d{1,18}))?(?:\s|$)",
    re.ASCII,
)
SUMMARY = re.compile(r"(CPU ?\d+|Total) \(.*\):")
SUMMARY_LINE = re.compile(
    r"Input file |\s*$|\s+(Reads?|Writes?|PC|IO|Timer|Merge|Allocations|Discard)\b|Throughput |Events |Skips: "
)


def kind_of(flags: str) -> tuple[str, str] | None:
    """The name and the kind of a request, by the letters that blkparse prints; None where it is none of data."""
    for letter, name, kind in (("D", "discard", "free"), ("W", "write", "write"), ("R", "read", "read")):
        if letter in flags:
            return name, kind
    return None


class Reader:
    def __init__(self) -> None:
        self.store = Devices()
        self.requests: list[Request] = []

    def data(self, time: int, took: int, name: str, kind: str, device: str, offset: int, length: int, client: str = "-") -> None:
        file = self.store.device(device)
        file.end = max(file.end, offset + length)
        self.requests.append(Data(time, took, name, kind, file, offset, length, client=client))

    def flush(self, time: int, took: int, device: str, client: str) -> None:
        self.store.device(device)
        self.requests.append(Meta(time, took, "flush", [("read", device, "dev", 0)], client=client))


@dataclass(slots=True)
class Issue:
    """A request that is under way: when it was issued, its kind, its sectors, and the process that issued it."""

    time: int
    flags: str
    sectors: str | None
    process: str


class BlkReader(Reader):
    """Each request is one from its issue (D) to its completion (C)."""

    def __init__(self, log: Lines) -> None:
        super().__init__()
        self.log = log
        self.issued: dict[tuple[str, str], Issue] = {}

    def read(self, lines: list[str]) -> None:
        summary = False
        for number, line in enumerate(lines, 1):
            event = EVENT.match(line)
            if event is None:
                summary = summary or SUMMARY.match(line) is not None
                if SUMMARY.match(line) or (SUMMARY_LINE.match(line) and (summary or line.startswith("Input file "))):
                    self.log.without["lines of the summary"] += 1
                elif not line.strip():
                    self.log.without["blank lines"] += 1
                else:
                    self.log.not_understood(number, line)
                continue
            self.event(event)
        if self.issued:
            self.log.without["requests without completion"] += len(self.issued)

    def event(self, event: re.Match[str]) -> None:
        major, minor, seconds, nanoseconds, process, action, flags, sector, sectors = event.groups()
        time = int(seconds) * 10**9 + int(nanoseconds)
        self.log.at(time)
        device = f"dev{major}-{minor}"
        # A flush has no sector, and another letter at its issue than at its completion in some kernels.
        key = device, sector if int(sectors or 0) else "flush"
        if action == "D":
            if key in self.issued:
                self.log.without["requests that were issued again"] += 1
            self.issued[key] = Issue(time, flags, sectors, process[:20])
            return
        if action == "R" and key in self.issued:
            del self.issued[key]
        if action != "C":
            self.log.without["actions but issue and completion"] += 1
        elif key not in self.issued:
            self.log.without["completions of what was not issued"] += 1
        else:
            self.complete(device, self.issued.pop(key), time, sector)

    def complete(self, device: str, issue: Issue, end: int, sector: str | None) -> None:
        found, sectors, took = kind_of(issue.flags), issue.sectors, end - issue.time
        self.log.without["issues (each counts where it completes)"] += 1
        if not sector or not sectors or not int(sectors):
            if "F" in issue.flags:
                self.flush(issue.time, took, device, issue.process)
            else:
                self.log.without["requests without sectors"] += 1
        elif found is None:
            self.log.without["requests of other kinds"] += 1
        else:
            self.data(issue.time, took, *found, device, int(sector) * SECTOR, int(sectors) * SECTOR, issue.process)


def read_blkparse(asked: Namespace) -> Found:
    lines = read_lines(asked.log)
    log = Lines(asked.log, len(lines))
    reader = BlkReader(log)
    reader.read(lines)
    return Found(reader.store, reader.requests, [log])


# A line in the form that most have.
MSR = re.compile(
    r"^([0-9]{1,18}),([^,\n]*,[0-9]{1,18}),(Read|Write),([0-9]{1,18}),([0-9]{1,18}),([0-9]{1,18})$", re.ASCII | re.M
)
# The characters of a part of a log, whose lines are taken at once where all are of that form.
PART = 1 << 12


class MsrReader(Reader):
    """Lines of Timestamp, Hostname, DiskNumber, Type, Offset, Size, ResponseTime; both times are in 100 nanoseconds."""

    def __init__(self, log: Lines) -> None:
        super().__init__()
        self.log = log
        # Each device by its host and number.
        self.known: dict[str, File] = {}

    def read(self, text: str) -> None:
        for first, rows, part in rows_of(text, MSR, PART):
            self.rows(first, rows)
            for number, line in enumerate([] if rows else lines_of(part), first):
                fields = tuple(it.strip() for it in line.split(","))
                if number == 1 and fields[0].lower() == "timestamp":
                    self.log.without["headers"] += 1
                elif not line.strip():
                    self.log.without["blank lines"] += 1
                elif len(fields) == 7 and fields[3].lower() in ("read", "write") and all(is_number(fields[n]) for n in (0, 2, 4, 5, 6)):
                    usual = MSR.fullmatch(line)
                    self.rows(number, [usual.groups() if usual else (fields[0], ",".join(fields[1:3]), *fields[3:])])
                else:
                    self.log.not_understood(number, line)

    def rows(self, first: int, rows: Rows) -> None:
        """Adds the requests of lines from a number on: times, devices, kinds, offsets, sizes and latencies."""
        log, known, add = self.log, self.known, self.requests.append
        sizes = {it: int(it) for it in {row[4] for row in rows}}
        names = {it: "read" if it[0] in "rR" else "write" for it in {row[2] for row in rows}}
        for number, (when, device, kind, at, size, response) in enumerate(rows, first):
            time, offset, length, name = int(when) * 100, int(at), sizes[size], names[kind]
            if log.latest is not None and time < log.latest:
                log.at(time)
            else:
                log.latest = time
            if length == 0:
                log.without["requests for no bytes"] += 1
                continue
            file = known.get(device) or self.device(number, device)
            if offset + length > file.end:
                file.end = offset + length
            add(Data(time, int(response) * 100, name, name, file, offset, length))

    def device(self, number: int, device: str) -> File:
        host, _, disk = device.rpartition(",")
        name = re.sub(r"[^A-Za-z0-9_-]", "_", host.strip())[:16] + "-" + disk
        if len(name) > 20:
            raise Refusal(3, f"{self.log.name}:{number}: the number of the disk is too long")
        found = self.known[device] = self.store.device(name)
        return found


def read_msr(asked: Namespace) -> Found:
    text = read_plain(asked.log)
    reader = MsrReader(Lines(asked.log, lines_in(text)))
    reader.read(text)
    return Found(reader.store, reader.requests, [reader.log])
