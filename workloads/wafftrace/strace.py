"""Logs of `strace -f -ttt -T`: files of one box or more, as one log in the order of time."""

import fnmatch
import os
import posixpath
import re
from argparse import Namespace
from fractions import Fraction

from .logs import Lines, Refusal, Request, as_name, counted, named, shown
from .long_text import LongTexts
from .model import Found
from .order import USUAL, Record, kinds_of
from .processes import Births, Event, Merged, Source
from .strace_ahead import Ahead
from .strace_calls import FLAGS_WANTED, Calls
from .strace_names import Names
from .strace_requests import Requests

SECONDS = re.compile(r"[0-9]{1,9}(\.[0-9]{1,9})?", re.ASCII)


def boxes_of(asked: Namespace) -> dict[str, str]:
    """What stands before the numbers of the processes of each log."""
    boxes = dict.fromkeys(asked.logs, "")
    for word in asked.box or ():
        pattern, _, name = word.rpartition("=")
        logs = [it for it in asked.logs if it == pattern or fnmatch.fnmatchcase(it, pattern)]
        if not logs or name != as_name(name):
            raise Refusal(2, f"--box {shown(word)}: wanted is LOG=NAME, of a LOG that is given and a NAME of up to 20 letters and digits")
        boxes |= dict.fromkeys(logs, f"{name}.")
    return boxes


def order_of(asked: Namespace) -> frozenset[str]:
    """What of the order between clients the trace keeps: all, where nothing else is asked for and clients are in a closed loop."""
    can_wait = asked.clients is not None and asked.loop != "open"
    asked.is_usual_order = asked.order is None
    if asked.order is None:
        asked.order = USUAL if can_wait and asked.trace_version is None else "none"
    kinds = kinds_of(asked.order)
    if kinds and not can_wait:
        raise Refusal(2, "--order: wanted are clients in a closed loop, since others come when they came in the log")
    if kinds and asked.trace_version is not None:
        raise Refusal(2, f"--trace-version {asked.trace_version}: it has no lists, so wanted is --order none")
    return kinds


def folder_of(asked: Namespace) -> str:
    """The folder in which the first process was started, which is the current one where none is told."""
    try:
        return os.path.abspath(asked.cwd or ".")
    except OSError as fault:
        raise Refusal(4, f"the current folder: {fault.strerror}") from None


class Part:
    """The part of a log that `--from` and `--to` ask for: each is so many seconds after the first line, or the time of the first line from
    then on that has this text."""

    def __init__(self, begin: str | None, end: str | None) -> None:
        self.words = {word: value for word, value in (("--from", begin), ("--to", end)) if value is not None}
        self.first: int | None = None
        self.times: dict[str, int] = {}

    def take(self, event: Event) -> None:
        """Takes the next line of the log."""
        if event.pid is None:
            return
        if self.first is None:
            self.first = event.time
        for word, value in self.words.items():
            if word in self.times or word == "--to" and not self.has_begun(event.time):
                continue
            if SECONDS.fullmatch(value):
                self.times[word] = self.first + int(Fraction(value) * 10**9)
            elif value in event.line:
                self.times[word] = event.time

    def has_begun(self, time: int) -> bool:
        return "--from" not in self.words or "--from" in self.times and time >= self.times["--from"]

    def of(self, requests: list[Request], log: Lines) -> list[Request]:
        """The requests of this part. What was opened before is known all the same."""
        for word, value in self.words.items():
            if word not in self.times and not SECONDS.fullmatch(value):
                raise Refusal(3, f"{word} {shown(value)}: no line of {log.name} has this text")
        begin, end = self.times.get("--from", 0), self.times.get("--to")
        kept = [it for it in requests if it.time >= begin and (end is None or it.time < end)]
        if len(kept) < len(requests):
            log.said.append(f"{counted(len(requests) - len(kept), 'requests')} left out that came before --from, or not before --to")
        return kept


def beforehand(lines: Merged, part: Part, is_ordered: bool) -> tuple[Births, Ahead]:
    """The first reading of a log: which call made which process, and where there is an order between clients what that has to know before."""
    births, ahead, count = Births(), Ahead(), 0
    for count, event in enumerate(lines.beforehand()):
        births.take(count, event)
        if part.words:
            part.take(event)
        if is_ordered:
            ahead.take(count, event)
    ahead.finish(count)
    return births, ahead


def read(asked: Namespace) -> Found:
    """What the logs tell. Their lines are read twice and not kept: what comes later tells who made which process."""
    if not asked.logs:
        raise Refusal(2, "strace: no LOG is given (--box takes all words behind it, so the logs stand before it)")
    kinds = order_of(asked)
    boxes, texts = boxes_of(asked), LongTexts()
    wanted = f"record it with `{FLAGS_WANTED}`"
    sources = [Source(Lines(name, 0, wanted), boxes[name], texts.of(name)) for name in asked.logs]
    logs = [it.log for it in sources]
    whole = logs[0] if len(logs) == 1 else Lines(f"{len(logs)} logs", 0)
    lines, part = Merged(sources), Part(asked.begin, asked.end)
    births, ahead = beforehand(lines, part, bool(kinds))
    directory = folder_of(asked)
    under = posixpath.normpath(posixpath.join(directory, asked.under)) if asked.under else None
    order = Record(kinds, ahead.fifos, births.places()) if kinds else None
    # Without latencies only an order that is asked for is kept.
    is_walked = ahead.has_latencies or not asked.is_usual_order
    requests = Requests(whole, Names(whole, under, directory, asked.cwd is not None), asked.clients, order)
    calls = Calls(whole, directory, births.found, lines.with_number_later, requests, order if is_walked else None, ahead)
    calls.read(lines.events())
    whole.count = sum(it.count for it in logs)
    if asked.clients == "family":
        depth = calls.children.depth() if asked.family_depth is None else asked.family_depth
        requests.name_families(depth)
        if asked.family_depth is None:
            whole.said.append(f"a family is what comes of a process {depth} below the first one (--clients family:DEPTH says how far)")
    found = Found(requests.names.store, part.of(requests.requests, whole), [whole], logs if len(logs) > 1 else [])
    if order is not None and asked.is_usual_order and requests.requests and all(it.took is None for it in requests.requests):
        found.said.append("the log has no latencies (strace -T), so the trace keeps no order between clients")
        order, asked.order = None, "none"
    found.order = order.solved(requests.requests) if order is not None else None
    if under and not requests.requests:
        found.said.append(f"no call of the log is on a file in {named(under)} or below it (--under)")
    return found
