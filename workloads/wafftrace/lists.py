"""Traces whose messages name earlier ones that they wait for: when they are issued, and how they are renumbered."""

import re
from collections.abc import Callable, Iterator, Mapping, Sequence

from . import clients

# A message that is waited for, by its number from 1, and the ticks between its finish and the issue.
Piece = tuple[int, int]
GAP = re.compile(r"\+[0-9]+")


def pieces_of(after: str) -> list[Piece]:
    """The pieces of a list, which is spelled right."""
    return [(int(number), int(gap or 0)) for number, _, gap in (it.partition("+") for it in after.split(" "))] if after else []


def text_of(pieces: Sequence[Piece]) -> str:
    return " ".join(f"{number}+{gap}" if gap else str(number) for number, gap in sorted(pieces))


def without_gaps(after: str) -> str:
    return GAP.sub("", after) if "+" in after else after


def paced(after: str, at: Callable[[int], int]) -> str:
    """A list with other gaps."""
    return text_of([(number, at(gap)) for number, gap in pieces_of(after)]) if "+" in after else after


class Issues:
    """When messages are issued if nothing excludes anything: by releases, costs, think times and gaps alone."""

    def __init__(self) -> None:
        self.ends: dict[str, int] = {}
        self.finishes: list[int] = []

    def next(self, cost: int, release: int, client: str, think: int, after: str) -> int:
        """The issue of the next message."""
        start = max(release, self.ends.get(client, 0) + think)
        for number, gap in pieces_of(after):
            if number <= len(self.finishes):
                start = max(start, self.finishes[number - 1] + gap)
        self.finishes.append(start + cost)
        if client != clients.NONE:
            self.ends[client] = start + cost
        return start


def renumbered(lines: Sequence[str], order: Sequence[int]) -> list[str]:
    """The records of messages in another order, in which each stands behind those that it waits for; `order` are their places."""
    place = {old + 1: new for new, old in enumerate(order, 1)}
    found = []
    for old in order:
        head, after, ops = parted(lines[old])
        kept = [(place[number], gap) for number, gap in pieces_of(after) if number in place] if after else []
        found.append(f"{head},{text_of(kept)},{ops}" if after else lines[old])
    return found


def parted(line: str) -> tuple[str, str, str]:
    """What stands before the list of a record, the list, and the operations."""
    fields = line.split(",", 6)
    return ",".join(fields[:5]), fields[5], fields[6]


def moved(messages: Sequence[tuple[int, str, str]], begin: int, number_of: Mapping[int, int]) -> Iterator[str]:
    """The lines of a window that begins at this tick. A message that is the first of its client there, or loses one that it waits for, comes
    when it was issued. One of no client comes no sooner than at its floor."""
    known: set[str] = set()
    places: dict[int, int] = {}
    for place, entry in enumerate(messages, 1):
        start, client, line = entry
        name, cost, release, _, think, after, ops = line.split(",", 6)
        pieces = pieces_of(after)
        kept = [(places[number], gap) for number, gap in pieces if number in places]
        is_first = client == clients.NONE or client not in known
        if len(kept) < len(pieces) or client not in known and client != clients.NONE:
            release = str(start - begin)
        elif is_first:
            release = str(max(0, int(release) - begin, int(think) - begin))
        elif release != "0":
            release = str(max(0, int(release) - begin))
        yield f"{name},{cost},{release},{client},{'0' if is_first else think},{text_of(kept)},{ops}"
        known.add(client)
        places[number_of[id(entry)]] = place
