"""Windows of a long trace, for a search that plans a part of it many times."""

import os

from .logs import shown, tell
from .ranking import Source
from .traces import entries_of, header_of, in_order, moved, numbers_of, write_file

# Above so many messages of a trace a search plans windows of it, which have so many together.
MOST_PLANNED = 50000
SAMPLE = 40000
WINDOWS = 4


def sampled(source: Source, asked: int | None, folder: str) -> list[Source]:
    """The windows of a trace that a search plans, written to a folder: so many messages together as are asked for, from its whole length;
    or the trace itself where it is short."""
    most = asked or (SAMPLE if source.messages > MOST_PLANNED else source.messages)
    if source.messages <= most:
        return [source]
    version, entries = entries_of(source.name)
    # In a trace with clients a message may stand before one that was issued sooner.
    if version > 2:
        entries = in_order(version, entries)
    numbers = numbers_of(version, entries)
    width = max(1, most // WINDOWS)
    found = []
    for number in range(WINDOWS):
        first = (len(entries) - width) * number // (WINDOWS - 1)
        part = entries[first : first + width]
        name = os.path.join(folder, f"{number}-{len(os.listdir(folder))}.csv")
        lines = moved(part, min(it[0] for it in part), version, numbers)
        write_file(name, "\n".join([header_of(version), *lines]) + "\n")
        found.append(Source.of(name))
    tell(f"{shown(source.name)}: the search plans {WINDOWS * width} of {source.messages} messages, in {WINDOWS} windows (--sample)")
    return found
