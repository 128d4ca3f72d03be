"""What the first reading of a log of strace notes for the second one, which follows the order of threads only as far as it has read."""

import re

from .order_steps import CALLS, Asked, asked_of, what_counts
from .processes import LATENCY, RESUMED, UNFINISHED, Event, parted
from .strace_names import DESCRIPTOR, PATH, absolute, joined, unescaped

# A call is far from its return if so many lines are between them.
FAR = 4096
# Calls that show what a file is, and how they show a named pipe.
NODES = frozenset(("mknod", "mknodat", "stat", "lstat", "fstat", "fstat64", "newfstatat", "statx"))
FIFO = re.compile(r'(?:_mode=|", )S_IFIFO')
MEASURED = re.compile(rf"{LATENCY}$", re.ASCII)
# In place of a line.
NOWHERE = -1


def shows_fifo(name: str, args: str, result: str) -> bool:
    """Whether a call that answers this shows that a file is a named pipe."""
    return name in NODES and result == "0" and FIFO.search(args) is not None


class Ahead:
    """Takes the lines of a log. Of each process it keeps the call that has not returned, and of a call that is far from its return what it asks and
    answers, or that it does not return. That is little: a thread has one such call in FAR lines at most."""

    def __init__(self) -> None:
        # By the places where they begin, the calls that are far from their returns and order threads; None where there is no return.
        self.calls: dict[int, Asked | None] = {}
        # The paths of named pipes; and the last place that shows one in a folder that the second reading alone knows.
        self.fifos: set[str] = set()
        self.unknown = NOWHERE
        # Of each process the call that has not returned: its place and its text.
        self.begun: dict[str, tuple[int, str]] = {}
        self.has_latencies = False

    def take(self, at: int, event: Event) -> None:
        """Takes the next line of the log, which stands at this place."""
        rest = event.rest
        if not self.has_latencies and rest[-1:] == ">" and MEASURED.search(rest):
            self.has_latencies = True
        if rest[:1] in "<+" or UNFINISHED in rest:
            self.half(at, event.pid or "", event)
        elif "S_IFIFO" in rest:
            self.shown(at, rest)

    def half(self, at: int, pid: str, event: Event) -> None:
        """The beginning of a call, the return of one, or the end of a process."""
        if event.rest.endswith(UNFINISHED):
            self.left(at, pid)
            self.begun[pid] = at, event.rest[: -len(UNFINISHED)]
        elif event.rest.startswith("<... "):
            self.resumed(at, pid, event)
        elif event.rest.startswith("+++ "):
            self.left(at, pid)

    def left(self, at: int, pid: str) -> None:
        """A process goes on, or ends, without the return of its call."""
        begun = self.begun.pop(pid, None)
        if begun is not None and at - begun[0] > FAR:
            self.calls[begun[0]] = None

    def resumed(self, at: int, pid: str, event: Event) -> None:
        begun = self.begun.pop(pid, None)
        if begun is None:
            if event.is_bracketed:
                # The first process of a log on standard error has no number at first. Its call is kept as none that is far.
                self.begun.pop(event.source.box, None)
            return
        place, text = begun
        text += event.rest[event.rest.find(RESUMED) + len(RESUMED) :]
        if "S_IFIFO" in text:
            self.shown(at, text)
        if at - place > FAR:
            name, _, args = text.partition("(")
            args, tail = parted(args)
            if tail is None:
                self.calls[place] = None
            elif name in CALLS:
                self.calls[place] = asked_of(name, what_counts(name, args), tail[1], tail[3])

    def shown(self, at: int, text: str) -> None:
        """A call that returns here may show a named pipe: by a descriptor, or by a name in a folder that is shown or the current one."""
        name, _, args = text.partition("(")
        args, tail = parted(args)
        if tail is None or not shows_fifo(name, args, tail[1]):
            return
        match = PATH.match(args)
        if match is None:
            descriptor = DESCRIPTOR.match(args)
            path = absolute(descriptor[2]) if descriptor else None
        else:
            path, file = absolute(match[2]), unescaped(match[3])
            if file and (path is not None or file.startswith("/")):
                path = joined(path, file)
            elif file and match[1] in (None, "AT_FDCWD"):
                self.unknown = at
        if path is not None:
            self.fifos.add(path)

    def finish(self, count: int) -> None:
        """The log is read, which has so many lines."""
        for pid in [*self.begun]:
            self.left(count, pid)
