"""The calls of a log that order threads or make requests, and of their words what counts."""

import functools
import re
from typing import NamedTuple

READS = frozenset(("read", "readv", "recvfrom", "recvmsg", "recv"))
WRITES = frozenset(("write", "writev", "sendto", "sendmsg", "send"))
POLLS = frozenset((
    "rt_sigsuspend", "pause", "rt_sigtimedwait", "poll", "ppoll", "select", "pselect6", "epoll_wait", "epoll_pwait", "epoll_pwait2",
))
SLEEPS = frozenset(("nanosleep", "clock_nanosleep", "sched_yield"))
WAITS = frozenset(("wait4", "waitid", "waitpid"))
KILLS = frozenset(("kill", "tgkill", "tkill"))
FORKS = frozenset(("clone", "clone3", "vfork", "fork"))
EXITS = frozenset(("exit", "exit_group"))
OTHERS = frozenset((
    "fcntl", "flock", "futex", "execve", "connect", "accept", "accept4", "splice", "sendfile", "close", "dup2", "dup3", "eventfd", "eventfd2",
))
# The calls that order threads.
CALLS = READS | WRITES | POLLS | SLEEPS | WAITS | KILLS | FORKS | EXITS | OTHERS

# What strace shows of descriptors whose bytes are numbers, which count.
SIGNALS, NUMBERS = "signalfd", "eventfd"
DESCRIPTOR = re.compile(r"\(?(\d{1,10})(?!\d)(?:<((?:->|[^<>])*)>)?")
# What counts of the words of these is the descriptor that stands first, and of those all.
OF_DESCRIPTORS = READS | WRITES | {"accept", "accept4"}
WITH_WORDS = CALLS - OF_DESCRIPTORS - POLLS - SLEEPS - (WAITS - {"waitid"})


class Whose(NamedTuple):
    """Whose a step is: a thread, its number in the log, its process and its box."""

    thread: str
    number: str
    process: str
    box: str


class Asked(NamedTuple):
    """A call (or the end of a thread, `+++`, or a signal, `---`): its name, what it asked and answered, and what stands behind the answer.
    `amount` is the number that it ended with, 0 where it is none: of bytes, or of threads that it woke."""

    name: str
    args: str
    result: str
    tail: str
    has_failed: bool
    amount: int


@functools.lru_cache(maxsize=1 << 12)
def asked_of(name: str, args: str, result: str, tail: str) -> Asked:
    """The same calls come often."""
    amount = int(result) if result.isdecimal() and len(result) < 20 else 0
    return Asked(name, args, result, tail, result == "?" or result.startswith("-"), amount)


class Step(NamedTuple):
    """A call of a thread: the places and times of its beginning and its end, and which requests it made."""

    whose: Whose
    asked: Asked
    begun: int
    ended: int
    time: int
    end: int
    requests: range


class Birth(NamedTuple):
    """A thread that was made: by whom, in which call."""

    begun: int
    whose: Whose
    parent: str


NO_REQUESTS = range(0)
# What stands behind a call that strace was told to delay.
DELAYED = "(DELAYED)"
# What a line tells of a step: its beginning, its end, or both at once.
BEGIN, END, BOTH = range(3)


@functools.lru_cache(maxsize=1 << 14)
def descriptor_of(args: str) -> tuple[int, str]:
    """The first descriptor, -1 where there is none, and what strace shows of it."""
    found = DESCRIPTOR.match(args)
    return (int(found[1]), found[2] or "") if found else (-1, "")


def what_counts(name: str, args: str) -> str:
    """The arguments of a call, as far as they order threads."""
    if name in WITH_WORDS:
        return args
    found = DESCRIPTOR.match(args) if name in OF_DESCRIPTORS else None
    if found is None:
        return ""
    descriptor, path = found.group(0, 2)
    return args if path and (SIGNALS in path or NUMBERS in path) else descriptor
