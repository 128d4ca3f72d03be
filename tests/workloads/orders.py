"""Logs of processes that wait for each other, made in virtual time."""

import collections
import heapq
import random

# The microsecond at which they begin.
BEGUN = 1_700_000_000 * 10**6
PARENT = 99


class World:
    """Processes that think, write to files, take locks and hand bytes through pipes. Each event is the beginning of a call, in the order of
    time, so what a call finds there is what was left by those that began before."""

    def __init__(self, number: int, has_threads: bool) -> None:
        self.has_threads = has_threads
        self.dice = random.Random(number)
        self.count = self.dice.randrange(2, 5)
        self.lines: list[tuple[int, int, str]] = []
        self.events: list[tuple[int, int]] = []
        # Of each lock its holder and who waits for it; of each pipe what is in it, who waits for that, and whether its writer is gone.
        self.holder: dict[int, int] = {}
        self.queues: dict[int, collections.deque[tuple[int, int]]] = collections.defaultdict(collections.deque)
        self.bytes: collections.Counter[int] = collections.Counter()
        self.readers: dict[int, tuple[int, int]] = {}
        self.gone: set[int] = set()
        self.todo = [self.program() for _ in range(self.count)]
        self.has_parent = number % 2 == 1
        # The child that the parent waits for, and since when.
        self.reaped: int | None = None
        self.begun = 0

    def program(self) -> list[tuple[str, int]]:
        found: list[tuple[str, int]] = []
        for _ in range(self.dice.randrange(3, 10)):
            what = self.dice.choice(["write", "write", "lock", "give", "take"])
            lock = self.dice.randrange(2)
            found += [("lock", lock), ("write", 0), ("unlock", lock)] if what == "lock" else [(what, 0)]
        return [*found, ("exit", 0)]

    def log(self) -> str:
        for at in range(self.count):
            time = self.dice.randrange(1, 15)
            if self.has_parent:
                flags = "CLONE_VM|CLONE_THREAD" if self.has_threads and at % 2 else "SIGCHLD"
                self.call(PARENT, 20 * at, 19, f"clone(child_stack=NULL, flags={flags}", f") = {at + 1}")
                time += 20 * at
            heapq.heappush(self.events, (time, at))
        if self.has_parent:
            self.wait_for_child(20 * self.count)
        while self.events:
            time, at = heapq.heappop(self.events)
            what, which = self.todo[at].pop(0)
            getattr(self, what)(at, time, which)
        return "".join(f"{line}\n" for _, _, line in sorted(self.lines))

    def put(self, time: int, who: int, text: str) -> None:
        self.lines.append((time, len(self.lines), f"{who} {(BEGUN + time) // 10**6}.{(BEGUN + time) % 10**6:06} {text}"))

    def call(self, who: int, time: int, took: int, head: str, tail: str) -> None:
        self.put(time, who, f"{head} <unfinished ...>")
        self.put(time + took, who, f"<... {head.partition('(')[0]} resumed>{tail} <{took / 10**6:.6f}>")

    def some(self) -> int:
        return self.dice.randrange(1, 9)

    def done(self, at: int, time: int) -> None:
        """The process thinks, and goes on."""
        heapq.heappush(self.events, (time + self.dice.randrange(30), at))

    def write(self, at: int, time: int, _: int) -> None:
        took = self.some()
        self.call(at + 1, time, took, f'pwrite64(3</v/f{at}>, "x", 1, 0', ") = 1")
        self.done(at, time + took)

    def locked(self, at: int, begun: int, end: int, lock: int) -> None:
        self.holder[lock] = at
        words = f"fcntl(5</v/lock>, F_SETLKW, {{l_type=F_WRLCK, l_whence=SEEK_SET, l_start={lock}, l_len=1}}"
        self.call(at + 1, begun, end - begun, words, ") = 0")
        self.done(at, end)

    def lock(self, at: int, time: int, lock: int) -> None:
        if lock in self.holder:
            self.queues[lock].append((at, time))
        else:
            self.locked(at, time, time + self.some(), lock)

    def unlock(self, at: int, time: int, lock: int) -> None:
        took = self.some()
        words = f"fcntl(5</v/lock>, F_SETLK, {{l_type=F_UNLCK, l_whence=SEEK_SET, l_start={lock}, l_len=1}}"
        self.call(at + 1, time, took, words, ") = 0")
        del self.holder[lock]
        if self.queues[lock]:
            other, begun = self.queues[lock].popleft()
            self.locked(other, begun, time + self.some(), lock)
        self.done(at, time + took)

    def give(self, at: int, time: int, _: int) -> None:
        size, took = self.some(), self.some()
        self.call(at + 1, time, took, f'write(4<pipe:[{at}]>, "x", {size}', f") = {size}")
        self.bytes[at] += size
        if at in self.readers:
            other, begun = self.readers.pop(at)
            self.taken(other, begun, time + self.some(), at)
        self.done(at, time + took)

    def taken(self, at: int, begun: int, end: int, pipe: int) -> None:
        size = min(self.bytes[pipe], self.some())
        self.bytes[pipe] -= size
        self.call(at + 1, begun, end - begun, f"read(6<pipe:[{pipe}]>", f', "x", 64) = {size}')
        self.done(at, end)

    def take(self, at: int, time: int, _: int) -> None:
        pipe = (at + 1) % self.count
        if self.bytes[pipe] or pipe in self.gone:
            self.taken(at, time, time + self.some(), pipe)
        else:
            self.readers[pipe] = at, time

    def exit(self, at: int, time: int, _: int) -> None:
        self.put(time, at + 1, "exit_group(0) = ?")
        self.put(time, at + 1, "+++ exited with 0 +++")
        self.gone.add(at)
        if at in self.readers:
            other, begun = self.readers.pop(at)
            self.taken(other, begun, time + self.some(), at)
        if self.has_parent and self.reaped == at:
            self.wait_ended(at, max(time, self.begun) + self.some())

    def wait_for_child(self, time: int) -> None:
        """The parent waits for its children, one after another, and writes behind each."""
        child = 0 if self.reaped is None else self.reaped + 1
        self.begun, self.reaped = time, child
        if child < self.count and child in self.gone:
            self.wait_ended(child, time + self.some())

    def wait_ended(self, child: int, end: int) -> None:
        self.call(PARENT, self.begun, end - self.begun, f"wait4({child + 1}", f", NULL, 0, NULL) = {child + 1}")
        took = self.some()
        self.call(PARENT, end + 3, took, 'pwrite64(3</v/parent>, "x", 1, 0', ") = 1")
        if child + 1 < self.count:
            self.wait_for_child(end + 3 + took + self.some())


def log(number: int, has_threads: bool = False) -> str:
    """A log, the same for the same number. Two processes may wait for each other for ever: their calls do not return. Where there are threads,
    every second child of a parent is one of it."""
    return World(number, has_threads).log()
