"""The calls of a log of strace: whose each is, which process made which, and what a call asked and answered when it returns."""

import collections
from collections.abc import Iterable

from .logs import Lines, Refusal
from .order import Record
from .order_steps import CALLS as ORDERED
from .order_steps import NO_REQUESTS, Step, asked_of, what_counts
from .processes import FORKED, FORKS, RESUMED, UNFINISHED, Birth, Children, Event, Process, Who, nanoseconds, parted
from .strace_ahead import NOWHERE, Ahead, shows_fifo
from .strace_names import DESCRIPTOR, SAY_FOLDER, Call, absolute
from .strace_requests import CALLS, Requests

FLAGS_WANTED = "strace -f -ttt -T -o LOG"
# How a call ends in which strace leaves a process.
DETACHED = "<detached ...>"


class Calls:
    """Takes the lines of a log, and hands over each call that has returned."""

    def __init__(
        self, log: Lines, directory: str, births: dict[str, collections.deque[Birth]], with_number_later: set[str], requests: Requests,
        order: Record | None, ahead: Ahead,
    ) -> None:
        """`directory` is where the first process was started, `births` are the calls that made processes, `with_number_later` the boxes of
        which the process without a number has one later. Where the calls that order threads are walked, `order` does so, and `ahead` is what the
        first reading noted for that."""
        self.log = log
        self.directory = directory
        self.births = births
        self.with_number_later = with_number_later
        self.requests = requests
        self.order = order
        self.ahead = ahead
        self.children = Children()
        self.processes: dict[str, Process] = {}
        self.attached: set[str] = set()
        # The number of the process that had none, by box.
        self.first_numbers: dict[str, str] = {}
        # How many processes of a number have ended; a number may come again.
        self.ended: collections.Counter[str] = collections.Counter()
        self.has_first = False

    def read(self, events: Iterable[Event]) -> None:
        is_first = True
        if self.order is not None and self.ahead.unknown != NOWHERE:
            # Calls before it may be on a named pipe that only this line shows.
            self.order.window.hold(NOWHERE, False)
        for at, event in enumerate(events):
            if event.pid is None:
                self.attached.add(event.rest)
                continue
            if is_first and event.time == 0:
                raise Refusal(3, f"{self.log.name}: its times are from line to line (-r): record it with `{FLAGS_WANTED}`")
            is_first = False
            event.source.log.at(event.time)
            if not self.event(at, event.pid, event):
                event.source.log.not_understood(event.number, event.line)
        pending = {id(it): it for it in self.processes.values() if it.pending is not None}
        if pending:
            self.log.without["calls that did not return"] += len(pending)
        self.requests.report_idle()

    def event(self, at: int, pid: str, event: Event) -> bool:
        """Takes what a line tells of a process. False where it is not understood."""
        process = self.processes.get(pid)
        is_new = process is None
        if process is None:
            process = self.processes[pid] = self.newcomer(pid, event.source.box, at)
        if event.rest[:1] in "<+-" or UNFINISHED in event.rest:
            return self.part(at, process, is_new, pid, event)
        return self.call(at, process, event.time, event.rest, pid, at)

    def part(self, at: int, process: Process, is_new: bool, pid: str, event: Event) -> bool:
        """Takes a line that seems to be no whole call: a beginning or a return, a signal, or the end of a process."""
        time, rest = event.time, event.rest
        if rest.endswith(UNFINISHED):
            if process.pending is not None:
                self.lost(process)
            process.pending, process.begun = (time, rest[: -len(UNFINISHED)]), at
            if self.order is not None:
                self.begun(self.order, at, process, pid, process.pending)
            self.log.without["beginnings of calls (<unfinished ...>: each call counts where it resumes)"] += 1
            return "(" in rest
        if rest.startswith("<... "):
            if process.pending is None:
                self.log.without["calls that began before the log"] += is_new
                return is_new
            time, begun = process.pending
            process.pending = None
            rest = begun + rest[rest.find(RESUMED) + len(RESUMED) :]
            return self.call(at, process, time, rest, pid, process.begun)
        if not rest.startswith(("+++ ", "--- ")):
            return self.call(at, process, time, rest, pid, at)
        self.log.without["signals and ends of processes"] += 1
        if self.order is not None:
            self.order.line(self.order.of(process.who, pid, process.box), at, time, rest)
        if rest.startswith("+++ "):
            self.children.ended(process.who)
            if process.pending is not None:
                self.lost(process)
            del self.processes[pid]
            self.ended[pid] += 1
        return True

    def newcomer(self, pid: str, box: str, at: int) -> Process:
        """A process that was not seen: the child of a call that has begun and returns later in the log; the first one, which a
        log on standard error gives no number as long as it is alone; the child of the only call that makes one and never
        returns; or else one from before the log."""
        births = self.births.get(pid)
        if births and births[0].begun < at:
            birth = births.popleft()
            parent = self.processes.get(birth.parent) or self.newcomer(birth.parent, box, at)
            return self.born(parent, parent.child(self.name(pid), birth.args), pid, birth.begun)
        first = self.processes.get(box) if box in self.with_number_later and pid not in self.attached else None
        if first and self.first_numbers.setdefault(box, pid) == pid:
            return first
        pending = [(it, it.pending[1]) for it in self.processes.values() if it.pending is not None and it.box == box]
        forking = [(it, text) for it, text in pending if FORKED.match(text)]
        if len(forking) == 1 and not births:
            parent, text = forking[0]
            return self.born(parent, parent.child(self.name(pid), text), pid, parent.begun)
        if forking:
            self.log.notes[f"processes whose parent is not known: names in their folders are not known ({SAY_FOLDER})"] += 1
        is_first, self.has_first = not self.has_first, True
        name = self.name(pid, "main" if pid == box else "")
        return Process(Who(name, name, (name,), is_first), {}, set(), [None if forking else self.directory], box)

    def born(self, parent: Process, child: Process, pid: str, begun: int) -> Process:
        """A process was made, by a call that began at this place."""
        self.children.born(child.who)
        if self.order is not None:
            self.order.birth(child.who, pid, child.box, parent.who, begun)
        return child

    def name(self, pid: str, alone: str = "") -> str:
        """What a process is called: its number, or how one without a number is, and which of this number it is if that came again."""
        return pid + alone + (f".{self.ended[pid] + 1}" if self.ended[pid] else "")

    def begun(self, order: Record, at: int, process: Process, pid: str, pending: tuple[int, str]) -> None:
        """A call has begun that does not return on this line. Where it makes no request, and its return is far, its beginning is walked now."""
        time, text = pending
        name, bracket, args = text.partition("(")
        if at in self.ahead.calls and name not in FORKS:
            asked = self.ahead.calls.pop(at)
            if asked is None:
                return
            if not self.requests.may_ask(process, name, args):
                order.window.begin(order.of(process.who, pid, process.box), at, time, asked)
                return
        if not bracket or name in ORDERED or name in CALLS:
            order.window.hold(at, name in FORKS)

    def lost(self, process: Process) -> None:
        """A call does not return."""
        self.log.without["calls that did not return"] += 1
        if self.order is not None:
            self.order.window.drop(process.begun)

    def call(self, at: int, process: Process, time: int, rest: str, pid: str, begun: int) -> bool:
        """Takes a call that has returned, and began at this place."""
        name, bracket, args = rest.partition("(")
        args, tail = parted(args) if bracket else ("", None)
        order, made = self.order, self.requests.requests
        if tail is None:
            if order is not None:
                order.window.drop(begun)
            is_left = rest.endswith(DETACHED)
            self.log.without["calls that did not return"] += is_left
            return is_left
        result, path, behind, seconds, digits = tail.groups()
        took = nanoseconds(seconds, digits) if digits else None
        if self.requests.order is not None and shows_fifo(name, args, result):
            self.note_fifo(self.requests.order, at, process, args)
        if order is None:
            return self.returned(at, process, name, args, (result, path), (time, took))
        before = len(made)
        is_understood = self.returned(at, process, name, args, (result, path), (time, took))
        after = len(made)
        if after > before or name in ORDERED:
            whose = order.whose.get(process.who.thread) or order.of(process.who, pid, process.box)
            requests = order.made(made[before:after], begun) if after > before else NO_REQUESTS
            asked = asked_of(name, what_counts(name, args), result, behind)
            order.window.add(Step(whose, asked, begun, at, time, time + (took or 0), requests))
        elif begun < at:
            order.window.drop(begun)
        return is_understood

    def note_fifo(self, order: Record, at: int, process: Process, args: str) -> None:
        """A call shows a named pipe, by its path or by a descriptor."""
        path = self.requests.names.path(Call(process, args, 0, None, 0, None))
        if path is None:
            shown = DESCRIPTOR.match(args)
            path = absolute(shown[2]) if shown else None
        if path is not None:
            order.fifo(path)
        if at == self.ahead.unknown:
            order.window.drop(NOWHERE)

    def returned(
        self, at: int, process: Process, name: str, args: str, answer: tuple[str, str | None], times: tuple[int, int | None]
    ) -> bool:
        """Takes a call by its answer and the path of that, when it began and how long it took."""
        handler, result = CALLS.get(name), answer[0]
        if handler is None and name not in FORKS:
            self.requests.idle[name] += 1
        elif result == "?" or result[0] == "-":
            self.log.without["calls that failed"] += 1
        else:
            number = int(result, 16 if result.startswith("0x") else 10)
            if handler is None:
                self.fork(at, process, args, number)
                return True
            return handler(self.requests, Call(process, args, number, absolute(answer[1]), *times)) is not False
        return True

    def fork(self, at: int, process: Process, args: str, answer: int) -> None:
        """A call that makes a process has returned. Where lines of the child came before, it is there, and perhaps gone."""
        self.requests.idle["fork"] += 1
        child = process.box + str(answer)
        births = self.births.get(child)
        if births and births[0].returned == at:
            birth = births.popleft()
            old = self.processes.get(child)
            if old is not None and old.pending is not None and self.order is not None:
                # The log does not tell that it has ended.
                self.order.window.drop(old.begun)
            self.processes[child] = self.born(process, process.child(self.name(child), args), child, birth.begun)
