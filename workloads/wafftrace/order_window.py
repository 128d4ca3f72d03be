"""The part of a log that is read and is not walked yet, since it stands behind a call of which it is not known what it asks for."""

import collections
from collections.abc import Iterable
from dataclasses import dataclass

from .order_steps import BEGIN, BOTH, END, NO_REQUESTS, Asked, Birth, Step, Whose, asked_of
from .order_walk import Walk

# In place of a call whose beginning was walked before.
NOTHING = asked_of("", "", "", "")


@dataclass(slots=True)
class Beginning:
    """The line with which a call began: what it asked, where that is known, and the threads that it made. One that is open holds back all that
    comes behind it."""

    place: int
    step: Step | None
    is_open: bool
    births: tuple[Birth, ...] = ()


class Window:
    """Hands beginnings, births and ends to the walk, in the order of the places of their lines, of one line in this order. A call that has begun
    holds back what stands behind it until it returns. One that may make a request does so as long as it lasts, since its requests have
    numbers when it returns, and so does one that may make a thread. Of others that last for long the first reading has told what they answer, so
    that they hold nothing (Walk.begin asks for all of a call but its end). So this keeps a part of the log, and not all of it."""

    def __init__(self, walk: Walk, births: Iterable[int]) -> None:
        """`births` are the places of the calls that make threads and return."""
        self.walk = walk
        self.waiting: collections.deque[Beginning | tuple[int, Step]] = collections.deque()
        # The beginnings of calls that have not returned, and those that are not walked and may make threads.
        self.open: dict[int, Beginning] = {}
        self.forks: dict[int, Beginning] = {}
        # The places of calls that will make threads, and the threads that the call of this line has made.
        self.births = set(births)
        self.made: tuple[Birth, ...] = ()

    def hold(self, place: int, may_fork: bool) -> None:
        """A call has begun, and it is not known what it will ask for."""
        beginning = self.open[place] = Beginning(place, None, True)
        self.waiting.append(beginning)
        if may_fork:
            self.forks[place] = beginning

    def begin(self, whose: Whose, place: int, time: int, asked: Asked) -> None:
        """A call has begun that will ask for this, and makes no request and no thread."""
        step = Step(whose, asked, place, place, time, time, NO_REQUESTS)
        beginning = self.open[place] = Beginning(place, step, False)
        self.waiting.append(beginning)
        self.go()

    def drop(self, place: int) -> None:
        """A call that began at this place is no step, or does not return."""
        beginning = self.open.pop(place, None)
        if beginning is not None and beginning.is_open:
            beginning.is_open = False
            self.go()

    def add(self, step: Step) -> None:
        """A call has returned."""
        if step.begun < step.ended:
            self.returned(step)
        elif self.made or step.begun in self.births:
            beginning = self.forks[step.begun] = Beginning(step.begun, step, False, self.made)
            self.made = ()
            self.waiting += [beginning, (END, step)]
            self.go()
        elif self.waiting:
            self.waiting.append((BOTH, step))
        else:
            self.walk.take(BOTH, step)

    def returned(self, step: Step) -> None:
        """A call on two lines has returned."""
        beginning = self.open.pop(step.begun, None)
        if beginning is None:
            # The first reading told that it would not.
            self.waiting.append((BOTH, step))
        elif beginning.is_open:
            beginning.step, beginning.is_open = step, False
            self.waiting.append((END, step))
        else:
            if step.requests:
                # Its descriptor was none of a file when it began.
                self.waiting.append((BEGIN, step._replace(asked=NOTHING)))
            self.waiting.append((END, step))
        self.go()

    def born(self, birth: Birth) -> None:
        """A thread was made."""
        self.births.discard(birth.begun)
        beginning = self.forks.get(birth.begun)
        if beginning is None:
            self.made += (birth,)
        else:
            beginning.births += (birth,)
            self.go()

    def go(self) -> None:
        """Walks as far as it is known what was asked."""
        waiting, walk = self.waiting, self.walk
        while waiting:
            it = waiting[0]
            if not isinstance(it, Beginning):
                walk.take(*it)
            elif it.is_open or it.place in self.births:
                return
            else:
                if it.step is not None:
                    walk.take(BEGIN, it.step)
                for birth in it.births:
                    walk.born(birth)
                self.forks.pop(it.place, None)
            waiting.popleft()

    def finish(self) -> None:
        """The log is read: what has not returned is no step."""
        self.births.clear()
        for beginning in self.open.values():
            beginning.is_open = False
        self.go()
