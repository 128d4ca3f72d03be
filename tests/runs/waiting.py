"""Traces whose messages wait for others by lists, with the time that this takes, and how a run of one is judged; and programs that are wrong
about lists, as the rows that they would tell, each of which has to be told from one that is right."""

import random
from collections.abc import Callable
from dataclasses import dataclass, field

from common import Count
from judging import Row, faults_of_order, most_told
from making import pieces
from rooms import leaves, trace_text
from traces import trace_of, tree_of
from worlds import World

# How many seconds a run may take longer than its messages wait, on a machine that has other work.
PATIENCE = 1.2
LEAVES = 24
MOST_WORKERS = 64


def row(number: int, client: str = "-", think: int = 0, after: str = "", release: int = 0) -> str:
    """A message with a file of its own, that of its number, so that it excludes no other."""
    return f"m,1,{release},{client},{think},{after},set s:{number} 5"


@dataclass(slots=True)
class Waiting:
    """Messages of which the last one is issued so many ticks after the run began, and hardly more: each takes a tick or so itself."""

    name: str
    ticks: int
    rows: list[str]
    tree: str = field(default_factory=lambda: leaves(LEAVES))

    @property
    def trace(self) -> str:
        return trace_text(4, self.rows)

    def world(self, measured: str = "") -> World:
        """The messages with their measured costs, or where there are none with their own."""
        tree = tree_of(self.tree)
        return World(tree, trace_of(measured or self.trace, tree))


def waitings(ticks: int) -> list[Waiting]:
    """Lists of which one piece is late or has a gap, at every place; a chain of gaps; many gaps of one list, of which one counts; and gaps
    beside think times."""
    part = ticks // 3
    chain = [row(1), *(row(number + 1, after=f"{number}+{part}") for number in (1, 2, 3))]
    many = [*map(row, range(1, 21)), row(21, after=" ".join(f"{it}+{ticks}" for it in range(1, 21)))]
    return [
        Waiting("a gap", ticks, [row(1), row(2, after=f"1+{ticks}")]),
        Waiting("a gap of the first of two", ticks, [row(1), row(2), row(3, after=f"1+{ticks} 2")]),
        Waiting("a gap of the last of two", ticks, [row(1), row(2), row(3, after=f"1 2+{ticks}")]),
        Waiting("the first of two clients is late", ticks, [row(1, "A", ticks), row(2, "B"), row(3, "C", after="1 2")]),
        Waiting("the last of two clients is late", ticks, [row(1, "A"), row(2, "B", release=ticks), row(3, "C", after="1 2")]),
        Waiting("the second of three is late", ticks, [row(1), row(2, release=ticks), row(3), row(4, after="1 2 3")]),
        Waiting("a gap of who finishes first", ticks, [row(1), row(2, release=part), row(3, after=f"1+{ticks} 2")]),
        Waiting("a chain of gaps", 3 * part, chain),
        Waiting("many gaps", ticks, many),
        Waiting("a gap longer than the think time", ticks, [row(1, "A"), row(2, "A", part, f"1+{ticks}")]),
        Waiting("a think time longer than the gap", ticks, [row(1, "A"), row(2, "A", ticks, f"1+{part}")]),
    ]


def long_waitings(ticks: int) -> list[Waiting]:
    """Two equal times of which one counts and not their sum: as long as a run may be late, at least."""
    return [
        Waiting("a gap and a think time", ticks, [row(1, "A"), row(2, "A", ticks, f"1+{ticks}")]),
        Waiting("a gap and one who is late", ticks, [row(1), row(2, release=ticks), row(3, after=f"1+{ticks} 2")]),
    ]


def two_clients(ticks: int) -> list[Waiting]:
    """A message that awaits those of two clients, of which one takes so long: the first one, then the last."""
    return [Waiting(f"{which} takes long", ticks, [row(1, "A"), row(2, "B"), row(3, "C", after="1 2")]) for which in ("the first", "the last")]


def crossing(dice: random.Random) -> Waiting:
    """Messages with files of their own, some of clients, that wait for each other."""
    rows, owns = list[str](), dict[str, list[int]]()
    for number in range(1, LEAVES):
        own = owns.setdefault(client := dice.choice("--AB"), [])
        after = pieces(dice, number, 1000, [] if client == "-" else own)
        rows.append(row(number, client, dice.choice([0, 0, dice.randrange(1000)]), after))
        own.append(number)
    return Waiting("messages that cross", 0, rows)


@dataclass(slots=True)
class Ran:
    """The rows of a run, how many seconds it took by the wall, and the per cent of a drift that it tells."""

    rows: list[Row]
    took: float
    drift: int = 0


def faults_of_waiting(waiting: Waiting, world: World, ran: Ran, tick: float) -> list[str]:
    """What is wrong with a run, where a tick takes so many seconds; that it is late comes last."""
    faults = faults_of_order(world, ran.rows, MOST_WORKERS)
    least, told = waiting.ticks * tick, ran.rows[-1].start * tick if ran.rows else 0
    if not least <= told <= most_told(ran.took, ran.drift):
        faults.append(f"the last message is told to start after {told} s of {ran.took}, and {least} is the least")
    if ran.took < least:
        faults.append(f"it took {ran.took} s, and not {least}")
    return faults + ([f"it took {ran.took} s, and not {least} and little more"] if is_late(waiting, ran, tick) else [])


def is_late(waiting: Waiting, ran: Ran, tick: float) -> bool:
    return ran.took > waiting.ticks * tick + PATIENCE


@dataclass(slots=True)
class Span:
    """When the first call of a message began, and when its last one ended."""

    began: int
    ended: int


def faults_of_calls(world: World, spans: list[Span], tick: int) -> list[str]:
    """Where a message makes its calls before those that it awaits have made theirs, or before the gap is over, where a tick takes so long."""
    pairs = [(it, m, spans[it].ended + gap * tick - spans[m].began) for m in world.all for it, gap in world.awaits[m].items()]
    return [f"message {m + 1} makes its first call {soon} too soon behind message {it + 1}" for it, m, soon in pairs if soon > 0]


# Wrong programs


@dataclass(slots=True)
class Awaited:
    """One of those that a message awaits: when it has finished, the gap, and whether that is a think time."""

    finish: int
    gap: int
    is_own: bool = False

    @property
    def end(self) -> int:
        return self.finish + self.gap


# When a message is issued, by those that its list names, in its order, and behind these by the one before of its client.
Rule = Callable[[list[Awaited]], int]


def of_list(take: Callable[[list[Awaited]], int]) -> Rule:
    """A rule that is right but for the list."""

    def rule(found: list[Awaited]) -> int:
        listed = [it for it in found if not it.is_own]
        return max([*(it.end for it in found if it.is_own), *([take(listed)] if listed else [])], default=0)

    return rule


def right(found: list[Awaited]) -> int:
    return max((it.end for it in found), default=0)


def greatest(found: list[Awaited], is_own: bool) -> int:
    return max((it.gap for it in found if it.is_own == is_own), default=0)


# Those that issue messages too early, and those that do so too late.
TOO_EARLY: dict[str, Rule] = {
    "counts one less": of_list(lambda found: max(sorted(it.end for it in found)[:-1], default=0)),
    "takes the first piece alone": of_list(lambda found: found[0].end),
    "takes the last piece alone": of_list(lambda found: found[-1].end),
    "takes the gap of who finishes last": of_list(lambda found: max(found, key=lambda it: it.finish).end),
    "counts gaps from the beginning of the run": of_list(lambda found: max(max(it.finish, it.gap) for it in found)),
    "takes no gap": of_list(lambda found: max(it.finish for it in found)),
    "takes no list": of_list(lambda _: 0),
    "takes the list in place of the client": lambda found: right([it for it in found if not it.is_own] or found),
}
TOO_LATE: dict[str, Rule] = {
    "takes the sum of the gaps": of_list(lambda found: max(it.finish for it in found) + sum(it.gap for it in found)),
    "takes the greatest gap": of_list(lambda found: max(it.finish for it in found) + max(it.gap for it in found)),
    "adds the gap to the think time": lambda found: max((it.finish for it in found), default=0) + greatest(found, True) + greatest(found, False),
}


def ran_by(world: World, rule: Rule) -> list[Row]:
    """The rows of a program that issues messages by this rule, where no message excludes another and each has a worker."""
    rows: list[Row] = []
    for m, it in enumerate(world.messages):
        found = [Awaited(rows[other].finish, gap) for other, gap in it.after.items()]
        found += [Awaited(rows[other].finish, gap, True) for other, gap in world.own[m].items()]
        start = max(world.floor(m), rule(found))
        rows.append(Row(start, start + it.cost, world.name(m), m + 1))
    return rows


def refused_by(rule: Rule, found: list[Waiting], tick: float) -> dict[str, list[str]]:
    """What is wrong with a program that follows this rule, by those waitings that show it."""
    refused = {}
    for waiting in found:
        rows = ran_by(waiting.world(), rule)
        refused[waiting.name] = faults_of_waiting(waiting, waiting.world(), Ran(rows, max(it.finish for it in rows) * tick), tick)
    return {name: faults for name, faults in refused.items() if faults}


def refused_by_calls(rule: Rule, found: list[Waiting]) -> dict[str, list[str]]:
    """The same by the calls alone."""
    refused = {}
    for waiting in found:
        rows = ran_by(waiting.world(), rule)
        refused[waiting.name] = faults_of_calls(waiting.world(), [Span(it.start, it.finish) for it in rows], 1)
    return {name: faults for name, faults in refused.items() if faults}


def wrong_programs(count: Count, found: list[Waiting], tick: float) -> None:
    """Each wrong program is refused, and one that is right is not; those that are too early are by their calls, too."""
    for name, rule in (TOO_EARLY | TOO_LATE).items():
        count.check(f"refused: a program that {name}", refused_by(rule, found, tick))
    wrong_calls(count, found)
    refused = refused_by(right, found, tick)
    count.check("not refused: a program that is right", not refused, refused)


def wrong_calls(count: Count, found: list[Waiting]) -> None:
    for name, rule in TOO_EARLY.items():
        count.check(f"refused by its calls: a program that {name}", refused_by_calls(rule, found))
    refused = refused_by_calls(right, found)
    count.check("not refused by its calls: a program that is right", not refused, refused)
