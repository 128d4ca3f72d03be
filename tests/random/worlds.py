"""Traces under hierarchies, and their plans, by definition and slowly: what messages hold, which of them exclude each other, and plans that
are made from tick to tick."""

from collections.abc import Iterable
from dataclasses import dataclass
from itertools import pairwise

from traces import Cell, Message, Trace, Tree

# An affinity or a lock, as the way to it from the root. What shares a lock has a place of its own below it.
Place = tuple[object, ...]


class World:
    """A trace under a tree: what each message holds, which messages exclude each other, the one before each of its client, and the
    gap of each that it awaits, of its client alone and of all. Messages are numbered from 0 here."""

    def __init__(self, tree: Tree, trace: Trace) -> None:
        self.tree = tree
        self.version = trace.version
        self.messages = trace.messages
        self.all = range(len(trace.messages))
        # The cells of each message, and those that it writes.
        self.cells = [set(cells_of(it)) for it in trace.messages]
        self.written = [written_by(it) for it in trace.messages]
        self.affinities = [self.lowest(it) for it in self.all]
        # The locks that each message uses, by their cells, and whether alone.
        self.locks = [self.locks_of(it) for it in self.all]
        self.total = sum(it.cost for it in trace.messages)
        self.befores = [self.one_before(it) for it in self.all]
        self.own = [self.own_of(it) for it in self.all]
        self.awaits = [self.awaited_by(it) for it in self.all]
        names = range(len(tree.names))
        self.pairs: set[tuple[int | None, int | None]] = {(one, other) for one in names for other in names if tree.excludes(one, other)}
        # Who is in the root excludes those without an affinity, too.
        self.pairs |= {(tree.root, None), (None, tree.root)}
        self.excluding = [[it for it in self.all if self.excludes(it, m)] for m in self.all]

    def lowest(self, message: int) -> int | None:
        """The affinity of a message: the lowest that covers its cells without locks; None where all have locks."""
        owners = {self.tree.owner(*it) for it in self.cells[message] if it[0] not in self.tree.locks}
        return self.tree.lowest(owners) if owners else None

    def locks_of(self, message: int) -> dict[Cell, bool]:
        """The cells whose locks a message uses, and whether it uses them alone: those of shared locks only if it writes them."""
        kinds = self.tree.locks
        return {it: kinds[it[0]] == "exclusive" or it in self.written[message] for it in self.cells[message] if it[0] in kinds}

    def excludes(self, one: int, other: int) -> bool:
        """By their affinities, or by a lock."""
        if one == other or (self.affinities[one], self.affinities[other]) in self.pairs:
            return one != other
        return bool(self.locks[one]) and self.lock_between(one, other) is not None

    def lock_between(self, one: int, other: int) -> Cell | None:
        """The first cell whose lock both use, and one of them alone."""
        first, second = self.locks[one], self.locks[other]
        shared = [it for it in first if it in second and (first[it] or second[it])]
        return min(shared, key=self.place) if shared else None

    def waits_by(self, one: int, other: int) -> Cell | None:
        """The cell by whose lock two messages exclude each other; None where they do by their affinities."""
        return None if (self.affinities[one], self.affinities[other]) in self.pairs else self.lock_between(one, other)

    def held(self, message: int) -> set[Place]:
        """The places of a message: its affinity, and its locks below the root."""
        tree, affinity = self.tree, self.affinities[message]
        found: set[Place] = {(tree.root, cell) if alone else (tree.root, cell, message) for cell, alone in self.locks[message].items()}
        return found | ({tuple(reversed(tree.way(affinity)))} if affinity is not None else set())

    def name(self, message: int) -> str:
        """Where a message runs, as it is printed."""
        affinity = self.affinities[message]
        return "-" if affinity is None else self.tree.names[affinity]

    def way(self, message: int) -> list[int]:
        """From the affinity of a message, if it has one, up to the root."""
        affinity = self.affinities[message]
        return [] if affinity is None else self.tree.way(affinity)

    def one_before(self, message: int) -> int | None:
        client = self.messages[message].client
        found = [it for it in range(message) if client is not None and self.messages[it].client == client]
        return found[-1] if found else None

    def own_of(self, message: int) -> dict[int, int]:
        """What a message awaits of its client, with the gap."""
        before = self.befores[message]
        return {} if before is None else {before: self.messages[message].think}

    def awaited_by(self, message: int) -> dict[int, int]:
        """What a message awaits, each with the greatest of its gaps."""
        own, after = self.own[message], self.messages[message].after
        return {it: max(own.get(it, 0), after.get(it, 0)) for it in own | after}

    def before(self, message: int) -> int | None:
        """The message before one of its client."""
        return self.befores[message]

    def floor(self, message: int) -> int:
        it = self.messages[message]
        return max(it.release, it.think) if self.version >= 3 and self.before(message) is None else it.release

    def tails(self) -> list[int]:
        """What the rule `longest` sorts by, of each message."""
        found: dict[int, int] = {}
        for m in reversed(self.all):
            if self.version < 3:
                below = [found[it] for it in found if self.excludes(it, m)]
            else:
                below = [self.awaits[it][m] + found[it] for it in found if m in self.awaits[it]]
            found[m] = self.messages[m].cost + max(below, default=0)
        return [found[m] for m in self.all]

    def least(self, workers: int | None) -> int:
        """A length that no plan for so many workers is below."""
        found = -(-self.total // workers) if workers else 0
        if self.version < 3:
            return max(found, plan_of(self, None).length())
        return max([found, *self.ends(self.awaits), *self.works(), *self.queues().values()])

    def ends(self, awaits: list[dict[int, int]]) -> list[int]:
        """When each message has finished at the soonest, if none waits but for what it awaits so."""
        found = list[int]()
        for m in self.all:
            found.append(max([self.floor(m), *(found[it] + gap for it, gap in awaits[m].items())]) + self.messages[m].cost)
        return found

    def works(self) -> list[int]:
        """What the messages at or above each affinity cost."""
        return [self.cost(m for m in self.all if self.affinities[m] in self.tree.way(affinity)) for affinity in range(len(self.tree.names))]

    def queues(self) -> dict[Cell, int]:
        """What those cost that use each lock alone or run in the root, with the costliest other one that shares it."""
        found: dict[Cell, int] = {}
        for cell in {it for locks in self.locks for it in locks}:
            alone = [m for m in self.all if self.locks[m].get(cell) or self.affinities[m] == self.tree.root]
            others = [self.messages[m].cost for m in self.all if cell in self.locks[m] and m not in alone]
            found[cell] = self.cost(alone) + max(others, default=0)
        return found

    def writes(self) -> dict[Cell, int]:
        """What those cost that write each cell, with the costliest that only reads it."""
        found: dict[Cell, int] = {}
        for cell in set[Cell]().union(*self.cells):
            writers = [m for m in self.all if cell in self.written[m]]
            readers = [self.messages[m].cost for m in self.all if cell in self.cells[m] - self.written[m]]
            found[cell] = self.cost(writers) + max(readers, default=0)
        return found

    def data(self) -> dict[Cell, int]:
        """What those cost that name each cell, of shared locks what `writes` has."""
        found = {it: cost for it, cost in self.writes().items() if self.tree.locks.get(it[0]) == "shared"}
        for cell in set[Cell]().union(*self.cells) - found.keys():
            found[cell] = self.cost(m for m in self.all if cell in self.cells[m])
        return found

    def greatest(self, found: dict[Cell, int]) -> tuple[int, str]:
        """The greatest of these, and the first such cell."""
        cell = min(found, key=lambda it: (-found[it], self.place(it)), default=None)
        return (0, "-") if cell is None else (found[cell], "{}:{}".format(*cell))

    def cost(self, messages: Iterable[int]) -> int:
        return sum(self.messages[m].cost for m in messages)

    def place(self, cell: Cell) -> tuple[int, int]:
        """A cell by the number of its space, then its index."""
        return list(self.tree.sizes).index(cell[0]), cell[1]

    def footprint(self, message: int) -> list[Cell]:
        """The cells of a message, each once, in their order."""
        return sorted(self.cells[message], key=self.place)


def cells_of(message: Message) -> list[Cell]:
    found = [cell for _, cell, _ in message.ops]
    return found + [other for _, _, other in message.ops if isinstance(other, tuple)]


def written_by(message: Message) -> set[Cell]:
    """The cells that a message writes."""
    found = {cell for verb, cell, _ in message.ops if verb != "read"}
    return found | {other for verb, _, other in message.ops if verb == "swap" and isinstance(other, tuple)}


@dataclass(slots=True)
class Plan:
    """The starts and workers of messages, None where there is none (yet). `count` is the number of workers, None for any."""

    world: World
    count: int | None
    starts: list[int | None]
    workers: list[int | None]

    def finish(self, m: int) -> int:
        start = self.starts[m]
        assert start is not None
        return start + self.world.messages[m].cost

    def issue(self, m: int) -> int | None:
        """When a message is issued; None while that is not known."""
        awaits = self.world.awaits[m]
        if any(self.starts[it] is None for it in awaits):
            return None
        return max([self.world.floor(m), *(self.finish(it) + gap for it, gap in awaits.items())])

    def issued(self, m: int) -> int:
        found = self.issue(m)
        assert found is not None
        return found

    def issued_before(self, one: int, other: int) -> bool:
        """In versions 1 and 2 the order is that of the numbers."""
        if self.world.version < 3:
            return one < other
        first, second = self.issue(one), self.issue(other)
        return first is not None and (second is None or (first, one) < (second, other))

    def waited_for(self, m: int) -> list[int]:
        """The messages that exclude one and are issued before it."""
        return [it for it in self.world.excluding[m] if self.issued_before(it, m)]

    def last_waited_for(self, m: int) -> int | None:
        """The one of them that finishes last; of several the first."""
        others = sorted(self.waited_for(m), key=lambda it: (-self.finish(it), it))
        return others[0] if others else None

    def ready(self, m: int) -> int:
        """When a message waits for a worker alone."""
        last = self.last_waited_for(m)
        return max(self.issued(m), 0 if last is None else self.finish(last))

    def waits(self, m: int) -> int:
        return max(0, (self.starts[m] or 0) - self.issued(m))

    def latency(self, m: int) -> int:
        return max(0, self.finish(m) - self.issued(m))

    def runs(self, m: int, tick: int) -> bool:
        start = self.starts[m]
        return start is not None and start <= tick < self.finish(m)

    def has_finished(self, m: int, tick: int) -> bool:
        return self.starts[m] is not None and self.finish(m) <= tick

    def is_ready(self, m: int, tick: int) -> bool:
        issue = self.issue(m)
        if self.starts[m] is not None or issue is None or issue > tick:
            return False
        return all(self.has_finished(it, tick) for it in self.waited_for(m))

    def length(self) -> int:
        return max((self.finish(m) for m in self.world.all), default=0)

    def gap(self, one: int, other: int) -> int:
        return self.world.awaits[other].get(one, 0)

    def is_link(self, one: int, other: int) -> bool:
        if self.world.version < 3:
            return one < other and self.world.excludes(one, other)
        start, end = self.starts[one], self.starts[other]
        assert start is not None and end is not None
        return one in self.world.awaits[other] or self.world.excludes(one, other) and start < end

    def chain(self) -> list[int]:
        """The printed chain."""
        world = self.world
        if not world.messages:
            return []
        found = [min(world.all, key=lambda m: (-self.finish(m), m))]
        while True:
            m = found[0]
            links = [it for it in world.all if self.is_link(it, m)]
            first = min(links, key=lambda it: (-self.finish(it) - self.gap(it, m), it), default=None)
            if first is None or world.floor(m) >= self.finish(first) + self.gap(first, m):
                return found
            found.insert(0, first)

    def chain_release(self, chain: list[int]) -> int:
        return (self.world.floor(chain[0]) if chain else 0) + sum(self.gap(*it) for it in pairwise(chain) if self.is_link(*it))

    def summary(self, chain: list[int]) -> dict[str, tuple[int, ...]]:
        """The numbers below the rows, with this chain."""
        release, cost = self.chain_release(chain), sum(self.world.messages[m].cost for m in chain)
        total, length, k = self.world.total, self.length(), self.count
        bound = (length, release + cost) if k is None else (k * length, total + k * release + (k - 1) * cost)
        found = {"total": (total,), "length": (length,), "chain": tuple(m + 1 for m in chain)}
        if self.world.version > 1:
            found["release"] = (release,)
        return found | {"cost": (cost,), "bound": bound}


def plan_of(world: World, workers: int | None, rule: str = "arrival") -> Plan:
    """The plan of waff: from tick to tick, each at which a message is issued or one has finished."""
    plan = Plan(world, workers, [None for _ in world.all], [None for _ in world.all])
    tick, tails = 0, world.tails()
    while None in plan.starts:
        ready = [m for m in world.all if plan.is_ready(m, tick)]
        busy = {plan.workers[m] for m in world.all if plan.runs(m, tick)}
        free = [it for it in range(1, (workers or 0) + 1) if it not in busy]
        if workers is not None:
            # By the issues first; the other sort keeps the order of those with equal tails.
            ready.sort(key=lambda m: (plan.issued(m), m) if world.version >= 3 else (m,))
            if rule == "longest":
                ready.sort(key=lambda m: tails[m], reverse=True)
            ready = sorted(ready[: len(free)])
            for m, worker in zip(ready, free):
                plan.workers[m] = worker
        for m in ready:
            plan.starts[m] = tick
        later = [plan.finish(m) for m in world.all if plan.starts[m] is not None]
        later += [it for m in world.all if (it := plan.issue(m)) is not None]
        tick = min((it for it in later if it > tick), default=tick)
    is_as_defined(plan)
    return plan


def is_as_defined(plan: Plan) -> None:
    """The plan obeys and is in order, and one without workers starts each message when it is ready."""
    for m in plan.world.all:
        ready = max([plan.issued(m), *(plan.finish(it) for it in plan.waited_for(m))])
        start = plan.starts[m]
        assert start is not None and (start == ready if plan.count is None else start >= ready), f"message {m + 1}: {start}, {ready}"
    ticks = {it for it in plan.starts if it is not None}
    assert plan.count is None or all(sum(plan.runs(m, tick) for m in plan.world.all) <= plan.count for tick in ticks)
