"""Traces whose messages hold locks, each with a cell of its own for its first and its last call, and how the calls of a run of one are judged;
and programs that are wrong about locks, as the spans that they would show, each of which has to be told from one that is right."""

import copy
import random
from collections.abc import Callable
from dataclasses import dataclass, field

from common import Count
from hierarchies import hierarchy
from rooms import trace_text
from traces import trace_of, tree_of
from waiting import Span
from worlds import World, plan_of

MESSAGES = 24
# So many messages in a row have one leaf, those that have an affinity.
TOGETHER = 4
LEAVES = [f"a{leaf}" for leaf in range(MESSAGES // TOGETHER)]
WORKERS = 8


def locked_tree(kind: str = "shared") -> str:
    """A root with leaves. `own` and `free` have a cell for each message, without a lock and with one; all cells of `free` are in one file.
    Of `one` locks are exclusive, of `some` of this kind; `all` is the root's."""
    spaces = [("own", MESSAGES), ("free", MESSAGES), ("one", 6), ("some", 3), ("all", 1)]
    maps = [("own", TOGETHER, LEAVES), ("one", 1, LEAVES), ("all", 1, ["root"])]
    locks = {"free": "exclusive", "one": "exclusive", "some": kind}
    return hierarchy([("root", None), *((leaf, "root") for leaf in LEAVES)], spaces, maps, locks=locks)


@dataclass(slots=True)
class Holding:
    """Messages with locks; `marks` are the files and places of the cells that they have of their own."""

    rows: list[str]
    marks: list[tuple[str, int]]
    tree: str = field(default_factory=locked_tree)

    @property
    def trace(self) -> str:
        return trace_text(3, self.rows)

    def world(self) -> World:
        tree = tree_of(self.tree)
        return World(tree, trace_of(self.trace, tree))


def holding(dice: random.Random) -> Holding:
    """Messages that are all there at once, and mostly read one of few cells whose locks are shared."""
    found = Holding([], [])
    for number in range(MESSAGES):
        space = dice.choice(["own", "free"])
        at = (f"own.{number // TOGETHER}", number % TOGETHER) if space == "own" else ("free.0", number)
        some = f"some:{dice.randrange(3)}"
        none: list[str] = []
        uses = [*dice.choice([none, [f"read {some}"], [f"read {some}"], [f"read {some}"], [f"set {some} 7"], [f"copy one:0 {some}"]])]
        uses += dice.choice([none, none, [f"set one:{dice.randrange(6)} 5"], [f"read one:{dice.randrange(6)}"]])
        uses += ["read all:0"] * (dice.random() < 0.06)
        dice.shuffle(uses)
        mark = f"{space}:{number}"
        found.rows.append(f"m,{dice.randint(1, 9)},0,-,0," + ";".join([f"read {mark}", *uses, f"set {mark} 1"]))
        found.marks.append(at)
    return found


def faults_of_exclusion(world: World, spans: list[Span]) -> list[str]:
    """Which of two messages that exclude each other begins before the one before it has ended; all are issued at once."""
    pairs = [(it, m) for m in world.all for it in world.excluding[m] if it < m]
    return [f"messages {it + 1} and {m + 1} exclude each other, and overlap" for it, m in pairs if spans[m].began < spans[it].ended]


def readers_together(world: World, spans: list[Span]) -> int:
    """How many pairs there are that share a lock and run at one time."""
    pairs = [(it, m) for m in world.all for it in range(m) if world.locks[it].keys() & world.locks[m].keys() and it not in world.excluding[m]]
    return sum(spans[it].began < spans[m].ended and spans[m].began < spans[it].ended for it, m in pairs)


# Wrong programs

Rule = Callable[[World, int, int], bool]


def by_affinities(world: World, one: int, other: int) -> bool:
    return (world.affinities[one], world.affinities[other]) in world.pairs


def by_common_locks(world: World, one: int, other: int, *, alone: int) -> bool:
    """Whether both use a lock, and so many of them alone."""
    first, second = world.locks[one], world.locks[other]
    return any(first[it] + second[it] >= alone for it in first if it in second)


# When two messages exclude each other, by programs that let too many run at once.
TOO_MANY: dict[str, Rule] = {
    "knows no locks": by_affinities,
    "lets readers run beside a writer": lambda *it: by_affinities(*it) or by_common_locks(*it, alone=2),
    "knows locks alone": lambda *it: by_common_locks(*it, alone=1),
    "lets the root run beside messages without an affinity": lambda world, one, other: world.excludes(one, other)
    and (by_common_locks(world, one, other, alone=1) or None not in (world.affinities[one], world.affinities[other])),
}


def no_readers_share(world: World, one: int, other: int) -> bool:
    """That of a program which knows no shared locks: right, and too slow."""
    return by_affinities(world, one, other) or by_common_locks(world, one, other, alone=0)


def under_rule(world: World, rule: Rule) -> World:
    """The same messages where others exclude each other."""
    found = copy.copy(world)
    found.excluding = [[it for it in world.all if it != m and rule(world, it, m)] for m in world.all]
    return found


def spans_by(world: World, rule: Rule) -> list[Span]:
    plan = plan_of(under_rule(world, rule), WORKERS)
    return [Span(plan.finish(m) - world.messages[m].cost, plan.finish(m)) for m in world.all]


def wrong_exclusions(count: Count, found: list[Holding]) -> None:
    """Each wrong program is refused by its calls, and one that is right is not; of one that shares no locks no readers run together."""
    worlds = [it.world() for it in found]
    for name, rule in TOO_MANY.items():
        count.check(f"refused by its calls: a program that {name}", any(faults_of_exclusion(it, spans_by(it, rule)) for it in worlds))
    for name, rule in (("that is right", World.excludes), ("that shares no locks", no_readers_share)):
        refused = [faults for it in worlds if (faults := faults_of_exclusion(it, spans_by(it, rule)))]
        count.check(f"not refused by its calls: a program {name}", not refused, refused)
    together = {rule: sum(readers_together(it, spans_by(it, rule)) for it in worlds) for rule in (World.excludes, no_readers_share)}
    count.check("readers share in a program that is right alone", list(map(bool, together.values())) == [True, False], together)
