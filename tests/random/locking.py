"""Random locks, and what holds of them, for the tests that make them."""

import random
from collections.abc import Iterable
from dataclasses import replace

import clients
from common import Count
from traces import Trace
from worlds import World

KINDS = ("exclusive", "shared")


def random_locks(dice: random.Random, spaces: Iterable[str]) -> dict[str, str]:
    """Kinds of locks by the names of spaces, of which some have none."""
    kinds = {space: dice.choice([None, *KINDS, "shared"]) for space in spaces}
    return {space: kind for space, kind in kinds.items() if kind}


def with_locks(world: World, locks: dict[str, str]) -> World:
    """The same trace under the same tree, with other locks."""
    return World(replace(world.tree, locks=locks), Trace(world.version, world.messages))


def has_common_cell(world: World, one: int, other: int, kind: str) -> bool:
    """Whether two messages name one cell, which of shared locks one of them writes."""
    written = world.written[one] | world.written[other]
    return any(kind == "exclusive" or cell in written for cell in world.cells[one] & world.cells[other])


def locks_hold(count: Count, name: str, world: World, dice: random.Random) -> None:
    """What the laws of locks say, of the exclusion and the needs of the plain planner."""
    pairs = [(one, other) for other in world.all for one in range(other)]
    for one, other in pairs:
        cells = [cell for cell in world.cells[one] & world.cells[other] if world.tree.locks.get(cell[0]) != "shared"]
        written = world.cells[one] & world.cells[other] & (world.written[one] | world.written[other])
        count.check(f"{name}: a common cell excludes", world.excludes(one, other) or not cells and not written, (one, other))
    for space in world.tree.sizes:
        for more in KINDS[KINDS.index(world.tree.locks[space]) :] if space in world.tree.locks else KINDS:
            other_world = with_locks(world, world.tree.locks | {space: more})
            fewer = all(world.excludes(*pair) for pair in pairs if other_world.excludes(*pair))
            count.check(f"{name}: {more} locks on {space} exclude no more", fewer, world.tree.locks)
    for kind in KINDS:
        locked = with_locks(world, dict.fromkeys(world.tree.sizes, kind))
        same = all(locked.excludes(*pair) == has_common_cell(world, *pair, kind) for pair in pairs)
        count.check(f"{name}: {kind} locks on all exclude by common cells", same, world.tree.locks)
    order = in_some_order(world, dice)
    served = World(world.tree, Trace(world.version, [world.messages[m] for m in order]))
    count.check(f"{name}: the state of arrival order", clients.replay_text(served) == clients.replay_text(world), order)
    needs_hold(count, name, world)


def in_some_order(world: World, dice: random.Random) -> list[int]:
    """All messages in an order in which of two that exclude each other the one of lower number comes first."""
    found, left = list[int](), list(world.all)
    while left:
        free = [m for m in left if not any(it < m and it in left for it in world.excluding[m])]
        found.append(dice.choice(free))
        left.remove(found[-1])
    return found


def needs_hold(count: Count, name: str, world: World) -> None:
    """Each need is an ordered pair, each ordered pair a path through needs, and they are few."""
    needs = [[int(it) - 1 for it in line.split(",")[1].split()] for line in clients.needs_text(world).splitlines()[1:]]
    reached = list[set[int]]()
    for own in needs:
        reached.append(set(own).union(*(reached[it] for it in own)))
    for m in world.all:
        before = {it for it in world.excluding[m] if it < m}
        count.check(f"{name}: needs of message {m + 1}", set(needs[m]) <= before <= reached[m], (needs, before))
    held = sum(len(world.held(m)) for m in world.all)
    count.check(f"{name}: few needs", sum(map(len, needs)) <= 2 * held, (needs, held))
