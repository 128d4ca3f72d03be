#!/usr/bin/env python3
"""A plain planner of traces with clients, by definition and slowly: what waff prints of traces of all four versions, under hierarchies of
all formats.

    tests/random/clients.py COMMAND FILE ..      assign, plan, check, replay, compare, sweep, limits, locks, rate, rank, waits, where, why, needs
                                                 or draw, as waff has them

Of `draw` it has events alone. It has no proof and shares no line with the program. A hierarchy has to be right but for its sizes; traces and
plan texts are refused as waff does. Plans are made from tick to tick, over all pairs of messages, so take some hundred messages at most.
"""

import json
import sys
from argparse import ArgumentParser, Namespace
from collections import Counter
from collections.abc import Callable, Iterator, Sequence
from dataclasses import dataclass, replace
from itertools import pairwise, product

from traces import MOST_CELLS, NAME, Cell, Fault, Trace, is_number, read_text, read_tree, records_of, trace_of, tree_of
from worlds import Place, Plan, World, plan_of

MOST_IN_PLAN = 10**15
SWEPT = "1,2,3,4,6,8,12,16,24,32,48,64"
FIGURES = ("length", "speedup", "busy", "least", "over", "waits", "mean", "p50", "p99", "latency")

# Texts


def assign_text(world: World) -> str:
    rows = [f"{m + 1},{world.messages[m].name},{world.name(m)}" for m in world.all]
    return lines(["message,name,affinity", *rows])


def needs_text(world: World) -> str:
    """For which earlier messages each one waits, by number: at each place that it holds the open ones at or below it, else the latest one
    that holds a place above it."""
    held = [world.held(m) for m in world.all]

    def holds_above(m: int, place: Place) -> bool:
        """Whether a message holds this place or one above it."""
        return any(place[:depth] in held[m] for depth in range(1, len(place) + 1))

    def is_open(it: int, place: Place, m: int) -> bool:
        """Whether no message since one that holds a place, up to another, holds it or a place above."""
        return not any(holds_above(later, place) for later in range(it + 1, m))

    rows = ["message,needs"]
    for m in world.all:
        found = set[int]()
        for place in held[m]:
            below = {it for it in range(m) for at in held[it] if at[: len(place)] == place and is_open(it, at, m)}
            found |= below or {*[it for it in range(m) if holds_above(it, place)][-1:]}
        rows.append(f"{m + 1}," + " ".join(str(it + 1) for it in sorted(found)))
    return lines(rows)


def lines(found: list[str]) -> str:
    return "".join(it + "\n" for it in found)


def plan_text(plan: Plan, chain: list[int] | None = None) -> str:
    """The text of a plan with this chain, the printed one where none is given. Only a plan that obeys has a printed one."""
    world = plan.world
    rows = ["message,affinity,start,finish,worker"]
    for m in world.all:
        rows.append(f"{m + 1},{world.name(m)},{plan.starts[m]},{plan.finish(m)},{plan.workers[m] or '-'}")
    rows.append(f"workers,{plan.count or '-'}")
    for name, numbers in plan.summary(plan.chain() if chain is None else chain).items():
        rows.append(f"{name}," + (" " if name == "chain" else ",").join(map(str, numbers)))
    return lines(rows)


def ratio(part: int, whole: int, up: bool = False) -> str:
    if whole == 0:
        return "-"
    found = -(-100 * part // whole) if up else 100 * part // whole
    return f"{found // 100}.{found % 100:02}"


def figures_of(plan: Plan) -> dict[str, object]:
    """The figures of a plan, whether or not it obeys."""
    world = plan.world
    length, least = plan.length(), world.least(plan.count)
    found: dict[str, object] = {"length": length, "speedup": ratio(world.total, length)}
    found["busy"] = ratio(world.total, plan.count * length) if plan.count else "-"
    return found | {"least": least, "over": ratio(length, least, up=True)} | waiting_of(plan, world.all)


def waiting_of(plan: Plan, messages: Sequence[int]) -> dict[str, object]:
    """How long these messages wait, and their latencies."""
    count = len(messages)
    latencies = sorted(plan.latency(m) for m in messages)
    found: dict[str, object] = {"waits": sum(plan.waits(m) for m in messages), "mean": ratio(sum(latencies), count)}
    for name, part in (("p50", 50), ("p99", 99)):
        found[name] = next((it for n, it in enumerate(latencies, 1) if 100 * n >= part * count), 0)
    return found | {"latency": max(latencies, default=0)}


def sweep_text(world: World, counts: list[int], rule: str) -> str:
    rows = [",".join(["workers", *FIGURES])]
    for count in [*counts, None]:
        found = figures_of(plan_of(world, count, rule))
        rows.append(",".join([str(count or "-"), *(str(found[it]) for it in FIGURES)]))
    return lines(rows)


def limits_text(world: World, counts: list[int], rule: str) -> str:
    """What limits a trace. Of several that are the greatest the first is told."""
    works = world.works()
    ends, awaited = world.ends(world.own), world.ends(world.awaits)
    client = max(world.all, key=lambda m: ends[m], default=None)
    message = max(world.all, key=lambda m: awaited[m], default=None)
    affinity = max(range(len(works)), key=lambda a: works[a])
    found: list[tuple[str, int | None, int, str]] = [("work", k, -(-world.total // k), "-") for k in counts]
    found.append(("clients", None, max(ends, default=0), "-" if client is None else world.messages[client].client or "-"))
    if world.version == 4:
        found.append(("after", None, max(awaited, default=0), "-" if message is None else str(message + 1)))
    found.append(("writes", None, *world.greatest(world.writes())))
    found.append(("data", None, *world.greatest(world.data())))
    found.append(("tree", None, works[affinity], "-" if all(it is None for it in world.affinities) else world.tree.names[affinity]))
    if world.tree.locks:
        found.append(("locks", None, *world.greatest(world.queues())))
    found.append(("order", None, plan_of(world, None).length(), "-"))
    found += [("plan", k, plan_of(world, k, rule).length(), "-") for k in counts]
    rows = [f"{name},{workers or '-'},{length},{ratio(world.total, length)},{at}" for name, workers, length, at in found]
    return lines(["limit,workers,length,speedup,at", *rows])


def locks_text(world: World, workers: int | None, rule: str, kind: str, steps: int) -> str:
    """What locks of a kind would give: the figures of limits with none more, each of the spaces that could have them alone, one more each
    time, and all."""
    tree, trace = world.tree, Trace(world.version, world.messages)
    named = {space for m in world.all for space, _ in world.footprint(m)}
    candidates = [it for it in tree.sizes if it in named and (it not in tree.locks or tree.locks[it] != kind == "shared")]

    def row(words: str, spaces: list[str]) -> tuple[tuple[int, ...], str]:
        """By what a set of spaces is taken, and its line."""
        it = World(replace(tree, locks=tree.locks | dict.fromkeys(spaces, kind)), trace)
        order, plan = plan_of(it, None).length(), plan_of(it, workers, rule).length()
        uses = [alone for locks in it.locks for alone in locks.values()]
        top, queue = max(it.works()), it.greatest(it.queues())[0]
        told = [words, top, queue, order, plan if workers else "-", ratio(it.total, plan), sum(map(bool, it.locks)), sum(uses), len(uses) - sum(uses)]
        return (plan, order, max(top, queue), len(uses)), ",".join(map(str, told))

    rows = ["what,space,tree,locks,order,plan,speedup,messages,alone,shared", row("as it is,-", [])[1]]
    rows += [row(f"one,{it}", [it])[1] for it in candidates]
    taken = list[str]()
    for _ in range(min(steps, len(candidates))):
        # Of equal ones the first.
        best = min((it for it in candidates if it not in taken), key=lambda it: row("", [*taken, it])[0])
        taken.append(best)
        rows.append(row(f"then,{best}", taken)[1])
    return lines([*rows, row("all,-", candidates)[1]])


def rank_text(worlds: list[World], workers: int, rule: str) -> str:
    rows = ["hierarchy,model,affinities,length,list,least,over,waits,mean,p50,p99,latency"]
    for number, world in enumerate(worlds, 1):
        found = figures_of(plan_of(world, workers, rule))
        words = [number, world.tree.model, len(world.tree.names), plan_of(world, None).length(), found["length"]]
        rows.append(",".join(map(str, [*words, *(found[it] for it in FIGURES[3:])])))
    return lines(rows)


def compare_text(worlds: list[World], workers: int) -> str:
    worlds = sorted(worlds, key=lambda it: it.tree.model)
    one, other = worlds
    rows = [f"workers,{workers}", f"total,{one.total}"]
    has_releases = one.version > 1
    rows.append("model,length,release,chain,list,listrelease,listchain,left,right" if has_releases else "model,length,chain,list,listchain,left,right")
    for world in worlds:
        words: list[object] = [world.tree.model]
        for plan in (plan_of(world, None), plan_of(world, workers)):
            found = plan.summary(plan.chain())
            words += [*found["length"], *(found["release"] if has_releases else ()), *found["cost"]]
        rows.append(",".join(map(str, [*words, *found["bound"]])))
    refines = all(one.excludes(i, j) for i in other.all for j in other.all if other.excludes(i, j))
    has_locks = any(it.tree.locks for it in worlds)
    return lines([*rows, f"refines,{'-' if has_locks else 'yes' if refines else 'no'}"])


def waits_text(plan: Plan, by_names: bool) -> str:
    """Who waits for whom: the lines by ticks, and then by the first message that waits so."""
    world = plan.world

    def words(m: int | None) -> tuple[str, ...]:
        if m is None:
            return ("-", "-") if by_names else ("-",)
        return (world.messages[m].name, world.name(m)) if by_names else (world.name(m),)

    def by(m: int, other: int | None) -> tuple[str, ...]:
        """Under a hierarchy with locks the space of the lock that a message waits for."""
        cell = None if other is None else world.waits_by(m, other)
        return () if not world.tree.locks else ("-",) if cell is None else (cell[0],)

    # For each pair the first message that waits so, whether it is for a worker, and the ticks of each.
    found: dict[tuple[tuple[str, ...], tuple[str, ...], bool], tuple[int, list[int]]] = {}
    for m in world.all:
        issue, ready, start = plan.issued(m), plan.ready(m), plan.starts[m] or 0
        for other, ticks in ((plan.last_waited_for(m), ready - issue), (None, start - ready)):
            if ticks:
                found.setdefault((words(m), words(other) + by(m, other), other is None), (m, []))[1].append(ticks)
    kinds = ["name,affinity,forname,foraffinity" if by_names else "affinity,for", *(["by"] if world.tree.locks else [])]
    rows = [",".join([*kinds, "messages,ticks,longest"])]
    for (waiting, waited, _), (_, waits) in sorted(found.items(), key=lambda it: (-sum(it[1][1]), it[1][0], it[0][2])):
        rows.append(",".join([*waiting, *waited, str(len(waits)), str(sum(waits)), str(max(waits))]))
    return lines(rows)


def worst_text(plan: Plan, most: int) -> str:
    """So many messages of the greatest latency, and for whom each waits till it is ready."""
    world = plan.world

    def words(m: int) -> list[object]:
        return [m + 1, world.messages[m].name, world.name(m)]

    rows = ["message,name,affinity,client,issue,ready,start,finish,latency,for,forname,foraffinity" + (",by" if world.tree.locks else "")]
    for m in sorted(world.all, key=lambda it: (-plan.latency(it), it))[:most]:
        issue, ready, last = plan.issued(m), plan.ready(m), plan.last_waited_for(m)
        found = [*words(m), world.messages[m].client or "-", issue, ready, plan.starts[m], plan.finish(m), plan.latency(m)]
        waited = None if last is None or ready == issue else last
        found += ["-", "-", "-"] if waited is None else words(waited)
        if world.tree.locks:
            cell = None if waited is None else world.waits_by(m, waited)
            found.append("-" if cell is None else "{}:{}".format(*cell))
        rows.append(",".join(map(str, found)))
    return lines(rows)


def where_text(plan: Plan, by: str | None, with_figures: bool) -> str:
    world, chain = plan.world, plan.chain()
    tree, of = world.tree, world.affinities
    more = ["running", *FIGURES[5:]] if with_figures else []

    def row(words: list[object], found: list[int]) -> str:
        """The words of a line, with the chain and the figures of its messages."""
        words.append(world.cost(m for m in chain if m in found))
        figures: dict[str, object] = {"running": ratio(world.cost(found), plan.length())} | waiting_of(plan, found)
        return ",".join(map(str, [*words, *(figures[it] for it in more)]))

    if by is not None:
        keys = [(world.messages[m].client or "-") if by == "clients" else world.messages[m].name for m in world.all]
        rows = [",".join([by.removesuffix("s"), "messages,cost,chain", *more])]
        for key in dict.fromkeys(keys):
            found = [m for m in world.all if keys[m] == key]
            rows.append(row([key, len(found), world.cost(found)], found))
        return lines(rows)
    rows = [",".join(["affinity,parent,messages,cost,below,chain", *more])]
    for a, name in enumerate(tree.names):
        parent = tree.parents[a]
        found = [m for m in world.all if of[m] == a]
        below = world.cost(m for m in world.all if a in world.way(m))
        rows.append(row([name, "-" if parent is None else tree.names[parent], len(found), world.cost(found), below], found))
    if tree.locks:
        found = [m for m in world.all if of[m] is None]
        rows.append(row(["-", "-", len(found), world.cost(found), world.cost(found)], found))
    return lines(rows)


def why_text(world: World, by_names: bool) -> str:
    """Why messages run in affinities below which others lie: for each kind the first of its messages, with the two cells that lift it so
    high, or the first alone where its owner is the affinity."""
    tree = world.tree
    kinds: dict[tuple[str, ...], list[int]] = {}
    cells: dict[int, list[Cell]] = {}
    for m in world.all:
        affinity, footprint = world.affinities[m], [it for it in world.footprint(m) if it[0] not in tree.locks]
        if affinity is None:
            continue
        first = footprint[0]
        other = next(it for it in footprint if tree.lowest({tree.owner(*first), tree.owner(*it)}) == affinity)
        if affinity in tree.parents:
            alone = affinity == tree.owner(*first)
            cells[m] = [first] if alone else [first, other]
            name = [world.messages[m].name] if by_names else []
            kind = tree.names[affinity], *name, tree.names[tree.owner(*first)], "-" if alone else tree.names[tree.owner(*other)]
            kinds.setdefault(kind, []).append(m)
    rows = [f"affinity,{'name,' if by_names else ''}first,second,messages,cost,message,cell,other"]
    for kind, found in sorted(kinds.items(), key=lambda it: (-world.cost(it[1]), it[1][0])):
        told = [*("{}:{}".format(*cell) for cell in cells[found[0]]), "-"][:2]
        rows.append(",".join([*kind, str(len(found)), str(world.cost(found)), str(found[0] + 1), *told]))
    return lines(rows)


def replay_text(world: World) -> str:
    values: Counter[Cell] = Counter()
    for message in world.messages:
        for verb, cell, other in message.ops:
            if verb == "set" and isinstance(other, int):
                values[cell] = other
            elif verb == "add" and isinstance(other, int):
                values[cell] = (values[cell] + other) % 2**64
            elif verb == "copy" and isinstance(other, tuple):
                values[cell] = values[other]
            elif verb == "swap" and isinstance(other, tuple):
                values[cell], values[other] = values[other], values[cell]
    spaces = list(world.tree.sizes)
    order = sorted(values, key=lambda cell: (spaces.index(cell[0]), cell[1]))
    return lines(["cell,value", *(f"{space}:{index},{values[space, index]}" for space, index in order if values[space, index])])


# Plans that are handed in


@dataclass(slots=True)
class Given:
    """A plan text: the plan, the rows (affinity, finish and worker of each message), and its summary."""

    plan: Plan
    rows: list[tuple[str, int, str]]
    summary: dict[str, tuple[int, ...]]


def read_plan(name: str, world: World) -> Given:
    records = records_of(read_text(name))
    if not records or records[0] != ["message", "affinity", "start", "finish", "worker"]:
        raise Fault("PlanText.Header 1")
    end = next((at for at, it in enumerate(records) if at and it[0] == "workers"), len(records))
    count = len(world.messages)
    rows: dict[int, list[str]] = {}
    for at, record in enumerate(records[1:end], 2):
        is_row = len(record) == 5 and is_number(record[0], count, 1) and NAME.fullmatch(record[1])
        if not is_row or not (is_number(record[2]) and is_number(record[3]) and (record[4] == "-" or is_number(record[4]))):
            raise Fault(f"PlanText.Row {at}")
        if int(record[0]) in rows:
            raise Fault(f"PlanText.Twice {at}")
        if any(int(it) > MOST_IN_PLAN for it in record[2:] if it != "-"):
            raise Fault(f"PlanText.TooLarge {at}")
        rows[int(record[0])] = record
    missing = next((m for m in range(1, count + 1) if m not in rows), None)
    if missing is not None:
        raise Fault(f"PlanText.Missing {missing}")
    summary, workers = read_summary(records[end:], end + 1, world)
    given = [rows[m] for m in range(1, count + 1)]
    plan = Plan(world, workers, [int(it[2]) for it in given], [None for _ in given])
    return Given(plan, [(it[1], int(it[3]), it[4]) for it in given], summary)


def read_summary(records: list[list[str]], first: int, world: World) -> tuple[dict[str, tuple[int, ...]], int | None]:
    wanted = ["workers", "total", "length", "chain", "release", "cost", "bound"]
    if world.version == 1:
        wanted.remove("release")
    summary: dict[str, tuple[int, ...]] = {}
    workers: int | None = None
    for at, name in enumerate(wanted):
        record = records[at] if at < len(records) else []
        words = record[1:]
        if name == "chain" and len(words) == 1:
            words = words[0].split(" ") if words[0] else []
        elif len(words) != (2 if name == "bound" else 1):
            raise Fault(f"PlanText.Summary {first + at}")
        if name == "workers" and words == ["-"]:
            words = []
        most = {"workers": 64, "chain": len(world.messages)}.get(name)
        is_right = all(is_number(it, most, 0 if most is None else 1) for it in words)
        if not record or record[0] != name or not is_right or name == "chain" and len(words) > len(world.messages):
            raise Fault(f"PlanText.Summary {first + at}")
        if any(int(it) > MOST_IN_PLAN for it in words):
            raise Fault(f"PlanText.TooLarge {first + at}")
        if name == "workers":
            workers = int(words[0]) if words else None
        else:
            summary[name] = tuple(map(int, words))
    if len(records) > len(wanted):
        raise Fault(f"PlanText.Summary {first + len(wanted)}")
    return summary, workers


def is_common(plan: Plan, one: int, other: int) -> bool:
    """Whether two messages run at a common tick."""
    first, second = plan.starts[one] or 0, plan.starts[other] or 0
    return first < plan.finish(other) and second < plan.finish(one)


def faults(given: Given) -> Iterator[str]:
    """What is wrong with a plan, in the order of the verdicts."""
    plan, world = given.plan, given.plan.world
    for one in world.all:
        for other in range(one + 1, len(world.messages)):
            in_turn = world.version < 3 and (plan.starts[other] or 0) < plan.finish(one)
            if world.excludes(one, other) and (in_turn or world.version >= 3 and is_common(plan, one, other)):
                yield f"overlap,{one + 1},{other + 1}"
    k = plan.count
    for tick in sorted(it for it in plan.starts if it is not None):
        if k is not None and sum(plan.runs(m, tick) for m in world.all) > k:
            yield f"toomany,{tick}"
    for m, (_, _, worker) in enumerate(given.rows):
        shared = any(given.rows[it][2] == worker and is_common(plan, it, m) for it in range(m))
        if worker != "-" if k is None else worker == "-" or not 1 <= int(worker) <= k or shared:
            yield f"worker,{m + 1}"
    yield from (f"affinity,{m + 1}" for m in world.all if given.rows[m][0] != world.name(m))
    yield from (f"finish,{m + 1}" for m in world.all if given.rows[m][1] != plan.finish(m))
    chain = [it - 1 for it in given.summary["chain"]]
    if plan.summary(chain) != given.summary:
        yield "totals"
    yield from (f"notachain,{place}" for place, pair in enumerate(pairwise(chain), 2) if not plan.is_link(*pair))
    yield from (f"early,{m + 1}" for m in world.all if (plan.starts[m] or 0) < world.floor(m))
    for m in world.all:
        before = world.before(m)
        if before is not None and (plan.starts[m] or 0) < plan.finish(before) + world.messages[m].think:
            yield f"client,{m + 1}"
    for m in world.all:
        for it, gap in world.messages[m].after.items():
            if (plan.starts[m] or 0) < plan.finish(it) + gap:
                yield f"after,{m + 1},{it + 1}"


def verdict(given: Given) -> tuple[str, int]:
    """The verdict, and the status."""
    wrong = next(faults(given), None)
    if wrong:
        return wrong, 1
    plan, world = given.plan, given.plan.world
    chain = [it - 1 for it in given.summary["chain"]]
    k, length = plan.count, plan.length()
    release, cost = plan.chain_release(chain), sum(world.messages[m].cost for m in chain)
    is_tight = release + cost == length
    if length == world.least(k) if world.version >= 3 else is_tight:
        return "shortest", 0
    if world.version >= 3 and is_tight:
        return "tight", 0
    if k is not None and k * length <= world.total + k * release + (k - 1) * cost:
        return "withinbound", 0
    return "obeys", 0


def rate_text(given: Given) -> tuple[str, int]:
    told, status = verdict(given)
    found = figures_of(given.plan)
    rows = [f"verdict,{told}", f"workers,{given.plan.count or '-'}", f"total,{given.plan.world.total}"]
    return lines([*rows, *(f"{it},{found[it]}" for it in FIGURES)]), status


# Pictures


def events_text(given: Given, first: int, end: int | None) -> str:
    """The part of a plan from a tick up to another, to its end where that is None, as events of threads."""
    plan, world = given.plan, given.plan.world
    names, workers = world.tree.names, plan.count or 0
    last = max(plan.length(), first + 1) if end is None else end
    lanes = [it for it in world.tree.preorder() if it in world.affinities]
    loose = loose_lanes(plan)
    above = len(lanes) + len(set(loose.values()))

    def thread_of(process: int, m: int) -> int | None:
        """The thread of a message, if it has one in a process."""
        affinity = world.affinities[m]
        if process == 1:
            return len(lanes) + loose[m] + 1 if affinity is None else lanes.index(affinity) + 1
        worker = given.rows[m][2]
        return above + int(worker) if worker != "-" and 1 <= int(worker) <= workers else None

    found: list[dict[str, object]] = list(named_threads("affinities", 1, 1, [names[it] for it in lanes] + ["-"] * (above - len(lanes))))
    if workers:
        found += named_threads("workers", 2, above + 1, [f"worker {it + 1}" for it in range(workers)])
    for process, m in product((1, 2), world.all):
        thread = thread_of(process, m)
        start = max(plan.starts[m] or 0, first)
        ticks = min(plan.finish(m), last) - start
        if thread is not None and ticks > 0:
            kind = "chain" if m + 1 in given.summary["chain"] else "message"
            found.append({"name": world.messages[m].name, "cat": kind, "ph": "X", "ts": start, "dur": ticks})
            found[-1] |= {"pid": process, "tid": thread, "args": told_of(world, m)}
    return lines(['{"traceEvents":[', ",\n".join(json.dumps(it, separators=(",", ":")) for it in found), "]}"])


def loose_lanes(plan: Plan) -> dict[int, int]:
    """The lane of each message without an affinity: the first that is free, of at most 64 the last where none is."""
    free, found = [0] * 64, dict[int, int]()
    for m in sorted((it for it in plan.world.all if plan.world.affinities[it] is None), key=lambda it: (plan.starts[it] or 0, it)):
        lane = next((at for at, tick in enumerate(free) if tick <= (plan.starts[m] or 0)), 63)
        free[lane] = max(free[lane], plan.finish(m))
        found[m] = lane
    return found


def named_threads(process: str, number: int, first: int, threads: list[str]) -> Iterator[dict[str, object]]:
    """The names and places of a process and of its threads, which are numbered from `first` on."""
    for kind, name, place in [("process", process, {"pid": number})] + [
        ("thread", name, {"pid": number, "tid": thread}) for thread, name in enumerate(threads, first)
    ]:
        yield {"name": f"{kind}_name", "ph": "M", **place, "args": {"name": name}}
        yield {"name": f"{kind}_sort_index", "ph": "M", **place, "args": {"sort_index": place.get("tid", number)}}


def told_of(world: World, m: int) -> dict[str, object]:
    """The arguments of the event of a message."""
    message = world.messages[m]
    found: dict[str, object] = {"number": m + 1, "name": message.name, "affinity": world.name(m)}
    found["release"] = message.release
    found |= {"client": message.client or "-"} if world.version >= 3 else {}
    return found | ({"after": [it + 1 for it in message.after]} if message.after else {})


# Words


def words() -> ArgumentParser:
    top = ArgumentParser(prog="clients.py", description="Plans traces of all versions plainly, for tests.")
    parts = top.add_subparsers(dest="command", required=True)
    files = {"rank": ["trace"], "compare": ["hier", "other", "trace"]}
    for name in ("assign", "needs", "plan", "check", "replay", "compare", "sweep", "limits", "locks", "rate", "rank", "waits", "where", "why", "draw"):
        part = parts.add_parser(name)
        for it in files.get(name, ["hier", "trace"]):
            part.add_argument(it)
        if name == "rank":
            part.add_argument("hier", nargs="+")
        if name in ("check", "rate", "draw"):
            part.add_argument("plan")
        if name == "draw":
            part.add_argument("--as", dest="form", choices=["events"], required=True)
            part.add_argument("--from", dest="first", type=int, default=0)
            part.add_argument("--to", dest="end", type=int)
        if name in ("plan", "locks", "waits", "where", "rank", "compare", "replay"):
            part.add_argument("--workers", "-k", type=int, required=name in ("rank", "compare"))
        if name in ("sweep", "limits"):
            part.add_argument("--workers", "-k", default=SWEPT if name == "sweep" else "")
        if name in ("plan", "sweep", "limits", "locks", "waits", "where", "rank"):
            part.add_argument("--rule", choices=["arrival", "longest"], default="arrival")
        if name == "locks":
            part.add_argument("--shared", dest="kind", action="store_const", const="shared", default="exclusive")
            part.add_argument("--steps", type=int, default=8)
        if name in ("waits", "where", "why"):
            either = part.add_mutually_exclusive_group()
            either.add_argument("--names", dest="by", action="store_const", const="names")
        if name == "where":
            either.add_argument("--clients", dest="by", action="store_const", const="clients")
            part.add_argument("--figures", action="store_true")
        if name == "waits":
            either.add_argument("--worst", type=int)
    return top


def worlds_of(asked: Namespace) -> list[World]:
    """The trace under each hierarchy; hierarchies of a space that differ are no part of this."""
    names = asked.hier if asked.command == "rank" else [asked.hier, *([asked.other] if asked.command == "compare" else [])]
    text = read_text(asked.trace)
    trees = [read_tree(name, number) for number, name in enumerate(names, 1)]
    if asked.command == "replay" and sum(trees[0].sizes.values()) > MOST_CELLS:
        raise Fault("TooManyCells")
    return [World(tree, trace_of(text, tree)) for tree in trees]


def answer(asked: Namespace) -> tuple[str, int]:
    """The text and the status."""
    worlds = worlds_of(asked)
    world, command = worlds[0], asked.command
    if command in ("check", "rate", "draw"):
        given = read_plan(asked.plan, world)
        if command == "draw":
            return events_text(given, asked.first, asked.end), 0
        told, status = verdict(given)
        return (told + "\n", status) if command == "check" else rate_text(given)
    counts = [int(it) for it in asked.workers.split(",") if it] if command in ("sweep", "limits") else []
    texts: dict[str, Callable[[], str]] = {
        "assign": lambda: assign_text(world),
        "needs": lambda: needs_text(world),
        "plan": lambda: plan_text(plan_of(world, asked.workers, asked.rule)),
        "compare": lambda: compare_text(worlds, asked.workers),
        "sweep": lambda: sweep_text(world, counts, asked.rule),
        "limits": lambda: limits_text(world, counts, asked.rule),
        "locks": lambda: locks_text(world, asked.workers, asked.rule, asked.kind, asked.steps),
        "rank": lambda: rank_text(worlds, asked.workers, asked.rule),
        "waits": lambda: told_waits(plan_of(world, asked.workers, asked.rule), asked),
        "where": lambda: where_text(plan_of(world, asked.workers, asked.rule), asked.by, asked.figures),
        "why": lambda: why_text(world, asked.by is not None),
        "replay": lambda: replay_text(world),
    }
    return texts[command](), 0


def told_waits(plan: Plan, asked: Namespace) -> str:
    return worst_text(plan, asked.worst) if asked.worst else waits_text(plan, asked.by is not None)


def main(given: list[str]) -> int:
    try:
        if given:
            text, status = answer(words().parse_args(given))
        else:
            before, _, after = read_text("-").partition("\n---\n")
            tree = tree_of(before)
            text, status = plan_text(plan_of(World(tree, trace_of(after, tree)), None)), 0
    except Fault as fault:
        print(f"waff: {fault}", file=sys.stderr)
        return 3
    sys.stdout.write(text)
    return status


if __name__ == "__main__":
    sys.exit(main(sys.argv[1:]))
