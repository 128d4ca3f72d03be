"""What is done for a log: its trace, its tree, and what is told of both."""

import collections
import operator
import os
from argparse import Namespace
from collections.abc import Callable, Iterable, Sequence

from . import clients, limits, model, order, prices, traces
from .logs import Data, Refusal, Request, shown, warn_of_lost

# So many kinds of requests are told of, and so many logs.
MOST_KINDS = 3
MOST_LOGS = 3
# So many requests tell something of their clients.
MANY = 50


def trace_of(asked: Namespace, read: model.Log) -> str:
    """The trace of a log. The tree, the map and the same messages with other costs are written where they are wanted."""
    kind = asked.clients = clients.kind_of(asked)
    asked.cost = prices.cost_of(asked)
    also = [also_of(word) for word in asked.also]
    found = read(asked)
    if not found.requests:
        found.report(0)
        raise Refusal(3, "the log has no request that is kept, so there is no trace")
    table = prices.prices_of(asked)
    measured = is_measured(asked, found, table)
    loop = clients.loop_of(asked, kind, found.requests, prices.took_of(table))
    shape = model.Shape(found.store, found.requests, asked, limits.OPS if loop else limits.EARLIER_OPS)
    messages = messages_of(asked, found, shape, prices.Costs(table, measured, asked.tick), loop)
    if not measured:
        found.said += told_of_costs(found.requests, table)
    tell_of_order(found, messages, prices.price_of(table), kind is not None)
    text = model.tree_text(found.store, shape, asked.stripes, provenance(asked, found, table, measured))
    found.report(len(messages.lines) - 1)
    model.warn(messages, shape, found.logs)
    warn_of_lost([*found.logs, *found.beside], asked.partial)
    if asked.tree:
        traces.write_file(asked.tree, text)
    if asked.map:
        traces.write_file(asked.map, model.map_text(found.store, shape))
    for cost, name in also:
        costs = costs_by(asked, cost, found.requests)
        traces.write_file(name, model.trace_text(messages_of(asked, found, shape, costs, loop)))
    return model.trace_text(messages)


def messages_of(
    asked: Namespace, found: model.Found, shape: model.Shape, costs: prices.Costs, loop: clients.Loop | None
) -> model.Messages:
    messages = model.Messages(found.store, shape, asked, costs, loop, found.order)
    messages.add(found.requests)
    return messages


def is_measured(asked: Namespace, found: model.Found, table: prices.Prices) -> bool:
    """Whether costs are latencies. Those of requests that were in flight together are told."""
    if asked.cost != "latency":
        return False
    if all(it.took is None for it in found.requests):
        found.said.append(f"the log has no latencies: costs are by {table.kind}")
        return False
    found.requests.sort(key=operator.attrgetter("time"))
    if asked.overlaps(found.requests):
        found.said.append("latencies are of requests that were in flight together, and a plan adds waits of its own: --cost table is better")
    return True


def also_of(word: str) -> tuple[str, str]:
    """What `--also` asks for: what costs are, and the file."""
    cost, equals, name = word.partition("=")
    if cost not in prices.KINDS or not equals or not name:
        raise Refusal(2, f"--also {shown(word)}: wanted is COST=FILE, of a COST that is {', '.join(prices.KINDS)}")
    return cost, name


def costs_by(asked: Namespace, cost: str, requests: Iterable[Request]) -> prices.Costs:
    """Costs of this kind: by the table of `--prices` or the installed one, or by the sizes of `--base` and `--per-kib`."""
    if cost == "latency" and all(it.took is None for it in requests):
        raise Refusal(3, "--also latency: the log has no latencies")
    table = prices.read_prices(asked.prices) if asked.prices is not None else prices.installed()
    return prices.Costs(prices.by_size(asked.base, asked.per_kib) if cost == "size" else table, cost == "latency", asked.tick)


def tell_of_order(found: model.Found, messages: model.Messages, price_of: Callable[[Request], int], has_clients: bool) -> None:
    """The order between clients, and how many requests run at once where nothing but that is known; or that there is one client alone, and what
    to record in its place. Of few requests without such an order nothing is told, nor of a log without latencies."""
    requests, are_many = found.requests, len(found.requests) >= MANY
    if has_clients and len({it.client for it in requests}) == 1:
        found.said += [clients.ONE_CLIENT] if are_many else []
    elif messages.order is not None:
        found.logs[0].said += order.told(messages.order, messages.lists)
        found.logs[0].said.append(order.bracket_of(messages.items, messages.item_costs).text())
    elif are_many and any(it.took is not None for it in requests):
        found.said.append(order.bracket(requests, price_of, messages.measured, has_clients).text())


# Of each kind of requests what it costs in all, in nanoseconds.
Totals = collections.Counter[str]


def totals(requests: Iterable[Request], table: prices.Prices) -> tuple[Totals, Totals]:
    """What the kinds of requests cost by prices, and what they took in the log."""
    price_of, known = prices.price_of(table), {}
    by_price: Totals = collections.Counter()
    by_latency: Totals = collections.Counter()
    for it in requests:
        if isinstance(it, Data) or it.ops:
            key = it.name, it.length if isinstance(it, Data) else 0
            if key not in known:
                known[key] = price_of(it)
            by_price[it.name] += known[key]
            by_latency[it.name] += it.took or 0
    return by_price, by_latency


def greatest(of: Totals) -> str:
    """The kinds that cost most, and their parts of all."""
    whole = max(1, of.total())
    return ", ".join(f"{name} {100 * total / whole:.0f} %" for name, total in of.most_common(MOST_KINDS))


def told_of_costs(requests: Sequence[Request], table: prices.Prices) -> list[str]:
    """Which kinds cost most by prices, and by latencies where the log has them; and that these disagree."""
    by_price, by_latency = totals(requests, table)
    told = f"cost by {table.kind}: {greatest(by_price)}"
    if not by_latency.total():
        return [told]
    lines = [f"{told}; by the latencies of the log: {greatest(by_latency)}"]
    first, second = (max(of, key=lambda name: of[name]) for of in (by_latency, by_price))
    if first != second:
        lines.append(f"these prices and the times of the log disagree on what costs most ({second}, {first}): look at both (--also latency=FILE)")
    return lines


def provenance(asked: Namespace, found: model.Found, table: prices.Prices, measured: bool) -> list[str]:
    """Remarks of a tree: what costs are, how long a tick is, which logs were read, and what requests took there in the mean."""
    shown_requests = [it for it in found.requests if isinstance(it, Data) or it.ops]
    names = sorted({it.name for it in shown_requests})
    by_prices = f"{table.kind} ({table.told(names)})"
    costs = f"latencies, without one {by_prices}" if measured else by_prices
    logs = [shown(os.path.basename(it.name)) for it in found.logs]
    told = ", ".join(logs[:MOST_LOGS]) + (f" and {len(logs) - MOST_LOGS} more" if len(logs) > MOST_LOGS else "")
    lines = [f"# Costs: {costs}, tick {prices.microseconds(asked.tick)} us; log {told}; order {asked.order}"]
    took: dict[str, list[int]] = {name: [] for name in names}
    for it in shown_requests:
        if it.took is not None:
            took[it.name].append(it.took)
    means = [f"{name} {prices.microseconds(sum(times) // len(times))}" for name, times in took.items() if times]
    return lines + ([f"# Latencies in the log, means in us: {', '.join(means)}"] if means else [])
