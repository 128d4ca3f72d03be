"""What requests cost: their latencies, or prices by their names and sizes; and which tick serves for these."""

import csv
import io
import os
import re
from argparse import Namespace
from collections.abc import Callable, Iterable
from fractions import Fraction

from . import limits
from .logs import Data, Refusal, Request, read_text, shown

# The prices of `--cost size` without other words, in nanoseconds: of each request, and of each KiB begun. Measured as workloads/README.md
# says for reads from memory, on a virtual machine with an Intel Xeon of 2.5 GHz.
BASE = 600
PER_KIB = 200
# The table of prices that lies beside the scripts: what costs are where nobody says.
INSTALLED = os.path.join(os.path.dirname(os.path.realpath(__file__)), "prices.csv")

# What costs may be by.
KINDS = ("latency", "size", "table")

HEADER = ["name", "base", "per_kib"]
# The row for all that have none.
OTHERS = "*"
NUMBER = re.compile(r"[0-9]{1,9}(\.[0-9]{1,3})?", re.ASCII)

# A price is to be so many ticks at least.
FEW_TICKS = 5
# Latencies overlap if their sum is so many times the time in which there are requests.
OVERLAP = Fraction(11, 10)


def upwards(number: int, step: int) -> int:
    return -(-number // step)


class Prices:
    """Prices in nanoseconds: by the name of a request what each takes, and what each KiB begun of it takes; and the file that they are of,
    none where they are by size alone."""

    def __init__(self, table: dict[str, tuple[int, int]], called: str) -> None:
        self.table = table
        self.others = table.get(OTHERS)
        self.called = called

    def of(self, name: str, length: int) -> int:
        found = self.table.get(name) or self.others
        if found is None:
            raise Refusal(3, f"{self.called}: no price of `{name}`, and no row `{OTHERS}` for all others")
        return found[0] + found[1] * upwards(length, 1024)

    @property
    def kind(self) -> str:
        """What they are by, in words."""
        return f"table {self.called}" if self.called else "size"

    def told(self, names: Iterable[str]) -> str:
        """The prices of these names, each once, and of all others."""
        rows = {name: self.table[name] for name in names if name in self.table and name != OTHERS}
        words = [f"{name} {price_told(*row)}" for name, row in rows.items()]
        words += [f"{'others' if words else 'each'} {price_told(*self.others)}"] if self.others else []
        return ", ".join(words)


def price_told(base: int, per_kib: int) -> str:
    """A price in microseconds."""
    return microseconds(base) + (f" + {microseconds(per_kib)}/KiB" if per_kib else "")


def by_size(base: int | None = None, per_kib: int | None = None) -> Prices:
    """Prices that are the same for all kinds of requests."""
    return Prices({OTHERS: (BASE if base is None else base, PER_KIB if per_kib is None else per_kib)}, "")


def installed() -> Prices:
    """The prices that lie beside the scripts."""
    return Prices(read_prices(INSTALLED).table, os.path.basename(INSTALLED))


def cost_of(asked: Namespace) -> str:
    """What costs are: the word of `--cost`, or what the other words about prices ask for, or by the table."""
    kind: str | None = asked.cost
    if kind == "size" and asked.prices is not None:
        raise Refusal(2, "--cost size: --prices FILE is for --cost table")
    if kind is None:
        has_size = asked.prices is None and (asked.base is not None or asked.per_kib is not None)
        kind = "size" if has_size else "table"
    return kind


def prices_of(asked: Namespace) -> Prices:
    """The prices that words tell: those of requests without a latency, where costs are latencies."""
    if asked.prices is not None:
        return read_prices(asked.prices)
    if asked.cost == "size" or asked.base is not None or asked.per_kib is not None:
        return by_size(asked.base, asked.per_kib)
    return installed()


def read_prices(name: str) -> Prices:
    """The table of a file: a line for each name with its prices in microseconds. Lines that begin with `#` are remarks."""
    called = "standard input" if name == "-" else shown(name)
    lines = [it for it in read_text(name).removeprefix("\ufeff").splitlines() if it.strip() and not it.startswith("#")]
    try:
        rows = list(csv.reader(io.StringIO("\n".join(lines)), strict=True))
    except csv.Error as fault:
        raise Refusal(3, f"{called}: no CSV: {fault}") from None
    if not rows or rows[0] != HEADER:
        raise Refusal(3, f"{called}: its first line is not {','.join(HEADER)}")
    found: dict[str, tuple[int, int]] = {}
    for row in rows[1:]:
        if len(row) != len(HEADER) or not all(NUMBER.fullmatch(it) for it in row[1:]) or row[0] in found:
            raise Refusal(3, f"{called}: {shown(','.join(row))}: wanted is a name, once, and two numbers of microseconds")
        found[row[0]] = int(Fraction(row[1]) * 1000), int(Fraction(row[2]) * 1000)
    return Prices(found, called)


class Costs:
    """The costs of requests in ticks: by latencies if these are `measured`, or by prices."""

    def __init__(self, prices: Prices, measured: bool, tick: int) -> None:
        self.prices = prices
        self.measured = measured
        self.tick = tick
        # Of the costs by price how many are less than a tick, and the least one.
        self.small = 0
        self.least = 0

    def of(self, name: str, length: int) -> int:
        """The cost by price."""
        price = self.prices.of(name, length)
        self.small += price < self.tick
        if price and (not self.least or price < self.least):
            self.least = price
        return max(1, upwards(price, self.tick))

    def advice(self, count: int) -> str | None:
        """Which tick serves, where of so many costs most are prices of less than one."""
        if 2 * self.small <= count or self.tick == 1:
            return None
        told = f"{self.small:,} of {count:,} requests take less than a tick, and each of them costs 1"
        return f"{told}: --tick {microseconds(rounded_down(self.least // FEW_TICKS))} tells them apart"


def price_of(prices: Prices) -> Callable[[Request], int]:
    """A function that tells the price of a request, in nanoseconds."""
    return lambda it: prices.of(it.name, it.length if isinstance(it, Data) else 0)


def took_of(prices: Prices) -> Callable[[Request], int]:
    """A function that tells how long a request took, in nanoseconds: its latency, or its price where the log has none."""
    price = price_of(prices)
    return lambda it: it.took if it.took is not None else price(it)


def rounded_down(number: int) -> int:
    """The greatest number of the form 1, 2 or 5 with zeros that is no more than this one, but at least 1."""
    found = 1
    for step in (step * 10**zeros for zeros in range(18) for step in (1, 2, 5)):
        found = step if step <= number else found
    return found


def rounded_up(number: int) -> int:
    """The least number of the form 1, 2 or 5 with zeros that is no less."""
    return next((step * 10**zeros for zeros in range(18) for step in (1, 2, 5) if step * 10**zeros >= number), number)


def microseconds(nanoseconds: int) -> str:
    """A number of microseconds as the words have it."""
    return f"{nanoseconds // 1000}.{nanoseconds % 1000:03}".rstrip("0").removesuffix(".")


def keeping_thinks(longest: int) -> str:
    """The tick with which a think time of so many nanoseconds is not cut."""
    return microseconds(rounded_up(upwards(longest, limits.THINK)))


def do_overlap(requests: Iterable[Request]) -> bool:
    """Whether requests were in flight together: their latencies add up to more than the time in which there were some."""
    total = busy = end = 0
    for it in requests:
        took, begun = it.took or 0, it.time
        if it.follows and end > begun:
            begun = end
        total += took
        last = begun + took
        if last > end:
            busy += last - (end if end > begun else begun)
            end = last
    return total > OVERLAP * busy
