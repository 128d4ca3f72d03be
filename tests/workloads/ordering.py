"""Tests of the order between clients: logs whose traces were worked out, logs of processes in virtual time, recorded ones."""

import csv
import pathlib
import random
import re
from collections.abc import Callable, Iterator, Sequence

import orders
from calling import GOOD, HERE, PLAIN, WITH_LISTS, called, check, run, same, text, waff
from wafftrace import limits, lists, strace_ahead
from wafftrace.order_frontier import NUMBER, Entry, Frontiers, Known

# The fields of messages; and whose each is, and when it is issued.
Rows = list[list[str]]
Issued = list[tuple[str, int]]

# How many logs of processes in virtual time are read.
WORLDS = 60


# Why messages of the small logs wait for others.
KINDS_OF = {
    "barrier": {"futex"}, "children": {"fork", "wait"}, "eventfd": {"pipe"}, "flock": {"lock"}, "futex-condition": {"futex"},
    "futex-mutex": {"futex"}, "join": {"futex"},
    "lock-asked": {"lock"}, "lock-far": {"lock"}, "lock-readers": {"lock"}, "lock-retry": {"lock"}, "lock-wait": {"lock"}, "names": {"name"}, "pipe": {"pipe"},
    "pipe-full": {"pipe"}, "reduced": {"pipe"}, "signal": {"signal"}, "socket": {"socket"}, "tcp": {"socket"}, "vfork": {"fork"},
}


def with_order(scratch: pathlib.Path) -> None:
    """A recorded log with the order between its clients: the program plans it, and limits it, as the plain planner of tests/random does."""
    words = (HERE / "box/words").read_text().splitlines()
    words[words.index("--tree") + 1] = str(scratch / "box.toml")
    words.remove("--order")
    words.remove("none")
    for kind in ("thread", "family"):
        status, found, told = run([*words, "--clients", kind], folder=HERE / "box")
        check(f"box: order by {kind}: status", status == 0 and found.startswith(WITH_LISTS), told)
        (scratch / "box.csv").write_text(found)
        for given in ("plan", "plan --workers 3 --rule longest", "limits --workers 1,8", "waits --workers 4 --worst 9"):
            command, *options = given.split()
            call = [command, "box.toml", "box.csv", *options]
            same(f"box: order by {kind}: {given}", waff(call, scratch), run(call, folder=scratch, program=PLAIN)[1])


def ordered(scratch: pathlib.Path) -> None:
    """Logs in which threads wait for each other: small ones whose traces were worked out by hand, and processes in virtual time, each of
    whose requests is issued at the very microsecond of the log. They have one thread each, so processes and families are the same clients. Paces,
    windows and another order keep the lists. The program tells when the last one has finished at the soonest, and checks its own plan."""
    given = "--cwd /v --under /v --blocks none --cost size --base 10 --per-kib 0".split()
    for log in sorted((HERE / "order").glob("*.strace")):
        found, told = called("strace", log, *given)
        kinds = re.search(r"order between clients: (\S+) edges? on .* messages(?: \((.*)\))?\n", told)
        counts = dict(it.split(" ") for it in (kinds[2] or "").split(", ") if it) if kinds else {}
        check(f"order {log.stem}: kinds", kinds and set(counts) == KINDS_OF.get(log.stem, set()), told)
        pieces = sum(len(lists.pieces_of(line.split(",", 6)[5])) for line in found.splitlines()[1:])
        check(f"order {log.stem}: edges", kinds and int(kinds[1]) == pieces == sum(map(int, counts.values())), told)
        same(f"order {log.stem}", found, text(log.with_suffix(".csv")))
    for number in range(WORLDS):
        world = orders.log(number)
        wanted = as_recorded(world)
        if not wanted:
            continue
        (scratch / "log").write_text(world)
        found, told = called("strace", scratch / "log", *"--cost latency --blocks none --cwd /v".split())
        rows = [line.split(",", 6) for line in found.splitlines()]
        check(f"order, log {number}: messages", len(rows) == len(wanted) + 1 and ",".join(rows[0]) + "\n" == WITH_LISTS, told)
        check(f"order, log {number}: as in the log", issued(rows[1:]) == wanted, found)
        before = all(piece < place for place, row in enumerate(rows[1:], 1) for piece, _ in lists.pieces_of(row[5]))
        check(f"order, log {number}: lists name earlier messages", before, found)
        (scratch / "trace.csv").write_text(found)
        if number % 10 == 1:
            for words in ("--order all", "--clients process", "--clients family"):
                again, _ = called("strace", scratch / "log", *f"{words} --cost latency --blocks none --cwd /v".split())
                same(f"order, log {number}: {words}", again, found)
            kept_by_words(scratch, number, rows[1:], wanted)
            planned(scratch, number, rows[1:], wanted)


def far(scratch: pathlib.Path) -> None:
    """A trace does not depend on how many lines stand between the beginning of a call and its return, where a call that lasts for long is walked before
    it has returned: with each call taken for such a one, logs have the traces that they have else."""
    cases = [(log, ["--cwd", "/v"]) for log in sorted((HERE / "order").glob("*.strace"))]
    for number in range(WORLDS):
        log = scratch / f"world-{number}"
        log.write_text(orders.log(number, has_threads=number % 3 == 0))
        cases.append((log, ["--cwd", "/v", "--clients", ("thread", "process")[number % 2]]))
    usual = strace_ahead.FAR
    for log, words in cases:
        wanted = called("strace", log, *words)
        for lines in (0, 5):
            strace_ahead.FAR = lines
            found = called("strace", log, *words)
            strace_ahead.FAR = usual
            check(f"order {log.stem}: calls of more than {lines} lines", found == wanted, found[0] + found[1])


def as_recorded(log: str) -> Issued:
    """Whose each request of such a log is, and when it comes after the first."""
    begun = [line.split(" ", 2) for line in log.splitlines() if " pwrite64(" in line]
    micros = [int(time.replace(".", "")) for _, time, _ in begun]
    return [(who, time - min(micros)) for (who, _, _), time in zip(begun, micros)]


def threaded(scratch: pathlib.Path) -> None:
    """Processes of several threads, whose requests are done in turn: none is issued before it was in the log, and no list names a message of its
    own client."""
    for number in range(1, WORLDS, 2):
        log = orders.log(number, has_threads=True)
        (scratch / "log").write_text(log)
        found, told = called("strace", scratch / "log", *"--clients process --cost latency --blocks none --cwd /v".split())
        rows, recorded = [line.split(",", 6) for line in found.splitlines()[1:]], as_recorded(log)
        soonest = all(time >= before for (_, time), (_, before) in zip(issued(rows), recorded))
        check(f"threads, log {number}: none is early", len(rows) == len(recorded) and soonest, found + told)
        own = [row for row in rows for piece, _ in lists.pieces_of(row[5]) if rows[piece - 1][3] == row[3]]
        check(f"threads, log {number}: lists name others", not own, own)


# With latencies as costs, and ticks in which the times of a log are whole numbers.
AS_RECORDED = "--cost latency --blocks none --tick 1".split()


def laws(scratch: pathlib.Path) -> None:
    """What holds for each log, random and recorded ones. Lists without what others make needless have the finishes of those with it, whatever
    messages cost. Where costs are the latencies, none is issued later than it was in the log. As many run at once by clients and order as
    between all behind what had finished before, and clients alone."""
    dice, recorded = random.Random(1), HERE / "order" / "recorded"
    cases = [(log, ["--cwd", "/srv/rec", "--under", f"/srv/rec/w_{log.name.split('.')[0]}"]) for log in sorted(recorded.glob("*.strace.gz"))]
    for number in range(WORLDS):
        log = scratch / f"world-{number}"
        log.write_text(orders.log(number))
        cases += [(log, ["--cwd", "/v"])] if as_recorded(log.read_text()) else []
    saved = 0
    for log, words in cases:
        name, given = f"law, {log.name}", ["strace", log, *words, *AS_RECORDED]
        found, told = called(*given)
        rows, raw = rows_of(found), rows_of(unreduced(given))
        saved += sum(len(it[5]) for it in raw) - sum(len(it[5]) for it in rows)
        for _ in range(3):
            costs = [dice.choice((1, dice.randrange(1, 50), dice.randrange(1, 100_000))) for _ in rows]
            check(f"{name}: reduced lists", finishes(rows, costs) == finishes(raw, costs), told)
        early = [row for row, late in lateness(given, rows) if late > 0]
        check(f"{name}: none is late", not early, early[:3])
        if len({row[3] for row in rows}) == 1:
            continue
        figures = re.search(r"at once (\S+) times in parallel by clients and order, (\S+) by clients alone, (\S+) if all comes behind", told)
        between = [float(it) for it in figures.groups()] if figures else [0.0, -1.0, 1.0]
        check(f"{name}: the bracket", between[2] <= between[0] <= between[1], told)
    check("law: some pieces are needless", saved > 0)


def unreduced(given: Sequence[object]) -> str:
    """The trace of an import whose lists keep what others make needless."""

    def all_of(_frontiers: Frontiers, _name: str, _own: Entry | None, others: list[tuple[str, int, int, Known]]) -> list[Entry]:
        return sorted(((number, gap, known) for _, number, gap, known in others), key=NUMBER)

    kept = Frontiers.reduced
    setattr(Frontiers, "reduced", all_of)
    try:
        return called(*given)[0]
    finally:
        setattr(Frontiers, "reduced", kept)


def rows_of(trace: str) -> Rows:
    return [line.split(",", 6) for line in trace.splitlines()[1:]]


def finishes(rows: Rows, costs: Sequence[int]) -> list[int]:
    """When each message finishes at these costs, if nothing excludes anything."""
    found = lists.Issues()
    return [found.next(cost, int(row[2]), row[3], int(row[4]), row[5]) + cost for row, cost in zip(rows, costs, strict=True)]


def lateness(given: Sequence[object], rows: Rows) -> Iterator[tuple[list[str], int]]:
    """Each message, and by how much it is issued later than in the log. There its client asks, whoever waits for whom, when an open loop has it; what
    takes or gives back blocks comes behind its request."""
    times: dict[str, list[int]] = {}
    for row in rows_of(called(*given, "--loop", "open")[0]):
        times.setdefault(row[3], []).append(int(row[2]))
    for row, (client, issue) in zip(rows, issued(rows), strict=True):
        time = times[client].pop(0)
        if row[0] not in ("alloc", "free"):
            yield row, issue - time


def too_many(_scratch: pathlib.Path) -> None:
    """More pieces of lists than the program takes are told, here of a program that takes one."""
    most, limits.AWAITED = limits.AWAITED, 1
    _, told = called("strace", HERE / "order" / "children.strace", "--cwd", "/v")
    limits.AWAITED = most
    check("too many pieces", "2 pieces of lists are more than the 1 that waff takes: `waff-trace window` parts the trace" in told, told)


def planned(scratch: pathlib.Path, number: int, rows: Rows, wanted: Issued) -> None:
    """What the program tells of a trace with lists under the tree of its import."""
    _, told = called("strace", scratch / "log", *"--cost latency --blocks none --cwd /v --tree".split(), scratch / "tree.toml")
    limits_of = {row["limit"]: int(row["length"]) for row in csv.DictReader(waff(["limits", "tree.toml", "trace.csv"], scratch).splitlines())}
    soonest = max(time + int(row[1]) for (_, time), row in zip(wanted, rows))
    check(f"order, log {number}: waff limits", limits_of["after"] == soonest >= limits_of["clients"], (limits_of, told))
    (scratch / "plan.csv").write_text(waff(["plan", "tree.toml", "trace.csv", "--workers", "3"], scratch))
    found = waff(["check", "tree.toml", "trace.csv", "plan.csv"], scratch).strip()
    check(f"order, log {number}: waff check", found in GOOD, found)


def measured_orders(_scratch: pathlib.Path) -> None:
    """Logs of programs whose parallelism was measured: recorded again, with each write and sync made slower by 20 milliseconds, in a pipe each read
    too, they had so many of these at once in the mean. Where nothing else costs, what is told is within a fifth of that by clients and order, and
    more by clients alone. Of locks that are free (mthink) the log shows too little, and a warning says so."""
    folder = HERE / "order" / "recorded"
    for row in csv.DictReader(text(folder / "measured.csv").splitlines()):
        name, real = row["name"], float(row["parallel"])
        words = f"--cwd /srv/rec --under /srv/rec/w_{name} --tick 0.1 --prices {folder}/{row['delayed']}.prices"
        _, told = called("strace", folder / f"{name}.strace.gz", *words.split())
        found = re.search(r"at once (\S+) times in parallel by clients and order, (\S+) by clients alone", told)
        ordered, alone = (float(it) for it in found.groups()) if found else (0, 0)
        check(f"{name}: at once by clients and order", (abs(ordered - real) <= real / 5) == (row["is_shown"] == "yes"), told)
        check(f"{name}: at once by clients alone", alone > 1.1 * real, told)
        check(f"{name}: what is not shown", row["is_shown"] == "yes" or "WARNING: threads share memory" in told, told)


def issued(rows: Rows) -> Issued:
    """Whose each message is, and when it is issued if nothing excludes anything."""
    issues = lists.Issues()
    return [(client, issues.next(int(cost), int(release), client, int(think), after)) for _, cost, release, client, think, after, _ in rows]


def kept_by_words(scratch: pathlib.Path, number: int, rows: Rows, wanted: Issued) -> None:
    """What the words that change a trace make of one with lists."""
    name = f"order, log {number}"
    pieces = [lists.pieces_of(row[5]) for row in rows]
    paces: dict[str, Callable[[int], int]] = {"--at-once": lambda it: 0, "--speed 2": lambda it: it // 2}
    for words, gap in paces.items():
        found, told = called("pace", scratch / "trace.csv", *words.split())
        paced = [lists.pieces_of(line.split(",", 6)[5]) for line in found.splitlines()[1:]]
        check(f"{name}: pace {words}", paced == [[(it, gap(behind)) for it, behind in every] for every in pieces], found + told)
    found, told = called("sort", scratch / "trace.csv")
    check(f"{name}: sort", issued([line.split(",", 6) for line in found.splitlines()[1:]]) == wanted, found + told)
    found, told = called("window", scratch / "trace.csv", "--messages", "7", "--out", scratch / "part-")
    for row in csv.DictReader(found.splitlines()):
        part = [line.split(",", 6) for line in text(pathlib.Path(row["file"])).splitlines()[1:]]
        moved = [(who, time + int(row["from"])) for who, time in issued(part)]
        first = wanted.index(moved[0]) if moved[:1] and moved[0] in wanted else 0
        check(f"{name}: {pathlib.Path(row['file']).name}", moved == wanted[first : first + 7], part)
    found, told = called("stats", scratch / "trace.csv")
    figures = dict(line.split(",", 1) for line in found.splitlines() if line.count(",") == 1)
    longest, count = max(map(len, pieces)), sum(map(len, pieces))
    check(f"{name}: stats", figures.get("pieces") == str(count) and figures.get("longest-list") == str(longest), found + told)
