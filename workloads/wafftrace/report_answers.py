"""What a report tells: the answers of the proved program, each with the line of shell that prints it."""

import csv
import os
import shlex
import subprocess
from array import array
from collections.abc import Sequence
from concurrent.futures import Future, ThreadPoolExecutor
from dataclasses import dataclass, field

from . import limits
from .logs import Refusal, shown

Row = dict[str, str]

RULES = ("arrival", "longest")


@dataclass(frozen=True, slots=True)
class Answer:
    """What a call printed, and the line of shell that prints it."""

    command: str
    text: str

    def rows(self) -> list[Row]:
        return list(csv.DictReader(self.text.splitlines()))

    def values(self) -> Row:
        """What lines of a name and a value have."""
        return dict(line.partition(",")[::2] for line in self.text.splitlines())


@dataclass(frozen=True, slots=True)
class Latencies:
    """Of a plan by one rule: the figures of `sweep`, and for each P from 1 to 100 the latency that P of 100 messages do not pass."""

    rule: str
    figures: Answer
    command: str
    percentiles: list[int]


class Program:
    """The proved program. A call that it refuses ends the report."""

    def __init__(self, path: str) -> None:
        self.path = path

    def ask(self, words: Sequence[str], statuses: tuple[int, ...] = (0,)) -> Answer:
        return Answer(shlex.join(["waff", *words]), self.printed(words, b"", statuses).decode("utf-8", "replace"))

    def ask_of(self, before: Answer, words: Sequence[str]) -> Answer:
        """A call that takes from standard input what an earlier one printed."""
        text = self.printed(words, before.text.encode(), (0,)).decode("utf-8", "replace")
        return Answer(f"{before.command} | {shlex.join(['waff', *words])}", text)

    def printed(self, words: Sequence[str], given: bytes, statuses: tuple[int, ...]) -> bytes:
        try:
            done = subprocess.run([self.path, *words], input=given, capture_output=True, check=False)
        except OSError as fault:
            raise Refusal(4, f"{shown(self.path)}: {fault.strerror}") from None
        if done.returncode not in statuses:
            said = done.stderr.decode(errors="replace").strip().partition("\n")[0]
            raise Refusal(4 if done.returncode == 4 else 3, f"the program refuses {shown(shlex.join(words))}: {shown(said)}")
        return done.stdout

    def latencies(self, files: list[str], workers: int, rule: str) -> Latencies:
        """The latencies of all messages are those that `waits` tells, the greatest first."""
        figures = self.ask(["sweep", *files, "--workers", str(workers), "--rule", rule])
        every = self.ask(["waits", *files, "--workers", str(workers), "--rule", rule, "--worst", str(limits.MESSAGES)])
        found = array("q", (int(line.split(",")[8]) for line in every.text.splitlines()[1:]))
        return Latencies(rule, figures, every.command, percentiles(found))


def percentiles(latencies: Sequence[int]) -> list[int]:
    """Of latencies, the greatest first: for each P from 1 to 100 the least that P of 100 do not pass; of none an empty list."""
    count = len(latencies)
    return [latencies[count - -(-count * part // 100)] for part in range(1, 101)] if count else []


@dataclass(frozen=True, slots=True)
class Under:
    """The answers for the trace under one tree; all but `limits` and `sweep` are of the greatest number of workers that was asked
    for."""

    name: str
    label: str
    workers: int
    limits: Answer
    sweep: Answer
    waits: Answer
    where: Answer
    names: Answer
    clients: Answer
    worst: Answer
    latencies: list[Latencies]
    plan: Answer
    picture: Answer | None = None

    def figures(self) -> Row:
        """Those of the plan for its number of workers."""
        return next(row for row in self.sweep.rows() if row["workers"] == str(self.workers))


@dataclass(frozen=True, slots=True)
class Ran:
    """What ran on a machine: the figures of its plan under the costs that were measured, those that were planned of the trace, and
    those of a plan for the measured costs."""

    workers: str
    ran: Answer
    planned: Answer
    again: Answer


@dataclass(slots=True)
class Report:
    """All that a page tells."""

    title: str
    trace: str
    workers: list[int]
    rule: str
    trees: list[Under]
    version: str
    runs: Ran | None = None
    log: str | None = None
    log_name: str = ""
    made: str = ""
    # The ticks that the pictures show.
    span: tuple[int, int] = (0, 0)
    # What each tree but the first gains over that one, and whether it holds at other prices.
    gains: list[str] = field(default_factory=list)


def file_word(name: str) -> str:
    """The name of a file as a word that is no option."""
    return os.path.join(".", name) if name.startswith("-") else name


def labels(names: list[str]) -> list[str]:
    """What the trees are called: their files without folder and ending, or the whole name where two are called the same."""
    short = [os.path.basename(it).removesuffix(".toml") or it for it in names]
    return [it if short.count(it) == 1 else name for it, name in zip(short, names, strict=True)]


def swept(workers: list[int]) -> list[int]:
    """The numbers of workers of the curves: those that were asked for, or of one number what doubles up to it."""
    most = max(workers)
    return workers if len(workers) > 1 else [1 << n for n in range(most.bit_length()) if 1 << n < most] + [most]


def ask_all(program: Program, names: list[str], trace: str, workers: list[int], rule: str, worst: int) -> list[Under]:
    """The answers for each tree, without pictures. As many calls run at once as there are processors."""
    most = max(workers)
    kept = ["--rule", rule] if rule != "arrival" else []
    plan_of = ["--workers", str(most), *kept]

    with ThreadPoolExecutor(os.cpu_count()) as pool:

        def later(command: str, *words: str) -> Future[Answer]:
            return pool.submit(program.ask, [command, *files, *words])

        asked: list[list[Future[Answer]]] = []
        curves: list[list[Future[Latencies]]] = []
        for name in names:
            files = [file_word(name), file_word(trace)]
            asked.append([
                later("limits", "--workers", ",".join(map(str, workers)), *kept),
                later("sweep", "--workers", ",".join(map(str, swept(workers))), *kept),
                later("waits", *plan_of),
                later("where", *plan_of, "--figures"),
                later("where", *plan_of, "--names", "--figures"),
                later("where", *plan_of, "--clients", "--figures"),
                later("waits", *plan_of, "--worst", str(worst)),
                later("plan", *plan_of),
            ])
            curves.append([pool.submit(program.latencies, files, most, it) for it in RULES])
        found = []
        for answers, rules, name, label in zip(asked, curves, names, labels(names), strict=True):
            limit, sweep, waits, where, by_name, by_client, slowest, plan = (it.result() for it in answers)
            latencies = [it.result() for it in rules]
            found.append(Under(name, label, most, limit, sweep, waits, where, by_name, by_client, slowest, latencies, plan))
    return found


def messages_of(plan: Answer) -> Answer:
    """The lines of a plan that are of its messages."""
    return Answer(plan.command, plan.text.partition("\nworkers,")[0])


def part_of(plan: Answer, messages: int) -> int:
    """The tick up to which a picture goes that shows about so many messages: the start of the one behind them."""
    starts = sorted(int(line.split(",")[2]) for line in messages_of(plan).text.splitlines()[1:])
    length = int(plan.values()["length"])
    return max(1, starts[messages] if messages < len(starts) else length)


def compare_run(program: Program, tree: str, trace: str, rule: str, plan: str, measured: str) -> Ran:
    """The run of this plan text, whose costs the second file has, beside what is planned."""
    files = [file_word(tree), file_word(measured)]
    ran = program.ask(["rate", *files, file_word(plan)], (0, 1))
    workers = ran.values()["workers"]
    words = ["--rule", rule] if rule != "arrival" else []
    words += ["--workers", workers] if workers != "-" else []
    planned = program.ask(["sweep", file_word(tree), file_word(trace), *words])
    return Ran(workers, ran, planned, program.ask(["sweep", *files, *words]))
