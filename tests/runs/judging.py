"""Judges what a run on files tells, by its rows alone."""

import csv
import io
import re
from dataclasses import dataclass
from itertools import combinations

from worlds import Plan, World


@dataclass(slots=True)
class Row:
    start: int
    finish: int
    affinity: str
    worker: int


def rows_of(text: str) -> list[Row]:
    """The rows of a plan text for K workers, by message."""
    lines = list(csv.reader(io.StringIO(text)))
    head = lines[0]
    places = {name: head.index(name) for name in ("message", "affinity", "start", "finish", "worker")}
    found = []
    for line in lines[1:]:
        if len(line) != len(head) or not line[places["message"]].isdigit():
            break
        found.append(Row(int(line[places["start"]]), int(line[places["finish"]]), line[places["affinity"]], int(line[places["worker"]])))
    return found


def drift_in(told: str) -> int:
    """The per cent of a drift that is told, 0 where none is."""
    found = re.fullmatch(r"waff: Drift ([1-9][0-9]*)\n", told)
    return int(found[1]) if found else 0


def most_told(took: float, drift: int) -> float:
    """How many seconds may be told of a run that took so many, with this drift: a hundredth more without one."""
    return (1 + max(1, drift + 1) / 100) * took


def is_timed(rows: list[Row]) -> bool:
    """Whether no message was shorter than a tick: of one that is told to take two it is sure."""
    return all(row.finish - row.start > 1 for row in rows)


def is_served_twice(rows: list[Row], world: World) -> bool:
    """Whether two messages that exclude each other start at one tick: then the starts do not tell their order."""
    return any(rows[one].start == rows[other].start for one, other in combinations(world.all, 2) if world.excludes(one, other))


def faults_of_order(world: World, rows: list[Row], workers: int) -> list[str]:
    """What is wrong with the rows of a run, whose costs the world has."""
    if len(rows) != len(world.messages):
        return [f"{len(rows)} rows for {len(world.messages)} messages"]
    faults = []
    for m, (it, row) in enumerate(zip(world.messages, rows, strict=True)):
        if row.finish - row.start != it.cost:
            faults.append(f"message {m + 1} costs {it.cost}, and runs from {row.start} to {row.finish}")
        if row.affinity != world.name(m):
            faults.append(f"message {m + 1} runs in {row.affinity}")
        if not 1 <= row.worker <= workers:
            faults.append(f"message {m + 1} runs on worker {row.worker} of {workers}")
    plan = Plan(world, workers, [row.start for row in rows], [row.worker for row in rows])
    # Each message that is awaited has finished for as many ticks as it is awaited by.
    issues = [plan.issued(m) for m in world.all]
    for m, (row, issue) in enumerate(zip(rows, issues, strict=True)):
        if row.start < issue:
            faults.append(f"message {m + 1} starts at {row.start}, before its issue {issue}")
    return faults + faults_of_pairs(world, rows, issues)


def faults_of_pairs(world: World, rows: list[Row], issues: list[int]) -> list[str]:
    """Of two messages on one worker, or that exclude each other, one runs after the other; of the latter the one that is served first."""
    faults = []
    with_clients, is_in_order = world.version >= 3, world.version < 3 or is_timed(rows)
    for one, other in combinations(world.all, 2):
        together = rows[one].start < rows[other].finish and rows[other].start < rows[one].finish
        if together and rows[one].worker == rows[other].worker:
            faults.append(f"messages {one + 1} and {other + 1} run together on worker {rows[one].worker}")
        if world.excludes(one, other):
            keys = [(issues[m] if with_clients else 0, m) for m in (one, other)]
            first, second = (one, other) if keys[0] < keys[1] else (other, one)
            if together:
                faults.append(f"messages {one + 1} and {other + 1} run together, and exclude each other")
            # Of one tick the order is that of the clock.
            if is_in_order and (not with_clients or keys[0][0] != keys[1][0]) and rows[second].start < rows[first].finish:
                faults.append(f"message {second + 1} starts before message {first + 1}, which is served first, has finished")
    return faults
