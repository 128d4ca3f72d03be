"""What `waff sweep`, `limits`, `where`, `waits --worst`, `why` or `rank` tells of each window of a trace, gathered in one table."""

import csv
import os
import re
import shlex
from argparse import Namespace
from collections.abc import Iterator
from dataclasses import dataclass
from itertools import pairwise

from .calls import Job, answers
from .logs import Refusal, is_number, read_text, shown


@dataclass(frozen=True, slots=True)
class Kind:
    """An answer of a command: the columns that name a line, which are its first ones, one more that it has to have, and whether lines
    may be missing in a window, as those of names are."""

    command: str
    names: tuple[str, ...]
    needed: str
    varies: bool = False


KINDS = (
    Kind("sweep", ("workers",), "length"),
    Kind("limits", ("limit", "workers"), "length"),
    Kind("where", ("affinity", "parent"), "chain"),
    Kind("where", ("name",), "chain", varies=True),
    Kind("where", ("client",), "chain", varies=True),
    Kind("waits", ("message", "name", "affinity", "client"), "latency", varies=True),
    Kind("why", ("affinity", "first", "second"), "cost", varies=True),
    Kind("why", ("affinity", "name", "first", "second"), "cost", varies=True),
    Kind("rank", ("hierarchy", "model", "affinities"), "list"),
)
COMMANDS = tuple(dict.fromkeys(it.command for it in KINDS))

# The columns that add up, those that are means, and what these are weighted by; of all others the median and the worst window count.
SUMS = ("length", "list", "least", "waits", "messages", "cost", "below", "chain")
MEANS = {"mean": "messages", "speedup": "lengths", "busy": "lengths"}
# Of a line that tells where, those of the window in which it is the greatest; and of a line of why, those of the first window.
PLACES = ("at",)
FIRSTS = ("message", "cell", "other")

WINDOWS = "file,messages,from"

# An option of these commands, whose value is the next word.
OPTION = re.compile(r"-[a-z]|--(?!names|clients|figures)[a-z]+")

Row = dict[str, str]


@dataclass(slots=True)
class Window:
    """A window: its file, how many messages it has, and its answer."""

    file: str
    messages: int
    header: list[str]
    rows: list[Row]


def stem(path: str) -> str:
    """What the names of a window and of its answer share."""
    return os.path.splitext(os.path.basename(path))[0]


def table_of_windows(name: str) -> list[Row]:
    """The rows of a file that `waff-trace window` printed."""
    header, rows = table(read_text(name), name)
    if header != WINDOWS.split(","):
        raise Refusal(3, f"{shown(name)}: its first line is not {WINDOWS}")
    return rows


def kind_of(header: list[str]) -> Kind | None:
    """Of which command an answer with this first line is."""
    return next((it for it in KINDS if tuple(header[: len(it.names)]) == it.names), None)


def answer(text: str, name: str) -> tuple[list[str], list[Row]]:
    """The first line and the rows of an answer, whose columns are known by their names."""
    header, rows = table(text, name)
    kind = kind_of(header)
    if kind is None:
        firsts = " or ".join(f"{','.join(it.names)}.. ({it.command})" for it in KINDS)
        raise Refusal(3, f"{shown(name)}: its first line is none of {firsts}")
    if kind.needed not in header:
        raise Refusal(3, f"{shown(name)}: it has no column {kind.needed}")
    if len({*header}) < len(header):
        raise Refusal(3, f"{shown(name)}: two columns of one name")
    return header, rows


def table(text: str, name: str) -> tuple[list[str], list[Row]]:
    """The first line and the rows of a table."""
    try:
        lines = [it for it in csv.reader(text.splitlines(), strict=True) if it]
    except csv.Error as fault:
        raise Refusal(3, f"{shown(name)}: no CSV: {fault}") from None
    for number, line in enumerate(lines, 1):
        if len(line) != len(lines[0]):
            raise Refusal(3, f"{shown(name)}: line {number} has {len(line)} fields in place of {len(lines[0])}")
    return lines[0] if lines else [], [dict(zip(lines[0], line, strict=True)) for line in lines[1:]]


def files_of(names: list[str]) -> list[str]:
    """The files that are named, and those in the folders that are named."""
    found: list[str] = []
    for name in names:
        try:
            inside = [os.path.join(name, it) for it in sorted(os.listdir(name))] if os.path.isdir(name) else [name]
        except OSError as fault:
            raise Refusal(4, f"{shown(name)}: {fault.strerror}") from None
        found += [it for it in inside if it == name or os.path.isfile(it)]
    return found


# The name of an answer, and its text.
Answer = tuple[str, str]


def read_answers(windows: list[Row], names: list[str]) -> Iterator[Answer]:
    """The answer of each window: the file that is named as the window, but for what stands behind the last point."""
    found: dict[str, str] = {}
    for name in files_of(names):
        if stem(name) in found:
            raise Refusal(3, f"two answers of {shown(stem(name))}")
        found[stem(name)] = name
    for row in windows:
        name = found.pop(stem(row["file"]), "")
        if not name:
            raise Refusal(3, f"no answer of {shown(row['file'])}: wanted is a file {shown(stem(row['file']))}, with any ending")
        yield name, read_text(name)
    if found:
        raise Refusal(3, f"{shown(next(iter(found.values())))}: an answer of no window of the table")


def asked_for(asked: Namespace, windows: list[Row]) -> Iterator[Answer]:
    """The answer of each window where the program is called."""
    try:
        words = shlex.split(asked.call)
    except ValueError as fault:
        raise Refusal(2, f"--call {shown(asked.call)}: {fault}") from None
    if words[:1] not in [[it] for it in COMMANDS] or "{}" not in words:
        raise Refusal(2, f"--call {shown(asked.call)}: wanted are the words of {', '.join(COMMANDS)}, and {{}} where the window stands")
    names = [row["file"] for row in windows]
    return zip(names, answers(asked, [job(words, name) for name in names]), strict=True)


def job(words: list[str], window: str) -> Job:
    """A call for a window. Whoever runs it may stand in another folder, so files have their whole names. The command is no file, nor is
    what stands behind an option."""
    filled = [window if it == "{}" else it for it in words]
    others = ((it, os.path.isfile(it) and not OPTION.fullmatch(before)) for before, it in pairwise(filled))
    return [filled[0], *(os.path.abspath(it) if is_file else it for it, is_file in others)]


def gathered(asked: Namespace) -> list[Window]:
    """The windows of a table, each with its answer."""
    rows = table_of_windows(asked.windows)
    found: list[Window] = []
    for row, (name, text) in zip(rows, asked_for(asked, rows) if asked.call else read_answers(rows, asked.answers), strict=True):
        if not is_number(row["messages"]):
            raise Refusal(3, f"{shown(asked.windows)}: no number of messages: {shown(row['messages'])}")
        found.append(Window(row["file"], int(row["messages"]), *answer(text, name)))
        kind = kind_of(found[0].header)
        is_alike = found[-1].header == found[0].header
        if kind is None or not is_alike or not kind.varies and keys(found[-1], kind) != keys(found[0], kind):
            raise Refusal(3, f"{shown(name)}: its lines are not those of the first answer")
    return found


def keys(window: Window, kind: Kind) -> list[tuple[str, ...]]:
    """What names each line of an answer."""
    return [tuple(row[it] for it in kind.names) for row in window.rows]


def whole(rows: list[Row], name: str) -> list[int]:
    found = [row[name] for row in rows]
    for word in found:
        if not is_number(word):
            raise Refusal(3, f"an answer has {shown(word)} in the column {name}, where a number is wanted")
    return [int(it) for it in found]


def hundredths(word: str, name: str) -> int:
    if re.fullmatch(r"[0-9]{1,15}\.[0-9]{2}", word) is None:
        raise Refusal(3, f"an answer has {shown(word)} in the column {name}, where a number with two digits is wanted")
    return int(word.replace(".", ""))


def mean(rows: list[Row], name: str, weights: list[int], total: int) -> str:
    """The weighted mean of a column with two digits, rounded down, where all weights come to the total; `-` where the answers have none.
    What weighs nothing may have none."""
    told = [(row[name], weight) for row, weight in zip(rows, weights, strict=True) if weight]
    if total == 0 or all(word == "-" for word, _ in told):
        return "-"
    found = sum(hundredths(word, name) * weight for word, weight in told) // total
    return f"{found // 100}.{found % 100:02}"


# A row, and the number of its window.
Place = tuple[int, Row]


def line_of(kind: Kind, windows: list[Window], places: list[Place]) -> dict[str, object]:
    """What the windows come to, of the rows that are of one line."""
    rows = [row for _, row in places]
    header = windows[0].header
    found: dict[str, object] = {it: rows[0][it] for it in kind.names}
    found["windows"] = len(rows)
    of_windows = [windows[it].messages for it, _ in places]
    messages = of_windows
    if "messages" in header:
        messages = whole(rows, "messages")
    else:
        found["messages"] = sum(of_windows)
    of_workers = "list" if "list" in header else "length"
    for name in header[len(kind.names) :]:
        if name in SUMS:
            found[name] = sum(whole(rows, name))
        elif name == "over" and "least" in header:
            length, least = sum(whole(rows, of_workers)), sum(whole(rows, "least"))
            ratio = -(-100 * length // least) if least else 100
            found[name] = f"{ratio // 100}.{ratio % 100:02}"
        elif name in PLACES and "length" in header:
            number, row = max(zip(whole(rows, "length"), places, strict=True), key=lambda it: it[0])[1]
            # A message is one of its window.
            is_message = row.get("limit") == "after" and row[name] != "-"
            found[name] = f"{windows[number].file}:{row[name]}" if is_message else row[name]
        elif kind.command == "why" and name in FIRSTS:
            found |= {"file": windows[places[0][0]].file, name: rows[0][name]}
        elif name == "running":
            found[name] = mean(rows, name, of_windows, sum(it.messages for it in windows))
        elif name in MEANS or not all(is_number(row[name]) for row in rows):
            weights = whole(rows, of_workers) if MEANS.get(name) == "lengths" else messages
            found[name] = mean(rows, name, weights, sum(weights))
        else:
            # A line without messages has no latency.
            ordered = sorted(whole([row for row in rows if row.get("messages") != "0"] or rows, name))
            found |= {name: ordered[(len(ordered) - 1) // 2], f"{name}-worst": ordered[-1]}
    return found


def lines_of(kind: Kind, windows: list[Window]) -> list[dict[str, object]]:
    """A line for each line of the answers, in the order in which they come."""
    places: dict[tuple[str, ...], list[Place]] = {}
    for number, window in enumerate(windows):
        for names, row in zip(keys(window, kind), window.rows, strict=True):
            places.setdefault(names, []).append((number, row))
    found = [(it[0], line_of(kind, windows, it)) for it in places.values()]
    if kind.command == "why":
        # As the program has them: the greatest cost first, of equal ones the one whose first message comes earlier.
        found.sort(key=lambda it: (-int(str(it[1]["cost"])), it[0][0], *whole([it[0][1]], "message")))
    return [line for _, line in found]


def worst_of(windows: list[Window]) -> list[dict[str, object]]:
    """The messages of the greatest latency of all windows, as many as an answer has."""
    found = [(number, row) for number, window in enumerate(windows) for row in window.rows]
    numbers = {name: whole([row for _, row in found], name) for name in ("latency", "message")}
    order = sorted(range(len(found)), key=lambda it: (-numbers["latency"][it], found[it][0], numbers["message"][it]))
    most = max(len(it.rows) for it in windows)
    return [{"file": windows[found[it][0]].file, **found[it][1]} for it in order[:most]]


def gather(asked: Namespace) -> str:
    """A line for each line of the answers: what the windows come to together."""
    if bool(asked.call) == bool(asked.answers):
        raise Refusal(2, "gather: wanted is either an ANSWER for each window, or --call")
    windows = gathered(asked)
    kind = kind_of(windows[0].header) if windows else None
    if kind is None or not any(it.rows for it in windows):
        raise Refusal(3, f"{shown(asked.windows)}: no window with an answer of a line or more")
    lines = worst_of(windows) if kind.command == "waits" else lines_of(kind, windows)
    return "".join(",".join(map(str, it)) + "\n" for it in (lines[0], *(it.values() for it in lines)))
