"""The words of the command line, and what is done for them."""

import argparse
import collections
import errno
import gc
import importlib
import io
import os
import re
import sys
from argparse import ArgumentParser, Namespace
from collections.abc import Callable
from fractions import Fraction
from typing import NoReturn

from . import VERSION, importing, limits, model, prices, traces
from .calls import words_of_calls
from .logs import Data, Refusal, Request, is_number, tell
from .order import USUAL
from .order_walk import KINDS

# What is done for the words of a command: the text that it prints.
Run = Callable[[Namespace], str]


def later(module: str, name: str) -> Run:
    """A function of a module that is read when it is called: a command needs few of them, and reading all takes longer than most calls."""

    def run(asked: Namespace) -> str:
        found: Run = getattr(importlib.import_module(f"wafftrace.{module}"), name)
        return found(asked)

    return run


COST_HELP = """\
What a cost is: the time for which a message holds its affinity and a worker. `--cost table` takes prices by kind and size from a
file: without `--prices` the installed one, which was measured on one machine (workloads/README.md shows how to measure yours).
`--cost latency` takes the latency of the log, which is a cost only where the request did not wait: in a queue, for a lock, for the
disk. A plan adds the waits of its own tree and workers, and then they count twice. `--cost size` takes `--base` microseconds and
`--per-kib` for each KiB begun, whatever the kind. Standard error says which kinds cost most by prices and by latencies; where these
differ, plan both (`--also latency=FILE`).

What is left out: in a trace without clients there is no order but that of what excludes each other. Two messages of one client run side
by side in a plan where they did not in the log, unless their releases keep them apart."""

NFS_HELP = """\
The text has names, and no data. Make it with the command that `waff-trace nfs --how CAPTURE` prints, and hand it over:
`waff-trace nfs --how CAPTURE | sh | waff-trace nfs -`. A latency is the time from a call's last byte to its reply's, at the place of the
capture. Those of calls that were in flight together overlap, and as costs they count a queue twice: take `--cost table` or `size` for plans."""

PRICE_HELP = """\
A message has no length, so `--prices` takes all bytes of its cells of data: up to two cells more than the request had. What takes or gives
back blocks for a request gets a quarter of its cost, as an import gives it. Import with `--prices` where you have the log."""

WINDOW_HELP = """\
What a window does not show: the messages that were under way before it. Each window begins with no message that runs or waits, so
that its first ones start sooner than in the whole trace, and mostly its waits and latencies are less. The wider the windows are beside the
latencies, the less that is: take two widths, and compare. Windows that overlap (`--every`) count messages more than once. The messages
of a trace with clients are taken in the order in which they were issued in the log, which may be another one than that of the trace."""

GATHER_HELP = """\
A line for each line of the answers: how many windows, their messages, and the sums of length, list, least, waits and costs. The mean is
weighted by messages, speedup and busy by lengths, running by the messages of windows. p50, p99, latency and any column of whole numbers
that is not known by its name are those of the median window (of an even number, the lower one of the two in the middle), and with
`-worst` those of the worst one; they are no percentiles of all messages. Others that are not known are means weighted by messages. The
place of a limit (at) is that of the window in which it is the greatest; the message of `after` stands behind the file of its window. The
cells of why are those of the first window, which is named. Of waits --worst the messages of the greatest latency of all windows are
printed, as many as an answer has.

Each window begins with no message under way, so waits and latencies are less than those of the whole trace
(`waff-trace window --help`)."""


class Paragraphs(argparse.HelpFormatter):
    """A help whose paragraphs stay apart, each in lines as wide as the terminal."""

    def _fill_text(self, text: str, width: int, indent: str) -> str:
        fill = super()._fill_text
        return "\n\n".join(fill(it, width, indent) for it in text.split("\n\n"))


class Words(ArgumentParser):
    def version(self) -> "Words":
        """With the option that prints the version."""
        version = f"{self.prog} {VERSION}"
        self.add_argument("-V", "--version", action="version", version=version, help="show the version, that of the program, and exit")
        return self

    def _print_message(self, message: str, file: object = None) -> None:
        """The help and the version. What cannot be written is a fault, which the method of the class is silent of."""
        write_out(message)

    def error(self, message: str) -> NoReturn:
        raise Refusal(2, f"{message} (`{self.prog} --help` shows the options)")


def number(least: int, most: int, what: str) -> Callable[[str], int]:
    def read(word: str) -> int:
        if not is_number(word) or not least <= int(word) <= most:
            raise argparse.ArgumentTypeError(f"{word!r} is no {what} from {least} to {most}")
        return int(word)

    return read


def nanoseconds(word: str) -> int:
    """Microseconds, with a point where they are no whole number, in nanoseconds."""
    if re.fullmatch(r"[0-9]{1,9}(\.[0-9]{1,3})?", word) is None:
        raise argparse.ArgumentTypeError(f"{word!r} is no number of microseconds with at most three digits after the point")
    return int(Fraction(word) * 1000)


def tick(word: str) -> int:
    found = nanoseconds(word)
    if found == 0:
        raise argparse.ArgumentTypeError("a tick is longer than 0")
    return found


def speed(word: str) -> Fraction:
    if re.fullmatch(r"[0-9]{1,9}(\.[0-9]{1,9})?", word) is None or Fraction(word) == 0:
        raise argparse.ArgumentTypeError(f"{word!r} is no speed above 0")
    return Fraction(word)


def imported(part: ArgumentParser, order: str | None = "none") -> None:
    """The words that all kinds of logs take. `order` is what a trace keeps of the order between clients, where nothing is said."""
    part.set_defaults(order=order)
    part.add_argument("--tree", metavar="FILE", help="write a hierarchy that accepts the trace to this file")
    part.add_argument(
        "--map", metavar="FILE", help="write which cells belong to which file to this file (space, first and last cell, path or device)"
    )
    part.add_argument(
        "--partial", action="store_true", help="make a trace also where more than one line in ten of a log is not understood"
    )
    of_cells(part)
    part.add_argument("--tick", type=tick, metavar="MICROSECONDS", default=1000, help="microseconds in a tick (1)")
    part.add_argument(
        "--cost", choices=prices.KINDS,
        help="cost by a table of prices (table, the default), by the latency in the log, or by the size alone",
    )
    part.add_argument(
        "--base", type=nanoseconds, metavar="MICROSECONDS",
        help="cost by size: of each request (0.6, which was measured on one machine); asks for --cost size",
    )
    part.add_argument(
        "--per-kib", type=nanoseconds, metavar="MICROSECONDS",
        help="cost by size: of each KiB begun (0.2, which was measured on one machine); asks for --cost size",
    )
    part.add_argument(
        "--prices", metavar="FILE",
        help="the table: a CSV file of name,base,per_kib in microseconds, with a row `*` for all other names; by default the"
        " installed one, which was measured on one machine",
    )
    part.add_argument(
        "--also", action="append", metavar="COST=FILE", default=[],
        help="write the same messages with costs by latency, size or table to this file too (several times)",
    )


def kind_of(kinds: tuple[str, ...]) -> Callable[[str], str]:
    def read(word: str) -> str:
        if word in kinds or "family" in kinds and re.fullmatch(r"family:[1-9][0-9]{0,2}", word):
            return word
        raise argparse.ArgumentTypeError(f"{word!r} is none of {', '.join(kinds)}{' (family:DEPTH, from 1 on)' if 'family' in kinds else ''}")

    return read


def of_clients(part: ArgumentParser, kinds: tuple[str, ...], usual: str, has_lanes: bool = False, has_depth: bool = False) -> None:
    """The words about the clients of a trace. A client that has several requests in flight has lanes (`has_lanes`)."""
    part.set_defaults(usual=usual, has_lanes=has_lanes, depth=None, slack=1000, overlaps=overlap_of_clients if has_lanes else never)
    shown_kinds = ",".join("family[:DEPTH]" if it == "family" else it for it in kinds)
    part.add_argument(
        "--clients", type=kind_of(kinds), metavar=f"{{{shown_kinds}}}", help=f"what a client is: it asks one thing after another ({usual})"
    )
    part.add_argument(
        "--trace-version", choices=["2", "3"],
        help="the version of the trace: 3, which has no lists of what messages await, or 2, which has no clients and no ranges (--clients none);"
        " by default 4 where there is an order between clients, else 3",
    )
    part.add_argument(
        "--loop", choices=["closed", "open"],
        help="a closed loop, the default: a request comes a think time after the answer to the client's request before; or an open one:"
        " it comes when it did in the log",
    )
    if has_depth:
        part.add_argument(
            "--depth", type=number(1, limits.OPS, "number"), metavar="N",
            help="how many requests of a job were in flight, where its log has no latencies (1)",
        )


def never(requests: list[Request]) -> bool:
    """A thread waits for each of its answers."""
    return False


def overlap_of_clients(requests: list[Request]) -> bool:
    """Whether requests of a job, a process or a host were in flight together."""
    by_client: dict[str, list[Request]] = collections.defaultdict(list)
    for it in requests:
        by_client[it.client].append(it)
    return any(map(prices.do_overlap, by_client.values()))


def overlap_of_devices(requests: list[Request]) -> bool:
    """Whether requests of a device were in flight together."""
    by_device: dict[str, list[Request]] = collections.defaultdict(list)
    for it in requests:
        by_device[it.place.name if isinstance(it, Data) else ""].append(it)
    return any(map(prices.do_overlap, by_device.values()))


def of_cells(part: ArgumentParser) -> None:
    """The words about the cells and the stripes of the tree."""
    part.add_argument(
        "--cell",
        type=number(1, 1 << 50, "number of bytes"),
        metavar="BYTES",
        help="bytes of a cell; by default 4096, or where that makes more than 262144 cells as --large does",
    )
    part.add_argument(
        "--stripes", type=number(1, limits.OWNERS, "number"), metavar="N", default=4, help="stripes of the volume or of each device (4)"
    )
    part.add_argument(
        "--unit",
        type=number(1, limits.LARGE_UNIT, "number"),
        metavar="N",
        help="cells in a row in one stripe; by default the least power of two from 8 to 32 that holds the largest request",
    )
    part.add_argument(
        "--large",
        action="store_true",
        help="write a hierarchy of format 2, as is done for more than 262144 cells; without --cell a cell is the least power of two, from"
        " the blocks of the log on (512 or 4096), with which each read and write is one message",
    )


def of_volume(part: ArgumentParser) -> None:
    part.add_argument(
        "--blocks",
        choices=["new", "all", "none"],
        default="new",
        help="which writes take blocks, as messages `alloc` over the map of free blocks: those that make a file longer (new),"
        " all, or none; with none nothing gives back blocks either",
    )


def words() -> ArgumentParser:
    top = Words(prog="waff-trace", description="Makes traces of waff out of logs of real systems. Tested, not proved.").version()
    parts = top.add_subparsers(dest="command", metavar="COMMAND", required=True, parser_class=Words)

    def part(name: str, what: str, run: Run, epilog: str | None = None, aliases: tuple[str, ...] = ()) -> ArgumentParser:
        found = parts.add_parser(
            name, aliases=aliases, help=what, description=what[0].upper() + what[1:] + ".", epilog=epilog,
            formatter_class=Paragraphs,
        )
        found.set_defaults(run=run)
        return found

    words_of_logs(part)
    words_of_traces(part)
    return top


def words_of_logs(part: Callable[..., ArgumentParser]) -> None:
    found = part("fio", "the trace of iologs of fio (version 2 or 3), one for each job", of_log("fio", "read"), COST_HELP)
    found.add_argument("logs", nargs="*", metavar="LOG", help="an iolog (write_iolog) of one job; `-` is standard input")
    found.add_argument(
        "--latencies", nargs="+", metavar="FILE",
        help="the logs of completion latencies of these jobs (write_lat_log: NAME_clat.N.log of job N, with log_offset=1), in the order of LOG",
    )
    found.add_argument(
        "--starts", nargs="+", metavar="LOG=SECONDS",
        help="when the job of a log started, after the first one (startdelay, stonewall); by default all start together",
    )
    imported(found)
    of_volume(found)
    of_clients(found, ("job", "none"), "job", has_lanes=True, has_depth=True)

    found = part("strace", "the trace of a log of `strace -f -ttt -T -o LOG`", of_log("strace", "read"), COST_HELP)
    found.add_argument(
        "logs", nargs="*", metavar="LOG", help="the log, or several that are one in the order of time, as of `strace -ff`; `-` is standard input"
    )
    found.add_argument(
        "--box", nargs="+", metavar="LOG=NAME",
        help="the box that a log is of, where the logs are of several: its processes are clients of their own; LOG may have a `*`",
    )
    found.add_argument("--under", metavar="FOLDER", help="take only files in this folder or below it")
    found.add_argument("--cwd", metavar="FOLDER", help="where the first process was started, for names that begin there; the current folder")
    found.add_argument(
        "--order", metavar="{all,none,KIND,..}",
        help=f"what of the waits of clients for each other the trace keeps, as version 4: some of {', '.join(KINDS)} ({USUAL}, where there"
        " are clients in a closed loop)",
    )
    for word, to, which in (("--from", "begin", "from then on"), ("--to", "end", "before then")):
        found.add_argument(
            word, metavar="SECONDS|TEXT", dest=to,
            help=f"take only requests {which}: a number of seconds after the first line, or the first line that has this text",
        )
    imported(found, None)
    of_volume(found)
    of_clients(found, ("thread", "process", "family", "none"), "thread")

    found = part("blkparse", "the trace of the default text of blkparse", of_log("blocks", "read_blkparse"), COST_HELP)
    found.add_argument("log", metavar="LOG", help="the text; `-` is standard input")
    imported(found)
    of_clients(found, ("process", "none"), "none", has_lanes=True)
    found.set_defaults(overlaps=overlap_of_devices)

    found = part("msr", "the trace of a log in the form of SNIA's MSR Cambridge set", of_log("blocks", "read_msr"), COST_HELP)
    found.add_argument("log", metavar="CSV", help="the log; `-` is standard input")
    imported(found)
    of_clients(found, ("none",), "none")
    found.set_defaults(overlaps=overlap_of_devices)


    found = part("nfs", "the trace of a capture of NFS, by the text that tshark makes of it", of_nfs, NFS_HELP)
    found.add_argument("text", metavar="TEXT", nargs="?", help="the text that the command of --how prints; `-` is standard input")
    found.add_argument("--how", metavar="CAPTURE", help="print the line of shell that makes the text of a capture")
    found.add_argument("--port", type=number(1, 65535, "port"), metavar="N", default=2049, help="with --how: the server's port (2049)")
    found.add_argument(
        "--alloc", choices=["write", "commit"], default="write",
        help="when what is written without being stable takes blocks: at once (write, the default), or at its COMMIT",
    )
    found.add_argument("--entries", action="store_true", help="a READDIRPLUS reads the inodes of its entries too")
    imported(found)
    of_volume(found)
    of_clients(found, ("host", "mount", "uid", "none"), "host", has_lanes=True)
    found.set_defaults(slack=1)


def of_nfs(asked: Namespace) -> str:
    """The line of shell, or the trace of a text."""
    if (asked.how is None) == (asked.text is None):
        raise Refusal(2, "nfs: wanted is either TEXT or --how CAPTURE")
    return later("nfs", "how")(asked) if asked.how is not None else of_log("nfs", "read")(asked)


def words_of_traces(part: Callable[..., ArgumentParser]) -> None:
    found = part("pace", "the trace with its releases and think times divided, or without them", traces.pace)
    found.add_argument("trace", metavar="TRACE", help="the trace, a CSV file")
    either = found.add_mutually_exclusive_group(required=True)
    either.add_argument("--speed", type=speed, metavar="N", help="divide each release and think time by N (2, 0.5), rounded down")
    either.add_argument(
        "--at-once", action="store_true", help="leave the releases out; of a trace with clients all releases and think times, and keep those"
    )

    found.add_argument(
        "--most", type=number(1, 1 << 20, "number"), metavar="N",
        help="with --at-once: at most N clients at once; a client that began after others had ended comes behind one of them",
    )

    what = "a file for each window of a trace, with its releases from 0; prints their names (`windows` is the same)"
    found = part("window", what, traces.window, WINDOW_HELP, aliases=("windows",))
    found.add_argument("trace", metavar="TRACE", help="the trace, a CSV file")
    either = found.add_mutually_exclusive_group(required=True)
    either.add_argument("--messages", type=number(1, 1 << 50, "number"), metavar="N", help="windows of N messages")
    either.add_argument("--ticks", type=number(1, 1 << 50, "number"), metavar="T", help="windows of T ticks, by releases")
    found.add_argument(
        "--every", type=number(1, 1 << 50, "number"), metavar="N", help="a window begins at each N messages or ticks (its width)"
    )
    found.add_argument(
        "--out", metavar="PREFIX", default="window-",
        help="how the files' names begin (window-); a folder, or what ends with `/`, holds the files, and is made if it is not there",
    )

    what = "what `waff sweep`, `limits`, `where`, `waits --worst`, `why` or `rank` print for each window, in one table"
    found = part("gather", what, later("gathering", "gather"), GATHER_HELP)
    found.add_argument("windows", metavar="WINDOWS", help="what `waff-trace window` printed")
    found.add_argument(
        "answers", metavar="ANSWER", nargs="*",
        help="the answers, or folders of them: that of a window is named like it, but for what stands behind the last point",
    )
    found.add_argument(
        "--call", metavar="WORDS",
        help="call the program for each window in place of reading answers, with the words of sweep, limits, where, waits --worst, why or"
        " rank; {} is the window (`sweep tree.toml {} --workers 8`)",
    )
    words_of_calls(found)

    found = part("sort", "the trace in the order of its releases", traces.sort)
    found.add_argument("trace", metavar="TRACE", help="the trace, a CSV file")

    what = "the trace with other costs: by a table of prices, or with those of some names made greater or less"
    found = part("price", what, later("pricing", "price"), PRICE_HELP)
    found.add_argument("trace", metavar="TRACE", help="the trace, a CSV file")
    found.add_argument("--prices", metavar="FILE", help="the table: a CSV file of name,base,per_kib in microseconds, with a row `*` for all other names")
    found.add_argument(
        "--scale", action="append", metavar="NAME=F", default=[], help="make the costs of messages of this name F times as great (several times)"
    )
    found.add_argument("--tree", metavar="FILE", help="the hierarchy that the import wrote, whose remarks have the bytes of a cell and the tick")
    found.add_argument("--cell", type=number(1, 1 << 50, "number of bytes"), metavar="BYTES", help="bytes of a cell (that of the tree, or 4096)")
    found.add_argument("--tick", type=tick, metavar="MICROSECONDS", help="microseconds in a tick (that of the tree, or 1)")

    found = part("stats", "what a trace has, and how much of it is over the limits of waff", later("counting", "stats"))
    found.add_argument("trace", metavar="TRACE", help="the trace, a CSV file")

    found = part("hot", "on which files and names affinities spend their time", later("hot", "hot"))
    found.add_argument("hier", metavar="HIER", help="the hierarchy, a TOML file")
    found.add_argument("trace", metavar="TRACE", help="the trace, a CSV file")
    found.add_argument("--map", metavar="FILE", required=True, help="which cells belong to which file, as an import of the log wrote it")
    found.add_argument("--affinity", metavar="A", nargs="+", help="of these affinities alone")

    found = part("plan", "the text of a plan that another scheduler made, for `waff check` and `waff draw`", later("plans", "plan"))
    found.add_argument("hier", metavar="HIER", help="the hierarchy, a TOML file")
    found.add_argument("trace", metavar="TRACE", help="the trace, a CSV file")
    found.add_argument("starts", metavar="STARTS", help="lines of a message's number, its start, and its worker if it has one")
    found.add_argument(
        "--workers", type=number(1, limits.WORKERS, "number"), metavar="K", help="how many workers it is for; by default the greatest worker"
    )


def of_log(module: str, name: str) -> Run:
    """What is done for a log that a function of a module reads: the tree is written where one is wanted, and the answer is the trace."""

    def run(asked: Namespace) -> str:
        read: model.Log = getattr(importlib.import_module(f"wafftrace.{module}"), name)
        return importing.trace_of(asked, read)

    return run


def write_out(text: str) -> None:
    """Writes a text to standard output, which may take it in parts."""
    left = memoryview(text.encode("utf-8", "surrogateescape"))
    while left:
        left = left[os.write(sys.stdout.fileno(), left) :]


def run_words(given: list[str], parser: Callable[[], ArgumentParser], run: Run) -> int:
    """Runs what words ask for, and answers the exit status: 0, or 2 for words, 3 for a bad file, 4 for one that cannot be read
    or written. What is refused is told in one line."""
    # A standard stream that was closed before the program began is none in Python.
    if sys.stderr is None:
        sys.stderr = open(os.devnull, "w")
    if isinstance(sys.stderr, io.TextIOWrapper):
        sys.stderr.reconfigure(errors="backslashreplace")
    # What is read is kept to the end, and nothing of it is a circle.
    gc.disable()
    try:
        if sys.stdout is None:
            raise Refusal(4, "standard output: it is closed")
        try:
            asked = parser().parse_args(given)
        except SystemExit:  # the help or the version was printed
            return 0
        if sum(it == "-" for it in given) > 1:
            raise Refusal(2, "two files from standard input")
        write_out(run(asked))
    except Refusal as refusal:
        tell(str(refusal))
        return refusal.status
    except OSError as fault:
        tell(f"standard output: {os.strerror(fault.errno or errno.EIO)}")
        # What was not written is not tried again.
        os.dup2(os.open(os.devnull, os.O_WRONLY), 1)
        return 4
    return 0


def run_asked(asked: Namespace) -> str:
    run: Run = asked.run
    return run(asked)


def main(given: list[str]) -> int:
    return run_words(given, words, run_asked)
