"""What the tests of runs on files share: a folder with a hierarchy and a trace, and runs there."""

import contextlib
import resource
import signal
import subprocess
import tempfile
import time
from collections.abc import Callable, Iterator, Mapping
from pathlib import Path
from typing import IO

from common import Count
from hierarchies import hierarchy
from making import HEADERS

PLAIN = """model = "hierarchical"
affinity = [{ name = "root" }, { name = "a", parent = "root" }, { name = "b", parent = "root" }]
space = [{ name = "s", size = 64 }]
map = [{ space = "s", unit = 1, to = ["a", "b"] }]
"""
TWO = "message,cost,ops\nm,1,set s:0 5\nm,1,set s:1 6\n"
MARK = ".waff"
# What a run that is told may say beside it.
DRIFT = r"(waff: Drift [1-9][0-9]*\n)?"
# How often a run may be tried on a machine that has other work.
TRIES = 6


def leaves(count: int) -> str:
    """A hierarchy of so many leaves below one root, and a space of which each has every so many cells."""
    names = [f"a{leaf}" for leaf in range(count)]
    return hierarchy([("root", None), *((name, "root") for name in names)], [("s", 4096)], [("s", 1, names)])


def trace_text(version: int, rows: list[str]) -> str:
    return "\n".join([HEADERS[version], *rows]) + "\n"


class Room:
    """A folder with a hierarchy, a trace and a folder for cells, and what a run there gives."""

    def __init__(self, waff: str, folder: Path, trace: str = TWO, hierarchy: str = PLAIN) -> None:
        self.waff = waff
        self.folder = folder
        self.disk = folder / "disk"
        self.disk.mkdir()
        (folder / "hier.toml").write_text(hierarchy)
        (folder / "trace.csv").write_text(trace)

    def command(self, *words: str, hier: str = "hier.toml", trace: str = "trace.csv", disk: str = "disk") -> list[str]:
        return [self.waff, "run", hier, trace, disk, *words]

    def run(
        self, *words: str, hier: str = "hier.toml", trace: str = "trace.csv", disk: str = "disk", stdin: IO[str] | None = None,
        env: Mapping[str, str] | None = None, preexec_fn: Callable[[], None] | None = None,
    ) -> subprocess.CompletedProcess[str]:
        command = self.command(*words, hier=hier, trace=trace, disk=disk)
        return subprocess.run(command, cwd=self.folder, capture_output=True, text=True, timeout=60, stdin=stdin, env=env, preexec_fn=preexec_fn)

    def timed(self, *words: str) -> tuple[subprocess.CompletedProcess[str], float]:
        """A run and how many seconds it took; of another one where a message took too long on a machine that has other work."""
        for _ in range(TRIES):
            began = time.monotonic()
            run = self.run(*words)
            took = time.monotonic() - began
            if not run.stderr.startswith("waff: Tick"):
                break
        return run, took

    def marked(self) -> "Room":
        """The folder is one in which a run was."""
        (self.disk / MARK).touch()
        return self

    def numbers(self, name: str) -> bytes:
        """The first eight bytes of a file."""
        return (self.disk / name).read_bytes()[:8]


@contextlib.contextmanager
def room(waff: str, trace: str = TWO, hierarchy: str = PLAIN) -> Iterator[Room]:
    with tempfile.TemporaryDirectory() as folder:
        yield Room(waff, Path(folder), trace, hierarchy)


def limited(which: int, most: int) -> Callable[[], None]:
    def limit() -> None:
        signal.signal(signal.SIGXFSZ, signal.SIG_IGN)
        resource.setrlimit(which, (most, most))

    return limit


def is_refused(count: Count, name: str, run: subprocess.CompletedProcess[str], status: int, *lines: str) -> None:
    """The run has this status, and one of these lines alone; of bad arguments any."""
    said = status == 2 or run.stderr in [f"waff: {line}\n" for line in lines]
    count.check(name, run.returncode == status and run.stdout == "" and said, (run.returncode, run.stdout, run.stderr))
