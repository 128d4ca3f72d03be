"""What the benches share: on which machine and of which sources a table was made, what a call takes, files that are made apart, programs in
Rattle that are proved first, and sections of pages that tables are put into.

A call is timed here and not by hyperfine: calls that are compared take turns, so that what else the machine does meets all of them, and
tables have processor time and the peak of memory too."""

import os
import re
import shutil
import subprocess
import sys
import time
from collections.abc import Callable, Sequence
from dataclasses import dataclass
from pathlib import Path
from typing import IO

ROOT = Path(__file__).resolve().parent.parent
sys.path.insert(1, str(ROOT / "tests"))

from common import printed  # noqa: E402


def machine() -> str:
    """The processor, how many there are, the memory, and the commit."""
    model = re.search(r"model name\s*:\s*(.*)", Path("/proc/cpuinfo").read_text())
    memory = re.search(r"MemTotal:\s*(\d+)", Path("/proc/meminfo").read_text())
    commit = subprocess.run(["git", "-C", ROOT, "rev-parse", "--short", "HEAD"], capture_output=True, text=True).stdout.strip()
    gib = int(memory[1]) / 2**20 if memory else 0
    return f"{os.cpu_count()} processors ({model[1] if model else 'of unknown model'}), {gib:.0f} GiB, commit {commit or 'unknown'}"


@dataclass(slots=True)
class Took:
    """How a call ended; how long it took, by the clock, of processors in user mode and of processors in all, in seconds; and its peak of
    memory in MB."""

    status: int
    wall: float
    user: float
    busy: float
    peak: float


def timed(words: Sequence[str | Path], folder: Path | None = None, out: IO[bytes] | int = subprocess.DEVNULL, err: IO[bytes] | int | None = None) -> Took:
    """A call, in a folder."""
    start = time.perf_counter()
    process = subprocess.Popen(words, stdin=subprocess.DEVNULL, stdout=out, stderr=err, cwd=folder)
    _, status, used = os.wait4(process.pid, 0)
    wall = time.perf_counter() - start
    process.returncode = os.waitstatus_to_exitcode(status)
    return Took(process.returncode, wall, used.ru_utime, used.ru_utime + used.ru_stime, used.ru_maxrss / 1024)


def apart(make: Callable[[], None]) -> None:
    """Makes files in a process of its own: what this one holds counts to the peak of those that it starts."""
    maker = os.fork()
    if maker == 0:
        make()
        os._exit(0)
    if os.waitpid(maker, 0)[1]:
        sys.exit("the files were not made")


def proved(folder: Path, source: Path, needs: list[str], words: Sequence[str] = ()) -> Path:
    """The program of a main.rt, proved and built in this folder over the crates of this repository that it needs, with the proofs that their last
    checks left in out/, and run on these words."""
    name = source.name.partition(".")[0].replace("-", "_")
    lines = printed("dist/crates", *needs).splitlines()
    for below in (line.partition(":")[0].split()[0] for line in lines):
        shutil.copytree(ROOT / "crates" / below, folder / "crates" / below, symlinks=True)
    (folder / "crates.txt").write_text("\n".join([*lines, f"{name}: {' '.join(needs)} anyhow"]) + "\n")
    shutil.copy(ROOT / "HANDLES", folder)
    crate = folder / "crates" / name
    (crate / "src").mkdir(parents=True)
    shutil.copy(source, crate / "src/main.rt")
    subprocess.run(["rt", "run", *(["--", *words] if words else [])], cwd=crate, check=True, stdin=subprocess.DEVNULL, stdout=subprocess.DEVNULL)
    return crate / "out" / name


def put(page: Path, title: str, note: str, table: list[str]) -> None:
    """Puts a table, with a note before it, into the section of a page that has this title."""
    text = page.read_text()
    begin = text.index(f"## {title}\n")
    end = text.find("\n## ", begin) + 1 or len(text)
    page.write_text(text[:begin] + "\n".join([f"## {title}", "", note, "", *table, "", ""]) + text[end:])
