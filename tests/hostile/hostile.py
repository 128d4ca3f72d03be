"""What the scripts of this folder share: the samples, the commands that the built program knows, and runs of it."""
import argparse
import dataclasses
import fcntl
import os
import re
import resource
import subprocess
import sys
import tempfile
import time
from collections.abc import Callable, Iterable

sys.path.append(os.path.dirname(os.path.dirname(os.path.realpath(__file__))))

import common  # noqa: E402
from common import ROOT  # noqa: E402

Count = common.Count

# The program that is run. A script names it or has it found.
PROGRAM = ""

# The seconds of processor time that a run on small files may take, and the seconds after which a run counts as one that hangs.
SECONDS = 1.0
HANGS = 100

FAULT = re.compile(rb"waff: [A-Z][A-Za-z]*(\.[A-Z][A-Za-z]*)*( [0-9]+)?( [0-9A-Z][0-9A-Za-z]*)?\n")

# The words of each command. A letter in braces is a file: H a hierarchical tree, C a classical one, S the first one with locks, T a trace, P its
# unlimited plan under H, Q that under S, K its plan for two workers, and F the first with a fault, which is named by threads.
WORDS = (
    "assign {H} {T}",
    "plan {H} {T}",
    "plan {H} {T} --workers 2",
    "plan {H} {T} --workers 2 --rule longest",
    "check {H} {T} {P}",
    "check {H} {T} {K}",
    "check {H} {T} {F}",
    "compare {C} {H} {T} --workers 2",
    "replay {H} {T} --workers 2",
    "sweep {H} {T}",
    "sweep {H} {T} --workers 2,1",
    "limits {H} {T}",
    "limits {H} {T} --workers 2,1 --rule longest",
    "locks {H} {T}",
    "locks {H} {T} --workers 2 --shared --steps 2",
    "rate {H} {T} {P}",
    "rate {H} {T} {F}",
    "waits {H} {T}",
    "waits {H} {T} --workers 2 --names",
    "waits {H} {T} --worst 3",
    "waits {H} {T} --workers 2 --worst 1048576",
    "why {H} {T}",
    "why {H} {T} --names",
    "needs {H} {T}",
    "rank {T} {H} {C} --workers 2",
    "where {H} {T}",
    "where {H} {T} --names",
    "where {H} {T} --clients",
    "where {H} {T} --figures",
    "where {H} {T} --workers 2 --rule longest --names --figures",
    "draw {H} {T} {P}",
    "draw {H} {T} {P} --as events",
    "draw {H} {T} {P} --from 2 --to 5",
    "explain {H}",
    "explain {H} {T}",
    "explain {H} {T} {P}",
    "explain {H} {T} {F}",
    "assign {S} {T}",
    "plan {S} {T} --workers 2",
    "check {S} {T} {Q}",
    "limits {S} {T} --workers 2",
    "locks {S} {T} --shared",
    "explain {S}",
)

# The sample traces: without releases, with them, and with clients.
TRACES = ("X1.csv", "X2.csv", "clients")

# A trace with clients, whose affinities are those of the first sample.
CLIENTS = b"""message,cost,release,client,think,ops
m1,4,0,p,0,set f:0 5
m2,3,0,q,0,set g:0 7
m3,2,0,p,1,copy f:2 f:0
m4,5,2,-,0,add g:4-5 1
m5,1,0,q,2,swap f:2 g:0
m6,2,0,p,0,add f:4 1
"""

# The replay on the most threads.
CROWD = "replay {H} {T} --workers 16"


@dataclasses.dataclass
class Run:
    """What a run printed, its status (a negative number for a signal, None where it hung) and its seconds of processor time."""

    status: int | None
    stdout: bytes
    stderr: bytes
    seconds: float = dataclasses.field(compare=False)

    def __repr__(self) -> str:
        return "status %s, stdout %r, stderr %r" % (self.status, self.stdout[:200], self.stderr[:200])


MEMORY = Run(4, b"", b"waff: Memory\n", 0)
WRITE = Run(4, b"", b"waff: Write\n", 0)

# The least room of a pipe, and the flag that sets it.
ROOM = 4096
SET_ROOM = 1031


class Files:
    """A folder of files that words name by a letter."""

    def __init__(self, folder: str) -> None:
        self.folder = folder

    def name(self, letter: str) -> str:
        return os.path.join(self.folder, letter)

    def lay(self, files: dict[str, bytes]) -> None:
        for letter, data in files.items():
            with open(self.name(letter), "wb") as file:
                file.write(data)

    def words(self, line: str) -> list[str]:
        return [self.name(word[1]) if word.startswith("{") else word for word in line.split()]

    def with_plans(self, files: dict[str, bytes]) -> dict[str, bytes]:
        """The files with the plans that the program prints of them."""
        self.lay(files)
        made = {"P": run(self.words("plan {H} {T}")).stdout, "K": run(self.words("plan {H} {T} --workers 2")).stdout}
        made |= {"Q": run(self.words("plan {S} {T}")).stdout}
        made["F"] = re.sub(rb"\n3,VolA,\d+,\d+,-\n", b"\n3,VolA,3,5,-\n", made["P"])
        self.lay(made)
        return {**files, **made}


def letters(line: str) -> list[str]:
    return [word[1] for word in line.split() if word.startswith("{")]


def processor_seconds() -> float:
    used = resource.getrusage(resource.RUSAGE_CHILDREN)
    return used.ru_utime + used.ru_stime


def run(words: Iterable[str | bytes], stdin: bytes = b"", before: Iterable[str] = ()) -> Run:
    """Runs the program with the words; `before` are words that start it."""
    begin = processor_seconds()
    command: list[str | bytes] = [*before, PROGRAM, *words]
    try:
        done = subprocess.run(command, input=stdin, stdout=subprocess.PIPE, stderr=subprocess.PIPE, timeout=HANGS)
    except subprocess.TimeoutExpired:
        return Run(None, b"", b"", processor_seconds() - begin)
    return Run(done.returncode, done.stdout, done.stderr, processor_seconds() - begin)


def shell(redirections: str) -> tuple[str, ...]:
    """The words that start a program with redirections of the shell."""
    return "sh", "-c", 'exec "$@" ' + redirections, "sh"


def under(words: Iterable[str], limit: int, stdin: bytes = b"") -> Run:
    """A run under a limit of its address space. A status of 127 says that the system did not start it."""
    return run(words, stdin, before=("prlimit", "--core=0", "--as=%d" % limit))


def is_told(line: str | None) -> bool:
    """Whether all that a command lacks is told to it. The stack of an explanation grows beyond what a program starts with, and
    where there is no room for that the system ends the program."""
    return line is None or not line.startswith("explain")


def least_limit(words: Iterable[str], right: Run, stdin: bytes = b"") -> int:
    """About the least limit of the address space under which the run is right."""
    return next(it for it in range(4 << 20, 1 << 34, 1 << 18) if under(words, it, stdin) == right)


def piped(words: Iterable[str], stdin: bytes, wanted: int | None, pause: float) -> Run:
    """A run into a narrow pipe, of which `wanted` bytes are read, all where it is None; it is closed then."""
    begin = processor_seconds()
    reader, writer = os.pipe()
    fcntl.fcntl(writer, SET_ROOM, ROOM)
    with subprocess.Popen([PROGRAM, *words], stdin=subprocess.PIPE, stdout=writer, stderr=subprocess.PIPE) as process:
        os.close(writer)
        assert process.stdin and process.stderr
        process.stdin.write(stdin)
        process.stdin.close()
        taken = b""
        while wanted is None or len(taken) < wanted:
            time.sleep(pause)
            some = os.read(reader, 977 if wanted is None else min(977, wanted - len(taken)))
            if not some:
                break
            taken += some
        os.close(reader)
        told = process.stderr.read()
        status = process.wait(HANGS)
    return Run(status, taken, told, processor_seconds() - begin)


def faults_of(run: Run) -> list[str]:
    """What is wrong with how a run on small files ended, whatever they held. Its words were right."""
    if run.status is None:
        return ["it hangs"]
    faults = []
    if run.status not in (0, 1, 3, 4):
        faults.append("the status is %d" % run.status)
    elif run.status <= 1:
        if run.stderr:
            faults.append("standard error is not empty")
        if not run.stdout.endswith(b"\n"):
            faults.append("standard output is no text")
    else:
        if run.stdout:
            faults.append("standard output is not empty")
        if not FAULT.fullmatch(run.stderr):
            faults.append("standard error is not one fault line")
    if run.seconds > SECONDS:
        faults.append("it takes %.2f s" % run.seconds)
    return faults


def faults_of_explanation(run: Run, told: Run | None) -> list[str]:
    """What is wrong with how an explanation ended; `told` is the run of a command that looks at the same files, or None."""
    if run.status is None:
        return ["it hangs"]
    faults = []
    first, newline, rest = run.stdout.partition(b"\n")
    if run.status not in (0, 1, 3, 4):
        faults.append("the status is %d" % run.status)
    if run.stderr:
        faults.append("standard error is not empty")
    if not newline or not rest.endswith(b"\n"):
        faults.append("standard output has no two lines")
    if any(byte != 10 and not 32 <= byte < 127 for byte in run.stdout):
        faults.append("standard output is not printable")
    if run.status in (3, 4) and not FAULT.fullmatch(first + b"\n"):
        faults.append("its first line is no fault line")
    if run.status in (1, 3) and not all(re.search(b"^%s: ." % head, rest, re.M) for head in (b"found", b"wanted")):
        faults.append("it does not tell what was found and what is wanted")
    if told is not None and run.status != told.status:
        faults.append("the status of the command is %s" % told.status)
    if told is not None and run.status in (3, 4) and first + b"\n" != told.stderr:
        faults.append("the command tells %r" % told.stderr)
    if run.seconds > SECONDS:
        faults.append("it takes %.2f s" % run.seconds)
    return faults


def read(*name: str) -> bytes:
    """A file of this repository."""
    with open(os.path.join(ROOT, *name), "rb") as file:
        return file.read()


def trace_of(name: str) -> bytes:
    """A sample trace by its name."""
    return CLIENTS if name == "clients" else read("examples", name)


def samples(trace: str = "X1.csv") -> dict[str, bytes]:
    """The sample files by the letters that words name them with."""
    return {"H": read("examples", "H1.toml"), "C": read("examples", "C1.toml"), "S": with_locks(read("examples", "H1.toml")), "T": trace_of(trace)}


def with_locks(hierarchy: bytes) -> bytes:
    """The first sample as one of format 3, where the space f has locks that readers share, and g exclusive ones and no map."""
    text = b"format = 3\n" + hierarchy
    for name, kind in ((b"f", b"shared"), (b"g", b"exclusive")):
        text = text.replace(b'name = "%s"\n' % name, b'name = "%s"\nlocks = "%s"\n' % (name, kind))
    return re.sub(rb'\[\[map\]\]\nspace = "g"\n(?:[a-z]+ = .*\n)+', b"", text)


def known_words() -> tuple[str, ...]:
    """The words of each command that the program knows: there are some of each, but for runs, which take their time and tell what they
    measure: tests/runs has theirs."""
    without = set(common.commands(PROGRAM)) - {"run"} - {line.split()[0] for line in WORDS}
    if without:
        sys.exit("hostile: no words of %s" % ", ".join(sorted(without)))
    return WORDS


def scratch() -> tempfile.TemporaryDirectory[str]:
    return tempfile.TemporaryDirectory(prefix="waff-hostile-")


def words_given(about: str, *options: tuple[str, Callable[[str], object], object, str]) -> argparse.Namespace:
    """The arguments of a script. Of each the name, the type, the value where it is left out, and what it is for."""
    parser = argparse.ArgumentParser(description=about)
    for name, kind, value, text in options:
        if kind is bool:
            parser.add_argument(name, action="store_true", help=text)
        else:
            parser.add_argument(name, type=kind, nargs="?", default=value, help=text)
    return parser.parse_args()


def arguments(about: str, *options: tuple[str, Callable[[str], object], object, str]) -> argparse.Namespace:
    """The arguments of a script that runs the program."""
    global PROGRAM
    given = words_given(about, *options)
    PROGRAM = common.program()
    return given
