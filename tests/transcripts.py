r"""Transcripts: cases of what programs are asked, and of what they print. Each NAME.txt of a folder of tests holds some:

    == refused-cost-zero
    sed 's/,4,/,0,/' X1.csv >trace.csv
    $ waff plan H1.toml trace.csv
    ! waff: Trace.Cost 2
    status 3

The case runs in a folder with the files of examples/, with the folders that lie beside the transcript, as `inputs`, and with `box` and `nfs3`
of tests/workloads. Lines of bash lay its other files there; then comes the command, of `waff`, of workloads/ or of the transcript's folder,
and what it prints: `| ` stands before a line of standard output, `! ` before one of standard error, and the status is told if it is not
0. A line `|\` says that the one before it does not end. `| ...` or `! ...` is any text but none: clap's words are free.
"""

import difflib
import os
import pathlib
import re
import shutil
import subprocess
import tempfile
from collections.abc import Iterator
from concurrent.futures import ThreadPoolExecutor
from dataclasses import dataclass
from itertools import repeat

from common import ROOT, Count

# Recorded logs with their hierarchies and traces.
LOGS = {ROOT / "tests" / "workloads" / name for name in ("box", "nfs3")}

# The seconds after which a command counts as one that hangs.
SECONDS = "60"

CASE = re.compile(r"^== (.+)\n((?:(?!== |\$ ).*\n)*)\$ (.*)\n((?:[|!](?: .*|\\)?\n|status \d+\n)*)", re.M)


@dataclass(slots=True)
class Case:
    folder: pathlib.Path
    name: str
    setup: str
    command: str
    shown: str

    def stream(self, mark: str) -> str:
        """What is shown of standard output, `|`, or of standard error, `!`."""
        return "".join(line[2:] + "\n" for line in self.shown.splitlines() if line[0] == mark)

    def run(self, program: str) -> str:
        """What it prints now, as the transcript shows it."""
        with tempfile.TemporaryDirectory(prefix="waff-commands-") as name:
            folder = pathlib.Path(name)
            files = shutil.copytree(ROOT / "examples", folder / "files")
            for beside in {*LOGS, *filter(pathlib.Path.is_dir, self.folder.iterdir())}:
                shutil.rmtree(files / beside.name, ignore_errors=True)
                (files / beside.name).symlink_to(beside)
            (folder / "waff").symlink_to(program)
            path = f"{folder}:{ROOT / 'workloads'}:{os.environ['PATH']}:{self.folder}"
            environment = {**os.environ, "PATH": path, "WAFF": program, "LC_ALL": "C"}
            # What fails to lay the files is shown in place of the command.
            for words in (["bash", "-ec", self.setup], ["timeout", SECONDS, "bash", "-o", "pipefail", "-c", self.command]):
                done = subprocess.run(words, cwd=files, env=environment, stdin=subprocess.DEVNULL, capture_output=True)
                if done.returncode:
                    break
        shown = self.text("|", done.stdout) + self.text("!", done.stderr)
        return shown + (f"status {done.returncode}\n" if done.returncode else "")

    def text(self, mark: str, printed: bytes) -> str:
        """What a stream printed."""
        if printed and f"{mark} ...\n" in self.shown:
            return f"{mark} ...\n"
        *lines, rest = printed.decode(errors="surrogateescape").split("\n")
        text = "".join(f"{mark} {line}\n" if line else f"{mark}\n" for line in lines)
        return text + (f"{mark} {rest}\n{mark}\\\n" if rest else "")


def read(path: pathlib.Path) -> str:
    return path.read_bytes().decode(errors="surrogateescape")


def cases(path: pathlib.Path) -> list[Case]:
    """The cases of a transcript, each of a name of its own. Between them stand blank lines and comments alone."""
    text = read(path)
    for line in CASE.sub("", text).split("\n"):
        if line and not line.startswith("#"):
            raise SystemExit(f"{path.name}: in no case: {line}")
    found = [Case(path.parent, *parts) for parts in CASE.findall(text)]
    if len({case.name for case in found}) < len(found):
        raise SystemExit(f"{path.name}: two cases of one name")
    return found


def keep(path: pathlib.Path, printed: dict[str, str]) -> None:
    """Writes a transcript anew with what its cases print."""
    text = CASE.sub(lambda it: f"== {it[1]}\n{it[2]}$ {it[3]}\n{printed.get(it[1], it[4])}", read(path))
    path.write_bytes(text.encode(errors="surrogateescape"))


def faults_of(shown: str, printed: str) -> list[str]:
    """Where a case prints what it does not show."""
    lines = difflib.unified_diff(shown.split("\n"), printed.split("\n"), "shown", "printed", n=0, lineterm="")
    return [] if shown == printed else list(lines)[2:12]


def wanted_of(folder: pathlib.Path, wanted: set[str]) -> Iterator[tuple[pathlib.Path, list[Case]]]:
    """The transcripts of a folder with their cases, those that are wanted or whose transcript is, or all."""
    for path in sorted(folder.glob("*.txt")):
        yield path, [it for it in cases(path) if not wanted or wanted & {path.stem, it.name}]


def run(folder: pathlib.Path, program: str, wanted: set[str], count: Count | None) -> None:
    """Runs the cases of a folder, those that are wanted or all, and counts those that print what they show. Where nothing is counted, what
    they print is kept."""
    with ThreadPoolExecutor(os.cpu_count()) as pool:
        # All are begun before the first one is waited for.
        begun = [(path, every, pool.map(Case.run, every, repeat(program))) for path, every in wanted_of(folder, wanted)]
        for path, every, of in begun:
            printed = list(of)
            if count is None:
                keep(path, {case.name: text for case, text in zip(every, printed, strict=True)})
            else:
                for case, text in zip(every, printed, strict=True):
                    count.take(case.name, faults_of(case.shown, text))


def commands_of(page: str) -> Iterator[tuple[int, str, list[str]]]:
    """Each command in the blocks of a page: its line's number, itself, and the lines of its output."""
    for block in re.finditer(r"^```.*\n((?:.*\n)*?)```$", page, re.M):
        for part in re.finditer(r"^\$ (.*)\n((?:(?!\$ |# ).+\n)*)", block[1], re.M):
            yield page.count("\n", 0, block.start(1) + part.start()) + 1, part[1], part[2].splitlines()


def pattern(output: list[str]) -> str:
    """The pattern of an output that a page shows, where a line `...` stands for lines that are left out."""
    return "".join("(?:.*\n)*" if line == "..." else re.escape(line + "\n") for line in output)
