"""What tests of waff-trace share: calls of the scripts and of the program, and checks of what they answer."""

import contextlib
import io
import pathlib
import subprocess
import sys
from collections.abc import Sequence

sys.dont_write_bytecode = True
HERE = pathlib.Path(__file__).resolve().parent
sys.path[:0] = [str(HERE.parent), str(HERE.parent.parent / "workloads")]

from common import ROOT, Count, program  # noqa: E402
from wafftrace.logs import Refusal  # noqa: E402
from wafftrace.words import words as words_of_trace  # noqa: E402

TOOL = ROOT / "workloads" / "waff-trace"
TUNE = ROOT / "workloads" / "waff-tune"
PLAIN = ROOT / "tests" / "random" / "clients.py"
LIVE = HERE / "live.py"
PROGRAM = program()
HEADER = "message,cost,release,ops\n"
WITH_CLIENTS = "message,cost,release,client,think,ops\n"
WITH_LISTS = "message,cost,release,client,think,after,ops\n"
# What a plan that obeys is found to be.
GOOD = ("obeys", "withinbound", "tight", "shortest")

count = Count()
check = count.check


def same(name: str, found: str, wanted: str) -> None:
    """Checks that a text is the wanted one, and tells the first line that is not."""
    if found == wanted:
        check(name, True)
        return
    old, new = wanted.splitlines(), found.splitlines()
    at = next((n for n, pair in enumerate(zip(old, new)) if pair[0] != pair[1]), min(len(old), len(new)))
    check(name, False, f"line {at + 1}: {new[at : at + 1]} in place of {old[at : at + 1]}")


def run(
    words: Sequence[str | pathlib.Path], stdin: bytes = b"", folder: pathlib.Path | None = None, program: str | pathlib.Path = TOOL,
) -> tuple[int, str, str]:
    """Status, standard output and standard error of a run."""
    done = subprocess.run([program, *words], input=stdin, capture_output=True, cwd=folder, timeout=1200, check=False)
    return done.returncode, done.stdout.decode("utf-8", "replace"), done.stderr.decode("utf-8", "replace")


def waff(words: Sequence[str | pathlib.Path], folder: pathlib.Path) -> str:
    """What a command of the program prints, in this folder."""
    status, found, told = run(words, folder=folder, program=PROGRAM)
    if status != 0:
        check(f"waff {' '.join(map(str, words))}", False, f"status {status}: {told.strip()}")
    return found


def text(path: pathlib.Path) -> str:
    """What a file has, nothing where it is not there."""
    return path.read_text() if path.is_file() else ""


def called(*given: object) -> tuple[str, str]:
    """What waff-trace answers and tells, in this process."""
    told = io.StringIO()
    with contextlib.redirect_stderr(told):
        try:
            asked = words_of_trace().parse_args([str(it) for it in given])
            answer: str = asked.run(asked)
            return answer, told.getvalue()
        except Refusal as refusal:
            return "", f"{told.getvalue()}{refusal}"
