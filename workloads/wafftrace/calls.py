"""Calls of the proved program: they run side by side here, or a command of the shell runs them."""

import os
import re
import shlex
import signal
import subprocess
import time
from argparse import ArgumentParser, Namespace
from dataclasses import dataclass

from .logs import Refusal, shown

ROOT = os.path.dirname(os.path.dirname(os.path.dirname(os.path.realpath(__file__))))

# What a runner prints is parted before each header of an answer. So much of one stands in no other line, whatever names a tree and a trace
# have.
HEADERS = (
    "hierarchy,", "workers,", "limit,workers,", "affinity,parent,messages,", "name,messages,", "client,messages,", "message,name,",
    "affinity,first,second,messages,", "affinity,name,first,second,messages,",
)
HEADER = re.compile(f"^(?={'|'.join(HEADERS)})", re.M)

# The words of a call, behind the program.
Job = list[str]


class Late(Exception):
    """The time that calls had is over."""


def words_of_calls(part: ArgumentParser) -> None:
    part.add_argument(
        "--with", metavar="COMMAND", dest="runner",
        help="a command of the shell that runs the calls of the program: it gets a line of shell for each, and prints what they print,"
        " in their order (`parallel -k`); by default they run here, as many at once as there are processors",
    )
    program_word(part)


def program_word(part: ArgumentParser) -> None:
    part.add_argument(
        "--program", metavar="FILE", default=os.environ.get("WAFF", os.path.join(ROOT, "waff")), help="the proved program"
    )


def answers(asked: Namespace, jobs: list[Job], until: float | None = None) -> list[str]:
    """What calls tell, in their order. Those that are not done at `until`, a time of `time.monotonic`, are ended."""
    program = os.path.abspath(asked.program) if os.sep in asked.program else asked.program
    calls = [[program, *job] for job in jobs]
    found = told_by_runner(asked.runner, calls, until) if asked.runner else told_here(asked.program, calls, until)
    if len(found) != len(jobs):
        raise Refusal(3, f"{len(found)} calls were answered, and {len(jobs)} were made")
    return found


@dataclass(slots=True)
class Done:
    """How a call ended, and what it printed."""

    status: int
    text: str
    told: str


def left(until: float | None) -> float | None:
    """The seconds up to a time of `time.monotonic`."""
    return None if until is None else max(0.0, until - time.monotonic())


def told_here(program: str, calls: list[list[str]], until: float | None) -> list[str]:
    """What calls tell, where as many run at once as there are processors."""
    running: set[subprocess.Popen[str]] = set()
    is_over = False

    def call(words: list[str]) -> Done:
        with subprocess.Popen(words, stdin=subprocess.DEVNULL, stdout=subprocess.PIPE, stderr=subprocess.PIPE, text=True) as child:
            running.add(child)
            # It may have begun when those that run were ended.
            if is_over:
                child.kill()
            try:
                text, told = child.communicate(timeout=left(until))
            except subprocess.TimeoutExpired:
                child.kill()
                raise Late from None
            finally:
                running.discard(child)
        return Done(child.returncode, text, told)

    # Most scripts make no calls, and it takes long to be read.
    from concurrent.futures import ThreadPoolExecutor

    pool = ThreadPoolExecutor(os.cpu_count())
    try:
        done = list(pool.map(call, calls))
    except OSError as fault:
        raise Refusal(4, f"{shown(program)}: {fault.strerror}") from None
    finally:
        # Where not all is done, nobody waits for the rest.
        is_over = True
        pool.shutdown(wait=False, cancel_futures=True)
        for child in [*running]:
            child.kill()
    for it in done:
        if it.status == -signal.SIGINT:
            raise KeyboardInterrupt
        if it.status != 0:
            raise Refusal(3, f"the program refuses: {shown(it.told.strip())}")
    return [it.text for it in done]


def told_by_runner(runner: str, calls: list[list[str]], until: float | None) -> list[str]:
    """What calls tell, where a command of the shell runs them: it takes a line for each on standard input."""
    lines = "".join(shlex.join(words) + "\n" for words in calls)
    try:
        done = subprocess.run(runner, shell=True, input=lines, capture_output=True, text=True, check=False, timeout=left(until))
    except subprocess.TimeoutExpired:
        raise Late from None
    if done.returncode != 0:
        raise Refusal(3, f"{shown(runner)}: {shown(done.stderr.strip() or f'status {done.returncode}')}")
    return HEADER.split(done.stdout)[1:]
