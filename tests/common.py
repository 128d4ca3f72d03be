"""What the tests that are written in Python share: the program, its commands, and a count of checks."""

import os
import pathlib
import re
import subprocess
import sys
from typing import NoReturn

ROOT = pathlib.Path(__file__).resolve().parent.parent


def printed(script: str, *words: str) -> str:
    """What a script of this repository prints."""
    done = subprocess.run([ROOT / script, *words], stdin=subprocess.DEVNULL, stdout=subprocess.PIPE, text=True)
    if done.returncode != 0:
        sys.exit(f"{script} ends with status {done.returncode}")
    return done.stdout


def program() -> str:
    """The program that WAFF names, or the one of these sources, which is built where that is needed."""
    return printed("dist/program").strip()


def commands(program: str) -> list[str]:
    """The names of the commands that a program knows, from its help, in which each has a line."""
    text = subprocess.run([program, "--help"], stdout=subprocess.PIPE, text=True, check=True).stdout
    names = re.findall(r"^  ([a-z]+) +[A-Z]", text, re.M)
    if len(names) < 2:
        sys.exit("the help of the program lists no commands")
    return [name for name in names if name != "help"]


def options(program: str) -> list[str]:
    """The options of all commands, long and short, from their helps."""
    helps = [subprocess.run([program, name, "--help"], stdout=subprocess.PIPE, text=True).stdout for name in commands(program)]
    return sorted(set(re.findall(r"(?<!\S)--?[a-z][a-z-]*\b", " ".join(helps))))


# Imports all modules of workloads/, and with them those that they need, so that Python writes what it makes of them.
COMPILE = """import importlib, pkgutil, sys, tomllib
sys.path.insert(0, sys.argv[1])
import wafftrace
for it in pkgutil.iter_modules(wafftrace.__path__, "wafftrace."):
    try:
        importlib.import_module(it.name)
    except ImportError:
        pass
"""


def quicken(folder: pathlib.Path) -> None:
    """Makes the scripts of workloads/ begin sooner that are started from here: in this folder they find their modules as Python compiles them,
    which is most of what a short call of one takes. The scripts themselves write nothing of it, so that nothing lies beside them."""
    os.environ["PYTHONPYCACHEPREFIX"] = str(folder)
    environment = {name: value for name, value in os.environ.items() if name != "PYTHONDONTWRITEBYTECODE"}
    subprocess.run([sys.executable, "-c", COMPILE, ROOT / "workloads"], stdin=subprocess.DEVNULL, env=environment, check=True)


def written_at(terminal: int) -> str:
    """What was written to a terminal whose other side is closed, and which is closed here then."""
    parts = []
    try:
        while part := os.read(terminal, 65_536):
            parts.append(part)
    except OSError:
        # Nothing is left.
        pass
    os.close(terminal)
    return b"".join(parts).decode()


class Count:
    """Counts checks, and prints so many of those that fail."""

    def __init__(self, shown: int = 10) -> None:
        self.shown = shown
        self.passed = 0
        self.failed = 0

    def take(self, name: str, faults: list[str], run: object = None) -> None:
        """A check passes if nothing is wrong; `run` is shown where something is."""
        if not faults:
            self.passed += 1
            return
        self.failed += 1
        if self.failed <= self.shown:
            print("\n    ".join([f"FAILED {name}", *faults, *([repr(run)] if run is not None else [])]).rstrip())

    def check(self, name: str, good: object, found: object = "") -> None:
        """What is found is shown where it is not good."""
        self.take(name, [] if good else [str(found)])

    def end(self) -> NoReturn:
        """Prints the last line, and ends with 0 only where there was a check and none failed."""
        print(f"{self.passed} passed, {self.failed} failed")
        sys.exit(0 if self.passed and not self.failed else 1)
