"""Begins one of the scripts."""

import importlib
import sys

# The module of each.
SCRIPTS = {"waff-trace": "words", "waff-tune": "tuning", "waff-report": "reporting"}


def called(name: str) -> None:
    """Runs the script of this name, and ends with its status. An older Python has to understand this module."""
    if sys.version_info < (3, 11):
        sys.stderr.write("{}: wanted is Python 3.11, and this is {}.{}\n".format(name, *sys.version_info[:2]))
        sys.exit(4)
    try:
        sys.exit(importlib.import_module("wafftrace." + SCRIPTS[name]).main(sys.argv[1:]))
    except KeyboardInterrupt:
        sys.stderr.write("{}: interrupted\n".format(name))
        sys.exit(130)


def trace() -> None:
    called("waff-trace")


def tune() -> None:
    called("waff-tune")


def report() -> None:
    called("waff-report")
