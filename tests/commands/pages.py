"""Where README.md, docs/guide.md or docs/formats.md shows what no command case shows. A case of each command is there, and a section of
docs/formats.md, and an explanation of a fault has what was found and what is wanted.

In a block, a line that begins with `$ ` is a command, and the lines under it, up to a blank one or one that begins with `# `, are
what it prints; a line `...` stands for lines that are left out. A call of waff has to be a case: the same words (but for
`examples/`), what lays its files among the commands above it (but for what takes a file that cases share), and the output shown;
what it prints by `>` to a file is not shown. Each speed-up of the guide's table of locks is one that a case of locks.txt prints.
A code span that begins with `waff: ` has to be the standard error of a case, a picture
in SVG its standard output (of charts tests/report/run tells), and a block marked `toml` or `csv` a file that cases share.
"""

import re
from collections.abc import Iterator

from common import ROOT
from transcripts import Case, cases, commands_of, pattern, read

HERE = ROOT / "tests/commands"

# No case can refuse memory, as tests/hostile/memory does, nor have a run whose workers can't be started, as tests/runs/outside does,
# nor one that the check does not accept, nor one that drifts by a certain per cent, as in tests/runs/run by any.
NO_CASE = {"waff: Memory", "waff: Run", "waff: Threads 1", "waff: Drift 12"}


def shows(case: Case, call: str, commands: set[str], output: list[str]) -> bool:
    words, _, kept = call.replace("examples/", "").replace("< ", "<").removeprefix("./").removeprefix("dist/").partition(" >")
    setup = {line for line in case.setup.splitlines() if not line.startswith(("#", "cp box/", "cp nfs3/")) and "inputs/" not in line}
    printed = ("" if kept else case.stream("|")) + case.stream("!")
    return case.command == words and setup <= commands and re.fullmatch(pattern(output), printed) is not None


def calls(page: str) -> Iterator[tuple[int, str, set[str], list[str]]]:
    """Each call of waff in the blocks of a page: its line's number, itself, the commands above it, its output."""
    above: set[str] = set()
    for number, command, output in commands_of(page):
        if re.match(r"(\./|dist/)?waff ", command):
            yield number, command, set(above), output
        else:
            above.add(command.replace("examples/", ""))


def faults(commands: list[str]) -> list[str]:
    every = [case for path in HERE.glob("*.txt") for case in cases(path)]
    told = {case.stream("!").strip() for case in every} | NO_CASE
    printed = {case.stream("|") for case in every}
    files = {read(path) for path in (HERE / "inputs").iterdir()}
    called = {case.command.split()[1] for case in every if " " in case.command}
    found = [
        f"{case.name}: nothing was found, or nothing is wanted"
        for case in every
        if case.command.startswith("waff explain ") and case.stream("|") and "\nstatus " in case.shown
        if not re.search(r"^found: .(.|\n)*^wanted: .", case.stream("|"), re.M)
    ]
    found += [f"no case of {name}" for name in commands if name not in called]
    sections = re.findall(r"^### (?:waff )?([a-z]+)$", read(ROOT / "docs/formats.md"), re.M)
    found += [f"docs/formats.md: no section of {name}" for name in commands if name not in sections]
    shown_calls = 0
    for name in ("README.md", "docs/guide.md", "docs/formats.md"):
        page = read(ROOT / name)
        for number, call, above, output in calls(page):
            shown_calls += 1
            if not any(shows(case, call, above, output) for case in every):
                found.append(f"{name}:{number}: no case shows this: {call}")
        for span in re.findall(r"`(waff: [^`]+)`", page):
            if span not in told:
                found.append(f"{name}: no case prints this: {span}")
        for picture in re.findall(r"!\[[^]]*\]\(([^)]+\.svg)\)", page):
            if "charts/" not in picture and read((ROOT / name).parent / picture) not in printed:
                found.append(f"{name}: no case prints this: {picture}")
        for row in re.findall(r"^\| Speed-up on eight workers .*\n((?:\|.*\n)+)", page, re.M):
            printed_there = "".join(case.stream("|") for case in cases(HERE / "locks.txt"))
            for figure in re.findall(r"\b\d+\.\d\d\b", row):
                if f",{figure}," not in printed_there:
                    found.append(f"{name}: no case of locks.txt prints this speed-up: {figure}")
        for block in re.findall(r"^```(?:toml|csv)\n(.*?)^```$", page, re.M | re.S):
            if block not in files:
                found.append(f"{name}: no case has this file: {block.splitlines()[:1]}")
    return found if shown_calls else [*found, "the pages show no call"]
