"""Reads docs/promises.md, and what stands at the head of each crate (`//!` of its `src/lib.rt`), against the sources.

What stands there names nothing that is not there: a name in words stands somewhere in the sources, a test is a file, a folder or a function,
and a law that picks one thing is a public function with an empty body. Each wrong body changes a function that is there, and names a clause
of it that refuses it: where it has several in a line `# clause: NAME`, and where none of that function does in a line `# refused by: WORDS`.
"""
import re

from common import ROOT
from sources import FUNCTION, NAME, TOKEN, Checks, Crate, Function

PAGE = ROOT / "docs" / "promises.md"
# Crates by name.
Crates = dict[str, Crate]


class Reader:
    """Reads what a person wrote, and counts what it finds and what it misses."""

    def __init__(self, crates: Crates, count: Checks) -> None:
        self.crates = crates
        self.count = count
        self.page = PAGE.name
        self.line = 0

    def tell(self, is_there: object, what: str) -> None:
        self.count.check(f"{self.page}:{self.line}: {what}", is_there)

    def read(self, page: str, text: str, among: list[Crate]) -> None:
        """What a person wrote, of some crates."""
        self.page = page
        prose, start = list[str](), 1
        for self.line, line in enumerate([*text.splitlines(), ""], 1):
            if line.startswith("|"):
                self.read_row([cell.strip() for cell in line.strip("|").split("|")])
            elif line and not line.startswith("#"):
                prose.append(line)
                continue
            self.read_prose(" ".join(prose), start, among)
            prose, start = [], self.line + 1

    def read_row(self, cells: list[str]) -> None:
        """A row of a table: the laws by which something is one."""
        for cell in cells:
            for part in cell.split(";") if re.match(r"waff\w*: ", cell) else []:
                self.read_laws(part)

    def read_laws(self, part: str) -> None:
        """`crate: law, law`."""
        name = part.strip().partition(":")[0]
        laws = self.crates[name].laws if name in self.crates else set()
        for law in TOKEN.findall(part):
            self.tell(law in laws, f"no law `{law}` of {name}")

    def read_prose(self, text: str, start: int, among: list[Crate]) -> None:
        line, self.line = self.line, start
        self.read_names(text, among)
        tests = re.search(r"\bTests: (.*)", text)
        if tests:
            self.read_tests(tests.group(1))
        self.line = line

    def read_names(self, text: str, among: list[Crate]) -> None:
        """A name in words is one that stands somewhere in the sources, a path is one of a file, a folder or a case."""
        folder = ""
        for name in TOKEN.findall(text):
            if "/" in name:
                folder = name.rpartition("/")[0]
                self.tell(self.has_path(name, among), f"no file `{name}`")
            elif name.endswith((".rt", ".antt")):
                self.tell(self.has_path(f"{folder}/{name}" if folder else name, among), f"no file `{folder}/{name}`")
            elif name.endswith("-*"):
                transcripts = (ROOT / "tests/commands").glob("*.txt")
                self.tell(any(f"\n== {name[:-1]}" in path.read_text() for path in transcripts), f"no case `{name}`")
            elif NAME.match(name):
                self.tell(name in self.crates or any(self.has_name(crate, name) for crate in self.crates.values()), f"no `{name}`")
            elif re.match(r"^\w+::\w+$", name):
                self.tell(any(crate.find(name) for crate in among), f"no `{name}`")

    @staticmethod
    def has_name(crate: Crate, name: str) -> bool:
        return name in crate.names or name in crate.edits

    def has_path(self, name: str, among: list[Crate]) -> bool:
        name = name.split()[0]
        if name in ("must-fail/", "proofs/", "specs/") or (ROOT / name).exists():
            return True
        first, _, rest = name.partition("/")
        if first in self.crates:
            return rest in self.crates[first].files
        return any(file in crate.files for crate in among for file in (name, f"src/{name}", f"specs/{name}"))

    def read_tests(self, text: str) -> None:
        """What stands in brackets behind a file of tests are functions of it, if they are names."""
        for file, names in re.findall(r"`([\w/]+\.rt)` \(((?:`\w+`(?:, | and )?)+)\)", text):
            for name in TOKEN.findall(names):
                has = any(f.name == name for crate in self.crates.values() for f in crate.functions)
                self.tell(has, f"no test `{name}` in `{file}`")

    def read_crate(self, crate: Crate) -> None:
        """The head of a crate, and its wrong bodies."""
        self.read(f"crates/{crate.name}/src/lib.rt", crate.head, [crate])
        for name in sorted(crate.edits):
            self.page, self.line = f"crates/{crate.name}/must-fail/{name}.edit", 0
            edit = edit_of(crate, name)
            by = re.search(r"^# refused by: (.*)$", edit, re.M)
            self.tell(by or is_refused(crate, edit), "names no clause of the function that it changes (# clause: NAME)")
            self.read_names(by[1] if by else "", [crate])


def edit_of(crate: Crate, name: str) -> str:
    return (ROOT / "crates" / crate.name / "must-fail" / f"{name}.edit").read_text()


def changed(crate: Crate, edit: str) -> Function | None:
    """The function that a wrong body changes; None where there is none."""
    told, old = re.search(r"^file: (.*)$", edit, re.M), re.search(r"^old: (.*)$", edit, re.M)
    assert told and old, edit
    file = told[1].strip()
    before, found, _ = (ROOT / "crates" / crate.name / file).read_text().partition(old[1].strip())
    module = file.rpartition("/")[2].removesuffix(".rt")
    functions = [f for f in crate.functions if f.module == module]
    return functions[sum(bool(FUNCTION.match(line)) for line in before.splitlines()) - 1] if found else None


def is_refused(crate: Crate, edit: str) -> bool:
    """Whether a wrong body has a clause that refuses it: the only one of the function that it changes, or the one that it names."""
    function = changed(crate, edit)
    named = re.search(r"^# clause: (\w+)$", edit, re.M)
    return function is not None and sum(bool(part and (not named or part[0] == named.group(1))) for part in function.said) == 1


def read(crates: Crates, count: Checks) -> None:
    """Reads the page and the heads, and counts what it finds and what it misses."""
    reader = Reader(crates, count)
    reader.read(PAGE.name, PAGE.read_text(), list(crates.values()))
    for crate in crates.values():
        reader.read_crate(crate)
