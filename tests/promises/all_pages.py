"""Reads the pages of this repository against its files.

- A link leads to a file that is there, and to a heading of it where it names one.
- A link to a source names what stands there: `call` and its clauses (.rt), a definition and its fields (.antt), an edit (.edit).
- A code span that is a path of this repository is one that is there.
- A block of code that is marked as `rust`, `antt` or `edit` stands in a source, but for blanks; `...` stands for lines left out. The
  first words of each line of a block marked `tree` are functions or types.
- docs/proof.md names nothing that the sources do not have, and each crate of the kit that they stand on. Each definition of a row of its
  tables is one that the clauses of the row are made of.
- docs/testing.md names each script, docs/architecture.md each crate with what its first lines say and what it stands on; crates.txt has
  the same words.
- Each entry of docs/DECISIONS.md has its reason, what it was chosen over, and its day; the page begins with its sections, in their order.
- README.md names the logic that `dist/waff` was proved in.
- What docs/guide.md and the head of bench/RESULTS.md tell of runs by four workers stands in the whole table of RESULTS.md, and nothing of
  that is left out.
"""
import functools
import itertools
import os
import re
from collections.abc import Iterator
from pathlib import Path

from common import ROOT
from sources import DEFINITION, NAME, TOKEN, TYPE, Checks, Crate, Function, fields_of, functions_of, words_of

# Crates by name.
Crates = dict[str, Crate]
CRATES = ROOT / "crates.txt"
ARCHITECTURE = ROOT / "docs" / "architecture.md"
LINK = re.compile(r"\[((?:[^\[\]]|\[[^\[\]]*\]\([^()]*\))*)\]\(([^()\s]+)\)")
FOLDERS = ("bench", "crates", "dist", "docs", "examples", "tests", "workloads")
BLOCKS = {"rust": "*/src/*.rt", "antt": "*/specs/*.antt", "edit": "*/must-fail/*.edit"}
DAY = re.compile(r"\(\d{4}-\d\d-\d\d\)")
# The columns of a table of theorems: the clauses, and the definitions that they are made of.
CLAUSES = {"Clause", "The clause"}
DEFINITIONS = {"Definition", "Its definitions", "What its text is"}
HEADER = ["| Layer | Crate | What it is for | Stands on |", "|---|---|---|---|"]


class Page:
    """A page: its lines out of blocks of code, and the blocks."""

    def __init__(self, path: Path) -> None:
        self.path = path
        self.name = str(path.relative_to(ROOT))
        self.lines: list[tuple[int, str]] = []
        # Of each block its line, its language and its lines.
        self.blocks: list[tuple[int, str, list[str]]] = []
        block: tuple[int, str, list[str]] | None = None
        for number, line in enumerate(path.read_text().splitlines(), 1):
            if line.lstrip().startswith("```"):
                if block is None:
                    block = (number, line.strip()[3:], [])
                else:
                    self.blocks.append(block)
                    block = None
            elif block is not None:
                block[2].append(line)
            else:
                self.lines.append((number, line))

    def headings(self) -> set[str]:
        return {anchor(line.lstrip("#")) for _, line in self.lines if line.startswith("#")}


def anchor(heading: str) -> str:
    """The name by which a link leads to a heading."""
    return re.sub(r"[^\w\- ]", "", LINK.sub(r"\1", heading).strip().lower()).replace(" ", "-")


class Reader:
    """Reads pages, and counts what it finds and what it misses."""

    def __init__(self, crates: Crates, count: Checks) -> None:
        self.crates = crates
        self.count = count

    def tell(self, is_there: object, where: str, what: str) -> None:
        self.count.check(f"{where}: {what}", is_there)

    def read_page(self, page: Page) -> None:
        for number, line in page.lines:
            where = f"{page.name}:{number}"
            for text, target in LINK.findall(line):
                self.read_link(page, where, text, target)
                for inner, image in LINK.findall(text):
                    self.read_link(page, where, inner, image)
            for span in TOKEN.findall(line):
                self.read_path(where, span)
        for number, language, lines in page.blocks:
            if language in BLOCKS:
                self.tell(is_quoted(lines, BLOCKS[language]), f"{page.name}:{number}", "no source has this block")
            elif language == "tree":
                self.read_tree(f"{page.name}:{number}", lines)

    def read_link(self, page: Page, where: str, text: str, target: str) -> None:
        if re.match(r"https?://", target):
            return
        name, _, heading = target.partition("#")
        path = (page.path.parent / name).resolve() if name else page.path
        self.tell(path.exists(), where, f"no file {target}")
        if not path.exists():
            return
        if heading:
            self.tell(heading in Page(path).headings(), where, f"no heading {target}")
        spans = TOKEN.findall(text)
        if spans and path.is_file() and path.is_relative_to(ROOT / "crates"):
            self.read_names(where, spans, path)

    def read_names(self, where: str, spans: list[str], path: Path) -> None:
        """The first name is of something in the file, those behind it are its clauses or fields."""
        first, *parts = spans
        inside = path.relative_to(ROOT / "crates")
        if path.suffix == ".edit":
            self.tell(spans == [path.stem], where, f"{inside} is no {first}")
        elif path.suffix == ".antt":
            text = path.read_text()
            self.tell(first in DEFINITION.findall(text), where, f"no definition {first} in {inside}")
            known = fields_of(text).get(first, set())
            for part in parts:
                self.tell(part in known, where, f"no field {part} of {first} in {inside}")
        elif path.suffix == ".rt":
            text = path.read_text()
            found = [f for f in functions_in(path) if f.is_named(first)]
            self.tell(found or first in TYPE.findall(text), where, f"no {first} in {inside}")
            for part in parts:
                self.tell(any(part in f.clauses for f in found), where, f"no clause {part} of {first} in {inside}")

    def read_path(self, where: str, span: str) -> None:
        path = span.split()[0].removeprefix("./").rstrip(",/") if span.strip() else ""
        folder = path.partition("/")[0]
        if folder in self.crates:
            path = f"crates/{path}"
        elif folder not in FOLDERS:
            return
        if "/" in path and not re.search(r"NAME|THING|Thing", path):
            self.tell(any(ROOT.glob(path)), where, f"no file {path}")

    def read_tree(self, where: str, lines: list[str]) -> None:
        crates = self.crates.values()
        for line in filter(None, lines):
            for name in line.lstrip("│├└─ ").partition("  ")[0].split(", "):
                is_there = any(crate.find(name) or name in crate.types for crate in crates)
                self.tell(is_there, where, f"no function {name}")

    def read_proof(self, page: Page) -> None:
        """Each name in words stands somewhere in the sources."""
        known = set().union(*(crate.names for crate in self.crates.values()), self.crates, kit_crates(self.crates))
        for number, line in page.lines:
            for span in TOKEN.findall(LINK.sub("", line)):
                if NAME.match(span):
                    self.tell(span in known, f"{page.name}:{number}", f"no {span} in the sources")
        named = {span for _, line in page.lines for span in TOKEN.findall(line)}
        for name in kit_crates(self.crates):
            self.tell(name in named, page.name, f"the crate {name} of the kit is not named")

    def read_theorems(self, page: Page) -> None:
        """The clauses of each row are made of its definitions."""
        made_of: dict[str, set[str]] = {}
        for crate in self.crates.values():
            for name, words in crate.made_of.items():
                made_of.setdefault(name, set()).update(words)
        for number, row in theorems_of(page):
            said = set().union(*(clause_words(page, *link) for link in LINK.findall(row[0])))
            known = reached(said, made_of)
            for text, target in LINK.findall(row[1]):
                first = TOKEN.findall(text)[:1]
                if target.endswith(".antt") and said:
                    self.tell(set(first) <= known, f"{page.name}:{number}", f"the clauses are not made of {first}")

    def read_scripts(self, page: Page) -> None:
        """Each script of the repository stands on the page."""
        named = {span.split()[0].removeprefix("./") for _, line in page.lines for span in TOKEN.findall(line) if span.strip()}
        for path in scripts():
            self.tell(path in named, page.name, f"the script {path} is not named")

    def read_crates(self, page: Page) -> None:
        shown = [line for _, line in page.lines if line.startswith("|")]
        for line in HEADER + crate_rows():
            self.tell(line in shown, page.name, f"no line {line[:60]}.. (tests/promises/run write)")
        self.tell(crate_lines() == CRATES.read_text().splitlines(), CRATES.name, "other words (tests/promises/run write)")

    def read_decisions(self, page: Page) -> None:
        head, *parts = re.split(r"^(?=##+ )", page.path.read_text(), flags=re.M)
        sections = []
        for part in parts:
            mark, title = part.splitlines()[0].split(" ", 1)
            if mark == "##":
                sections.append((title, f"#{anchor(title)}"))
                continue
            words = part.split()
            for word in ("*Because*", "*Instead of*"):
                self.tell(word in " ".join(words), page.name, f"no {word}: {title}")
            self.tell(DAY.fullmatch(words[-1]), page.name, f"no day at the end: {title}")
        named = [link for link in LINK.findall(head) if link[1].startswith("#")]
        self.tell(named == sections, page.name, f"its first lines name {named} where {sections} stand")

    def read_runs(self, guide: Page, results: Page) -> None:
        """The rows of both pages: for each log what was told and what ran, under the first tree and under the searched one."""
        told: dict[str, list[str]] = {}
        for log, _, _, workers, by_log, _, ran in rows_of(results, "log"):
            if workers == "4":
                told.setdefault(log, []).extend([by_log, ran.split()[0]])
        for page in (guide, results):
            shown = {log: figures for log, *figures in rows_of(page, "Work")}
            self.tell(shown == told, page.name, f"its figures of runs are not those of the logs in {results.name}: {told}")

    def read_logic(self) -> None:
        logic = re.search(r"^logic: (\w+)$", (ROOT / "crates/waff/src/version.rt").read_text(), re.M)
        assert logic
        self.tell(f"`{logic[1]}`" in (ROOT / "README.md").read_text(), "README.md", f"the logic {logic[1]} is not named")


def theorems_of(page: Page) -> Iterator[tuple[int, list[str]]]:
    """The rows of the tables of theorems: the line, and the cells of the clauses and of the definitions."""
    columns = []
    for number, line in page.lines:
        cells = [cell.strip() for cell in line.strip("|").split("|")] if line.startswith("|") else []
        named = [[at for at, cell in enumerate(cells) if cell in names] for names in (CLAUSES, DEFINITIONS)]
        if all(named) or not cells:
            columns = [found[0] for found in named if found]
        elif columns:
            yield number, [cells[at] for at in columns]


def clause_words(page: Page, text: str, target: str) -> set[str]:
    """The words of the clauses that a link names, of all where it names none, and of the file where it is no function's."""
    path = (page.path.parent / target).resolve()
    if path.suffix != ".rt":
        return set()
    first, *parts = TOKEN.findall(text)
    found = [f for f in functions_in(path) if f.is_named(first)]
    said = [part for f in found for part in f.said if part and (not parts or part[0] in parts)]
    return words_of(" ".join(text for _, text in said) if said else path.read_text())


def reached(words: set[str], made_of: dict[str, set[str]]) -> set[str]:
    """These words, and those that the definitions among them are made of."""
    known, left = set(), set(words)
    while left:
        known |= left
        left = set().union(*(made_of.get(word, set()) for word in left)) - known
    return known


@functools.cache
def functions_in(path: Path) -> list[Function]:
    """The functions of a source."""
    return list(functions_of(path.stem, path.read_text()))


def is_quoted(lines: list[str], sources: str) -> bool:
    """Whether one of the sources has each part of the block, but for blanks."""
    parts = [" ".join(part.split()) for part in re.split(r"^ *\.\.\.$", "\n".join(lines), flags=re.M)]
    for path in (ROOT / "crates").glob(sources):
        text = " ".join(path.read_text().split())
        if all(part in text for part in parts):
            return True
    return False


def scripts() -> list[str]:
    """What can be run here, but for the built program."""
    found = [ROOT / name for name in ("waff", "install", "test", ".ci/run")]
    for folder in ("bench", "dist", "examples", "tests", "workloads"):
        found += sorted(path for path in (ROOT / folder).rglob("*") if path.is_file() and os.access(path, os.X_OK))
    return [str(path.relative_to(ROOT)) for path in found if path != ROOT / "dist" / "waff"]


def first_sentence(crate: str) -> str:
    """What a crate says of itself first."""
    source = ROOT / "crates" / crate / "src"
    path = source / "lib.rt" if (source / "lib.rt").exists() else source / "main.rt"
    lines = []
    for line in path.read_text().splitlines():
        if not line.startswith("//! ") or line.startswith("//! - "):
            break
        lines.append(line[4:])
    return " ".join(lines).split(". ")[0].rstrip(".")


def crate_rows() -> list[str]:
    """The rows of the table of crates, in the order of crates.txt."""
    rows, layer = [], ""
    for line in CRATES.read_text().splitlines():
        if line.startswith("## "):
            layer = line.removeprefix("## ")
        elif re.match(r"\w", line):
            head, _, below = line.partition(":")
            name = head.split()[0]
            rows.append(f"| {layer} | `{name}` | {first_sentence(name)} | {', '.join(f'`{b}`' for b in below.split())} |")
            layer = ""
    return rows


def crate_lines() -> list[str]:
    """The lines of crates.txt, where each crate stands below what it says of itself first."""
    lines = []
    for number, line in enumerate(CRATES.read_text().splitlines()):
        name = re.match(r"\w+", line)
        if name:
            lines.append(f"# {first_sentence(name.group())}")
        if number == 0 or not line.startswith("# "):
            lines.append(line)
    return lines


def kit_crates(crates: Crates) -> list[str]:
    """The crates of the kit that the crates stand on."""
    return sorted({need for crate in crates.values() for need in crate.needs} - crates.keys())


def write_crates() -> None:
    """Writes the words of crates.txt and the table of crates anew."""
    CRATES.write_text("\n".join(crate_lines()) + "\n")
    lines = ARCHITECTURE.read_text().splitlines()
    start = lines.index(HEADER[0])
    end = start
    while end < len(lines) and lines[end].startswith("|"):
        end += 1
    ARCHITECTURE.write_text("\n".join(lines[:start] + HEADER + crate_rows() + lines[end:]) + "\n")


def rows_of(page: Page, first: str) -> list[list[str]]:
    """The rows of the table of a page whose first column is called so."""
    lines = [[cell.strip() for cell in line.strip("|").split("|")] if line.startswith("|") else [] for _, line in page.lines]
    begin = next(at for at, cells in enumerate(lines) if cells and cells[0] == first)
    return list(itertools.takewhile(bool, lines[begin + 2 :]))


def read(crates: Crates, count: Checks) -> None:
    """Reads all pages, and counts the names and links that it finds and those that it misses."""
    reader = Reader(crates, count)
    paths = [*ROOT.glob("*.md"), *(path for folder in FOLDERS for path in (ROOT / folder).glob("*.md"))]
    pages = {page.name: page for page in map(Page, sorted(paths))}
    for page in pages.values():
        reader.read_page(page)
    reader.read_proof(pages["docs/proof.md"])
    reader.read_theorems(pages["docs/proof.md"])
    reader.read_scripts(pages["docs/testing.md"])
    reader.read_crates(pages["docs/architecture.md"])
    reader.read_decisions(pages["docs/DECISIONS.md"])
    reader.read_logic()
    reader.read_runs(pages["docs/guide.md"], pages["bench/RESULTS.md"])
