"""What the sources of the crates have that a page can name."""
import re
from collections.abc import Iterator
from pathlib import Path
from typing import Protocol

from common import ROOT, printed

TOKEN = re.compile(r"`([^`]+)`")
NAME = re.compile(r"^[A-Za-z_]\w*$")

FUNCTION = re.compile(r"^( *)(pub(?:\([a-z]+\))? )?(?:const |unsafe )*fn (\w+)(.*)")
CLAUSE = re.compile(r"^ +ensures\*? (\w+) \{")
ENSURES = re.compile(r"^ +ensures\*? (?:(\w+) )?\{")
ENDS = re.compile(r"^ +(?:requires|decreases)\b|^ *(?://.*)?$")
IMPL = re.compile(r"^ *impl(?:<[^>]*>)? (?:.* for )?&?(\w+)")
OUTPUT = re.compile(r"^ +ghost output\b")
GHOST = re.compile(r"^ +ghost \w+ =")
TYPE = re.compile(r"^ *(?:pub(?:\([a-z]+\))? )?(?:struct|enum|trait|type|union|const) (\w+)", re.M)
DEFINITION = re.compile(r"^(?:abbrev |unfoldable |record |data )*(?:pub )?(?:abbrev |record |data )?(\w+)\b.*[:=]", re.M)
RECORD = re.compile(r"^pub record (\w+)[^=]*? where\n((?: +[^\n]*\n?)*)", re.M)
FIELD = re.compile(r"^  pub (\w+) :", re.M)
# A line of a definition that begins a new one, or goes on with its equations.
EQUATION = re.compile(r"^(?:(?:abbrev|unfoldable|record|data|pub) )*([A-Za-z_]\w*)")


class Checks(Protocol):
    """What counts checks."""

    def check(self, name: str, good: object) -> None: ...


class Function:
    """A function of a crate, with the type or the module that it belongs to, the names of its clauses and the words in them. `said` has for
    each clause its name, empty where it has none, and its text."""

    def __init__(self, name: str, owner: str | None, module: str) -> None:
        self.name = name
        self.owner = owner
        self.module = module
        self.is_law = False
        self.clauses: set[str] = set()
        self.words: set[str] = set()
        self.said: list[tuple[str, str] | None] = []

    def is_named(self, name: str) -> bool:
        """Whether a name stands for it: `call`, `Type::call` or `module::call`."""
        owner, _, call = name.rpartition("::")
        return self.name == call and owner in ("", self.owner, self.module)


class Crate:
    """A crate with its files, functions, definitions and wrong bodies."""

    def __init__(self, folder: Path, needs: list[str]) -> None:
        self.name = folder.name
        self.needs = needs
        sources = sorted((folder / "src").glob("*.rt"))
        specs = sorted((folder / "specs").glob("*.antt"))
        texts = {path: path.read_text() for path in sources + specs}
        self.files = {f"{path.parent.name}/{path.name}" for path in texts}
        self.types = {name for path in sources for name in TYPE.findall(texts[path])}
        self.words = {name for path in specs for name in DEFINITION.findall(texts[path])}
        self.edits = {path.stem for path in (folder / "must-fail").glob("*.edit")}
        # What stands at the head of the crate names nothing by itself.
        self.head = "\n".join(line[4:] for line in texts.get(folder / "src" / "lib.rt", "").splitlines() if line.startswith("//!"))
        self.names = {name for text in texts.values() for name in re.findall(r"\w+", re.sub(r"^//!.*", "", text, flags=re.M))}
        self.names |= {path.stem for path in (folder / "proofs").glob("*.antt")}
        self.functions = [f for path in sources for f in functions_of(path.stem, texts[path])]
        # The words that stand in each definition.
        self.made_of: dict[str, set[str]] = {}
        for path in specs:
            for name, words in definitions_of(texts[path]):
                self.made_of.setdefault(name, set()).update(words)
        self.laws = {f.name for f in self.functions if f.is_law}

    def find(self, name: str) -> list[Function]:
        """The functions that a name stands for."""
        return [f for f in self.functions if f.is_named(name)]


def functions_of(module: str, text: str) -> list[Function]:
    """The functions of a file, as rt fmt lays them out."""
    owner: str | None = None
    head: str | None = None
    has_output, ghosts, found = False, set[str](), list[Function]()
    for line in text.splitlines():
        if line.startswith("impl"):
            of = IMPL.match(line)
            assert of, line
            owner, has_output, ghosts = of[1], False, set()
        elif line == "}":
            owner, ghosts = None, set()
        has_output = has_output or bool(OUTPUT.match(line))
        if GHOST.match(line):
            ghosts |= words_of(line)
        start = FUNCTION.match(line)
        if start:
            indent, visibility, name, head = start.groups()
            found.append(Function(name, owner, module))
            if has_output and owner:
                found[-1].clauses.add("output")
            found[-1].words |= ghosts
        if head is None:
            continue
        found[-1].words |= words_of(line)
        read_clause(found[-1], line)
        clause = CLAUSE.match(line)
        if clause:
            found[-1].clauses.add(clause.group(1))
        if line.startswith(indent) and line[len(indent):][:1] != " " and line.endswith(("{", "{}")):
            found[-1].is_law = visibility == "pub " and head == "()" and line == f"{indent}{{}}"
            head = None
    return found


def words_of(text: str) -> set[str]:
    return set(re.findall(r"\w+", text))


def read_clause(function: Function, line: str) -> None:
    """Adds a line of the head of a function to what its clauses say."""
    begun = ENSURES.match(line)
    if begun:
        function.said.append((begun.group(1) or "", line[begun.end():]))
    elif ENDS.match(line) or not line.startswith("  "):
        function.said.append(None)
    elif function.said and function.said[-1]:
        name, text = function.said[-1]
        function.said[-1] = (name, f"{text}\n{line}")


def definitions_of(text: str) -> Iterator[tuple[str, set[str]]]:
    """The definitions of a file, line by line, each with the imported and own names that stand in it."""
    lines = [line for line in text.splitlines() if line.strip() and not line.startswith("--")]
    imported = [line for line in lines if line.startswith(("use ", "pub use "))]
    said = [line for line in lines if line not in imported]
    known = words_of(" ".join(imported)) | {it.group(1) for it in map(EQUATION.match, said) if it}
    name: str | None = None
    for line in said:
        begun = EQUATION.match(line)
        name = begun.group(1) if begun else name
        if name:
            yield name, words_of(line) & known


def fields_of(text: str) -> dict[str, set[str]]:
    """The fields of each record of a file of definitions."""
    return {name: set(FIELD.findall(body)) for name, body in RECORD.findall(text)}


def crates() -> dict[str, Crate]:
    """All crates by name, in the order of crates.txt."""
    found: dict[str, Crate] = {}
    for line in printed("dist/crates", "all").splitlines():
        head, _, needs = line.partition(":")
        name = head.split()[0]
        found[name] = Crate(ROOT / "crates" / name, needs.split())
    return found
