"""Hierarchies: read, written, and the ways of their affinities up to the root."""

import re
from collections.abc import Iterable
from dataclasses import dataclass, field

from .logs import Refusal, read_text, shown

# What a comment stands at: a table (`affinity`, `space` or `map`; `model`, `format`, `end`) and the name of its entry, none for the table itself.
Place = tuple[str, str]

# A comment begins at the first `#` outside of strings.
COMMENT = re.compile(r"""((?:[^#"']|"(?:[^"\\]|\\.)*"|'[^']*')*)(#.*)?""")
TABLE = re.compile(r"\s*(?:\[\[\s*(affinity|space|map)\s*\]\]|(affinity|space|map)\s*=\s*\[|(model)\s*=|(format)\s*=\s*\+?[23]\s*$)")
ENTRY = {"affinity": "name", "space": "name", "map": "space"}


@dataclass(slots=True)
class Comments:
    """The comments of a hierarchy: those on lines of their own before a place, and the one beside it."""

    before: dict[Place, list[str]] = field(default_factory=dict)
    beside: dict[Place, str] = field(default_factory=dict)

    @staticmethod
    def of(text: str) -> "Comments":
        """The comments of a file that is a hierarchy. One inside of an entry of several lines stands beside it."""
        found, waiting = Comments(), list[str]()
        place: Place = ("model", "")
        for line in text.splitlines():
            match = COMMENT.match(line)
            code, comment = (match[1], match[2]) if match else (line, None)
            if not code.strip():
                waiting += [comment] if comment else []
                continue
            begun = TABLE.match(code)
            if begun:
                place = (next(it for it in begun.groups() if it), "")
            named = re.search(rf"""\b{ENTRY.get(place[0], "model")}\s*=\s*["']([^"']*)["']""", code)
            if named and place[0] in ENTRY:
                place = (place[0], named[1])
            # What stands before an entry of the form [[affinity]] waits for the entry's name.
            if named or begun and "[[" not in code:
                found.before.setdefault(place, []).extend(waiting)
                waiting = []
            if comment:
                found.beside[place] = f"{found.beside[place]} {comment}" if place in found.beside else comment
        found.before["end", ""] = waiting
        return found

    def lines(self, place: Place, line: str) -> list[str]:
        """The line of a place, with what is remarked of it."""
        indent = " " * (len(line) - len(line.lstrip()))
        beside = f"  {self.beside[place]}" if place in self.beside else ""
        return [*(indent + it for it in self.before.get(place, ())), line + beside]


@dataclass(slots=True)
class Tree:
    """A hierarchy as its tables, in their order: the parent of each affinity, the size of each space, and its unit and owners."""

    model: str
    parents: dict[str, str | None]
    sizes: dict[str, int]
    maps: dict[str, tuple[int, list[str]]]
    comments: Comments = field(default_factory=Comments)
    # Whether it is of format 2 or 3, for large spaces.
    is_large: bool = False
    # The kind of locks that the cells of a space have: `exclusive` or `shared`, of spaces with locks alone. A hierarchy with such a space is of format 3.
    locks: dict[str, str] = field(default_factory=dict)
    ways: dict[str, list[str]] = field(default_factory=dict)

    def changed(self, parents: dict[str, str | None], maps: dict[str, tuple[int, list[str]]]) -> "Tree":
        """The tree with other affinities and maps, and its comments."""
        return Tree(self.model, parents, self.sizes, maps, self.comments, self.is_large, self.locks)

    def text(self) -> str:
        """The file, with the comments of what it has."""
        told = self.comments.lines
        lines = told(("model", ""), f'model = "{self.model}"')
        lines += told(("format", ""), f"format = {3 if self.locks else 2}") if self.is_large else []
        lines += ["", *told(("affinity", ""), "affinity = [")]
        for name, parent in self.parents.items():
            lines += told(("affinity", name), f'    {{ name = "{name}"' + (f', parent = "{parent}"' if parent else "") + " },")
        lines += ["]", "", *told(("space", ""), "space = [")]
        for space, size in self.sizes.items():
            locks = f', locks = "{self.locks[space]}"' if space in self.locks else ""
            lines += told(("space", space), f'    {{ name = "{space}", size = {size}{locks} }},')
        lines += ["]", "", *told(("map", ""), "map = [")]
        for space, (unit, owners) in self.maps.items():
            names = ", ".join(f'"{name}"' for name in owners)
            lines += told(("map", space), f'    {{ space = "{space}", unit = {unit}, to = [{names}] }},')
        return "\n".join([*lines, "]", *self.comments.before.get(("end", ""), ())]) + "\n"

    def way(self, affinity: str) -> list[str]:
        """The affinities from one up to the root."""
        found = self.ways.get(affinity)
        if found is None:
            found = self.ways[affinity] = [affinity]
            while (parent := self.parents[found[-1]]) is not None:
                found.append(parent)
        return found

    def owners(self, space: str, first: int, last: int) -> list[str]:
        """The affinities that cells from one to another are mapped to; none where there are no such cells."""
        if space not in self.sizes or last >= self.sizes[space]:
            return []
        unit, owners = self.maps[space]
        count = min(last // unit - first // unit + 1, len(owners))
        return [owners[(first // unit + n) % len(owners)] for n in range(count)]

    def lowest(self, owners: Iterable[str]) -> str:
        """The lowest affinity that is at or above all of these."""
        shared: list[str] = []
        for owner in owners:
            way = self.way(owner)
            if not shared:
                shared = way
            elif owner != shared[0]:
                above = set(way)
                shared = shared[next(n for n, it in enumerate(shared) if it in above) :]
        return shared[0]


def read_tree(name: str) -> Tree:
    """The hierarchy of a file; one whose tables do not fit each other is refused."""
    import tomllib  # since Python 3.11; all that reads no hierarchy does without it

    try:
        text = read_text(name).removeprefix("\ufeff")
        table = tomllib.loads(text)
        parents = {it["name"]: it.get("parent") for it in table["affinity"]}
        sizes = {it["name"]: it["size"] for it in table["space"]}
        # No text, and no 2.0.
        form = table.get("format") if type(table.get("format")) is int else 1
        rows = table.get("map", []) if form == 3 else table["map"]
        locks = {it["name"]: it["locks"] for it in table["space"] if "locks" in it} if form == 3 else {}
        if not all(it in ("exclusive", "shared") for it in locks.values()):
            raise ValueError("locks that are neither exclusive nor shared")
        maps = {it["space"]: (it["unit"], it["to"]) for it in rows}
        if [len(parents), len(sizes), len(maps)] != [len(it) for it in (table["affinity"], table["space"], rows)]:
            raise ValueError("a name that is there twice")
        # A space with locks may stand without a map.
        maps |= {it: (1, [next(iter(parents))]) for it in locks if it not in maps}
        if not all(type(it) is int for it in [*sizes.values(), *(unit for unit, _ in maps.values())]):
            raise ValueError("a size or a unit that is no whole number")
        if not all(type(it) is str for it in [table["model"], *parents, *sizes]) or not all(type(to) is list for _, to in maps.values()):
            raise ValueError("a model or a name that is no text, or no list of affinities")
        if set(maps) != set(sizes) or min(sizes.values(), default=1) < 1 or not all(unit > 0 and to for unit, to in maps.values()):
            raise ValueError("a space without a size, a map, a unit or an affinity")
        if not all(owner in parents for _, to in maps.values() for owner in to):
            raise ValueError("maps of other affinities")
        before: set[str | None] = set()
        for affinity, parent in parents.items():
            if parent not in before and (parent is not None or before):
                raise ValueError("a parent that does not stand before its child")
            before.add(affinity)
        return Tree(table["model"], parents, sizes, maps, Comments.of(text), form in (2, 3), locks)
    except (tomllib.TOMLDecodeError, UnicodeError, KeyError, TypeError, ValueError, AttributeError) as fault:
        raise Refusal(3, f"{shown(name)}: no hierarchy, `waff explain` says why ({fault})") from None
