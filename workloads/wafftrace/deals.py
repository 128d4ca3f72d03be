"""How the spaces of a tree are dealt out to affinities, and what may be changed of it."""

import itertools
from collections.abc import Iterator, Sequence
from dataclasses import dataclass, replace

from . import limits
from .hierarchy import Tree
from .logs import Refusal
from .model import power_from

COUNTS = (1, 2, 3, 4, 5, 6, 7, 8, 10, 12, 16, 24, 32, 48, 64)
# How many affinities of its own a space gets where it goes elsewhere; what follows tries other numbers.
MOVED_COUNTS = (1, 2, 4, 8, 16, 64)
PAIRED_COUNTS = (1, 4, 16)
# The same, where there may be few affinities, so that more can be tried.
FEW_COUNTS = (1, 2, 3, 4, 6)
# A unit is at most so many times the largest request.
REQUESTS_A_UNIT = 16


@dataclass(slots=True)
class Group:
    """Affinities that spaces are dealt out to: leaves below one affinity, or one affinity that stays (`is_inner`)."""

    parent: str | None
    names: tuple[str, ...]
    stem: str
    is_inner: bool

    def of(self, count: int) -> "Group":
        """The group with so many affinities, named alike."""
        names = self.names if count == len(self.names) else tuple(f"{self.stem}{n}" for n in range(count))
        return Group(self.parent, names, self.stem, False)


@dataclass(frozen=True, slots=True)
class Place:
    """Below this affinity, which stays or is the only one of its own of a space."""

    affinity: str
    space: str | None


# A space, and an affinity that it has to be at or below.
Bound = tuple[str, str]
# What is changed, in words, and what it comes to.
Changes = Iterator[tuple[str, "Deal"]]


@dataclass(slots=True)
class Deal:
    """How the spaces of a tree are dealt out: the affinities that stay, the groups by name, and the group and unit of each space."""

    tree: Tree
    kept: dict[str, str | None]
    groups: dict[str, Group]
    spaces: dict[str, tuple[str, int]]

    @staticmethod
    def of(tree: Tree) -> "Deal":
        parents = tree.parents
        above = set(parents.values())
        groups: dict[str, Group] = {}
        spaces = {}
        for space, (unit, owners) in tree.maps.items():
            names = tuple(owners)
            is_inner = len(names) == 1 and (names[0] in above or parents[names[0]] is None)
            is_striped = len({parents[it] for it in names}) == 1 and len(set(names)) == len(names) and not set(names) & above
            if not is_inner and not is_striped:
                raise Refusal(3, f"{space}: its affinities are neither one nor leaves below one, and a search changes no other trees")
            groups.setdefault(names[0], Group(parents[names[0]], names, names[0].rstrip("0123456789"), is_inner))
            if groups[names[0]].names != names:
                raise Refusal(3, f"{space}: its affinities are some of another space's, and a search changes no such trees")
            spaces[space] = names[0], unit
        leaves = {name for group in groups.values() if not group.is_inner for name in group.names}
        return Deal(tree, {name: parent for name, parent in parents.items() if name not in leaves}, groups, spaces)

    def least_count(self) -> int:
        """How many affinities a tree of it has at least."""
        used = {name for name, _ in self.spaces.values()}
        return sum(len(self.groups[it].names) for it in used)

    def is_within(self, bounds: list[Bound]) -> bool:
        """Whether each of these spaces is at or below the affinity that it has to be below."""
        groups = {self.groups[name].names[0]: self.groups[name] for name, _ in self.spaces.values()}
        for space, bound in bounds:
            group = self.group(space)
            above = group.names[0] if group.names[0] == bound else group.parent
            # A group below itself is none that can be built.
            for _ in range(len(self.kept) + len(groups)):
                if above is None or above == bound:
                    break
                above = self.kept[above] if above in self.kept else groups[above].parent if above in groups else None
            if above != bound:
                return False
        return True

    def built(self) -> Tree | None:
        """The tree, without affinities that nothing is in; None where it can have no such names, or not be classical any more."""
        used = dict.fromkeys(name for name, _ in self.spaces.values())
        parents = dict(self.kept)
        waiting = [self.groups[it] for it in used if not self.groups[it].is_inner]
        # A group may stand below an affinity of another one.
        while waiting:
            ready = [it for it in waiting if it.parent in parents]
            if not ready:
                return None
            for group in ready:
                if any(name in parents or len(name) > limits.NAME for name in group.names):
                    return None
                parents |= dict.fromkeys(group.names, group.parent)
            waiting = [it for it in waiting if it not in ready]
        # A classical tree is a root with leaves.
        root = next(iter(parents))
        if self.tree.model == "classical" and any(parent not in (None, root) for parent in parents.values()):
            return None
        maps = {space: (unit, list(self.groups[name].names)) for space, (name, unit) in self.spaces.items()}
        full = {root, *(it for _, owners in maps.values() for it in owners)}
        for name in reversed(parents):
            if name in full and (above := parents[name]) is not None:
                full.add(above)
        return self.tree.changed({name: parent for name, parent in parents.items() if name in full}, maps)

    def with_unit(self, space: str, unit: int) -> "Deal":
        return replace(self, spaces={**self.spaces, space: (self.spaces[space][0], unit)})

    def with_count(self, space: str, count: int) -> "Deal":
        name = self.spaces[space][0]
        return replace(self, groups={**self.groups, name: self.groups[name].of(count)})

    def with_own(self, space: str, count: int, parent: str | None = None) -> "Deal":
        """The space has so many affinities of its own, beside those that it had, or below the one that it had, or below `parent`."""
        deal = self.freed(space)
        name, unit = deal.spaces[space]
        group = deal.groups[name]
        parent = parent or (group.names[0] if group.is_inner else group.parent)
        own = Group(parent, tuple(f"{space}{n}" for n in range(count)), space, False)
        return replace(deal, groups={**deal.groups, space: own}, spaces={**deal.spaces, space: (space, unit)})

    def freed(self, space: str) -> "Deal":
        """The same tree, in which affinities of others that are named like this space are named like one of these: so that the space may
        leave them, and have affinities of its own."""
        stems = {self.groups[name].stem for name, _ in self.spaces.values()}
        found = ((it, name) for it, (name, _) in self.spaces.items() if it != space and it not in stems)
        heir, name = next(((it, name) for it, name in found if self.groups[name].stem == space), ("", ""))
        if not heir or self.groups[name].is_inner:
            return self
        old = self.groups[name]
        names: dict[str | None, str] = {it: f"{heir}{n}" for n, it in enumerate(old.names)}
        groups = {it: replace(group, parent=names.get(group.parent, group.parent)) for it, group in self.groups.items() if it != name}
        groups[heir] = Group(old.parent, tuple(names.values()), heir, False)
        return replace(self, groups=groups, spaces={it: (heir if at == name else at, unit) for it, (at, unit) in self.spaces.items()})

    def at(self, space: str, affinity: str) -> "Deal":
        """The space has an affinity that stays, and none of its own."""
        inner = Group(self.kept[affinity], (affinity,), affinity, True)
        return replace(self, groups={**self.groups, affinity: inner}, spaces={**self.spaces, space: (affinity, self.spaces[space][1])})

    def beside(self, space: str, other: str) -> "Deal":
        """The space has the affinities of another one."""
        return replace(self, spaces={**self.spaces, space: (self.spaces[other][0], self.spaces[space][1])})

    def group(self, space: str) -> Group:
        return self.groups[self.spaces[space][0]]

    def changes(self, space: str, units: list[int]) -> Changes:
        """What may be changed for a space where it is, in words, and the deal after it."""
        name, unit = self.spaces[space]
        group = self.groups[name]
        shared = sum(it == name for it, _ in self.spaces.values()) > 1
        for other in units:
            if other != unit:
                yield f"{space}: unit {other}", self.with_unit(space, other)
        for count in COUNTS:
            if not group.is_inner and count != len(group.names):
                made = self.with_count(space, count)
                yield f"{name}: {count} of it", made
                for other in units:
                    if other != unit:
                        yield f"{name}: {count} of it; {space}: unit {other}", made.with_unit(space, other)
            if group.is_inner or shared:
                yield f"{space}: {count} of its own", self.with_own(space, count)

    def places(self, space: str, spaces: list[str]) -> list[Place]:
        """Where a space may have affinities of its own: below each that stays, and below the one of its own of another space, or the
        first one of several."""
        groups = [self.group(it) for it in spaces if it != space]
        firsts = dict.fromkeys(it.names[0] for it in groups if not it.is_inner and len(it.names) > 1)
        return [Place(it, None) for it in (*self.kept, *firsts)] + [Place(f"{it}0", it) for it in spaces if it != space]

    def placed(self, space: str, count: int, place: Place) -> "Deal":
        """The space has so many affinities of its own there. Another space that it is below has one of its own."""
        deal = self if place.space is None else self.with_own(place.space, 1)
        return deal.with_own(space, count, place.affinity)

    def moves(self, space: str, spaces: list[str], units: list[int], is_few: bool) -> Changes:
        """What may be changed for a space if it goes elsewhere; with another unit as well where there may be few affinities."""
        for what, deal in self.options(space, spaces, FEW_COUNTS if is_few else MOVED_COUNTS):
            yield what, deal
            for unit in units if is_few else ():
                if unit != deal.spaces[space][1] and len(deal.group(space).names) > 1:
                    yield f"{what}; {space}: unit {unit}", deal.with_unit(space, unit)

    def options(self, space: str, spaces: list[str], counts: Sequence[int]) -> Changes:
        """What a space may have in place of what it has."""
        deal = self.freed(space)
        for place, count in itertools.product(deal.places(space, spaces), counts):
            yield told(space, count, place), deal.placed(space, count, place)
        yield from deal.without_own(space, spaces)

    def without_own(self, space: str, spaces: list[str]) -> Changes:
        """What a space may have in place of affinities of its own: one that stays, or those of another space."""
        for affinity in self.kept:
            if self.spaces[space][0] != affinity:
                yield f"{space}: in {affinity}", self.at(space, affinity)
        for other in spaces:
            if self.spaces[other][0] != self.spaces[space][0] and not self.group(other).is_inner:
                yield f"{space}: in those of {other}", self.beside(space, other)

    def pairs(self, spaces: list[str], is_few: bool) -> Changes:
        """What may be changed for two spaces that go elsewhere together."""
        counts = FEW_COUNTS if is_few else PAIRED_COUNTS
        for space, other in itertools.combinations(spaces, 2):
            for what, deal in self.options(space, spaces, counts):
                for also, made in deal.options(other, spaces, counts):
                    yield f"{what}; {also}", made

    def trades(self, spaces: list[str]) -> Changes:
        """What may be changed for two spaces that stay where they are, of which one has more and the other fewer affinities."""
        for space, other in itertools.permutations(spaces, 2):
            one, two = self.group(space), self.group(other)
            if one.is_inner or two.is_inner or one.names == two.names:
                continue
            for count in (it for it in COUNTS if it > len(one.names)):
                made = self.with_count(space, count)
                for number in (it for it in COUNTS if it < len(two.names)):
                    yield f"{one.names[0]}: {count} of it; {two.names[0]}: {number} of it", made.with_count(other, number)

    def both_units(self, spaces: list[str], units: dict[str, list[int]]) -> Changes:
        """Other units for two spaces in the same affinities."""
        for space, other in itertools.combinations(spaces, 2):
            (name, unit), (also, width) = self.spaces[space], self.spaces[other]
            if name != also or self.groups[name].is_inner:
                continue
            for one, two in itertools.product(units[space], units[other]):
                if one != unit and two != width:
                    yield f"{space}: unit {one}; {other}: unit {two}", self.with_unit(space, one).with_unit(other, two)

    def together(self, places: dict[str, str], count: int) -> "Deal":
        """All of these spaces have the same affinities, so many, below the place of the first one."""
        first, *others = places
        deal = self.with_own(first, count, places[first])
        for space in others:
            deal = deal.beside(space, first)
        return deal

    def apart(self, places: dict[str, str], count: int) -> "Deal":
        """Each of these spaces has so many affinities of its own below its place; with none it is in the place."""
        deal = self
        for space, place in places.items():
            deal = deal.with_own(space, count, place) if count else deal.at(space, place)
        return deal

    def fewer(self, spaces: list[str]) -> Changes:
        """What leaves fewer affinities."""
        for space in spaces:
            name, group = self.spaces[space][0], self.group(space)
            for count in range(len(group.names) - 1, 0, -1):
                yield f"{name}: {count} of it", self.with_count(space, count)
            yield from self.without_own(space, spaces)


def told(space: str, count: int, place: Place) -> str:
    above = f"below {place.affinity}" if place.space is None else f"below the only one of {place.space}"
    return f"{space}: {count} of its own {above}"


def units_of(tree: Tree, space: str, longest: int) -> list[int]:
    """The units that are tried for a space: powers of two up to its size and so many times the largest request."""
    most = min(power_from(tree.sizes[space]), power_from(longest * REQUESTS_A_UNIT))
    return [1 << n for n in range(most.bit_length())]


def homes_of(tree: Tree, spaces: list[str]) -> dict[str, str]:
    """For each of these spaces the lowest affinity that is no stripe and is at or above all its owners."""
    above = set(tree.parents.values())
    found = {}
    for space in spaces:
        lowest = tree.lowest(tree.maps[space][1])
        found[space] = lowest if lowest in above else tree.parents[lowest] or lowest
    return found


def bounds_of(tree: Tree, spaces: list[str]) -> list[Bound]:
    """For each of these spaces the highest affinity above all of it that another space is mapped to, as that of a volume as a whole: it
    stays above it."""
    fixed = {owner for space, (_, owners) in tree.maps.items() if space not in spaces for owner in owners}
    found = []
    for space in spaces:
        above = [it for it in tree.way(tree.lowest(tree.maps[space][1])) if it in fixed]
        found += [(space, it) for it in above[-1:]]
    return found


# A tree by what its plans depend on.
Key = tuple[object, ...]


def key_of(tree: Tree) -> Key:
    """What is the same for two trees under which all plans are the same: affinities by the order in which cells come to them, without
    those that no cell is at or below, and units without what no cell can tell."""
    numbers: dict[str | None, int] = {None: 0}
    parents: list[int] = []
    spaces: list[tuple[int, tuple[int, ...]]] = []
    for space, (unit, owners) in tree.maps.items():
        met = owners[: -(-tree.sizes[space] // unit)]
        for owner in met:
            for it in reversed(tree.way(owner)):
                if it not in numbers:
                    numbers[it] = len(numbers)
                    parents.append(numbers[tree.parents[it]])
        spaces.append((unit if len(met) > 1 else 0, tuple(numbers[it] for it in met)))
    return tree.model, tuple(parents), tuple(spaces)
