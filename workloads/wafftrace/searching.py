"""A search for a tree: one change after another, each the best one, until none gains."""

import itertools
from collections.abc import Callable, Iterable
from dataclasses import dataclass, field, replace

from .deals import Bound, Changes, Deal, homes_of, units_of
from .hierarchy import Tree
from .ranking import Order, Ranker, Row

MOST_ROUNDS = 20
# From so many of the best changes of two spaces a search goes on.
LEAPS = 3
# With so few affinities at most there is time for more.
FEW = 8
FEW_LEAPS = 12
# How many affinities of their own the spaces have in other trees from which it begins.
START_COUNTS = (1, 2, 4)
NONE_OWN = "all spaces: none of their own"
# What stands before a change that takes affinities away, so that the plan after it may be longer.
FEWER = "fewer: "
# For how many affinities a curve has the best tree.
CAPS = (4, 8, 12, 16, 24, 32, 48, 64)


@dataclass(slots=True)
class Found:
    """A tree, the change that made it, and its figures."""

    what: str
    deal: Deal
    tree: Tree
    row: Row

    def count(self) -> int:
        return len(self.tree.parents)


# A tree without figures yet.
Made = tuple[str, Deal, Tree]
# The figures that are compared, the least first; each affinity makes them larger by its price.
Priced = tuple[float, ...]


@dataclass(slots=True)
class Search:
    """A search of trees for some spaces, each of which stays within its bound. `price` is the part of a figure that an affinity has to
    gain, `most` how many there may be, and at `enough` of the figure that decides the search ends."""

    spaces: list[str]
    longest: int
    bounds: list[Bound]
    ranker: Ranker
    order: Order
    price: float
    most: int
    enough: float
    # What is done after each change.
    on_change: Callable[[Found], None] = lambda _found: None
    steps: list[Found] = field(default_factory=list)
    # For each number of affinities the best tree that was planned.
    best: dict[int, Found] = field(default_factory=dict)

    def begin(self, tree: Tree) -> bool:
        """Takes this tree as the first, and behind it, where it has too many affinities, the one without those that may go. False where
        that has too many as well."""
        self.steps += self.planned([("-", Deal.of(tree), tree)])
        if self.steps[0].count() > self.most:
            self.steps += [replace(it, what=FEWER + it.what) for it in self.planned(self.least())]
        return self.steps[-1].count() <= self.most

    def least(self) -> list[Made]:
        """The tree in which no space has affinities of its own, if it may be made."""
        first = self.steps[0]
        return self.built([(NONE_OWN, first.deal.apart(homes_of(first.tree, self.spaces), 0))])

    def improve(self) -> None:
        """Goes on from the last tree, and from other ones, each time by the best change of a space, or of two together, until none gains or
        it is enough."""
        self.rise(self.steps[-1], self.note)
        if not self.spaces or self.is_enough(self.steps[-1]):
            return
        for start in self.planned(self.starts()):
            if not self.is_enough(self.steps[-1]):
                self.follow(start)
        while self.leap():
            pass

    def leap(self) -> bool:
        """Changes two spaces together, in the ways that are best, and goes on from each, until one gains."""
        at = self.steps[-1]
        if self.is_enough(at):
            return False
        changes = itertools.chain(at.deal.trades(self.spaces), at.deal.pairs(self.spaces, self.is_few()))
        # Of trees with the same figures one is enough.
        found = {self.priced(it, at): it for it in reversed(self.planned(self.built(changes)))}
        return any(self.follow(found[it]) for it in sorted(found)[: FEW_LEAPS if self.is_few() else LEAPS])

    def starts(self) -> list[Made]:
        """Other trees from which a search may begin: all spaces have as many affinities of their own, or the same ones."""
        deal, tree = self.steps[0].deal, self.steps[0].tree
        homes = homes_of(tree, self.spaces)
        found = [(NONE_OWN, deal.apart(homes, 0))]
        for places in [homes, dict.fromkeys(homes, next(iter(tree.parents)))] if self.is_few() else [homes]:
            for count in START_COUNTS if self.is_few() else START_COUNTS[-1:]:
                found.append((f"all spaces: {count} of their own", deal.apart(places, count)))
                found.append((f"all spaces: the same {count}", deal.together(places, count)))
        return self.built(found)

    def note(self, found: Found) -> None:
        self.steps.append(found)
        self.on_change(found)

    def follow(self, start: Found) -> bool:
        """Goes on from another tree, and takes the steps of the way that gain, if its end does."""
        way = [start]
        self.rise(start, way.append)
        if not self.gains(way[-1], self.steps[-1]):
            return False
        passed: list[str] = []
        for it in way:
            passed.append(it.what)
            if self.gains(it, self.steps[-1]):
                self.note(replace(it, what="; ".join(passed)))
                passed = []
        return True

    def is_few(self) -> bool:
        return self.most <= FEW

    def is_enough(self, at: Found) -> bool:
        return self.order(at.row)[0] <= self.enough

    def rise(self, at: Found, note: Callable[[Found], None]) -> None:
        """Makes the best change of a space, or of the numbers of two, one after another, until none gains or it is enough."""
        for _ in range(MOST_ROUNDS):
            before = at
            for space in [*self.spaces, None]:
                if self.is_enough(at):
                    return
                made = self.changed(at, self.changes_of(at.deal, space), self.gains)
                if made:
                    at = made
                    note(at)
            if at is before:
                return

    def lessen(self) -> None:
        """Takes away what is not worth its price, one after another."""
        while made := self.changed(self.steps[-1], self.steps[-1].deal.fewer(self.spaces), self.is_worth):
            self.note(replace(made, what=FEWER + made.what))

    def climb(self) -> None:
        """Searches with each cap for the tree of the best figures, whatever its affinities' price: `best` has what is found."""
        steps, most = self.steps, self.most
        self.price, self.on_change = 0.0, lambda _found: None
        self.planned(self.least())
        try:
            for cap in (it for it in CAPS if it <= most):
                self.most, found = cap, self.best_of(cap)
                if found:
                    # Other trees to begin from are made of the first one.
                    self.steps = [steps[0], found]
                    self.improve()
        finally:
            self.steps, self.most = steps, most

    def best_of(self, cap: int) -> Found | None:
        """The best tree that was planned of at most so many affinities."""
        found = [it for count, it in self.best.items() if count <= cap]
        return min(found, key=lambda it: (self.order(it.row), it.count())) if found else None

    def curve(self) -> list[tuple[int, Found | None]]:
        """The best tree that was planned for each cap."""
        return [(cap, self.best_of(cap)) for cap in CAPS if cap <= self.most]

    def changed(self, at: Found, changes: Changes, is_better: Callable[[Found, Found], bool]) -> Found | None:
        """The best of these changes, if one is better."""
        better = [it for it in self.planned(self.built(changes)) if is_better(it, at)]
        return min(better, key=lambda it: (self.priced(it, at), it.count())) if better else None

    def changes_of(self, deal: Deal, space: str | None) -> Changes:
        """What is tried for a space, or for two that stay where they are."""
        if space is None:
            units_of_each = {it: units_of(deal.tree, it, self.longest) for it in self.spaces}
            return itertools.chain(deal.trades(self.spaces), deal.both_units(self.spaces, units_of_each))
        units = units_of(deal.tree, space, self.longest)
        return itertools.chain(deal.changes(space, units), deal.moves(space, self.spaces, units, self.is_few()))

    def built(self, changes: Iterable[tuple[str, Deal]]) -> list[Made]:
        """The trees of changes that may be made."""
        may_be = ((what, deal) for what, deal in changes if deal.least_count() <= self.most and deal.is_within(self.bounds))
        found = ((what, deal, deal.built()) for what, deal in may_be)
        return [(what, deal, tree) for what, deal, tree in found if tree is not None and len(tree.parents) <= self.most]

    def planned(self, made: list[Made]) -> list[Found]:
        """Trees with their figures."""
        rows = self.ranker.rank([tree for _, _, tree in made])
        found = [Found(*it, row) for it, row in zip(made, rows, strict=True)]
        for it in found:
            old = self.best.get(it.count())
            if old is None or self.order(it.row) < self.order(old.row):
                self.best[it.count()] = it
        return found

    def priced(self, new: Found, old: Found) -> Priced:
        """The figures of a tree, with the price of the affinities that it has more."""
        return tuple(it * (1 + self.price) ** max(0, new.count() - old.count()) for it in self.order(new.row))

    def gains(self, new: Found, old: Found) -> bool:
        """Whether the first of the figures is less by a thousandth, or a later one by a hundredth while none before it is more. What gains
        less is as good for this log alone."""
        for figure, before, least in zip(self.priced(new, old), self.order(old.row), (1000, 100, 100), strict=True):
            if least * figure <= (least - 1) * before and figure < before:
                return True
            if figure > before:
                return False
        return False

    def is_worth(self, new: Found, old: Found) -> bool:
        """Whether a tree has fewer affinities, and no figure loses as much as these cost."""
        figures = zip(self.order(new.row), self.priced(old, new), strict=True)
        return new.count() < old.count() and all(figure <= priced for figure, priced in figures)
