"""Writes hierarchies for tests and benches, also such as the program refuses."""

from collections.abc import Iterable, Mapping, Sequence


def hierarchy(
    affinities: Iterable[tuple[str, str | None]], spaces: Iterable[tuple[str, object]], maps: Iterable[tuple[str, object, Iterable[str]]],
    model: str = "hierarchical", is_large: bool = False, locks: Mapping[str, str] | None = None,
) -> str:
    """The text of affinities with their parents, of spaces with their sizes, and of maps with a unit and owners; of format 2 if it is large,
    and of format 3 with kinds of locks by the names of spaces, be these none."""
    number = 2 if locks is None else 3
    lines = [*([f"format = {number}"] if is_large or locks is not None else []), f'model = "{model}"']
    for name, parent in affinities:
        lines += ["[[affinity]]", f'name = "{name}"', *([f'parent = "{parent}"'] if parent is not None else [])]
    for name, size in spaces:
        lines += ["[[space]]", f'name = "{name}"', f"size = {size}", *([f'locks = "{locks[name]}"'] if locks and name in locks else [])]
    for name, unit, owners in maps:
        listed = ", ".join([f'"{it}"' for it in owners])
        lines += ["[[map]]", f'space = "{name}"', f"unit = {unit}", f"to = [{listed}]"]
    return "\n".join(lines) + "\n"


def of_numbers(
    parents: Sequence[int], spaces: Iterable[tuple[str, int, int, Sequence[int]]], model: str = "hierarchical", is_large: bool = False,
    locks: Mapping[str, str] | None = None,
) -> str:
    """The text of the affinities a0, a1, .., of which the first is the root, and of spaces with a size, a unit and owners: without owners
    there is no map."""
    found = list(spaces)
    return hierarchy(
        [(f"a{number}", f"a{parent}" if number else None) for number, parent in enumerate(parents)],
        [(name, size) for name, size, _, _ in found],
        [(name, unit, [f"a{it}" for it in owners]) for name, _, unit, owners in found if owners],
        model, is_large, locks,
    )
