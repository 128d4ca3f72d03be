"""Parts of random traces, for the tests that make them."""

import random

import traces

HEADERS = {version: ",".join(names) for names, version in traces.HEADERS.items()}

# What stands in place of a list of the third message: only the last three are right.
LISTS = (" ", "1  2", " 1", "1 ", "1\t2", "1+", "+1", "1+01", "01", "0", "3", "4", "2 2", "2 1", "1+10000001", "2+18446744073709551616",
         "18446744073709551617", "-1", "a", "1+-1", "1 +2", "1;2", "1.0", '"1,2"', "1+10000000", "1+0 2", "")
WRONG_LISTS = LISTS[:-3]


def pieces(dice: random.Random, number: int, late: int, own: list[int]) -> str:
    """Some earlier messages that the one of this number awaits: mostly few, and at times all, just before it or anywhere; the last of its
    own client, which are these, more often."""
    earlier = range(max(1, number - dice.choice([2, 4, number])), number)
    found = dice.sample(earlier, min(len(earlier), dice.choice([0, 0, 0, 1, 1, 2, 3, number])))
    found = sorted({*found, *own[-1:]} if dice.random() < 0.3 else found)
    return " ".join(f"{it}{dice.choice(['', '', '+0', f'+{dice.randint(0, late)}'])}" for it in found)
