"""Logs and other texts with damage at random."""

import random
import re

# What is put into logs where it does not belong.
FRAGMENTS = (
    b'"', b"\\", b"\\x", b"<", b">", b" = ", b") = 5", b"clone(", b"vfork( <unfinished ...>\n", b"<... clone resumed>", b"+++ exited with 0 +++",
    b"strace: Process 7 attached", b"AT_FDCWD</a>", b"[pid 5] ", b"[????????] ", b"\n", b",", b"fio version 3 iolog\n", b"#", b"'", b"\xff",
)

# Texts that stand in place of a number.
NUMBERS = (b"0", b"-1", b"00", b"1.5", b"", b"x", b"262144", b"1000001", b"18446744073709551615", b"9" * 18, b"9" * 19, b"9" * 5000, "٣".encode())


def mutated(dice: random.Random, log: bytes, kind: int) -> bytes:
    """A log with changes of a kind: bytes, fragments, numbers or lines."""
    changed = bytearray(log)
    for _ in range(dice.choice([1, 5, 50])):
        at = dice.randrange(len(changed) + 1)
        if kind % 4 == 0:
            changed[at : at + 1] = bytes([dice.choice([0, 10, 32, 40, 44, 48, 57, 60, dice.randrange(256)])])
        elif kind % 4 == 1:
            changed[at:at] = dice.choice(FRAGMENTS)
        elif kind % 4 == 2:
            found = re.compile(rb"[0-9]+").search(changed, at)
            if found:
                changed[found.start() : found.end()] = dice.choice(NUMBERS)
        else:
            lines = changed.splitlines(keepends=True)
            one, other = (dice.randrange(len(lines)) for _ in range(2)) if lines else (0, 0)
            if lines:
                lines[one : one + dice.randrange(2)] = [lines[other]] * dice.randrange(3)
            changed = bytearray(b"".join(lines))
    return bytes(changed)
