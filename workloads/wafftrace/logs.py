"""What all readers of logs share: refusals, files, the lines that were read, and the requests that they tell of."""

import collections
import gzip
import io
import os
import re
import subprocess
import sys
import zlib
from collections.abc import Iterable, Iterator, Sequence
from dataclasses import dataclass

# How a file begins that these have packed.
GZIP = b"\x1f\x8b"
ZSTD = b"\x28\xb5\x2f\xfd"

SHOWN = 3
SHOWN_CHARACTERS = 100

# One line in so many that is not understood is told apart, or ends the import.
VERY_FEW = 1000
FEW = 10


class Refusal(Exception):
    """What ends the program with one line on standard error: a status of 2 (words), 3 (a bad file) or 4 (a file not read)."""

    def __init__(self, status: int, text: str) -> None:
        super().__init__(text)
        self.status = status


def read_bytes(name: str) -> bytes:
    """What is in a file, or in standard input for `-`."""
    try:
        if name == "-" and sys.stdin is None:
            raise Refusal(4, "standard input: it is closed")
        if name == "-":
            return sys.stdin.buffer.read()
        with open(name, "rb") as file:
            return file.read()
    except OSError as fault:
        raise Refusal(4, f"{shown(name)}: {fault.strerror}") from None


def read_head(name: str) -> bytes:
    """The first four bytes of a file, also where gzip packed it; of standard input none."""
    try:
        with open(name, "rb") if name != "-" else io.BytesIO() as file:
            first = file.read(4)
        if not first.startswith(GZIP):
            return first
        with gzip.open(name) as packed:
            return packed.read(4)
    except (EOFError, zlib.error, gzip.BadGzipFile):
        return b""
    except OSError as fault:
        raise Refusal(4, f"{shown(name)}: {fault.strerror}") from None


def unpacked(name: str, packed: bytes) -> bytes:
    """What was read, where gzip or zstd made it smaller."""
    called = "standard input" if name == "-" else shown(name)
    if packed.startswith(GZIP):
        try:
            return gzip.decompress(packed)
        except (OSError, EOFError, zlib.error) as fault:
            raise Refusal(3, f"{called}: gzip made it, and it cannot be read: {fault}") from None
    if packed.startswith(ZSTD):
        try:
            done = subprocess.run(["zstd", "-dcq"], input=packed, capture_output=True, check=False)
        except OSError as fault:
            raise Refusal(4, f"{called}: zstd made it, and no `zstd` can be run to read it: {fault.strerror}") from None
        if done.returncode != 0:
            raise Refusal(3, f"{called}: zstd made it, and it cannot be read: {shown(done.stderr.decode(errors='replace').strip())}")
        return done.stdout
    return packed


def stream_of_lines(name: str) -> Iterator[str]:
    """The lines of a file that is too large to be kept, one after another, as `read_lines` has them."""
    called = "standard input" if name == "-" else shown(name)
    try:
        if name == "-" and sys.stdin is None:
            raise Refusal(4, "standard input: it is closed")
        with io.BufferedReader(io.FileIO(sys.stdin.fileno() if name == "-" else name, closefd=name != "-"), 1 << 20) as file:
            is_packed = file.peek(4).startswith((GZIP, ZSTD))
            lines: Iterable[bytes] = unpacked(name, file.read()).splitlines(keepends=True) if is_packed else file
            for line in lines:
                yield line.removesuffix(b"\n").removesuffix(b"\r").decode("utf-8", "surrogateescape")
    except OSError as fault:
        raise Refusal(4, f"{called}: {fault.strerror}") from None


def read_text(name: str) -> str:
    """The text of a file, or of standard input for `-`, also where gzip or zstd packed it. Bytes that are no UTF-8 are kept as they
    are."""
    return unpacked(name, read_bytes(name)).decode("utf-8", "surrogateescape")


def as_name(text: str, most: int = 20) -> str:
    """A name that a client may have, made of another one."""
    return re.sub(r"[^A-Za-z0-9_.-]", "_", text).strip("-")[:most] or "log"


def stem_of(name: str) -> str:
    """The name of a file without its folder, and without the ending of what is packed."""
    found = os.path.basename(name)
    return found.removesuffix(".gz").removesuffix(".zst") or found


def is_number(word: str) -> bool:
    """Whether a word is a number that a log may have: up to 18 digits."""
    return word.isascii() and word.isdecimal() and len(word) <= 18


def read_lines(name: str) -> list[str]:
    """The lines of a file, which end with LF or CR LF."""
    return lines_of(read_text(name))


def lines_of(text: str) -> list[str]:
    """The lines of a text, which end with LF or CR LF."""
    lines = [line.removesuffix("\r") for line in text.split("\n")]
    if lines[-1] == "":
        lines.pop()
    return lines


def read_plain(name: str) -> str:
    """The text of a file, each line of which ends with LF alone."""
    text = read_text(name)
    return text if "\r" not in text else "".join(line + "\n" for line in lines_of(text))


def lines_in(text: str) -> int:
    """How many lines a text has, whether its last one ends or not."""
    return text.count("\n") + (text != "" and not text.endswith("\n"))


def parts_of(text: str, size: int) -> Iterator[str]:
    """A long text in parts of whole lines, of about so many characters."""
    begun = 0
    while begun < len(text):
        end = text.find("\n", begun + size) + 1 or len(text)
        yield text[begun:end]
        begun = end


# The fields of lines of one form.
Rows = list[tuple[str, ...]]


def rows_of(text: str, form: re.Pattern[str], size: int, number: int = 1) -> Iterator[tuple[int, Rows, str]]:
    """A long text in parts, its first line of this number: the number of a part's first line, the fields of its lines where all are of
    this form, which matches whole lines, or none, and the part."""
    for part in parts_of(text, size):
        count = lines_in(part)
        rows: Rows = form.findall(part)
        yield number, rows if len(rows) == count else [], part
        number += count


def shown(text: str, most: int = SHOWN_CHARACTERS) -> str:
    """A text on one line, cut where it is long; a backslash as two, bytes that are no printable ASCII as `\\xHH`."""
    bytes_shown = text[:most].replace("\\", "\\\\").encode("utf-8", "surrogateescape")
    plain = "".join(chr(byte) if 32 <= byte < 127 else f"\\x{byte:02x}" for byte in bytes_shown)
    return plain + ("..." if len(text) > most else "")


def named(text: str) -> str:
    """A name on one line, as it is but for a backslash, which is two, and bytes that are no UTF-8 or no characters that can be printed,
    which are `\\xHH`."""

    def character(it: str) -> str:
        if it == "\\":
            return "\\\\"
        return it if it.isprintable() else "".join(f"\\x{byte:02x}" for byte in it.encode("utf-8", "surrogateescape"))

    return text if text.isprintable() and "\\" not in text else "".join(map(character, text))


def counted(number: int, what: str) -> str:
    """So many of something, whose word is in the plural."""
    if number != 1:
        return f"{number:,} {what}"
    word, blank, rest = what.partition(" ")
    for many, one in (("ies", "y"), ("sses", "ss"), ("s", "")):
        if word.endswith(many):
            return f"1 {word.removesuffix(many)}{one}{blank}{rest}"
    return f"1 {what}"


def seconds(nanoseconds: int) -> str:
    """A time in seconds, without the zeros at its end."""
    return f"{nanoseconds // 10**9:,}.{nanoseconds % 10**9:09}".rstrip("0").removesuffix(".")


class Lines:
    """The lines of one log: how many there are, what became of those that no message comes of (`without`), and what else is to be told
    (`notes`). `wanted` says how such a log is recorded."""

    def __init__(self, name: str, count: int, wanted: str = "") -> None:
        self.name = "standard input" if name == "-" else named(name)
        self.count = count
        # What its lines are called.
        self.what = "lines"
        self.wanted = wanted
        self.notes: collections.Counter[str] = collections.Counter()
        self.said: list[str] = []
        self.strange: list[tuple[int, str]] = []
        self.strange_count = 0
        self.without: collections.Counter[str] = collections.Counter()
        # How many lines are at an earlier time than one before, and by how much at most, in nanoseconds.
        self.backwards = 0
        self.back = 0
        self.latest: int | None = None

    def not_understood(self, number: int, line: str) -> None:
        self.strange_count += 1
        if len(self.strange) < SHOWN:
            self.strange.append((number, line))

    def at(self, time: int) -> None:
        """Notes the time of the next line, so that a clock that goes backwards is told."""
        if self.latest is not None and time < self.latest:
            self.backwards += 1
            self.back = max(self.back, self.latest - time)
        else:
            self.latest = time

    def report(self) -> None:
        """Tells on standard error what became of the lines that no message comes of."""
        for why, count in sorted((+self.without).items(), key=lambda item: (-item[1], item[0])):
            tell(f"{self.name}: left out: {counted(count, why)}")
        for what, count in sorted((+self.notes).items()):
            tell(f"{self.name}: {counted(count, what)}")
        for text in self.said:
            tell(f"{self.name}: {text}")
        if self.backwards:
            told = counted(self.backwards, "lines at an earlier time than one before")
            tell(f"{self.name}: {told}, by {seconds(self.back)} s at most: the trace is sorted by time")
        if self.strange_count:
            tell(f"{self.name}: left out: {counted(self.strange_count, f'{self.what} not understood')}")
            for number, line in self.strange:
                tell(f"{self.name}:{number}: {shown(line)}")
        if self.strange_count and self.strange_count + self.without["blank lines"] == self.count:
            raise Refusal(3, f"{self.name}: none of its {self.what} is understood{f': {self.wanted}' if self.wanted else ''}")

    def lost(self) -> str:
        """How much of the log is not understood."""
        return f"{self.strange_count:,} of {self.count:,} ({100 * self.strange_count / max(1, self.count):.2g} %)"


def warn_of_lost(logs: list[Lines], is_partial: bool) -> None:
    """The last line, where more than one line in a thousand of a log is not understood. With more than one in ten no trace is made, but
    where a part of the log is asked for."""
    for log in logs:
        if log.strange_count * FEW > log.count and not is_partial:
            raise Refusal(3, f"{log.name}: {log.what} not understood: {log.lost()}, more than 1 in {FEW}: no trace is made (--partial makes one of the others)")
    for log in logs:
        if log.strange_count * VERY_FEW > log.count:
            tell(f"WARNING: {log.name}: {log.what} not understood, which the trace is without: {log.lost()}")


def tell(text: str) -> None:
    """Tells something on standard error. Where nobody can read it, nothing more is told there."""
    try:
        print(f"{os.path.basename(sys.argv[0])}: {text}", file=sys.stderr, flush=True)
    except OSError:
        os.dup2(os.open(os.devnull, os.O_WRONLY), 2)


@dataclass(slots=True, eq=False)
class File:
    """A file or directory of a volume, or a device: where its bytes lie is decided when the whole log is read."""

    name: str
    inode: int
    directory: int | None = None
    links: int = 1
    size: int | None = None
    end: int = 0
    base: int = 0
    volume: str = "Vol"


@dataclass(slots=True)
class Data:
    """A request for bytes of a file or a device, in the order of the log, and whose it is. Times are in nanoseconds.

    `took` is None where the log has no latency; `kind` is read, write or free; `fresh` is the number of the first byte that the
    request is known to be the first to write, None where there is none. `later` says that its blocks are taken by another request,
    `follows` that the request is of the same call as the one before of its client.
    """

    time: int
    took: int | None
    name: str
    kind: str
    place: File
    offset: int
    length: int
    fresh: int | None = None
    client: str = "-"
    later: bool = False
    follows: bool = False


# Data that is given back or taken: the file, its first byte, the one behind its last, and free or alloc.
Blocks = tuple[File, int, int, str]


@dataclass(slots=True)
class Meta:
    """A request for what is no data: operations, each a word (read, set or add), a volume or device, one of its spaces, and the
    number of the directory or inode. One without operations makes no message: its client waits for the answer all the same."""

    time: int
    took: int | None
    name: str
    ops: list[tuple[str, str, str, int]]
    blocks: Sequence[Blocks] = ()
    client: str = "-"
    follows: bool = False


Request = Data | Meta
