"""Files that may be longer than memory: their lines, as often as they are wanted."""

import gzip
import io
import os
import shutil
import stat
import subprocess
import sys
import tempfile
import zlib
from collections.abc import Iterator
from dataclasses import dataclass
from typing import IO

from .logs import GZIP, ZSTD, Refusal, shown

# So many bytes are read at once.
BLOCK = 1 << 18


@dataclass(frozen=True, slots=True)
class LongText:
    """The lines of a text, which end with LF or CR LF: that of a file, or a part of one that is open."""

    called: str
    file: str | int
    begin: int
    end: int

    def __iter__(self) -> Iterator[str]:
        place, open_line = self.begin, list[bytes]()
        while place < self.end and (block := self.block(place)):
            place += len(block)
            cut = block.rfind(b"\n")
            if cut >= 0:
                yield from lines_of(b"".join([*open_line, block[:cut]]))
                open_line, block = [], block[cut + 1 :]
            if block:
                open_line.append(block)
        if open_line:
            yield from lines_of(b"".join(open_line))

    def block(self, place: int) -> bytes:
        """The bytes from a place on. No file stays open for them."""
        size = min(BLOCK, self.end - place)
        try:
            if isinstance(self.file, int):
                return os.pread(self.file, size, place)
            with open(self.file, "rb", buffering=0) as file:
                file.seek(place)
                return file.read(size) or b""
        except OSError as fault:
            raise Refusal(4, f"{self.called}: {fault.strerror}") from None


def lines_of(text: bytes) -> list[str]:
    lines = text.decode("utf-8", "surrogateescape").split("\n")
    return [it.removesuffix("\r") for it in lines] if b"\r" in text else lines


class LongTexts:
    """Texts of files. What can be read but once, as standard input, and what gzip or zstd packed lies in a file of its own, which nobody else
    sees."""

    def __init__(self) -> None:
        self.kept: IO[bytes] | None = None

    def of(self, name: str) -> LongText:
        called = "standard input" if name == "-" else shown(name)
        try:
            if name == "-" and sys.stdin is None:
                raise Refusal(4, "standard input: it is closed")
            with io.BufferedReader(io.FileIO(sys.stdin.fileno() if name == "-" else name, closefd=name != "-"), BLOCK) as file:
                head, kind = file.peek(4)[:4], os.fstat(file.fileno())
                is_packed = head.startswith((GZIP, ZSTD))
                if stat.S_ISREG(kind.st_mode) and name != "-" and not is_packed:
                    return LongText(called, name, 0, kind.st_size)
                kept = self.kept = self.kept or tempfile.TemporaryFile()
                begin = kept.tell()
                if head.startswith(GZIP):
                    keep_gzip(called, file, kept)
                elif is_packed:
                    keep_zstd(called, file, kept)
                else:
                    shutil.copyfileobj(file, kept, BLOCK)
                kept.flush()
                return LongText(called, kept.fileno(), begin, kept.tell())
        except OSError as fault:
            raise Refusal(4, f"{called}: {fault.strerror}") from None


def keep_gzip(called: str, packed: IO[bytes], kept: IO[bytes]) -> None:
    """Unpacks what gzip packed."""
    with gzip.GzipFile(fileobj=packed) as file:
        while True:
            try:
                block = file.read(BLOCK)
            except (OSError, EOFError, zlib.error) as fault:
                raise Refusal(3, f"{called}: gzip made it, and it cannot be read: {fault}") from None
            if not block:
                return
            kept.write(block)


def keep_zstd(called: str, packed: IO[bytes], kept: IO[bytes]) -> None:
    """Unpacks what zstd packed."""
    kept.flush()
    with tempfile.TemporaryFile() as file:
        shutil.copyfileobj(packed, file, BLOCK)
        file.seek(0)
        try:
            done = subprocess.run(["zstd", "-dcq"], stdin=file, stdout=kept, stderr=subprocess.PIPE, check=False)
        except OSError as fault:
            raise Refusal(4, f"{called}: zstd made it, and no `zstd` can be run to read it: {fault.strerror}") from None
    if done.returncode != 0:
        raise Refusal(3, f"{called}: zstd made it, and it cannot be read: {shown(done.stderr.decode(errors='replace').strip())}")
    kept.seek(0, os.SEEK_END)
