"""What paths and descriptors of a log of strace name: files of a volume, or what lies outside of it."""

import posixpath
import re
from dataclasses import dataclass
from typing import TypeGuard

from .logs import Blocks, File, Lines, is_number, named
from .model import Volume
from .processes import PATH_SHOWN, Open, Process

TEXT = r'"((?:[^"\\]|\\.)*)"'
DESCRIPTOR = re.compile(rf"(\d{{1,9}})(?:{PATH_SHOWN})?", re.ASCII)
PATH = re.compile(rf"(?:(AT_FDCWD|\d{{1,9}})(?:{PATH_SHOWN})?, )?" + TEXT, re.ASCII)
ESCAPED = re.compile(r"\\(x[0-9a-f]{2}|[0-7]{1,3}|.)", re.ASCII)
LETTERS = {"n": "\n", "t": "\t", "r": "\r", "v": "\v", "f": "\f"}

NO_FILES = ("/dev/", "/proc/", "/sys/")
SAY_FOLDER = "--cwd FOLDER says where the log begins; strace -y logs all folders"
IN_NO_FOLDER = f"calls on names in folders not known ({SAY_FOLDER})"
NOT_OPENED = "calls on descriptors of no file that the log opens (pipes, sockets, or open before: strace -y names those)"


def unescaped(text: str) -> str:
    """A path as it is, where strace shows bytes of it as `\\303`, `\\xc3` (-x, -xx) or `\\n`."""
    if "\\" not in text:
        return text

    def character(match: re.Match[str]) -> str:
        word = match[1]
        if len(word) == 3 and word[0] == "x":
            return chr(int(word[1:], 16))
        return chr(int(word, 8) & 255) if word[0] in "01234567" else LETTERS.get(word, word)

    # Bytes that were read as UTF-8 are bytes again first, as those that are shown are.
    found = ESCAPED.sub(character, text.encode("utf-8", "surrogateescape").decode("latin-1"))
    return found.encode("latin-1").decode("utf-8", "surrogateescape")


def absolute(path: str | None) -> str | None:
    """A path that strace shows of a descriptor; None where it is none (a pipe, a socket)."""
    found = unescaped(path) if path else ""
    return found.removesuffix(" (deleted)") if found.startswith("/") else None


def joined(base: str | None, name: str) -> str:
    """The path of a name in a folder, where that is known."""
    path = posixpath.normpath(f"{base}/{name}" if base and not name.startswith("/") else name)
    return path[1:] if path.startswith("//") else path


# What stands for each file that is not of the volume.
ELSEWHERE = File("", 0)


@dataclass(slots=True)
class Call:
    """A call that has returned: its result, the path of it where that is a descriptor and strace shows it, its times in nanoseconds."""

    process: Process
    args: str
    result: int
    path: str | None
    time: int
    took: int | None

    def last(self, place: int = 1) -> int | None:
        """The last argument as a number, or the one before it (2); None where it is none."""
        words = self.args.rstrip(") ").rsplit(", ", place)
        return int(words[1]) if len(words) > place and is_number(words[1]) else None


class Names:
    """The files of the volume by their paths. Calls on what is no file of it are counted."""

    def __init__(self, log: Lines, under: str | None, directory: str, is_told: bool) -> None:
        """`directory` is where the first process was started, which was told or is taken to be so."""
        self.log = log
        self.under = under
        outside = f"outside of {named(under)}" if under else "in /dev, /proc or /sys"
        self.elsewhere = f"calls on files {outside}"
        self.assumed = None if is_told else directory
        self.in_assumed = f"calls on names in the first process's folder, taken to be {named(directory)} ({SAY_FOLDER})"
        self.store = Volume()
        self.paths: dict[str, File] = {}
        self.folders: set[str] = set()

    def is_outside(self, path: str) -> bool:
        if path.startswith(NO_FILES):
            return True
        return self.under is not None and path != self.under and not path.startswith(self.under + "/")

    def base(self, process: Process, start: str | None, shown: str | None) -> str | None:
        """The directory that a name begins in, None where it is not known. What strace shows of it is so."""
        shown = absolute(shown)
        if start is None or start == "AT_FDCWD":
            if shown:
                process.directory[0] = shown
            return process.directory[0]
        found = process.files.get(int(start))
        return shown or (found.path if found else None)

    def path(self, call: Call, match: re.Match[str] | None = None) -> str | None:
        """The path that a call names first, from the root or from a directory that is not known; None where it names none."""
        match = match or PATH.match(call.args)
        if match is None:
            return None
        start, shown, text = match.groups()
        base = self.base(call.process, start, shown)
        if text == "" and start not in (None, "AT_FDCWD"):
            return base
        return joined(base, unescaped(text))

    def file(self, path: str) -> File:
        file = self.paths.get(path)
        if file is None:
            self.log.notes[f"names in folders not known, which are files of their own ({SAY_FOLDER})"] += path != "." and not path.startswith("/")
            file = self.paths[path] = self.store.new_file(path)
            self.folders.add(posixpath.dirname(path))
        return file

    def parent(self, path: str) -> int:
        """The number of the directory that a path lies in."""
        return self.store.directory(self.file(posixpath.dirname(path) or "."))

    def opened(self, call: Call, args: str | None = None) -> Open | None:
        """What is open under the descriptor that stands first, None where it is no file of the volume."""
        match = DESCRIPTOR.match(call.args if args is None else args)
        if match is None:
            return None
        found = call.process.files.get(int(match[1]))
        path = absolute(match[2])
        if found is None and path:
            found = self.new_open(path, "")
            call.process.files[int(match[1])] = found
        if found is None:
            self.log.without[NOT_OPENED] += 1
        elif found.file is ELSEWHERE:
            self.count_outside(found.path)
            return None
        return found

    def new_open(self, path: str, flags: str) -> Open:
        return Open(path, ELSEWHERE if self.is_outside(path) else self.file(path), "O_APPEND" in flags)

    def is_inside(self, path: str | None) -> TypeGuard[str]:
        """Whether a path is of the volume; one that is not is counted."""
        if path is None or self.is_outside(path):
            self.count_outside(path)
            return False
        return True

    def count_outside(self, path: str | None) -> None:
        """Counts a call on what is no file of the volume, apart where that may be so only since its folder is not known."""
        if path is not None and not path.startswith("/"):
            self.log.without[IN_NO_FOLDER] += 1
        elif path is not None and self.assumed is not None and (path == self.assumed or path.startswith(self.assumed + "/")):
            self.log.without[self.in_assumed] += 1
        else:
            self.log.without[self.elsewhere] += 1

    def named(self, call: Call) -> File | None:
        """The file that a call names by a path or by a descriptor; None where it is none of the volume."""
        match = PATH.match(call.args)
        if match is None or (match[3] == "" and match[1] not in (None, "AT_FDCWD")):
            found = self.opened(call)
            return found.file if found else None
        path = self.path(call, match)
        return self.file(path) if self.is_inside(path) else None

    def gone(self, path: str) -> tuple[File, Blocks | None]:
        """Takes a name away. Answers the file and the blocks that it gives back, if that was its last name."""
        file = self.file(path)
        del self.paths[path]
        file.links -= 1
        end = file.end if file.size is None else min(file.end, file.size)
        return file, (file, 0, end, "free") if file.links == 0 and end else None

    def renamed(self, old: str, new: str) -> tuple[File, Blocks | None]:
        """Gives what lies at a path, or below it, another one. Answers the file, and the blocks that are given back of the one that was there."""
        file = self.file(old)
        blocks = self.gone(new)[1] if new in self.paths else None
        self.paths[new] = self.paths.pop(old)
        file.name = new
        self.folders.add(posixpath.dirname(new))
        if old in self.folders:
            for path in [it for it in self.paths if it.startswith(old + "/")]:
                self.paths[new + path[len(old) :]] = self.paths.pop(path)
                self.folders.add(posixpath.dirname(new + path[len(old) :]))
        return file, blocks
