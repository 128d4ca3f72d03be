"""What the calls of a log of strace ask for: requests for data, names and inodes of a volume."""

import collections
import re
from collections.abc import Callable
from functools import partial

from .logs import Blocks, Data, File, Lines, Meta, Request, is_number
from .model import VOLUME
from .order import Record
from .processes import Open, Process, Who
from .strace_names import DESCRIPTOR, ELSEWHERE, PATH, Call, Names, absolute

# Calls that order threads, and make requests where their descriptor is one of a file.
MOVES = frozenset(("read", "readv", "write", "writev"))
SIZE = re.compile(r"st_size=(\d{1,18})", re.ASCII)


class Requests:
    """The requests of the calls that have returned."""

    def __init__(self, log: Lines, names: Names, clients: str | None, order: Record | None) -> None:
        """`order` are the calls that order threads, where the trace is to have lists."""
        self.log = log
        self.names = names
        self.clients = clients
        self.order = order
        self.requests: list[Request] = []
        # Of families, which process each request is of.
        self.families: list[tuple[int, Who]] = []
        # How often each call came that asks for no data of files.
        self.idle: collections.Counter[str] = collections.Counter()

    def name_families(self, depth: int) -> None:
        """Gives each request its family, when all processes are known."""
        for at, who in self.families:
            self.requests[at].client = who.family(depth)

    def report_idle(self) -> None:
        """Tells of the calls that asked for no data."""
        if self.idle:
            most = ", ".join(f"{name} {count}" for name, count in self.idle.most_common(6))
            others = len(self.idle) - 6
            self.log.without[f"calls without data of files ({most}{f' and {others} others' if others > 0 else ''})"] = self.idle.total()

    def meta(self, call: Call, name: str, *ops: tuple[str, str, int], blocks: Blocks | None = None) -> None:
        found = [(word, VOLUME, space, number) for word, space, number in ops]
        self.requests.append(Meta(call.time, call.took, name, found, (blocks,) if blocks else (), self.client(call)))

    def client(self, call: Call) -> str:
        if self.clients is None:
            return "-"
        who = call.process.who
        if self.clients == "family":
            self.families.append((len(self.requests), who))
            return who.thread
        return who.thread if self.clients == "thread" else who.process

    def may_ask(self, process: Process, name: str, args: str) -> bool:
        """Whether a call that has begun, and orders threads, may make a request when it returns. The descriptor of a pipe or a socket is taken to be
        none of a file by then."""
        match = DESCRIPTOR.match(args)
        if name not in MOVES or match is None or self.order is None:
            return name in MOVES or name == "sendfile"
        found = process.files.get(int(match[1]))
        if found is not None:
            return found.file is not ELSEWHERE and found.path not in self.order.fifos
        path = absolute(match[2])
        return path is not None and not self.names.is_outside(path) and path not in self.order.fifos

    def needs(self, file: File) -> None:
        """The next request finds a file by its name."""
        if self.order is not None:
            self.order.needs(len(self.requests), file)

    def moved(self, call: Call, found: Open, kind: str, at: int, length: int, took: int | None) -> None:
        """A request for bytes that a call has read or written. Those of a named pipe are of no file where they order clients."""
        if self.order is not None and found.path in self.order.fifos:
            self.idle[kind] += 1
            return
        file = found.file
        if length == 0:
            self.requests.append(Meta(call.time, took, kind, [("read", VOLUME, "inode", file.inode)], (), self.client(call)))
            return
        end = at + length
        fresh: int | None = None
        if kind == "write" and file.size is not None and end > file.size:
            fresh, file.size = max(at, file.size), end
        file.end = max(file.end, end)
        self.requests.append(Data(call.time, took, kind, kind, file, at, length, fresh, self.client(call)))

    def sequential(self, call: Call, kind: str, length: int, took: int | None, found: Open) -> None:
        if kind == "write" and found.append:
            found.offset = found.file.end if found.file.size is None else found.file.size
        self.moved(call, found, kind, found.offset, length, took)
        found.offset += length

    def read_next(self, call: Call) -> None:
        found = self.names.opened(call)
        if found:
            self.sequential(call, "read", call.result, call.took, found)

    def write_next(self, call: Call) -> None:
        found = self.names.opened(call)
        if found:
            self.sequential(call, "write", call.result, call.took, found)

    def at_offset(self, call: Call, kind: str, place: int) -> bool:
        at = call.last(place)
        if at is None:
            return False
        found = self.names.opened(call)
        if found:
            self.moved(call, found, kind, at, call.result, call.took)
        return True

    def copied(self, call: Call, source: Open | None, at_source: int | None, target: Open | None, at_target: int | None) -> None:
        """A call that reads from one file and writes to another, at offsets or where these are. At the end of the one nothing is
        written to the other."""
        second = None if call.took is None or call.result == 0 else call.took // 2
        first = None if call.took is None else call.took - (second or 0)
        if call.result == 0:
            target = None
        for found, at, kind, took in ((source, at_source, "read", first), (target, at_target, "write", second)):
            if found is None:
                continue
            if at is None:
                self.sequential(call, kind, call.result, took, found)
            else:
                self.moved(call, found, kind, at, call.result, took)

    def copy_range(self, call: Call) -> bool:
        words = call.args.split(", ")
        if len(words) < 6:
            return False
        offsets = [int(it.strip("[]")) if is_number(it.strip("[]")) else None for it in (words[1], words[3])]
        self.copied(call, self.names.opened(call), offsets[0], self.names.opened(call, words[2]), offsets[1])
        return True

    def send_file(self, call: Call) -> bool:
        words = call.args.split(", ")
        if len(words) < 4:
            return False
        first = words[2].strip("[]").split(" ")[0]
        offset = int(first) if is_number(first) else None
        self.copied(call, self.names.opened(call, words[1]), offset, self.names.opened(call), None)
        return True

    def seek(self, call: Call) -> None:
        self.idle["lseek"] += 1
        match = DESCRIPTOR.match(call.args)
        found = call.process.files.get(int(match[1])) if match else None
        if found:
            found.offset = call.result
            if found.file is not ELSEWHERE and ", 0, SEEK_END" in call.args:
                found.file.size = call.result

    def open(self, call: Call, flags: str | None = None) -> bool:
        match = PATH.match(call.args)
        path = self.names.path(call, match)
        if match is None or path is None:
            return False
        flags = call.args[match.end() :] if flags is None else flags
        if "O_TMPFILE" in flags:
            path = f"{path}/#{call.time}"
        elif call.path and "O_PATH" not in flags:
            # Where symbolic links lead to.
            path = call.path
        found = self.names.new_open(path, flags) if path not in self.names.paths or self.names.is_outside(path) else None
        is_made = found is not None and ("O_CREAT" in flags or "O_TMPFILE" in flags)
        found = found or self.names.new_open(path, flags)
        self.put(call, call.result, found, "O_CLOEXEC" in flags)
        file = found.file
        if file is ELSEWHERE:
            self.names.count_outside(path)
        elif is_made:
            file.size = 0
            if self.order is not None:
                self.order.makes(len(self.requests), file)
                if "O_EXCL" in flags:
                    self.order.needs(len(self.requests), path)
            self.meta(call, "create", ("add", "dir", self.names.parent(path)), ("set", "inode", file.inode))
        elif "O_TRUNC" in flags:
            self.truncated(call, "open", file, 0)
        else:
            self.needs(file)
            self.meta(call, "open", ("read", "inode", file.inode))
        return True

    def create(self, call: Call) -> bool:
        return self.open(call, "O_CREAT|O_WRONLY|O_TRUNC")

    def close(self, call: Call) -> None:
        self.idle["close"] += 1
        match = DESCRIPTOR.match(call.args)
        if match:
            call.process.files.pop(int(match[1]), None)

    def close_range(self, call: Call) -> None:
        self.idle["close_range"] += 1
        words = call.args.rstrip(")").split(", ")
        first, last = (int(it) if is_number(it) else 1 << 32 for it in (words * 2)[:2])
        if "CLOSE_RANGE_CLOEXEC" in call.args:
            call.process.closing.update(it for it in call.process.files if first <= it <= last)
            return
        for descriptor in [it for it in call.process.files if first <= it <= last]:
            del call.process.files[descriptor]

    def put(self, call: Call, descriptor: int, found: Open, closes: bool) -> None:
        call.process.files[descriptor] = found
        if closes:
            call.process.closing.add(descriptor)
        else:
            call.process.closing.discard(descriptor)

    def duplicate(self, call: Call) -> None:
        self.idle["dup"] += 1
        self.duplicated(call, "O_CLOEXEC" in call.args)

    def control(self, call: Call) -> None:
        self.idle["fcntl"] += 1
        if "F_DUPFD" in call.args:
            self.duplicated(call, "F_DUPFD_CLOEXEC" in call.args)
        elif "F_SETFD" in call.args:
            match = DESCRIPTOR.match(call.args)
            if match and int(match[1]) in call.process.files:
                self.put(call, int(match[1]), call.process.files[int(match[1])], "FD_CLOEXEC" in call.args)

    def duplicated(self, call: Call, closes: bool) -> None:
        match = DESCRIPTOR.match(call.args)
        found = call.process.files.get(int(match[1])) if match else None
        if found:
            self.put(call, call.result, found, closes)
        else:
            call.process.files.pop(call.result, None)

    def status(self, call: Call) -> None:
        file = self.names.named(call)
        if file:
            size = SIZE.search(call.args)
            if size and file.size is None:
                file.size = int(size[1])
            self.needs(file)
            self.meta(call, "stat", ("read", "inode", file.inode))

    def set_status(self, call: Call) -> None:
        file = self.names.named(call)
        if file:
            self.meta(call, "setattr", ("set", "inode", file.inode))

    def list_names(self, call: Call) -> None:
        found = self.names.opened(call)
        if found:
            self.meta(call, "readdir", ("read", "dir", self.names.store.directory(found.file)))

    def flush(self, call: Call) -> None:
        found = self.names.opened(call)
        if found:
            self.meta(call, "sync", ("read", "inode", found.file.inode))

    def flush_all(self, call: Call) -> None:
        self.meta(call, "sync", ("read", "vol", 0))

    def truncated(self, call: Call, name: str, file: File, size: int) -> None:
        end = file.end if file.size is None else file.size
        file.size = size
        blocks = (file, size, min(end, file.end), "free") if size < min(end, file.end) else None
        self.meta(call, name, ("set", "inode", file.inode), blocks=blocks)

    def truncate(self, call: Call) -> bool:
        size = call.last()
        file = self.names.named(call)
        if file and size is not None:
            self.truncated(call, "truncate", file, size)
        return size is not None

    def allocate(self, call: Call) -> bool:
        words = call.args.rstrip(")").rsplit(", ", 3)
        if len(words) < 4 or not (is_number(words[2]) and is_number(words[3])):
            return False
        found, first, end = self.names.opened(call), int(words[2]), int(words[2]) + int(words[3])
        if found:
            file = found.file
            gives_back = "PUNCH_HOLE" in words[1]
            blocks = (file, first, end, "free" if gives_back else "alloc") if first < end else None
            if not gives_back and "KEEP_SIZE" not in words[1]:
                file.size = max(file.size or 0, end)
            file.end = max(file.end, end)
            self.meta(call, "fallocate", ("set", "inode", file.inode), blocks=blocks)
        return True

    def make_directory(self, call: Call) -> None:
        path = self.names.path(call)
        if self.names.is_inside(path):
            parent, file = self.names.parent(path), self.names.file(path)
            self.names.store.directory(file)
            self.meta(call, "mkdir", ("add", "dir", parent), ("set", "inode", file.inode))

    def make_link(self, call: Call) -> bool:
        texts = list(PATH.finditer(call.args))
        if len(texts) < 2:
            return False
        path, source = self.names.path(call, texts[1]), self.names.path(call, texts[0])
        if source is None:
            return False
        if self.names.is_inside(path):
            file = self.names.file(source)
            file.links += 1
            self.names.paths[path] = file
            self.meta(call, "link", ("add", "dir", self.names.parent(path)), ("set", "inode", file.inode))
        return True

    def make_symbolic_link(self, call: Call) -> bool:
        texts = list(PATH.finditer(call.args))
        if len(texts) < 2:
            return False
        path = self.names.path(call, texts[1])
        if self.names.is_inside(path):
            parent = self.names.parent(path)
            self.meta(call, "create", ("add", "dir", parent), ("set", "inode", self.names.file(path).inode))
        return True

    def remove(self, call: Call) -> None:
        path = self.names.path(call)
        if self.names.is_inside(path):
            parent = self.names.parent(path)
            file, blocks = self.names.gone(path)
            name = "rmdir" if "AT_REMOVEDIR" in call.args else "unlink"
            if self.order is not None:
                self.order.makes(len(self.requests), path)
            self.meta(call, name, ("add", "dir", parent), ("set", "inode", file.inode), blocks=blocks)

    def remove_directory(self, call: Call) -> None:
        path = self.names.path(call)
        if self.names.is_inside(path):
            parent = self.names.parent(path)
            self.meta(call, "rmdir", ("add", "dir", parent), ("set", "inode", self.names.gone(path)[0].inode))

    def rename(self, call: Call) -> bool:
        texts = list(PATH.finditer(call.args))
        if len(texts) < 2:
            return False
        old, new = self.names.path(call, texts[0]), self.names.path(call, texts[1])
        if not self.names.is_inside(old) or not self.names.is_inside(new):
            return True
        if old == new:
            self.log.without["renames to the same name"] += 1
            return True
        file, blocks = self.names.renamed(old, new)
        places = dict.fromkeys([self.names.parent(old), self.names.parent(new)])
        ops = [("add", "dir", number) for number in places]
        if self.order is not None:
            self.order.makes(len(self.requests), file, old, new)
        self.meta(call, "rename", *ops, ("set", "inode", file.inode), blocks=blocks)
        return True

    def new_program(self, call: Call) -> None:
        self.idle["execve"] += 1
        process = call.process
        process.files = {it: found for it, found in process.files.items() if it not in process.closing}
        process.closing = set()

    def change_directory(self, call: Call) -> None:
        self.idle["chdir"] += 1
        call.process.directory[0] = self.names.path(call)

    def change_to_open(self, call: Call) -> None:
        self.idle["fchdir"] += 1
        match = DESCRIPTOR.match(call.args)
        call.process.directory[0] = self.names.base(call.process, match[1], match[2]) if match else None

    def tell_directory(self, call: Call) -> None:
        self.idle["getcwd"] += 1
        path = self.names.path(call)
        if call.process.directory[0] is None and path:
            call.process.directory[0] = path


# What is done at a call, False where the arguments are not understood.
Handler = Callable[[Requests, Call], bool | None]


# What is done at each call that is modelled, or that tells of descriptors or directories; those that make processes are no part of it.
TABLE: dict[Handler, str] = {
    Requests.open: "open openat openat2",
    Requests.create: "creat",
    Requests.close: "close",
    Requests.close_range: "close_range",
    Requests.duplicate: "dup dup2 dup3",
    Requests.control: "fcntl",
    Requests.read_next: "read readv",
    Requests.write_next: "write writev",
    Requests.copy_range: "copy_file_range",
    Requests.send_file: "sendfile",
    Requests.seek: "lseek",
    Requests.status: "stat lstat fstat newfstatat statx access faccessat faccessat2 readlink readlinkat"
    " getxattr lgetxattr fgetxattr listxattr llistxattr flistxattr",
    Requests.set_status: "chmod fchmod fchmodat chown lchown fchown fchownat utime utimes utimensat futimesat"
    " setxattr lsetxattr fsetxattr removexattr lremovexattr fremovexattr",
    Requests.list_names: "getdents getdents64",
    Requests.flush: "fsync fdatasync sync_file_range",
    Requests.flush_all: "sync syncfs",
    Requests.truncate: "truncate ftruncate",
    Requests.allocate: "fallocate",
    Requests.make_directory: "mkdir mkdirat",
    Requests.make_link: "link linkat",
    Requests.make_symbolic_link: "symlink symlinkat",
    Requests.remove: "unlink unlinkat",
    Requests.remove_directory: "rmdir",
    Requests.rename: "rename renameat renameat2",
    Requests.new_program: "execve execveat",
    Requests.change_directory: "chdir",
    Requests.change_to_open: "fchdir",
    Requests.tell_directory: "getcwd",
}
AT_OFFSET = {"pread64": ("read", 1), "preadv": ("read", 1), "preadv2": ("read", 2)}
AT_OFFSET |= {"pwrite64": ("write", 1), "pwritev": ("write", 1), "pwritev2": ("write", 2)}
CALLS = {name: handler for handler, names in TABLE.items() for name in names.split()}
CALLS |= {name: partial(Requests.at_offset, kind=kind, place=place) for name, (kind, place) in AT_OFFSET.items()}
