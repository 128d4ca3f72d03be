"""Captures of NFS, by the text that tshark makes of them (`nfs_text.py`): calls paired with their replies, as requests over volumes."""

import collections
import shutil
import subprocess
from argparse import Namespace
from collections.abc import Iterable

from .logs import Blocks, Data, File, Lines, Meta, Refusal, Request, as_name, counted, read_head, shown, tell
from .model import VOLUME, Found, Volume, Volumes
from .nfs_calls import NAMES3, Action, Call, Fourth, Node, Nodes, Third
from .nfs_text import FIELD_OF, FIELDS, Frame, Message, Spoilt, command, frames

BLOCK = 4096
CAPTURES = (b"\xd4\xc3\xb2\xa1", b"\xa1\xb2\xc3\xd4", b"\x4d\x3c\xb2\xa1", b"\xa1\xb2\x3c\x4d", b"\x0a\x0d\x0d\x0a")
WHOLE_PACKETS = "record with whole packets, as `tcpdump -s 0` does"

NOTHING_TOLD = "?"

# What a call is called that did several things, by what is told first of them.
MAIN = "commit create open mkdir symlink mknod remove rmdir rename link setattr readdir readdirplus readlink lookup access getattr".split()
LIGHT = ("access", "getattr")

# A call that waits for its reply: itself, and the call as it was asked.
Waiting = tuple[Call, Message]
# A connection and the number of a call there.
Key = tuple[str, str]


class Pairs:
    """Calls paired with their replies by connection and number, in the order of the calls' last bytes."""

    def __init__(self, log: Lines) -> None:
        self.log = log
        self.nodes = Nodes(log)
        self.third = Third(self.nodes)
        self.calls: list[Call] = []
        self.waiting: dict[Key, Waiting] = {}
        # What each number was last asked for, and whether it was asked for once more after its reply.
        self.answered: dict[Key, int] = {}
        self.again: set[Key] = set()
        self.replies = 0
        self.idle: collections.Counter[str] = collections.Counter()
        self.failed: collections.Counter[int] = collections.Counter()
        self.lacking: collections.Counter[str] = collections.Counter()
        self.cut: str | None = None

    def read(self, text: str) -> None:
        log = self.log
        for number, line, frame in frames(text, log):
            if "rpc_xid" not in frame.lists:
                log.notes[f"frames cut short ({WHOLE_PACKETS})"] += 1
                if self.cut is None:
                    self.cut = frame.number
                    log.said.append(f"the first frame cut short is {shown(frame.number)}")
                log.not_understood(number, line)
                continue
            try:
                messages = frame.messages()
            except Spoilt as fault:
                self.lacking[str(fault)] += 1
                log.not_understood(number, line)
                continue
            for it in messages:
                self.message(frame, it)
        self.end()

    def end(self) -> None:
        """Tells of what has no pair, and what made no message."""
        without, notes = self.log.without, self.log.notes
        without["calls without a reply"] += len(self.waiting)
        if self.idle:
            names = ", ".join(f"{name} {count}" for name, count in self.idle.most_common(6))
            others = f" and {len(self.idle) - 6} others" if len(self.idle) > 6 else ""
            without[f"calls of no block, for which clients wait all the same ({names}{others})"] = self.idle.total()
        if self.failed:
            states = ", ".join(f"{status}: {count}" for status, count in sorted(self.failed.items()))
            without[f"calls that failed (status {states})"] = self.failed.total()
        for key, count in self.lacking.items():
            notes[f"frames whose {FIELD_OF.get(key, shown(key))} does not fit what their calls have"] += count

    def message(self, frame: Frame, it: Message) -> None:
        without = self.log.without
        if it.version == 0:
            without["RPCs of other programs than NFS (mount, locks)"] += 1
        elif it.version == 1 and it.status == 0:
            without["RPCs of NFS without a procedure of version 3 or 4 (encrypted, or of another version)"] += 1
        elif it.is_call:
            self.call(frame, it)
        else:
            self.reply(frame, it)

    def call(self, frame: Frame, it: Message) -> None:
        key = frame.stream, it.xid
        before = self.waiting.get(key)
        if before is not None and before[1].content() == it.content():
            self.log.without["calls sent again"] += 1
            return
        if before is None and key in self.answered and self.answered[key] == it.content():
            self.log.without["calls sent again"] += 1
            self.again.add(key)
            return
        if before is not None:
            self.log.without["calls without a reply"] += 1
        self.waiting[key] = Call(frame.source, frame.stream, it.user, frame.time), it
        self.calls.append(self.waiting[key][0])

    def reply(self, frame: Frame, it: Message) -> None:
        key = frame.stream, it.xid
        if key in self.again:
            self.again.discard(key)
            self.log.without["replies to calls sent again"] += 1
            return
        found = self.waiting.pop(key, None)
        if found is None:
            self.log.without["replies to calls with a reply already, or not understood"] += 1
            return
        call, asked = found
        self.replies += 1
        self.answered[key] = asked.content()
        call.took = max(0, frame.time - call.time)
        if it.version == 1:
            self.failed[it.status] += 1
        elif (asked.version, asked.procedure) != (it.version, it.procedure):
            self.log.without["replies of another procedure than their calls"] += 1
        elif it.version == 3:
            self.answer3(call, asked, it)
        else:
            self.answer4(call, asked, it)

    def answer3(self, call: Call, asked: Message, it: Message) -> None:
        if self.third.take(call, asked.procedure, asked.has, it.status, it.has):
            return
        if it.status:
            self.failed[it.status] += 1
        else:
            self.idle[NAMES3[asked.procedure]] += 1

    def answer4(self, call: Call, asked: Message, it: Message) -> None:
        walk = Fourth(self.nodes, call)
        walk.walk(asked.operations, it.operations)
        if walk.failed is not None:
            self.failed[walk.failed] += 1
        elif not call.actions:
            self.idle.update(list(walk.idle)[:1] or ["null" if asked.procedure == 0 else "putfh"])


class Systems:
    """The volumes: one for each file system that the replies tell, else for each export that a client asked the root for."""

    def __init__(self) -> None:
        self.keys: dict[Node, str] = {}
        self.volumes: dict[str, Volume] = {}
        # How many nodes are of an export, as of no file system that is told, and how many of neither.
        self.by_export = 0
        self.unknown = 0
        self.files: dict[Node, File] = {}

    def place(self, nodes: Iterable[Node]) -> None:
        """Makes a volume for each file system, in the order in which they were met."""
        found = {node: told_of(node) for node in dict.fromkeys(nodes)}
        systems: dict[str, str] = {}
        for system, export in found.values():
            if system and export:
                systems.setdefault(export, system)
        for node, (system, export) in found.items():
            self.keys[node] = system or systems.get(export, export) or NOTHING_TOLD
        # What nothing is known of, and the server's root, is of the only volume there is, or of one of its own.
        keys = list(dict.fromkeys(self.keys.values()))
        known = [it for it in keys if it not in (NOTHING_TOLD, "/")]
        keys = known if len(known) == 1 else keys
        for number, key in enumerate(keys, 1):
            self.volumes[key] = Volume(VOLUME if len(keys) == 1 else f"{VOLUME}{number}")
        self.unknown = sum(it == NOTHING_TOLD for it in self.keys.values())
        self.by_export = sum(it.startswith("/") for it in self.keys.values())

    def file(self, node: Node) -> File:
        node = node.whole()
        found = self.files.get(node)
        if found is None:
            volume = self.volumes.get(self.keys.get(node, NOTHING_TOLD)) or next(iter(self.volumes.values()))
            number = f"{node.system}/{node.number}" if node.system and node.number else ""
            found = self.files[node] = volume.new_file(number)
        return found

    def volume(self, file: File) -> Volume:
        return next(it for it in self.volumes.values() if it.name == file.volume)


def told_of(node: Node) -> tuple[str, str]:
    """The file system of a node, or of the next folder above that is known, and the export in which it was found; empty where they are not
    told."""
    system = export = ""
    way: set[Node] = set()
    at: Node | None = node
    while at is not None and not export and at not in way:
        system, export = system or at.system or "", at.export or ""
        way.add(at)
        at = at.found_in.whole() if at.found_in else None
    return system, export


class Requests:
    """The requests of calls, in their order."""

    def __init__(self, systems: Systems, asked: Namespace) -> None:
        self.systems = systems
        self.is_by_commit: bool = asked.alloc == "commit"
        self.takes_all: bool = asked.blocks == "all"
        self.with_entries: bool = asked.entries
        self.found: list[Request] = []
        self.client = "-"
        # What of a file nothing was written to yet, though it is longer; and what waits for a commit.
        self.holes: dict[File, list[tuple[int, int]]] = collections.defaultdict(list)
        self.uncommitted: dict[File, list[tuple[int, int]]] = collections.defaultdict(list)

    def add(self, call: Call, client: str) -> None:
        self.client = client
        first = len(self.found)
        waiting: list[Action] = []
        for it in call.actions:
            if it.name in ("read", "write"):
                self.together(call, waiting)
                waiting = []
                self.moved(call, it)
            else:
                waiting.append(it)
        self.together(call, waiting, len(self.found) == first)
        for node, size in call.sizes:
            file = self.systems.file(node)
            file.size = size if file.size is None else file.size
        parts = self.found[first:]
        if not parts:
            self.found.append(Meta(call.time, call.took, "", [], client=client))
        elif len(parts) > 1:
            share(parts, call.took)

    def meta(self, call: Call, name: str, ops: list[tuple[str, str, str, int]], blocks: list[Blocks]) -> None:
        self.found.append(Meta(call.time, call.took, name, list(dict.fromkeys(ops)), blocks, self.client))

    def together(self, call: Call, actions: list[Action], are_alone: bool = False) -> None:
        """One request for all that a call does to folders and inodes. What it looks at beside that reads nothing more."""
        kept = [it for it in actions if it.name not in LIGHT] or (actions[:1] if are_alone else [])
        if not kept:
            return
        name = min((it.name for it in kept), key=MAIN.index)
        ops: list[tuple[str, str, str, int]] = []
        blocks: list[Blocks] = []
        volume = ""
        for it in kept:
            told, given = self.operations(it)
            # The way to an export may lead through the server's root: then what the call does in the end is of one volume.
            if told and told[-1][1] != volume:
                volume, ops, blocks = told[-1][1], [], []
            ops += [op for op in told if op[1] == volume]
            blocks += given
        self.meta(call, name, ops, blocks)
        for it in kept:
            if it.name in ("setattr", "create"):
                self.cut(call, it)

    # Cells

    def cell(self, word: str, node: Node) -> tuple[str, str, str, int]:
        """The cell of a folder or an inode."""
        file = self.systems.file(node)
        if node.whole().is_folder:
            return "add" if word == "set" else word, file.volume, "dir", self.systems.volume(file).directory(file)
        return word, file.volume, "inode", file.inode

    def operations(self, it: Action) -> tuple[list[tuple[str, str, str, int]], list[Blocks]]:
        """What an action reads and sets of folders and inodes, and the blocks that it takes or gives back."""
        node, other, folder = it.node.whole(), it.other.whole() if it.other else None, it.folder.whole() if it.folder else None
        if it.name in ("create", "mkdir", "symlink", "mknod") and folder and not it.is_new:
            # Of a name that was there the folder is read alone, but for a size that is set.
            blocks = self.resized(node, it.size)
            return [self.cell("read", folder), *([self.cell("set", node)] if it.size is not None else [])], blocks
        if it.name in ("create", "mkdir", "symlink", "mknod", "link") and folder:
            if it.name == "link":
                self.systems.file(node).links += 1
            elif it.name == "create":
                self.made(node, it.size)
            return [self.cell("set", folder), self.cell("set", node)], []
        if it.name == "rename" and folder:
            moved = [self.cell("set", other)] if other else []
            gone, blocks = self.gone(it.gone.whole()) if it.gone else ([], [])
            return [self.cell("set", node), self.cell("set", folder), *moved, *gone], blocks
        if it.name in ("remove", "rmdir"):
            gone, blocks = self.gone(other) if other else ([], [])
            return [self.cell("set", node), *gone], blocks
        if it.name == "setattr":
            return [self.cell("set", node)], self.resized(node, it.size)
        if it.name == "commit":
            return [self.cell("read", node)], self.committed(self.systems.file(node), it.offset, it.length)
        if it.name == "open" and folder:
            return [self.cell("read", folder), self.cell("read", node)], []
        if it.name == "lookup":
            found = [self.cell("read", other)] if other and it.with_inode and not other.is_folder else []
            return [self.cell("read", node), *found], []
        entries = [self.cell("read", entry.whole()) for entry in it.entries] if self.with_entries else []
        return [self.cell("read", node), *entries], []

    # Data

    def moved(self, call: Call, it: Action) -> None:
        """A read or a write."""
        node = it.node.whole()
        if it.length == 0:
            self.meta(call, it.name, [self.cell("read", node)], [])
            return
        file, end = self.systems.file(node), it.offset + it.length
        found = Data(call.time, call.took, it.name, it.name, file, it.offset, it.length, client=self.client)
        if it.name == "write":
            found.fresh = self.written(file, it.offset, end)
            found.later = self.is_by_commit and it.is_unstable
            if found.later and (found.fresh is not None or self.takes_all):
                self.uncommitted[file].append((it.offset if self.takes_all else found.fresh or 0, end))
        file.end = max(file.end, end)
        self.found.append(found)

    def written(self, file: File, first: int, end: int) -> int | None:
        """The first byte of a write that takes a new block: behind the end of the file, or in a hole; None where there is none."""
        if file.size is None:
            return None
        fresh = None
        if end > file.size:
            fresh = max(first, file.size)
            if first > file.size:
                self.holes[file].append((file.size, first))
            file.size = end
        holes = self.holes.get(file)
        if holes:
            left: list[tuple[int, int]] = []
            for begun, stop in holes:
                if begun < end and first < stop:
                    fresh = min(max(begun, first), end if fresh is None else fresh)
                    left += [it for it in ((begun, min(stop, first)), (max(begun, end), stop)) if it[0] < it[1]]
                else:
                    left.append((begun, stop))
            self.holes[file] = left
        return fresh

    def made(self, node: Node, size: int | None) -> None:
        """A file was made, without data."""
        file = self.systems.file(node)
        file.size = size or 0
        if size:
            self.holes[file] = [(0, size)]

    def resized(self, node: Node, size: int | None) -> list[Blocks]:
        """A size is set. A shorter file gives back blocks."""
        file = self.systems.file(node)
        if size is None:
            return []
        end = file.end if file.size is None else file.size
        if file.size is not None and size > file.size:
            self.holes[file].append((file.size, size))
        elif size < end:
            self.holes[file] = [(first, min(stop, size)) for first, stop in self.holes.get(file, []) if first < size]
            self.uncommitted[file] = [(first, min(stop, size)) for first, stop in self.uncommitted.get(file, []) if first < size]
        file.size = size
        end = min(end, file.end)
        return [(file, size, end, "free")] if size < end else []

    def cut(self, call: Call, it: Action) -> None:
        """The cell in which a file ends now is written, where it was longer."""
        file = self.systems.file(it.node)
        if it.size is not None and it.size % BLOCK and it.size < file.end:
            self.found.append(Data(call.time, call.took, it.name, "write", file, it.size - 1, 1, client=self.client))

    def gone(self, node: Node) -> tuple[list[tuple[str, str, str, int]], list[Blocks]]:
        """A name of a file is gone, and with the last one its blocks."""
        file = self.systems.file(node)
        if node.is_folder:
            return [self.cell("set", node)], []
        file.links -= 1
        end = file.end if file.size is None else min(file.end, file.size)
        return [self.cell("set", node)], [(file, 0, end, "free")] if file.links == 0 and end else []

    def committed(self, file: File, first: int, length: int) -> list[Blocks]:
        """The blocks that a commit takes: of what was written before it, in its bytes; a length of 0 is up to the end."""
        if not self.is_by_commit:
            return []
        end = first + length if length else 1 << 64
        taken: list[tuple[int, int]] = []
        left: list[tuple[int, int]] = []
        for begun, stop in sorted(self.uncommitted.get(file, [])):
            if stop <= first or begun >= end:
                left.append((begun, stop))
            elif taken and begun <= taken[-1][1]:
                taken[-1] = taken[-1][0], max(taken[-1][1], stop)
            else:
                taken.append((begun, stop))
        self.uncommitted[file] = left
        return [(file, begun, stop, "alloc") for begun, stop in taken]


def share(parts: list[Request], took: int) -> None:
    """Shares the latency of a call among its requests, by their bytes; what is no data counts as much as a KiB. They follow each other."""
    weights = [it.length if isinstance(it, Data) else 1024 for it in parts]
    whole, before, sum_so_far = sum(weights), 0, 0
    for at, (it, weight) in enumerate(zip(parts, weights, strict=True)):
        sum_so_far += weight
        upto = took * sum_so_far // whole
        it.took, before, it.follows = upto - before, upto, at > 0


class Clients:
    """What the clients of calls are called, by what they are."""

    def __init__(self, kind: str | None) -> None:
        self.kind = kind
        self.names: dict[tuple[str, str], str] = {}
        self.known: set[str] = set()

    def of(self, call: Call) -> str:
        if self.kind is None:
            return "-"
        key = (call.user, "") if self.kind == "uid" else (call.host, call.stream if self.kind == "mount" else "")
        found = self.names.get(key)
        if found is None:
            host = f"uid{call.user or '-'}" if self.kind == "uid" else call.host
            stem = as_name(host.replace(":", "."), 18) + (f"_{call.stream}" if self.kind == "mount" else "")
            names = (stem, *(f"{stem}-{number}" for number in range(2, len(self.known) + 3)))
            found = self.names[key] = next(it for it in names if it not in self.known)
            self.known.add(found)
        return found


def how(asked: Namespace) -> str:
    """The line of shell that makes the text of a capture. What this machine lacks for it is told."""
    if not shutil.which("tshark"):
        tell("no tshark is on the path here (Debian: apt-get install tshark)")
    else:
        done = subprocess.run(["tshark", "-G", "fields"], capture_output=True, text=True, errors="replace", check=False)
        known = {words[2] for words in (line.split("\t", 3) for line in done.stdout.splitlines() if line.startswith("F\t")) if len(words) > 2}
        lacking = [it for it in FIELDS if it not in known]
        if lacking:
            tell(f"the tshark of this machine lacks {', '.join(lacking)}: take 4.0 or later")
    tell(f"{WHOLE_PACKETS}: of a packet that is cut no call is known")
    return command(asked.how, asked.port) + "\n"


def read(asked: Namespace) -> Found:
    """What a capture tells."""
    if read_head(asked.text).startswith(CAPTURES):
        raise Refusal(3, f"{shown(asked.text)}: this is a capture, and its text is wanted: waff-trace nfs --how {shown(asked.text)}")
    log = Lines(asked.text, 0, "`waff-trace nfs --how CAPTURE` prints the command that makes such a text")
    log.what = "frames"
    paired = Pairs(log)
    paired.read(asked.text)
    log.said.insert(0, f"{counted(len(paired.calls), 'calls')}, {paired.replies:,} of them with a reply")
    if not log.count:
        log.said.append("there is no frame: what did tshark say? (waff-trace nfs --how CAPTURE prints its command)")
    answered = [it for it in paired.calls if it.took >= 0]
    systems = Systems()
    systems.place(nodes_of(answered))
    found = Requests(systems, asked)
    names = Clients(asked.clients)
    for call in answered:
        found.add(call, names.of(call))
    requests = found.found if any(isinstance(it, Data) or it.ops for it in found.found) else []
    if systems.by_export:
        told = counted(systems.by_export, "files and folders of a file system that no reply tells")
        log.said.append(f"{told}: they are of the volume of the export that clients asked for")
    if systems.unknown:
        log.said.append(f"{counted(systems.unknown, 'files and folders of no file system and no export that is told')}: they are of one volume")
    volumes = list(systems.volumes.values())
    if len(volumes) == 1:
        return Found(volumes[0], requests, [log])
    return Found(Volumes(volumes), requests, [log])


def nodes_of(calls: list[Call]) -> Iterable[Node]:
    """The nodes that calls name, in their order."""
    for call in calls:
        for it in call.actions:
            for node in (it.node, it.other, it.folder, it.gone):
                if node is not None:
                    yield node.whole()
