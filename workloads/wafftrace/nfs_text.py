"""The text that tshark makes of a capture of NFS: a line of JSON for each frame, in which each field has a list of values.

A frame may have several calls or replies, and a compound has several operations. Their fields stand one behind another in the lists, so
each call, reply and operation takes what it has from the beginning of each. What is left over, or is not there, shows that the frame is
not understood.
"""

import itertools
import json
import shlex
from collections.abc import Iterator, Sequence
from dataclasses import dataclass, field

from .logs import Lines, stream_of_lines

PORT = 2049
PROGRAM = "100003"

FIELDS = """
frame.number frame.time_epoch ip.src ipv6.src tcp.stream udp.stream
rpc.xid rpc.msgtyp rpc.program rpc.auth.flavor rpc.auth.uid rpc.replystat rpc.state_accept rpc.time rpc.dup
nfs.procedure_v3 nfs.status3 nfs.fhandle nfs.name nfs.offset3 nfs.count3 nfs.write.stable nfs.write.committed
nfs.createmode nfs.set_it nfs.set_size nfs.handle_follow nfs.attributes_follow nfs.fattr3.type nfs.fattr3.size
nfs.fattr3.fsid nfs.fattr3.fileid nfs.readdirplus.entry.name nfs.readdir.entry.name nfs.procedure_v4 nfs.ops.count
nfs.opcode nfs.nfsstat4 nfs.offset4 nfs.count4 nfs.read.data_length nfs.write.data_length nfs.stable_how4
nfs.pathname.component nfs.open.opentype nfs.open.claim_type nfs.fattr4.size nfs.nfs_ftype4 nfs.fsid4.major nfs.fsid4.minor
""".split()

# Where tshark has a point in the name of a field, its JSON has `_`.
FIELD_OF = {it.replace(".", "_"): it for it in FIELDS}

# What a frame of its own has, or what is not in step with calls and operations.
NOT_IN_STEP = frozenset(
    "frame_number frame_time_epoch ip_src ipv6_src tcp_stream udp_stream rpc_program rpc_auth_flavor rpc_auth_uid rpc_replystat"
    " rpc_state_accept rpc_time rpc_dup nfs_fattr4_size nfs_fsid4_major nfs_fsid4_minor".split()
)

# What in NFSv4 is of names and attributes that a folder or a file has, and not in step with the operations.
UNUSED4 = frozenset(["nfs_nfs_ftype4", "nfs_name", "nfs_set_it", "nfs_set_size"])

# The operations of NFSv4 that the text has something of.
COMMIT, CREATE, GETATTR, GETFH, LINK, LOOKUP, LOOKUPP, OPEN, PUTFH, PUTROOTFH = 5, 6, 9, 10, 11, 15, 16, 18, 22, 24
READ, READDIR, READLINK, REMOVE, RENAME, RESTOREFH, SAVEFH, SETATTR, WRITE, ACCESS = 25, 26, 27, 28, 29, 31, 32, 34, 38, 3

# What each call of NFSv3 has, as letters of `Frame`; what its reply has if it succeeds, and if it fails.
CALLS3 = {
    0: "", 1: "h", 2: "hs", 3: "hn", 4: "h", 5: "h", 6: "hoc", 7: "hoct", 8: "hnm", 9: "hns", 10: "hns", 11: "hnk", 12: "hn", 13: "hn",
    14: "hnhn", 15: "hhn", 16: "hc", 17: "h", 18: "h", 19: "h", 20: "h", 21: "hoc",
}  # fmt: skip
REPLIES3 = {
    1: ("f", ""), 2: ("w", "w"), 3: ("haa", "a"), 4: ("a", "a"), 5: ("a", "a"), 6: ("ac", "a"), 7: ("wcv", "w"), 8: ("paw", "w"),
    9: ("paw", "w"), 10: ("paw", "w"), 11: ("paw", "w"), 12: ("w", "w"), 13: ("w", "w"), 14: ("ww", "ww"), 15: ("aw", "aw"),
    16: ("ad", "a"), 17: ("ae", "a"), 18: ("a", "a"), 19: ("a", "a"), 20: ("a", "a"), 21: ("w", "w"),
}  # fmt: skip
# The same of the operations of NFSv4; one that is not here has nothing.
CALLS4 = {
    COMMIT: "OC", CREATE: "yN", LINK: "N", 12: "O", 13: "O", 14: "O", LOOKUP: "N", OPEN: "q", PUTFH: "h", READ: "OC", REMOVE: "N",
    RENAME: "NN", 33: "N", WRITE: "OLT",
}  # fmt: skip
REPLIES4 = {GETFH: "h", READ: "R", WRITE: "CT"}
# A lock that another one holds is told with its offset.
DENIED = 10010

PLAIN = {
    "h": "nfs_fhandle", "n": "nfs_name", "o": "nfs_offset3", "c": "nfs_count3", "t": "nfs_write_stable", "v": "nfs_write_committed",
    "N": "nfs_pathname_component", "O": "nfs_offset4", "C": "nfs_count4", "L": "nfs_write_data_length", "T": "nfs_stable_how4",
    "R": "nfs_read_data_length", "y": "nfs_nfs_ftype4",
}  # fmt: skip
# Those that are no numbers.
TEXTS = "hnN"

# An attribute of NFSv3: kind, size, the file system and the number of the file; None where a reply has none.
Attributes = tuple[int, int, str, str] | None
# What a call or a reply has, in the order of its letters.
Values = list[object]


NOTHING: Values = []


class Spoilt(Exception):
    """A frame is not understood: it lacks a value of this field, or has one more."""


@dataclass(slots=True)
class Operation:
    """An operation of a compound: its number, its status (0 in a call), and what it has."""

    number: int
    status: int = 0
    has: Values = field(default_factory=lambda: NOTHING)


@dataclass(slots=True)
class Message:
    """A call or a reply: its number, the procedure and what it has; of NFSv4 the operations. A call of no NFS has version 0, and one of
    which tshark shows no procedure has version 1. The status of a reply that the server denied is -1."""

    xid: str
    is_call: bool
    version: int
    procedure: int = 0
    status: int = 0
    has: Values = field(default_factory=lambda: NOTHING)
    operations: Sequence[Operation] = ()
    user: str = ""

    def content(self) -> int:
        """A number that two calls share which ask for the same thing."""
        return hash((self.procedure, *self.has, *((it.number, *it.has) for it in self.operations)))


@dataclass(slots=True)
class Frame:
    """A frame: its number, its time in nanoseconds, who sent it, its connection, and its lists."""

    number: str
    time: int
    source: str
    stream: str
    lists: dict[str, list[str]]

    def take(self, key: str) -> str:
        found = self.lists.get(key)
        if not found:
            raise Spoilt(key)
        return found.pop(0)

    def number_of(self, key: str) -> int:
        found = self.lists.get(key)
        if not found:
            raise Spoilt(key)
        number = whole(found.pop(0))
        if number is None:
            raise Spoilt(key)
        return number

    def values(self, letters: str) -> Values:
        """What letters stand for, in their order."""
        found: Values = []
        for letter in letters:
            key = PLAIN.get(letter)
            if key is None:
                found.append(self.compound_value(letter))
            else:
                found.append(self.take(key) if letter in TEXTS else self.number_of(key))
        return found

    def compound_value(self, letter: str) -> object:
        """What a letter stands for that is more than one value."""
        match letter:
            case "f":
                return self.attributes()
            case "a":
                return self.attributes_if()
            case "w":
                self.take("nfs_attributes_follow")
                return self.attributes_if()
            case "p":
                return self.take("nfs_fhandle") if self.take("nfs_handle_follow") == "1" else None
            case "s":
                return self.size_set()
            case "k":
                return self.size_set() if self.lists.get("nfs_set_it") else None
            case "m":
                # One that is exclusive has no attributes.
                return self.size_set() if self.number_of("nfs_createmode") < 2 else None
            case "q":
                kind, claim = self.number_of("nfs_open_opentype"), self.number_of("nfs_open_claim_type")
                return kind == 1, claim, self.take("nfs_pathname_component") if claim in (0, 2, 3) else None
            case "d":
                return self.lists.pop("nfs_readdir_entry_name", [])
        return [self.entry(name) for name in self.lists.pop("nfs_readdirplus_entry_name", [])]

    def entry(self, name: str) -> tuple[str, Attributes, str | None]:
        """An entry of a folder: its name, attributes and handle."""
        attributes = self.attributes_if()
        return name, attributes, self.take("nfs_fhandle") if self.take("nfs_handle_follow") == "1" else None

    def attributes_if(self) -> Attributes:
        return self.attributes() if self.take("nfs_attributes_follow") == "1" else None

    def attributes(self) -> Attributes:
        kind, size = self.number_of("nfs_fattr3_type"), self.number_of("nfs_fattr3_size")
        return kind, size, self.take("nfs_fattr3_fsid"), self.take("nfs_fattr3_fileid")

    def size_set(self) -> int | None:
        """The size that attributes set: the fourth of six that may be set."""
        are_set = [self.take("nfs_set_it") for _ in range(6)]
        return self.number_of("nfs_set_size") if are_set[3] == "1" else None

    # Calls and replies

    def messages(self) -> list[Message]:
        """The calls and replies of the frame."""
        lists = self.lists
        numbers, kinds = lists.pop("rpc_xid"), lists.pop("rpc_msgtyp", [])
        if len(numbers) != len(kinds):
            raise Spoilt("rpc_msgtyp")
        programs = {*lists.get("rpc_program", ())}
        if PROGRAM not in programs:
            return [Message(number, kind == "0", 0) for number, kind in zip(numbers, kinds, strict=True)]
        if len(programs) > 1:
            raise Spoilt("rpc_program")
        found = [self.message(number, kind == "0") for number, kind in zip(numbers, kinds, strict=True)]
        self.sizes_of_calls(found)
        self.attributes_of_replies(found)
        for key, left in lists.items():
            if left and key not in NOT_IN_STEP and not (key in UNUSED4 and found[0].version == 4):
                raise Spoilt(key)
        return found

    def message(self, xid: str, is_call: bool) -> Message:
        lists = self.lists
        user = self.user() if is_call else ""
        if not is_call and (self.lists.get("rpc_replystat") or ["0"]).pop(0) != "0":
            return Message(xid, False, 1, status=-1)
        if not is_call and (self.lists.get("rpc_state_accept") or ["0"]).pop(0) != "0":
            return Message(xid, False, 1, status=-1)
        if lists.get("nfs_procedure_v3"):
            found = Message(xid, is_call, 3, self.number_of("nfs_procedure_v3"), user=user)
            self.version3(found)
        elif lists.get("nfs_procedure_v4"):
            found = Message(xid, is_call, 4, self.number_of("nfs_procedure_v4"), user=user)
            if found.procedure == 1:
                self.compound(found)
        else:
            found = Message(xid, is_call, 1, user=user)
        return found

    def user(self) -> str:
        """The user of a call, where its credentials are those of a system."""
        flavors = self.lists.get("rpc_auth_flavor") or []
        flavor = flavors.pop(0) if flavors else ""
        del flavors[:1]
        users = self.lists.get("rpc_auth_uid") if flavor == "1" else None
        return users.pop(0) if users else ""

    def version3(self, found: Message) -> None:
        letters = CALLS3.get(found.procedure)
        if letters is None:
            raise Spoilt("nfs_procedure_v3")
        if not found.is_call and found.procedure:
            found.status = self.number_of("nfs_status3")
            letters = REPLIES3[found.procedure][found.status != 0]
        found.has = self.values(letters)

    def compound(self, found: Message) -> None:
        count = self.number_of("nfs_ops_count")
        if not found.is_call:
            found.status = self.number_of("nfs_nfsstat4")
        numbers = [self.number_of("nfs_opcode") for _ in range(count)]
        operations: list[Operation] = []
        found.operations = operations
        if found.is_call:
            for number in numbers:
                letters = CALLS4.get(number)
                operations.append(Operation(number, 0, self.values(letters) if letters else NOTHING))
            return
        for number in numbers:
            it = Operation(number)
            operations.append(it)
            it.status = self.number_of("nfs_nfsstat4")
            if it.status == 0:
                # The handles of entries, if there are any, stand among those that come after.
                letters = REPLIES4.get(number)
                it.has = self.values(letters) if letters else NOTHING
                if number == READDIR:
                    self.rest_of_folder(operations, numbers)
                    return
            elif it.status == DENIED and number in (12, 13):
                self.take("nfs_offset4")

    def rest_of_folder(self, found: list[Operation], numbers: list[int]) -> None:
        """The operations behind one that lists a folder, of which handles are not to be trusted where entries may have some."""
        handles = self.lists.get("nfs_fhandle", [])
        left = numbers[len(found) :]
        is_clear = len(handles) == left.count(GETFH)
        for number in left:
            it = Operation(number, self.number_of("nfs_nfsstat4"))
            letters = REPLIES4.get(number, "") if it.status == 0 else ""
            if letters and (number != GETFH or is_clear):
                it.has = self.values(letters)
            found.append(it)
        if not is_clear:
            self.lists.pop("nfs_fhandle", None)

    def sizes_of_calls(self, found: list[Message]) -> None:
        """Gives the sizes that calls of NFSv4 set to those that set them, where it is clear which: it stands behind what they have."""
        sizes = self.lists.get("nfs_fattr4_size")
        if not sizes:
            return
        every = [it for message in found if message.is_call for it in message.operations]
        setting = [it for it in every if it.number == SETATTR]
        may = [it for it in every if it.number in (SETATTR, CREATE) or it.number == OPEN and is_creating(it)]
        for wanted in (may, setting):
            if len(wanted) == len(sizes):
                for it, size in zip(wanted, sizes, strict=True):
                    it.has = [*it.has, whole(size)]
                return

    def attributes_of_replies(self, found: list[Message]) -> None:
        """Gives the kinds, sizes and file systems of replies of NFSv4 to the operations that told them, where it is clear which."""
        if found[0].version != 4 or found[0].is_call:
            return
        every = [it for message in found if not message.is_call for it in message.operations if it.status == 0]
        telling = [it for it in every if it.number == GETATTR]
        if not telling or any(it.number == READDIR for it in every):
            return
        major, minor = self.lists.get("nfs_fsid4_major", []), self.lists.get("nfs_fsid4_minor", [])
        kinds, sizes = self.lists.get("nfs_nfs_ftype4", []), self.lists.get("nfs_fattr4_size", [])
        for at, it in enumerate(telling):
            kind = whole(kinds[at]) if len(kinds) == len(telling) else None
            size = whole(sizes[at]) if len(sizes) == len(telling) else None
            system = system_of(major[at], minor[at]) if len(major) == len(minor) == len(telling) else None
            it.has = [kind, size, system]


def is_creating(it: Operation) -> bool:
    first = it.has[0]
    return isinstance(first, tuple) and first[0] is True


def whole(word: str) -> int | None:
    """A number as tshark writes it, of up to 64 bits; None where it is none."""
    try:
        found = int(word, 0)
    except ValueError:
        return None
    return found if 0 <= found < 1 << 64 else None


def system_of(major: str, minor: str) -> str:
    """The file system by the two numbers of NFSv4, as NFSv3 has it in one."""
    first, second = whole(major), whole(minor)
    return f"0x{(first << 32) | second:016x}" if first is not None and second is not None else f"{major}.{minor}"


def nanoseconds(word: str) -> int:
    """Seconds since 1970, with up to nine digits behind the point, in nanoseconds."""
    seconds, _, digits = word.partition(".")
    if not (seconds.isdecimal() and (digits.isdecimal() or not digits) and len(seconds) <= 12):
        raise Spoilt("frame_time_epoch")
    return int(seconds) * 10**9 + int(digits[:9].ljust(9, "0"))


def frame_of(line: str) -> Frame | None:
    """The frame of a line; None where the line is none. A frame whose packet was cut has no number of a call."""
    try:
        lists: dict[str, list[str]] = json.loads(line)["layers"]
        if {*map(type, lists.values())} != {list}:
            return None
        # What is no text cannot be joined.
        "".join(itertools.chain.from_iterable(lists.values()))
        time = nanoseconds(lists["frame_time_epoch"][0])
    except (ValueError, TypeError, LookupError, AttributeError, RecursionError, Spoilt):
        return None
    number, source = lists.get("frame_number"), lists.get("ip_src") or lists.get("ipv6_src")
    stream = lists.get("tcp_stream") or ["u", *lists.get("udp_stream", ())]
    return Frame(number[0] if number else "", time, source[-1] if source else "", "".join(stream), lists)


def frames(name: str, log: Lines) -> Iterator[tuple[int, str, Frame]]:
    """The frames of a text, each with the number of its line and the line. Lines that are none are counted as not understood."""
    for number, line in enumerate(stream_of_lines(name), 1):
        if line.startswith('{"index":') or not line:
            continue
        log.count += 1
        frame = frame_of(line)
        if frame is None:
            log.not_understood(number, line)
        else:
            yield number, line, frame


def command(capture: str, port: int) -> str:
    """The line of shell that makes the text of a capture."""
    words = ["tshark", "-r", capture, "-n", "-o", "tcp.reassemble_out_of_order:TRUE", "-d", f"tcp.port=={port},rpc", "-Y", "rpc", "-T", "ek"]
    return shlex.join([*words, *(word for it in FIELDS for word in ("-e", it))])
