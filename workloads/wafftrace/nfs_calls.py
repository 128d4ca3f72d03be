"""Calls of NFS with their replies: which files and folders they are of, and what each did there."""

import collections
from collections.abc import Sequence
from dataclasses import dataclass, field

from .logs import Lines
from .nfs_text import (
    ACCESS,
    COMMIT,
    CREATE,
    GETATTR,
    GETFH,
    LINK,
    LOOKUP,
    LOOKUPP,
    OPEN,
    PUTFH,
    PUTROOTFH,
    READ,
    READDIR,
    READLINK,
    REMOVE,
    RENAME,
    RESTOREFH,
    SAVEFH,
    SETATTR,
    WRITE,
    Attributes,
    Operation,
    Values,
)

# A name that is not there: its folder was read all the same.
NO_SUCH_NAME = 2
FOLDER = 2

NAMES3 = (
    "null getattr setattr lookup access readlink read write create mkdir symlink mknod remove rmdir rename link readdir readdirplus"
    " fsstat fsinfo pathconf commit"
).split()
# The operations that make no message, by what they are.
NAMES4 = {
    4: "close", 7: "delegpurge", 8: "delegreturn", 12: "lock", 13: "lockt", 14: "locku", 17: "nverify", 19: "openattr", 20: "open_confirm",
    21: "open_downgrade", 30: "renew", 33: "secinfo", 35: "setclientid", 36: "setclientid_confirm", 37: "verify", 39: "release_lockowner",
    40: "backchannel_ctl", 41: "bind_conn_to_session", 42: "exchange_id", 43: "create_session", 44: "destroy_session", 45: "free_stateid",
    47: "getdeviceinfo", 49: "layoutcommit", 50: "layoutget", 51: "layoutreturn", 52: "secinfo_no_name", 53: "sequence", 55: "test_stateid",
    57: "destroy_clientid", 58: "reclaim_complete",
}  # fmt: skip
PUTPUBFH = 23


@dataclass(slots=True, eq=False)
class Node:
    """A file or a folder by its handle, or one whose handle was not seen, by its folder and its name there. `found_in` is the folder in
    which it was found, `export` what a client asked the server's root for; `same` is the node that it turned out to be."""

    is_folder: bool = False
    system: str | None = None
    number: str | None = None
    found_in: "Node | None" = None
    export: str | None = None
    same: "Node | None" = None
    has_handle: bool = False

    def whole(self) -> "Node":
        """The node that this one is, of those that are the same."""
        found = self
        while found.same is not None:
            found = found.same
        return found


@dataclass(slots=True)
class Action:
    """What a call did: its name, the node, another one (that was found, renamed or there before), and numbers: of a read its offset and
    length, of a write whether it waits for a commit too, of what sets a size the size. `is_new` says that a name was not there before."""

    name: str
    node: Node
    other: Node | None = None
    folder: Node | None = None
    offset: int = 0
    length: int = 0
    size: int | None = None
    is_new: bool = True
    is_unstable: bool = False
    with_inode: bool = False
    gone: Node | None = None
    entries: list[Node] = field(default_factory=list)


@dataclass(slots=True)
class Call:
    """A call with its reply: whose it is, when its last byte came, how long the answer took, and what it did. `sizes` are those of files
    that are known of it first."""

    host: str
    stream: str
    user: str
    time: int
    took: int = -1
    actions: list[Action] = field(default_factory=list)
    sizes: list[tuple[Node, int]] = field(default_factory=list)


class Nodes:
    """The nodes that calls name by handles, and by the names that they have in folders."""

    def __init__(self, log: Lines) -> None:
        self.log = log
        self.by_handle: dict[str, Node] = {}
        self.by_number: dict[tuple[str, str], Node] = {}
        # What a folder has by a name; None where tshark spoilt the name, so that several may be called so.
        self.names: dict[Node, dict[str, Node | None]] = collections.defaultdict(dict)
        self.sized: set[Node] = set()
        self.root = Node(is_folder=True, export="/")

    def of(self, handle: object) -> Node:
        """The node of a handle."""
        assert isinstance(handle, str)
        found = self.by_handle.get(handle)
        if found is None:
            found = self.by_handle[handle] = Node(has_handle=True)
        return found if found.same is None else found.whole()

    def told(self, call: Call, node: Node, attributes: Attributes) -> None:
        """Takes what attributes tell of a node."""
        if attributes is None:
            return
        kind, size, system, number = attributes
        self.tells(call, node, kind, size, system)
        if node.number is None:
            node.number = number
            first = self.by_number.setdefault((system, number), node).whole()
            if first is not node:
                node.same, first.is_folder = first, first.is_folder or node.is_folder

    def tells(self, call: Call, node: Node, kind: int | None, size: int | None, system: str | None) -> None:
        node.is_folder = node.is_folder or kind == FOLDER
        node.system = node.system or system
        if size is not None and not node.is_folder and node not in self.sized:
            self.sized.add(node)
            call.sizes.append((node, size))

    def known(self, folder: Node, name: str) -> Node | None:
        found = self.names[folder].get(name)
        return found.whole() if found else None

    def put(self, folder: Node, name: str, node: Node) -> None:
        """Notes what a folder has by a name. One that is no ASCII was spoilt by tshark, and others may be called so: it is forgotten
        where it is met again."""
        folder.is_folder = True
        names = self.names[folder]
        if name.isascii() or name not in names:
            names[name] = node
        elif names[name] is not None and self.known(folder, name) is not node:
            names[name] = None
            self.log.notes["names not of ASCII, met again: tshark spoilt them, and their files are not told apart"] += 1
        if node.found_in is None and node is not folder:
            node.found_in = folder

    def take(self, folder: Node, name: str) -> Node | None:
        """Takes a name away from a folder, and answers what was called so."""
        folder.is_folder = True
        found = self.names[folder].pop(name, None)
        return found.whole() if found else None


class Third:
    """Calls of NFSv3."""

    def __init__(self, nodes: Nodes) -> None:
        self.nodes = nodes

    def take(self, call: Call, procedure: int, asked: Values, status: int, told: Values) -> bool:
        """Takes a call with its reply. Whether it did something."""
        name = NAMES3[procedure]
        if status not in (0, NO_SUCH_NAME) or status == NO_SUCH_NAME and name != "lookup":
            return False
        if name in ("null", "fsinfo", "fsstat", "pathconf"):
            return False
        node = self.nodes.of(asked[0])
        {
            "lookup": self.lookup, "read": self.read, "write": self.write, "create": self.make, "mkdir": self.make, "symlink": self.make,
            "mknod": self.make, "remove": self.remove, "rmdir": self.remove, "rename": self.rename, "link": self.link,
            "readdir": self.list_names, "readdirplus": self.list_names, "commit": self.commit, "setattr": self.set_status,
        }.get(name, self.look)(call, name, node, asked, told)  # fmt: skip
        return True

    def attributes(self, call: Call, node: Node, told: object) -> None:
        if isinstance(told, tuple):
            kind, size, system, number = told
            self.nodes.told(call, node, (kind, size, system, number))

    def look(self, call: Call, name: str, node: Node, asked: Values, told: Values) -> None:
        """GETATTR, ACCESS, READLINK."""
        self.attributes(call, node, told[0])
        call.actions.append(Action(name, node.whole()))

    def set_status(self, call: Call, name: str, node: Node, asked: Values, told: Values) -> None:
        size = asked[1]
        call.actions.append(Action(name, node, size=size if isinstance(size, int) else None))
        self.attributes(call, node, told[0])

    def lookup(self, call: Call, name: str, node: Node, asked: Values, told: Values) -> None:
        wanted = str(asked[1])
        node.is_folder = True
        if len(told) < 3:
            self.attributes(call, node, told[0])
            call.actions.append(Action(name, node.whole()))
            return
        self.attributes(call, node, told[2])
        node, found = node.whole(), self.nodes.of(told[0])
        self.attributes(call, found, told[1])
        found = found.whole()
        if wanted not in (".", ".."):
            self.nodes.put(node, wanted, found)
        call.actions.append(Action(name, node, found, with_inode=True))

    def read(self, call: Call, name: str, node: Node, asked: Values, told: Values) -> None:
        self.attributes(call, node, told[0])
        call.actions.append(Action(name, node.whole(), offset=number(asked[1]), length=number(told[1])))

    def write(self, call: Call, name: str, node: Node, asked: Values, told: Values) -> None:
        self.attributes(call, node, told[0])
        is_unstable = number(told[2]) == 0
        call.actions.append(Action(name, node.whole(), offset=number(asked[1]), length=number(told[1]), is_unstable=is_unstable))

    def commit(self, call: Call, name: str, node: Node, asked: Values, told: Values) -> None:
        self.attributes(call, node, told[0])
        call.actions.append(Action(name, node.whole(), offset=number(asked[1]), length=number(asked[2])))

    def make(self, call: Call, name: str, folder: Node, asked: Values, told: Values) -> None:
        wanted = str(asked[1])
        handle, attributes, of_folder = told
        self.attributes(call, folder, of_folder)
        folder = folder.whole()
        before = self.nodes.known(folder, wanted)
        node = self.nodes.of(handle) if handle else before or Node()
        self.attributes(call, node, attributes)
        node = node.whole()
        node.is_folder = node.is_folder or name == "mkdir"
        is_new = before is not node
        self.nodes.put(folder, wanted, node)
        size = asked[2] if name == "create" and len(asked) > 2 else None
        call.actions.append(Action(name, node, folder=folder, size=size if isinstance(size, int) else None, is_new=is_new))

    def remove(self, call: Call, name: str, folder: Node, asked: Values, told: Values) -> None:
        self.attributes(call, folder, told[0])
        folder = folder.whole()
        call.actions.append(Action(name, folder, self.nodes.take(folder, str(asked[1]))))

    def rename(self, call: Call, name: str, folder: Node, asked: Values, told: Values) -> None:
        target = self.nodes.of(asked[2])
        self.attributes(call, folder, told[0])
        self.attributes(call, target, told[1])
        renamed(self.nodes, call, folder.whole(), str(asked[1]), target.whole(), str(asked[3]))

    def link(self, call: Call, name: str, node: Node, asked: Values, told: Values) -> None:
        folder = self.nodes.of(asked[1])
        self.attributes(call, node, told[0])
        self.attributes(call, folder, told[1])
        node, folder = node.whole(), folder.whole()
        self.nodes.put(folder, str(asked[2]), node)
        call.actions.append(Action(name, node, folder=folder))

    def list_names(self, call: Call, name: str, folder: Node, asked: Values, told: Values) -> None:
        self.attributes(call, folder, told[0])
        folder = folder.whole()
        folder.is_folder = True
        found = Action(name, folder)
        entries = told[1] if name == "readdirplus" and isinstance(told[1], list) else []
        for entry, attributes, handle in entries:
            if handle and entry not in (".", ".."):
                node = self.nodes.of(handle)
                self.attributes(call, node, attributes)
                node = node.whole()
                self.nodes.put(folder, entry, node)
                found.entries.append(node)
        call.actions.append(found)


def number(value: object) -> int:
    assert isinstance(value, int)
    return value


def renamed(nodes: Nodes, call: Call, folder: Node, old: str, target: Node, new: str) -> None:
    """A name is taken from one folder to another, over what was called so there. Two names of one file stay as they are."""
    node, before = nodes.known(folder, old), nodes.known(target, new)
    if node is None or node is not before:
        nodes.take(folder, old)
        if node is None:
            nodes.take(target, new)
        else:
            nodes.put(target, new, node)
    gone = before if node is not before else None
    call.actions.append(Action("rename", folder, node, folder=target, gone=gone))


class Fourth:
    """A compound of NFSv4, walked from operation to operation: which node is the current one, and which is saved."""

    def __init__(self, nodes: Nodes, call: Call) -> None:
        self.nodes = nodes
        self.call = call
        self.current: Node | None = None
        self.saved: Node | None = None
        # The folder and the name by which the current node was found.
        self.by_name: tuple[Node, str] | None = None
        # Where the walk comes from: the names from the server's root on.
        self.way: list[str] | None = None
        self.failed: int | None = None
        self.idle: collections.Counter[str] = collections.Counter()

    def walk(self, asked: Sequence[Operation], told: Sequence[Operation]) -> None:
        """Takes the operations that were run. One that failed ends them."""
        for at, answer in enumerate(told):
            if at >= len(asked) or asked[at].number != answer.number:
                return
            is_missing = answer.status == NO_SUCH_NAME and answer.number in (LOOKUP, OPEN)
            if answer.status and not is_missing:
                self.failed = answer.status
                return
            self.step(answer.number, asked[at].has, answer.has, is_missing)
            if is_missing:
                return

    def node(self) -> Node:
        """The current node; one that no operation told of is a file of its own."""
        if self.current is None:
            self.current = Node()
        return self.current.whole()

    def step(self, operation: int, asked: Values, told: Values, is_missing: bool) -> None:
        if operation == PUTFH:
            self.current, self.by_name, self.way = self.nodes.of(asked[0]), None, None
        elif operation in (PUTROOTFH, PUTPUBFH):
            self.current, self.by_name, self.way = self.nodes.root, None, []
        elif operation == GETFH:
            if told:
                self.handle(self.nodes.of(told[0]))
        elif operation == SAVEFH:
            self.saved = self.node()
        elif operation == RESTOREFH:
            self.current, self.by_name, self.way = self.saved, None, None
        elif operation == LOOKUP:
            self.lookup(str(asked[0]), is_missing)
        elif operation == LOOKUPP:
            self.up()
        elif operation == OPEN:
            self.open(asked, is_missing)
        elif operation in (READ, WRITE, COMMIT, SETATTR):
            self.data(operation, asked, told)
        elif operation in (CREATE, REMOVE, RENAME, LINK, READDIR):
            self.change(operation, asked)
        elif operation in (ACCESS, GETATTR, READLINK):
            self.look(operation, told)
        elif operation in NAMES4:
            self.idle[NAMES4[operation]] += 1

    def handle(self, node: Node) -> None:
        """The current node has this handle: what it was known by is the same."""
        before = self.current.whole() if self.current else None
        if before is not None and before is not node and not before.has_handle and before is not self.nodes.root:
            before.same = node
            node.is_folder, node.system = node.is_folder or before.is_folder, node.system or before.system
            node.found_in = node.found_in or before.found_in
            self.moved(before, node)
        if self.way is not None:
            node.export = node.export or "/" + "/".join(self.way)
        if self.by_name:
            self.nodes.put(*self.by_name, node)
        self.current, self.by_name = node, None

    def moved(self, before: Node, node: Node) -> None:
        """What was found in a node is found in the one that it is."""
        self.nodes.names[node] |= self.nodes.names.pop(before, {})

    def child(self, folder: Node, name: str) -> Node:
        """What a folder has by a name; where that is not known, a node that is called so from now on."""
        found = self.nodes.known(folder, name)
        if found is None:
            found = Node(found_in=folder)
            if name not in self.nodes.names[folder]:
                self.nodes.put(folder, name, found)
        return found

    def lookup(self, name: str, is_missing: bool) -> None:
        folder = self.node()
        folder.is_folder = True
        if is_missing:
            self.call.actions.append(Action("lookup", folder))
            return
        found = self.child(folder, name)
        self.call.actions.append(Action("lookup", folder, found))
        self.current, self.by_name = found, (folder, name)
        if self.way is not None:
            self.way.append(name)

    def up(self) -> None:
        folder = self.node()
        folder.is_folder = True
        self.call.actions.append(Action("lookup", folder, folder.found_in))
        self.current, self.by_name, self.way = folder.found_in, None, None

    def open(self, asked: Values, is_missing: bool) -> None:
        """By a name in the current folder, or by the current handle."""
        first = asked[0]
        assert isinstance(first, tuple)
        is_creating, _, name = first
        if name is None:
            self.call.actions.append(Action("open", self.node(), is_new=False))
            return
        folder = self.node()
        folder.is_folder = True
        if is_missing:
            self.call.actions.append(Action("lookup", folder))
            return
        is_new = is_creating and self.nodes.known(folder, name) is None
        size = asked[1] if len(asked) > 1 and isinstance(asked[1], int) else None
        node = self.child(folder, name)
        self.call.actions.append(Action("create" if is_creating else "open", node, folder=folder, size=size, is_new=is_new))
        self.current, self.by_name, self.way = node, (folder, name), None

    def data(self, operation: int, asked: Values, told: Values) -> None:
        node = self.node()
        if operation == READ:
            found = Action("read", node, offset=number(asked[0]), length=number(told[0]))
        elif operation == WRITE:
            found = Action("write", node, offset=number(asked[0]), length=number(told[0]), is_unstable=number(told[1]) == 0)
        elif operation == COMMIT:
            found = Action("commit", node, offset=number(asked[0]), length=number(asked[1]))
        else:
            found = Action("setattr", node, size=number(asked[0]) if asked and asked[0] is not None else None)
        if operation in (READ, WRITE) and not node.has_handle:
            self.nodes.log.notes["reads and writes of a file without a handle, which is known by its name"] += 1
        self.call.actions.append(found)

    def change(self, operation: int, asked: Values) -> None:
        """CREATE, REMOVE, RENAME, LINK, READDIR, in the current folder."""
        folder, nodes = self.node(), self.nodes
        folder.is_folder = True
        if operation == CREATE:
            node = self.child(folder, str(asked[1]))
            node.is_folder = node.is_folder or asked[0] == FOLDER
            name = "mkdir" if asked[0] == FOLDER else "symlink" if asked[0] == 5 else "mknod"
            self.call.actions.append(Action(name, node, folder=folder))
            self.current, self.by_name, self.way = node, (folder, str(asked[1])), None
        elif operation == REMOVE:
            gone = nodes.take(folder, str(asked[0]))
            self.call.actions.append(Action("rmdir" if gone and gone.is_folder else "remove", folder, gone))
        elif operation == RENAME:
            saved = self.saved.whole() if self.saved else Node()
            saved.is_folder = True
            renamed(nodes, self.call, saved, str(asked[0]), folder, str(asked[1]))
        elif operation == LINK:
            node = self.saved.whole() if self.saved else Node()
            nodes.put(folder, str(asked[0]), node)
            self.call.actions.append(Action("link", node, folder=folder))
        else:
            self.call.actions.append(Action("readdir", folder))

    def look(self, operation: int, told: Values) -> None:
        """GETATTR and ACCESS of what a lookup found read its inode; others are of no weight beside what else a compound does."""
        node = self.node()
        if operation == GETATTR and told:
            kind, size, system = told
            known = kind if isinstance(kind, int) else None
            self.nodes.tells(self.call, node, known, size if isinstance(size, int) else None, system if isinstance(system, str) else None)
        actions = self.call.actions
        if operation != READLINK and actions and actions[-1].name == "lookup" and actions[-1].other and actions[-1].other.whole() is node:
            actions[-1].with_inode = True
        else:
            actions.append(Action({ACCESS: "access", GETATTR: "getattr", READLINK: "readlink"}[operation], node))
