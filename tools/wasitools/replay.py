"""A run told again: the answers of a report are taken as they are, and what each of them did is done once more.

No answer is worked out here and no call is refused: a call that is answered otherwise than Ok did nothing. What comes
out at the end is compared with the report, so that a report of another script is seen as such.

A call that is answered `io`, since a call of the host failed, may have changed the tree all the same. So the run is
told with these changes and without them, and what leads to the report is taken.
"""

from __future__ import annotations

import itertools
import struct
from dataclasses import dataclass, field, replace
from typing import Dict, FrozenSet, Iterator, List, Optional, Tuple

from .calls import CALLS, ENTRY, EVENT, FIRST_PREOPEN, RECORD, STREAMS, SUBSCRIPTION, U64, bit
from .scripts import Mistake, Node, Outcome, Report, Script, answer_fits

NANO = 1_000_000_000
LINKS_OF_A_WALK = 40
FILETYPES = {"dir": 3, "file": 4, "link": 7}
MOST_OF_A_PREAD = 65_536
MOST_OF_A_FILE = 1_073_741_824
MOST_GROWN = 268_435_456  # bytes of gaps and of new sizes, which take memory here
MOST_LOST = 8  # calls of which a fault may hide what they did
MAKING = frozenset(("path_create_directory", "path_symlink"))  # as does an open that creates
GROWING = frozenset(("fd_write", "fd_pwrite", "fd_filestat_set_size"))
CHANGING = frozenset((
    "path_open", "fd_write", "fd_pwrite", "fd_filestat_set_size", "fd_filestat_set_times", "path_filestat_set_times",
    "path_create_directory", "path_symlink", "path_link", "path_rename", "path_remove_directory", "path_unlink_file",
))


class NotItsReport(Mistake):
    """A report that isn't the script's."""


@dataclass
class Descriptor:
    """What stands under a number: a stream, or a node; `position` and `append` are a file's."""

    node: Optional[int] = None
    preopen: Optional[str] = None
    perms: str = "rw"
    position: int = 0
    append: bool = False


@dataclass
class Change:
    """What a call did to the tree: to a node, or to a name that a directory has."""

    call: int
    node: int
    what: str  # made, bytes, size, times, name, unname
    path: str  # of the node, or of the name
    name: Optional[str] = None  # of `made`, `name` and `unname`
    directory: Optional[int] = None  # which has the name


@dataclass
class Use:
    """What a call used of a quota, and how much of that is used then: more, maybe, where the host failed in a call."""

    key: str  # nodes, which are makings, or bytes
    more: int
    used: int
    is_sure: bool


@dataclass
class Told:
    """A call as it was made: its numbers by argument, what stood under its descriptors and in its texts and buffers,
    its answer, and what it did."""

    number: int
    name: str
    numbers: Dict[str, Tuple[int, ...]]
    answer: Optional[Dict[str, object]]  # none: the call wasn't made
    texts: Dict[str, Optional[bytes]] = field(default_factory=dict)  # none: the range leaves the memory
    buffers: Dict[str, Optional[List[Tuple[int, int]]]] = field(default_factory=dict)
    descriptors: Dict[str, str] = field(default_factory=dict)
    nodes: List[int] = field(default_factory=list)  # what its paths led to, and what it read, wrote and listed
    opened: str = ""  # the path and the number of what was opened
    wrote: List[Tuple[int, bytes]] = field(default_factory=list)  # into the guest's memory
    sent: Optional[bytes] = None  # to a file or a stream
    sent_to: str = ""
    subscriptions: List[bytes] = field(default_factory=list)
    changes: List[Change] = field(default_factory=list)
    lost: str = ""  # of a call that the host failed in: what became of what it was to change
    grown: int = 0  # bytes by which it made a file longer
    use: Optional[Use] = None  # of a quota that the guest has


class Tree:
    """The nodes of a run, which its calls change, and their paths."""

    def __init__(self, nodes: List[Node]) -> None:
        self.nodes: List[Node] = [node.copy() for node in nodes]
        self.paths = Paths(self.nodes)


class Replay:
    """The state of a run, and each call as it is told again."""

    def __init__(self, script: Script, tree: Tree, hidden: FrozenSet[int] = frozenset()) -> None:
        self.script = script
        self.hidden = hidden  # calls that changed the tree though the host failed in them
        self.nodes, self.paths = tree.nodes, tree.paths
        self.memory = bytearray(script.memory)
        self.outputs = {1: bytearray(), 2: bytearray()}
        self.stdin_place = self.random_place = self.grown = 0
        self.mono, self.wall = script.mono, script.wall[0] * NANO + script.wall[1]
        self.descriptors: Dict[int, Descriptor] = {number: Descriptor() for number in range(FIRST_PREOPEN)}
        self.streams: Dict[int, int] = {number: number for number in range(FIRST_PREOPEN)}  # number: which stream
        for number, given in enumerate(script.preopens, FIRST_PREOPEN):
            self.descriptors[number] = Descriptor(given.node, given.name, given.perms)
        self.told: List[Told] = []
        self.used = {"nodes": 0, "bytes": 0}  # of the quotas, without what calls used in which the host failed
        self.unsure = {"nodes": False, "bytes": False}  # whether there are such calls

    # What stands where.

    def at(self, address: int, length: int) -> Optional[bytes]:
        """Bytes of the memory, where they are in it."""
        return bytes(self.memory[address:address + length]) if address + length <= len(self.memory) else None

    def records(self, address: int, count: int) -> Optional[List[Tuple[int, int]]]:
        """The buffers of a list of records, up to the first that isn't empty, which is the one that is used."""
        found = []
        for place in range(address, address + RECORD * count, RECORD):
            given = self.at(place, RECORD)
            if given is None or place % 4:
                return None
            found.append(struct.unpack("<II", given))
            if found[-1][1]:
                break
        return found

    def words_for(self, number: int) -> str:
        """What stands under a descriptor's number, in words."""
        if number in self.streams:
            return STREAMS[self.streams[number]]
        open_ = self.descriptors.get(number)
        if open_ is None:
            return "not open"
        if open_.preopen is not None:
            return f"preopen {shown_text(open_.preopen)}"
        return self.paths.of(open_.node)

    def seen_as(self, node: int) -> int:
        """The number that the guest sees of a node."""
        return node

    # What a call does.

    def tell(self, number: int, name: str, numbers: List[int], answer: Optional[Dict[str, object]]) -> Told:
        """Tells a call, and does what it did."""
        row = CALLS[name]
        told = Told(number, name, row.split(numbers), answer)
        for argument in row.arguments:
            given = told.numbers[argument.name]
            if argument.kind == "fd":
                told.descriptors[argument.name] = self.words_for(given[0])
            elif argument.kind == "text":
                told.texts[argument.name] = self.at(*given)
            elif argument.kind in ("reads", "writes"):
                told.buffers[argument.name] = self.records(*given)
        self.told.append(told)
        if answer is None:
            return told
        if not answer_fits(answer, row.answer):
            raise NotItsReport(f"call {number} is {name}, which isn't answered as the report says")
        if "ok" in answer:
            self.do(told)
            self.count_use(told)
        elif number in self.hidden:
            self.change_tree(told)
        if answer.get("errno") == "io":
            self.unsure["nodes"] |= makes(told)
            self.unsure["bytes"] |= name in GROWING
        return told

    def count_use(self, told: Told) -> None:
        """Counts what an answered call used of the guest's quotas, where they are set."""
        key, more = ("nodes", 1) if makes(told) else ("bytes", told.grown)
        if self.script.quota is not None and more:
            self.used[key] += more
            told.use = Use(key, more, self.used[key], not self.unsure[key])

    def do(self, told: Told) -> None:
        """Does what a call did."""
        try:
            getattr(self, told.name, self.nothing)(told)
        except (KeyError, IndexError, TypeError, AttributeError, ValueError, OverflowError, struct.error):
            raise NotItsReport(
                f"call {told.number}, {told.name}, can't have been answered as the report says") from None

    def change_tree(self, told: Told) -> None:
        """Does to the tree what a call did whose answer was lost; all else is as before it."""
        answer, descriptors = told.answer, self.descriptors
        told.answer = {"ok": U64}
        self.descriptors = {number: replace(open_) for number, open_ in descriptors.items()}
        self.do(told)
        told.answer, self.descriptors = answer, descriptors

    def nothing(self, told: Told) -> None:
        """A call that changes nothing of what is told here."""

    def put(self, told: Told, address: int, data: bytes) -> None:
        """Writes into the guest's memory."""
        if address + len(data) > len(self.memory):
            raise NotItsReport(f"call {told.number} would have written outside the memory")
        self.memory[address:address + len(data)] = data
        told.wrote.append((address, bytes(data)))

    def change(self, told: Told, node: int, what: str, name: Optional[str] = None,
               directory: Optional[int] = None) -> None:
        path = self.paths.of(node) if name is None else self.paths.of(directory, name)
        told.changes.append(Change(told.number, node, what, path, name, directory))

    def buffer(self, told: Told, argument: str = "iovs") -> Tuple[int, int]:
        """The buffer of a list of records: the first that isn't empty."""
        records = told.buffers[argument]
        return next((record for record in records if record[1]), (0, 0))

    def open_of(self, told: Told, argument: str = "fd") -> Descriptor:
        return self.descriptors[told.numbers[argument][0]]

    # Texts and listings that are put into the memory.

    def put_texts(self, told: Told, texts: List[bytes], pointers: int, place: int) -> None:
        for index, text in enumerate(texts):
            self.put(told, pointers + 4 * index, struct.pack("<I", place))
            self.put(told, place, text + b"\0")
            place += len(text) + 1

    def args_get(self, told: Told) -> None:
        texts = [text.encode() for text in self.script.args]
        self.put_texts(told, texts, told.numbers["argv"][0], told.numbers["argv_buf"][0])

    def environ_get(self, told: Told) -> None:
        texts = [f"{key}={given}".encode() for key, given in self.script.env]
        self.put_texts(told, texts, told.numbers["environ"][0], told.numbers["environ_buf"][0])

    def random_get(self, told: Told) -> None:
        address, length = told.numbers["buf"]
        given = self.script.random if self.at(address, length) is not None else b""
        if given:
            rounds = given * ((self.random_place + length) // len(given) + 1)
            data = rounds[self.random_place:self.random_place + length]
            self.random_place = (self.random_place + length) % len(given)
        else:
            data = bytes(min(length, len(self.memory) + 1))
        self.put(told, address, data)

    def fd_prestat_dir_name(self, told: Told) -> None:
        self.put(told, told.numbers["path"][0], self.open_of(told).preopen.encode())

    def fd_readdir(self, told: Told) -> None:
        node = self.open_of(told).node
        told.nodes.append(node)
        found = [(b".", node, 3), (b"..", node, 3)]
        names = sorted((name.encode(), held) for name, held in self.nodes[node].names.items())
        found += [(name, held, FILETYPES[self.nodes[held].kind]) for name, held in names]
        data = b"".join(
            struct.pack("<QQIB3x", place, self.seen_as(held), len(name), kind) + name
            for place, (name, held, kind) in enumerate(found, 1)
        )
        skipped = sum(ENTRY + len(name) for name, _, _ in found[:told.numbers["cookie"][0]])
        self.put(told, told.numbers["buf"][0], data[skipped:][:told.answer["ok"]])

    # Reading, writing, positions.

    def fd_read(self, told: Told) -> None:
        address, length = self.buffer(told)
        open_ = self.open_of(told)
        if open_.node is None:
            data = self.script.stdin[self.stdin_place:][:length]
            self.stdin_place += len(data)
        else:
            data = self.nodes[open_.node].data[open_.position:open_.position + length]
            open_.position += len(data)
            told.nodes.append(open_.node)
        self.put(told, address, data)

    def fd_pread(self, told: Told) -> None:
        address, length = self.buffer(told)
        offset = told.numbers["offset"][0]
        node = self.open_of(told).node
        told.nodes.append(node)
        self.put(told, address, self.nodes[node].data[offset:offset + min(length, MOST_OF_A_PREAD)])

    def put_bytes(self, told: Told, offset: Optional[int]) -> int:
        """Writes the buffer of a call to a file, at its end where no offset is given; gives where the bytes end."""
        open_ = self.open_of(told)
        data = self.at(*self.buffer(told))
        file = self.nodes[open_.node].data
        place = len(file) if open_.append or offset is None else offset
        told.sent, told.sent_to = data, self.paths.of(open_.node)
        told.nodes.append(open_.node)
        if data:
            size = len(file)
            self.grow(told, file, place)
            file[place:place + len(data)] = data
            told.grown = len(file) - size
            self.change(told, open_.node, "bytes")
        return place + len(data)

    def fd_write(self, told: Told) -> None:
        number = told.numbers["fd"][0]
        if number in self.streams:
            told.sent = self.at(*self.buffer(told))
            told.sent_to = self.words_for(number)
            self.outputs[self.streams[number]].extend(told.sent)
        else:
            open_ = self.open_of(told)
            end = self.put_bytes(told, open_.position)
            open_.position = len(self.nodes[open_.node].data) if open_.append else end

    def fd_pwrite(self, told: Told) -> None:
        self.put_bytes(told, told.numbers["offset"][0])

    def fd_seek(self, told: Told) -> None:
        self.open_of(told).position = told.answer["ok"]

    def fd_filestat_set_size(self, told: Told) -> None:
        node, size = self.open_of(told).node, told.numbers["size"][0]
        data = self.nodes[node].data
        if size != len(data):
            self.change(told, node, "size")
        told.grown = max(0, size - len(data))
        del data[size:]
        self.grow(told, data, size)

    def grow(self, told: Told, file: bytearray, size: int) -> None:
        """Fills a file with zeros up to a size."""
        more = max(0, size - len(file))
        self.grown += more
        if size > MOST_OF_A_FILE:
            raise NotItsReport(f"call {told.number} would have made too large a file")
        if self.grown > MOST_GROWN:
            raise Mistake(f"call {told.number} leaves gaps in files, or gives them sizes, of more than "
                          f"{MOST_GROWN:,} bytes together, which isn't told")
        file.extend(bytes(more))

    # Descriptors.

    def fd_close(self, told: Told) -> None:
        number = told.numbers["fd"][0]
        del self.descriptors[number]
        self.streams.pop(number, None)

    def fd_renumber(self, told: Told) -> None:
        from_, to = told.numbers["fd"][0], told.numbers["to"][0]
        if from_ != to:
            self.descriptors[to] = self.descriptors.pop(from_)
            self.streams.pop(to, None)
            if from_ in self.streams:
                self.streams[to] = self.streams.pop(from_)

    def fd_fdstat_set_flags(self, told: Told) -> None:
        self.open_of(told).append = bool(told.numbers["flags"][0] & bit("fdflags", "append"))

    # Paths.

    def walk(self, told: Told, node: int, path: bytes, follow: bool, last: bool) -> Tuple[int, Optional[str]]:
        """Where a path leads: a directory, and a name in it where `last` is asked and the path ends in one."""
        way, links = [node], 0
        parts = parts_of(path.decode())
        while parts:
            part = parts.pop(0)
            if part in ("", "."):
                continue
            if part == "..":
                way.pop()
                continue
            held = self.nodes[way[-1]].names.get(part)
            is_last = not any(rest not in ("", ".") for rest in parts) and not parts
            link = None if held is None else self.nodes[held].link
            if link is not None and (follow or not is_last):
                links += 1
                if links > LINKS_OF_A_WALK:
                    raise NotItsReport(f"the path of call {told.number} has too many links")
                told.nodes.append(held)
                parts = parts_of(link) + parts
                continue
            if is_last and last:
                return way[-1], part
            way.append(held)
        return way[-1], None

    def found(self, told: Told, argument: str, follow: bool, fd: str = "fd") -> int:
        """The node at the end of a path."""
        start = self.open_of(told, fd).node
        directory, name = self.walk(told, start, told.texts[argument], follow, True)
        node = directory if name is None else self.nodes[directory].names[name]
        told.nodes.append(node)
        return node

    def place(self, told: Told, argument: str, fd: str = "fd") -> Tuple[int, str]:
        """The directory and the last name of a path, slashes behind which don't count."""
        parent, _, name = told.texts[argument].decode().rstrip("/").rpartition("/")
        directory, _ = self.walk(told, self.open_of(told, fd).node, parent.encode(), True, False)
        return directory, name

    def hold(self, told: Told, directory: int, name: str, node: int) -> None:
        self.nodes[directory].names[name] = node
        self.paths.hold(directory, name, node)
        told.nodes.append(node)
        self.change(told, node, "name", name, directory)

    def drop(self, told: Told, directory: int, name: str) -> int:
        node = self.nodes[directory].names.pop(name)
        self.paths.drop(directory, name, node)
        told.nodes.append(node)
        self.change(told, node, "unname", name, directory)
        return node

    def make(self, told: Told, directory: int, name: str, node: Node) -> int:
        self.nodes.append(node)
        number = len(self.nodes) - 1
        self.nodes[directory].names[name] = number
        self.paths.hold(directory, name, number)
        told.nodes.append(number)
        self.change(told, number, "made", name, directory)
        return number

    def path_open(self, told: Told) -> None:
        given = {name: numbers[0] for name, numbers in told.numbers.items()}
        base = self.open_of(told)
        directory, name = self.walk(told, base.node, told.texts["path"], bool(given["dirflags"]), True)
        node = directory if name is None else self.nodes[directory].names.get(name)
        if node is None:
            if not given["oflags"] & bit("oflags", "creat"):
                raise NotItsReport(f"call {told.number} opened a path that leads to nothing")
            node = self.make(told, directory, name, Node(data=bytearray(), bits="rw-"))
        else:
            told.nodes.append(node)
            if given["oflags"] & bit("oflags", "trunc") and self.nodes[node].data:
                self.nodes[node].data.clear()
                self.change(told, node, "size")
        told.opened = f"{self.paths.of(node)} (node {node})"
        append = base.perms == "ao" or bool(given["fdflags"] & bit("fdflags", "append"))
        self.descriptors[told.answer["ok"]] = Descriptor(node, None, base.perms, 0, append)

    def path_filestat_get(self, told: Told) -> None:
        self.found(told, "path", bool(told.numbers["flags"][0]))

    def path_create_directory(self, told: Told) -> None:
        self.make(told, *self.place(told, "path"), Node(names={}))

    def path_symlink(self, told: Told) -> None:
        self.make(told, *self.place(told, "new_path"), Node(link=told.texts["old_path"].decode()))

    def path_remove_directory(self, told: Told) -> None:
        self.drop(told, *self.place(told, "path"))

    path_unlink_file = path_remove_directory

    def path_readlink(self, told: Told) -> None:
        directory, name = self.place(told, "path")
        node = self.nodes[directory].names[name]
        told.nodes.append(node)
        self.put(told, told.numbers["buf"][0], self.nodes[node].link.encode()[:told.answer["ok"]])

    def path_link(self, told: Told) -> None:
        directory, name = self.place(told, "old_path", "old_fd")
        self.hold(told, *self.place(told, "new_path", "new_fd"), self.nodes[directory].names[name])

    def path_rename(self, told: Told) -> None:
        old, old_name = self.place(told, "old_path")
        new, new_name = self.place(told, "new_path", "new_fd")
        held = self.nodes[new].names.get(new_name)
        if held == self.nodes[old].names[old_name]:
            return
        node = self.drop(told, old, old_name)
        if held is not None:
            self.drop(told, new, new_name)
        self.hold(told, new, new_name, node)

    # Times and clocks.

    def set_times(self, told: Told, node: int) -> None:
        flags = told.numbers["fst_flags"][0]
        times = list(self.nodes[node].times)
        for place, name in enumerate(("atim", "mtim")):
            if flags & bit("fstflags", name):
                times[place] = divmod(told.numbers[name][0], NANO)
            elif flags & bit("fstflags", f"{name}_now"):
                times[place] = divmod(self.wall, NANO)
        told.nodes.append(node)
        if tuple(times) != self.nodes[node].times:
            self.change(told, node, "times")
        self.nodes[node].times = tuple(times)

    def fd_filestat_set_times(self, told: Told) -> None:
        self.set_times(told, self.open_of(told).node)

    def path_filestat_set_times(self, told: Told) -> None:
        follow = bool(told.numbers["flags"][0])
        if follow:
            node = self.found(told, "path", True)
        else:
            directory, name = self.at_last_name(told)
            node = directory if name == "." else self.nodes[directory].names[name]
        self.set_times(told, node)

    def at_last_name(self, told: Told) -> Tuple[int, str]:
        """The last name of a path that isn't followed; `.` where the path ends in a slash, `.` or `..`."""
        path = told.texts["path"].decode()
        if path.rpartition("/")[2] in ("", ".", ".."):
            return self.walk(told, self.open_of(told).node, path.encode(), True, False)[0], "."
        return self.place(told, "path")

    def end_of(self, subscription: bytes) -> Optional[int]:
        """When the time of a subscription comes, on the monotonic clock; none where it is of a descriptor."""
        tag, clock, timeout, flags = struct.unpack("<8xB7xI4xQ8xH6x", subscription)
        if tag != 0:
            return None
        if flags & 1 and clock == 1:
            return timeout
        return min(self.mono + (max(0, timeout - self.wall) if flags & 1 else timeout), U64)

    def poll_oneoff(self, told: Told) -> None:
        count = told.numbers["nsubscriptions"][0]
        given = self.at(told.numbers["in"][0], SUBSCRIPTION * count)
        told.subscriptions = [given[place:place + SUBSCRIPTION] for place in range(0, len(given), SUBSCRIPTION)]
        ends = [self.end_of(subscription) for subscription in told.subscriptions]
        if all(end is not None for end in ends) and min(ends) > self.mono:
            self.wall += min(ends) - self.mono
            self.mono = min(ends)
        place = told.numbers["out"][0]
        for subscription, end in zip(told.subscriptions, ends):
            if end is None or end <= self.mono:
                self.put(told, place, self.event(subscription))
                place += EVENT

    def event(self, subscription: bytes) -> bytes:
        userdata, tag, number = struct.unpack_from("<QB7xI", subscription)
        at_end = False
        if tag == 1 and number not in self.streams:
            open_ = self.descriptors[number]
            at_end = len(self.nodes[open_.node].data) <= open_.position
        return struct.pack("<QHB5xQH6x", userdata, 0, tag, int(tag != 0), int(at_end))


class Paths:
    """The paths of nodes, by the names that hold them."""

    def __init__(self, nodes: List[Node]) -> None:
        self.holders: Dict[int, Dict[Tuple[int, str], None]] = {}
        for directory, node in enumerate(nodes):
            for name, held in (node.names or {}).items():
                self.hold(directory, name, held)

    def hold(self, directory: int, name: str, node: int) -> None:
        self.holders.setdefault(node, {})[directory, name] = None

    def drop(self, directory: int, name: str, node: int) -> None:
        del self.holders[node][directory, name]

    def is_named(self, node: int) -> bool:
        return node == 0 or bool(self.holders.get(node))

    def way(self, node: int) -> Tuple[int, str]:
        """Where a path to a node begins, which is node 0 or has no name, and the path."""
        names: List[str] = []
        top = node
        while top != 0 and self.holders.get(top) and len(names) <= len(self.holders):
            top, name = next(iter(self.holders[top]))
            names.append(name)
        return top, "".join(f"/{name}" for name in reversed(names))

    def of(self, node: int, name: Optional[str] = None) -> str:
        """A path of a node from node 0 on, or of a name that it has, as it may be shown."""
        top, path = self.way(node)
        path += "" if name is None else f"/{name}"
        if top == 0:
            return shown_path(path or "/")
        return f"node {top}, which no name holds" + (f", and {shown_path(path)} below it" if path else "")


def parts_of(path: str) -> List[str]:
    return path.split("/")


def shown_path(path: str) -> str:
    """A path as it is, or as a text in quotes where it has other than plain characters."""
    return path if path.isprintable() and not any(mark in path for mark in ' "\\') else shown_text(path)


def shown_text(text: str) -> str:
    """A text in quotes, what can't be printed as escapes."""
    escapes = {"\n": "\\n", "\t": "\\t", "\r": "\\r", '"': '\\"', "\\": "\\\\"}

    def shown(mark: str) -> str:
        if mark in escapes:
            return escapes[mark]
        return mark if mark.isprintable() else f"\\u{{{ord(mark):x}}}"

    return '"' + "".join(map(shown, text)) + '"'


def makes(told: Told) -> bool:
    """Whether a call makes something: a directory, a link, or an open that creates, whether or not the file is there."""
    return told.name in MAKING or (told.name == "path_open" and bool(told.numbers["oflags"][0] & bit("oflags", "creat")))


def outcome_differences(replay: Replay, report: Outcome) -> List[str]:
    """Where the memory and the outputs that were told again differ from those of the report."""
    script, found = replay.script, []
    shown = [bytes(replay.memory[address:address + length]) for address, length in script.show]
    if len(shown) != len(report.memory) or list(map(len, shown)) != list(map(len, report.memory)):
        found.append("it shows other ranges of the memory than the script asks for")
    elif shown != report.memory:
        place = next(place for place, given in enumerate(shown) if given != report.memory[place])
        found.append(f"it shows other bytes at {script.show[place][0]} of the memory than its answers lead to")
    for number, name in ((1, "output"), (2, "error")):
        if bytes(replay.outputs[number]) != getattr(report, f"std{name[:3]}"):
            found.append(f"its standard {name} isn't what its answers lead to")
    return found


def tree_differences(nodes: List[Node], tree: List[Node]) -> List[str]:
    """Where the nodes that were told again differ from the report's."""
    if len(nodes) != len(tree):
        return [f"its tree has {len(tree)} nodes, and its answers lead to {len(nodes)}"]
    return [f"its node {place} isn't what its answers lead to"
            for place, (made, given) in enumerate(zip(nodes, tree)) if made != given][:1]


def replayed(script: Script, report: Report) -> Replay:
    """The run of a script that a report tells of; a mistake where the report is another's."""
    try:
        return one_of(script, report, lost_in(script, report))
    except NotItsReport as mistake:
        raise NotItsReport(f"the report isn't this script's: {mistake}") from None


def lost_in(script: Script, report: Report) -> List[int]:
    """The calls in which the host failed, and that may have changed the tree all the same."""
    answers, calls = report.answers, script.calls
    if len(answers) > len(calls):
        raise NotItsReport(f"{len(answers)} answers of {len(calls)} calls")
    failed = [number for number, answer in enumerate(answers, 1) if answer == {"errno": "io"}]
    if len(failed) > len(script.faults):
        raise NotItsReport(f"{len(failed)} answers 'io', and the script lists {len(script.faults)} faults")
    lost = [number for number in failed if calls[number - 1][0] in CHANGING]
    if len(lost) > MOST_LOST:
        raise Mistake(f"the host fails in {len(lost)} calls that change the tree; more than {MOST_LOST} aren't told")
    return lost


def one_of(script: Script, report: Report, lost: List[int]) -> Replay:
    """The run that leads to the report, in which the fewest of these calls changed the tree."""
    first, fits, why = None, [], None
    for hidden in subsets(lost):
        try:
            replay = told_with(script, report, hidden)
        except NotItsReport as mistake:
            why = why or mistake
            continue
        first = first or replay
        fits.append(hidden)
    if first is None:
        raise why
    for number in lost:
        first.told[number - 1].lost = became(sum(number in hidden for hidden in fits), len(fits))
    return first


def subsets(lost: List[int]) -> Iterator[FrozenSet[int]]:
    """All sets of some of these calls, the smallest first."""
    for size in range(len(lost) + 1):
        yield from map(frozenset, itertools.combinations(lost, size))


def became(changed: int, told: int) -> str:
    """What became of what a call was to change, by in how many of the runs it changed it."""
    if changed == 0:
        return "nothing was changed"
    return "it was done all the same" if changed == told else "whether it was done can't be told"


def told_with(script: Script, report: Report, hidden: FrozenSet[int]) -> Replay:
    """The run in which these calls changed the tree though the host failed in them; a mistake where it doesn't lead to
    the report."""
    answers = report.answers
    replay = Replay(script, Tree(script.nodes), hidden)
    for number, (name, numbers) in enumerate(script.calls, 1):
        answer = answers[number - 1] if number <= len(answers) else None
        ended = number > 1 and number <= len(answers) and ends(answers[number - 2])
        if ended or (answer is None and not ends(answers[-1] if answers else {})):
            raise NotItsReport(f"call {number} has {'an' if ended else 'no'} answer, and the run "
                               f"{'had ended before it' if ended else 'did not end before it'}")
        replay.tell(number, name, numbers, answer)
    found = outcome_differences(replay, report) + tree_differences(replay.nodes, report.tree)
    if found:
        raise NotItsReport(found[0])
    return replay


def ends(answer: object) -> bool:
    """Whether an answer ends the run."""
    return isinstance(answer, dict) and bool({"trap", "exit"} & set(answer))
