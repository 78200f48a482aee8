"""A report beside what Node answered in the recorded run: where the two agree, and in which ways they don't.

Each class says in which way Node's implementation of preview1 is otherwise. What is in no class is a difference.
"""

from __future__ import annotations

from dataclasses import dataclass, field
from typing import Any, Dict, Iterator, List, Optional, Set, Tuple

from .calls import CALLS, FIELDS, FIRST_PREOPEN, LAST_STATUS, U32
from .replay import Replay, Told
from .scripts import Mistake, Node, Report, answer_fits, hexed, is_number, json_of, keyed, listed, need, nodes_of, text
from .telling import entries, shown_path

CLASSES = {
    "leaving": "a path that leaves its directory, by `..` or by a link whose text begins with `/`, is refused perm; "
               "Node takes `..` out of the text before it looks up, puts such a link below its directory, and follows "
               "a link in the middle of a path out of it",
    "rooted": "a link whose text begins with `/` is neither made nor read, perm; Node does both",
    "capable": "where a right is missing Node answers notcapable, and the program perm or badf",
    "rights": "Node tells other rights of a descriptor, and flags of the machine",
    "streams": "of a standard stream Node tells what it is on the machine, and the program nothing",
    "listing": "Node lists neither `.` nor `..`, and in an order of its own, so that the bytes differ",
    "numbers": "Node tells the machine's numbers of devices and nodes, its times, and sizes and names of directories",
    "clocks": "Node's clocks go on by themselves, and those of a script only where the guest waits",
    "polls": "Node can't wait for files, and tells of streams only when they are ready",
    "unsupported": "to allocate room, to take rights and to raise signals is refused notsup; Node may do so",
    "sockets": "the program answers notsock of all that isn't one; Node may refuse otherwise",
    "texts": "a text that isn't UTF-8 is refused ilseq; Node takes any bytes",
    "status": "an exit status above 125 is a trap; Node takes any",
}
SETTLED = {"fd_allocate", "fd_fdstat_set_rights", "proc_raise"}
FILE, LINK = 4, 7
MOST_NAMED = 5
SUCCESS = "success"


@dataclass
class Compared:
    """The number of calls that agree, that are in each class, and lines on those that differ."""

    agree: int = 0
    classes: Dict[str, int] = field(default_factory=dict)
    differ: List[str] = field(default_factory=list)
    tree: str = ""


@dataclass
class Listing:
    """The names that both listed of a directory, from its front on. Where that took several buffers, names of the
    program's order fall between two of them, which begin where Node's did."""

    call: int
    pages: int = 0
    ours: Set[str] = field(default_factory=set)
    theirs: Set[str] = field(default_factory=set)


def recording_of(data: bytes) -> Dict[str, Any]:
    """The recording that some bytes are."""
    found = keyed(json_of(data, "the recording"), "the recording", "calls ending after")
    nodes_of(found["after"], "the recording")
    for place, entry in enumerate(listed(found["calls"], "the calls of the recording"), 1):
        where = f"call {place} of the recording"
        keyed(entry, where, "name first count", "errno ok put")
        need(text(entry["name"], where) in CALLS, f"{where} isn't one of preview1")
        is_placed = is_number(entry["first"], 0, U32) and is_number(entry["count"], 1, U32)
        need(is_placed, f"{where} has no place in a script")
        hexed(entry.get("put", ""), where)
        text(entry.get("errno", ""), where)
        if entry.get("errno") == SUCCESS:
            fits = {"ok", "put"} <= set(entry) and answer_fits({"ok": entry["ok"]}, CALLS[entry["name"]].answer)
            need(fits, f"{where} isn't answered as such a call is")
    return found


class Comparison:
    """Goes through the recorded calls beside the report of the script that was made of them."""

    def __init__(self, replay: Replay, report: Report, recording: Dict[str, Any]) -> None:
        self.told, self.report, self.recording = replay.told, report, recording
        self.found = Compared()
        self.listings: Dict[int, Listing] = {}
        self.all_listings: List[Listing] = []

    def run(self) -> Compared:
        for place, entry in enumerate(self.recording["calls"], 1):
            parts = self.told[entry["first"]:entry["first"] + entry["count"]]
            if len(parts) != entry["count"] or any(part.name != entry["name"] for part in parts):
                raise Mistake("the recording isn't of this script: they have other calls")
            self.compare(place, entry, parts)
        for listing in self.all_listings:
            if listing.ours - listing.theirs or (listing.pages == 1 and listing.ours != listing.theirs):
                theirs, ours = some(listing.theirs - listing.ours), some(listing.ours - listing.theirs)
                self.differs(listing.call, "fd_readdir", f"Node alone listed {theirs}, the program alone {ours}")
        self.compare_trees()
        return self.found

    def differs(self, place: int, name: str, words: str) -> None:
        self.found.differ.append(f"recorded call {place}, {name}: {words}")

    def compare(self, place: int, entry: Dict[str, Any], parts: List[Told]) -> None:
        """Compares a recorded call with the script's calls that stand for it."""
        if any(part.answer is None for part in parts):
            self.differs(place, entry["name"], "it wasn't called, since the program's run ended before it")
            return
        ours, theirs = joined(parts), node_answer(entry)
        if entry["name"] == "proc_exit" and "exit" in ours:
            theirs = ours  # an exit doesn't come back under Node, and has no answer
        if entry["name"] == "fd_readdir" and "ok" in ours and "ok" in theirs:
            self.list(place, entry, parts[0])
        same = ours == theirs and self.same_bytes(entry, parts)
        found = None if same else class_of(entry["name"], theirs, ours, parts[0])
        if same:
            self.found.agree += 1
        elif found is not None:
            self.found.classes[found] = self.found.classes.get(found, 0) + 1
        elif ours == theirs:
            self.differs(place, entry["name"], "other bytes came")
        else:
            self.differs(place, entry["name"], f"Node answered {answer(theirs)}, the program {answer(ours)}")

    def same_bytes(self, entry: Dict[str, Any], parts: List[Told]) -> bool:
        """Whether the bytes are those of Node that a call put into buffers."""
        if not entry.get("put") or entry["name"] in ("fd_readdir", "poll_oneoff"):
            return True
        ours = b"".join(data for part in parts for _, data in part.wrote)
        return bytes.fromhex(entry["put"])[:len(ours)] == ours  # (of a name Node's buffer may have more room)

    def list(self, place: int, entry: Dict[str, Any], part: Told) -> None:
        """Adds the names of a part of a listing to those of its directory."""
        number = part.numbers["fd"][0]
        if part.numbers["cookie"][0] == 0 or number not in self.listings:
            self.listings[number] = Listing(place)
            self.all_listings.append(self.listings[number])
        listing = self.listings[number]
        listing.pages += 1
        ours = b"".join(data for _, data in part.wrote)
        listing.ours |= set(whole_names(ours)) - {".", ".."}
        listing.theirs |= set(whole_names(bytes.fromhex(entry["put"]))) - {".", ".."}

    def compare_trees(self) -> None:
        ours = by_path(self.report.tree)
        theirs = by_path(nodes_of(self.recording["after"], "the recording"))
        others = sorted(path for path in set(ours) | set(theirs) if ours.get(path) != theirs.get(path))
        if others:
            self.found.differ.append(f"the tree at the end differs in {some(set(map(shown_path, others)))}")
        else:
            self.found.tree = f"the tree at the end agrees in its {len(ours)} paths: names, bytes and links"


def whole_names(data: bytes) -> Iterator[str]:
    return (name for name in entries(data) if not name.startswith("and "))


def some(found: Set[str]) -> str:
    """A few names of a set."""
    shown = sorted(found)[:MOST_NAMED]
    left = len(found) - len(shown)
    return (" ".join(shown) or "nothing") + (f" and {left} more" if left else "")


def by_path(nodes: List[Node]) -> Dict[str, Any]:
    """What stands at each path from node 0 on."""
    found: Dict[str, Any] = {}
    left: List[Tuple[str, int]] = [("", 0)]
    while left:
        path, number = left.pop()
        node = nodes[number]
        found[path or "/"] = (node.kind, None if node.data is None else bytes(node.data), node.link)
        left += [(f"{path}/{name}", held) for name, held in (node.names or {}).items()]
    return found


def joined(parts: List[Told]) -> Dict[str, Any]:
    """The answer of calls that stand for one: the sum of their numbers, up to one that is refused."""
    first = parts[0].answer
    if len(parts) == 1 or "ok" not in first:
        return first
    total = 0
    for part in parts:
        if "ok" not in part.answer:
            break
        total += part.answer["ok"]
    return {"ok": total}


def node_answer(entry: Dict[str, Any]) -> Dict[str, Any]:
    """Node's answer in a report's form; where a call didn't come back it is empty."""
    if "errno" not in entry:
        return {}
    return {"ok": entry["ok"]} if entry["errno"] == SUCCESS else {"errno": entry["errno"]}


def answer(given: Dict[str, Any]) -> str:
    if not given:
        return "nothing"
    (word, value), = given.items()
    return "ok" if word == "ok" and value is None else f"{word} {value}"


def class_of(name: str, theirs: Dict[str, Any], ours: Dict[str, Any], part: Told) -> Optional[str]:
    """The class of a difference, if it has one."""
    if name == "proc_exit":
        return class_of_exit(ours, part)
    if "ok" in theirs and "ok" in ours:
        return class_of_values(name, theirs["ok"], ours["ok"], part)
    refused = ours.get("errno")
    if name.startswith("sock_"):
        return "sockets"
    if name == "poll_oneoff":
        return "polls"
    if name.startswith("clock_"):
        return "clocks"
    if refused == "ilseq":
        return "texts"
    if theirs.get("errno") == "notcapable":
        return "capable"
    if refused == "notsup" and name in SETTLED:
        return "unsupported"
    if refused == "perm" and name in ("path_symlink", "path_readlink"):
        return "rooted"
    if refused == "perm" and name.startswith("path_"):
        return "leaving"
    return None


def class_of_exit(ours: Dict[str, Any], part: Told) -> Optional[str]:
    """An exit doesn't come back, and so has no answer under Node."""
    return "status" if ours == {"trap": "exit"} and part.numbers["rval"][0] > LAST_STATUS else None


def class_of_values(name: str, theirs: Any, ours: Any, part: Told) -> Optional[str]:
    """The class of two answers that are both Ok."""
    kind = CALLS[name].answer
    is_stream = "fd" in part.numbers and part.numbers["fd"][0] < FIRST_PREOPEN and not name.startswith("path_")
    if kind == "listed":
        return "listing"
    if kind == "time":
        return "clocks"
    if kind == "events":
        return "polls"
    if kind in ("fdstat", "filestat") and is_stream:
        return "streams"
    if kind == "fdstat":
        return "rights" if theirs[0] == ours[0] else None
    if kind == "filestat":
        kinds, sizes, counts = (FIELDS[kind].index(field) for field in ("filetype", "size", "nlink"))
        checked = {FILE: (kinds, sizes, counts), LINK: (kinds, sizes)}.get(ours[kinds], (kinds,))
        return "numbers" if all(theirs[place] == ours[place] for place in checked) else None
    return None


def text_of(found: Compared) -> str:
    """What came of a comparison, as lines."""
    known = sum(found.classes.values())
    calls = sum(1 for line in found.differ if line.startswith("recorded call"))
    lines = [f"{found.agree + known + calls} calls: {found.agree} agree, {known} differ in a known way, {calls} differ"]
    for name, words in CLASSES.items():
        if name in found.classes:
            lines.append(f"{found.classes[name]:6}  {name}: {words}")
    lines += [f"differs: {line}" for line in found.differ]
    return "\n".join(lines + ([found.tree] if found.tree else [])) + "\n"
