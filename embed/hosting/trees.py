"""The script of a guest that is given folders, and what differs between its tree and that of its report."""

from __future__ import annotations

import json
import os
import time
from dataclasses import dataclass, field
from typing import Any, Dict, List, NamedTuple, Tuple

from wasitools.folders import Folder
from wasitools.replay import NANO
from wasitools.scripts import MOST_BYTES, MOST_QUOTA, Mistake

RANDOM_BYTES = 4096  # which a guest gets for random ones, from the first to the last and then again from the first
UNSET = [[0, 0]] * 3  # the times of a node that a guest made

Node = Dict[str, Any]


class Given(NamedTuple):
    """A folder that a guest is given: where it stands here, the name that the guest is told, and `ro` or `rw`."""

    host: str
    guest: str
    perms: str


@dataclass
class Root:
    """A folder that was read, the number of its node, and how many nodes it has, which follow each other."""

    given: Given
    node: int
    count: int


@dataclass
class Changes:
    """What became of the names below one folder: paths, each with the number of its node."""

    made: Dict[str, int] = field(default_factory=dict)
    changed: Dict[str, int] = field(default_factory=dict)  # other bytes in the same file
    gone: Dict[str, int] = field(default_factory=dict)
    timed: Dict[str, int] = field(default_factory=dict)  # other times, which were set


def read_folders(folders: List[Given]) -> Tuple[List[Node], List[Root]]:
    """The nodes of all folders below a node 0 of its own, in which each has its number as its name."""
    nodes: List[Node] = [{"dir": {}}]
    roots = []
    for place, given in enumerate(folders):
        base = len(nodes)
        for node in Folder(given.host).nodes:
            if "dir" in node:
                node["dir"] = {name: base + number for name, number in node["dir"].items()}
            nodes.append(node)
        nodes[0]["dir"][str(place)] = base
        roots.append(Root(given, base, len(nodes) - base))
    return nodes, roots


def script_of(nodes: List[Node], roots: List[Root], args: List[str], env: List[Tuple[str, str]], given: bytes,
              quota: Dict[str, int]) -> bytes:
    """The script by which a guest is begun, with the bytes that it is given on its standard input. Of a quota one bound
    may be set alone: the other is the largest then, to which no guest comes."""
    script = {
        "nodes": nodes,
        "preopens": [{"node": root.node, "name": root.given.guest, "perms": root.given.perms} for root in roots],
        "calls": [],
        "args": args,
        "env": env,
        "stdin": given.hex(),
        "random": os.urandom(RANDOM_BYTES).hex(),
        "wall": list(divmod(time.time_ns(), NANO)),
    }
    if quota:
        script["quota"] = {"nodes": MOST_QUOTA, "bytes": MOST_QUOTA, **quota}
    text = json.dumps(script, ensure_ascii=False, separators=(",", ":")).encode()
    if len(text) > MOST_BYTES:
        raise Mistake(f"the folders and the standard input make a script of more than {MOST_BYTES:,} bytes")
    return text


def places(nodes: List[Node], root: int) -> Dict[str, int]:
    """The number of the node at each path below a directory."""
    found: Dict[str, int] = {}
    left = [("", root)]
    while left:
        path, number = left.pop()
        for name, held in nodes[number].get("dir", {}).items():
            below = f"{path}/{name}" if path else name
            found[below] = held
            left.append((below, held))
    return found


def is_same(before: Node, after: Node) -> bool:
    """Whether two nodes, of which one stands in the place of the other, may be taken for one: directories may."""
    return "dir" in before and "dir" in after


def times_of(before: List[Node], number: int) -> List[List[int]]:
    """The times that a node had, or has as long as nobody sets them."""
    return before[number].get("times", UNSET) if number < len(before) else UNSET


def changes_of(before: List[Node], after: List[Node], root: int) -> Changes:
    """What became of the names below a folder. A node keeps its number."""
    found = Changes()
    old, new = places(before, root), places(after, root)
    for path, number in new.items():
        was = old.get(path)
        if was is None or (was != number and not is_same(before[was], after[number])):
            found.made[path] = number
        elif was == number and before[was].get("file") != after[number].get("file"):
            found.changed[path] = number
        if after[number]["times"] != times_of(before, number):
            found.timed[path] = number
    for path, number in old.items():
        if path not in new or path in found.made:
            found.gone[path] = number
    return found


def told(node: Node) -> str:
    if "dir" in node:
        return "a directory"
    if "link" in node:
        return f"a link to {node['link']}"
    return f"{len(node['file']) // 2:,} bytes"


def lines_of(changes: Changes, after: List[Node], name: str) -> List[str]:
    """The changes as lines: `+` made, `*` with other bytes, `-` gone, `t` with other times."""
    words = [(path, "-", "") for path in changes.gone]
    words += [(path, "+", told(after[number])) for path, number in changes.made.items()]
    words += [(path, "*", told(after[number])) for path, number in changes.changed.items()]
    words += [(path, "t", "other times") for path in changes.timed if path not in changes.made]
    return [f"{sign} {name.rstrip('/')}/{path}{': ' if text else ''}{text}" for path, sign, text in sorted(words)]
