"""A folder of this machine as the nodes of a script. What a script can't say is refused by its name."""

from __future__ import annotations

import os
import stat
from pathlib import Path
from typing import Any, Dict, List, Optional, Tuple

from .replay import NANO, shown_text
from .scripts import MOST_BYTES, Mistake

MOST_OF_A_NAME = 255
MOST_OF_A_LINK = 4_095
OTHER_KINDS = ((stat.S_ISFIFO, "a pipe"), (stat.S_ISSOCK, "a socket"), (stat.S_ISCHR, "a device"),
               (stat.S_ISBLK, "a device"))


class Folder:
    """The nodes of a folder: 0 is the folder itself; what is below follows by its names in byte order."""

    def __init__(self, path: str, with_times: bool = True) -> None:
        self.with_times = with_times
        self.nodes: List[Dict[str, Any]] = []
        self.known: Dict[Tuple[int, int], int] = {}  # nodes of files and links by device and number, for second names
        self.bytes = 0
        if not os.path.isdir(path):
            raise Mistake(f"{path} is no folder" if os.path.lexists(path) else f"there is no folder {path}")
        left = [(self.add(os.fsencode(path), os.stat(path)), os.fsencode(path))]
        while left:
            number, folder = left.pop(0)
            left += self.add_names(number, folder)

    def add_names(self, number: int, folder: bytes) -> List[Tuple[int, bytes]]:
        """Adds what a folder has, and gives the folders among it."""
        folders = []
        for name in sorted(told(folder, os.listdir)):
            path = os.path.join(folder, name)
            status = told(path, os.lstat)
            if len(name) > MOST_OF_A_NAME:
                raise Mistake(f"{shown(path)}: the name has more than {MOST_OF_A_NAME} bytes")
            key = status.st_dev, status.st_ino
            node = None if stat.S_ISDIR(status.st_mode) else self.known.get(key)
            if node is None:
                node = self.add(path, status)
                self.known[key] = node
                if stat.S_ISDIR(status.st_mode):
                    folders.append((node, path))
            self.nodes[number]["dir"][text_of(name, path, "name")] = node
        return folders

    def add(self, path: bytes, status: os.stat_result) -> int:
        """Adds a node, a directory without its names."""
        node: Dict[str, Any] = {}
        if stat.S_ISDIR(status.st_mode):
            node["dir"] = {}
        elif stat.S_ISREG(status.st_mode):
            self.bytes += status.st_size
            if 2 * self.bytes > MOST_BYTES:
                raise Mistake(f"{shown(path)}: up to this file there are more bytes than a script can hold")
            node["file"] = told(path, lambda given: Path(os.fsdecode(given)).read_bytes()).hex()
        elif stat.S_ISLNK(status.st_mode):
            node["link"] = text_of(told(path, os.readlink), path, "link's text")
            if len(node["link"].encode()) > MOST_OF_A_LINK:
                raise Mistake(f"{shown(path)}: the link's text has more than {MOST_OF_A_LINK:,} bytes")
        else:
            kind = next((word for is_it, word in OTHER_KINDS if is_it(status.st_mode)), "of another kind")
            raise Mistake(f"{shown(path)} is {kind}, which no script has: take it away, or name a folder without it")
        bits = bits_of(status.st_mode)
        if bits != ("rw-" if "file" in node else "rwx"):
            node["bits"] = bits
        if self.with_times:
            node["times"] = [list(divmod(time, NANO)) for time in (status.st_atime_ns, status.st_mtime_ns,
                                                                   status.st_ctime_ns)]
        self.nodes.append(node)
        return len(self.nodes) - 1

    def node_at(self, path: str) -> Optional[int]:
        """The number of the directory at a path below the folder, whose links aren't followed."""
        number = 0
        for name in path.split("/"):
            if name not in ("", "."):
                held = self.nodes[number].get("dir", {}).get(name)
                if held is None:
                    return None
                number = held
        return number if "dir" in self.nodes[number] else None


def told(path: bytes, ask: Any) -> Any:
    """What the machine tells of a path; a mistake where it doesn't."""
    try:
        return ask(path)
    except OSError as error:
        raise Mistake(f"{shown(path)} can't be read: {error.strerror}") from None


def shown(path: bytes) -> str:
    return path.decode() if path.isascii() else shown_text(path.decode(errors="backslashreplace"))


def text_of(data: bytes, path: bytes, what: str) -> str:
    try:
        return data.decode()
    except UnicodeDecodeError:
        raise Mistake(f"{shown(path)}: the {what} isn't UTF-8, and a script's has to be") from None


def bits_of(mode: int) -> str:
    """What the owner may do."""
    return "".join(letter if mode & bit else "-" for letter, bit in zip("rwx", (0o400, 0o200, 0o100)))
