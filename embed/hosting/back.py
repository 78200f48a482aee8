"""Writes the changes of a guest's tree to the folder that it was read from.

No path is followed through a link: each directory is opened by its name in the one above. A folder that isn't what it
was when the guest began is left as it is.
"""

from __future__ import annotations

import os
import stat
from contextlib import contextmanager
from typing import Dict, Iterator, List, Tuple

from wasitools.folders import Folder
from wasitools.replay import NANO
from wasitools.scripts import Mistake

from .trees import Changes, Node, Root, places, times_of

OPEN_FOLDER = os.O_RDONLY | os.O_DIRECTORY | os.O_NOFOLLOW | os.O_CLOEXEC
NEW_DIRECTORY, NEW_FILE = 0o777, 0o666  # less what the umask takes


def is_unchanged(root: Root, before: List[Node]) -> bool:
    """Whether a folder still has the names, bytes, links and bits that were read from it."""
    now = Folder(root.given.host, with_times=False).nodes
    was = before[root.node:root.node + root.count]
    return [plain(node, root.node) for node in was] == [plain(node, 0) for node in now]


def plain(node: Node, base: int) -> Node:
    """A node without its times, with numbers from its folder's on."""
    kept = {key: value for key, value in node.items() if key != "times"}
    if "dir" in kept:
        kept["dir"] = {name: number - base for name, number in kept["dir"].items()}
    return kept


def leads_out(path: str, text: str) -> bool:
    """Whether a link at a path may lead out of the folder: by `..` that are more than the directories above it, or that
    stand behind a name, which may be a link itself."""
    parts = [part for part in text.split("/") if part not in ("", ".")]
    up = next((place for place, part in enumerate(parts) if part != ".."), len(parts))
    return text.startswith("/") or up > path.count("/") or ".." in parts[up:]


class Writer:
    """Writes into one folder. `kept` are lines on what wasn't written."""

    def __init__(self, root: Root, before: List[Node], after: List[Node], changes: Changes) -> None:
        self.top = os.open(root.given.host, OPEN_FOLDER & ~os.O_NOFOLLOW)
        self.before, self.after, self.changes = before, after, changes
        self.kept: List[str] = []
        self.modes: Dict[int, int] = {}  # of nodes that were moved: the bits of the machine
        # where a file or link stands here already, by its node: it gets its other names by links
        self.standing = {number: path for path, number in places(before, root.node).items()
                         if path not in changes.gone and "dir" not in before[number]}

    def write(self) -> None:
        try:
            for path in sorted(self.changes.gone, key=depth, reverse=True):
                self.remove(path, self.changes.gone[path])
            for path, number in self.changes.changed.items():
                self.rewrite(path, number)
            for path in sorted(self.changes.made, key=depth):
                self.make(path, self.changes.made[path])
            for path in sorted(self.changes.timed, key=depth, reverse=True):
                self.set_times(path, self.changes.timed[path])
        finally:
            os.close(self.top)

    @contextmanager
    def parent(self, path: str) -> Iterator[Tuple[int, str]]:
        """The directory in which a path's last name stands, opened, and that name."""
        *above, name = path.split("/")
        folder = os.dup(self.top)
        try:
            for part in above:
                below = os.open(part, OPEN_FOLDER, dir_fd=folder)
                os.close(folder)
                folder = below
            yield folder, name
        finally:
            os.close(folder)

    def remove(self, path: str, number: int) -> None:
        with self.parent(path) as (folder, name):
            self.modes[number] = stat.S_IMODE(os.stat(name, dir_fd=folder, follow_symlinks=False).st_mode)
            if "dir" in self.before[number]:
                os.rmdir(name, dir_fd=folder)
            else:
                os.unlink(name, dir_fd=folder)

    def rewrite(self, path: str, number: int) -> None:
        with self.parent(path) as (folder, name):
            opened = os.open(name, os.O_WRONLY | os.O_TRUNC | os.O_NOFOLLOW | os.O_CLOEXEC, dir_fd=folder)
            with os.fdopen(opened, "wb") as file:
                file.write(bytes.fromhex(self.after[number]["file"]))

    def make(self, path: str, number: int) -> None:
        node = self.after[number]
        if "link" in node and leads_out(path, node["link"]):
            self.kept.append(f"{path}: a link to {node['link']} may lead out of the folder, and isn't written")
            return
        with self.parent(path) as (folder, name):
            if number in self.standing:
                self.name_again(self.standing[number], folder, name)
            elif "dir" in node:
                os.mkdir(name, NEW_DIRECTORY, dir_fd=folder)
            elif "link" in node:
                os.symlink(node["link"], name, dir_fd=folder)
            else:
                self.make_file(folder, name, number)
            if number in self.modes and "link" not in node:
                os.chmod(name, self.modes[number], dir_fd=folder)
        if "dir" not in node:
            self.standing[number] = path

    def name_again(self, old: str, folder: int, name: str) -> None:
        with self.parent(old) as (old_folder, old_name):
            os.link(old_name, name, src_dir_fd=old_folder, dst_dir_fd=folder, follow_symlinks=False)

    def make_file(self, folder: int, name: str, number: int) -> None:
        flags = os.O_WRONLY | os.O_CREAT | os.O_EXCL | os.O_NOFOLLOW | os.O_CLOEXEC
        with os.fdopen(os.open(name, flags, NEW_FILE, dir_fd=folder), "wb") as file:
            file.write(bytes.fromhex(self.after[number]["file"]))

    def set_times(self, path: str, number: int) -> None:
        """Sets the accessed and the modified time where the guest did, and leaves the machine's else. A created time
        can't be set."""
        if any(line.startswith(f"{path}: ") for line in self.kept):
            return
        old, new = times_of(self.before, number), self.after[number]["times"]
        with self.parent(path) as (folder, name):
            status = os.stat(name, dir_fd=folder, follow_symlinks=False)
            times = [status.st_atime_ns, status.st_mtime_ns]
            for place in range(len(times)):
                if new[place] != old[place]:
                    times[place] = new[place][0] * NANO + new[place][1]
            os.utime(name, ns=tuple(times), dir_fd=folder, follow_symlinks=False)


def depth(path: str) -> Tuple[int, str]:
    return path.count("/"), path


def write_back(root: Root, before: List[Node], after: List[Node], changes: Changes) -> List[str]:
    """Writes the changes of one folder, and gives lines on what wasn't written."""
    if not is_unchanged(root, before):
        raise Mistake(f"{root.given.host} was changed by another meanwhile: nothing is written back to it")
    try:
        writer = Writer(root, before, after, changes)
        writer.write()
    except OSError as error:
        raise Mistake(f"{root.given.host} may be written in part: {error}") from None
    return writer.kept
