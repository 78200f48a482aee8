"""A guest that was run by Node: its calls as they were written down, and the script that makes the same calls.

A script has one memory from its start, and the guest's own was another one at each call. So what a call reads gets an
address of its own in the script's memory, and so does what is written for it. Besides:

- a list of several buffers becomes a call for each of them, since Node takes all of a list and the program the first
  one that isn't empty, upon which a guest goes on with the rest;
- a descriptor has the number that the program gives it, which may be another than Node's;
- a cookie of a listing says how many records came before it, `.` and `..` among them, which Node doesn't list;
- a read of standard input asks for as many bytes as came, and these are the script's standard input;
- random bytes are those that came, and the clocks stand at what was first told of them.
"""

from __future__ import annotations

import json
import os
import shutil
import struct
import subprocess
import tempfile
from dataclasses import dataclass, field
from pathlib import Path
from typing import Any, Dict, List, Optional, Tuple

from .calls import CALLS, ENTRY, ERRNO_NAMES, EVENT, FIRST_PREOPEN, RESULTS, SUBSCRIPTION, Row
from .folders import Folder
from .replay import NANO
from .scripts import Mistake
from .writing import Layout

MOST_OF_OWN_ROOMS = 4_194_304  # bytes of buffers that are filled, each with an address of its own
ENDINGS = {"status", "trap", "fault"}


@dataclass
class Call:
    """A call as it was made under Node; what it read, where it read all of it, and its answer."""

    name: str
    numbers: Dict[str, List[int]]
    read: Dict[str, Any]
    errno: Optional[int] = None  # none: it didn't come back
    results: List[bytes] = field(default_factory=list)
    put: bytes = b""

    @property
    def row(self) -> Row:
        return CALLS[self.name]


@dataclass
class Recorded:
    """A run of a guest: its calls, how it ended, and the folder before and after."""

    calls: List[Call]
    ending: Dict[str, Any]
    before: Folder
    after: Folder


def job_of(log: str) -> Dict[str, Any]:
    """What recorder.cjs is told."""
    calls = {
        row.name: {
            "arguments": [[argument.name, argument.kind, argument.width] for argument in row.arguments],
            "answer": row.answer, "results": RESULTS[row.answer],
        }
        for row in CALLS.values()
    }
    return {"log": log, "calls": calls, "subscription": SUBSCRIPTION, "event": EVENT}


def node() -> str:
    found = shutil.which("node")
    if found is None:
        raise Mistake("no `node`, which runs the guest, is on the path: apt-get install nodejs, version 18 or later")
    return found


def record(guest: Path, args: List[str], folder: Optional[str], name: str, with_times: bool) -> Recorded:
    """Runs a guest on a copy of a folder, and gives what it did."""
    if not guest.is_file():
        raise Mistake(f"{guest} is no file" if guest.exists() else f"there is no guest {guest}")
    program = node()
    with tempfile.TemporaryDirectory() as scratch:
        copy = os.path.join(scratch, "folder")
        copied(folder, copy)
        before = Folder(copy, with_times)
        log, job = os.path.join(scratch, "log"), os.path.join(scratch, "job")
        told = {"guest": str(guest), "args": [guest.name] + args, "preopens": {name: copy}}
        Path(job).write_text(json.dumps({**job_of(log), **told}))
        module = Path(__file__).resolve().parent / "record.mjs"
        ran = subprocess.run([program, "--no-warnings", str(module), job])
        lines = Path(log).read_text().splitlines() if os.path.exists(log) else []
        if ran.returncode != 0 or not lines:
            raise Mistake(f"Node ended with status {ran.returncode}, and what it said stands above")
        values = [json.loads(line) for line in lines]
        ending = values.pop() if ENDINGS & set(values[-1]) else {"trap": "it didn't come to its end"}
        if "fault" in ending:
            raise Mistake(f"{guest} can't be run: {ending['fault']}")
        return Recorded(calls_of(values), ending, before, Folder(copy, False))


def copied(folder: Optional[str], copy: str) -> None:
    """A copy of a folder, or an empty one."""
    if folder is None:
        os.mkdir(copy)
        return
    Folder(folder)  # which refuses what no script has
    made = subprocess.run(["cp", "-a", "--", os.path.join(folder, "."), copy], stderr=subprocess.PIPE)
    if made.returncode != 0:
        raise Mistake(f"{folder} can't be copied: {made.stderr.decode(errors='replace').strip()}")


def calls_of(values: List[Dict[str, Any]]) -> List[Call]:
    found: List[Call] = []
    for value in values:
        if "name" in value:
            numbers = {name: [int(number) for number in given] for name, given in value["numbers"].items()}
            found.append(Call(value["name"], numbers, value["read"]))
        else:
            found[-1].errno = value["errno"]
            found[-1].results = [bytes.fromhex(result or "") for result in value.get("results", [])]
            found[-1].put = bytes.fromhex(value.get("put") or "")
    return found


class Numbers:
    """Which number the program gives to a descriptor that has another one under Node. It gives the largest that was
    closed, else the next one that was never used."""

    def __init__(self, preopens: int) -> None:
        self.known = {number: number for number in range(FIRST_PREOPEN + preopens)}
        self.closed: List[int] = []
        self.next = FIRST_PREOPEN + preopens

    def of(self, number: int) -> int:
        """The program's number; of what isn't open under Node one that isn't open there either."""
        if number in self.known:
            return self.known[number]
        taken = set(self.known.values())
        return number if number not in taken else max(taken | {number}) + 1

    def opened(self, number: int) -> None:
        if self.closed:
            self.closed.sort()
            self.known[number] = self.closed.pop()
        else:
            self.known[number] = self.next
            self.next += 1

    def gone(self, number: int) -> None:
        if number in self.known:
            self.closed.append(self.known.pop(number))

    def moved(self, number: int, to: int) -> None:
        if number != to and number in self.known and to in self.known:
            self.closed.append(self.known.pop(number))
            # (what was `number` has the number of `to` now, under both)


class Replayer:
    """Makes a script of a recorded run."""

    def __init__(self, recorded: Recorded, name: str, args: List[str]) -> None:
        self.recorded, self.name, self.args = recorded, name, args
        self.layout = Layout()
        self.own_rooms = 0
        self.common_room: Optional[Tuple[int, int]] = None
        self.numbers = Numbers(1)
        self.cookies: Dict[int, int] = {}  # Node's cookies: how many records the program has before them
        self.calls: List[List[Any]] = []
        self.show: List[List[int]] = []
        self.stdin, self.random = b"", b""
        self.clocks: Dict[int, int] = {}
        self.entries: List[Dict[str, Any]] = []  # of the recording

    def make(self) -> None:
        for call in self.recorded.calls:
            first = len(self.calls)
            for numbers in self.parts(call):
                self.calls.append([call.name] + numbers)
            self.follow(call)
            self.entries.append(self.entry(call, first))

    def script(self) -> Dict[str, Any]:
        found: Dict[str, Any] = {
            "nodes": self.recorded.before.nodes, "preopens": [{"node": 0, "name": self.name, "perms": "rw"}],
            "args": self.args,
        }
        if self.stdin:
            found["stdin"] = self.stdin.hex()
        if self.random:
            found["random"] = self.random.hex()
        if 0 in self.clocks:
            found["wall"] = list(divmod(self.clocks[0], NANO))
        if 1 in self.clocks:
            found["mono"] = self.clocks[1]
        return {**found, "memory": self.layout.memory(), "calls": self.calls, "show": self.show}

    def recording(self) -> Dict[str, Any]:
        return {"calls": self.entries, "ending": self.recorded.ending, "after": self.recorded.after.nodes}

    def entry(self, call: Call, first: int) -> Dict[str, Any]:
        """What Node answered, beside the places of the script's calls that stand for the call."""
        found: Dict[str, Any] = {"name": call.name, "first": first, "count": len(self.calls) - first}
        if call.errno is not None:
            found["errno"] = ERRNO_NAMES.get(call.errno, str(call.errno))
        if call.errno == 0:
            found["ok"] = self.answer(call)
            found["put"] = call.put.hex()
        return found

    def answer(self, call: Call) -> Any:
        """Node's answer in the form of a report's."""
        kind, results = call.row.answer, call.results
        if kind in ("unit", "none"):
            return None
        if kind == "sizes":
            return [int.from_bytes(result, "little") for result in results]
        if kind == "fdstat":
            return list(struct.unpack("<BxH4xQQ", results[0]))
        if kind == "filestat":
            return list(struct.unpack("<QQB7xQQQQQ", results[0]))
        if kind == "prestat":
            return struct.unpack("<B3xI", results[0])[1]
        number = int.from_bytes(results[0], "little")
        return self.numbers.of(number) if kind == "fd" else number

    # What a call leaves for the calls behind it.

    def follow(self, call: Call) -> None:
        if call.errno != 0:
            return
        given = {name: numbers[0] for name, numbers in call.numbers.items()}
        if call.name in ("path_open", "sock_accept"):
            self.numbers.opened(int.from_bytes(call.results[0], "little"))
        elif call.name == "fd_close":
            self.numbers.gone(given["fd"])
        elif call.name == "fd_renumber":
            self.numbers.moved(given["fd"], given["to"])
        elif call.name == "fd_read" and given["fd"] == 0:
            self.stdin += call.put
        elif call.name == "random_get":
            self.random += call.put
        elif call.name == "clock_time_get":
            self.clocks.setdefault(given["id"], int.from_bytes(call.results[0], "little"))
        elif call.name == "fd_readdir":
            self.follow_listing(call, given["cookie"])

    def follow_listing(self, call: Call, cookie: int) -> None:
        """Counts the records that Node listed, by the cookie that each of them has."""
        before = self.cookies.get(cookie, 2)
        place = 0
        while place + ENTRY <= len(call.put):
            following, _, length = struct.unpack_from("<QQI", call.put, place)
            before += 1
            self.cookies[following] = before
            place += ENTRY + length

    # The numbers of the script's calls.

    def parts(self, call: Call) -> List[List[int]]:
        """The numbers of each call that stands for a recorded one: one for each buffer of a list of several."""
        kinds = {argument.kind: argument.name for argument in call.row.arguments}
        name = kinds.get("writes") or kinds.get("reads")
        buffers = call.read.get(name) if name else None
        if buffers is None:
            return [self.whole(call)]
        if "writes" in kinds:
            parts = [(bytes.fromhex(data), len(data) // 2) for data in buffers if data is not None]
        else:
            parts = [(None, length) for _, length in buffers]
        if call.name == "fd_read" and call.numbers["fd"] == [0] and call.put:
            parts = [(None, len(call.put))]
        parts = [part for part in parts if part[1]] or parts[:1]
        found, before = [], 0
        for data, length in parts or [(None, 0)]:
            address = self.layout.place(data) if data is not None else self.room(length)
            found.append(self.whole(call, [self.layout.records([(address, length)]), 1], before))
            before += length
        return found

    def room(self, length: int) -> int:
        """A place for what a call writes: its own, which is shown, until there are too many of them."""
        if not length:
            return 0
        if self.own_rooms + length <= MOST_OF_OWN_ROOMS:
            self.own_rooms += length
            address = self.layout.room(length, 8)
            self.show.append([address, length])
            return address
        if self.common_room is None or self.common_room[1] < length:
            self.common_room = self.layout.room(length, 8), length
        return self.common_room[0]

    def whole(self, call: Call, buffer: Optional[List[int]] = None, before: int = 0) -> List[int]:
        """The numbers of one call, with this list of one buffer, which so many bytes of the list stand before."""
        found: List[int] = []
        for argument in call.row.arguments:
            given = list(call.numbers[argument.name])
            kind = argument.kind
            if kind in ("reads", "writes"):
                given = buffer if buffer is not None else given
            elif kind == "text" and call.read[argument.name] is not None:
                text = bytes.fromhex(call.read[argument.name])
                given = [self.layout.place(text), len(text)]
            elif kind == "room":
                given = [self.room(given[1]), given[1]]
            elif kind == "fd":
                given = [self.numbers.of(given[0])]
            elif kind in ("list", "address"):
                given = [self.texts_room(call, kind)]
            elif kind == "subscriptions" and call.read[argument.name] is not None:
                given = [self.subscriptions(bytes.fromhex(call.read[argument.name]))]
            elif kind == "events":
                given = [self.room(EVENT * call.numbers["nsubscriptions"][0])]
            elif argument.name == "offset" and call.name in ("fd_pread", "fd_pwrite"):
                given = [given[0] + before]
            elif argument.name == "cookie":
                given = [self.cookies.get(given[0], given[0])]
            found += given
        return found

    def texts_room(self, call: Call, kind: str) -> int:
        texts = self.args if call.name == "args_get" else []
        return self.room(4 * len(texts) if kind == "list" else sum(len(text.encode()) + 1 for text in texts))

    def subscriptions(self, data: bytes) -> int:
        """The address of subscriptions, whose descriptors have the program's numbers."""
        laid = bytearray(data)
        for place in range(0, len(laid), SUBSCRIPTION):
            if laid[place + 8]:
                number, = struct.unpack_from("<I", laid, place + 16)
                struct.pack_into("<I", laid, place + 16, self.numbers.of(number))
        return self.layout.place(bytes(laid), 8)
