"""The calls of `wasi_snapshot_preview1` as one table, which is read from calls.txt, and the names of its numbers.

Names, kinds and numbers are those of the preview1 specification.
"""

from __future__ import annotations

import re
from dataclasses import dataclass
from pathlib import Path
from typing import Dict, Iterator, List, Optional, Tuple

U32 = 2**32 - 1
U64 = 2**64 - 1

# The bits of the sets, from bit 0 on.
SETS: Dict[str, Tuple[str, ...]] = {
    "rights": (
        "fd_datasync", "fd_read", "fd_seek", "fd_fdstat_set_flags", "fd_sync", "fd_tell", "fd_write", "fd_advise",
        "fd_allocate", "path_create_directory", "path_create_file", "path_link_source", "path_link_target", "path_open",
        "fd_readdir", "path_readlink", "path_rename_source", "path_rename_target", "path_filestat_get",
        "path_filestat_set_size", "path_filestat_set_times", "fd_filestat_get", "fd_filestat_set_size",
        "fd_filestat_set_times", "path_symlink", "path_remove_directory", "path_unlink_file", "poll_fd_readwrite",
        "sock_shutdown", "sock_accept",
    ),
    "fdflags": ("append", "dsync", "nonblock", "rsync", "sync"),
    "oflags": ("creat", "directory", "excl", "trunc"),
    "lookupflags": ("symlink_follow",),
    "fstflags": ("atim", "atim_now", "mtim", "mtim_now"),
    "subclockflags": ("abstime",),
    "riflags": ("recv_peek", "recv_waitall"),
    "siflags": (),
    "sdflags": ("rd", "wr"),
}

# The numbers of the choices.
CHOICES: Dict[str, Dict[int, str]] = {
    "whence": {0: "set", 1: "cur", 2: "end"},
    "clockid": {0: "realtime", 1: "monotonic", 2: "process_cputime_id", 3: "thread_cputime_id"},
    "advice": {0: "normal", 1: "sequential", 2: "random", 3: "willneed", 4: "dontneed", 5: "noreuse"},
    "eventtype": {0: "clock", 1: "fd_read", 2: "fd_write"},
    "filetype": {
        0: "unknown", 1: "block device", 2: "character device", 3: "directory", 4: "regular file", 5: "socket_dgram",
        6: "socket_stream", 7: "symbolic link",
    },
}

# All error numbers of preview1: number, name, and what it says.
ERRNOS = """
0 success no error
1 2big the argument list is too long
2 acces permission is denied
3 addrinuse the address is in use
4 addrnotavail the address isn't available
5 afnosupport the address family isn't supported
6 again the resource isn't there now; try again
7 already a connection is being made already
8 badf the descriptor isn't open, or isn't of the right kind
9 badmsg bad message
10 busy the device or resource is busy
11 canceled the operation was canceled
12 child there are no child processes
13 connaborted the connection was aborted
14 connrefused the connection was refused
15 connreset the connection was reset
16 deadlk a deadlock would come of it
17 destaddrreq a destination address is wanted
18 dom an argument is out of the function's domain
19 dquot the quota is used up
20 exist there is something of this name already
21 fault bad address
22 fbig the file would be too large
23 hostunreach the host isn't reachable
24 idrm the identifier was removed
25 ilseq the text isn't UTF-8
26 inprogress it is being done already
27 intr interrupted
28 inval an argument isn't valid
29 io input or output failed
30 isconn the socket is connected
31 isdir it is a directory
32 loop a link that isn't followed, or too many links
33 mfile too many open files
34 mlink too many names of one node
35 msgsize the message is too large
36 multihop multihop was tried
37 nametoolong the name is too long
38 netdown the network is down
39 netreset the connection was aborted by the network
40 netunreach the network isn't reachable
41 nfile too many open files in the system
42 nobufs there is no buffer space
43 nodev no such device
44 noent there is nothing of this name
45 noexec not an executable file
46 nolck no locks are left
47 nolink the link was severed
48 nomem there isn't enough memory, or fuel
49 nomsg no message of this type
50 noprotoopt the protocol isn't available
51 nospc there is no space left
52 nosys the function isn't supported
53 notconn the socket isn't connected
54 notdir it isn't a directory
55 notempty the directory isn't empty
56 notrecoverable the state can't be recovered
57 notsock it isn't a socket
58 notsup it isn't supported
59 notty it isn't a terminal
60 nxio no such device or address
61 overflow the number doesn't fit
62 ownerdead the previous owner died
63 perm it isn't permitted
64 pipe the pipe is broken
65 proto a protocol error
66 protonosupport the protocol isn't supported
67 prototype the socket's protocol is of the wrong type
68 range the result is too large
69 rofs the file system is read-only
70 spipe a stream has no position
71 srch no such process
72 stale the file handle is stale
73 timedout it timed out
74 txtbsy the file is being executed
75 xdev the two are on different devices
76 notcapable a right is missing
"""

TRAPS = {
    "pointer": "an address isn't aligned, or leaves the guest's memory",
    "table": "as many descriptors are live as there may be",
    "exit": "the exit status is above 125",
}

# The layouts of preview1, in bytes.
RECORD = 8  # of a list of buffers: address and length
SUBSCRIPTION = 48
EVENT = 32
ENTRY = 24  # of a listing, without its name
FIRST_PREOPEN = 3
STREAMS = ("standard input", "standard output", "standard error")
LAST_STATUS = 125

_PAIRS = {"text", "reads", "writes", "room"}  # kinds of two numbers: an address, and a length or a count
_WIDE = {"number", "time", "rights", "delta"}
FIELDS = {"fdstat": ("fs_filetype", "fs_flags", "fs_rights_base", "fs_rights_inheriting"),
          "filestat": ("dev", "ino", "filetype", "nlink", "size", "atim", "mtim", "ctim"),
          "sizes": ("count", "size")}
# How many bytes stand where the pointers lead that a guest gives behind a call's arguments, by the kind of the answer.
RESULTS = {
    "unit": (), "none": (), "sizes": (4, 4), "time": (8,), "fdstat": (24,), "filestat": (64,), "read": (4,),
    "written": (4,), "listed": (4,), "prestat": (8,), "fd": (4,), "position": (8,), "events": (4,), "received": (4, 2),
}


@dataclass(frozen=True)
class Argument:
    """An argument: its name in the specification, and its kind."""

    name: str
    kind: str

    @property
    def width(self) -> int:
        """How many numbers of the call it takes."""
        return 2 if self.kind in _PAIRS else 1

    @property
    def least(self) -> int:
        return -(2**63) if self.kind == "delta" else 0

    @property
    def most(self) -> int:
        if self.kind == "delta":
            return 2**63 - 1
        return U64 if self.kind in _WIDE else U32


@dataclass(frozen=True)
class Row:
    """A call as calls.txt has it: `short` is its second line, and `about` its third."""

    name: str
    arguments: Tuple[Argument, ...]
    results: Tuple[str, ...]
    answer: str
    short: str
    about: str

    @property
    def width(self) -> int:
        """How many numbers stand behind the name."""
        return sum(argument.width for argument in self.arguments)

    def argument(self, name: str) -> Optional[Argument]:
        return next((argument for argument in self.arguments if argument.name == name), None)

    def split(self, numbers: List[int]) -> Dict[str, Tuple[int, ...]]:
        """The numbers of each argument by its name."""
        found, place = {}, 0
        for argument in self.arguments:
            found[argument.name] = tuple(numbers[place:place + argument.width])
            place += argument.width
        return found

    def limits(self) -> List[Tuple[str, int, int]]:
        """The name and the range of each number behind the call's name."""
        found = []
        for argument in self.arguments:
            found += [(argument.name, argument.least, argument.most)] * argument.width
        return found


def _row(head: str, short: str, about: str) -> Row:
    call, told = head.split(" -> ")
    name, *words = call.split()
    *results, answer = re.split("[,:]", told)
    arguments = [Argument(*word.split(":")) for word in words]
    return Row(name, tuple(arguments), tuple(results), answer, short.strip(), about.strip())


def _rows() -> Iterator[Row]:
    text = Path(__file__).resolve().with_name("calls.txt").read_text(encoding="utf-8").replace("\\\n", "")
    lines = [line for line in text.splitlines() if line and not line.startswith("#")]
    return map(_row, lines[::3], lines[1::3], lines[2::3])


CALLS: Dict[str, Row] = {row.name: row for row in _rows()}
_ERRNO_LINES = [line.split(None, 2) for line in ERRNOS.strip().splitlines()]
ERRNO_NAMES: Dict[int, str] = {int(number): name for number, name, _ in _ERRNO_LINES}
ERRNO_WORDS: Dict[str, str] = {name: words for _, name, words in _ERRNO_LINES}


def bit(set_name: str, name: str) -> int:
    """The number of one bit of a set."""
    return 1 << SETS[set_name].index(name)


def names_of(set_name: str, number: int) -> str:
    """The names of a set's bits, and what isn't known as a number: `creat|excl`, `0` for none, `all but sync`."""
    names = SETS[set_name]
    there = [name for place, name in enumerate(names) if number >> place & 1]
    missing = [name for name in names if name not in there]
    rest = number >> len(names) << len(names)
    if len(there) > 8 and len(missing) < len(there) and not rest:
        return "all but " + "|".join(missing) if missing else "all"
    return "|".join(there + ([hex(rest)] if rest else [])) or "0"


def choice(kind: str, number: int) -> str:
    """The name of a choice's number, or the number."""
    return CHOICES[kind].get(number, str(number))
