"""What a person is told of a run: words for each call and its answer, the tree as it is drawn, dumps of memory.

Both forms, the text and the page, are made of the same `Telling`.
"""

from __future__ import annotations

import datetime
import struct
from dataclasses import dataclass, field
from typing import Any, Dict, Iterator, List, Optional, Tuple

from . import calls as table
from .calls import CALLS, CHOICES, ERRNO_WORDS, FIELDS, SETS, TRAPS, Argument
from .replay import NANO, Change, NotItsReport, Replay, Told, shown_path, shown_text
from .scripts import EPOCHS, PERMS, Audit, Node, Outcome, Report, Script

Cause = Tuple[str, List[int]]  # a word, and the numbers of calls
MOST_SHOWN = 60  # characters of a text
LINE = 16  # bytes of a line of a dump
MOST_LINES = 256  # of a dump
MOST_CALLS = 8  # of a cause
KINDS = {"dir": "directory", "file": "file", "link": "link"}
MEASURES = {"nodes": "making", "bytes": "grown byte"}  # of a quota
WHEN = {"before": "before it is made", "after": "after it is made"}
WHAT = {"made": "made", "bytes": "bytes", "size": "size", "times": "times", "name": "named", "unname": "gone"}


@dataclass
class CallWords:
    number: int  # among several guests that of its turn; 0: it had none
    name: str  # empty: a turn without a call
    arguments: List[Tuple[str, str]]  # names and words
    answer: str
    state: str  # ok, refused, end or none
    details: List[str] = field(default_factory=list)  # what was read, listed and told
    changes: List[str] = field(default_factory=list)  # of the tree
    guest: Optional[int] = None  # among several


@dataclass
class TreeLine:
    """A line of a drawn tree: a mark, the node's number and bits, its branch and name, what it has, and the calls that
    made it so, each number with a word."""

    mark: str
    node: int
    bits: str
    branch: str
    name: str
    words: str
    causes: List[Cause]


@dataclass
class DumpLine:
    address: int
    data: bytes  # none: lines that are zeros
    calls: List[int]  # which wrote it last


@dataclass
class Dump:
    title: str
    lines: List[DumpLine]
    left_out: int  # lines


@dataclass
class Touched:
    """The nodes that were touched, number and path: all of them, or by an audit those through one directory."""

    through: str  # the directory in words; none: all nodes
    nodes: List[Tuple[int, str]]


@dataclass
class Changed:
    """What a trial leaves otherwise: how many nodes stay, and what became of each other one, by its path."""

    summary: str
    nodes: List[Tuple[str, str]]


@dataclass
class Telling:
    title: str
    given: List[Tuple[str, str]]
    calls: List[CallWords]
    before: List[TreeLine]
    after: List[TreeLine]
    dumps: List[Dump]
    outputs: List[Tuple[str, bytes]]
    touched: List[Touched]
    summary: str
    changed: Optional[Changed] = None  # where a trial is told


def some_calls(calls: List[int]) -> Tuple[List[int], str]:
    """The calls of a list that are told, and words on the others, where it is long."""
    if len(calls) <= MOST_CALLS:
        return calls, ""
    return calls[:MOST_CALLS // 2], f" .. {calls[-1]}, {len(calls):,} in all"


def count(number: int, one: str, many: str = "") -> str:
    return f"{number:,} {one if number == 1 else many or one + 's'}"


def shortened(data: bytes) -> str:
    """Bytes as a text in quotes, or as hex; the front of long ones."""
    try:
        text = data.decode()
    except UnicodeDecodeError:
        text = None
    if text is not None and sum(mark.isprintable() or mark in "\n\t\r" for mark in text) * 10 >= len(text) * 9:
        return shown_text(text[:MOST_SHOWN]) + ("" if len(text) <= MOST_SHOWN else " ..")
    return f"hex {data[:MOST_SHOWN // 2].hex(' ', -4)}" + ("" if len(data) <= MOST_SHOWN // 2 else " ..")


def date(nanoseconds: int) -> str:
    """A moment as a date, where it is later than a day after the epoch."""
    seconds, rest = divmod(nanoseconds, NANO)
    if not 86_400 <= seconds <= 253_402_300_799:
        return f"{nanoseconds} ns"
    day = datetime.datetime(1970, 1, 1) + datetime.timedelta(seconds=seconds)
    return day.strftime("%Y-%m-%dT%H:%M:%S") + (f".{rest:09d}".rstrip("0") if rest else "") + "Z"


def buffers_words(records: Optional[List[Tuple[int, int]]]) -> str:
    """The buffer that a list of records leads to."""
    if records is None:
        return "a record isn't aligned, or leaves the memory"
    used = next(((address, length) for address, length in records if length), None)
    return "an empty buffer" if used is None else f"{count(used[1], 'byte')} at {used[0]}"


def argument_words(told: Told, argument: Argument) -> str:
    given = told.numbers[argument.name]
    kind = argument.kind
    if kind == "fd":
        return f"{given[0]} ({told.descriptors[argument.name]})"
    if kind == "text":
        text = told.texts[argument.name]
        return f"{count(given[1], 'byte')} at {given[0]}, which leaves the memory" if text is None else shortened(text)
    if kind in ("reads", "writes"):
        return f"[{buffers_words(told.buffers[argument.name])}]"
    if kind == "room":
        return f"{count(given[1], 'byte')} at {given[0]}"
    if kind in SETS:
        return table.names_of(kind, given[0])
    if kind in CHOICES:
        return table.choice(kind, given[0])
    if kind == "time":
        return date(given[0])
    return str(given[0])


def subscription_words(subscription: bytes) -> str:
    userdata, tag, number, timeout, flags = struct.unpack("<QB7xI4xQ8xH6x", subscription)
    kind = table.choice("eventtype", tag)
    if tag == 0:
        clock = table.choice("clockid", number)
        return f"{userdata}: {clock} {'at' if flags & 1 else 'in'} {timeout} ns"
    return f"{userdata}: {kind} of descriptor {number}"


def event_words(event: bytes) -> str:
    userdata, kind, flags = struct.unpack("<Q2xB13xH6x", event)
    return f"{userdata}: {table.choice('eventtype', kind)}" + (", at its end" if flags & 1 else "")


def entries(data: bytes) -> Iterator[str]:
    """The names of the whole records of a listing, and `..` for one that is cut."""
    place = 0
    while place + table.ENTRY <= len(data):
        length, = struct.unpack_from("<I", data, place + 16)
        name = data[place + table.ENTRY:place + table.ENTRY + length]
        if len(name) < length:
            break
        yield shown_path(name.decode(errors="replace"))
        place += table.ENTRY + length
    if place < len(data):
        yield f"and {count(len(data) - place, 'byte')} of a record that is cut"


def record_words(kind: str, numbers: List[int]) -> str:
    """An fdstat or a filestat, field by field."""
    words = []
    for name, number in zip(FIELDS[kind], numbers):
        if name.endswith("filetype"):
            words.append(table.choice("filetype", number))
        elif name.startswith("fs_rights"):
            words.append(f"{name[3:]} {table.names_of('rights', number)}")
        elif name == "fs_flags":
            words.append(f"flags {table.names_of('fdflags', number)}")
        else:
            words.append(f"{name} {date(number) if name in ('atim', 'mtim', 'ctim') else number}")
    return ", ".join(words)


def ok_words(told: Told) -> str:
    kind, given = CALLS[told.name].answer, told.answer["ok"]
    if kind == "unit":
        return "ok"
    if kind == "fd":
        return f"descriptor {given}, which is {told.opened}"
    if kind in ("read", "written", "listed", "received"):
        return f"{count(given, 'byte')} {kind}"
    if kind == "time":
        return date(given)
    if kind == "sizes":
        return f"{count(given[0], 'text')}, {count(given[1], 'byte')} with their zeros"
    if kind == "prestat":
        return f"a preopen, whose name has {count(given, 'byte')}"
    if kind == "events":
        return count(given, "event")
    if kind == "position":
        return f"position {given}"
    return record_words(kind, given)


def answer_words(told: Told) -> Tuple[str, str]:
    """A call's answer in words, and its state."""
    if told.answer is None:
        return "not called", "none"
    (word, given), = told.answer.items()
    if word == "ok":
        return ok_words(told), "ok"
    if word == "errno":
        return f"{given}: {ERRNO_WORDS[given]}" + (f"; {told.lost}" if told.lost else ""), "refused"
    if word == "trap":
        return f"trap {given}: {TRAPS[given]}; the guest ends here", "end"
    return f"the guest ends with status {given}", "end"


def use_words(told: Told, quota: Dict[str, int]) -> str:
    """What a call used of the guest's quotas."""
    use = told.use
    least = "" if use.is_sure else "at least "
    return f"counts {count(use.more, MEASURES[use.key])}: {least}{use.used:,} of {quota[use.key]:,} so far"


def call_words(told: Told, script: Script) -> CallWords:
    answer, state = answer_words(told)
    arguments = [(argument.name, argument_words(told, argument)) for argument in CALLS[told.name].arguments]
    found = CallWords(told.number, told.name, arguments, answer, state)
    if told.subscriptions:
        found.details.append("waits for " + "; ".join(map(subscription_words, told.subscriptions)))
    if told.sent is not None:
        found.details.append(f"to {told.sent_to}: {shortened(told.sent)}")
    written = [(address, data) for address, data in told.wrote if data]
    if told.name == "fd_readdir" and written:
        found.details.append("names: " + " ".join(entries(written[0][1])))
    elif told.name == "poll_oneoff":
        found.details.append("events " + "; ".join(event_words(data) for _, data in written))
    elif told.name in ("args_get", "environ_get"):
        found.details += [f"at {address}: {shortened(data[:-1])}" for address, data in written[1::2]]
    else:
        found.details += [f"at {address}: {shortened(data)}" for address, data in written]
    if told.use:
        found.details.append(use_words(told, script.quota))
    found.changes = [change_words(change) for change in told.changes]
    return found


def change_words(change: Change) -> str:
    words = {"made": "made", "bytes": "other bytes in", "size": "another size of", "times": "other times of",
             "name": "named", "unname": "no longer named"}
    return f"{words[change.what]} {change.path} (node {change.node})"


# The tree.


def content_words(node: Node) -> str:
    """The bytes of a file, or the text of a link."""
    if node.kind == "file":
        return count(len(node.data), "byte") + (f" {shortened(bytes(node.data))}" if node.data else "")
    return f"-> {shown_path(node.link)}" if node.kind == "link" else ""


def moment_words(moment: Tuple[int, int]) -> str:
    seconds, nanoseconds = moment
    return date(seconds * NANO + nanoseconds)


def node_words(node: Node) -> str:
    """What a node has, beside its names."""
    times = "times " + " ".join(map(moment_words, node.times)) if node.times != EPOCHS else ""
    return ", ".join(words for words in (content_words(node), times) if words)


def shown_name(name: str, node: Node) -> str:
    return shown_path(name) + ("/" if node.kind == "dir" and name != "/" else "")


class Drawing:
    """A tree as it is drawn, with what became of it marked; of the tree before nothing is."""

    def __init__(self, nodes: List[Node], before: List[Node], changes: List[Change]) -> None:
        self.nodes, self.before = nodes, before
        self.of_node: Dict[int, List[Change]] = {}
        self.of_name: Dict[Tuple[int, str], List[Change]] = {}
        for change in changes:
            if change.what in ("bytes", "size", "times"):
                self.of_node.setdefault(change.node, []).append(change)
            else:
                self.of_name.setdefault((change.directory, change.name), []).append(change)

    @staticmethod
    def causes(changes: List[Change]) -> List[Cause]:
        """The calls of some changes, under a word for each kind of them."""
        found: Dict[str, List[int]] = {}
        for change in changes:
            calls = found.setdefault(WHAT[change.what], [])
            if change.call not in calls:
                calls.append(change.call)
        return list(found.items())

    def line(self, node: int, branch: str, name: str, holder: Optional[Tuple[int, str]]) -> TreeLine:
        """The line of a node under a name."""
        made = self.nodes[node]
        old = self.before[node] if node < len(self.before) else None
        is_new = holder is not None and self.name_before(*holder) != node
        is_other = old is not None and (made.data, made.times) != (old.data, old.times)
        causes: List[Change] = []
        if is_new:
            named = [change for change in self.of_name.get(holder, []) if change.what != "unname"]
            causes += [change for change in named if change.node == node][-1:]
        if is_other or old is None:
            causes += self.of_node.get(node, [])
        mark = "+" if is_new else "*" if is_other else " "
        shown = shown_name(name, made) if holder or name == "/" else name
        return TreeLine(mark, node, made.bits, branch, shown, node_words(made), self.causes(causes))

    def name_before(self, directory: int, name: str) -> Optional[int]:
        names = self.before[directory].names if directory < len(self.before) else None
        return (names or {}).get(name)

    def gone(self, directory: int, name: str, branch: str) -> TreeLine:
        """The line of a name that was there before and holds nothing now."""
        node = self.name_before(directory, name)
        changes = [change for change in self.of_name.get((directory, name), []) if change.what == "unname"]
        return TreeLine("-", node, self.nodes[node].bits, branch, shown_name(name, self.nodes[node]), "",
                        self.causes(changes[-1:]))

    def lines(self) -> List[TreeLine]:
        found = [self.line(0, "", "/", None)]
        seen = {0}
        self.below(0, "", found, seen)
        for node in range(len(self.nodes)):
            if node not in seen:
                line = self.line(node, "", f"(no name) a {KINDS[self.nodes[node].kind]}", None)
                line.causes += self.causes([change for changes in self.of_name.values() for change in changes
                                            if change.node == node and change.what == "unname"][-1:])
                line.mark = "-" if line.causes else " "
                found.append(line)
                seen.add(node)
                self.below(node, "", found, seen)
        return found

    def names_in(self, directory: int) -> List[str]:
        """The names of a directory, those that are gone among them."""
        now = set(self.nodes[directory].names or {})
        old = set(self.before[directory].names or {}) if directory < len(self.before) else set()
        return sorted(now | old, key=lambda name: name.encode())

    def below(self, top: int, branch: str, found: List[TreeLine], seen: set) -> None:
        """Draws what is below a directory, without going down by a call of itself."""
        left = [(top, branch, iter(self.names_in(top)), len(self.names_in(top)))]
        while left:
            directory, branch, names, rest = left.pop()
            name = next(names, None)
            if name is None:
                continue
            left.append((directory, branch, names, rest - 1))
            corner, lane = ("└── ", "    ") if rest == 1 else ("├── ", "│   ")
            node = (self.nodes[directory].names or {}).get(name)
            if node is None:
                found.append(self.gone(directory, name, branch + corner))
                continue
            found.append(self.line(node, branch + corner, name, (directory, name)))
            if self.nodes[node].kind == "dir" and node not in seen:
                below = self.names_in(node)
                left.append((node, branch + lane, iter(below), len(below)))
            seen.add(node)


# The memory.


Write = Tuple[int, int, int]  # where it begins and ends, and the call


def writes_to(told: List[Told], begin: int, end: int) -> List[Write]:
    """What calls wrote to a range, in order."""
    found = [(place, place + len(data), call.number) for call in told for place, data in call.wrote]
    return [write for write in found if write[0] < end and begin < write[1]]


def writers(writes: List[Write], begin: int, end: int) -> List[int]:
    """Which calls wrote the bytes of a range last."""
    last = [0] * (end - begin)
    for place, behind, call in writes:
        front, back = max(place, begin), min(behind, end)
        if front < back:
            last[front - begin:back - begin] = [call] * (back - front)
    return sorted(set(last) - {0})


def dump(title: str, data: bytes, address: int, told: List[Told]) -> Dump:
    """A dump of some bytes: lines from multiples of 16 on; lines of zeros in a row are one line without bytes."""
    front = address // LINE * LINE
    lines: List[DumpLine] = []
    left_out = 0
    for place in range(front, address + len(data), LINE):
        begin, end = max(place, address), min(place + LINE, address + len(data))
        part = bytes(data[begin - address:end - address])
        if not any(part) and len(part) == LINE and lines:
            if lines[-1].data:
                lines.append(DumpLine(begin, b"", []))
        elif len(lines) >= MOST_LINES:
            left_out += 1
        else:
            lines.append(DumpLine(begin, part, []))
    writes = writes_to(told, address, lines[-1].address + LINE) if lines else []
    for line in lines:
        line.calls = writers(writes, line.address, line.address + len(line.data))
    return Dump(title, lines, left_out)


def dumps_of(replay: Replay, report: Outcome) -> List[Dump]:
    memory = replay.script.memory
    found = []
    if memory:
        found.append(dump(f"at the start, {count(len(memory), 'byte')}", bytes(memory), 0, []))
    for (address, length), data in zip(replay.script.show, report.memory):
        found.append(dump(f"at the end, {count(length, 'byte')} at {address}", data, address, replay.told))
    return found


def dump_text(line: DumpLine) -> str:
    """A line of a dump: address, bytes in hex and as characters."""
    if not line.data:
        return f"{line.address:08x}  *"
    lead = line.address % LINE
    cells = ["  "] * lead + [f"{byte:02x}" for byte in line.data]
    cells += ["  "] * (LINE - len(cells))
    marks = " " * lead + "".join(chr(byte) if 32 <= byte < 127 else "." for byte in line.data)
    return f"{line.address - lead:08x}  {' '.join(cells[:8])}  {' '.join(cells[8:])}  |{marks.ljust(LINE)}|"


# All of it.


def given_of(script: Script) -> List[Tuple[str, str]]:
    """What a guest is given, but for its tree and memory."""
    found = []
    for number, preopen in enumerate(script.preopens, table.FIRST_PREOPEN):
        perms = PERMS[preopen.perms]
        found.append((f"descriptor {number}", f"preopen {shown_text(preopen.name)}, node {preopen.node}, {perms}"))
    if script.args:
        found.append(("arguments", " ".join(map(shown_text, script.args))))
    if script.env:
        found.append(("environment", " ".join(shown_text(f"{key}={given}") for key, given in script.env)))
    if script.stdin:
        found.append(("standard input", shortened(script.stdin)))
    if script.wall != (0, 0):
        found.append(("wall clock", date(script.wall[0] * NANO + script.wall[1])))
    if script.mono:
        found.append(("monotonic clock", f"{script.mono} ns"))
    if script.random:
        found.append(("random bytes", f"hex {script.random[:MOST_SHOWN // 2].hex(' ', -4)}"))
    if script.quota is not None:
        found.append(("quota", ", ".join(count(most, MEASURES[key]) for key, most in script.quota.items())))
    if script.faults:
        found.append(("faults", "; ".join(f"host call {number}, {WHEN[when]}" for number, when in script.faults)))
    return found + limit_words(script.limits)


def limit_words(limits: Dict[str, Any]) -> List[Tuple[str, str]]:
    """Limits that a script sets."""
    return [(key, ", ".join(f"{name} {most}" for name, most in limits[key].items())
             if isinstance(limits[key], dict) else str(limits[key])) for key in sorted(limits)]


def summary_of(calls: List[CallWords]) -> str:
    states = [call.state for call in calls]
    words = [f"{count(len(calls), 'call')}: {states.count('ok')} ok, {states.count('refused')} refused"]
    for last in (call for call in calls if call.state == "end"):
        guest = "" if last.guest is None else f"guest {last.guest}: "
        words.append(f"{guest}{last.answer} (call {last.number}, {last.name})")
    if states.count("none"):
        words.append(f"{states.count('none')} not called")
    return "; ".join(words)


def touched_of(replay: Replay, report: Report, audit: Optional[Audit]) -> List[Touched]:
    """What was touched; with an audit, which has to be of this run, what was touched through each directory."""
    if audit is None:
        return [Touched("", [(node, replay.paths.of(node)) for node in report.touched])]
    names = [preopen.name for preopen in replay.script.preopens]
    if names != [name for name, _ in audit.preopens]:
        raise NotItsReport("the audit isn't this script's: it has other directories")
    if audit.touched != report.touched or set(audit.touched) != {node for _, nodes in audit.preopens for node in nodes}:
        raise NotItsReport("the audit isn't this script's: it has other touched nodes than the report")
    return [Touched(f"descriptor {number}, preopen {shown_text(name)}", [(node, replay.paths.of(node)) for node in nodes])
            for number, (name, nodes) in enumerate(audit.preopens, table.FIRST_PREOPEN)]


def telling_of(title: str, replay: Replay, report: Report, audit: Optional[Audit] = None) -> Telling:
    changes = [change for told in replay.told for change in told.changes]
    script = replay.script
    calls = [call_words(told, script) for told in replay.told]
    return Telling(
        title,
        given_of(script),
        calls,
        Drawing(script.nodes, script.nodes, []).lines(),
        Drawing(report.tree, script.nodes, changes).lines(),
        dumps_of(replay, report),
        [("standard output", report.stdout), ("standard error", report.stderr)],
        touched_of(replay, report, audit),
        summary_of(calls),
    )
