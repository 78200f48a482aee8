"""Scripts, reports, audits and trials as they are read from files: their shape is checked, and a fault is a `Mistake`
of one line.

What is said here of a script is what docs/scripts.md says; whether its nodes are a tree is left to the program.
"""

from __future__ import annotations

import json
import sys
from dataclasses import dataclass, field
from pathlib import Path
from typing import Any, Dict, List, Optional, Tuple, Union

from .calls import CALLS, ERRNO_WORDS, FIELDS, TRAPS, U32, U64

MOST_BYTES = 16_777_216
MOST_QUOTA = 2**62
EPOCHS = ((0, 0), (0, 0), (0, 0))


class Mistake(Exception):
    """What a user is told in one line."""


def say(program: str, why: object) -> None:
    """Tells a mistake on standard error, as one line."""
    line = " ".join(str(why).split())
    print(f"{program}: {line}", file=sys.stderr)


@dataclass
class Node:
    """A node of a tree: one of names, bytes and a link's text is there."""

    names: Optional[Dict[str, int]] = None
    data: Optional[bytearray] = None
    link: Optional[str] = None
    bits: str = "rwx"
    times: Tuple[Tuple[int, int], ...] = EPOCHS

    @property
    def kind(self) -> str:
        return "dir" if self.names is not None else "file" if self.data is not None else "link"

    def copy(self) -> Node:
        names = None if self.names is None else dict(self.names)
        data = None if self.data is None else bytearray(self.data)
        return Node(names, data, self.link, self.bits, self.times)


# What may be permitted below a preopen, and in words.
PERMS = {"ro": "to be read", "rw": "to be read and changed", "ao": "to be read and added to"}


@dataclass
class Preopen:
    node: int
    name: str
    perms: str


@dataclass
class Script:
    """A script, with what is left out filled in."""

    nodes: List[Node]
    preopens: List[Preopen]
    calls: List[Tuple[str, List[int]]]
    memory: bytearray
    show: List[Tuple[int, int]]
    args: List[str] = field(default_factory=list)
    env: List[Tuple[str, str]] = field(default_factory=list)
    stdin: bytes = b""
    random: bytes = b""
    wall: Tuple[int, int] = (0, 0)
    mono: int = 0
    limits: Dict[str, Any] = field(default_factory=dict)  # fuel, table and limits, where they are given
    faults: List[Tuple[int, str]] = field(default_factory=list)  # calls of the host that fail, before or after
    quota: Optional[Dict[str, int]] = None  # how many makings, `nodes`, and how many grown `bytes`


@dataclass
class GuestsScript:
    """A script of several guests: each as a script over the one tree, and whose turn it is, by their places."""

    nodes: List[Node]
    guests: List[Script]
    schedule: List[int]
    limits: Dict[str, Any]


@dataclass
class Outcome:
    """What came of a guest, but for the tree."""

    answers: List[Dict[str, Any]]
    memory: List[bytes]
    stderr: bytes
    stdout: bytes


@dataclass
class Report(Outcome):
    touched: List[int]
    tree: List[Node]


@dataclass
class GuestsReport:
    guests: List[Outcome]
    tree: List[Node]


@dataclass
class Audit:
    """The names of the directories that the guest was given, each with the nodes that were touched through it."""

    preopens: List[Tuple[str, List[int]]]
    touched: List[int]


@dataclass
class Trial:
    """The nodes as they were before, the numbers of those that were worked on, and the report."""

    base: List[Node]
    kept: List[int]
    report: Report


def read_bytes(path: str) -> bytes:
    """A file's bytes, or a mistake that says why there are none."""
    try:
        return Path(path).read_bytes()
    except OSError as error:
        raise Mistake(f"can't read {path}: {error.strerror}") from None
    except ValueError:
        raise Mistake(f"can't read {path!r}: no file has such a name") from None


def json_of(data: bytes, what: str) -> Any:
    """The JSON value of some bytes, whose texts are all UTF-8."""

    def refused(word: str) -> None:
        raise ValueError(f"{word} is no JSON")

    try:
        value = json.loads(data.decode(), parse_constant=refused)
        json.dumps(value, ensure_ascii=False).encode()
    except (ValueError, RecursionError) as error:
        raise Mistake(f"{what} isn't JSON: {error}") from None
    return value


def need(is_so: bool, what: str) -> None:
    if not is_so:
        raise Mistake(what)


def is_number(value: Any, least: int, most: int) -> bool:
    return isinstance(value, int) and not isinstance(value, bool) and least <= value <= most


def number(value: Any, where: str, most: int = U64, least: int = 0) -> int:
    need(is_number(value, least, most), f"{where} isn't a whole number from {least} to {most}")
    return value


def text(value: Any, where: str) -> str:
    need(isinstance(value, str), f"{where} isn't a text")
    return value


def listed(value: Any, where: str, size: Optional[int] = None) -> List[Any]:
    fits = isinstance(value, list) and (size is None or len(value) == size)
    need(fits, f"{where} isn't a list" + ("" if size is None else f" of {size}"))
    return value


def hexed(value: Any, where: str) -> bytes:
    digits = text(value, where)
    need(len(digits) % 2 == 0 and all(digit in "0123456789abcdefABCDEF" for digit in digits), f"{where} isn't hex")
    return bytes.fromhex(digits)


def keyed(value: Any, where: str, needed: str, others: str = "") -> Dict[str, Any]:
    """An object with these keys, and perhaps others."""
    need(isinstance(value, dict), f"{where} isn't an object")
    for key in needed.split():
        need(key in value, f"{where} has no key {key!r}")
    for key in value:
        need(key in needed.split() + others.split(), f"{where} has the unknown key {key!r}")
    return value


def moment(value: Any, where: str, least: int = 0) -> Tuple[int, int]:
    seconds, nanoseconds = listed(value, where, 2)
    return number(seconds, where, 2**63 - 1, least), number(nanoseconds, where, 999_999_999)


def node_of(value: Any, where: str) -> Node:
    found = keyed(value, where, "", "dir file link bits times")
    kinds = [kind for kind in ("dir", "file", "link") if kind in found]
    need(len(kinds) == 1, f"{where} has not exactly one of the keys 'dir', 'file' and 'link'")
    node = Node(bits="rw-" if kinds == ["file"] else "rwx")
    if kinds == ["dir"]:
        need(isinstance(found["dir"], dict), f"the names of {where} aren't an object")
        node.names = {name: number(held, f"{name!r} of {where}") for name, held in found["dir"].items()}
    elif kinds == ["file"]:
        node.data = bytearray(hexed(found["file"], f"the bytes of {where}"))
    else:
        node.link = text(found["link"], f"the text of {where}")
    if "bits" in found:
        bits = text(found["bits"], f"the bits of {where}")
        need(len(bits) == 3 and all(have in (name, "-") for have, name in zip(bits, "rwx")),
             f"the bits of {where} aren't three of 'rwx-'")
        node.bits = bits
    if "times" in found:
        times = listed(found["times"], f"the times of {where}", 3)
        node.times = tuple(moment(time, f"a time of {where}", -(2**63)) for time in times)
    return node


def nodes_of(value: Any, where: str) -> List[Node]:
    """Nodes, each of whose names holds one of them, and a directory at most one name, but node 0 none."""
    nodes = [node_of(node, f"node {place} of {where}") for place, node in enumerate(listed(value, f"{where}"))]
    need(bool(nodes) and nodes[0].kind == "dir", f"node 0 of {where} isn't a directory")
    has_name = {0}
    for place, node in enumerate(nodes):
        for name, held in (node.names or {}).items():
            need(held < len(nodes), f"{name!r} of node {place} of {where} holds no node")
            need(held not in has_name, f"{name!r} of node {place} of {where} holds a directory that is elsewhere too")
            if nodes[held].kind == "dir":
                has_name.add(held)
    return nodes


def call_of(value: Any, where: str) -> Tuple[str, List[int]]:
    need(isinstance(value, list) and value and isinstance(value[0], str), f"{where} isn't a list with a name in front")
    row = CALLS.get(value[0])
    need(row is not None, f"{where}: {value[0]!r} isn't a call of preview1")
    limits = row.limits()
    need(len(value) == 1 + len(limits), f"{where}: {row.name} takes {len(limits)} numbers, not {len(value) - 1}")
    for given, (name, least, most) in zip(value[1:], limits):
        number(given, f"{where}: {name} of {row.name}", most, least)
    return row.name, value[1:]


def memory_of(value: Any) -> bytearray:
    found = keyed(value, "the memory", "size pieces")
    size = number(found["size"], "the size of the memory", MOST_BYTES)
    memory = bytearray(size)
    for place, piece in enumerate(listed(found["pieces"], "the pieces of the memory")):
        where = f"piece {place} of the memory"
        address, form, given = listed(piece, where, 3)
        need(form in ("text", "hex"), f"{where} is neither 'text' nor 'hex'")
        data = text(given, where).encode() if form == "text" else hexed(given, where)
        number(address, f"the address of {where}", U32)
        need(address + len(data) <= size, f"{where} leaves the memory")
        memory[address:address + len(data)] = data
    return memory


def show_of(value: Any, size: int) -> List[Tuple[int, int]]:
    shown = []
    for place, pair in enumerate(listed(value, "'show'")):
        where = f"range {place} of 'show'"
        address, length = (number(part, where, U32) for part in listed(pair, where, 2))
        need(address + length <= size, f"{where} leaves the memory")
        shown.append((address, length))
    return shown


def preopens_of(value: Any, nodes: List[Node]) -> List[Preopen]:
    preopens = []
    for place, given in enumerate(listed(value, "'preopens'")):
        found = keyed(given, f"preopen {place}", "node name perms")
        node = number(found["node"], f"the node of preopen {place}")
        need(node < len(nodes) and nodes[node].kind == "dir", f"preopen {place} isn't a directory of the tree")
        need(found["perms"] in PERMS, f"the perms of preopen {place} are none of {', '.join(PERMS)}")
        preopens.append(Preopen(node, text(found["name"], f"the name of preopen {place}"), found["perms"]))
    return preopens


def faults_of(value: Any) -> List[Tuple[int, str]]:
    """Calls of the host that fail, by numbers that rise from 1 on."""
    faults: List[Tuple[int, str]] = []
    for place, pair in enumerate(listed(value, "'faults'")):
        where = f"fault {place} of 'faults'"
        fails, when = listed(pair, where, 2)
        number(fails, f"the number of {where}", U64, faults[-1][0] + 1 if faults else 1)
        need(when in ("before", "after"), f"{where} is neither 'before' nor 'after'")
        faults.append((fails, when))
    return faults


def quota_of(value: Any) -> Dict[str, int]:
    """How much the guest may make and grow."""
    found = keyed(value, "'quota'", "nodes bytes")
    return {key: number(found[key], f"{key!r} of 'quota'", MOST_QUOTA) for key in ("nodes", "bytes")}


GUEST = "memory show fuel table quota args env stdin random wall wall_res mono mono_res"  # what a guest may have


def guest_in(found: Dict[str, Any], nodes: List[Node]) -> Script:
    """The script of what a guest is given over some nodes."""
    memory = memory_of(found["memory"]) if "memory" in found else bytearray()
    calls = [call_of(call, f"call {place}") for place, call in enumerate(listed(found["calls"], "'calls'"), 1)]
    env = [listed(pair, "a variable of 'env'", 2) for pair in listed(found.get("env", []), "'env'")]
    return Script(
        nodes, preopens_of(found["preopens"], nodes), calls, memory, show_of(found.get("show", []), len(memory)),
        [text(given, "an argument of 'args'") for given in listed(found.get("args", []), "'args'")],
        [(text(key, "a key of 'env'"), text(given, "a value of 'env'")) for key, given in env],
        hexed(found.get("stdin", ""), "'stdin'"), hexed(found.get("random", ""), "'random'"),
        moment(found.get("wall", [0, 0]), "'wall'"), number(found.get("mono", 0), "'mono'"),
        {key: found[key] for key in ("fuel", "table", "limits") if key in found},
        faults_of(found.get("faults", [])),
        quota_of(found["quota"]) if "quota" in found else None,
    )


def script_in(value: Any) -> Script:
    """The script that a JSON value is."""
    found = keyed(value, "the script", "nodes preopens calls", f"limits faults {GUEST}")
    return guest_in(found, nodes_of(found["nodes"], "the script"))


def guests_script_in(value: Any) -> GuestsScript:
    """The script of several guests that a JSON value is."""
    found = keyed(value, "the script", "nodes guests schedule", "limits")
    nodes, guests = nodes_of(found["nodes"], "the script"), []
    for place, given in enumerate(listed(found["guests"], "'guests'")):
        try:
            guests.append(guest_in(keyed(given, "it", "preopens calls", GUEST), nodes))
        except Mistake as mistake:
            raise Mistake(f"guest {place}: {mistake}") from None
    schedule = [number(guest, "a number of 'schedule'", len(guests) - 1)
                for guest in listed(found["schedule"], "'schedule'")]
    return GuestsScript(nodes, guests, schedule, {key: found[key] for key in ("limits",) if key in found})


def script_value(data: bytes) -> Any:
    """The JSON value of a script's bytes."""
    need(len(data) <= MOST_BYTES, f"the script has more than {MOST_BYTES:,} bytes")
    return json_of(data, "the script")


def script_of(data: bytes) -> Script:
    """The script that some bytes are."""
    return script_in(script_value(data))


def script_or_guests_of(data: bytes) -> Union[Script, GuestsScript]:
    """The script that some bytes are, be it of one guest or of several."""
    value = script_value(data)
    return guests_script_in(value) if isinstance(value, dict) and "guests" in value else script_in(value)


def answer_fits(answer: Any, kind: str) -> bool:
    """Whether an answer has the form of those of a call's kind."""
    if not isinstance(answer, dict) or len(answer) != 1:
        return False
    (word, given), = answer.items()
    if word == "errno":
        return isinstance(given, str) and given in ERRNO_WORDS
    if word == "trap":
        return isinstance(given, str) and given in TRAPS
    if word == "exit" or kind == "none":
        return word == "exit" and kind == "none" and is_number(given, 0, U32)
    if word != "ok":
        return False
    if kind == "unit":
        return given is None
    if kind in FIELDS:
        return isinstance(given, list) and len(given) == len(FIELDS[kind]) and all(is_number(n, 0, U64) for n in given)
    return is_number(given, 0, U64)


OUTCOME = "answers memory stderr stdout"


def outcome_in(found: Dict[str, Any]) -> Tuple[List[Any], List[bytes], bytes, bytes]:
    """The answers, shown ranges, standard error and standard output of a report or of a guest."""
    return (
        listed(found["answers"], "the answers"),
        [hexed(shown, "a shown range") for shown in listed(found["memory"], "the memory of the report")],
        hexed(found["stderr"], "the standard error"), hexed(found["stdout"], "the standard output"),
    )


def report_in(value: Any) -> Report:
    """The report that a JSON value is."""
    found = keyed(value, "the report", f"{OUTCOME} touched tree")
    tree = nodes_of(found["tree"], "the report's tree")
    touched = [number(touched, "a touched node", len(tree) - 1) for touched in listed(found["touched"], "'touched'")]
    return Report(*outcome_in(found), touched, tree)


def guests_report_of(data: bytes) -> GuestsReport:
    """What came of several guests, as some bytes say."""
    found = keyed(json_of(data, "the report"), "the report", "guests tree")
    guests = [Outcome(*outcome_in(keyed(guest, f"guest {place} of the report", OUTCOME)))
              for place, guest in enumerate(listed(found["guests"], "the guests of the report"))]
    return GuestsReport(guests, nodes_of(found["tree"], "the report's tree"))


def report_of(data: bytes) -> Report:
    """The report that some bytes are."""
    return report_in(json_of(data, "the report"))


def trial_in(value: Any) -> Trial:
    """The trial that a JSON value is."""
    found = keyed(value, "the trial", "base kept report")
    report = report_in(found["report"])
    kept = [number(node, "a node of 'kept'", len(report.tree) - 1) for node in listed(found["kept"], "'kept'")]
    return Trial(nodes_of(found["base"], "the trial's base"), kept, report)


def report_or_trial_of(data: bytes) -> Union[Report, Trial]:
    """The report or the trial that some bytes are."""
    value = json_of(data, "the report")
    return trial_in(value) if isinstance(value, dict) and "report" in value else report_in(value)


def audit_of(data: bytes) -> Audit:
    """The audit that some bytes are."""
    found = keyed(json_of(data, "the audit"), "the audit", "preopens touched")
    preopens = []
    for place, given in enumerate(listed(found["preopens"], "'preopens' of the audit")):
        where = f"preopen {place} of the audit"
        has = keyed(given, where, "name nodes")
        nodes = [number(node, f"a node of {where}") for node in listed(has["nodes"], f"the nodes of {where}")]
        preopens.append((text(has["name"], f"the name of {where}"), nodes))
    return Audit(preopens, [number(node, "a touched node") for node in listed(found["touched"], "'touched' of the audit")])
