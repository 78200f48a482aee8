"""What a guest came to through each folder that it was given, and which nodes it worked on.

Its calls were written down as it made them. They become the calls of a script that begins as the guest began, and
`wasirun run`, and then `wasirun audit` or `wasirun trial`, run that script: so the lists are the proved program's, of
these calls. A script has one memory from its start, so what a call reads of the guest's memory gets an address of its
own, and so does what is written for it. Where the script's run answers otherwise than the guest was answered, or leaves
another tree or other outputs, neither is told.
"""

from __future__ import annotations

import json
import subprocess
from pathlib import Path
from typing import Any, Dict, Iterator, List, Optional, Set, Tuple

from wasitools.calls import CALLS, ERRNO_NAMES, FIRST_PREOPEN
from wasitools.recording import Call, Recorded, Replayer, calls_of, job_of
from wasitools.replay import Paths, Told, replayed, shown_path
from wasitools.scripts import MOST_BYTES, Audit, Mistake, Trial, audit_of, report_of, report_or_trial_of, script_of
from wasitools.trials import changed_by

from .trees import Node, Root, places

WASIRUN = Path(__file__).resolve().parent.parent.parent / "wasirun"
CHANGED = {"bytes": "changed", "size": "changed", "times": "other times"}
DONE = {"fd_read": "read", "fd_pread": "read", "path_readlink": "read", "fd_readdir": "listed"}
WORDS = ("read", "listed", "made", "changed", "other times", "moved", "named again", "removed")
NAMED, GONE = "name", "unname"  # what becomes of a node's names


class SameNumbers:
    """The numbers of a guest whose calls were the program's own."""

    def of(self, number: int) -> int:
        return number


class OwnCalls(Replayer):
    """Makes a script of calls that were answered by the proved functions: its answers are to be the same."""

    def __init__(self, begun: Dict[str, Any], calls: List[Call]) -> None:
        super().__init__(Recorded(calls, {}, None, None), "", begun["args"])
        self.begun, self.numbers = begun, SameNumbers()
        self.texts = {"args_get": begun["args"], "environ_get": [f"{key}={given}" for key, given in begun["env"]]}

    def follow(self, call: Call) -> None:
        """Descriptors, cookies, input and random bytes are the same in the script."""

    def parts(self, call: Call) -> List[List[int]]:
        """One call, with the first buffer of its list that isn't empty, which is the one that is used."""
        kinds = {argument.kind: argument.name for argument in call.row.arguments}
        name = kinds.get("writes") or kinds.get("reads")
        buffers = call.read.get(name) if name else None
        if buffers is None:
            return [self.whole(call)]
        if "writes" in kinds:
            data = next((bytes.fromhex(data) for data in buffers if data), b"")
            return [self.whole(call, [self.layout.records([(self.layout.place(data), len(data))]), 1])]
        length = next((length for _, length in buffers if length), 0)
        return [self.whole(call, [self.layout.records([(self.room(length), length)]), 1])]

    def texts_room(self, call: Call, kind: str) -> int:
        texts = self.texts[call.name]
        return self.room(4 * len(texts) if kind == "list" else sum(len(text.encode()) + 1 for text in texts))

    def script(self) -> Dict[str, Any]:
        return {**self.begun, "memory": self.layout.memory(), "calls": self.calls}

    def is_answered(self, call: Call, answer: Dict[str, Any]) -> bool:
        """Whether a report has the answer that the guest was given."""
        if call.errno is None:
            return "exit" in answer or "trap" in answer  # of proc_exit, by whose status
        if call.errno:
            return answer == {"errno": ERRNO_NAMES.get(call.errno)}
        return answer == {"ok": self.answer(call)}


def job_for(log: Path) -> str:
    """What the engine is told that writes down the calls."""
    return json.dumps(job_of(str(log)))


def recorded_calls(log: Path) -> List[Call]:
    """The calls of a guest. The one by which it was stopped, if a call did that, isn't among them."""
    calls = calls_of([json.loads(line) for line in log.read_text().splitlines()])
    if calls and calls[-1].errno is None and calls[-1].name != "proc_exit":
        calls.pop()
    return calls


def told_by(word: str, script: bytes) -> bytes:
    ran = subprocess.run([WASIRUN, word], input=script, stdout=subprocess.PIPE)
    if ran.returncode != 0:
        raise Mistake(f"the guest's calls aren't told: `wasirun {word}` ended with status {ran.returncode}")
    return ran.stdout


class Accounts:
    """Of each folder that was given: what was done through it to which node."""

    def __init__(self, folders: int) -> None:
        self.stems: Dict[int, int] = {FIRST_PREOPEN + place: place for place in range(folders)}
        self.done: List[Dict[int, Set[str]]] = [{} for _ in range(folders)]

    def through(self, told: Told) -> Set[int]:
        """The folders from which the descriptors stem that a call names."""
        numbers = [told.numbers[argument.name][0] for argument in CALLS[told.name].arguments if argument.kind == "fd"]
        return {self.stems[number] for number in numbers if number in self.stems}

    def note(self, told: Told) -> None:
        for place in self.through(told):
            for node, word in words_of(told):
                self.done[place].setdefault(node, set()).add(word)
        if "ok" in (told.answer or {}):
            self.follow(told)

    def follow(self, told: Told) -> None:
        given = {name: numbers[0] for name, numbers in told.numbers.items()}
        if told.name == "path_open":
            self.move(given["fd"], told.answer["ok"])
        elif told.name == "fd_close":
            self.stems.pop(given["fd"], None)
        elif told.name == "fd_renumber" and given["fd"] != given["to"]:
            self.move(given["fd"], given["to"])
            self.stems.pop(given["fd"], None)

    def move(self, number: int, to: int) -> None:
        self.stems.pop(to, None)
        if number in self.stems:
            self.stems[to] = self.stems[number]


def words_of(told: Told) -> Iterator[Tuple[int, str]]:
    """What a call did, and to which node."""
    if "ok" in (told.answer or {}) and told.name in DONE and told.nodes:
        yield told.nodes[-1], DONE[told.name]
    yield from ((change.node, CHANGED.get(change.what, change.what)) for change in told.changes)


def in_words(done: Set[str]) -> str:
    """What was done to a node, in words."""
    names = done & {NAMED, GONE}
    of_names = {"moved"} if len(names) == 2 else {"named again"} if NAMED in names else {"removed"} if names else set()
    return ", ".join(word for word in WORDS if word in done | of_names) or "looked up"


class Shown:
    """Paths of nodes as the guest may know them: below the folder in question, or else below another one."""

    def __init__(self, roots: List[Root], before: List[Node], after: List[Node]) -> None:
        self.paths: List[Dict[int, str]] = []
        for root in roots:
            name, found = root.given.guest.rstrip("/"), {root.node: shown_path(root.given.guest)}
            for nodes, behind in ((before, " (before)"), (after, "")):
                found.update({number: shown_path(f"{name}/{path}") + behind
                              for path, number in places(nodes, root.node).items()})
            self.paths.append(found)

    def of(self, place: int, node: int) -> str:
        others: Optional[str] = next((paths[node] for paths in self.paths if node in paths), None)
        path = self.paths[place].get(node, others)
        return f"node {node}, which no name holds" if path is None else path


def lines_of_audit(audit: Audit, accounts: Accounts, shown: Shown) -> Iterator[str]:
    for place, (name, nodes) in enumerate(audit.preopens):
        done = accounts.done[place]
        if not set(done) <= set(nodes):
            raise Mistake("there is no audit: what was done through a folder isn't in its list")
        yield f"through {shown_path(name)}:" + ("" if nodes else " nothing")
        for path, node in sorted((shown.of(place, node), node) for node in nodes):
            yield f"  {path}: {in_words(done.get(node, set()))}"


class GuestPaths(Paths):
    """The paths of nodes as the guest knows them, from its folders on."""

    def __init__(self, nodes: List[Any], roots: List[Root]) -> None:
        super().__init__(nodes)
        self.tops = {root.node: root.given.guest.rstrip("/") for root in roots}
        for node in self.tops:
            self.holders.pop(node, None)

    def is_named(self, node: int) -> bool:
        return node in self.tops or super().is_named(node)

    def of(self, node: int, name: Optional[str] = None) -> str:
        top, path = self.way(node)
        if top not in self.tops:
            return super().of(node, name)
        return shown_path(self.tops[top] + path + ("" if name is None else f"/{name}") or "/")


def lines_of_trial(trial: Trial, roots: List[Root]) -> Iterator[str]:
    changed = changed_by(trial, GuestPaths(trial.base, roots), GuestPaths(trial.report.tree, roots))
    yield f"worked on; {changed.summary}"
    yield from (f"  {node}: {words}" for node, words in changed.nodes)


class Again:
    """A guest's calls as those of a script, which was run: it leads to what the guest came to."""

    def __init__(self, begun: bytes, log: Path, report: Dict[str, Any]) -> None:
        own = OwnCalls(json.loads(begun), recorded_calls(log))
        own.make()
        self.script = json.dumps(own.script(), ensure_ascii=False, separators=(",", ":")).encode()
        if len(self.script) > MOST_BYTES:
            raise Mistake(f"the guest's calls aren't told: they make a script of more than {MOST_BYTES:,} bytes")
        self.report = told_by("run", self.script)
        run = json.loads(self.report)
        calls, answers = own.recorded.calls, run["answers"]
        if len(calls) != len(answers) or not all(map(own.is_answered, calls, answers)) or any(
                run[key] != report[key] for key in ("tree", "stdout", "stderr")):
            raise Mistake("the guest's calls aren't told: those written down don't lead to what it came to")

    def audited(self, roots: List[Root]) -> List[str]:
        """The lines of the guest's audit."""
        accounts = Accounts(len(roots))
        for call in replayed(script_of(self.script), report_of(self.report)).told:
            accounts.note(call)
        shown = Shown(roots, json.loads(self.script)["nodes"], json.loads(self.report)["tree"])
        return list(lines_of_audit(audit_of(told_by("audit", self.script)), accounts, shown))

    def tried(self, roots: List[Root]) -> List[str]:
        """The lines of the guest's trial."""
        return list(lines_of_trial(report_or_trial_of(told_by("trial", self.script)), roots))
