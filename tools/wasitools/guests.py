"""A run of several guests over one tree, told again in the order of its schedule, and in words.

Each guest has its own memory, descriptors and streams, and a tree that all share. What a guest made it sees under other
numbers: those which the nodes would have if it ran alone.
"""

from __future__ import annotations

from dataclasses import dataclass, replace
from typing import Callable, Dict, List, Optional, Tuple, TypeVar

from .replay import NotItsReport, Replay, Told, Tree, ends, outcome_differences, tree_differences
from .scripts import GuestsReport, GuestsScript, Node, Outcome, Script
from .telling import CallWords, Drawing, Telling, call_words, count, dumps_of, given_of, limit_words, summary_of

Value = TypeVar("Value")


class GuestReplay(Replay):
    """The run of one guest among others, whose calls have the numbers of their turns."""

    def __init__(self, script: Script, tree: Tree, outcome: Outcome) -> None:
        super().__init__(script, tree)
        self.outcome = outcome
        self.ended = 0  # the turn by which it trapped or exited; 0: none
        self.own: Dict[int, int] = {}  # of the nodes that it made: the number that it sees

    def make(self, told: Told, directory: int, name: str, node: Node) -> int:
        number = super().make(told, directory, name, node)
        self.own[number] = len(self.script.nodes) + len(self.own)
        return number

    def seen_as(self, node: int) -> int:
        return self.own.get(node, node)

    def next(self, turn: int) -> Optional[Told]:
        """Tells the guest's next call, by its turn, or by turn 0 where none came to it; none where no call is left."""
        place, calls, answers = len(self.told), self.script.calls, self.outcome.answers
        if place == len(calls):
            return None
        is_made = bool(turn) and not self.ended
        answer = answers[place] if place < len(answers) else None
        if is_made != (answer is not None):
            raise NotItsReport(f"its call {place + 1} has {'no' if is_made else 'an'} answer, and was "
                               f"{'made' if is_made else 'never made'}")
        told = self.tell(turn, *calls[place], answer)
        if ends(answer):
            self.ended = turn
        return told

    def check(self) -> None:
        """A mistake where what was told again doesn't lead to the guest's part of the report."""
        if len(self.outcome.answers) > len(self.script.calls):
            raise NotItsReport(f"{len(self.outcome.answers)} answers of {len(self.script.calls)} calls")
        found = outcome_differences(self, self.outcome)
        if found:
            raise NotItsReport(found[0])


@dataclass
class Turn:
    """A turn of a guest, or behind all turns a call that none came to; without a call where none is left."""

    guest: int
    number: int  # 0: no turn
    told: Optional[Told]
    ended: int  # the turn by which the guest had ended before; 0: none


class GuestsReplay:
    """The run of all guests that a report tells of; a mistake where the report is another's."""

    def __init__(self, script: GuestsScript, report: GuestsReport) -> None:
        if len(report.guests) != len(script.guests):
            raise NotItsReport(f"the report isn't this script's: {count(len(report.guests), 'guest')} in place of "
                               f"{len(script.guests)}")
        self.script, self.report, self.tree = script, report, Tree(script.nodes)
        self.guests = [GuestReplay(guest, self.tree, came) for guest, came in zip(script.guests, report.guests)]
        self.turns = [self.turn(guest, number) for number, guest in enumerate(script.schedule, 1)]
        for guest, replay in enumerate(self.guests):
            self.turns += [self.turn(guest, 0) for _ in replay.script.calls[len(replay.told):]]
            self.of_guest(guest, replay.check)
        found = tree_differences(self.tree.nodes, report.tree)
        if found:
            raise NotItsReport(f"the report isn't this script's: {found[0]}")

    def turn(self, guest: int, number: int) -> Turn:
        replay = self.guests[guest]
        ended = replay.ended
        return Turn(guest, number, self.of_guest(guest, lambda: replay.next(number)), ended)

    def of_guest(self, guest: int, tell: Callable[[], Value]) -> Value:
        """Tells something of a guest, whose place stands before a mistake in it."""
        try:
            return tell()
        except NotItsReport as mistake:
            raise NotItsReport(f"the report isn't this script's: guest {guest}: {mistake}") from None


def turn_words(turn: Turn, replay: GuestReplay) -> CallWords:
    """A turn's call as one of a single guest; one that wasn't made with why."""
    ended = turn.ended and f"the guest ended in turn {turn.ended}"
    if turn.told is None:
        return CallWords(turn.number, "", [], ended or "its calls are at an end", "none", guest=turn.guest)
    words = replace(call_words(turn.told, replay.script), guest=turn.guest)
    if turn.told.answer is None:
        words.answer += f": {ended or 'it had no turn'}"
    words.details += [f"node {change.node} is {own} to this guest" for change in turn.told.changes
                      for own in (replay.seen_as(change.node),) if change.what == "made" and own != change.node]
    return words


def named_for(guest: int, parts: List[Tuple[str, Value]]) -> List[Tuple[str, Value]]:
    """Parts of a telling, with the guest's place in their names."""
    return [(f"guest {guest}, {name}", part) for name, part in parts]


def guests_telling(title: str, run: GuestsReplay) -> Telling:
    """What a person is told of a run of several guests."""
    script, told = run.script, Telling(title, [], [], [], [], [], [], [], "")
    for guest, replay in enumerate(run.guests):
        came = replay.outcome
        told.given += named_for(guest, given_of(replay.script))
        told.dumps += [replace(dump, title=f"of guest {guest} {dump.title}") for dump in dumps_of(replay, came)]
        told.outputs += named_for(guest, [("standard output", came.stdout), ("standard error", came.stderr)])
    told.given += limit_words(script.limits)
    told.calls = [turn_words(turn, run.guests[turn.guest]) for turn in run.turns]
    changes = [change for turn in run.turns if turn.told for change in turn.told.changes]
    told.before = Drawing(script.nodes, script.nodes, []).lines()
    told.after = Drawing(run.report.tree, script.nodes, changes).lines()
    told.summary = (f"{count(len(script.guests), 'guest')}, {count(len(script.schedule), 'turn')}; "
                    + summary_of([call for call in told.calls if call.name]))
    return told
