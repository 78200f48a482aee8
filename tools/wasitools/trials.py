"""A trial in words: of each node that was worked on what it is at the end and wasn't before.

Compared are the nodes of the trial's list, and the names that the directories among them have: each other node is as it
was, and is counted alone.
"""

from __future__ import annotations

from typing import Dict, List, Set, Tuple

from .replay import NotItsReport, Paths
from .scripts import Node, Script, Trial
from .telling import KINDS, Changed, content_words, moment_words, node_words

Name = Tuple[int, str, int]  # a directory, a name that it has, and the node that this holds
TIMES = ("accessed", "modified", "created")


def names_in(nodes: List[Node], directories: List[int]) -> Set[Name]:
    """The names that these directories have, as far as they are there."""
    return {(directory, name, held) for directory in directories if directory < len(nodes)
            for name, held in (nodes[directory].names or {}).items()}


def paths_by_node(names: Set[Name], paths: Paths) -> Dict[int, List[str]]:
    """The paths of some names, by the node that each holds."""
    found: Dict[int, List[str]] = {}
    for directory, name, held in sorted(names):
        found.setdefault(held, []).append(paths.of(directory, name))
    return found


class Compared:
    """The trees before and after a trial, over the nodes of its list."""

    def __init__(self, trial: Trial, before: Paths, after: Paths) -> None:
        self.base, self.tree, self.kept, self.after = trial.base, trial.report.tree, trial.kept, after
        old, new = names_in(self.base, self.kept), names_in(self.tree, self.kept)
        self.lost, self.got = paths_by_node(old - new, before), paths_by_node(new - old, after)
        self.renamed = {directory for directory, _, _ in old ^ new}

    def head(self, node: int) -> str:
        """A path of a node at the end, or where it has no name then one that it lost, and its number."""
        if self.after.is_named(node):
            return f"{self.after.of(node)} (node {node})"
        lost = self.lost.get(node)
        return f"{lost[0]} (node {node})" if lost else f"node {node}"

    def name_words(self, node: int) -> List[str]:
        lost, got = self.lost.get(node, []), self.got.get(node, [])
        if lost and not self.after.is_named(node):
            return ["gone"] + [f"and so is its name {path}" for path in lost[1:]]
        if len(lost) == len(got) == 1:
            return [f"moved from {lost[0]}"]
        return [f"no longer named {path}" for path in lost] + [f"named {path} too" for path in got]

    def made_words(self, node: int) -> List[str]:
        """What a node is that the base doesn't have."""
        made = self.tree[node]
        words = [f"made, a {KINDS[made.kind]}", node_words(made)]
        words += [f"named {path} too" for path in self.got.get(node, []) if path != self.after.of(node)]
        return words + ([] if self.after.is_named(node) else ["and gone again"])

    def words(self, node: int) -> str:
        """What became of a node. Of a directory with other names these are told with what they hold or held."""
        if node >= len(self.base):
            return ", ".join(word for word in self.made_words(node) if word)
        old, new, words = self.base[node], self.tree[node], self.name_words(node)
        if old.data != new.data:
            words.append(f"{content_words(old)}, then {content_words(new)}")
        words += [f"{name} {moment_words(was)}, then {moment_words(now)}"
                  for name, was, now in zip(TIMES, old.times, new.times) if was != now]
        if node in self.renamed:
            words.append("other names in it")
        return "; ".join(words) or "worked on, and as it was"


def changed_by(trial: Trial, before: Paths, after: Paths) -> Changed:
    """What a trial leaves otherwise, by the paths of the base and of the report's tree."""
    compared = Compared(trial, before, after)
    nodes = {*trial.kept, *compared.lost, *compared.got}
    worked = sum(node < len(trial.base) for node in trial.kept)
    base, kept = len(trial.base), len(trial.kept)
    summary = f"nodes that stay: {base - worked:,} of {base:,}; made: {kept - worked:,}"
    return Changed(summary, sorted((compared.head(node), compared.words(node)) for node in nodes))


def changed_of(script: Script, trial: Trial) -> Changed:
    """What a trial leaves otherwise, which has to be this script's."""
    base, report = trial.base, trial.report
    if base != script.nodes:
        raise NotItsReport("the trial isn't this script's: its base isn't the script's tree")
    others = {node for node, made in enumerate(report.tree) if base[node:node + 1] != [made]}
    if not others <= set(trial.kept) <= set(report.touched):
        raise NotItsReport("the trial isn't this script's: its list has other nodes than those that were worked on")
    return changed_by(trial, Paths(base), Paths(report.tree))
