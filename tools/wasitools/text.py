"""A telling as a text of lines of at most 110 columns, but for what can't be broken."""

from __future__ import annotations

import textwrap
from typing import Iterator, List

from .telling import CallWords, Cause, Telling, Touched, TreeLine, count, dump_text, some_calls

WIDTH = 110


def breakable(words: str) -> str:
    """Words, those of them that are very long broken between the names of a set."""
    return " ".join(word.replace("|", "| ") if len(word) > WIDTH // 2 else word for word in words.split(" "))


def wrapped(words: str, first: str, rest: str) -> List[str]:
    """Words broken into lines, where there are blanks."""
    if len(first) + len(words) <= WIDTH:
        return [(first + words).rstrip()]
    return textwrap.wrap(breakable(words), WIDTH, initial_indent=first, subsequent_indent=rest, break_long_words=False,
                         break_on_hyphens=False, replace_whitespace=False) or [first.rstrip()]


def head_lines(call: CallWords) -> Iterator[str]:
    """A call and its arguments, broken before an argument where one line has no room for them."""
    number = call.number or ""
    if not call.name:
        yield f"{number:>5}  guest {call.guest}"
        return
    line = f"{number:>5}  {'' if call.guest is None else f'guest {call.guest}: '}{call.name}("
    for place, (name, words) in enumerate(call.arguments, 1):
        item = f"{name}: {words}" + ("," if place < len(call.arguments) else "")
        if len(line) + 1 + len(item) > WIDTH and place > 1:
            yield line
            line = " " * 10
        *front, last = wrapped(item, line + ("" if line.endswith("(") else " "), " " * 13)
        yield from front
        line = last
    yield line + ")"


def call_lines(call: CallWords) -> Iterator[str]:
    yield from head_lines(call)
    sign = {"ok": "=", "refused": "!", "end": "#", "none": "."}[call.state]
    yield from wrapped(call.answer, f"       {sign} ", " " * 11)
    for detail in call.details:
        yield from wrapped(detail, " " * 9, " " * 11)
    for change in call.changes:
        yield from wrapped(change, "       ~ ", " " * 11)


def calls_words(calls: List[int]) -> str:
    told, others = some_calls(calls)
    return f"{'call' if len(calls) == 1 else 'calls'} {', '.join(map(str, told))}{others}"


def causes_words(causes: List[Cause]) -> str:
    return "; ".join(f"{word} by {calls_words(calls)}" for word, calls in causes)


def tree_lines(lines: List[TreeLine]) -> Iterator[str]:
    if not lines:
        return
    wide = max(len(str(line.node)) for line in lines)
    for line in lines:
        words = [f"{line.mark} {line.node:{wide}} {line.bits}  {line.branch}{line.name}"]
        words += [word for word in (line.causes and f"[{causes_words(line.causes)}]", line.words) if word]
        yield "  " + "  ".join(words)


def output_lines(name: str, data: bytes) -> Iterator[str]:
    if not data:
        yield f"  {name}: nothing"
        return
    yield f"  {name}, {count(len(data), 'byte')}:"
    *lines, last = data.decode(errors="replace").split("\n")
    for line in lines + ([last] if last else []):
        yield "    | " + "".join(mark if mark.isprintable() or mark == "\t" else f"\\x{ord(mark):02x}" for mark in line)
    if last:
        yield "    (no newline behind it)"


def touched_lines(touched: Touched) -> Iterator[str]:
    if touched.through:
        yield f"  through {touched.through}" + (":" if touched.nodes else ": nothing")
    for node, path in touched.nodes:
        yield f"{'    ' if touched.through else '  '}{node} {path}"


def lines_of(telling: Telling) -> Iterator[str]:
    yield telling.title
    yield telling.summary
    yield ""
    yield "GIVEN"
    for name, words in telling.given:
        yield from wrapped(f"{name}: {words}", "  ", "    ")
    yield ""
    by = "" if all(call.guest is None for call in telling.calls) else " by their turns"
    yield f"CALLS{by}   = answered   ! refused   # ended the guest   . not called   ~ changed the tree"
    for call in telling.calls:
        yield from call_lines(call)
    yield ""
    yield "TREE BEFORE   number, bits, name, what it has"
    yield from tree_lines(telling.before)
    yield ""
    yield "TREE AFTER   + new   * changed   - gone"
    yield from tree_lines(telling.after)
    if telling.changed:
        yield ""
        yield f"TRIAL   {telling.changed.summary}"
        for node, words in telling.changed.nodes:
            yield from wrapped(f"{node}: {words}", "  ", "      ")
    for dump in telling.dumps:
        yield ""
        yield f"MEMORY {dump.title}"
        for line in dump.lines:
            yield "  " + dump_text(line) + (f"  {calls_words(line.calls)}" if line.calls else "")
        if dump.left_out:
            yield f"  and {count(dump.left_out, 'line')} more"
    yield ""
    yield "OUTPUT"
    for name, data in telling.outputs:
        yield from output_lines(name, data)
    if telling.touched:
        yield ""
        yield "TOUCHED   number and path at the end"
    for touched in telling.touched:
        yield from touched_lines(touched)


def text_of(telling: Telling) -> str:
    return "\n".join(line.rstrip() for line in lines_of(telling)) + "\n"
