"""How the tools are called: words, help, mistakes in one line, and exit statuses."""

from __future__ import annotations

import os
import sys
from pathlib import Path
from types import SimpleNamespace
from typing import Callable, Dict, List, Optional, Tuple, TypeVar

from .replay import NotItsReport
from .scripts import Mistake, say

Value = TypeVar("Value")
DIFFERS, MISTAKEN, UNWRITTEN = 1, 2, 5


class Help(Exception):
    """The help text was asked for."""


class Unwritten(Exception):
    """What was to be written couldn't be."""


def options(about: str, known: Dict[str, Optional[str]], wanted: Tuple[str, ...], words: List[str]) -> SimpleNamespace:
    """The options among some words, and the words that are wanted. An option without a value is a switch. Where the
    last wanted word ends with `..`, it takes all words that are left, options or not."""
    found = SimpleNamespace(**{name.replace("-", "_"): None for name in known})
    left, given = list(words), []
    rest = wanted[-1][:-2] if wanted and wanted[-1].endswith("..") else None
    places = wanted[:-1] if rest else wanted
    usage = next(line.strip() for line in about.splitlines() if line.startswith("    "))
    usage = usage.split("  ")[0]
    while left and not (rest and len(given) == len(places)):
        word = left.pop(0)
        if word in ("--help", "-h"):
            raise Help(about)
        if not word.startswith("--") or len(word) == 2:
            given.append(word)
            continue
        name, sign, value = word[2:].partition("=")
        if name not in known:
            raise Mistake(f"there is no option --{name}; usage: {usage}")
        if known[name] is None:
            value = True
        elif not sign:
            if not left:
                raise Mistake(f"--{name} wants {known[name]} behind it; usage: {usage}")
            value = left.pop(0)
        setattr(found, name.replace("-", "_"), value)
    if len(given) != len(places):
        raise Mistake(f"usage: {usage}")
    for name, word in zip(places, given):
        setattr(found, name, word)
    if rest:
        setattr(found, rest, left)
    return found


def named(path: str, make: Callable[[], Value]) -> Value:
    """Makes a value of a file, whose name stands before a mistake in it."""
    try:
        return make()
    except Mistake as mistake:
        raise Mistake(str(mistake) if path in str(mistake) else f"{path}: {mistake}") from None


def plain(text: str) -> str:
    """A word of the command line as UTF-8, with escapes for bytes that aren't."""
    return text.encode(errors="backslashreplace").decode()


def write(path: Optional[str], data: bytes) -> None:
    """Writes a file, or standard output where none is named."""
    try:
        if path is not None:
            Path(path).write_bytes(data)
        elif sys.stdout is None:
            raise Unwritten("can't write standard output: it is closed")
        else:
            sys.stdout.buffer.write(data)
            sys.stdout.buffer.flush()
    except (OSError, ValueError) as error:
        why = getattr(error, "strerror", None) or error
        raise Unwritten(f"can't write {path or 'standard output'}: {why}") from None


def answered(run: Callable[[List[str]], Optional[int]], words: List[str]) -> int:
    """Runs a tool, or writes its help where that was asked for."""
    try:
        return run(words) or 0
    except Help as about:
        write(None, f"{about}".strip().encode() + b"\n")
        return 0


def main(program: str, run: Callable[[List[str]], Optional[int]], words: List[str]) -> int:
    """Runs a tool: its exit status, and a mistake as one line on standard error."""
    try:
        return answered(run, words)
    except NotItsReport as mistake:
        say(program, mistake)
        return DIFFERS
    except Mistake as mistake:
        say(program, mistake)
        return MISTAKEN
    except Unwritten as mistake:
        say(program, mistake)
        # (what is left in the buffer can't be written either, and would be told at the end)
        os.dup2(os.open(os.devnull, os.O_WRONLY), 1)
        return UNWRITTEN
    except MemoryError:
        say(program, "there isn't enough memory")
        return MISTAKEN
    except KeyboardInterrupt:
        return 130
