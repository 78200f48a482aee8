"""Calls as a person writes them, a line each, and the memory and the calls of a script that they become.

A line begins with a word, as `open` or `read`, and has its arguments behind it; or with the full name of a call of
preview1, with one word for each of its arguments.
"""

from __future__ import annotations

import re
import struct
from dataclasses import dataclass, field
from typing import Any, Dict, List, Optional, Sequence, Tuple

from .calls import CALLS, CHOICES, EVENT, FIRST_PREOPEN, SETS, SUBSCRIPTION, U32, U64, Argument, Row, bit
from .folders import Folder
from .scripts import MOST_QUOTA, PERMS, Mistake
from .writing import Layout

ROOM_ALIGN = 16  # so that dumps of buffers are easy to read
ALIASES = {"read": "fd_read", "write": "fd_write", "follow": "symlink_follow"}
NUMBERS = {"fuel": U64, "table": U32, "mono": U64, "mono_res": U64}
SETTINGS = "preopen args env stdin random wall wall_res limits quota faults".split() + list(NUMBERS)
ESCAPES = {"n": b"\n", "t": b"\t", "r": b"\r", "0": b"\0", "\\": b"\\", '"': b'"'}
TOKEN = re.compile(r'\s*(?:#.*|"((?:[^"\\]|\\.)*)"|([^\s"]+))')
ESCAPE = re.compile(r"\\(?:x([0-9a-fA-F]{2})|u\{([0-9a-fA-F]{1,6})\}|(.))")
RAW = re.compile(r"@(\d+)\+(\d+)")
WAIT = re.compile(r"(realtime|monotonic|\d+):([+@])(\d+)")


@dataclass(frozen=True)
class Token:
    """A word of a line, and whether it stood in quotes."""

    data: bytes
    quoted: bool

    @property
    def text(self) -> str:
        return self.data.decode(errors="backslashreplace")

    @property
    def exact(self) -> str:
        try:
            return self.data.decode()
        except UnicodeDecodeError:
            raise Mistake(f"{self.text} isn't UTF-8") from None


@dataclass
class Settings:
    """What lines that begin with `set` say."""

    preopens: List[Dict[str, Any]] = field(default_factory=list)
    others: Dict[str, Any] = field(default_factory=dict)
    names: List[bytes] = field(default_factory=list)  # of the preopens


def unescaped(text: str) -> bytes:
    """The bytes of what stands between quotes."""
    out, place = b"", 0
    for found in ESCAPE.finditer(text):
        out += text[place:found.start()].encode()
        place = found.end()
        pair, code, letter = found.groups()
        if pair:
            out += bytes.fromhex(pair)
        elif code:
            try:
                out += chr(int(code, 16)).encode()
            except (ValueError, OverflowError):
                raise Mistake(f"no character has the number {code}") from None
        elif letter in ESCAPES:
            out += ESCAPES[letter]
        else:
            raise Mistake(f"unknown escape \\{letter}; there are \\n \\t \\r \\0 \\\\ \\\" \\xHH and \\u{{H}}")
    return out + text[place:].encode()


def tokens_of(line: str) -> List[Token]:
    found, place = [], 0
    while place < len(line.rstrip()):
        match = TOKEN.match(line, place)
        if match is None:
            raise Mistake("a quote isn't closed")
        place = match.end()
        quoted, bare = match.groups()
        if quoted is not None:
            found.append(Token(unescaped(quoted), True))
        elif bare is not None:
            found.append(Token(bare.encode(), False))
    return found


def number_of(text: str, name: str, least: int, most: int) -> int:
    try:
        number = int(text, 0)
    except ValueError:
        raise Mistake(f"{name} is a number, and {text!r} isn't one") from None
    if not least <= number <= most:
        raise Mistake(f"{name} is {least} to {most}, and {number} isn't")
    return number


def flags_of(kind: str, text: str, name: str) -> int:
    """The number of names with `|` between them, or a number."""
    if text[:1].isdigit():
        return number_of(text, name, 0, U64 if kind == "rights" else U32)
    return sum({bit(kind, flag(kind, word, name)) for word in text.split("|")})


def flag(kind: str, word: str, name: str) -> str:
    word = ALIASES.get(word, word)
    if word not in SETS[kind]:
        raise Mistake(f"{name} has no flag {word!r}; it has {' '.join(SETS[kind]) or 'none'}")
    return word


def settings_of(lines: Sequence[Tuple[int, List[Token]]], folder: Folder) -> Settings:
    """What the lines that begin with `set` say."""
    found = Settings()
    for place, tokens in lines:
        with_line(place, lambda: setting(found, tokens[1:], folder))
    if not found.preopens:
        found.preopens = [{"node": 0, "name": "/", "perms": "rw"}]
    found.names = [preopen["name"].encode() for preopen in found.preopens]
    return found


def setting(found: Settings, tokens: List[Token], folder: Folder) -> None:
    name = tokens[0].text if tokens else ""
    if name in ("stdin", "random"):
        found.others[name] = b"".join(token.data for token in tokens[1:]).hex()
        return
    given = [token.exact for token in tokens[1:]]
    if name == "preopen":
        if len(given) != 3 or given[2] not in PERMS:
            raise Mistake("`set preopen` takes a name, a folder of the tree, and ro, rw or ao: set preopen /data data ro")
        node = folder.node_at(given[1])
        if node is None:
            raise Mistake(f"the tree has no folder {given[1]}")
        found.preopens.append({"node": node, "name": given[0], "perms": given[2]})
    elif name == "args":
        found.others["args"] = given
    elif name == "env":
        if any("=" not in word for word in given):
            raise Mistake("`set env` takes words KEY=VALUE")
        found.others.setdefault("env", []).extend(list(word.split("=", 1)) for word in given)
    elif name in ("wall", "wall_res"):
        if len(given) not in (1, 2):
            raise Mistake(f"`set {name}` takes seconds, and perhaps nanoseconds")
        found.others[name] = [number_of(given[0], "seconds", 0, 2**63 - 1),
                              number_of((given + ["0"])[1], "nanoseconds", 0, 999_999_999)]
    elif name in NUMBERS and len(given) == 1:
        found.others[name] = number_of(given[0], name, 0, NUMBERS[name])
    elif name == "limits" and len(given) == 2:
        found.others[name] = {key: number_of(word, key, 1, 2**32) for key, word in zip(("nodes", "links"), given)}
    elif name == "quota" and len(given) == 2:
        found.others[name] = {key: number_of(word, key, 0, MOST_QUOTA) for key, word in zip(("nodes", "bytes"), given)}
    elif name == "faults" and given and len(given) % 2 == 0:
        found.others[name] = faults_of(given)
    else:
        raise Mistake(f"`set` takes one of {' '.join(SETTINGS)}, with what it is set to")


def faults_of(given: List[str]) -> List[List[Any]]:
    """Numbers of calls of the host that rise from 1 on, each with when the call fails."""
    faults: List[List[Any]] = []
    for word, when in zip(given[::2], given[1::2]):
        if when not in ("before", "after"):
            raise Mistake("`set faults` takes numbers of host calls, each with before or after: set faults 3 before")
        faults.append([number_of(word, "the number of a fault", faults[-1][0] + 1 if faults else 1, U64), when])
    return faults


class Writer:
    """Makes calls of lines, and lays out what they read and what is written for them."""

    def __init__(self, settings: Settings) -> None:
        self.settings = settings
        self.layout = Layout()
        self.calls: List[List[Any]] = []
        self.show: List[List[int]] = []

    def add(self, tokens: List[Token]) -> None:
        """Adds the call of a line."""
        word, given = tokens[0].text, tokens[1:]
        if word in WORDS:
            row, places, values = WORDS[word]
            numbers = self.by_places(word, row, places, dict(values), given)
        elif word in CALLS:
            row = CALLS[word]
            places = [argument for argument in row.arguments if argument.kind not in MADE]
            if row.name == "poll_oneoff":
                numbers = self.poll(given)
            elif len(given) != len(places):
                raise Mistake(f"{word} takes {len(places)} words: {' '.join(place.name for place in places) or 'none'}")
            else:
                numbers = self.numbers(row, {place.name: token for place, token in zip(places, given)})
        else:
            raise Mistake(f"unknown word {word!r}; there are {' '.join(sorted(WORDS))}, set, and the calls of preview1")
        self.calls.append([row.name] + numbers)

    def by_places(self, word: str, row: Row, places: List[str], values: Dict[str, Token],
                  given: List[Token]) -> List[int]:
        """The numbers of a call that a short word stands for."""
        if row.name == "poll_oneoff":
            return self.poll(given)
        least = sum(1 for place in places if not place.endswith("?") and place != "..")
        named = [place for place in places if place != ".."]
        if len(given) < least or (len(given) > len(named) and ".." not in places):
            raise Mistake(f"usage: {word} {' '.join(upper(place) for place in places)}".rstrip())
        for place, token in zip(named, given):
            name, _, fd = place.rstrip("?").partition("@")
            if fd:
                values[fd], token = self.path(token)
            values[name] = token
        for token in given[len(named):]:
            self.add_flag(row, values, token.text)
        return self.numbers(row, values)

    def add_flag(self, row: Row, values: Dict[str, Token], word: str) -> None:
        """Adds a word behind the others: the name of a flag, `nofollow`, or a time, as `accessed=now`."""
        lookup = next((argument for argument in row.arguments if argument.kind == "lookupflags"), None)
        if word == "nofollow" and lookup is not None:
            values[lookup.name] = plain("0")
            return
        name, sign, time = word.partition("=")
        short = {"accessed": "atim", "modified": "mtim"}.get(name)
        if sign and short and row.argument("fst_flags"):
            if time != "now":
                values[short] = plain(time)
            self.join(values, "fst_flags", f"{short}_now" if time == "now" else short)
            return
        for argument in row.arguments:
            if argument.kind in SETS and ALIASES.get(word, word) in SETS[argument.kind]:
                self.join(values, argument.name, word)
                return
        known = [name for argument in row.arguments for name in SETS.get(argument.kind, ())]
        raise Mistake(f"{row.name} has no flag {word!r}; it has {' '.join(dict.fromkeys(known)) or 'none'}")

    def join(self, values: Dict[str, Token], name: str, word: str) -> None:
        before = values.get(name)
        both = [] if before is None or before.text == "0" else [before.text]
        values[name] = plain("|".join(both + [word]))

    def path(self, token: Token) -> Tuple[Token, Token]:
        """The descriptor and the rest of a path: `5:name` is below descriptor 5, `/name` below the preopen whose name
        is the longest front of it, and any other path below descriptor 3."""
        number, sign, rest = token.data.partition(b":")
        if sign and number.isdigit():
            return plain(number.decode()), Token(rest, token.quoted)
        if not token.data.startswith(b"/"):
            return plain(str(FIRST_PREOPEN)), token
        fits = [(len(name.rstrip(b"/")), -place) for place, name in enumerate(self.settings.names)
                if (token.data + b"/").startswith(name.rstrip(b"/") + b"/")]
        if not fits:
            known = b" ".join(self.settings.names).decode()
            raise Mistake(f"{token.text} is below no preopen, whose names are {known}")
        length, place = max(fits)
        return plain(str(FIRST_PREOPEN - place)), Token(token.data[length:].lstrip(b"/") or b".", True)

    # The numbers of the arguments.

    def numbers(self, row: Row, values: Dict[str, Token]) -> List[int]:
        found: List[int] = []
        for argument in row.arguments:
            if argument.kind in MADE:
                found.append(self.made(row, argument))
            else:
                found += self.argument(argument, values.get(argument.name))
        return found

    def made(self, row: Row, argument: Argument) -> int:
        """The address of where texts are put, which has room for them."""
        texts = self.settings.others.get("args", [])
        if row.name.startswith("environ"):
            texts = [f"{key}={value}" for key, value in self.settings.others.get("env", [])]
        list_, lengths = 4 * len(texts), sum(len(text.encode()) + 1 for text in texts)
        return self.shown(list_ if argument.kind == "list" else lengths, 4)

    def shown(self, length: int, align: int = 1) -> int:
        """Room that a call writes to, which is shown at the end."""
        address = self.layout.room(length, align)
        if length:
            self.show.append([address, length])
        return address

    def argument(self, argument: Argument, token: Optional[Token]) -> List[int]:
        kind, name = argument.kind, argument.name
        if token is None:
            return [0] * argument.width
        raw = None if token.quoted or argument.width == 1 else RAW.fullmatch(token.text)
        if raw:
            return [number_of(given, name, 0, U32) for given in raw.groups()]
        if kind == "text":
            return [self.layout.place(token.data), len(token.data)]
        if kind == "writes":
            return [self.layout.records([(self.layout.place(token.data), len(token.data))]), 1]
        if kind == "reads":
            length = number_of(token.text, f"the size of {name}", 0, U32)
            return [self.layout.records([(self.shown(length, ROOM_ALIGN), length)]), 1]
        if kind == "room":
            length = number_of(token.text, f"the size of {name}", 0, U32)
            return [self.shown(length, ROOM_ALIGN), length]
        if kind in SETS:
            return [flags_of(kind, token.text, name)]
        if kind in CHOICES and not token.text[:1].isdigit():
            numbers = {word: number for number, word in CHOICES[kind].items()}
            if token.text not in numbers:
                raise Mistake(f"{name} is one of {' '.join(numbers)}, and not {token.text!r}")
            return [numbers[token.text]]
        return [number_of(token.text, name, argument.least, argument.most)]

    def poll(self, given: List[Token]) -> List[int]:
        """The numbers of a poll; a subscription has its place as the guest's number for it, from 1 on."""
        data = b"".join(subscription(place, token.text) for place, token in enumerate(given, 1))
        return [self.layout.place(data, 8), self.shown(EVENT * len(given), 8), len(given)]


def subscription(place: int, word: str) -> bytes:
    """`read:FD` and `write:FD`, or a time as `monotonic:+NS` (from now on) and `realtime:@NS` (at a moment)."""
    kind, _, number = word.partition(":")
    found = WAIT.fullmatch(word)
    if found:
        name, sign, time = found.groups()
        clocks = {clock: number for number, clock in CHOICES["clockid"].items()}
        clock = clocks[name] if name in clocks else number_of(name, "a clock", 0, U32)
        moment = number_of(time, "a time", 0, U64)
        return struct.pack("<QB7xI4xQQH6x", place, 0, clock, moment, 0, int(sign == "@"))
    if kind in ("read", "write") and number.isdigit():
        data = struct.pack("<QB7xI", place, 1 if kind == "read" else 2, number_of(number, "a descriptor", 0, U32))
        return data.ljust(SUBSCRIPTION, b"\0")
    raise Mistake(f"{word!r} is no event to wait for; these are: read:4 write:1 monotonic:+500 realtime:@1700000000")


def plain(text: str) -> Token:
    return Token(text.encode(), False)


def upper(place: str) -> str:
    name = place.rstrip("?").partition("@")[0].upper()
    return "[FLAGS]" if place == ".." else f"[{name}]" if place.endswith("?") else name


def with_line(place: int, do: Any) -> None:
    """Does what a line says; a mistake has its number."""
    try:
        do()
    except Mistake as mistake:
        raise Mistake(f"line {place}: {mistake}") from None


def short_words() -> Dict[str, Tuple[Row, List[str], Dict[str, Token]]]:
    """The call of each short word, the places after the word, and the defaults of arguments."""
    found = {}
    for row in CALLS.values():
        word, *rest = row.short.split()
        values = dict(value.split("=") for value in rest if "=" in value)
        places = [place for place in rest if "=" not in place]
        found[word] = row, places, {key: plain(value) for key, value in values.items()}
    return found


WORDS = short_words()
MADE = {"list", "address", "subscriptions", "events", "count"}


def script_of_lines(data: bytes, folder: Folder) -> Dict[str, Any]:
    """The script of a folder and a text of calls."""
    try:
        text = data.decode()
    except UnicodeDecodeError:
        raise Mistake("the text of calls isn't UTF-8; bytes that aren't are written as \\xHH in quotes") from None
    lines: List[Tuple[int, List[Token]]] = []
    for place, line in enumerate(text.split("\n"), 1):
        with_line(place, lambda: lines.append((place, tokens_of(line))))
    lines = [(place, tokens) for place, tokens in lines if tokens]
    is_setting = [not tokens[0].quoted and tokens[0].text == "set" for _, tokens in lines]
    settings = settings_of([line for line, is_it in zip(lines, is_setting) if is_it], folder)
    writer = Writer(settings)
    for (place, tokens), is_it in zip(lines, is_setting):
        if not is_it:
            with_line(place, lambda: writer.add(tokens))
    script: Dict[str, Any] = {"nodes": folder.nodes, "preopens": settings.preopens, **settings.others}
    return {**script, "memory": writer.layout.memory(), "calls": writer.calls, "show": writer.show}
