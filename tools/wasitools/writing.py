"""How a script is written: the guest's memory as it is laid out, and JSON with a node, a piece and a call a line."""

from __future__ import annotations

import json
import struct
from typing import Any, Dict, List, Sequence, Tuple

from .scripts import MOST_BYTES, Mistake

SHOWN_BESIDE = 2  # values of a list that stand in its line


class Layout:
    """The memory of a script as it is filled: each text and each buffer at an address of its own."""

    def __init__(self) -> None:
        self.pieces: List[Tuple[int, bytes]] = []
        self.size = 0
        self.known: Dict[Tuple[bytes, int], int] = {}

    def room(self, length: int, align: int = 1) -> int:
        """The address of so many bytes that nothing else has."""
        address = -(-self.size // align) * align
        if address + length > MOST_BYTES:
            raise Mistake(f"the memory would have more than {MOST_BYTES:,} bytes")
        self.size = address + length
        return address

    def place(self, data: bytes, align: int = 1) -> int:
        """The address of these bytes, which are placed once."""
        if not data:
            return 0
        key = data, align
        if key not in self.known:
            self.known[key] = self.room(len(data), align)
            self.pieces.append((self.known[key], data))
        return self.known[key]

    def records(self, buffers: Sequence[Tuple[int, int]]) -> int:
        """The address of a list of records: addresses and lengths of buffers."""
        return self.place(b"".join(struct.pack("<II", *buffer) for buffer in buffers), 4)

    def memory(self) -> Dict[str, Any]:
        return {"size": self.size, "pieces": [piece(address, data) for address, data in self.pieces]}


def piece(address: int, data: bytes) -> List[Any]:
    """A piece of memory: a text where it is one that can be read, else hex."""
    try:
        text = data.decode()
        if all(mark.isprintable() or mark in "\n\t" for mark in text):
            return [address, "text", text]
    except UnicodeDecodeError:
        pass
    return [address, "hex", data.hex()]


def in_a_line(value: Any) -> str:
    return json.dumps(value, ensure_ascii=False)


def listed(values: Sequence[Any], indent: str) -> str:
    """A list with a value a line; a short one in one line."""
    if len(values) < SHOWN_BESIDE:
        return in_a_line(list(values))
    return "[\n" + ",\n".join(f"{indent}  {in_a_line(value)}" for value in values) + f"\n{indent}]"


def script_text(script: Dict[str, Any]) -> str:
    """A script as it is written to a file."""
    lines = []
    for key, value in script.items():
        if key == "memory":
            inner = f'{{\n    "size": {value["size"]},\n    "pieces": {listed(value["pieces"], "    ")}\n  }}'
            lines.append(f'  "memory": {inner}')
        else:
            lines.append(f'  "{key}": {listed(value, "  ") if key in ("nodes", "calls") else in_a_line(value)}')
    text = "{\n" + ",\n".join(lines) + "\n}\n"
    if len(text.encode()) > MOST_BYTES:
        raise Mistake(f"the script would have more than {MOST_BYTES:,} bytes")
    return text


def recording_text(recording: Dict[str, Any]) -> str:
    """A recording as it is written to a file."""
    lines = [f'  "{key}": {listed(value, "  ") if isinstance(value, list) else in_a_line(value)}'
             for key, value in recording.items()]
    return "{\n" + ",\n".join(lines) + "\n}\n"
