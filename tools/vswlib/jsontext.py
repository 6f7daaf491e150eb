"""JSON with the place of each value, read as strictly as the switch reads it (RFC 8259; docs/FORMATS.md, Policy).

At most 127 lists and objects within each other; of a member that is named twice the last counts; whole numbers below 2^64
become `int`, all others `NotWhole`.
"""
from __future__ import annotations

import math
import re
from typing import Any

SPACE = re.compile(r"[ \t\n\r]*")
NUMBER = re.compile(r"-?(?:0|[1-9][0-9]*)(?:\.[0-9]+)?(?:[eE][+-]?[0-9]+)?")
WHOLE = re.compile(r"0|[1-9][0-9]*")
PLAIN = re.compile(r'[^"\\\x00-\x1f]*')
HEX = re.compile(r"[0-9a-fA-F]{4}")
ESCAPES = {'"': '"', "\\": "\\", "/": "/", "b": "\b", "f": "\f", "n": "\n", "r": "\r", "t": "\t"}
WORDS: list[tuple[str, Any]] = [("true", True), ("false", False), ("null", None)]
MOST_NESTED = 127


class NotWhole(str):
    """A number that isn't a whole one below 2^64, as it is written."""


class BadJson(Exception):
    """Text that isn't JSON, with the place of the fault."""

    def __init__(self, at: int, why: str) -> None:
        super().__init__(why)
        self.at = at
        self.why = why


class Document:
    """A JSON text: its value, and where each value and each member's name stands, by path (`/ports/0/mac`; `/` is the whole)."""

    def __init__(self, text: str) -> None:
        self.text = text
        self.values: dict[str, int] = {}
        self.names: dict[str, int] = {}
        self.value, at = self.read("", self.skip(0), 0)
        if self.skip(at) != len(text):
            raise BadJson(self.skip(at), "something follows the value")

    def place(self, path: str) -> int:
        """Where the value of a path stands, or the nearest around it that is there."""
        while path not in self.values and path:
            path = path.rpartition("/")[0]
        return self.values.get(path, 0)

    def skip(self, at: int) -> int:
        return SPACE.match(self.text, at).end()  # type: ignore[union-attr]

    def read(self, path: str, at: int, depth: int) -> tuple[Any, int]:
        """The value at a place, and where it ends."""
        self.values[path] = at
        front = self.text[at:at + 1]
        if front in ("{", "["):
            if depth == MOST_NESTED:
                raise BadJson(at, f"more than {MOST_NESTED} lists and objects within each other")
            return (self.read_object if front == "{" else self.read_list)(path, at + 1, depth + 1)
        if front == '"':
            return self.read_text(at + 1)
        for word, value in WORDS:
            if self.text.startswith(word, at):
                return value, at + len(word)
        return self.read_number(at)

    def read_number(self, at: int) -> tuple[Any, int]:
        found = NUMBER.match(self.text, at)
        if not found:
            raise BadJson(at, "a value is wanted here" if at < len(self.text) else "the text ends where a value is wanted")
        text = found[0]
        if WHOLE.fullmatch(text) and (len(text) < 20 or len(text) == 20 and int(text) < 1 << 64):
            return int(text), found.end()
        if math.isinf(float(text)):
            raise BadJson(at, "the number is too great")
        return NotWhole(text), found.end()

    def read_text(self, at: int) -> tuple[str, int]:
        """A text behind its first quotation mark."""
        parts = []
        while True:
            plain = PLAIN.match(self.text, at)
            parts.append(plain[0])  # type: ignore[index]
            at = plain.end()  # type: ignore[union-attr]
            mark = self.text[at:at + 1]
            if mark == '"':
                return "".join(parts), at + 1
            if mark != "\\":
                raise BadJson(at, "a control character in a text" if mark else "a text has no end")
            part, at = self.read_escape(at + 1)
            parts.append(part)

    def read_escape(self, at: int) -> tuple[str, int]:
        letter = self.text[at:at + 1]
        if letter in ESCAPES and letter:
            return ESCAPES[letter], at + 1
        if letter != "u":
            raise BadJson(at, "no such escape")
        first = self.read_unit(at + 1)
        if 0xDC00 <= first < 0xE000:
            raise BadJson(at, "half of a surrogate pair")
        if not 0xD800 <= first < 0xDC00:
            return chr(first), at + 5
        second = self.read_unit(at + 7) if self.text[at + 5:at + 7] == "\\u" else 0
        if not 0xDC00 <= second < 0xE000:
            raise BadJson(at, "half of a surrogate pair")
        return chr(0x10000 + ((first - 0xD800) << 10) + second - 0xDC00), at + 11

    def read_unit(self, at: int) -> int:
        found = HEX.match(self.text, at)
        if not found:
            raise BadJson(at, "four hexadecimal digits are wanted here")
        return int(found[0], 16)

    def read_list(self, path: str, at: int, depth: int) -> tuple[list[Any], int]:
        items: list[Any] = []
        at = self.skip(at)
        if self.text[at:at + 1] == "]":
            return items, at + 1
        while True:
            item, at = self.read(f"{path}/{len(items)}", self.skip(at), depth)
            items.append(item)
            at = self.skip(at)
            if self.text[at:at + 1] == "]":
                return items, at + 1
            at = self.expect(at, ",", "`,` or `]`")

    def read_object(self, path: str, at: int, depth: int) -> tuple[dict[str, Any], int]:
        members: dict[str, Any] = {}
        at = self.skip(at)
        if self.text[at:at + 1] == "}":
            return members, at + 1
        while True:
            at = self.skip(at)
            begin = at
            name, at = self.read_text(self.expect(at, '"', "a member's name"))
            self.names[f"{path}/{name}"] = begin
            at = self.expect(self.skip(at), ":", "`:`")
            members[name], at = self.read(f"{path}/{name}", self.skip(at), depth)
            at = self.skip(at)
            if self.text[at:at + 1] == "}":
                return members, at + 1
            at = self.expect(at, ",", "`,` or `}`")

    def expect(self, at: int, mark: str, wanted: str) -> int:
        if self.text[at:at + 1] != mark:
            raise BadJson(at, f"{wanted} is wanted here" if at < len(self.text) else f"the text ends where {wanted} is wanted")
        return at + 1


def line_and_column(text: str, at: int) -> tuple[int, int]:
    """Both from 1."""
    return text.count("\n", 0, at) + 1, at - text.rfind("\n", 0, at)
