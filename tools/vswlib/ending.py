"""How a tool ends: with words on standard error and a status, and never with a traceback.

Statuses are those of the program where they mean the same: 2 words that aren't the tool's, 3 a file that can't be read,
4 output that takes no more, 5 a file that is refused, 6 a limit. 1 is each tool's own: it found what it looks for.
"""
from __future__ import annotations

import os
import sys
from typing import Callable, NoReturn, Sequence

FOUND, USAGE, READ_FAULT, WRITE_FAULT, REFUSED, LIMIT = 1, 2, 3, 4, 5, 6


class Ending(Exception):
    """The tool ends here, with this status and these words."""

    def __init__(self, status: int, words: str) -> None:
        super().__init__(words)
        self.status = status
        self.words = words


class Refused(Ending):
    """A file isn't as its format says."""

    def __init__(self, words: str) -> None:
        super().__init__(REFUSED, words)


def read_bytes(path: str) -> bytes:
    """The bytes of a file; those of standard input for `-`."""
    try:
        if path == "-":
            return sys.stdin.buffer.read()
        with open(path, "rb") as file:
            return file.read()
    except OSError as why:
        raise Ending(READ_FAULT, f"{path}: {why.strerror}") from why


def write_bytes(path: str, data: bytes) -> None:
    """Writes a file; standard output for `-`."""
    try:
        if path == "-":
            sys.stdout.buffer.write(data)
            sys.stdout.buffer.flush()
            return
        with open(path, "wb") as file:
            file.write(data)
    except BrokenPipeError:
        raise
    except OSError as why:
        raise Ending(WRITE_FAULT, f"{path}: {why.strerror}") from why


def usage(doc: str) -> NoReturn:
    raise Ending(USAGE, f"the words aren't as they should be\n\n{doc.strip()}")


def run(tool: Callable[[Sequence[str]], int], doc: str) -> NoReturn:
    """Runs a tool over the words of the command line, and ends with its status."""
    name, words = os.path.basename(sys.argv[0]), sys.argv[1:]
    if words in (["--help"], ["-h"]):
        print(doc.strip())
        sys.exit(0)
    try:
        status = tool(words)
        sys.stdout.flush()
    except Ending as why:
        sys.stdout.flush()
        print(f"{name}: {why.words}", file=sys.stderr)
        status = why.status
    except BrokenPipeError:
        os.dup2(os.open(os.devnull, os.O_WRONLY), 1)
        status = WRITE_FAULT
    except KeyboardInterrupt:
        status = 130
    except OSError as why:
        print(f"{name}: {why.strerror}", file=sys.stderr)
        status = WRITE_FAULT
    except MemoryError:
        print(f"{name}: memory was wanting", file=sys.stderr)
        status = 9
    sys.exit(status)


def split_words(words: Sequence[str], flags: Sequence[str], valued: Sequence[str], doc: str) -> tuple[list[str], dict[str, str]]:
    """The words that aren't options, and the options: `flags` stand alone, `valued` take the next word or what follows `=`."""
    rest: list[str] = []
    options: dict[str, str] = {}
    at = 0
    while at < len(words):
        name, equals, value = words[at].partition("=")
        if words[at] in flags:
            options[words[at]] = ""
        elif name in valued and (equals or at + 1 < len(words)):
            at += not equals
            options[name] = value if equals else words[at]
        elif words[at].startswith("-") and words[at] != "-":
            usage(doc)
        else:
            rest.append(words[at])
        at += 1
    return rest, options
