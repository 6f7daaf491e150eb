"""Reports, read line by line (docs/FORMATS.md, Report), and their lines in words."""
from __future__ import annotations

import re
from dataclasses import dataclass, field
from typing import Iterator, Optional, Union

from .ending import Refused, read_bytes

HEAD = "vsw report 1"
N = r"(0|[1-9]\d*)"
CALL = re.compile(rf"([wc]){N} {N} ([@+]){N} (.+)")
PORT = re.compile(rf"port {N} {N} {N}")
ROUND = re.compile(rf"round {N}")
LOOSE = re.compile(rf"{N} (snapped|noport|malformed {N} (\w+))")
PASS = re.compile(rf"pass {N} ((?:[0-9a-f]{{2}})*)")
DROP = re.compile(rf"rule {N}/{N}/{N}/{N}|default {N}/{N} (out|in)|long|full {N}/{N}|taken {N}/{N} {N}|memory")
REPLY = re.compile(rf"ok|refused {N} (\w+)")


@dataclass(frozen=True)
class Fate:
    """What became of a packet: it passed with `sent`, or it was dropped, or loose, for the `cause` as the report writes it."""

    sent: Optional[bytes]
    cause: str

    @property
    def is_pass(self) -> bool:
        return self.sent is not None

    @property
    def kind(self) -> str:
        """The first word of the cause, `pass` for what passed."""
        return "pass" if self.is_pass else self.cause.split(" ")[0]

    def key(self) -> tuple[str, Optional[bytes]]:
        return self.cause, self.sent

    def text(self) -> str:
        """As a report writes it at a port."""
        return f"drop {self.cause}" if self.sent is None else f"pass {len(self.sent)} {self.sent.hex()}"


@dataclass(frozen=True)
class PacketLine:
    """A packet's line at its port."""

    line: int
    first: int
    port: int
    worker: int
    packet: int
    is_entry: bool
    count: int
    fate: Fate


@dataclass(frozen=True)
class CommandLine:
    """A command's line at its port. `number` is that of its line in the commands file."""

    line: int
    first: int
    port: int
    controller: int
    number: int
    is_entry: bool
    count: int
    reply: str


@dataclass(frozen=True)
class LooseLine:
    """The line of a packet that reached no port."""

    line: int
    first: int
    packet: int
    fate: Fate


Call = Union[PacketLine, CommandLine]
Told = Union[PacketLine, LooseLine]


@dataclass
class PortPart:
    """A port's part of a round."""

    line: int
    port: int
    before: int
    after: int
    calls: list[Call] = field(default_factory=list)


@dataclass
class Round:
    """A round, by the number of its first packet."""

    line: int
    first: int
    ports: list[PortPart] = field(default_factory=list)
    loose: list[LooseLine] = field(default_factory=list)
    is_loose: bool = False  # the line `loose` was read


@dataclass
class Report:
    name: str
    rounds: list[Round]

    def calls(self) -> Iterator[Call]:
        for part in (part for one in self.rounds for part in one.ports):
            yield from part.calls

    def packet_lines(self) -> Iterator[PacketLine]:
        return (call for call in self.calls() if isinstance(call, PacketLine))

    def command_lines(self) -> Iterator[CommandLine]:
        return (call for call in self.calls() if isinstance(call, CommandLine))

    def loose_lines(self) -> Iterator[LooseLine]:
        return (line for one in self.rounds for line in one.loose)

    def told(self) -> dict[int, list[Told]]:
        """What is told of each packet, by its number. One that `deliver` handed on to another port has two lines: where only one of them passed, that
        was at its own port, and stands first; else they stand as in the report."""
        found: dict[int, list[Told]] = {}
        for line in [*self.packet_lines(), *self.loose_lines()]:
            found.setdefault(line.packet, []).append(line)
        return {packet: sorted(lines, key=lambda line: not line.fate.is_pass) for packet, lines in found.items()}

    def packets(self) -> dict[int, Told]:
        """The line of each packet, by its number. A report of `deliver` in which packets have two is refused."""
        for packet, lines in self.told().items():
            if len(lines) > 1:
                raise Refused(f"{self.name}:{lines[1].line}: a second line of packet {packet}: `deliver` handed it on, and here each packet has one line")
        return {packet: lines[0] for packet, lines in self.told().items()}


# Read

def read_report(path: str) -> Report:
    return parse_report(path, read_bytes(path))


def parse_report(name: str, data: bytes) -> Report:
    """A report's rounds. What isn't a line of one is refused with its number."""
    text = data.decode("latin-1")
    lines = text.split("\n")
    if lines.pop():
        raise Refused(f"{name}:{len(lines) + 1}: the last line isn't whole: the report is cut")
    if lines[:1] != [HEAD]:
        raise Refused(f"{name}:1: no report: the first line isn't `{HEAD}`")
    rounds: list[Round] = []
    for number, line in enumerate(lines[1:], 2):
        if not add_line(rounds, number, line):
            raise Refused(f"{name}:{number}: no line of a report: {line[:60]!r}")
    return Report(name, rounds)


def add_line(rounds: list[Round], number: int, line: str) -> bool:
    """Adds a line to the rounds; false where it may not stand there."""
    begun = ROUND.fullmatch(line)
    if begun:
        rounds.append(Round(number, int(begun[1])))
        return True
    return bool(rounds) and add_to_round(rounds[-1], number, line)


def add_to_round(last: Round, number: int, line: str) -> bool:
    port, call, loose = PORT.fullmatch(line), CALL.fullmatch(line), LOOSE.fullmatch(line)
    if line == "loose" and not last.is_loose:
        last.is_loose = True
    elif port and not last.is_loose:
        last.ports.append(PortPart(number, int(port[1]), int(port[2]), int(port[3])))
    elif call and last.ports and not last.is_loose:
        made = made_call(last, number, call)
        if made is None:
            return False
        last.ports[-1].calls.append(made)
    elif loose and last.is_loose:
        last.loose.append(LooseLine(number, last.first, int(loose[1]), Fate(None, loose[2])))
    else:
        return False
    return True


def made_call(last: Round, number: int, call: re.Match[str]) -> Optional[Call]:
    kind, by, item, mark, count, told = call.groups()
    where = (number, last.first, last.ports[-1].port, int(by), int(item), mark == "+", int(count))
    if kind == "c":
        return CommandLine(*where, told) if REPLY.fullmatch(told) else None
    fate = read_fate(told)
    return PacketLine(*where, fate) if fate else None


def read_fate(told: str) -> Optional[Fate]:
    passed = PASS.fullmatch(told)
    if passed and int(passed[1]) * 2 == len(passed[2]):
        return Fate(bytes.fromhex(passed[2]), "pass")
    cause = told[5:] if told.startswith("drop ") else ""
    return Fate(None, cause) if DROP.fullmatch(cause) else None


# In words

LOOSE_WORDS = {
    "noport": "neither its outermost source nor its innermost destination is the address of a port",
    "snapped": "the capture has fewer bytes of it than it had",
    "malformed": "its bytes are no frame: fault {} (docs/FORMATS.md, faults of a frame)",
}


def layer_text(name: str) -> str:
    controller, layer = name.split("/")[:2]
    return f"layer {layer} of controller {controller}"


def way_text(way: str) -> str:
    return {"out": "outbound", "in": "inbound"}[way]


def why_dropped(cause: str) -> str:
    """The sentence for a drop."""
    words = cause.split(" ")
    if words[0] == "rule":
        group, rule = words[1].split("/")[2:]
        return f"rule {rule} of group {group} in {layer_text(words[1])} drops it"
    if words[0] == "default":
        return f"no rule of {layer_text(words[1])} was chosen, and its default for {way_text(words[2])} packets is drop"
    if words[0] == "full":
        return f"it would make a pair in {layer_text(words[1])}, which has as many as its limit `pairs`"
    if words[0] == "taken":
        return f"in {layer_text(words[1])} its replies would look like those of pair {words[2]}, which is there already"
    if words[0] == "long":
        return "with what was put in front, the outermost IPv4 total length would be above 65,535"
    return "memory was wanting to make its pair"


def why_loose(cause: str) -> str:
    words = cause.split(" ")
    return LOOSE_WORDS[words[0]].format(" ".join(words[1:]))


def became(line: Told) -> str:
    """What became of a packet, in one sentence without its full stop."""
    if isinstance(line, LooseLine):
        return f"it reached no port: {why_loose(line.fate.cause)}"
    if line.fate.sent is not None:
        return f"it passed port {line.port}, and left with {len(line.fate.sent)} bytes"
    return f"it was dropped at port {line.port}: {why_dropped(line.fate.cause)}"


def history_text(line: PacketLine) -> str:
    if line.is_entry:
        return f"it is entry {line.count} of port {line.port}'s history: it changed what the port remembers"
    entries = "1 entry" if line.count == 1 else f"{line.count} entries"
    return f"it is a read after {entries} of port {line.port}'s history: it changed nothing"
