"""Rows files, read as docs/FORMATS.md has them, and told in words. This is a reading of its own, not that of the switch."""
from __future__ import annotations

import ipaddress
import struct
from dataclasses import dataclass
from typing import Iterator, Optional, Sequence

from vswlib.ending import Refused
from vswlib.frames import KINDS, PROTOCOLS

HEAD = b"VSWROWS1"
MOST_PORTS = 16
MOST_ROWS = 16_384
ROW_WORDS = 73
ROW_BYTES = 8 * ROW_WORDS
NO_END = 2**64 - 1


@dataclass(frozen=True)
class PortRows:
    """A port: its number, its address, the entries of its history, and its rows of 73 words."""

    port: int
    mac: str
    entries: int
    rows: tuple[tuple[int, ...], ...]


class Reader:
    """Takes parts of a file from its front. What isn't whole is refused with its place."""

    def __init__(self, name: str, data: bytes) -> None:
        self.name = name
        self.data = data
        self.at = 0

    def refuse(self, why: str, at: Optional[int] = None) -> Refused:
        return Refused(f"{self.name}: {why}" if at is None else f"{self.name}: {why} at byte {at}")

    def take(self, size: int) -> bytes:
        if len(self.data) < self.at + size:
            raise self.refuse("cut", self.at)
        part = self.data[self.at:self.at + size]
        self.at += size
        return part

    def number(self) -> int:
        return int(struct.unpack("<I", self.take(4))[0])


def parse_rows(name: str, data: bytes) -> Iterator[PortRows]:
    """The ports of a rows file. Whether words say a row is left to who reads them; their order is tested."""
    reader = Reader(name, data)
    if data[:len(HEAD)] != HEAD:
        raise reader.refuse("not a rows file")
    reader.at = len(HEAD)
    count = reader.number()
    if count > MOST_PORTS:
        raise reader.refuse("too many ports", reader.at - 4)
    for _ in range(count):
        yield parse_port(reader)
    if reader.at < len(data):
        raise reader.refuse("more bytes behind the last port", reader.at)


def parse_port(reader: Reader) -> PortRows:
    port = reader.number()
    mac = reader.take(6).hex(":")
    entries = reader.number()
    count = reader.number()
    if count > MOST_ROWS:
        raise reader.refuse("too many rows", reader.at - 4)
    rows: list[tuple[int, ...]] = []
    for _ in range(count):
        at = reader.at
        words = struct.unpack(f"<{ROW_WORDS}Q", reader.take(ROW_BYTES))
        if rows and not rows[-1][:16] < words[:16]:
            raise reader.refuse("the key doesn't rise", at)
        rows.append(words)
    return PortRows(port, mac, entries, tuple(rows))


def bits(word: int, low: int, count: int) -> int:
    return word >> low & (1 << count) - 1


def mac_text(word: int) -> str:
    return word.to_bytes(6, "big").hex(":") if word < 2**48 else f"address 0x{word:x}"


def ip_text(word: int) -> str:
    return str(ipaddress.IPv4Address(word & 0xFFFF_FFFF))


def ip6_text(high: int, low: int) -> str:
    return str(ipaddress.IPv6Address(high << 64 | low))


def identity_text(key: Sequence[int]) -> str:
    """The direction and the headers, outermost first."""
    head = key[0]
    encaps = bits(head, 2, 2)
    parts = ["in" if bits(head, 1, 1) else "out"]
    for place in range(min(encaps, 2)):
        pair, network = key[8 + place], bits(key[1], 24 * place, 24)
        parts.append(f"vxlan {network} {ip_text(pair >> 32)} > {ip_text(pair)},")
    inner = 2 + 2 * min(encaps, 2)
    parts.append(f"{mac_text(key[inner + 1])} > {mac_text(key[inner])}")
    kind, proto = bits(head, 16, 16), bits(head, 8, 8)
    src, dst = bits(head, 32, 16), bits(head, 48, 16)
    ports = (f":{src}", f":{dst}") if bits(head, 5, 1) else ("", "")
    if bits(head, 4, 1):
        pair = key[8 + min(encaps, 2)]
        ends = (ip_text(pair >> 32), ip_text(pair))
    elif bits(head, 7, 1):
        ends = (f"[{ip6_text(key[11], key[12])}]", f"[{ip6_text(key[13], key[14])}]")
    else:
        return " ".join([*parts, KINDS.get(kind, f"type 0x{kind:04x}")])
    name = PROTOCOLS.get(proto, f"protocol {proto}")
    fragment = ["fragment"] if bits(head, 6, 1) else []
    return " ".join([*parts, name, f"{ends[0]}{ports[0]} > {ends[1]}{ports[1]}", *fragment])


def verdict_text(words: Sequence[int]) -> str:
    verdict, who = words[16], words[19]
    layer = f"layer {bits(who, 16, 16)} of controller {bits(who, 0, 16)}"
    if verdict == 0:
        return "pass"
    if verdict == 1:
        return f"drop by rule {bits(who, 48, 16)} of group {bits(who, 32, 16)} in {layer}"
    if verdict in (2, 3):
        return f"drop by the default of {layer} for {'outbound' if verdict == 2 else 'inbound'} packets"
    return f"verdict {verdict}"


def changed_text(name: str, first: str, second: str, head: int, texts: tuple[str, str]) -> str:
    """A change of the fields that its first word says are there."""
    parts = [f"{field} {text}" for bit, field, text in ((4, first, texts[0]), (5, second, texts[1])) if bits(head, bit, 1)]
    return f"set {name} " + " and ".join(parts) if parts else ""


def act_text(head: int, first: int, second: int) -> str:
    """One act in words; of one that changes nothing, none."""
    kind, more = bits(head, 0, 4), head >> 16
    if kind == 1:
        return f"push Ethernet {mac_text(second)} > {mac_text(first)}" + (f" type 0x{more:04x}" if more != 0x0800 else "")
    if kind == 2:
        return f"push IPv4 {ip_text(first)} > {ip_text(second)}"
    if kind == 3:
        return f"push VXLAN {more}"
    if kind == 4:
        return "pop"
    if kind == 5:
        return changed_text("Ethernet", "destination", "source", head, (mac_text(first), mac_text(second)))
    if kind == 6:
        return changed_text("IPv4", "source", "destination", head, (ip_text(first), ip_text(second)))
    if kind == 7:
        return changed_text("port", "source", "destination", head, (str(first), str(second)))
    if kind in (9, 10):
        return f"set IPv6 {'source' if kind == 9 else 'destination'} {ip6_text(first, second)}"
    return "" if kind == 8 else f"act of kind {kind}"


def edits_text(words: Sequence[int]) -> str:
    """What is done to the headers of packets that pass, outermost first."""
    if words[16] != 0:
        return ""
    acts = [act_text(*words[19 + 3 * place:22 + 3 * place]) for place in range(min(words[18], 18))]
    return ", ".join(text for text in acts if text)


def until_text(until: int) -> str:
    return "without an end" if until == NO_END else f"until {until // 1_000_000}.{until % 1_000_000:06}"


def row_text(port: int, words: Sequence[int]) -> str:
    """A row as a line: its port, its identity, the verdict, what is edited, and until when it answers."""
    edits = edits_text(words)
    return f"port {port} {identity_text(words[:16])}: {verdict_text(words)}{', ' + edits if edits else ''}, {until_text(words[17])}"


def write_rows(ports: Sequence[PortRows]) -> bytes:
    """The rows file of these ports, each port's rows in the order of their keys."""
    parts = [HEAD, struct.pack("<I", len(ports))]
    for port in ports:
        rows = sorted(port.rows)
        parts.append(struct.pack("<I", port.port) + bytes.fromhex(port.mac.replace(":", "")) + struct.pack("<II", port.entries, len(rows)))
        parts += [struct.pack(f"<{ROW_WORDS}Q", *row) for row in rows]
    return b"".join(parts)
