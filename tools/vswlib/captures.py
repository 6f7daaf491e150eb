"""Captures: classic pcap, read as the switch reads it (docs/FORMATS.md, Trace), and written; pcapng, written with comments."""
from __future__ import annotations

import struct
from dataclasses import dataclass
from typing import Iterable, Iterator

from .ending import LIMIT, Ending, Refused, read_bytes

TICKS = {0xA1B2C3D4: 1, 0xA1B23C4D: 1000}  # ticks of a microsecond
PCAPNG = b"\x0a\x0d\x0d\x0a"
MOST_BYTES = 262_144
MOST_RECORDS = 1_048_576


@dataclass(frozen=True)
class Record:
    """A packet of a capture. `moment` is in microseconds since the epoch, `original` the bytes that the packet had."""

    moment: int
    data: bytes
    original: int

    @property
    def is_snapped(self) -> bool:
        return len(self.data) < self.original


def read_capture(path: str) -> list[Record]:
    """The records of a capture, in order."""
    return list(parse_capture(path, read_bytes(path)))


def parse_capture(name: str, data: bytes) -> Iterator[Record]:
    order, ticks = parse_head(name, data)
    at, count = 24, 0
    while at < len(data):
        if count == MOST_RECORDS:
            raise Ending(LIMIT, f"{name}: more than {MOST_RECORDS} packets")
        if at + 16 > len(data):
            raise Refused(f"{name}: Cut: the record that begins at byte {at} isn't whole")
        seconds, fraction, captured, original = struct.unpack_from(order + "4I", data, at)
        if captured > MOST_BYTES:
            raise Refused(f"{name}: Huge: the record that begins at byte {at} has {captured} bytes")
        if at + 16 + captured > len(data):
            raise Refused(f"{name}: Cut: the record that begins at byte {at} isn't whole")
        yield Record(seconds * 1_000_000 + fraction // ticks, data[at + 16:at + 16 + captured], original)
        at += 16 + captured
        count += 1


def parse_head(name: str, data: bytes) -> tuple[str, int]:
    """The order of bytes and the ticks of a microsecond."""
    for order in "<>":
        ticks = TICKS.get(struct.unpack(order + "I", data[:4])[0]) if len(data) >= 24 else None
        if ticks is not None:
            break
    else:
        hint = f"; it is pcapng: `editcap -F pcap {name} OUT` makes a classic one" if data.startswith(PCAPNG) else ""
        raise Refused(f"{name}: NotPcap: no classic pcap file{hint}")
    major, minor, _, _, _, link = struct.unpack_from(order + "HHIIII", data, 4)
    if (major, minor) != (2, 4):
        raise Refused(f"{name}: Version: pcap {major}.{minor}, and not 2.4")
    if link != 1:
        raise Refused(f"{name}: LinkType: {link}, and not 1, Ethernet")
    return order, ticks


def write_capture(records: Iterable[Record]) -> bytes:
    """A classic capture in microseconds."""
    parts = [struct.pack("<IHHIIII", 0xA1B2C3D4, 2, 4, 0, 0, MOST_BYTES, 1)]
    for record in records:
        parts += [struct.pack("<4I", *divmod(record.moment, 1_000_000), len(record.data), record.original), record.data]
    return b"".join(parts)


def padded(data: bytes) -> bytes:
    return data + bytes(-len(data) % 4)


def option(code: int, data: bytes) -> bytes:
    return struct.pack("<HH", code, len(data)) + padded(data)


def block(kind: int, body: bytes) -> bytes:
    """A block of pcapng (draft-ietf-opsawg-pcapng, section 3.1)."""
    size = len(body) + 12
    return struct.pack("<II", kind, size) + body + struct.pack("<I", size)


def write_commented(records: Iterable[tuple[Record, str]]) -> bytes:
    """A pcapng capture in microseconds, a comment with each packet."""
    parts = [block(0x0A0D0D0A, struct.pack("<IHHq", 0x1A2B3C4D, 1, 0, -1)), block(1, struct.pack("<HHI", 1, 0, MOST_BYTES))]
    for record, comment in records:
        front = struct.pack("<5I", 0, *divmod(record.moment, 1 << 32), len(record.data), record.original)
        parts.append(block(6, front + padded(record.data) + option(1, comment.encode()) + option(0, b"")))
    return b"".join(parts)
