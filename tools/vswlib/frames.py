"""Frames: Ethernet, IPv4 (RFC 791), IPv6 (RFC 8200), TCP (RFC 9293), UDP (RFC 768) and VXLAN (RFC 7348), read and told in words.

Read as docs/MODEL.md has it: at most two encapsulations, over IPv4 alone; a fragment has no ports; an extension header of
IPv6 counts as the protocol, and has no ports behind it. A fault is named as docs/FORMATS.md does.
"""
from __future__ import annotations

import ipaddress
import struct
from dataclasses import dataclass

KINDS = {0x0800: "IPv4", 0x0806: "ARP", 0x86DD: "IPv6", 0x8100: "VLAN"}
PROTOCOLS = {1: "ICMP", 2: "IGMP", 6: "TCP", 17: "UDP"}
NEXT_HEADERS = {0: "hop-by-hop options", 6: "TCP", 17: "UDP", 43: "routing", 44: "fragment", 58: "ICMPv6", 60: "destination options"}
FLAGS = [(0x02, "SYN"), (0x01, "FIN"), (0x04, "RST"), (0x08, "PSH"), (0x10, "ACK")]
VXLAN_PORT = 4789
MOST_BYTES = 65_600
MOST_ENCAPS = 2


@dataclass(frozen=True)
class Header:
    """A header by name, with its fields in words."""

    name: str
    fields: tuple[tuple[str, str], ...]

    def field(self, name: str) -> str:
        return dict(self.fields).get(name, "")


@dataclass(frozen=True)
class Frame:
    """The headers of a frame, outermost first, what follows the last, and why it is no frame, where it is none."""

    headers: tuple[Header, ...]
    payload: bytes
    fault: str | None

    def inner(self) -> tuple[Header, ...]:
        """The headers behind the encapsulations."""
        last = max((place for place, header in enumerate(self.headers) if header.name == "Ethernet"), default=0)
        return self.headers[last:]

    def networks(self) -> list[str]:
        return [header.field("network") for header in self.headers if header.name == "VXLAN"]


def ones_sum(data: bytes) -> int:
    """The checksum of RFC 1071."""
    if len(data) % 2:
        data += b"\0"
    total = sum(struct.unpack(f">{len(data) // 2}H", data))
    while total >> 16:
        total = (total & 0xFFFF) + (total >> 16)
    return ~total & 0xFFFF


def checked(value: int, is_right: bool) -> str:
    return f"0x{value:04x} {'right' if is_right else 'wrong'}"


class Reader:
    """Reads a frame from the outermost header inwards, and stops at its first fault."""

    def __init__(self) -> None:
        self.headers: list[Header] = []
        self.encaps = 0

    def add(self, name: str, *fields: tuple[str, str]) -> None:
        self.headers.append(Header(name, fields))

    def end(self, payload: bytes, fault: str | None = None) -> Frame:
        return Frame(tuple(self.headers), payload, fault)

    def ethernet(self, data: bytes) -> Frame:
        if len(data) < 14:
            return self.end(data, "1 ShortEther")
        kind = int.from_bytes(data[12:14], "big")
        self.add("Ethernet", ("to", data[:6].hex(":")), ("from", data[6:12].hex(":")), ("type", KINDS.get(kind, f"0x{kind:04x}")))
        if kind == 0x0800:
            return self.ipv4(data[14:])
        if kind == 0x86DD:
            return self.ipv6(data[14:])
        return self.end(data[14:])

    def ipv4(self, data: bytes) -> Frame:
        if len(data) < 20:
            return self.end(data, "2 ShortIp")
        if data[0] >> 4 != 4:
            return self.end(data, "3 IpVersion")
        start, total = (data[0] & 15) * 4, int.from_bytes(data[2:4], "big")
        if start < 20 or not start <= total <= len(data):
            return self.end(data, "4 IpLength")
        mark, proto = int.from_bytes(data[6:8], "big"), data[9]
        fields = [("from", str(ipaddress.IPv4Address(data[12:16]))), ("to", str(ipaddress.IPv4Address(data[16:20]))),
                  ("protocol", PROTOCOLS.get(proto, str(proto))), ("length", str(total)), ("ttl", str(data[8])),
                  ("checksum", checked(int.from_bytes(data[10:12], "big"), ones_sum(data[:start]) == 0))]
        if mark & 0x3FFF:
            fields.append(("fragment", f"at {(mark & 0x1FFF) * 8}"))
        self.add("IPv4", *fields)
        body = data[start:total]
        if mark & 0x3FFF:
            return self.end(body)
        return self.ports(proto, body, data[12:20] + struct.pack(">HH", proto, len(body)), True)

    def ipv6(self, data: bytes) -> Frame:
        if len(data) < 40:
            return self.end(data, "10 ShortIp6")
        if data[0] >> 4 != 6:
            return self.end(data, "11 Ip6Version")
        length, proto = int.from_bytes(data[4:6], "big"), data[6]
        if length > len(data) - 40:
            return self.end(data, "12 Ip6Length")
        self.add("IPv6", ("from", str(ipaddress.IPv6Address(data[8:24]))), ("to", str(ipaddress.IPv6Address(data[24:40]))),
                 ("next header", NEXT_HEADERS.get(proto, str(proto))), ("length", str(length)), ("hop limit", str(data[7])))
        return self.ports(proto, data[40:40 + length], data[8:40] + struct.pack(">II", length, proto), False)

    def ports(self, proto: int, body: bytes, pseudo: bytes, is_ipv4: bool) -> Frame:
        if proto == 6:
            return self.tcp(body, pseudo)
        if proto == 17:
            return self.udp(body, pseudo, is_ipv4)
        return self.end(body)

    def tcp(self, body: bytes, pseudo: bytes) -> Frame:
        if len(body) < 20:
            return self.end(body, "5 ShortTcp")
        start = (body[12] >> 4) * 4
        if not 20 <= start <= len(body):
            return self.end(body, "6 TcpOffset")
        source, to, seq, ack = struct.unpack_from(">HHII", body)
        flags = "+".join(name for bit, name in FLAGS if body[13] & bit) or "none"
        self.add("TCP", ("from", str(source)), ("to", str(to)), ("flags", flags), ("seq", str(seq)), ("ack", str(ack)),
                 ("checksum", checked(int.from_bytes(body[16:18], "big"), ones_sum(pseudo + body) == 0)))
        return self.end(body[start:])

    def udp(self, body: bytes, pseudo: bytes, is_ipv4: bool) -> Frame:
        if len(body) < 8:
            return self.end(body, "7 ShortUdp")
        source, to, length, check = struct.unpack_from(">4H", body)
        if not 8 <= length <= len(body):
            return self.end(body, "8 UdpLength")
        body = body[:length]
        pseudo = pseudo[:-2] + struct.pack(">H", length) if is_ipv4 else pseudo[:-8] + struct.pack(">II", length, 17)
        told = checked(check, ones_sum(pseudo + body) == 0) if check else "none"
        self.add("UDP", ("from", str(source)), ("to", str(to)), ("length", str(length)), ("checksum", told))
        if not (is_ipv4 and to == VXLAN_PORT and length >= 16 and body[8] & 8 and self.encaps < MOST_ENCAPS):
            return self.end(body[8:])
        self.add("VXLAN", ("network", str(int.from_bytes(body[12:15], "big"))))
        self.encaps += 1
        return self.ethernet(body[16:])


def read_frame(data: bytes) -> Frame:
    if len(data) > MOST_BYTES:
        return Frame(Reader().ethernet(data).headers, data, "9 TooLong")
    return Reader().ethernet(data)


# In words

def flow_text(frame: Frame) -> str:
    """The flow of a frame: protocol and both ends of its inner headers, and the networks that it came in."""
    inner = {header.name: header for header in frame.inner()}
    address, ports = inner.get("IPv4") or inner.get("IPv6"), inner.get("TCP") or inner.get("UDP")
    if address is None:
        link = inner.get("Ethernet")
        return f"{link.field('type')} {link.field('from')} > {link.field('to')}" if link else "no frame"
    ends = [address.field("from"), address.field("to")]
    if ports is not None:
        six = "[{}]" if address.name == "IPv6" else "{}"
        ends = [f"{six.format(end)}:{ports.field(name)}" for end, name in zip(ends, ("from", "to"))]
    fragment = " fragment" if address.field("fragment") else ""
    within = "".join(f" in VXLAN {network}" for network in reversed(frame.networks()))
    protocol = address.field("protocol") or address.field("next header")
    return f"{protocol}{fragment} {ends[0]} > {ends[1]}{within}"


def dns_text(data: bytes) -> str:
    """The question of a DNS message, and the address of its first answer (RFC 1035, section 4.1; RFC 3596)."""
    names, at = [], 12
    while at < len(data) and data[at]:
        names.append(data[at + 1:at + 1 + data[at]].decode("ascii", "replace"))
        at += 1 + data[at]
    if not data[2] & 0x80:
        return f"DNS query for {'.'.join(names)}"
    record = data[at + 5:]
    kind, value = record[2:4], record[12:12 + int.from_bytes(record[10:12], "big")]
    is_address = record[:1] >= b"\xc0" and (kind, len(value)) in ((b"\0\x01", 4), (b"\0\x1c", 16))
    return f"DNS answer to {'.'.join(names)}{f': {ipaddress.ip_address(value)}' if is_address else ''}"


def payload_text(frame: Frame) -> str:
    last, payload = frame.headers[-1:], frame.payload
    is_dns = bool(last) and last[0].name == "UDP" and "53" in (last[0].field("from"), last[0].field("to"))
    if is_dns and len(payload) > 16:
        return dns_text(payload)
    text = payload[:48].decode("latin-1").split("\r\n")[0]
    if payload and all(32 <= ord(letter) < 127 for letter in text):
        return f'{len(payload)} bytes: "{text}"'
    return f"{len(payload)} bytes"


def frame_lines(data: bytes) -> list[str]:
    """A frame in words, one line a header."""
    frame = read_frame(data)
    lines = [f"{header.name:9}" + ", ".join(f"{name} {value}" for name, value in header.fields) for header in frame.headers]
    return [*lines, f"{'payload':9}" + payload_text(frame)]


def differences(before: bytes, after: bytes) -> list[str]:
    """What differs between two frames, header by header from the innermost outwards."""
    old, new = read_frame(before), read_frame(after)
    kept = min(len(old.headers), len(new.headers))
    while [header.name for header in old.headers[len(old.headers) - kept:]] != [header.name for header in new.headers[len(new.headers) - kept:]]:
        kept -= 1
    gone, put = (frame.headers[:len(frame.headers) - kept] for frame in (old, new))
    found = [f"gone from the front: {', '.join(header.name for header in gone)}"] if gone else []
    found += [f"put in front: {', '.join(header.name for header in put)}"] if put else []
    for was, now in zip(old.headers[len(gone):], new.headers[len(put):]):
        names = list(dict.fromkeys(name for name, _ in (*was.fields, *now.fields)))
        pairs = [(name, was.field(name) or "none", now.field(name) or "none") for name in names]
        found += [f"{was.name} {name}: {one} became {other}" for name, one, other in pairs if one != other]
    if old.payload != new.payload:
        same = len(old.payload) == len(new.payload)
        found.append(f"payload: {len(old.payload)} bytes became {'others' if same else len(new.payload)}")
    return found or ([] if before == after else ["bytes that these headers don't show"])
