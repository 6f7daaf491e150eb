"""Frames and captures, made for the scripts of this repository. What reads and tells them stands in tools/vswlib.

Written from the formats' own documents, apart from the switch: classic pcap, RFC 791 (IPv4), RFC 8200 (IPv6), RFC 768
(UDP), RFC 9293 (TCP), RFC 7348 (VXLAN), RFC 1071 (checksums).
"""
import ipaddress
import struct

MAGICS = {0xA1B2C3D4: 1, 0xA1B23C4D: 1000}  # ticks of a microsecond
IPV4, IPV6 = 0x0800, 0x86DD
VXLAN_PORT = 4789


# Captures

def read_capture(data):
    """The records of a capture: (moment in microseconds, bytes, original length). A cut last record is left out."""
    for order in "<>":
        ticks = MAGICS.get(struct.unpack(order + "I", data[:4])[0])
        if ticks:
            break
    else:
        raise ValueError("no pcap file")
    at, records = 24, []
    while at + 16 <= len(data):
        seconds, fraction, captured, original = struct.unpack(order + "4I", data[at:at + 16])
        if at + 16 + captured > len(data):
            break
        moment = seconds * 1_000_000 + fraction // ticks
        records.append((moment, data[at + 16:at + 16 + captured], original))
        at += 16 + captured
    return records


def write_capture(records):
    """A capture in microseconds of these (moment, bytes, original length)."""
    parts = [struct.pack("<IHHIIII", 0xA1B2C3D4, 2, 4, 0, 0, 262_144, 1)]
    for moment, data, original in records:
        parts += [struct.pack("<4I", *divmod(moment, 1_000_000), len(data), original), data]
    return b"".join(parts)


# Frames, made

def mac_bytes(text):
    return bytes.fromhex(text.replace(":", ""))


def ones_sum(data):
    """The checksum of RFC 1071."""
    if len(data) % 2:
        data += b"\0"
    total = sum(struct.unpack(f">{len(data) // 2}H", data))
    while total >> 16:
        total = (total & 0xFFFF) + (total >> 16)
    return ~total & 0xFFFF


def pseudo(src, dst, proto, length):
    """The pseudo-header of TCP, UDP and ICMPv6: of IPv4 or, with length and next header of 32 bits, of IPv6 (RFC 8200, section 8.1)."""
    ends = ipaddress.ip_address(src).packed + ipaddress.ip_address(dst).packed
    return ends + (struct.pack(">HH", proto, length) if len(ends) == 8 else struct.pack(">II", length, proto))


def ether(dst, src, kind, rest):
    return mac_bytes(dst) + mac_bytes(src) + struct.pack(">H", kind) + rest


def ipv4(src, dst, proto, payload, number=0):
    """IPv4 without options: service 0, don't fragment, time to live 64."""
    front = struct.pack(">BBHHHBB", 0x45, 0, 20 + len(payload), number, 0x4000, 64, proto)
    ends = ipaddress.ip_address(src).packed + ipaddress.ip_address(dst).packed
    return front + struct.pack(">H", ones_sum(front + b"\0\0" + ends)) + ends + payload


def ipv6(src, dst, proto, payload, hop_limit=64):
    """IPv6 without extension headers: class and flow label 0."""
    front = struct.pack(">IHBB", 0x6000_0000, len(payload), proto, hop_limit)
    return front + ipaddress.IPv6Address(src).packed + ipaddress.IPv6Address(dst).packed + payload


def icmpv6(src, dst, kind, code, rest):
    """An ICMPv6 message (RFC 4443, section 2)."""
    value = ones_sum(pseudo(src, dst, 58, 4 + len(rest)) + struct.pack(">BBH", kind, code, 0) + rest)
    return struct.pack(">BBH", kind, code, value) + rest


def udp(src, dst, src_port, dst_port, payload, has_checksum=True):
    length = 8 + len(payload)
    front = struct.pack(">HHH", src_port, dst_port, length)
    value = ones_sum(pseudo(src, dst, 17, length) + front + b"\0\0" + payload) or 0xFFFF
    return front + struct.pack(">H", value if has_checksum else 0) + payload


def tcp(src, dst, src_port, dst_port, flags, seq, ack, payload=b""):
    """TCP with a window of 64,240; a SYN says that segments may have 1,460 bytes."""
    options = b"\x02\x04\x05\xb4" if flags & 0x02 else b""
    front = struct.pack(">HHIIBBH", src_port, dst_port, seq, ack, (20 + len(options)) // 4 << 4, flags, 64_240)
    rest = b"\0\0" + options + payload
    value = ones_sum(pseudo(src, dst, 6, 20 + len(options) + len(payload)) + front + b"\0\0" + rest)
    return front + struct.pack(">H", value) + rest


def vxlan(vni, frame):
    return struct.pack(">II", 0x0800_0000, vni << 8) + frame
