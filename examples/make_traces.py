#!/usr/bin/env python3
"""Makes the captures of the guide's examples (docs/GUIDE.md) and of `flows`, the same bytes each time.

    examples/make_traces.py

The machine behind port 1 is 10.0.0.5 and fd00:0:0:1::5, the one behind port 2 is 10.0.0.6. They ask a name server, fetch a page
and log in elsewhere, as a virtual machine does; every checksum is right. `tcpdump -nn -r` shows each capture.
"""
import ipaddress
import os
import struct
import sys

HERE = os.path.dirname(os.path.abspath(__file__))
sys.path.insert(0, os.path.join(os.path.dirname(HERE), "tools"))

from packets import IPV6, ether, icmpv6, ipv4, ipv6, mac_bytes, tcp, udp, vxlan, write_capture  # noqa: E402

ONE, TWO = ("02:00:00:00:00:01", "10.0.0.5"), ("02:00:00:00:00:02", "10.0.0.6")
GATEWAY = "02:00:00:00:00:99"
NAMES, NEAR_NAMES = "9.9.9.9", "10.0.0.53"
WEB, LOGIN, STRANGER = "10.0.0.80", "10.0.0.22", "198.51.100.7"
INSIDE6, OUTSIDE6, ROUTER6 = "fd00:0:0:1::5", "2001:db8:0:7::77", "fe80::1"
NAMES6, WEB6, STRANGER6 = "2001:db8:0:53::53", "2001:db8:0:80::80", "2001:db8:0:666::7"
SYN, ACK, FIN, PSH = 0x02, 0x10, 0x01, 0x08
PAGE_PORT = 49_210
QUERY_PORT = 53_124
MILLISECOND, SECOND = 1_000, 1_000_000
HTTP, HTTPS, SSH, POSTGRES = 80, 443, 22, 5_432


def query(number=0x1A2B, kind=1):
    """A DNS query for the address of example.com (RFC 1035, section 4), of IPv6 where the kind is 28 (RFC 3596)."""
    return struct.pack(">6H", number, 0x0100, 1, 0, 0, 0) + b"\x07example\x03com\0" + struct.pack(">2H", kind, 1)


def answer(number=0x1A2B):
    """Its answer: 93.184.215.14, for an hour."""
    record = struct.pack(">3HIH", 0xC00C, 1, 1, 3_600, 4) + bytes([93, 184, 215, 14])
    return struct.pack(">6H", number, 0x8180, 1, 1, 0, 0) + query()[12:] + record


def going(machine, packet):
    """From the machine to its gateway."""
    return ether(GATEWAY, machine[0], 0x0800, packet)


def coming(machine, packet):
    """To the machine from its gateway."""
    return ether(machine[0], GATEWAY, 0x0800, packet)


def ask(server, machine=ONE, port=QUERY_PORT, text=None):
    payload = query() if text is None else text
    return going(machine, ipv4(machine[1], server, 17, udp(machine[1], server, port, 53, payload)))


def told(server, machine=ONE, address=None, port=QUERY_PORT):
    """The answer of the name server, to this address of the machine."""
    address = address or machine[1]
    return coming(machine, ipv4(server, address, 17, udp(server, address, 53, port, answer())))


def segment_out(server, dst_port, flags, seq, ack, payload=b"", machine=ONE, src_port=PAGE_PORT):
    src = machine[1]
    return going(machine, ipv4(src, server, 6, tcp(src, server, src_port, dst_port, flags, seq, ack, payload)))


def segment_in(server, src_port, flags, seq, ack, payload=b"", machine=ONE, address=None, dst_port=PAGE_PORT):
    dst = address or machine[1]
    return coming(machine, ipv4(server, dst, 6, tcp(server, dst, src_port, dst_port, flags, seq, ack, payload)))


def connect(server, dst_port, machine=ONE, src_port=PAGE_PORT):
    return segment_out(server, dst_port, SYN, 1_000, 0, machine=machine, src_port=src_port)


def who_has(machine, address):
    """An ARP request to all (RFC 826)."""
    ends = bytes(int(part) for part in machine[1].split(".")), bytes(int(part) for part in address.split("."))
    mac = bytes.fromhex(machine[0].replace(":", ""))
    return ether("ff:ff:ff:ff:ff:ff", machine[0], 0x0806, struct.pack(">HHBBH", 1, 0x0800, 6, 4, 1) + mac + ends[0] + bytes(6) + ends[1])


def tunnelled(vni, frame):
    """In VXLAN from the far end of the tunnel, 172.16.0.2, to the near one."""
    datagram = udp("172.16.0.2", "172.16.0.1", 60_000, 4_789, vxlan(vni, frame), has_checksum=False)
    return ether("02:00:00:00:0a:01", "02:00:00:00:0a:02", 0x0800, ipv4("172.16.0.2", "172.16.0.1", 17, datagram))


def addresses():
    return [
        ask(NAMES),
        told(NAMES),
        who_has(ONE, WEB),
        connect(WEB, HTTP),
        connect(LOGIN, SSH),
        connect(STRANGER, HTTP),
        segment_in(STRANGER, 40_022, SYN, 7_000, 0, dst_port=SSH),
    ]


def two_controllers():
    service = "10.0.0.100"
    return [
        connect(service, HTTP),
        connect(service, HTTP, machine=TWO),
        connect(WEB, HTTP),
        connect(WEB, HTTP, machine=TWO),
        connect(LOGIN, SSH),
        segment_in(WEB, HTTP, SYN | ACK, 5_000, 1_001),
    ]


def translation():
    outside = "192.0.2.7"
    page = b"GET / HTTP/1.1\r\nHost: example.com\r\n\r\n"
    reply = b"HTTP/1.1 200 OK\r\nContent-Length: 2\r\n\r\nhi"
    site = "93.184.215.14"
    after_page, after_reply = 1_001 + len(page), 5_001 + len(reply)
    return [
        ask(NAMES),
        told(NAMES, address=outside),
        connect(site, HTTP),
        segment_in(site, HTTP, SYN | ACK, 5_000, 1_001, address=outside),
        segment_out(site, HTTP, ACK, 1_001, 5_001),
        segment_out(site, HTTP, PSH | ACK, 1_001, 5_001, page),
        segment_in(site, HTTP, PSH | ACK, 5_001, after_page, reply, address=outside),
        segment_in(site, HTTP, FIN | ACK, after_reply, after_page, address=outside),
        segment_out(site, HTTP, FIN | ACK, after_page, after_reply + 1),
        segment_in(site, HTTP, ACK, after_reply + 1, after_page + 1, address=outside),
        segment_in(STRANGER, 40_022, SYN, 7_000, 0, address=outside, dst_port=SSH),
        ask(NAMES),
    ]


def tunnel():
    server = "10.0.1.53"
    return [
        ask(server),
        tunnelled(5_001, told(server)),
        tunnelled(5_002, told(server)),
        told(server),
        ask(NAMES),
    ]


def groups():
    return [
        ask(NEAR_NAMES),
        connect(WEB, HTTP),
        connect(WEB, SSH),
        connect(LOGIN, HTTP),
        ask("10.0.7.53"),
        ask(NAMES),
        connect(STRANGER, HTTP),
        ask(STRANGER),
    ]


def drops():
    return [
        ask(NEAR_NAMES),
        ask(NEAR_NAMES, port=QUERY_PORT + 1),
        ask("10.0.0.54"),
        ask("10.0.0.55"),
        ask(NEAR_NAMES),
        ask(NEAR_NAMES, text=query() + bytes(65_500 - 28 - len(query()))),
    ]


def commanded():
    page = "93.184.215.14"
    return [
        ask(NAMES),
        told(NAMES),
        ask(NAMES),
        told(NAMES),
        told(NAMES),
        connect(page, HTTP),
    ]


def query6(server):
    return going6(server, 17, udp(INSIDE6, server, QUERY_PORT, 53, query(kind=28)))


def answer6():
    """The answer 2001:db8:0:80::80, for an hour, to the machine's outer address."""
    record = struct.pack(">3HIH", 0xC00C, 28, 1, 3_600, 16) + ipaddress.ip_address(WEB6).packed
    message = struct.pack(">6H", 0x1A2B, 0x8180, 1, 1, 0, 0) + query(kind=28)[12:] + record
    return coming6(NAMES6, OUTSIDE6, 17, udp(NAMES6, OUTSIDE6, 53, QUERY_PORT, message))


def going6(server, proto, rest):
    return ether(GATEWAY, ONE[0], IPV6, ipv6(INSIDE6, server, proto, rest))


def coming6(src, dst, proto, rest, hop_limit=64):
    return ether(ONE[0], GATEWAY, IPV6, ipv6(src, dst, proto, rest, hop_limit))


def who_has6(address):
    """A neighbour solicitation to the address's group of nodes (RFC 4861, section 4.3; RFC 2464, section 7)."""
    target = ipaddress.ip_address(address).packed
    group = str(ipaddress.ip_address(ipaddress.ip_address("ff02::1:ff00:0").packed[:13] + target[13:]))
    rest = bytes(4) + target + b"\x01\x01" + mac_bytes(ONE[0])
    packet = ipv6(INSIDE6, group, 58, icmpv6(INSIDE6, group, 135, 0, rest), 255)
    return ether("33:33:ff:" + target[13:].hex(":"), ONE[0], IPV6, packet)


def is_at6(address):
    """The advertisement in which the gateway answers it (RFC 4861, section 4.4): a router, asked, to be written over."""
    rest = struct.pack(">I", 0xE000_0000) + ipaddress.ip_address(address).packed + b"\x02\x01" + mac_bytes(GATEWAY)
    return coming6(address, INSIDE6, 58, icmpv6(address, INSIDE6, 136, 0, rest), 255)


def security6():
    syn = tcp(INSIDE6, WEB6, PAGE_PORT, HTTPS, SYN, 1_000, 0)
    options = bytes([6, 0, 1, 4, 0, 0, 0, 0])  # destination options: TCP follows, 8 bytes, four of padding (RFC 8200, section 4.6)
    asked = query6(NAMES6)
    return [
        who_has6(ROUTER6),
        is_at6(ROUTER6),
        asked,
        answer6(),
        going6(WEB6, 6, syn),
        coming6(WEB6, OUTSIDE6, 6, tcp(WEB6, OUTSIDE6, HTTPS, PAGE_PORT, SYN | ACK, 5_000, 1_001)),
        going6(WEB6, 6, tcp(INSIDE6, WEB6, PAGE_PORT, HTTPS, ACK, 1_001, 5_001)),
        query6("2001:db8:bad::53"),
        going6(WEB6, 58, icmpv6(INSIDE6, WEB6, 128, 0, struct.pack(">HH", 1, 1) + b"ping")),
        coming6(STRANGER6, OUTSIDE6, 6, tcp(STRANGER6, OUTSIDE6, 40_022, SSH, SYN, 7_000, 0)),
        going6(WEB6, 60, options + syn),
        ask(NAMES),
        asked[:18] + (len(asked) - 53).to_bytes(2, "big") + asked[20:],
    ]


def roll_out():
    service, old, new = "10.0.0.100", "10.0.0.80", "10.0.0.81"
    page = b"GET / HTTP/1.1\r\nHost: service\r\n\r\n"
    return [
        connect(service, HTTP),
        segment_in(old, HTTP, SYN | ACK, 5_000, 1_001),
        segment_out(service, HTTP, PSH | ACK, 1_001, 5_001, page),
        segment_in(old, HTTP, ACK, 5_001, 1_001 + len(page)),
        segment_in(old, HTTP, ACK, 5_001, 1_001 + len(page)),
        connect(service, HTTP, src_port=PAGE_PORT + 1),
        segment_in(new, HTTP, SYN | ACK, 5_000, 1_001, dst_port=PAGE_PORT + 1),
    ]


def two_machines():
    """The machine behind port 1 asks a database on the one behind port 2, 10.0.0.6, and tries to log in there; so does a stranger."""
    def sent(machine, other, src_port, dst_port, *rest):
        return ether(other[0], machine[0], 0x0800, ipv4(machine[1], other[1], 6, tcp(machine[1], other[1], src_port, dst_port, *rest)))

    asked = b"SELECT 1"
    return [
        sent(ONE, TWO, PAGE_PORT, POSTGRES, SYN, 1_000, 0),
        sent(TWO, ONE, POSTGRES, PAGE_PORT, SYN | ACK, 5_000, 1_001),
        sent(ONE, TWO, PAGE_PORT, POSTGRES, PSH | ACK, 1_001, 5_001, asked),
        sent(TWO, ONE, POSTGRES, PAGE_PORT, PSH | ACK, 5_001, 1_001 + len(asked), b"1"),
        sent(ONE, TWO, PAGE_PORT + 1, SSH, SYN, 1_000, 0),
        ask(NAMES),
        segment_in(STRANGER, 40_022, SYN, 7_000, 0, machine=TWO, dst_port=POSTGRES),
    ]


def flows():
    """Four datagrams of each of a hundred flows."""
    ends = [f"10.0.1.{number}" for number in range(1, 101)]
    return [going(ONE, ipv4(ONE[1], end, 17, udp(ONE[1], end, 1_234, 53, b"hi"))) for _ in range(4) for end in ends]


TRACES = {
    "1-addresses": addresses,
    "2-two-controllers": two_controllers,
    "3-translation": translation,
    "4-vxlan": tunnel,
    "5-groups": groups,
    "6-drops": drops,
    "7-commands": commanded,
    "8-bad-files": lambda: [ask(NAMES)],
    "10-ipv6": security6,
    "11-roll-out": roll_out,
    "14-two-machines": two_machines,
    "flows": flows,
}

# The moment of a packet, where it isn't its number of hundredths of a second.
LATE = {("3-translation", 11): 100 * SECOND}


def main():
    for name, frames in TRACES.items():
        records = []
        for number, frame in enumerate(frames()):
            moment = LATE.get((name, number), number * 10 * MILLISECOND)
            records.append((moment, frame, len(frame)))
        os.makedirs(os.path.join(HERE, name), exist_ok=True)
        with open(os.path.join(HERE, name, "trace.pcap"), "wb") as file:
            file.write(write_capture(records))


main()
