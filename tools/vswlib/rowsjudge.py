"""Whether bytes are a rows file, judged as docs/FORMATS.md has it, and else the first part that is at fault. It isn't proved."""
from __future__ import annotations

import struct
from typing import Optional, Sequence

from vswlib.rowsfiles import HEAD, MOST_PORTS, MOST_ROWS, ROW_BYTES, ROW_WORDS, bits

IPV4, IPV6, TCP, UDP = 0x0800, 0x86DD, 6, 17
PUSH_ETHER, PUSH_IP, PUSH_VXLAN, POP, SET_ETHER, SET_IP, SET_PORTS, IGNORE, SET_SOURCE6, SET_DESTINATION6 = range(1, 11)
# Kinds of acts by the header at which each may be done.
CHANGES = {SET_ETHER: "ether", SET_IP: "ip", SET_PORTS: "ports", SET_SOURCE6: "six", SET_DESTINATION6: "six"}
Act = tuple[int, int, int]


def are_below(words: Sequence[int], *sizes: int) -> bool:
    """Whether each word has so many bits at most."""
    return all(word >> size == 0 for word, size in zip(words, sizes))


def inner_kinds(key: Sequence[int]) -> Optional[list[str]]:
    """The kinds of an identity's inner headers, if its first word tells headers that a frame has."""
    head = key[0]
    has_ip, has_ports, is_part, has_six = (bits(head, 4 + place, 1) for place in range(4))
    proto, kind = bits(head, 8, 8), bits(head, 16, 16)
    if (kind == IPV4) != bool(has_ip) or (kind == IPV6) != bool(has_six):
        return None
    if not has_ip and (is_part or not has_six and proto):
        return None
    if bool(has_ports) != (bool(has_ip or has_six) and not is_part and proto in (TCP, UDP)):
        return None
    if not has_ports and head >> 32:
        return None
    return ["ether", *["ip"] * has_ip, *["six"] * has_six, *["ports"] * has_ports]


def headers_of(key: Sequence[int]) -> Optional[list[str]]:
    """The kinds of the headers that a row's first sixteen words are of, outermost first."""
    head, encaps = key[0], bits(key[0], 2, 2)
    inner = inner_kinds(key)
    if not head & 1 or encaps > 2 or inner is None:
        return None
    used_ips = encaps + ("ip" in inner)
    has_six = "six" in inner
    ok = key[1] >> 24 * encaps == 0
    ok = ok and are_below(key[2:8], *[48 if place < 2 * (encaps + 1) else 0 for place in range(6)])
    ok = ok and are_below(key[8:11], *[64 if place < used_ips else 0 for place in range(3)])
    ok = ok and are_below(key[11:16], *[64 if has_six else 0] * 4, 0)
    return ["ether", "ip", "vxlan"] * encaps + inner if ok else None


def is_act(act: Act) -> bool:
    """Whether three words are an act's, written as acts are."""
    head, first, second = act
    kind, more = head & 15, head >> 16
    has = (head >> 4 & 1, head >> 5 & 1)
    if head >> 6 & 0x3FF or kind not in range(1, 11):
        return False
    if kind in (PUSH_ETHER, PUSH_IP):
        sizes, most = ((48, 48), 16) if kind == PUSH_ETHER else ((32, 32), 8)
        return has == (1, 1) and are_below((first, second, more), *sizes, most)
    if kind == PUSH_VXLAN:
        return has == (0, 0) and are_below((first, second, more), 0, 0, 24)
    if kind in (POP, IGNORE):
        return head == kind and first == second == 0
    if more:
        return False
    if kind in (SET_SOURCE6, SET_DESTINATION6):
        return has == ((1, 0) if kind == SET_SOURCE6 else (0, 1))
    size = {SET_ETHER: 48, SET_IP: 32, SET_PORTS: 16}[kind]
    return are_below((first, second), size * has[0], size * has[1])


def joined(acts: list[Act]) -> list[Act]:
    """The acts by headers: a change of the source of IPv6 and one of the destination directly behind it are one."""
    made: list[Act] = []
    last = 0
    for act in acts:
        if act[0] & 15 == SET_DESTINATION6 and last == SET_SOURCE6:
            last = 0
            continue
        made.append(act)
        last = act[0] & 15
    return made


def fit(acts: list[Act], headers: list[str]) -> bool:
    """Whether acts have the order of a row's, and each header its act: pops, then whole encapsulations that are pushed, then what is done at headers that stay."""
    kinds = [act[0] & 15 for act in acts]
    pops = kinds.count(POP)
    pushes = sum(kind <= PUSH_VXLAN for kind in kinds)
    rest = acts[pops + pushes:]
    if kinds[:pops] != [POP] * pops or kinds[pops:pops + pushes] != [PUSH_ETHER, PUSH_IP, PUSH_VXLAN] * (pushes // 3) or pops % 3 or pushes % 3:
        return False
    if any(act[0] >> 16 != IPV4 for act in acts if act[0] & 15 == PUSH_ETHER) or any(act[0] >> 16 != UDP for act in acts if act[0] & 15 == PUSH_IP):
        return False
    outer = headers.count("vxlan") * 3
    if pops > outer or pops + len(rest) != len(headers) or (outer - pops + pushes) // 3 > 2:
        return False
    return all(act[0] & 15 == IGNORE or pops + place >= outer and CHANGES[act[0] & 15] == headers[pops + place] for place, act in enumerate(rest))


def is_row(words: Sequence[int]) -> bool:
    """Whether 73 words say a row whose acts fit its headers."""
    headers = headers_of(words[:16])
    verdict, count, rest = words[16], words[18], words[19:]
    if headers is None or verdict > 3:
        return False
    if verdict:
        return count == 0 and not any(rest[1:]) and (verdict == 1 or rest[0] >> 32 == 0)
    if count > 18 or any(rest[3 * count:]):
        return False
    acts = [(rest[3 * place], rest[3 * place + 1], rest[3 * place + 2]) for place in range(count)]
    return all(map(is_act, acts)) and fit(joined(acts), headers)


class Fault(Exception):
    """The first part that is at fault: its cause, and the byte at which it begins, but for NotRows."""

    def __init__(self, cause: str, at: Optional[int] = None) -> None:
        super().__init__(cause if at is None else f"{cause} {at}")


class Parts:
    """Takes parts of a file from its front."""

    def __init__(self, data: bytes) -> None:
        self.data, self.at = data, len(HEAD)

    def take(self, size: int) -> tuple[int, bytes]:
        at = self.at
        if at + size > len(self.data):
            raise Fault("Cut", at)
        self.at += size
        return at, self.data[at:at + size]

    def number(self) -> tuple[int, int]:
        at, part = self.take(4)
        return at, int(struct.unpack("<I", part)[0])


def judge_port(parts: Parts, numbers: set[int], macs: set[bytes]) -> None:
    at, port = parts.number()
    if port in numbers:
        raise Fault("PortTwice", at)
    numbers.add(port)
    at, mac = parts.take(6)
    if mac in macs:
        raise Fault("PortTwice", at)
    macs.add(mac)
    parts.number()
    at, count = parts.number()
    if count > MOST_ROWS:
        raise Fault("ManyRows", at)
    last: Optional[tuple[int, ...]] = None
    for _ in range(count):
        at, part = parts.take(ROW_BYTES)
        words = struct.unpack(f"<{ROW_WORDS}Q", part)
        if not is_row(words):
            raise Fault("BadRow", at)
        if last is not None and not last < words[:16]:
            raise Fault("Order", at)
        last = words[:16]


def fault_of(data: bytes) -> Optional[str]:
    """The cause for which bytes are no rows file, with its byte, or None."""
    try:
        if data[:len(HEAD)] != HEAD:
            raise Fault("NotRows")
        parts = Parts(data)
        at, count = parts.number()
        if count > MOST_PORTS:
            raise Fault("ManyPorts", at)
        numbers: set[int] = set()
        macs: set[bytes] = set()
        for _ in range(count):
            judge_port(parts, numbers, macs)
        if parts.at < len(data):
            raise Fault("Extra", parts.at)
    except Fault as why:
        return str(why)
    return None
