"""Rows as rules of nftables, where a rule can say what a row says. A rule stands in a chain of the netdev family, at the device of the port's machine: what
leaves the machine comes in there, and what goes to it goes out."""
from __future__ import annotations

from typing import Optional, Sequence

from vswlib.rowsfiles import NO_END, PortRows, bits, ip6_text, ip_text, mac_text, until_text, verdict_text

TCP = 6
SET_ETHER, SET_IP, SET_PORTS, IGNORE, SET_SOURCE6, SET_DESTINATION6 = range(5, 11)
WHOLE = "ip frag-off & 0x3fff == 0"


def why_not(words: Sequence[int]) -> Optional[str]:
    """Why no rule can say what a row says, if none can."""
    if bits(words[0], 2, 2):
        return "its packets are encapsulated: a rule sees the outermost headers alone"
    if any(words[19 + 3 * place] & 15 < 5 for place in range(words[18])):
        return "an encapsulation is put in front: no rule writes one"
    return None


def matched(key: Sequence[int]) -> list[str]:
    """What a rule tests of a packet."""
    head = key[0]
    kind, proto = bits(head, 16, 16), bits(head, 8, 8)
    parts = [f"ether daddr {mac_text(key[2])}", f"ether saddr {mac_text(key[3])}", f"ether type 0x{kind:04x}"]
    if bits(head, 4, 1):
        parts += [f"ip saddr {ip_text(key[8] >> 32)}", f"ip daddr {ip_text(key[8])}", f"ip protocol {proto}", WHOLE.replace("==", "!=") if bits(head, 6, 1) else WHOLE]
    if bits(head, 7, 1):
        parts += [f"ip6 saddr {ip6_text(key[11], key[12])}", f"ip6 daddr {ip6_text(key[13], key[14])}", f"ip6 nexthdr {proto}"]
    if bits(head, 5, 1):
        name = "tcp" if proto == TCP else "udp"
        parts += [f"{name} sport {bits(head, 32, 16)}", f"{name} dport {bits(head, 48, 16)}"]
        # A row answers no packet that opens, closes or resets.
        parts += ["tcp flags & (fin | syn | rst) == 0x0"] if proto == TCP else []
    return parts


def written(words: Sequence[int]) -> list[str]:
    """What a rule writes into a packet."""
    name = "tcp" if bits(words[0], 8, 8) == TCP else "udp"
    parts = []
    for place in range(words[18]):
        head, first, second = words[19 + 3 * place:22 + 3 * place]
        kind, has_first, has_second = head & 15, bits(head, 4, 1), bits(head, 5, 1)
        if kind in (SET_SOURCE6, SET_DESTINATION6):
            parts.append(f"ip6 {'saddr' if kind == SET_SOURCE6 else 'daddr'} set {ip6_text(first, second)}")
        elif kind != IGNORE:
            fields, text = {SET_ETHER: (("ether daddr", "ether saddr"), mac_text), SET_IP: (("ip saddr", "ip daddr"), ip_text), SET_PORTS: ((f"{name} sport", f"{name} dport"), str)}[kind]
            parts += [f"{field} set {text(word)}" for field, word, is_there in zip(fields, (first, second), (has_first, has_second)) if is_there]
    return parts


def rule_of(words: Sequence[int]) -> str:
    """A row as a rule, or as a comment that says why there is none."""
    why = why_not(words)
    if why is not None:
        return f"# no rule: {why}"
    said = verdict_text(words) + ("" if words[17] == NO_END else f", {until_text(words[17])}")
    return " ".join([*matched(words[:16]), *(written(words) if words[16] == 0 else []), "accept" if words[16] == 0 else "drop", f'comment "{said}"'])


def chain(port: PortRows, way: str, device: str) -> list[str]:
    """The chain of a port's rows of a direction."""
    rows = [row for row in port.rows if bits(row[0], 1, 1) == (way == "in")]
    hook = "egress" if way == "in" else "ingress"
    return [f"    chain port_{port.port}_{way} {{", f'        type filter hook {hook} device "{device}" priority 0;', *(f"        {rule_of(row)}" for row in rows), "    }"]


def table(ports: Sequence[PortRows], device: str) -> list[str]:
    """The table of all ports. `{}` in the device's name stands for a port's number."""
    lines = ["table netdev vsw {"]
    for port in ports:
        for way in ("out", "in"):
            lines += chain(port, way, device.replace("{}", str(port.port)))
    return [*lines, "}"]
