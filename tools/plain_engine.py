#!/usr/bin/env python3
"""What rows answer a trace, once more, in plain Python.

    tools/plain_engine.py ROWS TRACE

Prints what `vsw engine ROWS TRACE` puts for a rows file and a sound capture. Written from docs/FORMATS.md, apart from the switch's code and
definitions; frames are read and written by tools/plain_switch.py. It isn't proved.
"""
import sys

from packets import read_capture
from plain_switch import Packet, met, sent
from vswlib.rowsfiles import NO_END, parse_rows

HEAD = "vsw engine 1"
ENCAP_HEADERS = 3


def key_of(packet, way):
    """The sixteen words by which a packet's row is known."""
    fields, encaps = packet.fields, packet.encaps
    words = [0] * 16
    kinds = ("src_ip" in fields, "src_port" in fields, bool(fields.get("part")), "src_ip6" in fields)
    words[0] = (1 | (way == "in") << 1 | len(encaps) << 2 | sum(is_there << 4 + place for place, is_there in enumerate(kinds)) | fields.get("proto", 0) << 8
                | fields["kind"] << 16 | fields.get("src_port", 0) << 32 | fields.get("dst_port", 0) << 48)
    for place, encap in enumerate(encaps):
        words[1] |= encap["vni"] << 24 * place
    for place, level in enumerate([*encaps, fields]):
        words[2 + 2 * place:4 + 2 * place] = [level["dst_mac"], level["src_mac"]]
        if "src_ip" in level:
            words[8 + place] = level["src_ip"] << 32 | level["dst_ip"]
    if "src_ip6" in fields:
        for place, name in ((11, "src_ip6"), (13, "dst_ip6")):
            words[place:place + 2] = [fields[name] >> 64, fields[name] & 2**64 - 1]
    return tuple(words)


def acts_of(row):
    """The acts of a row that passes: kind, its two bits, what stands from bit 16 on, and the fields."""
    acts = [row[19 + 3 * place:22 + 3 * place] for place in range(row[18])]
    return [(head & 15, head >> 4 & 1, head >> 5 & 1, head >> 16, first, second) for head, first, second in acts]


CHANGES = {5: ("dst_mac", "src_mac"), 6: ("src_ip", "dst_ip"), 7: ("src_port", "dst_port")}


def apply(packet, row):
    """Does what a row says to a packet's headers, which are passed one by one, outermost first."""
    pushed, popped, fields = [], 0, dict(packet.fields)
    for kind, has_first, has_second, more, first, second in acts_of(row):
        if kind == 1:
            pushed.append({"dst_mac": first, "src_mac": second})
        elif kind == 2:
            pushed[-1].update(src_ip=first, dst_ip=second)
        elif kind == 3:
            pushed[-1].update(vni=more)
        elif kind == 4:
            popped += 1
        elif kind in CHANGES:
            fields.update({name: value for name, value, is_there in zip(CHANGES[kind], (first, second), (has_first, has_second)) if is_there})
        elif kind in (9, 10):
            fields["src_ip6" if kind == 9 else "dst_ip6"] = first << 64 | second
    packet.pushed, packet.fields = pushed, fields
    packet.kept = len(packet.encaps) - popped // ENCAP_HEADERS


def is_long(packet):
    length = packet.sizes[len(packet.encaps) - packet.kept]
    return bool(packet.pushed) and length + 36 + 50 * (len(packet.pushed) - 1) > 65_535


def fate(packet, row):
    """What a row makes of a packet."""
    if row[16] == 0:
        apply(packet, row)
        if is_long(packet):
            return "drop long"
        data = sent(packet)
        return f"pass {len(data)} {data.hex()}"
    controller, layer, group, rule = (row[19] >> 16 * place & 0xFFFF for place in range(4))
    if row[16] == 1:
        return f"drop rule {controller}/{layer}/{group}/{rule}"
    return f"drop default {controller}/{layer} {'out' if row[16] == 2 else 'in'}"


def line(macs, place, record):
    """The line of a packet."""
    found = met(macs, record)
    if isinstance(found, str):
        return f"{place} {found}"
    port, way, packet = found
    row = None if packet.control else port["rows"].get(key_of(packet, way))
    if row is None or row[17] != NO_END and row[17] < record[0]:
        return f"{place} {port['port']} none"
    return f"{place} {port['port']} {fate(packet, row)}"


def answers(rows, trace):
    """All that is put for a rows file and a sound capture."""
    ports = [{"port": port.port, "mac": int(port.mac.replace(":", ""), 16), "rows": {row[:16]: row for row in port.rows}} for port in parse_rows("rows", rows)]
    macs = {port["mac"]: port for port in ports}
    lines = [HEAD, *(line(macs, place, record) for place, record in enumerate(read_capture(trace)))]
    return "".join(one + "\n" for one in lines)


if __name__ == "__main__":
    if len(sys.argv) != 3:
        sys.exit(__doc__)
    with open(sys.argv[1], "rb") as rows_file, open(sys.argv[2], "rb") as trace_file:
        sys.stdout.write(answers(rows_file.read(), trace_file.read()))
