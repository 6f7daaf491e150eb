#!/usr/bin/env python3
"""Runs the program over random policies, commands and captures, and judges its reports by a plain program.

    tools/random_runs.py [--deliver | --stream] [RUNS] [SEED] [PROGRAM]

The plain program is tools/plain_switch.py, written from docs/MODEL.md apart from the switch. Policies are of both versions, with
up to four layers of three controllers on each of two ports. Packets are ARP, UDP, TCP and ICMP over IPv4 and, a third of them, over
IPv6, among few addresses and ports; some are fragments, have extension headers, slack or a trailer, stand in VXLAN or are malformed;
and there are replies to what passed. Commands come before and beside them, and past the last. Every run is made with 1 to 8 workers.
The report of one worker is the plain program's; that of more is legal in the order that it tells (tools/legal.py). Each is legal by the program's
own `check`, too. With `--deliver` the program's `deliver` is run, in which the two ports hand packets on to each other; `check` has no say there.
With `--stream` the program's `stream` is run in place of `forward`, and judged as that. PROGRAM is ./vsw if it isn't given. Prints how often each fate and reply came, what the runs had, and the seed of a run whose report is wrong.
"""
import collections
import ipaddress
import json
import os
import random
import struct
import subprocess
import sys
import tempfile

import legal
import plain_switch
from packets import IPV4, IPV6, VXLAN_PORT, ether, icmpv6, ipv4, ipv6, ones_sum, tcp, udp, vxlan, write_capture
from vswlib.reports import PacketLine, parse_report

ROOT = os.path.dirname(os.path.dirname(os.path.abspath(__file__)))
PORT_MACS = ["02:00:00:00:00:01", "02:00:00:00:00:02"]
GATEWAY, NEAR_END, FAR_END = "02:00:00:00:00:99", "02:00:00:00:0a:01", "02:00:00:00:0a:02"
MACS = [*PORT_MACS, GATEWAY]
ADDRESSES = ["10.0.0.5", "10.0.0.6", "10.0.0.9", "9.9.9.9", "192.0.2.7"]
ADDRESSES6 = ["fd00::5", "fd00::6", "fd00:0:0:1::5", "2001:db8::7", "::"]
PORTS = [53, 80, 22, 40_000]
SETS = {"src_ip": ADDRESSES, "dst_ip": ADDRESSES, "src_port": PORTS, "dst_port": PORTS, "dst_mac": MACS, "src_mac": MACS}
SETS6 = {"src_ip6": ADDRESSES6, "dst_ip6": ADDRESSES6}
VALUES = {"src_ip": ADDRESSES, "dst_ip": ADDRESSES, "dst_mac": MACS, "proto": [6, 17, 58], "src_port": PORTS, "dst_port": PORTS,
          "kind": [0x0800, 0x0806, 0x86DD], "vni": [5_001, 5_002], "part": [0, 1]}
STEPS = [1_000, 100_000, 300_000, 1_200_000]


def spelled(draw, address):
    """A spelling of an IPv6 address (RFC 4291, section 2.2)."""
    whole = ipaddress.IPv6Address(address).exploded
    return draw.choice([address, address.upper(), whole, ":".join(f"{int(group, 16):x}" for group in whole.split(":"))])


class Drawing(random.Random):
    """Draws what a policy of one version may hold."""

    def __init__(self, seed):
        super().__init__(seed)
        self.version = self.choice([1, 2])
        self.values, self.sets = (VALUES, SETS) if self.version == 1 else ({**VALUES, **SETS6}, {**SETS, **SETS6})


def item(draw, field):
    if field.endswith("_ip6"):
        bits = draw.choice(["", "/0", "/16", "/63", "/64", "/65", "/127", "/128"])
        return spelled(draw, draw.choice(ADDRESSES6)) + bits
    if field.endswith("_ip") and draw.random() < 0.4:
        return f"{draw.choice(ADDRESSES)}/{draw.choice([0, 8, 24, 30, 32])}"
    ends = sorted(draw.choices(VALUES[field], k=2), key=lambda value: plain_switch.number(field, value))
    return ends if draw.random() < 0.3 else ends[0]


def conditions(draw, chance):
    fields = draw.choices(list(draw.values), k=draw.randint(1, 2)) if draw.random() < chance else []
    return [{"field": field, "any": [item(draw, field) for _ in range(draw.randint(0, 2) or 1)]} for field in fields]


def action(draw, is_stateful):
    kind = draw.random()
    if kind < 0.35:
        return "allow"
    if kind < 0.55 and not is_stateful:
        return "drop"
    values = {field: draw.choice(choices) for field, choices in draw.sets.items() if draw.random() < 0.25}
    values = {field: spelled(draw, value) if field in SETS6 else value for field, value in values.items()}
    encap = {"dst_mac": FAR_END, "src_mac": NEAR_END, "src_ip": "172.16.0.1", "dst_ip": "172.16.0.2", "vni": 5_001}
    encap = encap if not is_stateful and draw.random() < 0.4 else None
    decap = not is_stateful and draw.random() < 0.05
    return {"decap": decap, "set": values, "encap": encap} if values or encap or decap else "allow"


def rule(draw, number):
    is_stateful = draw.random() < 0.4
    return {"rule": number, "priority": draw.randint(1, 3), "when": conditions(draw, 0.5), "action": action(draw, is_stateful),
            "stateful": is_stateful, "last": draw.random() < 0.2}


def rules(draw):
    """How many rules a group has: few, or so many that it is asked by its index (8 or more)."""
    return draw.randint(1, 5) if draw.random() < 0.7 else draw.randint(8, 24)


def group(draw, number):
    return {"group": number, "dir": draw.choice(["in", "out"]), "when": conditions(draw, 0.3),
            "rules": [rule(draw, place + 1) for place in range(rules(draw))]}


def layer(draw, controller, number):
    defaults = {f"default_{way}": draw.choice(["allow", "allow", "drop"]) for way in ("out", "in")}
    return {"controller": controller, "layer": number, "order": draw.randint(1, 3), **defaults, "pairs": draw.choice([0, 1, 2, 100]),
            "idle": draw.choice([1, 4]), "linger": 1, "groups": [group(draw, place + 1) for place in range(draw.randint(0, 4))]}


def outermost(draw):
    """The layer that inbound packets meet first: it takes an encapsulation away, so that most later layers see plain frames."""
    decap = {"rule": 1, "priority": 1, "when": [], "action": {"decap": True, "set": {}, "encap": None}, "stateful": False, "last": False}
    bad = {**decap, "action": "drop"}
    return {"controller": 3, "layer": 1, "order": 9, "default_out": "allow", "default_in": draw.choice(["allow", "drop"]), "pairs": 0,
            "idle": 1, "linger": 1, "groups": [{"group": 1, "dir": "in", "when": [], "rules": [decap]},
                                               {"group": 2, "dir": "in", "when": [{"field": "vni", "any": [5_002]}], "rules": [bad]}]}


def policy(draw):
    ports = []
    for place, mac in enumerate(PORT_MACS):
        names = {(draw.randint(1, 2), draw.randint(1, 4)) for _ in range(draw.randint(0, 3))}
        layers = [*([outermost(draw)] if draw.random() < 0.85 else []), *(layer(draw, *name) for name in sorted(names))]
        draw.shuffle(layers)
        ports.append({"port": place + 1, "mac": mac, "rows": 64, "layers": layers})
    return {"version": draw.version, "controllers": draw.sample([1, 2, 3], 3), "ports": ports}


def part(draw, layers, own):
    """A part of a put_many of this controller, which finds what it names more often than not."""
    numbers = [number for _, controller, number in layers if controller == own] or [1]
    number = draw.choice(numbers) if draw.random() < 0.9 else draw.randint(1, 4)
    listed = [rule(draw, place + 1) for place in range(rules(draw) - 1)]
    return {"layer": number, "group": draw.choice([1, 1, 2, 2, 3, 4]), "rules": listed + listed[:draw.random() < 0.05]}


def parts(draw, layers, own):
    """The parts of a put_many. Some are too many, or have too many rules, or are of one group."""
    made = [part(draw, layers, own) for _ in range(draw.choice([0, 1, 2, 2, 3]))]
    kind = draw.random()
    if made and kind < 0.06:
        return made[:1] * draw.choice([32, 33])
    if made and kind < 0.12:
        made[-1]["rules"] = [{**rule(draw, number), "when": []} for number in range(1, draw.choice([1_025, 1_026]))]
    if kind > 0.5:
        made = list({(one["layer"], one["group"]): one for one in made}.values())
    return made


def command(draw, layers):
    """A command that finds what it names more often than not."""
    port, own, number = draw.choice(layers) if layers and draw.random() < 0.8 else (draw.randint(1, 2), draw.randint(1, 3), draw.randint(1, 4))
    named = {"layer": number, "group": draw.randint(1, 4) if draw.random() < 0.5 else 1}
    ways = {"dir": draw.choice(["in", "out"])}
    made = layer(draw, own, named["layer"])
    listed = [rule(draw, place + 1) for place in range(rules(draw) - 1)]
    more = draw.choice([
        {"do": "add_layer", **{name: made[name] for name in ("layer", "order", "default_out", "default_in", "pairs", "idle", "linger")}},
        {"do": "remove_layer", "layer": named["layer"]},
        {"do": "add_group", **named, **ways, "when_all": conditions(draw, 0.3)},
        {"do": "remove_group", **named},
        {"do": "put_rules", **named, "rules": listed + listed[:draw.random() < 0.1]},
        {"do": "put_rules", **named, "rules": listed},
        {"do": "add_rule", **named, "rule": rule(draw, draw.randint(1, 26))},
        {"do": "remove_rule", **named, "rule": draw.randint(1, draw.choice([5, 24]))},
        {"do": "set_default", "layer": named["layer"], **ways, "default": draw.choice(["allow", "drop"])},
        {"do": "sweep", "layer": named["layer"], "now": draw.randrange(60_000_000)},
        *([{"do": "put_many", "parts": parts(draw, layers, own)}] * 3 if draw.version == 2 else []),
    ])
    return {"at": draw.randint(0, 60), "when": draw.choice(["before", "during"]), "controller": own, "port": port, **more}


def commands(draw, policy):
    layers = [(port["port"], layer["controller"], layer["layer"]) for port in policy["ports"] for layer in port["layers"]]
    lines = [json.dumps(command(draw, layers)) for _ in range(draw.choice([0, 5, 30]))]
    return "".join(line + draw.choice(["\n", "\n", "\n\n", " \r\n"]) for line in lines).encode()


def fragment(draw, packet):
    """An IPv4 packet marked as a first, a middle or a last fragment (RFC 791)."""
    front = packet[:6] + struct.pack(">H", draw.choice([0x2000, 0x2010, 0x0010])) + packet[8:10] + b"\0\0" + packet[12:20]
    return front[:10] + struct.pack(">H", ones_sum(front)) + front[12:] + packet[20:]


def segment(draw, src, dst):
    """A UDP datagram or a TCP segment, and its protocol."""
    ports, payload = draw.choices(PORTS, k=2), draw.randbytes(draw.randint(0, 9))
    if draw.random() < 0.48:
        return 17, udp(src, dst, *ports, payload, draw.random() < 0.8) + bytes(draw.random() < 0.05)
    return 6, tcp(src, dst, *ports, draw.choice([0x02, 0x02, 0x12, 0x10, 0x10, 0x11, 0x04]), 1, 2, payload)


def packet4(draw):
    src, dst = draw.choices(ADDRESSES, k=2)
    made = ipv4(src, dst, 1, draw.randbytes(9)) if draw.random() < 0.05 else ipv4(src, dst, *segment(draw, src, dst))
    return fragment(draw, made) if draw.random() < 0.05 else made


def packet6(draw):
    """An IPv6 packet: some are ICMPv6, have an extension header, or are UDP to VXLAN's port, which is no VXLAN over IPv6."""
    src, dst = draw.choices(ADDRESSES6, k=2)
    kind = draw.random()
    if kind < 0.1:
        return ipv6(src, dst, 58, icmpv6(src, dst, 128, 0, draw.randbytes(8)))
    if kind < 0.2:
        proto, rest = segment(draw, src, dst)
        return ipv6(src, dst, draw.choice([0, 43, 44, 60]), bytes([proto, 0, 1, 4, 0, 0, 0, 0]) + rest)
    if kind < 0.3:
        inner = ether(draw.choice(MACS), draw.choice(MACS), IPV4, packet4(draw))
        return ipv6(src, dst, 17, udp(src, dst, 60_000, VXLAN_PORT, vxlan(5_001, inner)))
    return ipv6(src, dst, *segment(draw, src, dst))


def spoiled(draw, data):
    """A frame with a field of its lengths or versions changed, or cut off: most such bytes are no frame."""
    data = bytearray(data)
    if draw.random() < 0.4:
        del data[draw.randint(0, len(data)):]
    else:
        at = draw.choice([14, 16, 17, 18, 19, 20, 23, 38, 39, 46, 58, 59, 66])
        data[min(at, len(data) - 1)] = draw.choice([0, 4, 5, 6, 7, 0x40, 0x44, 0x60, 0x65, 17, draw.randrange(256)])
    return bytes(data)


def tunnelled(draw, inner):
    datagram = udp("172.16.0.2", "172.16.0.1", 60_000, VXLAN_PORT, vxlan(draw.choice([5_001, 5_002]), inner), draw.random() < 0.2)
    rest = ipv4("172.16.0.2", "172.16.0.1", 17, datagram + bytes(3 * (draw.random() < 0.1)))
    return ether(GATEWAY, FAR_END, IPV4, rest) + bytes(5 * (draw.random() < 0.1))


def frame(draw):
    to, came, kind = draw.choice(MACS), draw.choice(MACS), draw.random()
    if kind < 0.06:
        made = ether(to, came, 0x0806, bytes(28))
    elif kind < 0.4:
        made = ether(to, came, IPV6, packet6(draw))
    else:
        made = ether(to, came, IPV4, packet4(draw))
    made += bytes(draw.choice([0] * 9 + [4]))
    if draw.random() < 0.06:
        return spoiled(draw, made)
    for _ in range(draw.choice([0] * 16 + [1, 1, 1, 2])):
        made = tunnelled(draw, made)
    return made


def reply(sent):
    """The frame with source and destination exchanged, None where it has no ports, is a fragment or is VXLAN."""
    if sent[12:14] == b"\x86\xdd" and sent[20] in (6, 17):
        return sent[6:12] + sent[:6] + sent[12:22] + sent[38:54] + sent[22:38] + sent[56:58] + sent[54:56] + sent[58:]
    if sent[12:14] != b"\x08\0" or sent[23] not in (6, 17) or int.from_bytes(sent[20:22], "big") & 0x3FFF or sent[36:38] == b"\x12\xb5":
        return None
    return sent[6:12] + sent[:6] + sent[12:26] + sent[30:34] + sent[26:30] + sent[36:38] + sent[34:36] + sent[38:]


def drawn(seed, local=False):
    """A policy, commands, a capture and a number of workers, and the report of the plain program."""
    draw = Drawing(seed)
    made, records, moment = policy(draw), [], 0
    text, lines, workers = json.dumps(made), commands(draw, made), draw.choice([1, 1, 2, 3, 4, 8])
    often = [frame(draw) for _ in range(8)]
    # commands name packets up to 60, and a round of fewer than 256 packets starts no thread
    for _ in range(40 if workers == 1 else 400):
        moment += draw.choice(STEPS)
        data = draw.choice(often) if draw.random() < 0.6 else frame(draw)
        records.append((moment, data, len(data)))
    for _ in range(2):
        told = parse_report("report", plain_switch.report(text, write_capture(records), lines, workers, local).encode())
        sent = [line.fate.sent for line in sorted(told.packet_lines(), key=lambda line: line.packet)]
        for data in filter(None, (reply(data) for data in sent if data and draw.random() < 0.2)):
            moment += 1_000
            records.append((moment, data, len(data)))
    trace = write_capture(records)
    return (text.encode(), lines, trace, workers), plain_switch.report(text, trace, lines, workers, local)


def keep(folder, text, lines, trace):
    """Writes a policy, commands and a capture, and gives the files' names."""
    names = [os.path.join(folder, name) for name in ("policy.json", "commands.jsonl", "trace.pcap")]
    for name, data in zip(names, (text, lines, trace)):
        with open(name, "wb") as file:
            file.write(data)
    return names


def words_of(program, command, workers, names):
    return [program, command, *([f"--workers={workers}"] if workers > 1 else []), *names]


def run(program, folder, text, lines, trace, workers, command="forward"):
    words = words_of(program, command, workers, keep(folder, text, lines, trace))
    return subprocess.run(words, capture_output=True, check=True).stdout.decode()


def check(program, folder, text, lines, trace, workers, report):
    """What the program's `check` says of a report: its status, and what it puts and complains."""
    name = os.path.join(folder, "report.txt")
    with open(name, "wb") as file:
        file.write(report.encode())
    ran = subprocess.run([*words_of(program, "check", workers, keep(folder, text, lines, trace)), name], capture_output=True)
    return ran.returncode, ran.stdout, ran.stderr


def fault(files, got, wanted, local=False):
    """What is wrong with a report, None where nothing is."""
    if files[3] == 1 and got != wanted:
        return "differs from the plain program's"
    return legal.fault(*files, got, local=local) if files[3] > 1 or local else None


def became(files, got):
    """What became of each packet and command of a run, in short."""
    report = parse_report("report", got.encode())
    for told in [*report.packet_lines(), *report.loose_lines()]:
        over = " over IPv6" if told.fate.sent and told.fate.sent[12:14] == b"\x86\xdd" else ""
        if isinstance(told, PacketLine):
            yield ("+" if told.is_entry else "@") + ("" if told.fate.is_pass else "drop ") + told.fate.kind + over
        else:
            yield told.fate.kind
    lines = files[1].split(b"\n")
    for line in got.splitlines():
        if line.startswith("c"):
            _, number, _, *reply = line.split()
            many = "put_many " if b'"put_many"' in lines[int(number) - 1] else ""
            yield many + " ".join(reply)


def kinds(files, got, wanted):
    """What a run had."""
    text, lines, _, workers = files
    yield f"runs of version {json.loads(text)['version']}"
    numbers = [line.packet for line in parse_report("report", got.encode()).packet_lines()]
    yield from ["packets that were handed on"] * (len(numbers) - len(set(numbers)))
    if workers > 1:
        yield "runs of many workers"
        if b'"when": "during"' in lines:
            yield "of these with commands beside the packets"
        if b'"stateful": true' in text + lines:
            yield "of these with stateful rules"
        if got != wanted:
            yield "of these in another order than that of one thread"


def judged(program, folder, files, got, wanted, local):
    """What is wrong with the report of a run, None where nothing is."""
    why = fault(files, got, wanted, local)
    if why is None and not local:
        said = check(program, folder, *files, got)
        why = None if said == (0, b"legal\n", b"") else f"check says {said}"
    return why


def main():
    command = next((word[2:] for word in sys.argv[1:] if word in ("--deliver", "--stream")), "forward")
    words = [word for word in sys.argv[1:] if word != f"--{command}"]
    local = command == "deliver"
    runs = int(words[0]) if words else 100
    first = int(words[1]) if len(words) > 1 else 1
    program = words[2] if len(words) > 2 else os.path.join(ROOT, "vsw")
    fates, had, wrong = collections.Counter(), collections.Counter(), []
    with tempfile.TemporaryDirectory() as folder:
        for seed in range(first, first + runs):
            files, wanted = drawn(seed, local)
            got = run(program, folder, *files, command)
            why = judged(program, folder, files, got, wanted, local)
            if why is not None:
                wrong.append(seed)
                print(f"seed {seed}, {files[3]} workers: {why}")
            fates.update(became(files, got))
            had.update(kinds(files, got, wanted))
    for name, count in [*sorted(fates.items()), *had.items()]:
        print(name, count)
    print(f"{runs - len(wrong)} of {runs} runs are right; seeds that are wrong: {wrong}")
    sys.exit(1 if wrong else 0)


if __name__ == "__main__":
    main()
