#!/usr/bin/env python3
"""Compares the summaries of `vsw generate` with those that a plain program works out.

    tools/generated_runs.py [START PACKETS]...

The workload and its policy are written here once more, from docs/FORMATS.md; what becomes of its packets is worked out
by tools/plain_switch.py. Without words eight runs are compared, of 1 to 20,000 packets. Exits with 1 where one differs.
"""
import json
import os
import subprocess
import sys

from packets import VXLAN_PORT, ether, ipv4, udp, vxlan, write_capture
from plain_switch import Packet, flow_sum, report
from vswlib.reports import parse_report

TOP = os.path.dirname(os.path.dirname(os.path.abspath(__file__)))
HERE, SERVER = "02:00:00:00:00:01", "02:00:00:00:00:99"
NEAR, FAR = ("02:00:00:00:0a:01", "172.16.0.1"), ("02:00:00:00:0a:02", "172.16.0.2")
RUNS = [(1, 1), (1, 2), (7, 3), (0, 1_023), (0, 1_024), (0, 1_025), (2_147_483_647, 3_000), (1, 20_000)]


def draws(state):
    while True:
        state = (state * 1_103_515_245 + 12_345) % 2**31
        yield state // 65_536


def query(flow, size):
    """A query of a flow, and its answer in network 5001."""
    client, server, port, payload = "10.0.0.5", f"10.0.{flow % 4}.9", 10_000 + flow, b"a" * size
    asked = ether(SERVER, HERE, 0x0800, ipv4(client, server, 17, udp(client, server, port, 53, payload, False)))
    inner = ether(HERE, SERVER, 0x0800, ipv4(server, client, 17, udp(server, client, 53, port, payload, False)))
    source = 49_152 + flow_sum(Packet(inner).fields) % 16_384
    tunnel = udp(FAR[1], NEAR[1], source, VXLAN_PORT, vxlan(5001, inner), False)
    return asked, ether(NEAR[0], FAR[0], 0x0800, ipv4(FAR[1], NEAR[1], 17, tunnel))


def workload(start, packets):
    numbers = draws(start)
    for place in range(packets):
        flow, kind, size = next(numbers) % 256, next(numbers) % 4, next(numbers) % 64
        data = query(flow, size)[kind == 3]
        yield place * 1_000, data, len(data)


def rule(number, priority, when, action, stateful=False):
    return {"rule": number, "priority": priority, "when": when, "action": action, "stateful": stateful, "last": False}


def layer(controller, number, order, groups):
    groups = [{"group": place, "dir": way, "when": [], "rules": rules} for place, (way, rules) in enumerate(groups, 1)]
    rest = {"default_out": "drop", "default_in": "drop", "pairs": 1_000, "idle": 240, "linger": 10, "groups": groups}
    return {"controller": controller, "layer": number, "order": order, **rest}


def policy():
    to = lambda prefix: [{"field": "dst_ip", "any": [prefix]}]
    pushed = {"dst_mac": FAR[0], "src_mac": NEAR[0], "src_ip": NEAR[1], "dst_ip": FAR[1], "vni": 5001}
    first = [rule(1, 10, to("10.0.3.0/24"), "drop"), rule(2, 20, [], "allow", True)]
    out = [rule(1, 10, to("10.0.0.0/16"), {"decap": False, "set": {}, "encap": pushed})]
    back = [rule(1, 10, [{"field": "vni", "any": [5001]}], {"decap": True, "set": {}, "encap": None})]
    layers = [layer(1, 10, 1, [("out", first)]), layer(2, 30, 3, [("out", out), ("in", back)])]
    port = {"port": 1, "mac": HERE, "rows": 1_024, "layers": layers}
    return json.dumps({"version": 1, "controllers": [1, 2], "ports": [port]})


def wanted(start, packets):
    text = report(policy(), write_capture(list(workload(start, packets))))
    sent = [told.fate.sent for told in parse_report("report", text.encode()).packets().values()]
    passed = [data for data in sent if data is not None]
    events = int([line for line in text.splitlines() if line.startswith("port ")][-1].split()[3])
    counts = packets, len(passed), len(sent) - len(passed), events, sum(map(len, passed))
    names = "packets", "pass", "drop", "events", "bytes"
    return "".join(f"{name} {count}\n" for name, count in zip(names, counts))


def main():
    words = list(map(int, sys.argv[1:]))
    runs = list(zip(words[::2], words[1::2])) or RUNS
    differ = 0
    for start, packets in runs:
        done = subprocess.run([os.path.join(TOP, "vsw"), "generate", str(start), str(packets)], capture_output=True, check=True)
        if done.stdout.decode() != wanted(start, packets):
            differ += 1
            print(f"generate {start} {packets}:\n{done.stdout.decode()}and not\n{wanted(start, packets)}")
    print(f"{len(runs) - differ} of {len(runs)} summaries agree")
    sys.exit(1 if differ else 0)


main()
