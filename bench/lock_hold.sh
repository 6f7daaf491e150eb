#!/bin/sh
# Instructions that a port's lock is held for, counted by callgrind in a run of two workers: for the first packet of a flow, which makes
# two pairs and leaves a row; for a packet that moves the last use of both pairs; and for a command that puts 1,024 rules.
#
#   bench/lock_hold.sh [PROGRAM]
#
# Prints what the core's calls take for one such packet or command, with all that they call; what the compiler puts inline around them
# isn't counted. PROGRAM is the proved one if it isn't given.
set -eu
root=$(cd "$(dirname "$0")/.." && pwd)
work=$(mktemp -d)
trap 'rm -rf "$work"' EXIT
program=${1:-$root/crates/vsw/out/vsw}
[ -n "${1:-}" ] || "$root/vsw" forward "$root/examples/first/policy.json" "$root/examples/first/commands.jsonl" "$root/examples/first/trace.pcap" > /dev/null

ROOT=$root PROGRAM=$program WORK=$work python3 - << 'END'
import json, os, re, subprocess, sys
root, program, work = os.environ["ROOT"], os.environ["PROGRAM"], os.environ["WORK"]
sys.path.insert(0, f"{root}/tools")
from packets import ether, ipv4, udp, write_capture

FLOWS, HALF_A_DAY_AND_MORE = 1_000, 50_000_000_000


def rule(number, when, action, stateful=False):
    conditions = [{"field": field, "any": [item]} for field, item in when.items()]
    return {"rule": number, "priority": number, "when": conditions, "action": action, "stateful": stateful, "last": False}


def layer(controller, rules):
    return {"controller": controller, "layer": 10, "order": controller, "default_out": "drop", "default_in": "drop", "pairs": 65536,
            "idle": 86400, "linger": 86400, "groups": [{"group": 1, "dir": "out", "when": [], "rules": rules}]}


def record(moment, flow):
    source, destination = "10.0.0.5", f"20.{flow >> 8}.{flow & 255}.9"
    frame = ether("02:00:00:00:00:99", "02:00:00:00:00:01", 0x0800,
                  ipv4(source, destination, 17, udp(source, destination, 1234, 53, b"hi" * 20)))
    return moment, frame, len(frame)


def put(name, data):
    with open(f"{work}/{name}", "wb") as file:
        file.write(data)


drops = [rule(1 + i, {"proto": 6, "dst_ip": f"10.{1 + i}.0.0/16", "dst_port": 1000 + i}, "drop") for i in range(39)]
tunnel = {"dst_mac": "02:00:00:00:0a:02", "src_mac": "02:00:00:00:0a:01", "src_ip": "172.16.0.1", "dst_ip": "172.16.0.2", "vni": 5001}
layers = [layer(1, [*drops, rule(40, {}, "allow", True)]),
          layer(2, [rule(1, {}, {"decap": False, "set": {"src_ip": "192.0.2.7"}, "encap": None}, True)]),
          layer(3, [rule(1, {}, {"decap": False, "set": {}, "encap": tunnel})])]
port = {"port": 1, "mac": "02:00:00:00:00:01", "rows": 16384, "layers": layers}
put("policy", json.dumps({"version": 1, "controllers": [1, 2, 3], "ports": [port]}).encode())
many = [rule(1 + i, {"dst_ip": f"10.{i >> 8}.{i & 255}.0/24"}, "drop") for i in range(1_024)]
put("none", b"")
put("command", json.dumps({"at": 0, "when": "during", "controller": 1, "port": 1, "do": "put_rules", "layer": 10, "group": 1, "rules": many}).encode() + b"\n")
firsts = [record(1_000 + flow, flow) for flow in range(FLOWS)]
put("firsts", write_capture(firsts))
put("again", write_capture(firsts + [record(HALF_A_DAY_AND_MORE + flow, flow) for flow in range(FLOWS)]))


def spent(names, commands, trace):
    """Instructions of the calls of these names from outside the port's core, with what they call."""
    counts = f"{work}/counts"
    words = ["valgrind", "--tool=callgrind", f"--callgrind-out-file={counts}", program, "forward", "--workers", "2",
             *(f"{work}/{name}" for name in ("policy", commands, trace))]
    subprocess.run(words, stdout=subprocess.DEVNULL, stderr=subprocess.DEVNULL, check=True)
    words = ["callgrind_annotate", "--tree=caller", "--inclusive=yes", "--threshold=100", counts]
    table = subprocess.run(words, capture_output=True, text=True, check=True).stdout
    total, callers = 0, []
    for cost, mark, name in re.findall(r"(?m)^ *([\d,]+) \([ \d.]+%\)  ([<*])  ?\S*?:(\S+)", table):
        if mark == "<":
            callers.append((int(cost.replace(",", "")), name))
            continue
        if re.search(rf"vsw_core::\w+::({names})$", name):
            total += sum(cost for cost, caller in callers if "vsw_core::" not in caller)
        callers = []
    if total == 0:
        sys.exit(f"no calls of {names} found: does the program have its symbols?")
    return total


PACKET = "Core::slow|enter|walk_now|leave"
first = spent(PACKET, "none", "firsts")
print("first packet of a flow, two pairs:", round(first / FLOWS))
print("packet that moves two last uses:", round((spent(PACKET, "none", "again") - first) / FLOWS))
print("command of 1,024 rules:", spent("Core::command", "command", "firsts"))
END
