#!/bin/sh
# Speed of many workers: a capture of UDP and TCP mixed, forwarded by 1, 2, 4 and 8 workers, under a policy of one layer that
# allows all and under one of three layers with rules, pairs and edits, without commands and with one beside every 1,000 packets.
#
#   bench/workers_speed.sh [PACKETS] [RUNS] [PROGRAM]
#
# Prints for each the least wall time and the least processor time of its runs, in seconds. Another program that takes the same
# words, PROGRAM, is run beside it.
set -eu
packets=${1:-1000000}
runs=${2:-5}
other=${3:-}
root=$(cd "$(dirname "$0")/.." && pwd)
work=$(mktemp -d)
trap 'rm -rf "$work"' EXIT

cc -O2 -o "$work/make_trace" "$root/bench/make_trace.c"
"$work/make_trace" -n "$packets" -f 10000 "$work/trace.pcap"
"$root/vsw" forward "$root/examples/first/policy.json" "$root/examples/first/commands.jsonl" \
    "$root/examples/first/trace.pcap" > /dev/null

PROGRAM=$root/crates/vsw/out/vsw OTHER=$other WORK=$work PACKETS=$packets RUNS=$runs python3 - << 'END'
import json, os, resource, subprocess, time
work, packets = os.environ["WORK"], int(os.environ["PACKETS"])


def rule(number, when, action, stateful=False):
    conditions = [{"field": field, "any": [item]} for field, item in when.items()]
    return {"rule": number, "priority": number, "when": conditions, "action": action, "stateful": stateful, "last": False}


def layer(controller, rules, default):
    return {"controller": controller, "layer": 10, "order": controller, "default_out": default, "default_in": default, "pairs": 65536,
            "idle": 86400, "linger": 86400, "groups": [{"group": 1, "dir": "out", "when": [], "rules": rules}]}


def edit(values, encap=None):
    return {"decap": False, "set": values, "encap": encap}


drops = [rule(1 + i, {"proto": 6, "dst_ip": f"10.{1 + i}.0.0/16", "dst_port": 1000 + i}, "drop") for i in range(39)]
tunnel = {"dst_mac": "02:00:00:00:0a:02", "src_mac": "02:00:00:00:0a:01", "src_ip": "172.16.0.1", "dst_ip": "172.16.0.2", "vni": 5001}
policies = {
    "allow": [layer(1, [], "allow")],
    "whole": [layer(1, [*drops, rule(40, {}, "allow", True)], "drop"),
              layer(2, [rule(1, {}, edit({"src_ip": "192.0.2.7"}), True)], "drop"),
              layer(3, [rule(1, {}, edit({}, tunnel))], "drop")],
}
for name, layers in policies.items():
    port = {"port": 1, "mac": "02:00:00:00:00:01", "rows": 16384, "layers": layers}
    with open(f"{work}/{name}.json", "w") as file:
        json.dump({"version": 1, "controllers": [1, 2, 3], "ports": [port]}, file)
with open(f"{work}/none.jsonl", "w"):
    pass
with open(f"{work}/each.jsonl", "w") as file:
    for at in range(0, packets, 1000):
        json.dump({"at": at, "when": "during", "controller": 1, "port": 1, "do": "set_default", "layer": 10, "dir": "in", "default": "allow" if at % 2000 else "drop"}, file)
        file.write("\n")


def best(words):
    wall, processor = [], []
    for _ in range(int(os.environ["RUNS"])):
        before, begun = resource.getrusage(resource.RUSAGE_CHILDREN), time.monotonic()
        with open("/dev/null", "wb") as nothing:
            subprocess.run(words, stdout=nothing, check=True)
        after = resource.getrusage(resource.RUSAGE_CHILDREN)
        wall.append(time.monotonic() - begun)
        processor.append(after.ru_utime + after.ru_stime - before.ru_utime - before.ru_stime)
    return f"{min(wall):6.2f} {min(processor):6.2f}"


for policy in policies:
    for commands in ("none", "each"):
        for workers in (1, 2, 4, 8):
            words = ["forward", "--workers", str(workers), f"{work}/{policy}.json", f"{work}/{commands}.jsonl", f"{work}/trace.pcap"]
            programs = [it for it in (os.environ["PROGRAM"], os.environ["OTHER"]) if it]
            print(f"{policy} commands {commands} workers {workers}:", " | ".join(best([it, *words]) for it in programs), flush=True)
END
