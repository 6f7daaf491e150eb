#!/bin/sh
# Speed of the program: a capture of UDP and TCP mixed, forwarded under a policy that allows all.
#
#   bench/forward_speed.sh [PACKETS] [RUNS]
#
# Prints the processor time of each run in seconds, the packets per second of the quickest, and, where
# valgrind is there, instructions per packet of a capture of 20,000 packets with the dearest functions.
set -eu
packets=${1:-1000000}
runs=${2:-7}
root=$(cd "$(dirname "$0")/.." && pwd)
work=$(mktemp -d)
trap 'rm -rf "$work"' EXIT

cc -O2 -o "$work/make_trace" "$root/bench/make_trace.c"
"$work/make_trace" -n "$packets" -f 10000 "$work/trace.pcap"
: > "$work/commands.jsonl"
cat > "$work/policy.json" << 'END'
{"version": 1, "controllers": [1], "ports": [{"port": 1, "mac": "02:00:00:00:00:01", "rows": 64, "layers": [
  {"controller": 1, "layer": 10, "order": 1, "default_out": "allow", "default_in": "allow",
   "pairs": 100, "idle": 240, "linger": 10, "groups": [{"group": 1, "dir": "out", "when": [], "rules": [
     {"rule": 1, "priority": 1, "when": [], "action": "allow", "stateful": false, "last": false}]}]}]}]}
END
"$root/vsw" forward "$root/examples/first/policy.json" "$work/commands.jsonl" \
    "$root/examples/first/trace.pcap" > /dev/null
program=$root/crates/vsw/out/vsw

PROGRAM=$program WORK=$work PACKETS=$packets RUNS=$runs python3 - << 'END'
import os, resource, subprocess
work = os.environ["WORK"]
words = [os.environ["PROGRAM"], "forward", work + "/policy.json", work + "/commands.jsonl", work + "/trace.pcap"]
times = []
for _ in range(int(os.environ["RUNS"])):
    before = resource.getrusage(resource.RUSAGE_CHILDREN)
    with open("/dev/null", "wb") as nothing:
        subprocess.run(words, stdout=nothing, check=True)
    after = resource.getrusage(resource.RUSAGE_CHILDREN)
    times.append((after.ru_utime - before.ru_utime) + (after.ru_stime - before.ru_stime))
times.sort()
print("seconds", " ".join(f"{t:.2f}" for t in times))
print(f"packets per second {int(os.environ['PACKETS']) / times[0]:,.0f}")
print("peak MiB", resource.getrusage(resource.RUSAGE_CHILDREN).ru_maxrss // 1024)
END

if command -v valgrind > /dev/null; then
    "$work/make_trace" -n 20000 -f 10000 "$work/small.pcap"
    valgrind --tool=callgrind --callgrind-out-file="$work/calls" "$program" forward "$work/policy.json" \
        "$work/commands.jsonl" "$work/small.pcap" > /dev/null 2> "$work/log"
    sed -n 's/.*Collected : *//p' "$work/log" |
        awk '{ printf "instructions per packet %d\n", $1 / 20000 }'
    callgrind_annotate "$work/calls" 2> /dev/null | sed -n '/PROGRAM TOTALS/,$p' | head -24
fi
