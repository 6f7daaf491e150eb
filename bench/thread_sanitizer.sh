#!/bin/sh
# Looks for races between the threads of runs with 2, 4, 8 and 16 workers, by ThreadSanitizer over the program built without a proof.
#
#   bench/thread_sanitizer.sh [--control] [PACKETS]
#
# The program's bitcode asks for the address sanitizer; here it asks for the thread sanitizer instead, is compiled by the kit's clang
# and linked with gcc's runtime (Debian: libtsan2, of gcc). Under three layers with pairs and edits run PACKETS packets of 10,000 flows
# (20,000 if not given), a third of them over IPv6, with a command before or beside each 1,000th. Prints how many warnings each run had,
# and ends with 1 if there was one. With --control all atomic steps but fences are made relaxed first: then there have to be
# warnings, else nothing was looked at.
set -eu
root=$(cd "$(dirname "$0")/.." && pwd)
control=
[ "${1-}" != --control ] || { control=1; shift; }
packets=${1:-20000}
kit=$(dirname "$(rt doc | head -n 1)")
work=$(mktemp -d)
trap 'rm -rf "$work"' EXIT

"$root/tools/build_unproved" --bitcode "$work/module.bc"
"$kit/toolchain/bin/clang" -O0 -Xclang -disable-llvm-passes -S -emit-llvm "$work/module.bc" -o "$work/module.ll"
sed 's/ sanitize_address/ sanitize_thread/' "$work/module.ll" > "$work/threads.ll"
[ -z "$control" ] || sed -i '/fence/!s/ seq_cst/ monotonic/g' "$work/threads.ll"
"$kit/toolchain/bin/clang" -O1 -fsanitize=thread -c "$work/threads.ll" -o "$work/threads.o"
# What this clang calls, and gcc's runtime lacks; its own memset and so on tell what they read and write.
cat > "$work/shims.c" << 'END'
#include <string.h>
void *__tsan_memset(void *to, int byte, size_t size) { return memset(to, byte, size); }
void *__tsan_memcpy(void *to, const void *from, size_t size) { return memcpy(to, from, size); }
void *__tsan_memmove(void *to, const void *from, size_t size) { return memmove(to, from, size); }
END
cc -O1 -fno-builtin -c "$work/shims.c" -o "$work/shims.o"
cc -fsanitize=thread -o "$work/program" "$work/threads.o" "$work/shims.o" "$kit/c/libos_c.a" "$kit/c/liblibc_c.a" -lpthread -lm

cc -O2 -o "$work/make_trace" "$root/bench/make_trace.c"
"$work/make_trace" -n "$packets" -6 33 "$work/trace.pcap" > "$work/made" 2>&1
WORK=$work PACKETS=$packets python3 - << 'END'
import json, os
work, packets = os.environ["WORK"], int(os.environ["PACKETS"])
def rule(action, stateful):
    return {"rule": 1, "priority": 10, "when": [], "action": action, "stateful": stateful, "last": False}
def layer(number, action, stateful):
    groups = [{"group": 1, "dir": "out", "when": [], "rules": [rule(action, stateful)]}]
    return {"controller": number, "layer": number, "order": number, "default_out": "drop", "default_in": "drop", "pairs": 65536,
            "idle": 86400, "linger": 86400, "groups": groups}
def edit(change, encap):
    return {"decap": False, "set": change, "encap": encap}
outer = {"dst_mac": "02:00:00:00:0a:02", "src_mac": "02:00:00:00:0a:01", "src_ip": "172.16.0.1", "dst_ip": "172.16.0.2", "vni": 5001}
layers = [layer(1, "allow", True), layer(2, edit({"src_ip": "192.0.2.7"}, None), True), layer(3, edit({}, outer), False)]
port = {"port": 1, "mac": "02:00:00:00:00:01", "rows": 16384, "layers": layers}
with open(f"{work}/policy.json", "w") as file:
    json.dump({"version": 1, "controllers": [1, 2, 3], "ports": [port]}, file)
with open(f"{work}/commands.jsonl", "w") as file:
    for number, at in enumerate(range(1000, packets, 1000)):
        command = {"at": at, "when": ["before", "during"][number % 2], "controller": 1, "port": 1, "do": "set_default", "layer": 1,
                   "dir": "in", "default": ["allow", "drop"][number // 2 % 2]}
        file.write(json.dumps(command) + "\n")
END

found=0
for workers in 2 4 8 16; do
    "$work/program" forward --workers="$workers" "$work/policy.json" "$work/commands.jsonl" "$work/trace.pcap" > "$work/report" 2> "$work/said" || true
    warnings=$(grep -c 'WARNING: ThreadSanitizer' "$work/said" || true)
    echo "$workers workers: $(wc -l < "$work/report") lines of report, $warnings warnings"
    [ "$warnings" = 0 ] || found=1
    [ -s "$work/report" ] || { cat "$work/said"; exit 2; }
done
exit $found
