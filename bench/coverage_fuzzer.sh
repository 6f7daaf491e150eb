#!/bin/sh
# Fuzzes the program, built without a proof, led by coverage: AFL++ (Debian: afl++) changes the policy, the commands or the trace of examples.
#
#   bench/coverage_fuzzer.sh [SECONDS] [WORKERS]
#
# The program's bitcode is compiled by the kit's clang with -fsanitize-coverage=trace-pc-guard and linked with AFL++'s own runtime; nothing of it is
# changed else, so a call that breaks a `requires` still stops it. Each of the three files is changed for SECONDS (300 if not given), one after another,
# beside the others of one policy with pairs, edits and encapsulations, by WORKERS workers (1 if not given). Prints the runs, the places that were
# found, and the crashes and hangs (a run of more than two seconds), and ends with 1 where there was one. Status 9, want of memory, counts as a crash.
set -eu
root=$(cd "$(dirname "$0")/.." && pwd)
seconds=${1:-300}
workers=${2:-1}
kit=$(dirname "$(rt doc | head -n 1)")
work=${KEEP:-$(mktemp -d)}
[ -n "${KEEP-}" ] || trap 'rm -rf "$work"' EXIT

if [ ! -x "$work/program" ]; then
    "$root/tools/build_unproved" --bitcode "$work/module.bc"
    "$kit/toolchain/bin/clang" -O0 -Xclang -disable-llvm-passes -S -emit-llvm "$work/module.bc" -o "$work/module.ll"
    sed 's/ sanitize_address//' "$work/module.ll" > "$work/covered.ll"
    "$kit/toolchain/bin/clang" -O1 -fsanitize-coverage=trace-pc-guard -c "$work/covered.ll" -o "$work/covered.o"
    cc -o "$work/program" "$work/covered.o" /usr/lib/afl/afl-compiler-rt-64.o "$kit/c/libos_c.a" "$kit/c/liblibc_c.a" -lpthread -lm -ldl
fi

# Small examples: what they are changed beside is read, opened and run again each time.
for file in policy.json commands.jsonl trace.pcap; do
    mkdir -p "$work/seeds/$file"
    for name in 3-translation 4-vxlan 5-groups 7-commands 10-ipv6 11-roll-out; do
        [ ! -s "$root/examples/$name/$file" ] || cp "$root/examples/$name/$file" "$work/seeds/$file/$name"
    done
done
beside=$root/examples/7-commands

export AFL_NO_UI=1 AFL_SKIP_CPUFREQ=1 AFL_I_DONT_CARE_ABOUT_MISSING_CRASHES=1 AFL_NO_AFFINITY=1 AFL_CRASH_EXITCODE=9 AFL_FORKSRV_INIT_TMOUT=20000
found=0
for file in policy.json commands.jsonl trace.pcap; do
    policy=$beside/policy.json commands=$beside/commands.jsonl trace=$beside/trace.pcap
    case $file in
        policy.json) policy=@@ ;;
        commands.jsonl) commands=@@ ;;
        *) trace=@@ ;;
    esac
    rm -rf "$work/$file"
    afl-fuzz -V "$seconds" -t 2000 -m none -i "$work/seeds/$file" -o "$work/$file" -- \
        "$work/program" forward --workers "$workers" "$policy" "$commands" "$trace" > "$work/$file.log" 2>&1 || { tail -n 20 "$work/$file.log" >&2; exit 1; }
    stats=$work/$file/default/fuzzer_stats
    told() { sed -n "s/^$1 *: //p" "$stats"; }
    echo "$file: $(told execs_done) runs, $(told corpus_count) kept as they found something new, $(told edges_found) of $(told total_edges) edges, crashes $(told saved_crashes), hangs $(told saved_hangs)"
    [ "$(told saved_crashes)$(told saved_hangs)" = 00 ] || found=1
done
exit "$found"
