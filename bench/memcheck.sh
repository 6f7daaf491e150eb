#!/bin/sh
# Runs the examples by one worker and by four under valgrind's memcheck (Debian: valgrind), and compares their statuses and one worker's reports.
#
#   bench/memcheck.sh PROGRAM
#
# Prints the runs that read or write what isn't theirs, hang on a value that was never set, or leave memory behind; ends with 1 where there is one.
# valgrind's helgrind and drd tell nothing here: they know no lock that is made of atomic steps, and call all that is done under it a race
# (1,000 different warnings each over examples/flows by four workers). bench/thread_sanitizer.sh knows such locks.
set -u
root=$(cd "$(dirname "$0")/.." && pwd)
program=${1:?usage: bench/memcheck.sh PROGRAM}
work=$(mktemp -d)
trap 'rm -rf "$work"' EXIT
runs=0 wrong=0

# Runs under memcheck, and compares the status with one that is wanted.
check() {
    wanted=$1
    shift
    valgrind -q --error-exitcode=99 --leak-check=full --errors-for-leak-kinds=all --log-file="$work/log" "$program" "$@" > "$work/put" 2> "$work/said"
    status=$?
    runs=$((runs + 1))
    if [ "$status" != "$wanted" ] || [ -s "$work/log" ]; then
        wrong=$((wrong + 1))
        echo "status $status, and not $wanted: $*"
        head -n 20 "$work/log"
    fi
}

for example in "$root"/examples/*/; do
    [ -f "$example/report.txt" ] || continue
    check 0 forward "$example/policy.json" "$example/commands.jsonl" "$example/trace.pcap"
    cmp -s "$work/put" "$example/report.txt" || { wrong=$((wrong + 1)); echo "another report: $example"; }
    check 0 forward --workers 4 "$example/policy.json" "$example/commands.jsonl" "$example/trace.pcap"
done
bad=$root/examples/8-bad-files
for policy in "$bad"/*.json; do
    [ "$policy" = "$bad/policy.json" ] || [ "$policy" = "$bad/nine-controllers.json" ] || check 5 forward "$policy" "$bad/commands.jsonl" "$bad/trace.pcap"
done
for commands in "$bad"/*.jsonl; do
    [ "$commands" = "$bad/commands.jsonl" ] || check 5 forward "$bad/policy.json" "$commands" "$bad/trace.pcap"
done
check 0 generate 1 2000
check 2 forward
check 3 forward "$work/none" "$bad/commands.jsonl" "$bad/trace.pcap"
echo "$runs runs, $wrong wrong"
[ "$wrong" = 0 ]
