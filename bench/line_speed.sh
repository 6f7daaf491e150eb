#!/bin/sh
# Instructions of a line of the report, counted by callgrind: a packet of 361 bytes that passes, and one that a rule drops, each told to a
# caller whose room is long enough; and of merging the lines of a round, a line.
#
#   bench/line_speed.sh [CPU]
#
# Each count is the difference of 30 and 10 rounds of 100 lines, over 2,000 lines. With LLVM at level 2, for x86-64-v2 or CPU.
set -eu
cpu=${1:-x86-64-v2}
root=$(cd "$(dirname "$0")/.." && pwd)
work=$(mktemp -d)
trap 'rm -rf "$work"' EXIT

mkdir -p "$work/repo/crates"
for name in vsw_base vsw_transpose vsw_rule vsw_index vsw_classify vsw_layerflow vsw_policy vsw_report; do
    cp -r "$root/crates/$name" "$work/repo/crates"
done
cd "$work/repo"
git init -q .
touch crates.txt
rt new crates/line_speed start_io > /dev/null
rm -rf BUILD.bazel crates/line_speed/BUILD.bazel crates/line_speed/src/*
mkdir -p crates/line_speed/proofs crates/line_speed/specs
: > crates/line_speed/specs/Lib.antt
: > crates/line_speed/proofs/Lib.antt
grep -E '^vsw_(base|transpose|rule|index|classify|layerflow|policy|report):' "$root/crates.txt" > crates.txt
echo 'line_speed: vsw_base vsw_report' >> crates.txt
cd crates/line_speed
cat > src/main.rt << 'END'
//! Tells and merges rounds of 100 lines. The lengths of the words: bytes of a packet (fewer than 20: a rule drops it), rounds, and the case: one
//! worker that reads, one that enters, eight callers of which one reads, or enters.
#![tactic(auto)]

use std::alloc::{AllocError, Global};
use std::{env, io};
use vsw_base::{Cause, Fate};
use vsw_report::{Caller, merge};

#[inline(never)]
fn tell(caller: &mut Caller, item: u32, entry: bool, count: u32, bytes: &[u8]) -> bool {
    let fate = if bytes.len() < 20 {
        Fate::Drop(Cause::Rule {
            controller: 1,
            layer: 10,
            group: 2,
            rule: 5,
        })
    } else {
        Fate::Pass { len: 361 }
    };
    caller
        .tell_packet(0, 1_000 + item % 100, entry, count, &fate, bytes)
        .is_ok()
}

#[inline(never)]
fn gather(workers: &mut [Caller], after: u32, out: &mut Vec<u8>) -> bool {
    merge(workers, &mut [], 0, after, out).is_ok()
}

fn round(workers: &mut [Caller], entries: bool, bytes: &[u8], out: &mut Vec<u8>) -> usize {
    for item in 0..100u32 {
        if let Some(caller) = workers.get_mut(0) {
            let count = if entries { item } else { 0 };
            let _ = tell(caller, item, entries, count, bytes);
        }
    }
    out.clear();
    let _ = gather(workers, if entries { 100 } else { 0 }, out);
    out.len()
}

fn callers(alloc: Global) -> [Caller; 8] {
    [
        Caller::new(alloc),
        Caller::new(alloc),
        Caller::new(alloc),
        Caller::new(alloc),
        Caller::new(alloc),
        Caller::new(alloc),
        Caller::new(alloc),
        Caller::new(alloc),
    ]
}

fn run(alloc: Global, len: usize, rounds: u32, case: usize) -> Result<usize, AllocError> {
    let mut one = [Caller::new(alloc)];
    let mut eight = callers(alloc);
    let bytes = vec![in alloc; 0xa5; len]?;
    let mut out = Vec::with_capacity(alloc, 1_000_000)?;
    let mut size = 0usize;
    for _ in 0..rounds {
        size ^= if case < 3 {
            round(&mut one, case == 2, &bytes, &mut out)
        } else {
            round(&mut eight, case == 4, &bytes, &mut out)
        };
    }
    Ok(size)
}

fn main(rt: HostRuntime) -> io::Result<()> {
    let mut len = 0usize;
    let mut rounds = 0u32;
    let mut case = 0usize;
    for word in env::args(&rt)?.into_iter().skip(1) {
        let size = word.as_str().len();
        if len == 0 {
            len = size;
        } else if rounds == 0 {
            rounds = (size % 100) as u32;
        } else {
            case = size;
        }
    }
    match run(rt.alloc(), len, rounds, case) {
        Ok(size) => println!(rt; "{size}"),
        Err(_) => println!(rt; "no memory"),
    }
}
END
rt run --cpu "$cpu" > "$work/said" 2> "$work/log" || { cat "$work/said" "$work/log"; exit 1; }
word() { printf "%$1s" '' | tr ' ' x; }
count() {
    valgrind --tool=callgrind --callgrind-out-file=/dev/null --toggle-collect="line_speed::$1" out/line_speed "$(word "$2")" "$(word "$3")" "$(word "$4")" 2>&1 > /dev/null |
        sed -n 's/.*Collected : *//p'
}
while read -r function bytes case name; do
    few=$(count "$function" "$bytes" 10 "$case")
    many=$(count "$function" "$bytes" 30 "$case")
    printf '%-44s %5d\n' "$name" $(((many - few) / 2000))
done << 'END'
tell 361 1 a pass of 361 bytes, told
tell 10 1 a drop by a rule, told
gather 10 1 a read merged, one caller
gather 10 2 an entry merged, one caller
gather 10 4 an entry merged, eight callers
END
