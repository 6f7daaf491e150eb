#!/bin/sh
# Speed of vsw_pcap: the records of a capture, read in pieces of 64 KiB into a batch of at most 1,024, beside
# two C programs on the same pieces: one that walks the records where they lie, and one that copies each
# record to memory of its own.
#
#   bench/pcap_speed.sh CAPTURE [RUNS]
#
# Prints, for each program, the count of records, the sum of their bytes and of their first bytes, and the
# times of RUNS runs in milliseconds (page cache warm), the least first.
set -eu
capture=$(realpath "$1")
runs=${2:-9}
root=$(cd "$(dirname "$0")/.." && pwd)
work=$(mktemp -d)
trap 'rm -rf "$work"' EXIT

mkdir -p "$work/repo/crates"
cp -r "$root/crates/vsw_base" "$root/crates/vsw_pcap" "$work/repo/crates"
cd "$work/repo"
git init -q .
touch crates.txt
rt new crates/pcap_speed start_io > /dev/null
rm -rf BUILD.bazel crates/pcap_speed/BUILD.bazel crates/pcap_speed/proofs crates/pcap_speed/specs crates/pcap_speed/src/*
mkdir -p crates/pcap_speed/proofs/drain crates/pcap_speed/proofs/walk crates/pcap_speed/specs
: > crates/pcap_speed/specs/Lib.antt
: > crates/pcap_speed/proofs/Lib.antt
cat > crates.txt << 'END'
vsw_base: byteorder
vsw_pcap: vsw_base byteorder
pcap_speed: vsw_base vsw_pcap
END
cat > crates/pcap_speed/src/main.rt << 'END'
//! Counts the records of a capture, read in pieces of 64 KiB.
#![tactic(auto)]

ghost use Rattle.std.specs.Prelude.{◌≡◌, ◌≤◌, length};

use std::alloc::Global;
use std::fs::File;
use std::io::Read;
use std::process::ExitCode;
use std::{env, fs, io};
use vsw_base::NoMemory;
use vsw_pcap::{Batch, Found, Reader};

#[derive(Drop)]
struct Totals {
    records: u64,
    bytes: u64,
    first: u64,
}

fn count(batch: &mut Batch, totals: &mut Totals) {
    for place in 0..batch.len() {
        let bytes = batch.at(place).bytes;
        totals.records = totals.records.wrapping_add(1);
        totals.bytes = totals.bytes.wrapping_add(bytes.len() as u64);
        if let Some(first) = bytes.first() {
            totals.first = totals.first.wrapping_add(u64::from(*first));
        }
    }
    batch.clear();
}

fn drain(reader: &mut Reader, batch: &mut Batch, totals: &mut Totals) -> Result<bool, NoMemory>
    ensures finished { reader.new.finished ≡ reader.old.finished }
{
    loop {
        match reader.read_into(batch)? {
            Found::Record => {
                if batch.len() == 1_024 {
                    count(batch, totals);
                }
            }
            Found::More => return Ok(true),
            _ => return Ok(false),
        }
    }
}

fn read_some(file: &mut File, buffer: &mut [u8]) -> usize
    ensures { result ≤ length buffer.new }
{
    match file.read(buffer) {
        Ok(count) => count,
        Err(_) => 0,
    }
}

fn room(alloc: Global) -> Result<Vec<u8>, NoMemory> {
    match vec![in alloc; 0u8; 65_536] {
        Ok(room) => Ok(room),
        Err(_) => Err(NoMemory),
    }
}

fn walk(alloc: Global, file: &mut File, totals: &mut Totals) -> Result<bool, NoMemory> {
    let mut buffer = room(alloc)?;
    let mut reader = Reader::new(alloc);
    let mut batch = Batch::new(alloc);
    for _ in 0..u64::MAX {
        let count = read_some(file, &mut buffer);
        if count == 0 {
            break;
        }
        reader.feed(&buffer[..count])?;
        drain(&mut reader, &mut batch, totals)?;
    }
    reader.finish();
    let more = drain(&mut reader, &mut batch, totals)?;
    count(&mut batch, totals);
    Ok(more)
}

fn main(rt: HostRuntime) -> io::Result<ExitCode> {
    let alloc = rt.alloc();
    for name in env::args(&rt)?.into_iter().skip(1) {
        let mut file = fs::open(&rt, name.as_str())?;
        let mut totals = Totals {
            records: 0,
            bytes: 0,
            first: 0,
        };
        let done = walk(alloc, &mut file, &mut totals).is_ok();
        println!(rt; "{} {} {} {}", totals.records, totals.bytes, totals.first, done)?;
    }
    Ok(ExitCode::from(0))
}
END
cat > crates/pcap_speed/proofs/drain/Invariants.antt << 'END'
use Rattle.std.proofs.Common.{◌≡◌, length}
use Rattle.pcap_speed.proofs.drain.Given as goal

abbrev pub invariant-loop-batch : goal.invariant-loop-batch
invariant-loop-batch l = l.reader.finished ≡ l.fn.reader.finished

abbrev pub decreases-loop-batch : goal.decreases-loop-batch
decreases-loop-batch l = length l.reader.left
END
cat > crates/pcap_speed/proofs/walk/Invariants.antt << 'END'
use Rattle.std.proofs.Common.{◌≡◌, false}
use Rattle.pcap_speed.proofs.walk.Given as goal

abbrev pub invariant-loop : goal.invariant-loop
invariant-loop l = l.reader.finished ≡ false
END
cat > "$work/walk.c" << 'END'
#include <fcntl.h>
#include <stdint.h>
#include <stdio.h>
#include <stdlib.h>
#include <string.h>
#include <unistd.h>

enum { PIECE = 65536, HEADER = 24, RECORD = 16, MOST = 262144 };

static uint32_t little(const uint8_t *at) { uint32_t v; memcpy(&v, at, 4); return v; }

int main(int count, char **words)
{
    static uint8_t buffer[RECORD + MOST + PIECE];
    size_t have = 0;
    uint64_t records = 0, bytes = 0, first = 0;
    int begun = 0, file = open(words[count - 1], O_RDONLY);
    ssize_t n;
    while ((n = read(file, buffer + have, PIECE)) > 0) {
        size_t at = 0;
        have += (size_t)n;
        if (!begun && have >= HEADER) {
            begun = 1;
            at = HEADER;
        }
        while (begun && have - at >= RECORD) {
            size_t len = little(buffer + at + 8);
            if (len > MOST)
                return 1;
            if (have - at < RECORD + len)
                break;
#ifdef COPY
            uint8_t *frame = malloc(len);
            memcpy(frame, buffer + at + RECORD, len);
            first += len ? frame[0] : 0;
            free(frame);
#else
            first += len ? buffer[at + RECORD] : 0;
#endif
            records++;
            bytes += len;
            at += RECORD + len;
        }
        memmove(buffer, buffer + at, have -= at);
    }
    printf("%llu %llu %llu true\n", (unsigned long long)records, (unsigned long long)bytes, (unsigned long long)first);
    return 0;
}
END
cc -O2 -o "$work/c_walk" "$work/walk.c"
cc -O2 -DCOPY -fno-builtin-malloc -o "$work/c_copy" "$work/walk.c"
cd crates/pcap_speed
rt run -- "$capture" > "$work/first" 2> "$work/log" || { cat "$work/log"; exit 1; }
cp out/pcap_speed "$work/vsw_pcap"

for program in c_walk c_copy vsw_pcap; do
    "$work/$program" "$capture" > "$work/said"
    printf '%-9s %s  ' "$program" "$(cat "$work/said")"
    for run in $(seq "$runs"); do
        from=$(date +%s%N)
        "$work/$program" "$capture" > /dev/null
        to=$(date +%s%N)
        echo $(((to - from) / 10000))
    done | sort -n | awk '{ printf "%.1f ", $1 / 100 } END { print "ms" }'
done
