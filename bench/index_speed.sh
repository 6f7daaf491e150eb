#!/bin/sh
# Speed of vsw_index: `least` beside a walk over the whole list, at 10, 100, 1,000 and 10,000
# items, from place 0 and from places anywhere.
#
#   bench/index_speed.sh [ROUNDS]
#
# The items are pseudo-random: prefixes of 8 to 32 bits in 10.0.0.0/8; single ports, ranges of up to 64 ports,
# ranges between any two ports, and ranges that all nest. Half of the values asked for are taken from items.
# Each line has nanoseconds a call of the index and of the walk, their ratio, and the time of `build` in
# microseconds, each the least of ROUNDS rounds over 1,024 questions. It says so where the two disagree.
set -eu
rounds=${1:-9}
root=$(cd "$(dirname "$0")/.." && pwd)
work=$(mktemp -d)
trap 'rm -rf "$work"' EXIT

mkdir -p "$work/repo/crates"
cp -r "$root/crates/vsw_base" "$root/crates/vsw_index" "$work/repo/crates"
cd "$work/repo"
git init -q .
touch crates.txt
rt new crates/index_speed start_io > /dev/null
rm -rf crates/index_speed/proofs crates/index_speed/specs crates/index_speed/src/*
mkdir -p crates/index_speed/proofs crates/index_speed/specs
: > crates/index_speed/specs/Lib.antt
: > crates/index_speed/proofs/Lib.antt
cat > crates.txt << 'END'
vsw_base: byteorder
vsw_index: vsw_base
index_speed: vsw_base vsw_index
END
cd crates/index_speed
cat > src/main.rt << END
//! Times the indexes beside walks over the lists that they were built of.
#![tactic(auto)]

mod prefixes;
mod random;
mod ranges;

use std::io;

/// How often each is timed.
pub const ROUNDS: u32 = $rounds;

fn main(rt: HostRuntime) -> io::Result<()> {
    for count in [10u32, 100, 1_000, 10_000] {
        prefixes::measure(&rt, count)?;
    }
    for kind in 0..4u32 {
        for count in [10u32, 100, 1_000, 10_000] {
            ranges::measure(&rt, kind, count)?;
        }
    }
    Ok(())
}
END
cat > src/random.rt << 'END'
//! Numbers that look random.

#[derive(Drop)]
pub struct Random {
    state: u64,
}

impl Random {
    pub fn new(seed: u64) -> Random {
        Random { state: seed }
    }

    /// The upper half of the next state of a linear congruential generator (Knuth's MMIX).
    pub fn next(&mut self) -> u32 {
        self.state = self
            .state
            .wrapping_mul(6_364_136_223_846_793_005)
            .wrapping_add(1_442_695_040_888_963_407);
        (self.state >> 32) as u32
    }
}

/// A number that tells answers apart.
pub fn number(found: Option<u32>) -> u64 {
    match found {
        None => 0,
        Some(place) => u64::from(place) + 1,
    }
}
END
cat > src/prefixes.rt << 'END'
//! The trie.

use crate::ROUNDS;
use crate::random::{Random, number};
use std::alloc::{AllocError, Global};
use std::io;
use std::rt::Clock;
use std::time::Instant;
use vsw_base::{Ip4, Prefix};
use vsw_index::{PlacedPrefix, Trie};

fn address(random: &mut Random) -> u32 {
    0x0a00_0000 | random.next() >> 8
}

fn items(alloc: Global, count: u32, random: &mut Random) -> Result<Vec<PlacedPrefix>, AllocError> {
    let mut items = Vec::new(alloc);
    for place in 0..count {
        let value = Ip4::of(address(random));
        let bits = 8 + (random.next() % 25) as u8;
        items.push(PlacedPrefix {
            place,
            prefix: Prefix { value, bits },
        })?;
    }
    Ok(items)
}

fn questions(
    alloc: Global,
    items: &[PlacedPrefix],
    anywhere: bool,
    random: &mut Random,
) -> Result<Vec<(u32, u32)>, AllocError> {
    let mut questions = Vec::new(alloc);
    let count = items.len();
    if count == 0 {
        return Ok(questions);
    }
    for _ in 0..1024u32 {
        let from = if anywhere { (random.next() as usize % count) as u32 } else { 0 };
        let at = random.next() as usize;
        let other = address(random);
        let value = if at % 2 == 0 { items[at % count].prefix.value.number() } else { other };
        questions.push((value, from))?;
    }
    Ok(questions)
}

fn holds(item: &PlacedPrefix, value: u32) -> bool {
    let bits = item.prefix.bits;
    if bits > 32 {
        return false;
    }
    let shift = 32 - u32::from(bits);
    u64::from(value) >> shift == u64::from(item.prefix.value.number()) >> shift
}

fn walk(items: &[PlacedPrefix], value: u32, from: u32) -> Option<u32> {
    let mut found: Option<u32> = None;
    for item in items {
        if item.place >= from && holds(item, value) {
            found = match found {
                Some(place) if place <= item.place => Some(place),
                _ => Some(item.place),
            };
        }
    }
    found
}

fn by_trie(trie: &Trie, questions: &[(u32, u32)]) -> u64 {
    let mut sum: u64 = 0;
    for (value, from) in questions {
        sum = sum.wrapping_mul(31).wrapping_add(number(trie.least(*value, *from)));
    }
    sum
}

fn by_walk(items: &[PlacedPrefix], questions: &[(u32, u32)]) -> u64 {
    let mut sum: u64 = 0;
    for (value, from) in questions {
        sum = sum.wrapping_mul(31).wrapping_add(number(walk(items, *value, *from)));
    }
    sum
}

fn one<R: Clock + Print>(rt: &R, alloc: Global, count: u32, anywhere: bool) -> io::Result<()> {
    let mut random = Random::new(7);
    let items = items(alloc, count, &mut random)?;
    let questions = questions(alloc, &items, anywhere, &mut random)?;
    let mut least_build = u128::MAX;
    let mut least_index = u128::MAX;
    let mut least_walk = u128::MAX;
    let mut same = true;
    for _ in 0..ROUNDS {
        let start = Instant::now(rt)?;
        let Ok(trie) = Trie::build(alloc, &items) else {
            return Ok(());
        };
        least_build = least_build.min(start.elapsed(rt)?.as_nanos());
        let start = Instant::now(rt)?;
        let index = by_trie(&trie, &questions);
        least_index = least_index.min(start.elapsed(rt)?.as_nanos());
        let start = Instant::now(rt)?;
        let walk = by_walk(&items, &questions);
        least_walk = least_walk.min(start.elapsed(rt)?.as_nanos());
        same = same && index == walk;
    }
    println!(rt; "prefixes {count} {anywhere} {least_build} {least_index} {least_walk} {same}")
}

pub fn measure<R: Clock + Print + AllocGlobal>(rt: &R, count: u32) -> io::Result<()> {
    one(rt, rt.alloc(), count, false)?;
    one(rt, rt.alloc(), count, true)
}
END
cat > src/ranges.rt << 'END'
//! The index of ranges.

use crate::ROUNDS;
use crate::random::{Random, number};
use std::alloc::{AllocError, Global};
use std::io;
use std::rt::Clock;
use std::time::Instant;
use vsw_index::{Interval, PlacedRange};

const NAMES: [&str; 4] = ["ports", "narrow", "wide", "nested"];

fn port(random: &mut Random) -> u64 {
    u64::from(random.next() % 65_536)
}

fn between(place: u32, a: u64, b: u64) -> PlacedRange {
    PlacedRange {
        place,
        low: a.min(b),
        high: a.max(b),
    }
}

fn range(kind: u32, place: u32, random: &mut Random) -> PlacedRange {
    let a = port(random);
    let b = port(random);
    match kind {
        0 => between(place, a, a),
        1 => between(place, a, a.saturating_add(b / 1024)),
        2 => between(place, a, b),
        _ => between(place, a, 131_072u64.saturating_sub(a)),
    }
}

fn items(alloc: Global, kind: u32, count: u32, random: &mut Random) -> Result<Vec<PlacedRange>, AllocError> {
    let mut items = Vec::new(alloc);
    for place in 0..count {
        items.push(range(kind, place, random))?;
    }
    Ok(items)
}

fn questions(
    alloc: Global,
    items: &[PlacedRange],
    anywhere: bool,
    random: &mut Random,
) -> Result<Vec<(u64, u32)>, AllocError> {
    let mut questions = Vec::new(alloc);
    let count = items.len();
    if count == 0 {
        return Ok(questions);
    }
    for _ in 0..1024u32 {
        let from = if anywhere { (random.next() as usize % count) as u32 } else { 0 };
        let at = random.next() as usize;
        let other = port(random);
        let value = if at % 2 == 0 { items[at % count].low } else { other };
        questions.push((value, from))?;
    }
    Ok(questions)
}

fn walk(items: &[PlacedRange], value: u64, from: u32) -> Option<u32> {
    let mut found: Option<u32> = None;
    for item in items {
        if item.place >= from && item.low <= value && value <= item.high {
            found = match found {
                Some(place) if place <= item.place => Some(place),
                _ => Some(item.place),
            };
        }
    }
    found
}

fn by_index(index: &Interval, questions: &[(u64, u32)]) -> u64 {
    let mut sum: u64 = 0;
    for (value, from) in questions {
        sum = sum.wrapping_mul(31).wrapping_add(number(index.least(*value, *from)));
    }
    sum
}

fn by_walk(items: &[PlacedRange], questions: &[(u64, u32)]) -> u64 {
    let mut sum: u64 = 0;
    for (value, from) in questions {
        sum = sum.wrapping_mul(31).wrapping_add(number(walk(items, *value, *from)));
    }
    sum
}

fn one<R: Clock + Print>(rt: &R, alloc: Global, kind: u32, count: u32, anywhere: bool) -> io::Result<()> {
    let mut random = Random::new(7);
    let items = items(alloc, kind, count, &mut random)?;
    let questions = questions(alloc, &items, anywhere, &mut random)?;
    let mut least_build = u128::MAX;
    let mut least_index = u128::MAX;
    let mut least_walk = u128::MAX;
    let mut same = true;
    for _ in 0..ROUNDS {
        let start = Instant::now(rt)?;
        let Ok(interval) = Interval::build(alloc, &items) else {
            return Ok(());
        };
        least_build = least_build.min(start.elapsed(rt)?.as_nanos());
        let start = Instant::now(rt)?;
        let index = by_index(&interval, &questions);
        least_index = least_index.min(start.elapsed(rt)?.as_nanos());
        let start = Instant::now(rt)?;
        let walk = by_walk(&items, &questions);
        least_walk = least_walk.min(start.elapsed(rt)?.as_nanos());
        same = same && index == walk;
    }
    let name = NAMES[kind as usize % 4];
    println!(rt; "{name} {count} {anywhere} {least_build} {least_index} {least_walk} {same}")
}

pub fn measure<R: Clock + Print + AllocGlobal>(rt: &R, kind: u32, count: u32) -> io::Result<()> {
    one(rt, rt.alloc(), kind, count, false)?;
    one(rt, rt.alloc(), kind, count, true)
}
END
rt run > "$work/said" 2> "$work/log" || { cat "$work/log"; exit 1; }
out/index_speed | awk '
    BEGIN { printf "%-9s %6s %-9s %9s %10s %7s %9s\n", "items", "count", "from", "index ns", "walk ns", "ratio", "build us" }
    {
        printf "%-9s %6d %-9s %9.1f %10.1f %7.1f %9.1f%s\n", $1, $2, $3 == "true" ? "anywhere" : "0",
            $5 / 1024, $6 / 1024, $6 / $5, $4 / 1000, $7 == "true" ? "" : "  DISAGREE"
    }'
