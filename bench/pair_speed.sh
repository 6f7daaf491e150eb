#!/bin/sh
# Speed and room of a layer's pairs (vsw_layerflow, vsw_policy): one layer of 65,536 pairs, filled, searched, touched, thinned and swept,
# and one whose 1,024 rules are all replaced.
#
#   bench/pair_speed.sh [RUNS]
#
# Prints, for each step, the nanoseconds of one call in the quickest of RUNS runs, and the peak memory a
# pair in bytes: of a layer filled once, by the difference to a run with none.
set -eu
runs=${1:-9}
root=$(cd "$(dirname "$0")/.." && pwd)
work=$(mktemp -d)
trap 'rm -rf "$work"' EXIT

mkdir -p "$work/repo/crates"
for crate in vsw_base vsw_transpose vsw_rule vsw_index vsw_classify vsw_layerflow vsw_policy; do
    cp -r "$root/crates/$crate" "$work/repo/crates"
done
cd "$work/repo"
git init -q .
touch crates.txt
rt new crates/pair_speed start_io > /dev/null
rm -rf crates/pair_speed/proofs crates/pair_speed/specs crates/pair_speed/src/*
mkdir -p crates/pair_speed/proofs/fill crates/pair_speed/proofs/reopen_all crates/pair_speed/specs
: > crates/pair_speed/specs/Lib.antt
: > crates/pair_speed/proofs/Lib.antt
grep -E '^vsw_(base|transpose|rule|index|classify|layerflow|policy):' "$root/crates.txt" > crates.txt
echo 'pair_speed: vsw_base vsw_rule vsw_layerflow vsw_policy' >> crates.txt
cat > crates/pair_speed/src/main.rt << 'END'
//! Times the calls of a layer's pairs.
#![tactic(auto)]

ghost use Rattle.std.specs.Prelude.{◌≡◌, ◌+◌, [], IsTrue};
ghost use Rattle.vsw_layerflow.specs.Pairs.{AllBelow};

use std::alloc::Global;
use std::process::ExitCode;
use std::rt::Clock;
use std::time::Instant;
use std::{env, io};
use vsw_base::{Dir, Ip4, Items, LayerKey, Moment, Set, Track};
use vsw_layerflow::{Flows, Pair};
use vsw_policy::{Groups, Layer, LayerSpec};
use vsw_rule::{Action, Group, Rule};

const MOST: u32 = 65_536;

/// The rules of the one group.
const RULES: u16 = 1_024;

fn key(src: u32, dst: u32, src_port: u16, dst_port: u16) -> LayerKey {
    LayerKey {
        encaps: 0,
        vni_outer: 0,
        vni_second: 0,
        src: Ip4::of(src),
        dst: Ip4::of(dst),
        proto: 6,
        part: false,
        src_port,
        dst_port,
    }
}

fn there(number: u32) -> LayerKey {
    key(0x0a00_0000 | number % MOST, 0x0b00_0001, 40000, 80)
}

fn back(number: u32) -> LayerKey {
    key(0x0b00_0001, 0x0a00_0000 | number % MOST, 80, 40000)
}

fn set() -> Set {
    Set {
        dst_mac: None,
        src_mac: None,
        src_ip: None,
        dst_ip: None,
        src_port: None,
        dst_port: None,
    }
}

fn pair(number: u32) -> Pair
    ensures { result.number ≡ number }
{
    Pair {
        number,
        group: 2,
        rule: (number % u32::from(RULES)) as u16,
        dir: Dir::Out,
        forward: there(number),
        forward_set: set(),
        reverse: back(number),
        reverse_set: set(),
        state: Track::Open,
        last_use: Moment::of(1_000_000),
    }
}

/// Two look-ups, that miss, and the room and the pair after them.
#[tactic(auto, using(vsw_layerflow::proofs::Order::below_next, vsw_layerflow::proofs::Order::below_push))]
fn put(flows: &mut Flows, pair: Pair) -> bool
    requires number_last { AllBelow pair.number flows.old.pairs }
    ensures number_last { AllBelow (pair.number + 1) flows.new.pairs }
{
    if flows.find(pair.dir, &pair.forward).is_some() {
        return false;
    }
    if flows.find(pair.back().dir, &pair.reverse).is_some() {
        return false;
    }
    if flows.len() == u32::MAX || flows.reserve_one().is_err() {
        return false;
    }
    flows.add(pair);
    true
}

fn fill(flows: &mut Flows, count: u32) -> bool
    requires none { flows.old.pairs ≡ [] }
    ensures below { IsTrue result → AllBelow count flows.new.pairs }
{
    for number in 0..count {
        if !put(flows, pair(number)) {
            return false;
        }
    }
    true
}

#[tactic(auto, using(vsw_layerflow::proofs::Order::below_filter))]
fn reopen(flows: &mut Flows, number: u32, next: u32) -> bool
    requires number_last { AllBelow next flows.old.pairs }
    ensures number_last { AllBelow (next + 1) flows.new.pairs }
{
    flows.remove(number);
    put(flows, pair(next))
}

/// Opens every pair again, under a number that is greater by `MOST`; answers the nanoseconds of the
/// slowest, or 0 where one found no room.
fn reopen_all<R: Clock>(rt: &R, flows: &mut Flows) -> io::Result<u64>
    requires number_last { AllBelow 65536 flows.old.pairs }
{
    let mut slowest = 0;
    for number in 0..MOST {
        let start = Instant::now(rt)?;
        if !reopen(flows, number, MOST + number) {
            return Ok(0);
        }
        let time = nanos(rt, start, 1)?;
        slowest = time.max(slowest);
    }
    Ok(slowest)
}

/// How many of the numbers lead to a pair by the key of their flows, in this direction.
fn find_there(flows: &Flows, dir: Dir) -> u32 {
    let mut found = 0u32;
    for number in 0..MOST {
        if flows.find(dir, &there(number)).is_some() {
            found = found.wrapping_add(1);
        }
    }
    found
}

fn find_back(flows: &Flows) -> u32 {
    let mut found = 0u32;
    for number in 0..MOST {
        if flows.find(Dir::In, &back(number)).is_some() {
            found = found.wrapping_add(1);
        }
    }
    found
}

fn touch_all(flows: &mut Flows) {
    for number in 0..MOST {
        flows.touch(MOST + number, Track::Half(Dir::In), Moment::of(u64::from(number)));
    }
}

/// Takes away this many pairs, from this number on.
fn remove_some(flows: &mut Flows, first: u32, count: u32) {
    for number in 0..count {
        flows.remove(first.wrapping_add(number));
    }
}

/// The nanoseconds of one of so many calls.
fn nanos<R: Clock>(rt: &R, start: Instant, calls: u64) -> io::Result<u64> {
    let took = start.elapsed(rt)?;
    Ok(u64::try_from(took.as_nanos()).unwrap_or(u64::MAX) / calls.max(1))
}

/// The nanoseconds of one call in each step.
#[derive(Drop)]
struct Times {
    times: Vec<u64>,
}

impl Times {
    fn note<R: Clock>(&mut self, rt: &R, start: Instant, calls: u64) -> io::Result<()> {
        self.add(nanos(rt, start, calls)?);
        Ok(())
    }

    fn add(&mut self, time: u64) {
        let _ = self.times.push(time);
    }
}

/// Fills a layer, and opens each of its pairs again.
fn time_opening<R: Clock>(rt: &R, flows: &mut Flows, times: &mut Times) -> io::Result<bool>
    requires none { flows.old.pairs ≡ [] }
{
    let start = Instant::now(rt)?;
    if !fill(flows, MOST) {
        return Ok(false);
    }
    times.note(rt, start, 65_536)?;
    let start = Instant::now(rt)?;
    let slowest = reopen_all(rt, flows)?;
    times.note(rt, start, 65_536)?;
    times.add(slowest);
    Ok(slowest != 0)
}

fn time_finding<R: Clock>(rt: &R, flows: &Flows, times: &mut Times) -> io::Result<bool> {
    let start = Instant::now(rt)?;
    let forth = find_there(flows, Dir::Out);
    times.note(rt, start, 65_536)?;
    let start = Instant::now(rt)?;
    let back = find_back(flows);
    times.note(rt, start, 65_536)?;
    let start = Instant::now(rt)?;
    let missed = find_there(flows, Dir::In);
    times.note(rt, start, 65_536)?;
    Ok(forth == MOST && back == MOST && missed == 0)
}

/// Takes 1,024 pairs away, from this number on.
fn time_removal<R: Clock>(rt: &R, flows: &mut Flows, first: u32, times: &mut Times) -> io::Result<()> {
    let start = Instant::now(rt)?;
    remove_some(flows, first, 1_024);
    times.note(rt, start, 1_024)
}

fn time_sweep<R: Clock>(rt: &R, flows: &mut Flows, now: u64, times: &mut Times) -> io::Result<u32> {
    let now = Moment::of(now);
    let start = Instant::now(rt)?;
    let gone = flows.sweep(now, 240, 10);
    times.note(rt, start, 62_464)?;
    Ok(gone)
}

/// A group's rules, numbered from 0, of one priority.
fn rules(alloc: Global, priority: u16) -> Items<Rule> {
    let mut rules = Items::new(alloc);
    for number in 0..RULES {
        let _ = rules.push(Rule {
            number,
            priority,
            when: Items::new(alloc),
            action: Action::Allow,
            stateful: true,
            last: false,
        });
    }
    rules
}

fn groups(alloc: Global) -> Groups {
    let mut groups = Groups::new(alloc);
    let group = Group {
        number: 2,
        dir: Dir::Out,
        when: Items::new(alloc),
        rules: rules(alloc, 10),
    };
    let _ = groups.push(alloc, group);
    groups
}

/// A layer with these pairs, of rules of priority 10.
fn layer(alloc: Global, flows: Flows) -> Layer {
    Layer {
        controller: 1,
        spec: LayerSpec {
            layer: 10,
            order: 10,
            allow_out: true,
            allow_in: true,
            pairs: MOST,
            idle: 240,
            linger: 10,
        },
        groups: groups(alloc),
        flows,
        next_pair: MOST,
    }
}

/// Puts rules of a priority in place of those that are there, and answers how many pairs are left.
fn time_put<R: Clock>(rt: &R, alloc: Global, layer: &mut Layer, priority: u16, times: &mut Times) -> io::Result<u32> {
    let rules = rules(alloc, priority);
    let start = Instant::now(rt)?;
    let _ = layer.put_rules(alloc, 2, rules.as_slice());
    times.note(rt, start, 1)?;
    Ok(layer.flows.len())
}

/// Times what becomes of all pairs of a layer where the same rules are put again, and others.
fn time_rules<R: Clock>(rt: &R, alloc: Global, times: &mut Times) -> io::Result<bool> {
    let mut flows = Flows::new(alloc);
    if !fill(&mut flows, MOST) {
        return Ok(false);
    }
    let mut layer = layer(alloc, flows);
    if time_put(rt, alloc, &mut layer, 10, times)? != MOST {
        return Ok(false);
    }
    Ok(time_put(rt, alloc, &mut layer, 20, times)? == 0)
}

/// Times all steps, and tells whether all that was looked for was found.
fn measure<R: Clock>(rt: &R, flows: &mut Flows, times: &mut Times) -> io::Result<bool>
    requires none { flows.old.pairs ≡ [] }
{
    if !time_opening(rt, flows, times)? || !time_finding(rt, flows, times)? {
        return Ok(false);
    }
    let start = Instant::now(rt)?;
    touch_all(flows);
    times.note(rt, start, 65_536)?;
    time_removal(rt, flows, MOST, times)?;
    time_removal(rt, flows, 98_304, times)?;
    time_removal(rt, flows, 130_048, times)?;
    if time_sweep(rt, flows, 0, times)? != 0 {
        return Ok(false);
    }
    Ok(time_sweep(rt, flows, u64::MAX, times)? == 62_464)
}

/// The steps, in the order in which they are timed.
const NAMES: [&str; 14] = [
    "add, with two look-ups and reserve_one, in a growing layer",
    "remove the first and add it again, with two look-ups and two readings of the clock",
    "the slowest of these",
    "find, own direction",
    "find, the other direction",
    "find, none there",
    "touch",
    "remove, of the first",
    "remove, of the middle",
    "remove, of the last",
    "sweep that takes none, a pair",
    "sweep that takes all, a pair",
    "put_rules of 1,024 rules that are there, the whole call",
    "put_rules of 1,024 others, which takes all pairs, the whole call",
];

/// Prints the times of one run, or fills one layer with as many pairs as the word has letters, times 4,096.
fn main(rt: HostRuntime) -> io::Result<ExitCode> {
    let alloc = rt.alloc();
    for word in env::args(&rt)?.into_iter().skip(1) {
        let mut flows = Flows::new(alloc);
        let count = (word.as_str().len() % 17) as u32 * 4_096;
        let filled = fill(&mut flows, count);
        println!(rt; "{} {}", flows.len(), filled)?;
        return Ok(ExitCode::from(0));
    }
    let mut flows = Flows::new(alloc);
    let mut times = Times {
        times: Vec::new(alloc),
    };
    let found = measure(&rt, &mut flows, &mut times)? && time_rules(&rt, alloc, &mut times)?;
    for (name, time) in NAMES.iter().zip(times.times.iter()) {
        println!(rt; "{} {}", time, name)?;
    }
    Ok(ExitCode::from(if found { 0 } else { 1 }))
}
END
cat > crates/pair_speed/proofs/fill/Invariants.antt << 'END'
use Rattle.vsw_layerflow.specs.Pairs.{AllBelow}
use Rattle.pair_speed.proofs.fill.Given as goal

abbrev pub invariant-loop-number : goal.invariant-loop-number
invariant-loop-number l = AllBelow l.number l.flows.pairs
END
cat > crates/pair_speed/proofs/reopen_all/Invariants.antt << 'END'
use Rattle.std.proofs.Common.{◌+◌}
use Rattle.vsw_layerflow.specs.Pairs.{AllBelow}
use Rattle.pair_speed.proofs.reopen_all.Given as goal

abbrev pub invariant-loop-number : goal.invariant-loop-number
invariant-loop-number g l = AllBelow (65536 + l.number) l.flows.pairs
END
cd crates/pair_speed
rt run > "$work/first" 2> "$work/log" || { cat "$work/log" "$work/first"; exit 1; }
program=$PWD/out/pair_speed

for run in $(seq "$runs"); do
    "$program"
done | awk '{ time = $1; $1 = ""; if (!($0 in least)) { order[++steps] = $0; least[$0] = time }
    if (time < least[$0]) least[$0] = time }
    END { for (i = 1; i <= steps; i++) printf "%10.0f ns %s\n", least[order[i]], order[i] }'

# A small launcher, since a process's peak begins with that of the one that started it.
cat > "$work/peak.c" << 'END'
#include <stdio.h>
#include <sys/resource.h>
#include <sys/wait.h>
#include <unistd.h>

int main(int count, char **words)
{
    struct rusage used;
    pid_t child = fork();
    if (child == 0) {
        execv(words[1], words + 1);
        _exit(1);
    }
    wait4(child, NULL, 0, &used);
    fprintf(stderr, "%ld\n", used.ru_maxrss);
    return count < 2;
}
END
cc -O2 -o "$work/peak" "$work/peak.c"
none=$("$work/peak" "$program" "" 2>&1 > /dev/null)
full=$("$work/peak" "$program" 1234567890123456 2>&1 > /dev/null)
echo "$(((full - none) * 1024 / 65536)) bytes of peak memory a pair"
