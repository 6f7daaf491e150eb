#!/bin/sh
# Instructions of a choice in a layer, counted by callgrind: `pick_layer` over indexes beside `choose` over the lists
# and, for addresses alone, beside a plain C program of binary tries (classify_trie.c); and of making the indexes.
#
#   bench/classify_speed.sh
#
# One group of 10, 100 and 1,000 rules, and 32 groups of 32, with conditions on the destination address, on the
# destination port, and on both, each with few rules that match a packet and with many. Half of the packets are taken
# from rules. Each count is the difference of 30 and 10 rounds over 64 packets, over 1,280; that of making is the
# difference of 30 and 10 times, over 20. With LLVM and gcc at level 2. It says so where two choices disagree.
set -eu
root=$(cd "$(dirname "$0")/.." && pwd)
work=$(mktemp -d)
trap 'rm -rf "$work"' EXIT

mkdir -p "$work/repo/crates"
for name in vsw_base vsw_transpose vsw_rule vsw_index vsw_classify; do
    cp -r "$root/crates/$name" "$work/repo/crates"
done
cd "$work/repo"
git init -q .
touch crates.txt
rt new crates/classify_speed start_io > /dev/null
rm -rf BUILD.bazel crates/classify_speed/BUILD.bazel crates/classify_speed/src/*
mkdir -p crates/classify_speed/proofs crates/classify_speed/specs
: > crates/classify_speed/specs/Lib.antt
: > crates/classify_speed/proofs/Lib.antt
grep -E '^vsw_(base|transpose|rule|index|classify):' "$root/crates.txt" > crates.txt
echo 'classify_speed: vsw_base vsw_rule vsw_classify' >> crates.txt
cd crates/classify_speed
cat > src/main.rt << 'END'
//! Chooses often among the rules of a layer. The words: 0 for the lists, 1 for indexes or 2 to make indexes only, the kind of
//! rules, rules a group, groups, rounds over 64 packets.
#![tactic(auto)]

mod policy;
mod random;

use policy::{Kind, groups, packets};
use random::Random;
use std::alloc::Global;
use std::{env, io};
use vsw_base::{Dir, Stack};
use vsw_classify::{build_layer, pick_layer};
use vsw_rule::{Group, choose};

#[inline(never)]
fn by_list(groups: &[Group], packets: &[Stack], rounds: u32) -> u64 {
    let mut sum: u64 = 0;
    for _ in 0..rounds {
        for stack in packets {
            let number = match choose(Dir::Out, groups, stack) {
                None => 0,
                Some(choice) => u64::from(choice.rule.number).wrapping_add(1),
            };
            sum = (sum ^ number).wrapping_mul(0x9e37_79b9_7f4a_7c15);
        }
    }
    sum
}

fn by_index<R: AllocGlobal>(rt: &R, groups: &[Group], packets: &[Stack], rounds: u32) -> u64 {
    let Ok(index) = build_layer(rt.alloc(), groups) else {
        return 1;
    };
    let mut sum: u64 = 0;
    for _ in 0..rounds {
        for stack in packets {
            let number = match pick_layer(groups, &index, Dir::Out, stack) {
                None => 0,
                Some(choice) => u64::from(choice.rule.number).wrapping_add(1),
            };
            sum = (sum ^ number).wrapping_mul(0x9e37_79b9_7f4a_7c15);
        }
    }
    sum
}

/// Makes the indexes so many times.
fn made_often(alloc: Global, groups: &[Group], times: u32) -> u64 {
    let mut sum: u64 = 0;
    for _ in 0..times {
        if let Ok(index) = build_layer(alloc, groups) {
            sum = sum.wrapping_add(index.len() as u64);
        }
    }
    sum
}

fn main(rt: HostRuntime) -> io::Result<()> {
    let mut words = [0u32; 8];
    let mut at = 0usize;
    for word in env::args(&rt)?.into_iter().skip(1) {
        words[at % 8] = word.as_str().parse::<u32>().unwrap_or(0);
        at = at.wrapping_add(1);
    }
    let [way, kind, rules, count, rounds, ..] = words;
    let mut random = Random::new(7);
    let kind = Kind::of(kind);
    let groups = groups(rt.alloc(), kind, rules, count, &mut random)?;
    let packets = packets(rt.alloc(), &groups, &mut random)?;
    let sum = match way {
        0 => by_list(&groups, &packets, rounds),
        1 => by_index(&rt, &groups, &packets, rounds),
        _ => made_often(rt.alloc(), &groups, rounds),
    };
    println!(rt; "{sum}")
}
END
cat > src/random.rt << 'END'
//! Numbers that look random.

#[derive(Drop)]
pub struct Random {
    state: u64,
}

impl Random {
    pub fn new(seed: u64) -> Random {
        Random { state: seed }
    }

    /// The upper half of the next state of a linear congruential generator (Knuth's MMIX).
    pub fn next(&mut self) -> u32 {
        self.state = self
            .state
            .wrapping_mul(6_364_136_223_846_793_005)
            .wrapping_add(1_442_695_040_888_963_407);
        (self.state >> 32) as u32
    }
}
END
cat > src/policy.rt << 'END'
//! Groups of rules, and packets that meet some of them.

use crate::random::Random;
use std::alloc::{AllocError, Global};
use vsw_base::{Dir, Header, Ip4, Items, Mac, Prefix, Stack};
use vsw_rule::{Action, Cond, Field, Group, Item, Rule};

/// What the rules look at, and how much of it each holds.
#[derive(Clone, Copy)]
pub struct Kind {
    address: bool,
    port: bool,
    wide: bool,
}

impl Kind {
    pub fn of(kind: u32) -> Kind {
        Kind {
            address: kind % 3 != 1,
            port: kind % 3 != 0,
            wide: kind % 6 > 2,
        }
    }
}

fn address(random: &mut Random) -> u32 {
    0x0a00_0000 | random.next() % 0x1_0000
}

fn condition(alloc: Global, field: Field, item: Item) -> Result<Cond, AllocError> {
    Ok(Cond {
        field,
        items: Items::of(Vec::from_array(alloc, [item])?),
    })
}

/// A single address, or a network of half to an eighth of the addresses here.
fn prefix(kind: Kind, random: &mut Random) -> Item {
    let value = Ip4::of(address(random));
    let bits = if kind.wide { 17 + (random.next() % 3) as u8 } else { 32 };
    Item::Prefix(Prefix { value, bits })
}

/// A single port, or a quarter of all on average.
fn ports(kind: Kind, random: &mut Random) -> Item {
    let low = u64::from(random.next() % 65_536);
    let more = if kind.wide { u64::from(random.next() % 32_768) } else { 0 };
    Item::Range {
        low,
        high: (low + more).min(65_535),
    }
}

fn rule(alloc: Global, number: u16, kind: Kind, random: &mut Random) -> Result<Rule, AllocError> {
    let mut when: Vec<Cond> = Vec::new(alloc);
    if kind.address {
        when.push(condition(alloc, Field::DstIp, prefix(kind, random))?)?;
    }
    if kind.port {
        when.push(condition(alloc, Field::DstPort, ports(kind, random))?)?;
    }
    Ok(Rule {
        number,
        priority: (random.next() % 100) as u16,
        when: Items::of(when),
        action: Action::Drop,
        stateful: false,
        last: false,
    })
}

pub fn groups(
    alloc: Global,
    kind: Kind,
    rules: u32,
    count: u32,
    random: &mut Random,
) -> Result<Vec<Group>, AllocError> {
    let mut groups: Vec<Group> = Vec::new(alloc);
    for number in 0..count {
        let mut list: Vec<Rule> = Vec::new(alloc);
        for place in 0..rules {
            list.push(rule(alloc, (place % 65_536) as u16, kind, random)?)?;
        }
        groups.push(Group {
            number: (number % 65_536) as u16,
            dir: Dir::Out,
            when: Items::of(Vec::new(alloc)),
            rules: Items::of(list),
        })?;
    }
    Ok(groups)
}

fn first_value(rule: &Rule, field: Field, other: u64) -> u64 {
    for condition in rule.when.as_slice() {
        if condition.field == field {
            return match condition.items.as_slice().first() {
                Some(Item::Range { low, .. }) => *low,
                Some(Item::Prefix(prefix)) => u64::from(prefix.value.number()),
                None => other,
            };
        }
    }
    other
}

fn stack(address: u32, port: u16) -> Option<Stack> {
    let headers = [
        Header::Ether {
            dst: Mac::of(2),
            src: Mac::of(1),
            kind: 0x0800,
        },
        Header::Ip {
            src: Ip4::of(0x0a00_0005),
            dst: Ip4::of(address),
            proto: 17,
            part: false,
        },
        Header::Ports {
            proto: 17,
            src: 1234,
            dst: port,
        },
    ];
    Stack::of(&headers).ok()
}

/// A packet to the first values of one of the rules, or to any address here and any port.
fn packet(groups: &[Group], random: &mut Random) -> Option<Stack> {
    let mut to = u64::from(address(random));
    let mut port = u64::from(random.next() % 65_536);
    let taken = random.next();
    if taken % 2 == 0 {
        let group = groups.get(random.next() as usize % 32).or(groups.first())?;
        let rules = group.rules.as_slice();
        let rule = rules.get(random.next() as usize % rules.len().max(1))?;
        to = first_value(rule, Field::DstIp, to);
        port = first_value(rule, Field::DstPort, port);
    }
    stack((to % 0x1_0000_0000) as u32, (port % 65_536) as u16)
}

pub fn packets(alloc: Global, groups: &[Group], random: &mut Random) -> Result<Vec<Stack>, AllocError> {
    let mut packets: Vec<Stack> = Vec::new(alloc);
    for _ in 0..64u32 {
        if let Some(stack) = packet(groups, random) {
            packets.push(stack)?;
        }
    }
    Ok(packets)
}
END
rt run > "$work/said" 2> "$work/log" || { cat "$work/said" "$work/log"; exit 1; }
gcc -O2 -o "$work/trie" "$root/bench/classify_trie.c"
count() {
    valgrind --tool=callgrind --callgrind-out-file=/dev/null "$@" 2>&1 > /dev/null | sed -n 's/.*Collected : *//p'
}
# The difference of 30 and 10 rounds of a program with these words, over so many.
each() {
    over=$1
    shift
    echo "$(count "$@" 10) $(count "$@" 30) $over" | awk '{ printf "%.0f", ($2 - $1) / $3 }'
}
echo "rules of groups             list    index  C trie     make"
while read -r kind name; do
    for size in "10 1" "100 1" "1000 1" "32 32"; do
        set -- $size
        told=$(out/classify_speed 0 "$kind" "$1" "$2" 3)
        [ "$told" = "$(out/classify_speed 1 "$kind" "$1" "$2" 3)" ] || echo DISAGREE
        trie=-
        case $kind in
        0 | 3)
            [ "$told" = "$("$work/trie" "$kind" "$1" "$2" 3)" ] || echo DISAGREE
            trie=$(each 1280 "$work/trie" "$kind" "$1" "$2")
            ;;
        esac
        printf '%-14s %4d x %2d %8s %8s %7s %8s\n' "$name" "$1" "$2" "$(each 1280 out/classify_speed 0 "$kind" "$1" "$2")" \
            "$(each 1280 out/classify_speed 1 "$kind" "$1" "$2")" "$trie" "$(each 20 out/classify_speed 2 "$kind" "$1" "$2")"
    done
done << 'END'
0 address, few
3 address, many
1 port, few
4 port, many
2 both, few
5 both, many
END
