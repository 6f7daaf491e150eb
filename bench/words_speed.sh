#!/bin/sh
# Instructions of vsw_words, one call each, counted by callgrind: the key of a plain frame and of one in two
# encapsulations, a slot, rows and bodies of a frame that stays as it is and of one that is edited and put in a network, and a body of one
# that is put in two.
#
#   bench/words_speed.sh
#
# Each case takes two identities in turn; its count is the difference of 12,000 and 2,000 rounds, over 10,000, with the
# loop around it. With LLVM at level 2.
set -eu
root=$(cd "$(dirname "$0")/.." && pwd)
work=$(mktemp -d)
trap 'rm -rf "$work"' EXIT

mkdir -p "$work/repo/crates"
cp -r "$root/crates/vsw_base" "$root/crates/vsw_transpose" "$root/crates/vsw_words" "$work/repo/crates"
cd "$work/repo"
git init -q .
touch crates.txt
rt new crates/words_speed start_io > /dev/null
rm -rf crates/words_speed/proofs crates/words_speed/specs crates/words_speed/src/*
mkdir -p crates/words_speed/proofs crates/words_speed/specs
: > crates/words_speed/specs/Lib.antt
: > crates/words_speed/proofs/Lib.antt
cat > crates.txt << 'END'
vsw_base: byteorder
vsw_transpose: vsw_base
vsw_words: vsw_base vsw_transpose
words_speed: vsw_base vsw_transpose vsw_words
END
cd crates/words_speed
cat > src/main.rt << 'END'
//! Calls one function of vsw_words often. The lengths of the first two words say which, and how often in thousands.
#![tactic(auto)]

mod cases;
mod samples;

use cases::{keys, reads, rows, slots};
use samples::{Sample, edited, encapped, kept, plain, twice};
use std::{env, io};

fn run(case: usize, rounds: u32) -> u64 {
    match (plain(), twice(), kept(), edited(), encapped()) {
        (Some(plain), Some(twice), Some(kept), Some(edited), Some(encapped)) => match case {
            1 => keys(rounds, &plain),
            2 => keys(rounds, &twice),
            3 => slots(rounds, &plain),
            4 => rows(rounds, &plain, &kept),
            5 => rows(rounds, &plain, &edited),
            6 => reads(rounds, &plain, &kept),
            7 => reads(rounds, &plain, &edited),
            _ => reads(rounds, &plain, &encapped),
        },
        _ => 0,
    }
}

fn main(rt: HostRuntime) -> io::Result<()> {
    let mut case = 0usize;
    let mut rounds = 0u32;
    for word in env::args(&rt)?.into_iter().skip(1) {
        let len = word.as_str().len();
        if case == 0 {
            case = len;
        } else {
            rounds = (len % 100) as u32 * 1_000;
        }
    }
    println!(rt; "{}", run(case, rounds))
}
END
cat > src/samples.rt << 'END'
//! Identities and transpositions.

ghost use Rattle.std.specs.Prelude.{◌<◌, ◌^◌};

use vsw_base::{Dir, Header, Ip4, Mac, Stack, Ufid};
use vsw_transpose::{Act, Change, Transposition};

/// Two identities of one kind.
#[derive(Drop)]
pub struct Sample {
    pub first: Ufid,
    pub second: Ufid,
}

fn ether(src: u64) -> Header
    requires { src < 2 ^ 48 }
{
    Header::Ether {
        dst: Mac::of(0x0200_0000_0099),
        src: Mac::of(src),
        kind: 0x0800,
    }
}

fn ip(src: u32) -> Header {
    Header::Ip {
        src: Ip4::of(src),
        dst: Ip4::of(0x0a00_0009),
        proto: 17,
        part: false,
    }
}

fn ports(src: u16) -> Header {
    Header::Ports {
        proto: 17,
        src,
        dst: 53,
    }
}

fn pair(first: &[Header], second: &[Header]) -> Option<Sample> {
    match (Stack::of(first), Stack::of(second)) {
        (Ok(one), Ok(two)) => Some(Sample {
            first: Ufid {
                dir: Dir::Out,
                stack: one,
            },
            second: Ufid {
                dir: Dir::In,
                stack: two,
            },
        }),
        _ => None,
    }
}

pub fn plain() -> Option<Sample> {
    pair(&[ether(1), ip(7), ports(9)], &[ether(2), ip(8), ports(10)])
}

fn outer(number: u32) -> [Header; 3] {
    [ether(5), ip(number), Header::Vxlan { vni: 7 }]
}

fn nine(number: u32) -> [Header; 9] {
    let [a, b, c] = outer(number);
    let [d, e, f] = outer(3);
    [a, b, c, d, e, f, ether(1), ip(7), ports(9)]
}

pub fn twice() -> Option<Sample> {
    pair(&nine(1), &nine(2))
}

pub fn kept() -> Option<Transposition> {
    Transposition::of(&[Act::Ignore, Act::Ignore, Act::Ignore]).ok()
}

pub fn edited() -> Option<Transposition> {
    let [a, b, c] = outer(3);
    let address = Change::Ip {
        src: Some(Ip4::of(7)),
        dst: None,
    };
    let port = Change::Ports {
        src: Some(7),
        dst: None,
    };
    Transposition::of(&[
        Act::Push(a),
        Act::Push(b),
        Act::Push(c),
        Act::Ignore,
        Act::Modify(address),
        Act::Modify(port),
    ])
    .ok()
}

pub fn encapped() -> Option<Transposition> {
    let [a, b, c] = outer(3);
    let [d, e, f] = outer(4);
    Transposition::of(&[
        Act::Push(a),
        Act::Push(b),
        Act::Push(c),
        Act::Push(d),
        Act::Push(e),
        Act::Push(f),
        Act::Ignore,
        Act::Ignore,
        Act::Ignore,
    ])
    .ok()
}
END
cat > src/cases.rt << 'END'
//! The calls that are counted.

use crate::samples::Sample;
use vsw_base::{Moment, Ufid, Verdict};
use vsw_transpose::Transposition;
use vsw_words::{Body, body_to, key_words, row_of, slot_of};

fn one_of(sample: &Sample, round: u32) -> &Ufid {
    if round % 2 == 0 { &sample.first } else { &sample.second }
}

pub fn keys(rounds: u32, sample: &Sample) -> u64 {
    let mut out = [0; 16];
    let mut sum = 0u64;
    for round in 0..rounds {
        key_words(one_of(sample, round), &mut out);
        sum = sum.wrapping_add(out[0]);
    }
    sum
}

pub fn slots(rounds: u32, sample: &Sample) -> u64 {
    let mut key = [0; 16];
    key_words(&sample.first, &mut key);
    let mut sum = 0u64;
    for round in 0..rounds {
        key[0] = u64::from(round);
        sum = sum.wrapping_add(u64::from(slot_of(&key, 4_096)));
    }
    sum
}

pub fn rows(rounds: u32, sample: &Sample, by: &Transposition) -> u64 {
    let mut out = [0; 73];
    let mut sum = 0u64;
    for round in 0..rounds {
        let until = Moment::of(u64::from(round));
        row_of(one_of(sample, round), &Verdict::Pass, by, until, &mut out);
        sum = sum.wrapping_add(out[19]);
    }
    sum
}

pub fn reads(rounds: u32, sample: &Sample, by: &Transposition) -> u64 {
    let mut out = [0; 73];
    row_of(&sample.first, &Verdict::Pass, by, Moment::of(7), &mut out);
    let mut words = [0; 57];
    words.copy_from_slice(&out[16..]);
    let mut body = Body::room();
    let mut sum = 0u64;
    for round in 0..rounds {
        words[1] = u64::from(round);
        if body_to(&words, &mut body) {
            sum = sum.wrapping_add(body.until.micros());
        }
    }
    sum
}
END
rt run > "$work/said" 2> "$work/log" || { cat "$work/said" "$work/log"; exit 1; }
count() {
    valgrind --tool=callgrind --callgrind-out-file=/dev/null out/words_speed "$1" "$2" 2>&1 > /dev/null | sed -n 's/.*Collected : *//p'
}
while read -r case name; do
    few=$(count "$case" 22)
    many=$(count "$case" 121212121212)
    echo "$few $many $name" | awk '{ name = $3; for (i = 4; i <= NF; i++) name = name " " $i; printf "%-48s %7.1f\n", name, ($2 - $1) / 10000 }'
done << 'END'
1 key_words of a plain frame
22 key_words of two encapsulations
333 slot_of
4444 row_of, three acts
55555 row_of, six acts
666666 body_to, three acts
7777777 body_to, six acts
88888888 body_to, two encapsulations
END
