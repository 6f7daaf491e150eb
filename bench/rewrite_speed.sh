#!/bin/sh
# Speed of rewriting: a frame of 44 and one of 1,500 bytes get another source address and port and an
# encapsulation in front, many times, by vsw_frame's `rewrite`, by a plain C program that does the same,
# and by memcpy of the same bytes alone.
#
#   bench/rewrite_speed.sh [COUNT] [RUNS]
#
# Prints for each frame and program a checksum of what was written and the nanoseconds a frame of RUNS
# runs of COUNT frames, the least first.
set -eu
count=${1:-5000000}
runs=${2:-9}
root=$(cd "$(dirname "$0")/.." && pwd)
work=$(mktemp -d)
trap 'rm -rf "$work"' EXIT

WORK=$work python3 - << 'END'
import os, struct
def ones(data):
    total = sum(struct.unpack(">%dH" % (len(data) // 2), data))
    while total >> 16:
        total = (total & 0xffff) + (total >> 16)
    return total
for size in (44, 1500):
    data = b"hi" * ((size - 42) // 2)
    udp = struct.pack(">HHHH", 1234, 53, 8 + len(data), 0) + data
    pseudo = bytes([10, 0, 0, 5, 10, 0, 0, 9, 0, 17]) + struct.pack(">H", len(udp))
    udp = udp[:6] + struct.pack(">H", 0xffff - ones(pseudo + udp)) + udp[8:]
    ip = struct.pack(">BBHHHBBH", 0x45, 0, 20 + len(udp), 0, 0x4000, 64, 17, 0) + bytes([10, 0, 0, 5, 10, 0, 0, 9])
    ip = ip[:10] + struct.pack(">H", 0xffff - ones(ip)) + ip[12:]
    frame = bytes.fromhex("0200000000990200000000010800") + ip + udp
    with open(os.environ["WORK"] + "/frame%d" % size, "wb") as file:
        file.write(frame)
END

mkdir -p "$work/repo/crates"
for name in vsw_base vsw_header vsw_transpose vsw_frame; do
    cp -r "$root/crates/$name" "$work/repo/crates"
    grep "^$name:" "$root/crates.txt" >> "$work/repo/crates.txt"
done
cd "$work/repo"
git init -q .
rt new crates/rewrite_speed start_io > /dev/null
rm -rf crates/rewrite_speed/proofs crates/rewrite_speed/specs crates/rewrite_speed/src/*
mkdir -p crates/rewrite_speed/proofs crates/rewrite_speed/specs
: > crates/rewrite_speed/specs/Lib.antt
: > crates/rewrite_speed/proofs/Lib.antt
echo "rewrite_speed: vsw_base vsw_transpose vsw_frame" >> crates.txt
cat > crates/rewrite_speed/src/main.rt << 'END'
//! Rewrites a frame many times.
#![tactic(auto)]

ghost use Rattle.std.specs.Prelude.{◌≡◌, ◌≤◌, IsTrue, length};
ghost use Rattle.vsw_frame.specs.Frame.{parts};
ghost use Rattle.vsw_transpose.specs.Fits.{fits};

use std::process::ExitCode;
use std::{env, fs, io};
use vsw_base::{Header, Ip4, Mac};
use vsw_frame::{Frame, FrameRoom, read_frame, rewrite};
use vsw_transpose::{Act, Change, Transposition};

fn acts() -> [Act; 6]
    ensures { length result ≡ 6 }
{
    [
        Act::Push(Header::Ether {
            dst: Mac::of(0x0200_0000_0a02),
            src: Mac::of(0x0200_0000_0a01),
            kind: 0x0800,
        }),
        Act::Push(Header::Ip {
            src: Ip4::of(0xac10_0001),
            dst: Ip4::of(0xac10_0002),
            proto: 17,
            part: false,
        }),
        Act::Push(Header::Vxlan { vni: 5001 }),
        Act::Ignore,
        Act::Modify(Change::Ip {
            src: Some(Ip4::of(0xc000_0207)),
            dst: None,
        }),
        Act::Modify(Change::Ports {
            src: Some(40_000),
            dst: None,
        }),
    ]
}

fn turns(frame: &Frame<'_>, by: &Transposition, out: &mut [u8], count: u64) -> u64
    requires fits { IsTrue (fits by.now (parts frame.now).stack) }
    requires room { 65700 ≤ length out.old }
{
    let mut sum: u64 = 0;
    for _ in 0..count {
        if let Ok(len) = rewrite(frame, by, out) {
            sum = sum.wrapping_add(len as u64).wrapping_add(u64::from(out[90]));
        }
    }
    sum
}

fn run(bytes: &[u8], out: &mut [u8], count: u64) -> u64
    requires { 65700 ≤ length out.old }
{
    let Ok(by) = Transposition::of(&acts()) else {
        return 0;
    };
    let mut room = FrameRoom::new();
    match read_frame(bytes, &mut room) {
        Ok(frame) => {
            if by.fits(frame.stack()) {
                turns(&frame, &by, out, count)
            } else {
                0
            }
        }
        Err(_) => 0,
    }
}

fn main(rt: HostRuntime) -> io::Result<ExitCode> {
    let mut name = None;
    let mut count: u64 = 0;
    for word in env::args(&rt)?.into_iter().skip(1) {
        match word.as_str().parse::<u64>() {
            Ok(number) => count = number,
            Err(_) => name = Some(word),
        }
    }
    let Some(name) = name else {
        return Ok(ExitCode::from(2));
    };
    let bytes = fs::read(&rt, name.as_str())?;
    let mut out = [0; 65_700];
    println!(rt; "{}", run(&bytes, &mut out, count))?;
    Ok(ExitCode::from(0))
}
END
cat > "$work/rewrite.c" << 'END'
#include <stdint.h>
#include <stdio.h>
#include <stdlib.h>
#include <string.h>

enum { PUSHED = 50, ETHER = 14, UDP = 17, TCP = 6 };

struct ether { uint8_t dst[6], src[6]; };
struct inner { struct ether ether; uint32_t src, dst; uint8_t proto; int part; uint16_t sport, dport; };
struct outer { struct ether ether; uint32_t src, dst, vni; };

static uint16_t get16(const uint8_t *at) { return (uint16_t)(at[0] << 8 | at[1]); }
static uint32_t get32(const uint8_t *at) { return (uint32_t)get16(at) << 16 | get16(at + 2); }
static void put16(uint8_t *at, uint32_t v) { at[0] = (uint8_t)(v >> 8); at[1] = (uint8_t)v; }
static void put32(uint8_t *at, uint32_t v) { put16(at, v >> 16); put16(at + 2, v); }

static uint16_t folded(uint32_t sum)
{
    while (sum >> 16)
        sum = (sum & 0xffff) + (sum >> 16);
    return (uint16_t)sum;
}

/* RFC 1624, equation 3, for one word; words that do not differ change nothing */
static uint32_t change(uint32_t sum, uint16_t from, uint16_t to)
{
    return from == to ? sum : sum + (uint16_t)~from + to;
}

static uint32_t change32(uint32_t sum, uint32_t from, uint32_t to)
{
    return change(change(sum, (uint16_t)(from >> 16), (uint16_t)(to >> 16)), (uint16_t)from, (uint16_t)to);
}

static uint32_t words(const uint8_t *at, int count)
{
    uint32_t sum = 0;
    for (int i = 0; i < count; i++)
        sum += get16(at + 2 * i);
    return sum;
}

static uint32_t flow_sum(const struct inner *in)
{
    return words(in->ether.dst, 3) + words(in->ether.src, 3) + 0x0800 + (in->src >> 16) + (in->src & 0xffff)
        + (in->dst >> 16) + (in->dst & 0xffff) + in->proto + in->sport + in->dport;
}

static void push(uint8_t *out, const struct outer *o, uint32_t port, uint32_t n)
{
    memcpy(out, &o->ether, 12);
    put16(out + 12, 0x0800);
    uint8_t *ip = out + ETHER;
    memcpy(ip, (uint8_t[]){0x45, 0, 0, 0, 0, 0, 0x40, 0, 64, UDP, 0, 0}, 12);
    put16(ip + 2, n + 36);
    put32(ip + 12, o->src);
    put32(ip + 16, o->dst);
    put16(ip + 10, (uint16_t)~folded(words(ip, 10)));
    uint8_t *udp = ip + 20;
    put16(udp, port);
    put16(udp + 2, 4789);
    put16(udp + 4, n + 16);
    put16(udp + 6, 0);
    put32(udp + 8, 0x08000000);
    put32(udp + 12, o->vni << 8);
}

__attribute__((noinline)) size_t rewrite(const uint8_t *frame, size_t n, const struct inner *from, const struct inner *to, const struct outer *o, uint8_t *out)
{
    uint8_t *inner = out + PUSHED;
    memcpy(inner, frame, n);
    memcpy(inner, &to->ether, 12);
    uint8_t *ip = inner + ETHER;
    uint32_t sum = change32(change32((uint16_t)~get16(ip + 10), from->src, to->src), from->dst, to->dst);
    put16(ip + 10, (uint16_t)~folded(sum));
    put32(ip + 12, to->src);
    put32(ip + 16, to->dst);
    if (!from->part && (from->proto == UDP || from->proto == TCP)) {
        uint8_t *at = ip + 4 * (ip[0] & 15), *checksum = at + (from->proto == TCP ? 16 : 6);
        put16(at, to->sport);
        put16(at + 2, to->dport);
        uint16_t old = get16(checksum);
        if (old || from->proto == TCP) {
            sum = change32(change32((uint16_t)~old, from->src, to->src), from->dst, to->dst);
            sum = change(change(sum, from->sport, to->sport), from->dport, to->dport);
            uint16_t new = (uint16_t)~folded(sum);
            put16(checksum, new == 0 && from->proto == UDP ? 0xffff : new);
        }
    }
    push(out, o, 49152 + flow_sum(to) % 16384, (uint32_t)n);
    return PUSHED + n;
}

__attribute__((noinline)) size_t copy(const uint8_t *frame, size_t n, uint8_t *out)
{
    memcpy(out + PUSHED, frame, n);
    __asm__ volatile("" ::: "memory");
    return PUSHED + n;
}

int main(int count, char **given)
{
    static uint8_t frame[65600], out[65700];
    FILE *file = fopen(given[1], "rb");
    size_t n = file ? fread(frame, 1, sizeof frame, file) : 0;
    if (count < 3 || n < 42)
        return 1;
    struct inner from = {.proto = frame[23], .part = (get16(frame + 20) & 0x3fff) != 0}, to;
    memcpy(&from.ether, frame, 12);
    from.src = get32(frame + 26);
    from.dst = get32(frame + 30);
    from.sport = get16(frame + 34);
    from.dport = get16(frame + 36);
    to = from;
    to.src = 0xc0000207;
    to.sport = 40000;
    struct outer o = {{{2, 0, 0, 0, 10, 2}, {2, 0, 0, 0, 10, 1}}, 0xac100001, 0xac100002, 5001};
    unsigned long long sum = 0;
    for (long turns = atol(given[2]); turns > 0; turns--) {
#ifdef COPY
        sum += copy(frame, n, out) + out[90];
#else
        sum += rewrite(frame, n, &from, &to, &o, out) + out[90];
#endif
    }
    printf("%llu\n", sum);
    return 0;
}
END
cc -O2 -o "$work/c_rewrite" "$work/rewrite.c"
cc -O2 -DCOPY -o "$work/c_memcpy" "$work/rewrite.c"
cd crates/rewrite_speed
rt run -- "$work/frame44" 1 > "$work/first" 2> "$work/log" || { cat "$work/log"; exit 1; }
cp out/rewrite_speed "$work/vsw_frame"

for size in 44 1500; do
    for program in c_memcpy c_rewrite vsw_frame; do
        printf '%4s %-10s %s  ' "$size" "$program" "$("$work/$program" "$work/frame$size" "$count")"
        for run in $(seq "$runs"); do
            from=$(date +%s%N)
            "$work/$program" "$work/frame$size" "$count" > /dev/null
            to=$(date +%s%N)
            echo $((to - from))
        done | sort -n | awk -v count="$count" '{ printf "%.1f ", $1 / count } END { print "ns" }'
    done
done
