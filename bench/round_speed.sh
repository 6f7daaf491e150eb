#!/bin/sh
# Speed of vsw_workers: what a round costs with 1, 2, 4, 8 and 16 actors, each of one job with no work and with
# 25 microseconds of work, beside the same in C: threads that live on and wait on a condition between rounds.
#
#   bench/round_speed.sh [ROUNDS] [RUNS]
#
# Each line has the microseconds of one round, the least of RUNS averages over ROUNDS rounds: of `run_round`, of the C pool
# (the caller does the work of actor 0), and of one thread that does the actors' jobs one after the other. Work is a chain of
# shifts (Marsaglia's xorshift64); the first line says how long one piece takes in each program.
set -eu
rounds=${1:-1000}
runs=${2:-5}
root=$(cd "$(dirname "$0")/.." && pwd)
work=$(mktemp -d)
trap 'rm -rf "$work"' EXIT

# Steps of work, about 25 microseconds; see the first line of what is printed.
steps=${STEPS:-12500}

cat > "$work/pool.c" << 'END'
#include <pthread.h>
#include <stdint.h>
#include <stdio.h>
#include <stdlib.h>
#include <time.h>

struct actor { uint64_t x; int steps; char room[112]; };
static struct actor actors[16];
static pthread_mutex_t lock = PTHREAD_MUTEX_INITIALIZER;
static pthread_cond_t begun = PTHREAD_COND_INITIALIZER, ended = PTHREAD_COND_INITIALIZER;
static long round_number;
static int busy, over;

static void job(struct actor *a) {
    uint64_t x = a->x;
    for (int i = 0; i < a->steps; i++) { x ^= x << 13; x ^= x >> 7; x ^= x << 17; }
    a->x = x;
}
static void *live(void *given) {
    struct actor *a = given;
    long seen = 0;
    pthread_mutex_lock(&lock);
    for (;;) {
        while (round_number == seen && !over) pthread_cond_wait(&begun, &lock);
        if (over) break;
        seen = round_number;
        pthread_mutex_unlock(&lock);
        job(a);
        pthread_mutex_lock(&lock);
        if (--busy == 0) pthread_cond_signal(&ended);
    }
    pthread_mutex_unlock(&lock);
    return 0;
}
static double now(void) {
    struct timespec t;
    clock_gettime(CLOCK_MONOTONIC, &t);
    return t.tv_sec * 1e9 + t.tv_nsec;
}
int main(int argc, char **argv) {
    int rounds = atoi(argv[1]), runs = atoi(argv[2]), steps = atoi(argv[3]);
    for (int w = 0; w < 2; w++) for (int n = 1; n <= 16; n *= 2) {
        pthread_t threads[16];
        over = 0; round_number = 0;
        for (int i = 0; i < n; i++) { actors[i].x = i + 1; actors[i].steps = w * steps; }
        for (int i = 1; i < n; i++) if (pthread_create(&threads[i], 0, live, &actors[i])) return 1;
        double least = 1e300;
        for (int run = 0; run < runs; run++) {
            double start = now();
            for (int r = 0; r < rounds; r++) {
                pthread_mutex_lock(&lock);
                busy = n - 1;
                round_number++;
                pthread_cond_broadcast(&begun);
                pthread_mutex_unlock(&lock);
                job(&actors[0]);
                pthread_mutex_lock(&lock);
                while (busy > 0) pthread_cond_wait(&ended, &lock);
                pthread_mutex_unlock(&lock);
            }
            double took = now() - start;
            if (took < least) least = took;
        }
        pthread_mutex_lock(&lock);
        over = 1;
        pthread_cond_broadcast(&begun);
        pthread_mutex_unlock(&lock);
        for (int i = 1; i < n; i++) pthread_join(threads[i], 0);
        printf("pool %d %d %.0f\n", w, n, least / rounds);
    }
    return 0;
}
END
cc -O2 -pthread -o "$work/pool" "$work/pool.c"

mkdir -p "$work/repo/crates"
cp -r "$root/crates/vsw_workers" "$work/repo/crates"
cp "$root/HANDLES" "$work/repo"
cd "$work/repo"
git init -q .
touch crates.txt
rt new crates/round_speed start_io > /dev/null
rm -rf crates/round_speed/proofs crates/round_speed/specs crates/round_speed/src/*
mkdir -p crates/round_speed/proofs crates/round_speed/specs
: > crates/round_speed/specs/Lib.antt
: > crates/round_speed/proofs/Lib.antt
cat > crates.txt << 'END'
vsw_workers:
round_speed: vsw_workers
END
cd crates/round_speed
cat > src/main.rt << END
//! Times rounds of actors.
#![tactic(auto)]

mod spinner;

use spinner::{Open, Spinner, begin_all, new_spinner, take_turns};
use std::alloc::Global;
use std::io;
use std::rt::Clock;
use std::sync::Wait;
use std::thread::Threads;
use std::time::Instant;
use vsw_workers::run_round;

const ROUNDS: u32 = $rounds;

const RUNS: u32 = $runs;

const STEPS: u32 = $steps;
END
cat >> src/main.rt << 'END'

fn rounds<R: Threads + Wait + Sync>(rt: &R, alloc: Global, actors: &mut [Spinner]) {
    for _ in 0..ROUNDS {
        begin_all(actors);
        run_round(rt, alloc, actors, &Open);
    }
}

fn turns<R: Wait>(rt: &R, alloc: Global, actors: &mut [Spinner]) {
    for _ in 0..ROUNDS {
        begin_all(actors);
        take_turns(rt, alloc, actors);
    }
}

fn least_rounds<R: Threads + Wait + Clock + Sync>(rt: &R, alloc: Global, actors: &mut [Spinner]) -> io::Result<u128> {
    let mut least = u128::MAX;
    for _ in 0..RUNS {
        let start = Instant::now(rt)?;
        rounds(rt, alloc, actors);
        least = least.min(start.elapsed(rt)?.as_nanos());
    }
    Ok(least)
}

fn least_turns<R: Wait + Clock>(rt: &R, alloc: Global, actors: &mut [Spinner]) -> io::Result<u128> {
    let mut least = u128::MAX;
    for _ in 0..RUNS {
        let start = Instant::now(rt)?;
        turns(rt, alloc, actors);
        least = least.min(start.elapsed(rt)?.as_nanos());
    }
    Ok(least)
}

fn measure<R: Threads + Wait + Clock + Print + Sync>(rt: &R, alloc: Global, work: u32, count: usize) -> io::Result<()> {
    let mut actors = Vec::new(alloc);
    for _ in 0..count {
        actors.push(new_spinner(if work == 1 { STEPS } else { 0 }))?;
    }
    let by_round = least_rounds(rt, alloc, &mut actors)?;
    let in_turn = least_turns(rt, alloc, &mut actors)?;
    println!(rt; "round {work} {count} {by_round} {in_turn}")
}

fn main(rt: HostRuntime) -> io::Result<()> {
    for work in 0..2u32 {
        for count in [1usize, 2, 4, 8, 16] {
            measure(&rt, rt.alloc(), work, count)?;
        }
    }
    Ok(())
}
END
cat > src/spinner.rt << 'END'
//! An actor of one job: a chain of shifts.

ghost use Rattle.std.specs.Prelude.{take, drop, ◌≤◌};

use std::alloc::Global;
use std::sync::Wait;
use vsw_workers::{Forwarder, Gate};

#[derive(Drop)]
pub struct Spinner {
    x: u64,
    steps: u32,
    jobs: [u32; 1],
    place: usize,
    ghost inside: { place ≤ 1 },
}

impl Forwarder for Spinner {
    type What = u32;

    type Job = u32;

    ghost what = { λ s. s.steps };

    ghost done = { λ s. take s.place s.jobs };

    ghost todo = { λ s. drop s.place s.jobs };

    fn job<R: Wait>(&mut self, _rt: &R, _alloc: Global) -> bool {
        if self.place == 1 {
            return false;
        }
        self.x = spun(self.x.wrapping_add(u64::from(self.jobs[self.place])), self.steps);
        self.place += 1;
        true
    }

    fn left(&self) -> u32 {
        (1 - self.place) as u32
    }
}

fn spun(x: u64, steps: u32) -> u64 {
    let mut x = x;
    for _ in 0..steps {
        x = x ^ x << 13;
        x = x ^ x >> 7;
        x = x ^ x << 17;
    }
    x
}

pub fn new_spinner(steps: u32) -> Spinner {
    Spinner {
        x: 1,
        steps,
        jobs: [0],
        place: 1,
    }
}

/// Gives each actor its job again.
pub fn begin_all(actors: &mut [Spinner]) {
    for actor in actors.iter_mut() {
        actor.place = 0;
    }
}

/// Does the jobs of all actors in this thread.
pub fn take_turns<R: Wait>(rt: &R, alloc: Global, actors: &mut [Spinner]) {
    for actor in actors.iter_mut() {
        actor.job(rt, alloc);
    }
}

/// A gate that nothing is done at.
#[derive(Drop)]
pub struct Open;

impl Gate for Open {
    fn enter(&self, _actor: u32, _job: u32) {}

    fn leave(&self, _actor: u32, _job: u32) {}
}
END
rt run > "$work/said" 2> "$work/log" || { cat "$work/log"; exit 1; }
"$work/pool" "$rounds" "$runs" "$steps" > "$work/pool.out"
out/round_speed > "$work/round.out"
awk -v rounds="$rounds" '
    $1 == "pool" { pool[$2 " " $3] = $4 }
    $1 == "round" { round[$2 " " $3] = $4 / rounds; turn[$2 " " $3] = $5 / rounds }
    END {
        printf "one piece of work takes %.1f us, in C %.1f us\n", turn["1 1"] / 1000, pool["1 1"] / 1000
        printf "%-6s %6s %12s %10s %12s\n", "work", "actors", "run_round us", "C pool us", "in turn us"
        for (w = 0; w < 2; w++) for (n = 1; n <= 16; n *= 2) {
            k = w " " n
            printf "%-6s %6d %12.2f %10.2f %12.2f\n", w ? "25 us" : "none", n, round[k] / 1000, pool[k] / 1000, turn[k] / 1000
        }
    }' "$work/pool.out" "$work/round.out"
