#!/bin/sh
# Speed of vsw_table: a look that finds its row first, one that finds it as the eighth, and one that finds none, over 16, 1,000 and
# 16,384 rows that are all in use, for rows of three and of six acts; an entry alone, with a stamp that is taken away and given, and with a row that is put; and looks of
# one, two and three readers at once while a writer adds entries. Beside it the same looks and stores in C, over the same table of
# atomic words.
#
#   bench/look_speed.sh
#
# Prints nanoseconds, the least of nine runs: `look ACTS ROWS first eighth none`, `store ACTS ROWS entry stamped put`, and
# `beside READERS ROWS look`, of one run each. With LLVM at level 2; C by cc -O2.
set -eu
root=$(cd "$(dirname "$0")/.." && pwd)
work=$(mktemp -d)
trap 'rm -rf "$work"' EXIT

cat > "$work/look.c" << 'END'
// The same table, looks and stores in C: relaxed loads of words, acquire loads of stamps and of word 0.
#include <stdatomic.h>
#include <stdint.h>
#include <stdio.h>
#include <stdlib.h>
#include <string.h>
#include <time.h>

#define LOOKS 400000
#define STORES 200000
#define RUNS 9

static _Atomic uint64_t *words;
static uint32_t rows;
static uint64_t given;

static uint64_t load(size_t at) { return atomic_load_explicit(&words[at], memory_order_relaxed); }
static uint64_t acquire(size_t at) { return atomic_load_explicit(&words[at], memory_order_acquire); }
static void store(size_t at, uint64_t word) { atomic_store_explicit(&words[at], word, memory_order_seq_cst); }
static size_t stamp_of(uint32_t row) { return 14 + (size_t)32 * row; }
static size_t place(uint32_t row, size_t word) {
    return word < 31 ? 15 + (size_t)32 * row + word : 14 + (size_t)32 * rows + (size_t)42 * row + (word - 31);
}

static int has_key(uint32_t row, const uint64_t *key) {
    for (int i = 0; i < 16; i++) if (load(place(row, i)) != key[i]) return 0;
    return 1;
}
static int look(uint32_t slot, const uint64_t *key, uint64_t *body) {
    for (int i = 0; i < 8; i++) {
        uint32_t row = slot + i < rows ? slot + i : slot + i - rows;
        uint64_t stamp = acquire(stamp_of(row));
        if (stamp == 0 || !has_key(row, key)) continue;
        for (int k = 0; k < 3; k++) body[k] = load(place(row, 16 + k));
        size_t used = body[0] == 0 ? 3 + 3 * (body[2] < 18 ? body[2] : 18) : 4;
        for (size_t k = 3; k < used; k++) body[k] = load(place(row, 16 + k));
        for (size_t k = used; k < 57; k++) body[k] = 0;
        (void)acquire(0);
        atomic_thread_fence(memory_order_acquire);
        if (acquire(stamp_of(row)) == stamp) return 1;
    }
    (void)acquire(0);
    return 0;
}
static void key_of(uint64_t *key, uint32_t row) {
    memset(key, 0, 128);
    key[0] = 1 | 1 << 4 | 1 << 5 | 17 << 8 | (uint64_t)0x0800 << 16 | (uint64_t)9 << 32 | (uint64_t)53 << 48;
    key[2] = 0x020000000099, key[3] = 1;
    key[8] = (uint64_t)row << 32 | 0x0a000009;
}
static void restamp(uint32_t row) {
    store(stamp_of(row), 0);
    store(stamp_of(row), ++given);
}
static void put(uint32_t row, const uint64_t *row_words) {
    store(stamp_of(row), 0);
    for (int i = 0; i < 73; i++) if (load(place(row, i)) != row_words[i]) store(place(row, i), row_words[i]);
    store(stamp_of(row), ++given);
}
static double now(void) {
    struct timespec t;
    clock_gettime(CLOCK_MONOTONIC, &t);
    return t.tv_sec * 1e9 + t.tv_nsec;
}
static double looks(uint32_t back, uint64_t strange) {
    double least = 1e300;
    uint64_t key[16], body[57], found = 0;
    key_of(key, 0);
    key[15] = strange;
    for (int run = 0; run < RUNS; run++) {
        double start = now();
        uint32_t x = 1;
        for (int i = 0; i < LOOKS; i++) {
            x = x * 1664525 + 1013904223;
            uint32_t row = (x >> 8) % rows;
            key[8] = (uint64_t)row << 32 | 0x0a000009;
            found += look((row + rows - back) % rows, key, body);
        }
        double took = (now() - start) / LOOKS;
        if (took < least) least = took;
    }
    if (!strange && found != (uint64_t)LOOKS * RUNS) exit(1);
    return least;
}
static double stores(int what, uint64_t row_words[2][73]) {
    double least = 1e300;
    for (int run = 0; run < RUNS; run++) {
        double start = now();
        for (int i = 0; i < STORES; i++) {
            store(0, load(0) + 1);
            if (what == 1) restamp(0);
            if (what == 2) put(0, row_words[i % 2]);
        }
        double took = (now() - start) / STORES;
        if (took < least) least = took;
    }
    return least;
}
int main(void) {
    for (int acts = 3; acts <= 6; acts += 3) {
        static const uint32_t counts[] = {16, 1000, 16384};
        for (int c = 0; c < 3; c++) {
            rows = counts[c];
            words = calloc(14 + (size_t)74 * rows, 8);
            uint64_t row_words[2][73] = {0};
            for (int w = 0; w < 2; w++) {
                key_of(row_words[w], 0);
                int n = w ? 9 - acts : acts;
                row_words[w][17] = 7 + w, row_words[w][18] = n;
                for (int i = 0; i < 3 * n; i++) row_words[w][19 + i] = n == 3 ? (i % 3 ? 0 : 8) : 100 + i;
            }
            words[0] = 1ull << 32;
            for (uint32_t r = 0; r < rows; r++) {
                row_words[0][8] = (uint64_t)r << 32 | 0x0a000009;
                put(r, row_words[0]);
            }
            row_words[0][8] = 0x0a000009;
            printf("look %d %u %.0f %.0f %.0f\n", acts, rows, 100 * looks(0, 0), 100 * looks(7, 0), 100 * looks(0, 1));
            printf("store %d %u %.0f %.0f %.0f\n", acts, rows, 100 * stores(0, row_words), 100 * stores(1, row_words), 100 * stores(2, row_words));
            free((void *)words);
        }
    }
    return 0;
}
END
cc -O2 -o "$work/look" "$work/look.c"

mkdir -p "$work/repo/crates"
for name in vsw_base vsw_transpose vsw_words vsw_stamps vsw_table; do
    cp -r "$root/crates/$name" "$work/repo/crates"
done
cp "$root/HANDLES" "$work/repo"
cd "$work/repo"
git init -q .
cat > crates.txt << 'END'
vsw_base: byteorder
vsw_transpose: vsw_base
vsw_words: vsw_base vsw_transpose
vsw_stamps: vsw_base
vsw_table: vsw_base vsw_stamps atomic_table
look_speed: vsw_base vsw_transpose vsw_words vsw_stamps vsw_table
END
mkdir -p crates/look_speed/src crates/look_speed/specs crates/look_speed/proofs
cd crates/look_speed
mkdir -p proofs/beside/fill_any proofs/beside/write proofs/looks/find_all proofs/timed/fill proofs/timed/least_look proofs/timed/least_store proofs/timed/store_all
echo "pub mod First" > proofs/Lib.antt
cat > proofs/First.antt << 'END'
-- A stamp that was taken away is 0.
use Rattle.std.proofs.Common.{◌≡◌, ℕ, List, [], ◌∷◌, refl, set, get_or}

pub first_zero : (stamps : List ℕ) → get_or (set stamps 0 0) 0 0 ≡ 0
first_zero [] = refl
first_zero (s ∷ ss) = refl
END
cat > proofs/beside/fill_any/Invariants.antt << 'END'
use Rattle.std.proofs.Common.{◌≡◌}
use Rattle.look_speed.proofs.beside.fill_any.Given as goal

abbrev pub invariant-loop-number : goal.invariant-loop-number
invariant-loop-number l = (l.writer.table ≡ l.lookup.0) × (l.writer.view.opening ≡ l.initial.writer.view.opening)
END
cat > proofs/beside/write/Invariants.antt << 'END'
use Rattle.std.proofs.Common.{◌≡◌, ◌≤◌, ◌+◌, Some}
use Rattle.look_speed.proofs.beside.write.Given as goal

abbrev pub invariant-loop-done : goal.invariant-loop-done
invariant-loop-done l = (l.writer.table ≡ l.lookup.0) × (l.pass.table ≡ l.lookup.0) × (l.writer.view.opening ≡ Some l.lookup.1) × (l.pass.view.opening ≡ Some l.lookup.1)
    × (l.pass.view.number ≡ 0) × (30000000 ≤ l.pass.view.permits + l.done)
END
cat > proofs/looks/find_all/Invariants.antt << 'END'
use Rattle.std.proofs.Common.{◌≡◌, Some}
use Rattle.vsw_table.specs.Held.{IsRead}
use Rattle.look_speed.proofs.looks.find_all.Given as goal

abbrev pub invariant-loop : goal.invariant-loop
invariant-loop g l = IsRead l.initial.pass.view l.pass.view × (l.pass.table ≡ l.initial.pass.table)
END
cat > proofs/timed/fill/Invariants.antt << 'END'
use Rattle.std.proofs.Common.{◌≡◌}
use Rattle.look_speed.proofs.timed.fill.Given as goal

abbrev pub invariant-loop-number : goal.invariant-loop-number
invariant-loop-number l = (l.writer.table ≡ l.lookup.0) × (l.writer.view.opening ≡ l.initial.writer.view.opening)
END
cat > proofs/timed/least_look/Invariants.antt << 'END'
use Rattle.std.proofs.Common.{◌≡◌, Some}
use Rattle.look_speed.proofs.timed.least_look.Given as goal

abbrev pub invariant-loop : goal.invariant-loop
invariant-loop g l = (l.pass.table ≡ l.initial.pass.table) × (l.pass.view.opening ≡ l.initial.pass.view.opening) × (l.pass.view.permits ≡ l.initial.pass.view.permits) × (l.pass.view.number ≡ l.initial.pass.view.number)
END
cat > proofs/timed/least_store/Invariants.antt << 'END'
use Rattle.std.proofs.Common.{◌≡◌, ◌≤◌, ◌+◌, ◌*◌, Some}
use Rattle.look_speed.proofs.timed.least_store.Given as goal

abbrev pub invariant-loop-run : goal.invariant-loop-run
invariant-loop-run g l = (l.writer.table ≡ l.lookup.0) × (l.pass.table ≡ l.lookup.0) × (l.writer.view.opening ≡ Some l.lookup.1) × (l.pass.view.opening ≡ Some l.lookup.1)
    × (l.pass.view.number ≡ 0) × (l.pass.view.permits + 200000 * l.run ≡ l.initial.pass.view.permits)
END
cat > proofs/timed/store_all/Invariants.antt << 'END'
use Rattle.std.proofs.Common.{◌≡◌, ◌≤◌, ◌+◌, Some}
use Rattle.look_speed.proofs.timed.store_all.Given as goal

abbrev pub invariant-loop-done : goal.invariant-loop-done
invariant-loop-done l = (l.writer.table ≡ l.lookup.0) × (l.pass.table ≡ l.lookup.0) × (l.writer.view.opening ≡ Some l.lookup.1) × (l.pass.view.opening ≡ Some l.lookup.1)
    × (l.pass.view.number ≡ 0) × (l.pass.view.permits + l.done ≡ l.initial.pass.view.permits)
END
cat > specs/Lib.antt << 'END'
pub mod Written
pub mod Whole
END
cat > specs/Whole.antt << 'END'
-- A written row is 0 beyond its words in use.
use Rattle.std.proofs.Common.{◌≡◌, ℕ, ◌-◌, List, ◌++◌, refl, sym, ◌∙◌, ap, subst, arith, length, take, drop}
use Rattle.std.specs.Prelude.{replicate, []}
use Rattle.std.proofs.Math.Seq.{take-length}
use Rattle.std.proofs.lemmas.List.{append-nil, get_or-take, take-append-drop}
use Rattle.vsw_words.specs.Row.{in_use}
use Rattle.vsw_words.proofs.Used.{row_ends}
use Rattle.look_speed.specs.Written.{IsWritten}

front_tells : (words : List ℕ) → in_use (take 19 words) ≡ in_use words
front_tells words = rw (get_or-take 19 words 16 0 (grind arith), get_or-take 19 words 18 0 (grind arith)) refl

whole : (n : ℕ) (words : List ℕ) → drop n words ≡ replicate (73 - n) 0 → words ≡ take n words ++ replicate (73 - n) 0
whole n words e = sym (take-append-drop n words) ∙ ap (λ zs. take n words ++ zs) e

pub whole_written : (words : List ℕ) → IsWritten words → words ≡ take (in_use (take 19 words)) words ++ replicate (73 - in_use (take 19 words)) 0
whole_written words w =
    let ends : drop (in_use words) words ≡ replicate (73 - in_use words) 0 = subst (λ ws. drop (in_use ws) ws ≡ replicate (73 - in_use ws) 0) (sym w.words_is) (row_ends w.id w.verdict w.acts w.until w.body.few) in
    rw (front_tells words) (whole (in_use words) words ends)

-- all 73 words of a row are in use
pub whole_row : (row : List ℕ) → length row ≡ 73 → row ≡ take 73 row ++ []
whole_row row is = sym (append-nil (take 73 row) ∙ (ap (λ (n : ℕ). take n row) (sym is) ∙ take-length row))
END
cat > specs/Written.antt << 'END'
-- Rows that were written by `row_of`.
use Rattle.std.specs.Prelude.{◌≡◌, ℕ, List}
use Rattle.vsw_base.specs.declared.fate.Verdict.{Verdict}
use Rattle.vsw_base.specs.declared.flow.Ufid.{Ufid}
use Rattle.vsw_transpose.specs.declared.act.Act.{Act}
use Rattle.vsw_words.specs.Reading.{IsBody}
use Rattle.vsw_words.specs.Row.{row_words}

pub record IsWritten (words : List ℕ) : Type 0 where
  pub id : Ufid
  pub verdict : Verdict
  pub acts : List Act
  pub until : ℕ
  pub body : IsBody verdict acts
  pub words_is : words ≡ row_words id verdict acts until
END
cat > src/beside.rt << 'END'
//! Readers beside a writer, each in a thread of its own.

ghost use Rattle.std.specs.Prelude.{◌≡◌, ◌<◌, ◌≤◌, ◌+◌, ℕ, Some};
use crate::looks::find_all;
use crate::rows::{acts_of, first_key, id_of, write_row};
use crate::story::Any;
use std::alloc::Global;
use std::io;
use std::rt::Clock;
use std::thread::{Threads, join};
use std::time::Instant;
use vsw_table::{Lookup, Opened, Pass, Writer};

/// Looks of a reader.
const LOOKS: u32 = 1_000_000;

/// Entries that the writer adds meanwhile: more than the readers' time takes.
const ENTRIES: u32 = 30_000_000;

/// Looks for rows at random. How long it took, in nanoseconds.
fn read_one<R: Clock>(rt: &R, lookup: &Lookup<Any>, reader: Pass<Any>, rows: u32) -> u128
    requires lookup { (rows ≡ lookup.now.2) × (0 < rows) }
    requires one { (reader.table ≡ lookup.now.0) × (reader.view.opening ≡ Some lookup.now.1) }
{
    let mut pass = reader;
    let mut first = [0; 16];
    first_key(&mut first);
    let Ok(start) = Instant::now(rt) else {
        return 0;
    };
    let _found = find_all(lookup, &mut pass, &first, LOOKS, rows, 0, 0);
    match start.elapsed(rt) {
        Ok(took) => took.as_nanos(),
        Err(_) => 0,
    }
}

/// Two readers at once. The longer of their times.
fn read_two<R: Threads + Clock + Sync>(
    rt: &R,
    lookup: &Lookup<Any>,
    one: Pass<Any>,
    two: Pass<Any>,
    rows: u32,
) -> u128
    requires lookup { (rows ≡ lookup.now.2) × (0 < rows) }
    requires one { (one.table ≡ lookup.now.0) × (one.view.opening ≡ Some lookup.now.1) }
    requires two { (two.table ≡ lookup.now.0) × (two.view.opening ≡ Some lookup.now.1) }
{
    let (first, second) = join(
        rt,
        move || -> u128
            requires { (rows ≡ lookup.now.2) × (0 < rows) × (one.table ≡ lookup.now.0) × (one.view.opening ≡ Some lookup.now.1) }
        { read_one(rt, lookup, one, rows) },
        move || -> u128
            requires { (rows ≡ lookup.now.2) × (0 < rows) × (two.table ≡ lookup.now.0) × (two.view.opening ≡ Some lookup.now.1) }
        { read_one(rt, lookup, two, rows) },
    );
    first.max(second)
}

/// Three readers at once.
fn read_three<R: Threads + Clock + Sync>(
    rt: &R,
    lookup: &Lookup<Any>,
    one: Pass<Any>,
    two: Pass<Any>,
    three: Pass<Any>,
    rows: u32,
) -> u128
    requires lookup { (rows ≡ lookup.now.2) × (0 < rows) }
    requires one { (one.table ≡ lookup.now.0) × (one.view.opening ≡ Some lookup.now.1) }
    requires two { (two.table ≡ lookup.now.0) × (two.view.opening ≡ Some lookup.now.1) }
    requires three { (three.table ≡ lookup.now.0) × (three.view.opening ≡ Some lookup.now.1) }
{
    let (first, second) = join(
        rt,
        move || -> u128
            requires { (rows ≡ lookup.now.2) × (0 < rows) × (one.table ≡ lookup.now.0) × (one.view.opening ≡ Some lookup.now.1) × (two.table ≡ lookup.now.0) × (two.view.opening ≡ Some lookup.now.1) }
        { read_two(rt, lookup, one, two, rows) },
        move || -> u128
            requires { (rows ≡ lookup.now.2) × (0 < rows) × (three.table ≡ lookup.now.0) × (three.view.opening ≡ Some lookup.now.1) }
        { read_one(rt, lookup, three, rows) },
    );
    first.max(second)
}

/// The passes of three readers.
#[derive(Drop)]
struct Readers {
    one: Pass<Any>,
    two: Pass<Any>,
    three: Pass<Any>,
}

/// So many readers at once, three at most.
fn read_many<R: Threads + Clock + Sync>(
    rt: &R,
    lookup: &Lookup<Any>,
    readers: Readers,
    rows: u32,
    count: u32,
) -> u128
    requires lookup { (rows ≡ lookup.now.2) × (0 < rows) }
    requires one { (readers.one.table ≡ lookup.now.0) × (readers.one.view.opening ≡ Some lookup.now.1) }
    requires two { (readers.two.table ≡ lookup.now.0) × (readers.two.view.opening ≡ Some lookup.now.1) }
    requires three { (readers.three.table ≡ lookup.now.0) × (readers.three.view.opening ≡ Some lookup.now.1) }
{
    let Readers { one, two, three } = readers;
    match count {
        1 => read_one(rt, lookup, one, rows),
        2 => read_two(rt, lookup, one, two, rows),
        _ => read_three(rt, lookup, one, two, three, rows),
    }
}

/// Writes the row of each flow at its number.
fn fill_any(lookup: &Lookup<Any>, writer: &mut Writer<Any>, rows: u32) -> bool
    requires table { (writer.old.table ≡ lookup.now.0) × (rows ≡ lookup.now.2) }
    ensures table { writer.new.table ≡ lookup.now.0 }
    ensures opens { writer.new.view.opening ≡ writer.old.view.opening }
{
    let Some(by) = acts_of(3) else {
        return false;
    };
    let mut words = [0; 73];
    for number in 0..rows {
        let Some(id) = id_of(number) else {
            return false;
        };
        if !write_row(&id, &by, 7, &mut words) {
            return false;
        }
        writer.put(lookup, number, &words);
    }
    true
}

/// Adds so many entries, after each of which the rows that are current stay so.
fn write(lookup: &Lookup<Any>, first: Writer<Any>, caller: Pass<Any>) -> bool
    requires table { (first.table ≡ lookup.now.0) × (caller.table ≡ lookup.now.0) }
    requires opens { (first.view.opening ≡ Some lookup.now.1) × (caller.view.opening ≡ Some lookup.now.1) }
    requires permit { (caller.view.number ≡ 0) × (30000000 ≤ caller.view.permits) }
{
    let mut writer = first;
    let mut pass = caller;
    for done in 0..ENTRIES {
        writer.advance(lookup, &mut pass, &u64::from(done));
    }
    true
}

/// Prints the time of a look, in hundredths of a nanosecond, of one, two and three readers at once, beside the writer.
pub fn measure_beside<R: Threads + Clock + Print + Sync>(
    rt: &R,
    alloc: Global,
    rows: u32,
) -> io::Result<()>
    requires { (8 ≤ rows) × (rows ≤ 16384) }
{
    for count in 1..4u32 {
        let Ok(opened) = Lookup::<Any>::open(alloc, rows, &()) else {
            return Ok(());
        };
        let Opened { lookup, mut writer } = opened;
        let mut own = writer.pass(&lookup);
        let one = writer.pass(&lookup);
        let two = writer.pass(&lookup);
        let three = writer.pass(&lookup);
        writer.meet(&lookup, &mut own, ENTRIES);
        if !fill_any(&lookup, &mut writer, rows) {
            return Ok(());
        }
        let shared = &lookup;
        let readers = Readers { one, two, three };
        let (_wrote, took) = join(
            rt,
            move || write(shared, writer, own),
            move || -> u128
                requires { (rows ≡ shared.now.2) × (0 < rows) × (readers.one.table ≡ shared.now.0) × (readers.one.view.opening ≡ Some shared.now.1) × (readers.two.table ≡ shared.now.0) × (readers.two.view.opening ≡ Some shared.now.1) × (readers.three.table ≡ shared.now.0) × (readers.three.view.opening ≡ Some shared.now.1) }
            { read_many(rt, shared, readers, rows, count) },
        );
        println!(rt; "beside {count} {rows} {}", took / u128::from(LOOKS / 100))?;
    }
    Ok(())
}
END
cat > src/looks.rt << 'END'
//! Looks, one after the other.

ghost use Rattle.std.specs.Prelude.{◌≡◌, ◌<◌, ◌≤◌, Some};
ghost use Rattle.vsw_table.specs.Held.{IsRead};

use vsw_table::{Look, Lookup, Pass};
use vsw_stamps::Story;

/// Looks for a row from the one on that stands `back` before it. Whether it was found.
fn look_once<S: Story>(
    lookup: &Lookup<S>,
    pass: &mut Pass<S>,
    key: &[u64; 16],
    body: &mut [u64; 57],
    slot: u32,
) -> u64
    requires { (pass.old.table ≡ lookup.now.0) × (pass.old.view.opening ≡ Some lookup.now.1) × (slot < lookup.now.2) }
    ensures { IsRead pass.old.view pass.new.view × (pass.new.table ≡ pass.old.table) }
{
    match lookup.look(pass, slot, key, body) {
        Look::Hit { .. } => 1,
        Look::Miss { .. } => 0,
    }
}

/// Looks so often for the rows of flows drawn at random, each from the row on that stands `back` before its own. Where
/// `strange` isn't 0, no row has the key. How many were found.
pub fn find_all<S: Story>(
    lookup: &Lookup<S>,
    pass: &mut Pass<S>,
    first: &[u64; 16],
    times: u32,
    rows: u32,
    back: u32,
    strange: u64,
) -> u64
    requires { (pass.old.table ≡ lookup.now.0) × (pass.old.view.opening ≡ Some lookup.now.1) × (rows ≡ lookup.now.2) × (0 < rows) }
    ensures { IsRead pass.old.view pass.new.view × (pass.new.table ≡ pass.old.table) }
{
    let mut key = *first;
    key[15] = strange;
    let mut body = [0; 57];
    let mut found = 0u64;
    let mut x = 1u32;
    for _ in 0..times {
        x = x.wrapping_mul(1_664_525).wrapping_add(1_013_904_223);
        let row = (x >> 8) % rows;
        key[8] = u64::from(row)
            .wrapping_mul(0x1_0000_0000)
            .wrapping_add(0x0a00_0009);
        let slot = row.wrapping_add(rows).wrapping_sub(back) % rows;
        found = found.wrapping_add(look_once(lookup, pass, &key, &mut body, slot));
    }
    found
}
END
cat > src/main.rt << 'END'
//! Times looks, puts, stamps and entries of vsw_table.
#![tactic(auto)]

mod beside;
mod looks;
mod rows;
mod story;
mod timed;

use beside::measure_beside;
use std::io;
use timed::measure;

fn main(rt: HostRuntime) -> io::Result<()> {
    for acts in [3usize, 6] {
        for rows in [16u32, 1_000, 16_384] {
            measure(&rt, rt.alloc(), rows, acts)?;
        }
    }
    for rows in [16u32, 1_000, 16_384] {
        measure_beside(&rt, rt.alloc(), rows)?;
    }
    Ok(())
}
END
cat > src/rows.rt << 'END'
//! Rows of UDP flows that differ in their source address.

ghost use Rattle.std.specs.Prelude.{◌≡◌, ◌<◌, ◌^◌, true};
ghost use Rattle.look_speed.specs.Written.{IsWritten};

use vsw_base::{Dir, Header, Ip4, Mac, Moment, Stack, Ufid, Verdict};
use vsw_transpose::{Act, Change, Transposition};
use vsw_words::{key_words, row_of};

fn ether(src: u64) -> Header
    requires { src < 2 ^ 48 }
{
    Header::Ether {
        dst: Mac::of(0x0200_0000_0099),
        src: Mac::of(src),
        kind: 0x0800,
    }
}

fn ip(src: u32) -> Header {
    Header::Ip {
        src: Ip4::of(src),
        dst: Ip4::of(0x0a00_0009),
        proto: 17,
        part: false,
    }
}

fn ports() -> Header {
    Header::Ports {
        proto: 17,
        src: 9,
        dst: 53,
    }
}

/// The identity of the flow of this number.
pub fn id_of(number: u32) -> Option<Ufid> {
    match Stack::of(&[ether(1), ip(number), ports()]) {
        Ok(stack) => Some(Ufid {
            dir: Dir::Out,
            stack,
        }),
        Err(_) => None,
    }
}

/// Three acts that ignore, or six that put the frame in a network and edit it.
pub fn acts_of(count: usize) -> Option<Transposition> {
    if count == 3 {
        return Transposition::of(&[Act::Ignore, Act::Ignore, Act::Ignore]).ok();
    }
    let address = Change::Ip {
        src: Some(Ip4::of(7)),
        dst: None,
    };
    let port = Change::Ports {
        src: Some(7),
        dst: None,
    };
    Transposition::of(&[
        Act::Push(ether(5)),
        Act::Push(ip(3)),
        Act::Push(Header::Vxlan { vni: 7 }),
        Act::Ignore,
        Act::Modify(address),
        Act::Modify(port),
    ])
    .ok()
}

/// The key of the flow 0; those of other flows differ in word 8.
pub fn first_key(out: &mut [u64; 16]) {
    if let Some(id) = id_of(0) {
        key_words(&id, out);
    }
}

/// Writes the row of a flow, if the acts fit its stack. Says whether they do.
pub fn write_row(id: &Ufid, by: &Transposition, until: u64, out: &mut [u64; 73]) -> bool
    ensures { result ≡ true → IsWritten out.new }
{
    if !by.fits(&id.stack) {
        return false;
    }
    row_of(id, &Verdict::Pass, by, Moment::of(until), out);
    true
}
END
cat > src/story.rt << 'END'
//! A story in which each written row is good.

ghost use Rattle.std.specs.Prelude.{◌≡◌, ◌≤◌};

use vsw_stamps::Story;
use vsw_words::words_in_use;

pub struct Written;

impl Story for Written {
    ghost use Rattle.look_speed.specs.Whole.{whole_written};
    ghost use Rattle.look_speed.specs.Written.{IsWritten};
    ghost use Rattle.vsw_words.specs.Row.{in_use};

    type Opening = ();

    type Entry = u64;

    ghost who = { λ o e. 0 };

    ghost good = { λ o h row. IsWritten row };

    ghost used = { in_use };

    fn words_used(head: &[u64; 19]) -> usize {
        words_in_use(head)
    }

    ghost zeros_beyond = { λ o h row is good. whole_written row good };
}

/// A story in which every row is good, and all its words are in use.
pub struct Any;

impl Story for Any {
    ghost use Rattle.look_speed.specs.Whole.{whole_row};

    type Opening = ();

    type Entry = u64;

    ghost who = { λ o e. 0 };

    ghost good = { λ o h row. Unit {0} };

    ghost used = { λ head. 73 };

    fn words_used(_head: &[u64; 19]) -> usize {
        73
    }

    ghost zeros_beyond = { λ o h row is good. whole_row row is };
}
END
cat > src/timed.rt << 'END'
//! What is timed.

ghost use Rattle.std.specs.Prelude.{◌≡◌, ◌<◌, ◌≤◌, ◌+◌, ℕ, Some, IfSome, length};
ghost use Rattle.look_speed.specs.Written.{IsWritten};

use crate::looks::find_all;
use crate::rows::{acts_of, first_key, id_of, write_row};
use crate::story::{Any, Written};
use std::alloc::Global;
use std::io;
use std::rt::Clock;
use std::time::Instant;
use vsw_table::{Lookup, Opened, Pass, Writer};
use vsw_transpose::Transposition;

/// Looks of one run.
const LOOKS: u32 = 400_000;

/// Entries of one run.
const STORES: u32 = 200_000;

/// The least of so many runs is told.
const RUNS: u32 = 9;

/// Writes the row of each flow at its number.
fn fill(
    lookup: &Lookup<Written>,
    writer: &mut Writer<Written>,
    rows: u32,
    by: &Transposition,
) -> bool
    requires table { (writer.old.table ≡ lookup.now.0) × (rows ≡ lookup.now.2) }
    ensures table { writer.new.table ≡ lookup.now.0 }
    ensures opens { writer.new.view.opening ≡ writer.old.view.opening }
{
    let mut words = [0; 73];
    for number in 0..rows {
        let Some(id) = id_of(number) else {
            return false;
        };
        if !write_row(&id, by, 7, &mut words) {
            return false;
        }
        writer.put(lookup, number, &words);
    }
    true
}

/// The least time of a look over the runs, in hundredths of a nanosecond.
fn least_look<R: Clock>(
    rt: &R,
    lookup: &Lookup<Written>,
    pass: &mut Pass<Written>,
    rows: u32,
    back: u32,
    strange: u64,
) -> io::Result<u128>
    requires { (pass.old.table ≡ lookup.now.0) × (pass.old.view.opening ≡ Some lookup.now.1) × (rows ≡ lookup.now.2) × (0 < rows) }
    ensures { (pass.new.table ≡ pass.old.table) × (pass.new.view.opening ≡ pass.old.view.opening) × (pass.new.view.permits ≡ pass.old.view.permits) × (pass.new.view.number ≡ pass.old.view.number) }
{
    let mut first = [0; 16];
    first_key(&mut first);
    let mut least = u128::MAX;
    for _ in 0..RUNS {
        let start = Instant::now(rt)?;
        let _found = find_all(lookup, pass, &first, LOOKS, rows, back, strange);
        least = least.min(start.elapsed(rt)?.as_nanos());
    }
    Ok(least / u128::from(LOOKS / 100))
}

/// Adds an entry, and where asked takes the stamp of row 0 away and gives it another, or writes it anew with these words.
#[tactic(auto, using(crate::proofs::First::first_zero))]
fn store(
    lookup: &Lookup<Any>,
    writer: &mut Writer<Any>,
    pass: &mut Pass<Any>,
    words: &[u64; 73],
    what: u32,
)
    requires table { (writer.old.table ≡ lookup.now.0) × (pass.old.table ≡ lookup.now.0) × (0 < lookup.now.2) }
    requires opens { (writer.old.view.opening ≡ Some lookup.now.1) × (pass.old.view.opening ≡ Some lookup.now.1) }
    requires permit { (pass.old.view.number ≡ 0) × (0 < pass.old.view.permits) }
    ensures table { (writer.new.table ≡ lookup.now.0) × (pass.new.table ≡ lookup.now.0) }
    ensures opens { (writer.new.view.opening ≡ Some lookup.now.1) × (pass.new.view.opening ≡ Some lookup.now.1) }
    ensures permit { (pass.new.view.number ≡ 0) × (pass.new.view.permits + 1 ≡ pass.old.view.permits) }
{
    writer.advance(lookup, pass, &7);
    match what {
        0 => {}
        1 => {
            writer.shake(lookup, 0);
            writer.stamp(lookup, 0);
        }
        _ => writer.put(lookup, 0, words),
    }
}

/// Stores so often, with these two rows in turn.
fn store_all(
    lookup: &Lookup<Any>,
    writer: &mut Writer<Any>,
    pass: &mut Pass<Any>,
    one: &[u64; 73],
    two: &[u64; 73],
    what: u32,
)
    requires table { (writer.old.table ≡ lookup.now.0) × (pass.old.table ≡ lookup.now.0) × (0 < lookup.now.2) }
    requires opens { (writer.old.view.opening ≡ Some lookup.now.1) × (pass.old.view.opening ≡ Some lookup.now.1) }
    requires permit { (pass.old.view.number ≡ 0) × (200000 ≤ pass.old.view.permits) }
    ensures table { (writer.new.table ≡ lookup.now.0) × (pass.new.table ≡ lookup.now.0) }
    ensures opens { (writer.new.view.opening ≡ Some lookup.now.1) × (pass.new.view.opening ≡ Some lookup.now.1) }
    ensures permit { (pass.new.view.number ≡ 0) × (pass.new.view.permits + 200000 ≡ pass.old.view.permits) }
{
    for done in 0..STORES {
        let words = if done % 2 == 0 { one } else { two };
        store(lookup, writer, pass, words, what);
    }
}

/// Two rows of one flow, which differ in their until and their acts.
#[derive(Drop)]
struct Rows {
    one: [u64; 73],
    two: [u64; 73],
}

fn two_rows(by: &Transposition, other: &Transposition) -> Option<Rows>
{
    let id = id_of(0)?;
    let mut one = [0; 73];
    let mut two = [0; 73];
    if !write_row(&id, by, 8, &mut one) || !write_row(&id, other, 9, &mut two) {
        return None;
    }
    Some(Rows { one, two })
}

/// The least time of an entry over the runs, in hundredths of a nanosecond, with what is stored beside.
fn least_store<R: Clock>(
    rt: &R,
    lookup: &Lookup<Any>,
    writer: &mut Writer<Any>,
    pass: &mut Pass<Any>,
    rooms: &Rows,
    what: u32,
) -> io::Result<u128>
    requires table { (writer.old.table ≡ lookup.now.0) × (pass.old.table ≡ lookup.now.0) × (0 < lookup.now.2) }
    requires opens { (writer.old.view.opening ≡ Some lookup.now.1) × (pass.old.view.opening ≡ Some lookup.now.1) }
    requires permit { (pass.old.view.number ≡ 0) × (1800000 ≤ pass.old.view.permits) }
    ensures table { (writer.new.table ≡ lookup.now.0) × (pass.new.table ≡ lookup.now.0) }
    ensures opens { (writer.new.view.opening ≡ Some lookup.now.1) × (pass.new.view.opening ≡ Some lookup.now.1) }
    ensures permit { (pass.new.view.number ≡ 0) × (pass.old.view.permits ≤ pass.new.view.permits + 1800000) }
{
    let mut least = u128::MAX;
    for run in 0..RUNS {
        let _number = run;
        let start = Instant::now(rt)?;
        store_all(lookup, writer, pass, &rooms.one, &rooms.two, what);
        least = least.min(start.elapsed(rt)?.as_nanos());
    }
    Ok(least / u128::from(STORES / 100))
}

/// Prints the least time of looks over a table of so many rows, all of them in use.
fn measure_looks<R: Clock + Print>(
    rt: &R,
    alloc: Global,
    rows: u32,
    acts: usize,
    by: &Transposition,
) -> io::Result<()>
    requires { (8 ≤ rows) × (rows ≤ 16384) }
{
    let Ok(opened) = Lookup::<Written>::open(alloc, rows, &()) else {
        return Ok(());
    };
    let Opened { lookup, mut writer } = opened;
    let mut pass = writer.pass(&lookup);
    if !fill(&lookup, &mut writer, rows, by) {
        return Ok(());
    }
    let near = least_look(rt, &lookup, &mut pass, rows, 0, 0)?;
    let far = least_look(rt, &lookup, &mut pass, rows, 7, 0)?;
    let none = least_look(rt, &lookup, &mut pass, rows, 0, 1)?;
    println!(rt; "look {acts} {rows} {near} {far} {none}")
}

/// Prints the least time of entries, of stamps and of puts over such a table.
fn measure_stores<R: Clock + Print>(
    rt: &R,
    alloc: Global,
    rows: u32,
    acts: usize,
    rooms: &Rows,
) -> io::Result<()>
    requires { (8 ≤ rows) × (rows ≤ 16384) }
{
    let Ok(opened) = Lookup::<Any>::open(alloc, rows, &()) else {
        return Ok(());
    };
    let Opened { lookup, mut writer } = opened;
    let mut pass = writer.pass(&lookup);
    writer.meet(&lookup, &mut pass, 10_000_000);
    writer.put(&lookup, 0, &rooms.one);
    let alone = least_store(rt, &lookup, &mut writer, &mut pass, rooms, 0)?;
    let stamped = least_store(rt, &lookup, &mut writer, &mut pass, rooms, 1)?;
    let put = least_store(rt, &lookup, &mut writer, &mut pass, rooms, 2)?;
    println!(rt; "store {acts} {rows} {alone} {stamped} {put}")
}

/// Measures looks and stores of rows of so many acts.
pub fn measure<R: Clock + Print>(rt: &R, alloc: Global, rows: u32, acts: usize) -> io::Result<()>
    requires { (8 ≤ rows) × (rows ≤ 16384) × (acts ≤ 9) }
{
    let (Some(by), Some(other)) = (acts_of(acts), acts_of(9 - acts)) else {
        return Ok(());
    };
    let Some(rooms) = two_rows(&by, &other) else {
        return Ok(());
    };
    measure_looks(rt, alloc, rows, acts, &by)?;
    measure_stores(rt, alloc, rows, acts, &rooms)
}
END
rt run > "$work/said" 2> "$work/log" || { cat "$work/said" "$work/log"; exit 1; }
show() {
    awk -v who="$1" '{ printf "%-8s", who; for (i = 1; i <= NF; i++) if (i < 4) printf "%-8s", $i; else printf "%8.1f", $i / 100; print "" }'
}
out/look_speed | show rattle
"$work/look" | show C
