//! The proved library against the independent Rust index, on random sequences
//! of calls: every answer in all its fields, and every byte of both areas and of
//! a text area after every call; and the figures of a geometry, in all of theirs.
//!
//! `MX_SEED` sets the first seed and `MX_CALLS` the number of calls on areas, of
//! all the tests here together. A failure prints the seed of its sequence.

#[path = "../../../reference/tests/common/mod.rs"]
mod common;
mod damage;
mod draw;
#[path = "../engine/mod.rs"]
mod engine;
mod figures;
mod pair;

use std::env;
use std::thread;

use common::call::Call;
use common::plain::sum_of_counts;
use common::tally::Outcome::{self, Refused};
use common::tally::Tally;
use common::{flash_need, memory_need, Rng, Table};
use pair::Pair;

const CALLS: u64 = 10_000_000;

fn setting(name: &str, usual: u64) -> u64 {
    match env::var(name) {
        Ok(text) => text.parse().unwrap_or_else(|_| panic!("{name}={text}")),
        Err(_) => usual,
    }
}

/// Tells the seed of the sequence that failed.
struct Running {
    test: &'static str,
    seed: u64,
}

impl Drop for Running {
    fn drop(&mut self) {
        if thread::panicking() {
            let Running { test, seed } = self;
            eprintln!("{test}: seed {seed} failed; MX_SEED={seed} MX_CALLS=1 begins with it");
        }
    }
}

/// Runs sequences of consecutive seeds until a share of the calls is made, and
/// looks at what they came to: outcomes that have to come up, and all that may.
fn run(
    test: &'static str,
    percent: u64,
    sequence: impl Fn(&mut Rng, &mut Tally),
    must: impl Fn(&str, Outcome) -> bool,
    may: impl Fn(&str, Outcome) -> bool,
) {
    let calls = setting("MX_CALLS", CALLS);
    let mut tally = Tally::default();
    let mut running = Running {
        test,
        seed: setting("MX_SEED", 1),
    };
    while tally.calls() <= calls * percent / 100 {
        sequence(&mut Rng(running.seed), &mut tally);
        running.seed += 1;
    }
    println!("{test}, to seed {}: {tally}", running.seed);
    // A few calls can't come to everything.
    tally.check(|call, outcome| calls >= CALLS && must(call, outcome), may);
}

/// The partition that the call was about counts what its pages hold.
fn check_total(table: &Table, call: Call) {
    let g = table.g;
    if let Some(t) = call.partition(g).filter(|&t| t < 1 << g.parts) {
        let sum = sum_of_counts(g, &table.memory, &table.flash, t as usize);
        assert_eq!(table.count(t), Ok(sum as u32), "{call:?}");
    }
}

/// Whatever the areas held: after a format every call is accepted or is refused
/// for its arguments, a full list, an empty buffer or want of a batch, and totals
/// are right. A text is refused for its partition or for a short text area alone.
#[test]
fn sequences_from_a_format() {
    let honest = |call: &str, outcome: Outcome| match outcome {
        Refused(2 | 3) => call == "format",
        Refused(number) => [1, 4, 14, 15, 17, 22, 23].contains(&number),
        _ => !outcome.is_overfull(),
    };
    run(
        "sequences_from_a_format",
        50,
        |rng, tally| {
            let g = draw::geometry_mostly_small(rng);
            let number = rng.pick(&[3, 6, 12, 40, 150]);
            let keys = rng.keys(number);
            let (memory, flash) = (
                memory_need(g) + rng.below(40),
                flash_need(g) + rng.below(40),
            );
            let mut pair = Pair::random(rng, g, memory, flash);
            pair.counted(rng, tally, Call::Format(g));
            for _ in 0..draw::length(g) {
                let call = match rng.below(300) {
                    0 => Call::Format(draw::any_numbers(rng, g)),
                    _ => draw::call(rng, &mut pair, &keys),
                };
                pair.counted(rng, tally, call);
                check_total(&pair.plain, call);
            }
        },
        honest,
        honest,
    );
}

/// A table with some of its bytes damaged, before and between the calls.
#[test]
fn damaged_tables() {
    run(
        "damaged_tables",
        40,
        |rng, tally| {
            let g = draw::geometry_mostly_small(rng);
            let number = rng.pick(&[3, 6, 12, 40]);
            let keys = rng.keys(number);
            let mut pair = Pair::random(rng, g, memory_need(g), flash_need(g));
            pair.counted(rng, tally, Call::Format(g));
            for _ in 0..rng.below(draw::length(g)) {
                let call = draw::call(rng, &mut pair, &keys);
                pair.counted(rng, tally, call);
            }
            for _ in 0..draw::length(g) / 10 {
                pair.change(|table| {
                    // Else an opening that is damaged once would stop every later call,
                    // and a batch or a total every later flush.
                    if rng.one_in(3) {
                        table.memory[..32].copy_from_slice(&g.to_opening());
                        damage::mend(table, rng.below(1 << g.parts));
                    }
                    for _ in 0..1 + rng.below(3) {
                        damage::damage(rng, table, &keys);
                    }
                });
                for _ in 0..1 + rng.below(20) {
                    let call = draw::call(rng, &mut pair, &keys);
                    pair.counted(rng, tally, call);
                }
            }
        },
        |_, outcome| !matches!(outcome, Refused(1..=3)),
        |_, outcome| outcome != Refused(1),
    );
}

/// Areas of any length, most of them around a need, that hold random bytes or
/// open with a geometry, allowed or not.
#[test]
fn areas_of_any_length() {
    run(
        "areas_of_any_length",
        10,
        |rng, tally| {
            let g = draw::geometry_within(rng, 8 << 10);
            let keys = rng.keys(8);
            let (memory, flash) = (memory_need(g), flash_need(g));
            let (memory, flash) = (draw::area(rng, memory), draw::area(rng, flash));
            let mut pair = Pair::random(rng, g, memory, flash);
            pair.change(|table| draw::open(rng, table));
            for _ in 0..20 {
                let call = match rng.below(6) {
                    0 => Call::Format(g),
                    1 => Call::Format(draw::any_numbers(rng, g)),
                    _ => draw::call(rng, &mut pair, &keys),
                };
                pair.counted(rng, tally, call);
            }
        },
        |_, outcome| !matches!(outcome, Refused(12..)) && !outcome.is_overfull(),
        |_, _| true,
    );
}
