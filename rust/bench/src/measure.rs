//! Timing: the work of a row is cut into pieces, and both indexes do them by
//! turns on the same areas. From pass to pass they change places, so that each
//! piece is done by both from the same bytes. A piece's time is the median
//! over its passes, and a row's time is the sum over its pieces.

use crate::engine::Engine;
use crate::fill::Op;
use crate::index::RustIndex;
use crate::tables::{Start, Tables};
use crate::work::{self, Kind, Work};
use std::time::Instant;

/// Operations a second of both, and the ratio of the engine's to the Rust index's.
#[derive(Clone, Copy)]
pub struct Timing {
    pub engine: f64,
    pub rust: f64,
    pub ratio: f64,
}

#[derive(Clone, Copy, PartialEq, Eq)]
pub enum Which {
    Engine,
    Rust,
}

const PIECES: usize = 64;
/// Fewer operations on a small table would be too short for the clock.
const LEAST_ON_MANY: usize = 256;

pub fn run(which: Which, kind: Kind, tables: &mut Tables, ops: &[Op]) -> u64 {
    match which {
        Which::Engine => work::run::<Engine>(kind, tables, ops),
        Which::Rust => work::run::<RustIndex>(kind, tables, ops),
    }
}

/// The passes of a row. The tables begin and end as `start` has them.
pub fn row(tables: &mut Tables, start: &Start, work: &Work, passes: usize) -> Timing {
    compare(tables, start, work);
    let least = if tables.count > 1 { LEAST_ON_MANY } else { 1 };
    let pieces: Vec<&[Op]> = work
        .ops
        .chunks((work.ops.len() / PIECES).max(least))
        .collect();
    let mut seconds = [vec![vec![]; pieces.len()], vec![vec![]; pieces.len()]];
    for pass in 0..2 * passes {
        restore(tables, start, work);
        for (number, piece) in pieces.iter().enumerate() {
            let which = [Which::Engine, Which::Rust][(number + pass) % 2];
            let clock = Instant::now();
            std::hint::black_box(run(which, work.kind, tables, piece));
            seconds[which as usize][number].push(clock.elapsed().as_secs_f64());
        }
    }
    start.restore(tables);
    let [engine, rust] = seconds.map(|pieces| pieces.into_iter().map(median).sum::<f64>());
    Timing {
        engine: work.ops.len() as f64 / engine,
        rust: work.ops.len() as f64 / rust,
        ratio: rust / engine,
    }
}

/// Both do the whole work once: answers and bytes must be the same. A text is
/// looked at before the next one is written over it.
fn compare(tables: &mut Tables, start: &Start, work: &Work) {
    let together = match work.kind {
        Kind::Text => 1,
        _ => work.ops.len(),
    };
    let mut once = |which| -> (Vec<u64>, Vec<u64>) {
        restore(tables, start, work);
        tables.text.fill(0);
        let parts = work.ops.chunks(together);
        let told = parts.map(|ops| (run(which, work.kind, tables, ops), sum(tables, work)));
        told.unzip()
    };
    let (told, left) = once(Which::Rust);
    let (same, bytes) = once(Which::Engine);
    assert!(told == same, "{}: the answers differ", work.name);
    assert!(left == bytes, "{}: the bytes differ", work.name);
}

fn restore(tables: &mut Tables, start: &Start, work: &Work) {
    if !work.kind.only_reads() {
        start.restore(tables);
    }
}

/// A sum over all bytes of the areas that the work changes.
fn sum(tables: &Tables, work: &Work) -> u64 {
    let areas: [&[u8]; 2] = match work.kind {
        Kind::Get => return 0,
        Kind::Text => [&tables.text, &[]],
        _ => [&tables.memory, &tables.flash],
    };
    let words = areas.iter().flat_map(|area| area.chunks_exact(8));
    words.fold(0, |sum: u64, word| {
        let word = u64::from_le_bytes(word.try_into().expect("8 bytes"));
        (sum ^ word)
            .wrapping_mul(0x9e37_79b9_7f4a_7c15)
            .rotate_left(23)
    })
}

pub fn median(mut numbers: Vec<f64>) -> f64 {
    numbers.sort_by(f64::total_cmp);
    let half = numbers.len() / 2;
    if numbers.len() % 2 == 1 {
        numbers[half]
    } else {
        (numbers[half - 1] + numbers[half]) / 2.0
    }
}

/// The median seconds of some passes of anything.
pub fn seconds(passes: usize, mut work: impl FnMut()) -> f64 {
    let one = |_| {
        let clock = Instant::now();
        work();
        clock.elapsed().as_secs_f64()
    };
    median((0..passes).map(one).collect())
}
