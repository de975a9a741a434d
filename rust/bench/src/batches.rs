//! Entries of a flushed batch: how far its pages fill before one of them is full.

use crate::engine::Engine;
use crate::fill::{self, Op};
use crate::random::Random;
use crate::shape::MIDDLE;
use crate::tables::Tables;

/// Batches that each partition flushes.
pub const FLUSHES: u32 = 16;

/// A chunker's stream number, in the low 16 bits of its keys.
const STREAM: u64 = 0x0102;

/// Mean entries of a batch.
pub struct Batches {
    /// Of keys whose low 16 bits hold one stream number.
    pub one_stream: f64,
    /// Of keys that are random throughout.
    pub random: f64,
}

/// What the engine's flushes write in the middle geometry.
pub fn measured() -> Batches {
    Batches {
        one_stream: mean_entries(4, |key| key & !0xffff | STREAM),
        random: mean_entries(5, |key| key),
    }
}

/// Puts fresh keys of one partition after the other, each made so of a random
/// one, and counts the entries of every batch in flash once it is flushed.
fn mean_entries(seed: u64, key: impl Fn(u64) -> u64) -> f64 {
    let mut tables = Tables::new(MIDDLE, 1);
    tables.format::<Engine>();
    let random = &mut Random::new(seed);
    let partitions = 1usize << MIDDLE.parts;
    let mut entries = 0;
    for partition in 0..partitions {
        let mut flushed = 0;
        while flushed < FLUSHES {
            let op = Op {
                table: 0,
                key: key(fill::key_in(&tables, partition, random)),
                value: random.value(),
            };
            if fill::put::<Engine>(&mut tables, op) > 0 {
                flushed += 1;
                entries += fill::batch_entries(&tables, 0, partition, flushed);
            }
        }
    }
    entries as f64 / (partitions as f64 * f64::from(FLUSHES))
}
