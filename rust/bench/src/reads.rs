//! Flash pages read per lookup, measured and as the Bloom formula predicts.

use crate::engine::Engine;
use crate::fill;
use crate::index::Index;
use crate::tables::Tables;
use crate::work::{self, Work};

#[derive(Clone, Copy)]
pub struct Reads {
    pub measured: f64,
    pub predicted: f64,
}

/// Of a row of lookups in filled tables.
pub fn of(tables: &Tables, work: &Work) -> Option<Reads> {
    let predicted = match work.name {
        work::IN_BUFFER | work::DELETED => 0.0,
        work::IN_YOUNGEST => 1.0,
        work::IN_OLDEST => 1.0 + passing(tables, 1),
        work::ABSENT => passing(tables, 0),
        _ => return None,
    };
    let read = |op: &fill::Op| {
        let (memory, flash) = tables.areas(op.table as usize);
        u64::from(
            Engine::get(memory, flash, op.key)
                .expect("an accepted get")
                .reads,
        )
    };
    let total: u64 = work.ops.iter().map(read).sum();
    Some(Reads {
        measured: total as f64 / work.ops.len() as f64,
        predicted,
    })
}

/// The live batches, without the so many oldest ones, whose filter passes a
/// key that they do not hold: the sum of (1 − (1 − 1/M)^(h n))^h over their
/// numbers n of entries, in a mean partition.
fn passing(tables: &Tables, without: u32) -> f64 {
    let (bits, hashes) = (f64::from(tables.geometry.bits), tables.geometry.hashes);
    let partitions = 1usize << tables.geometry.parts;
    let mut sum = 0.0;
    for table in 0..tables.count {
        for partition in 0..partitions {
            let (flushes, live) = fill::flushes_and_live(tables, table, partition);
            for number in flushes - live + 1 + without..=flushes {
                let entries = fill::batch_entries(tables, table, partition, number) as f64;
                let clear = (1.0 - 1.0 / bits).powf(f64::from(hashes) * entries);
                sum += (1.0 - clear).powi(hashes as i32);
            }
        }
    }
    sum / (tables.count * partitions) as f64
}
