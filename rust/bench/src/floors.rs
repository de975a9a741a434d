//! Floors: a plain `HashMap` for lookups in memory, memcpy for a flush.

use crate::fill;
use crate::measure;
use crate::tables::Tables;
use crate::work::{Kind, Work};
use std::collections::HashMap;
use std::hint::black_box;

/// All entries of the tables in one map with the standard hasher.
pub fn map(tables: &Tables) -> HashMap<u64, u64> {
    let mut map = HashMap::new();
    fill::each_entry(tables, |op| {
        map.insert(op.key, op.value);
    });
    map
}

/// Lookups a second in a map.
pub fn lookups(map: &HashMap<u64, u64>, work: &Work, passes: usize) -> f64 {
    assert!(work.kind == Kind::Get);
    let seconds = measure::seconds(passes, || {
        let mut sum = 0u64;
        for op in &work.ops {
            if let Some(value) = map.get(&op.key) {
                sum = sum.rotate_left(1).wrapping_add(*value);
            }
        }
        black_box(sum);
    });
    work.ops.len() as f64 / seconds
}

/// Bytes a second that memcpy takes from the buffers to a slot of flash.
pub fn copies(tables: &mut Tables, work: &Work, passes: usize) -> f64 {
    let layout = tables.geometry.layout().expect("an allowed geometry");
    let size = layout.batch_bytes();
    let seconds = measure::seconds(passes, || {
        for op in &work.ops {
            let partition = op.key as usize;
            let (memory, flash) = tables.areas_mut(op.table as usize);
            let from = layout.partition_at(partition) + layout.partition_bytes() - size;
            let to = layout.slot_at(partition, layout.kept() - 1);
            flash[to..to + size].copy_from_slice(black_box(&memory[from..from + size]));
        }
    });
    (work.ops.len() * size) as f64 / seconds
}
