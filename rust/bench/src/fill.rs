//! Filling tables, and finding keys in them by where they stand.

use crate::index::{Index, RustIndex};
use crate::random::Random;
use crate::tables::Tables;

/// One operation's arguments. A flush, a text and a drop have their partition as the key.
#[derive(Clone, Copy, PartialEq, Eq, Debug)]
pub struct Op {
    pub table: u64,
    pub key: u64,
    pub value: u64,
}

/// Where a key is to be found.
#[derive(Clone, Copy, PartialEq, Eq)]
pub enum Stand {
    Buffer,
    Youngest,
    Oldest,
    AnyBatch,
    Anywhere,
}

/// A fresh key of the partition: its top s bits are given.
pub fn key_in(tables: &Tables, partition: usize, random: &mut Random) -> u64 {
    let parts = tables.geometry.parts;
    let low = random.number() & u64::MAX >> parts;
    // In two steps, because with s = 0 a single shift would be by 64.
    (partition as u64) << 1 << (63 - parts) | low
}

/// Puts fresh keys until each partition was flushed so often, and then some
/// more, a different number in each partition: so their next flushes are
/// spread evenly over the puts that follow.
pub fn fill<I: Index>(tables: &mut Tables, flushes: u32, random: &mut Random) {
    let partitions = 1usize << tables.geometry.parts;
    for table in 0..tables.count {
        for partition in 0..partitions {
            let (mut done, mut since, mut batch) = (0, 0, 0);
            let place = (table * partitions + partition) as f64;
            let share = (place * 0.618_033_988_749_895).fract();
            while done < flushes || since < (share * batch as f64) as usize {
                let op = Op {
                    table: table as u64,
                    key: key_in(tables, partition, random),
                    value: random.value(),
                };
                since += 1;
                if put::<I>(tables, op) > 0 {
                    done += 1;
                    (batch, since) = (since, 0);
                }
            }
        }
    }
}

/// Fills every buffer until the next fresh key would flush it.
pub fn top_up(tables: &mut Tables, random: &mut Random) {
    let layout = tables.geometry.layout().expect("an allowed geometry");
    for table in 0..tables.count {
        for partition in 0..layout.partitions() {
            loop {
                let key = key_in(tables, partition, random);
                let page = reference::key::page_number(&layout, key);
                let (memory, flash) = tables.areas(table);
                let full = count(view(memory, flash, partition, page, 0));
                if full == layout.entries() {
                    break;
                }
                let op = Op {
                    table: table as u64,
                    key,
                    value: key.max(1),
                };
                put::<RustIndex>(tables, op);
            }
        }
    }
}

pub fn put<I: Index>(tables: &mut Tables, op: Op) -> u32 {
    let (memory, flash) = tables.areas_mut(op.table as usize);
    I::put(memory, flash, op.key, op.value).expect("an accepted put")
}

fn view<'a>(
    memory: &'a [u8],
    flash: &'a [u8],
    partition: usize,
    page: usize,
    number: u32,
) -> &'a [u8] {
    reference::view(memory, flash, partition as u32, page as u32, number).expect("a live page")
}

fn count(page: &[u8]) -> usize {
    usize::from(u16::from_le_bytes([page[0], page[1]]))
}

fn word(bytes: &[u8], at: usize) -> u64 {
    u64::from_le_bytes(bytes[at..at + 8].try_into().expect("8 bytes"))
}

/// Flushes done by a partition, and its live batches.
pub fn flushes_and_live(tables: &Tables, table: usize, partition: usize) -> (u32, u32) {
    let layout = tables.geometry.layout().expect("an allowed geometry");
    let head = &tables.areas(table).0[layout.partition_at(partition)..];
    let number = |at: usize| u32::from_le_bytes(head[at..at + 4].try_into().expect("4 bytes"));
    (number(0), number(12))
}

/// A random entry that stands there.
pub fn sample(tables: &Tables, stand: Stand, random: &mut Random) -> Op {
    loop {
        let table = random.below(tables.count);
        let partition = random.below(1 << tables.geometry.parts);
        if let Some(op) = sample_in(tables, table, partition, stand, random) {
            return op;
        }
    }
}

/// The same in one partition, unless an empty page was hit.
pub fn sample_in(
    tables: &Tables,
    table: usize,
    partition: usize,
    stand: Stand,
    random: &mut Random,
) -> Option<Op> {
    let (flushes, live) = flushes_and_live(tables, table, partition);
    let number = match stand {
        Stand::Buffer => 0,
        Stand::Youngest => flushes,
        Stand::Oldest => flushes - live + 1,
        Stand::AnyBatch => flushes - random.below(live as usize) as u32,
        Stand::Anywhere => match random.below(live as usize + 1) as u32 {
            0 => 0,
            age => flushes + 1 - age,
        },
    };
    let (memory, flash) = tables.areas(table);
    let page = random.below(tables.geometry.pages as usize);
    let page = view(memory, flash, partition, page, number);
    let used = count(page);
    if used == 0 {
        return None;
    }
    let at = 16 * (1 + random.below(used));
    Some(Op {
        table: table as u64,
        key: word(page, at),
        value: word(page, at + 8),
    })
}

/// All entries of the live batches and of the buffers, older ones first.
pub fn each_entry(tables: &Tables, mut visit: impl FnMut(Op)) {
    for table in 0..tables.count {
        for partition in 0..1 << tables.geometry.parts {
            let (flushes, live) = flushes_and_live(tables, table, partition);
            let batches = flushes - live + 1..=flushes;
            for number in batches.chain([0]) {
                for page in 0..tables.geometry.pages as usize {
                    let (memory, flash) = tables.areas(table);
                    let page = view(memory, flash, partition, page, number);
                    for entry in 1..=count(page) {
                        visit(Op {
                            table: table as u64,
                            key: word(page, 16 * entry),
                            value: word(page, 16 * entry + 8),
                        });
                    }
                }
            }
        }
    }
}

/// The entries of one batch.
pub fn batch_entries(tables: &Tables, table: usize, partition: usize, number: u32) -> usize {
    let (memory, flash) = tables.areas(table);
    (0..tables.geometry.pages as usize)
        .map(|page| count(view(memory, flash, partition, page, number)))
        .sum()
}
