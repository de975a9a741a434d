//! The work of one row: a list of operations of one kind, and how an index does them.

use crate::fill::{self, Op, Stand};
use crate::index::{Done, Got, Index, RustIndex};
use crate::random::Random;
use crate::shape::Shape;
use crate::tables::Tables;
use std::collections::HashSet;

#[derive(Clone, Copy, PartialEq, Eq, Debug)]
pub enum Kind {
    Put,
    Get,
    GetThenPut,
    Del,
    Flush,
    Text,
    Drop,
}

impl Kind {
    /// Whether its operations leave both areas as they are.
    pub fn only_reads(self) -> bool {
        matches!(self, Kind::Get | Kind::Text)
    }
}

/// The state of the tables that a row begins with.
#[derive(Clone, Copy, PartialEq, Eq)]
pub enum State {
    Filled,
    Deleted,
    Full,
}

pub struct Work {
    pub name: &'static str,
    pub kind: Kind,
    pub state: State,
    pub ops: Vec<Op>,
}

/// Whether a row's lookups are found, and where: for the table of reads.
pub const IN_BUFFER: &str = "get, found in the buffer";
pub const IN_YOUNGEST: &str = "get, found in the youngest batch";
pub const IN_OLDEST: &str = "get, found in the oldest batch";
pub const ABSENT: &str = "get, absent";
pub const DELETED: &str = "get, deleted";
pub const PUT: &str = "put, fresh keys with their flushes";
pub const MIXED: &str = "get then put, 40 % found";
pub const DEL: &str = "del";
pub const FLUSH: &str = "flush alone";
pub const TEXT: &str = "text of a partition";
pub const DROP: &str = "drop of the oldest batch";

/// Partitions of a large table that are written as text: each takes long.
const TEXTS: usize = 16;

/// All rows. The tables are filled, and are given back as they were.
pub fn all(tables: &mut Tables, shape: &Shape, random: &mut Random) -> Vec<Work> {
    let row = |name, kind, state, ops| Work {
        name,
        kind,
        state,
        ops,
    };
    let lookups = |tables: &Tables, stand, random: &mut Random| -> Vec<Op> {
        let one = |_| fill::sample(tables, stand, random);
        (0..shape.gets).map(one).collect()
    };
    let puts = fresh(tables, shape.puts, random);
    let buffer = lookups(tables, Stand::Buffer, random);
    let youngest = lookups(tables, Stand::Youngest, random);
    let oldest = lookups(tables, Stand::Oldest, random);
    let absent = fresh(tables, shape.gets, random);
    let dels = deletions(tables, shape.dels, random);
    let deleted = repeated(&dels, shape.gets, random);
    let mixed = mixed(tables, shape, random);
    let flushes = partitions(tables).collect();
    let texts = partitions(tables).take(tables.count.max(TEXTS)).collect();
    let drops = drops(tables, shape);
    vec![
        row(PUT, Kind::Put, State::Filled, puts),
        row(IN_BUFFER, Kind::Get, State::Filled, buffer),
        row(IN_YOUNGEST, Kind::Get, State::Filled, youngest),
        row(IN_OLDEST, Kind::Get, State::Filled, oldest),
        row(ABSENT, Kind::Get, State::Filled, absent),
        row(MIXED, Kind::GetThenPut, State::Filled, mixed),
        row(DEL, Kind::Del, State::Filled, dels),
        row(DELETED, Kind::Get, State::Deleted, deleted),
        row(FLUSH, Kind::Flush, State::Full, flushes),
        row(TEXT, Kind::Text, State::Filled, texts),
        row(DROP, Kind::Drop, State::Deleted, drops),
    ]
}

fn fresh(tables: &Tables, count: usize, random: &mut Random) -> Vec<Op> {
    let one = |_| Op {
        table: random.below(tables.count) as u64,
        key: random.number(),
        value: random.value(),
    };
    (0..count).map(one).collect()
}

/// So many keys of live batches in each partition, the partitions by turns.
fn deletions(tables: &Tables, each: usize, random: &mut Random) -> Vec<Op> {
    let mut taken = HashSet::new();
    let mut ops = Vec::new();
    for _ in 0..each {
        for table in 0..tables.count {
            for partition in 0..1 << tables.geometry.parts {
                loop {
                    let op = fill::sample_in(tables, table, partition, Stand::AnyBatch, random);
                    if let Some(op) = op.filter(|op| taken.insert((op.table, op.key))) {
                        ops.push(op);
                        break;
                    }
                }
            }
        }
    }
    ops
}

fn repeated(ops: &[Op], count: usize, random: &mut Random) -> Vec<Op> {
    (0..count).map(|_| ops[random.below(ops.len())]).collect()
}

/// Of 100 keys 40 are in the table when their turn comes, and 60 are fresh.
/// The tables go through the puts once for that, and are put back.
fn mixed(tables: &mut Tables, shape: &Shape, random: &mut Random) -> Vec<Op> {
    let memory = tables.memory.clone();
    let flash = shape.flash_back.then(|| tables.flash.clone());
    let mut ops = Vec::new();
    while ops.len() < shape.puts {
        let op = if random.below(100) < 40 {
            let known = fill::sample(tables, Stand::Anywhere, random);
            let value = random.value();
            Op { value, ..known }
        } else {
            fresh(tables, 1, random)[0]
        };
        fill::put::<RustIndex>(tables, op);
        ops.push(op);
    }
    tables.memory = memory;
    if let Some(flash) = flash {
        tables.flash = flash;
    }
    ops
}

/// Each partition of each table.
fn partitions(tables: &Tables) -> impl Iterator<Item = Op> {
    let (count, partitions) = (tables.count as u64, 1u64 << tables.geometry.parts);
    (0..count * partitions).map(move |place| Op {
        table: place / partitions,
        key: place % partitions,
        value: 0,
    })
}

/// All live batches of each partition, the partitions by turns.
fn drops(tables: &Tables, shape: &Shape) -> Vec<Op> {
    let live = shape.flushes.min(tables.geometry.kept);
    (0..live).flat_map(|_| partitions(tables)).collect()
}

/// The bytes and the lines of the texts that the operations write.
pub fn text_sizes(tables: &mut Tables, ops: &[Op]) -> (usize, usize) {
    let (mut bytes, mut lines) = (0, 0);
    for op in ops {
        let (memory, flash, text) = tables.areas_and_text(op.table as usize);
        let length = RustIndex::text(memory, flash, op.key as u32, text);
        let length = length.expect("an accepted text") as usize;
        bytes += length;
        lines += text[..length].iter().filter(|&&byte| byte == b'\n').count();
    }
    (bytes, lines)
}

/// Brings filled tables into the state that a row begins with.
pub fn bring(tables: &mut Tables, work: &Work, all_dels: &[Op], random: &mut Random) {
    match work.state {
        State::Filled => {}
        State::Deleted => {
            run::<RustIndex>(Kind::Del, tables, all_dels);
        }
        State::Full => fill::top_up(tables, random),
    }
}

#[inline]
fn note(sum: u64, done: Done) -> u64 {
    match done {
        Ok(pages) => sum.wrapping_add(u64::from(pages)),
        Err(number) => panic!("refused with {number}"),
    }
}

#[inline]
fn tell(sum: u64, got: Result<Got, u32>) -> u64 {
    match got {
        Ok(got) => sum
            .rotate_left(1)
            .wrapping_add(got.value)
            .wrapping_add(u64::from(got.reads) << 32 | u64::from(got.comparisons)),
        Err(number) => panic!("refused with {number}"),
    }
}

/// Does the operations: gives a number that depends on every answer.
#[inline(never)]
pub fn run<I: Index>(kind: Kind, tables: &mut Tables, ops: &[Op]) -> u64 {
    let mut sum = 0;
    match kind {
        Kind::Put => sum = change(tables, ops, |m, f, op| I::put(m, f, op.key, op.value)),
        Kind::Get => {
            for op in ops {
                let (memory, flash) = tables.areas(op.table as usize);
                sum = tell(sum, I::get(memory, flash, op.key));
            }
        }
        Kind::GetThenPut => {
            for op in ops {
                let (memory, flash) = tables.areas_mut(op.table as usize);
                sum = tell(sum, I::get(memory, flash, op.key));
                sum = note(sum, I::put(memory, flash, op.key, op.value));
            }
        }
        Kind::Del => sum = change(tables, ops, |m, f, op| I::del(m, f, op.key)),
        Kind::Flush => sum = change(tables, ops, |m, f, op| I::flush(m, f, op.key as u32)),
        Kind::Text => sum = write_texts::<I>(tables, ops),
        Kind::Drop => sum = change(tables, ops, |m, f, op| I::drop_oldest(m, f, op.key as u32)),
    }
    sum
}

/// Makes one call on the areas for each operation.
#[inline(always)]
fn change(
    tables: &mut Tables,
    ops: &[Op],
    call: impl Fn(&mut [u8], &mut [u8], &Op) -> Done,
) -> u64 {
    let mut sum = 0;
    for op in ops {
        let (memory, flash) = tables.areas_mut(op.table as usize);
        sum = note(sum, call(memory, flash, op));
    }
    sum
}

/// Writes each text over the one before it.
fn write_texts<I: Index>(tables: &mut Tables, ops: &[Op]) -> u64 {
    let mut sum = 0;
    for op in ops {
        let (memory, flash, text) = tables.areas_and_text(op.table as usize);
        sum = note(sum, I::text(memory, flash, op.key as u32, text));
    }
    sum
}
