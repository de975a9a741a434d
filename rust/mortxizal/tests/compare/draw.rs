//! Geometries and calls, drawn at random.

use reference::Geometry;

use crate::common::call::Call;
use crate::common::{flash_need, memory_need, set_word, Rng, Table};
use crate::pair::Pair;

fn bytes(g: Geometry) -> usize {
    memory_need(g) + flash_need(g)
}

/// Any allowed geometry that needs at most so many bytes.
pub fn geometry_within(rng: &mut Rng, most: usize) -> Geometry {
    loop {
        let longest = rng.pick(&[2, 6, 40, 1024]);
        let g = Geometry::new([
            rng.below(9) as u32,
            64 << rng.below(7),
            1 << rng.below(7),
            1 + rng.below(32) as u32,
            64 << rng.below(11),
            1 + rng.below(8) as u32,
            1 + rng.below(longest) as u32,
        ]);
        if bytes(g) <= most {
            return g;
        }
    }
}

/// An allowed geometry, nearly always a small one: both areas are compared
/// whole after every call.
pub fn geometry_mostly_small(rng: &mut Rng) -> Geometry {
    match rng.below(100) {
        0..=1 => geometry_within(rng, 2 << 20),
        2..=9 => geometry_within(rng, 64 << 10),
        10..=49 => geometry_within(rng, 4 << 10),
        _ => rng.small_geometry(),
    }
}

/// How many calls a sequence on a table of this geometry has.
pub fn length(g: Geometry) -> usize {
    ((2 << 20) / bytes(g)).clamp(100, 600)
}

/// Numbers in or near the table's ranges: a few of g's changed.
pub fn any_numbers(rng: &mut Rng, g: Geometry) -> Geometry {
    let mut numbers = [g.parts, g.page, g.pages, g.kept, g.bits, g.hashes, g.list];
    let bounds: [(u32, u32); 7] = [
        (0, 8),
        (64, 4096),
        (1, 64),
        (1, 32),
        (64, 65536),
        (1, 8),
        (1, 1024),
    ];
    for _ in 0..1 + rng.below(2) {
        let i = rng.below(7);
        let (low, high) = bounds[i];
        let near = [
            low,
            high,
            high + 1,
            low.saturating_sub(1),
            2 * high,
            numbers[i].wrapping_mul(2),
            numbers[i] / 2,
            numbers[i].wrapping_add(1),
            rng.below(high as usize + 2) as u32,
            u32::MAX,
            1 << 31,
            rng.next() as u32,
        ];
        numbers[i] = rng.pick(&near);
    }
    Geometry::new(numbers)
}

/// A partition, nearly always one that the table has.
fn partition(rng: &mut Rng, g: Geometry) -> u32 {
    match rng.below(24) {
        0 => rng.pick(&[1 << g.parts, u32::MAX]),
        1 => rng.next() as u32,
        _ => rng.below(1 << g.parts) as u32,
    }
}

/// A call other than format, by the geometry of the last one.
pub fn call(rng: &mut Rng, pair: &mut Pair, keys: &[u64]) -> Call {
    let g = pair.plain.g;
    match rng.below(100) {
        0..=37 => Call::Put(rng.pick(keys), rng.value()),
        38..=60 => Call::Get(rng.pick(keys)),
        61..=75 => Call::Del(rng.pick(keys)),
        76..=83 => Call::Flush(partition(rng, g)),
        84..=87 => Call::Drop(partition(rng, g)),
        88..=90 => Call::Count(partition(rng, g)),
        91..=93 => {
            let t = partition(rng, g);
            Call::Text(t, room(rng, &pair.plain, t))
        }
        _ => {
            let t = partition(rng, g);
            let page = match rng.below(24) {
                0 => g.pages,
                _ => rng.below(g.pages as usize) as u32,
            };
            let flushes = flushes(pair, t);
            let age = rng.below(g.kept as usize + 2) as u32;
            let numbers = [
                0,
                flushes.wrapping_sub(age),
                flushes,
                flushes.wrapping_add(1),
            ];
            Call::View(t, page, rng.pick(&numbers))
        }
    }
}

/// The length of a text area, most often around what the text needs.
fn room(rng: &mut Rng, table: &Table, t: u32) -> usize {
    let length = table.text(t).map_or(11, |text| text.len());
    match rng.below(6) {
        0 => 0,
        1 => length.saturating_sub(1),
        2 => length + 1,
        3 => length + 2 + rng.below(4000),
        _ => length,
    }
}

/// The flushes that a partition has had, if there is one.
fn flushes(pair: &mut Pair, t: u32) -> u32 {
    let g = pair.plain.g;
    if t < 1 << g.parts && pair.plain.memory.len() >= memory_need(g) {
        pair.plain.flushes(t as usize)
    } else {
        3
    }
}

/// The length of an area, most often around the need.
pub fn area(rng: &mut Rng, need: usize) -> usize {
    match rng.below(12) {
        0 => rng.pick(&[0, 1, 31, 32, 33]),
        1 => rng.below(need),
        2 => need - 1,
        3 => need + 1,
        4 => need + rng.below(100),
        _ => need,
    }
}

/// Has memory open, most often, with its geometry or one near it. Behind it
/// some bytes are cleared, so that more than the first look is needed.
pub fn open(rng: &mut Rng, table: &mut Table) {
    let mut opening = match rng.below(8) {
        0 => return,
        1 => any_numbers(rng, table.g).to_opening(),
        2 => geometry_within(rng, 1 << 20).to_opening(),
        _ => table.g.to_opening(),
    };
    if rng.one_in(16) {
        set_word(&mut opening, 28, 1 << rng.below(32));
    }
    let length = table.memory.len().min(32);
    let (start, rest) = table.memory.split_at_mut(length);
    start.copy_from_slice(&opening[..length]);
    let mask = rng.pick(&[0, 1, 3, 255]);
    rest.iter_mut().for_each(|byte| *byte &= mask);
}
