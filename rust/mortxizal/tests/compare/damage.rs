//! Damage to a table: one number somewhere in its areas set to another.

use crate::common::plain::{live, most_entries, slot};
use crate::common::{set_word, Rng, Table};

/// Sets the number at a place, of so many bytes, to one near what it is or
/// should be, to a bound, to a key, or to any.
fn scribble(rng: &mut Rng, bytes: &mut [u8], at: usize, width: usize, near: u64, keys: &[u64]) {
    let field = &mut bytes[at..at + width];
    let mut number = [0; 8];
    number[..width].copy_from_slice(field);
    let now = u64::from_le_bytes(number);
    let numbers = [
        0,
        near,
        near.wrapping_add(1),
        near.wrapping_sub(1),
        now.wrapping_add(1),
        now.wrapping_sub(1),
        now ^ 1 << rng.below(8 * width),
        u64::MAX,
        u64::MAX - 1,
        rng.next(),
        rng.pick(keys),
    ];
    let new = rng.pick(&numbers).to_le_bytes();
    field.copy_from_slice(&new[..width]);
}

/// A field of a page's head and its width: count, page, partition, zero, flush
/// number, zero; or of an entry: key, value.
fn page_field(rng: &mut Rng, length: usize) -> (usize, usize) {
    match rng.below(10) {
        0..=2 => (0, 2),
        3 => (2, 2),
        4 => (4, 2),
        5 => (6, 2),
        6 => (8, 4),
        7 => (12, 4),
        _ => (16 + 8 * rng.below((length - 16) / 8), 8),
    }
}

/// Damages one place of a table that has at least the need of its geometry.
pub fn damage(rng: &mut Rng, table: &mut Table, keys: &[u64]) {
    let g = table.g;
    let (t, q) = (rng.below(1 << g.parts), rng.below(g.pages as usize));
    let slot = rng.below(g.kept as usize);
    match rng.below(32) {
        0 => {
            let at = 4 * rng.below(8);
            scribble(rng, &mut table.memory, at, 4, 1, keys);
        }
        1..=12 => damage_head(rng, table, t, keys),
        13..=16 => damage_list(rng, table, t, keys),
        17 => {
            let at = rng.below(g.bits as usize / 8);
            scribble(rng, table.filter(t, slot), at, 1, 0xff, keys);
        }
        // A filter that passes all keys makes gets read.
        18..=20 => table.filter(t, slot).fill(0xff),
        21..=23 => {
            let (at, width) = page_field(rng, g.page as usize);
            let most = u64::from(g.page / 16 - 1);
            scribble(rng, table.buffer(t, q), at, width, most, keys);
        }
        24..=26 => {
            let (at, width) = page_field(rng, g.page as usize);
            let flushes = table.flushes(t).into();
            scribble(rng, table.batch(t, slot, q), at, width, flushes, keys);
        }
        27..=28 => damage_oldest(rng, table, t, q, keys),
        // The flush numbers are nearly used up, and the batches keep theirs.
        29 => table.set_flushes(t, u32::MAX - rng.below(4) as u32),
        _ => {
            table.set_flushes(t, u32::MAX - rng.below(4) as u32);
            mend(table, t);
        }
    }
}

/// A number of a partition's head: F, L, the total or the live number.
fn damage_head(rng: &mut Rng, table: &mut Table, t: usize, keys: &[u64]) {
    let g = table.g;
    let (at, near) = match rng.below(14) {
        0..=2 => (0, g.kept),
        3..=5 => (4, g.list),
        6..=8 => (8, most_entries(g)),
        9..=10 => (8, 1),
        11 => (12, 1),
        12 => (12, g.kept),
        _ => (12, table.flushes(t)),
    };
    scribble(rng, table.head(t), at, 4, near.into(), keys);
}

/// The oldest live batch, as far as the head makes sense.
fn oldest(table: &mut Table, t: usize) -> u32 {
    let (flushes, live) = (table.flushes(t), table.live(t));
    (flushes - live.min(table.g.kept).min(flushes)).saturating_add(1)
}

fn damage_list(rng: &mut Rng, table: &mut Table, t: usize, keys: &[u64]) {
    let place = rng.below(table.g.list as usize);
    let (at, width) = rng.pick(&[(0, 8), (8, 4), (8, 4), (12, 4)]);
    // With the next flush goes the stamp F + 1 − K, with a drop the oldest batch's.
    let pushed_out = u64::from(table.flushes(t)).wrapping_sub(table.g.kept.into());
    let near = rng.pick(&[pushed_out, oldest(table, t).into()]);
    scribble(rng, table.list_place(t, place), at, width, near, keys);
}

/// A number of the head of a page of the oldest live batch, which a drop and
/// the next flush that pushes it out read.
fn damage_oldest(rng: &mut Rng, table: &mut Table, t: usize, q: usize, keys: &[u64]) {
    let g = table.g;
    let oldest = oldest(table, t);
    let (at, width, near) = rng.pick(&[
        (0, 2, u64::from(g.page / 16 - 1)),
        (2, 2, q as u64),
        (4, 2, t as u64),
        (6, 2, 0),
        (8, 4, oldest.into()),
    ]);
    let slot = slot(g, oldest.into());
    scribble(rng, table.batch(t, slot, q), at, width, near, keys);
}

/// Puts a partition in order: its live number, its list, its pages, and the total
/// that they come to.
pub fn mend(table: &mut Table, t: usize) {
    let g = table.g;
    let most = (g.page / 16 - 1) as u16;
    let fit = |page: &mut [u8]| {
        let count = u16::from_le_bytes([page[0], page[1]]).min(most);
        page[..2].copy_from_slice(&count.to_le_bytes());
    };
    let listed = table.listed(t).min(g.list);
    table.set_listed(t, listed);
    let flushes = table.flushes(t);
    let number = table.live(t).min(g.kept).min(flushes);
    table.set_live(t, number);
    for q in 0..g.pages as usize {
        fit(table.buffer(t, q));
        for (number, slot) in live(g, flushes.into(), number.into()) {
            let page = table.batch(t, slot, q);
            fit(page);
            page[2..8].copy_from_slice(&[q as u8, 0, t as u8, 0, 0, 0]);
            set_word(page, 8, number as u32);
        }
    }
    table.recount(t);
}
