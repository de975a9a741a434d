//! Areas of any content: the index against the papers written out plainly,
//! answer by answer and byte by byte.

mod common;

use common::call::{call_index, Answer, Call};
use common::oracle::call_oracle;
use common::plain::{live, most_entries, slot};
use common::tally::{Outcome, Tally};
use common::{flash_need, memory_need, set_word, Rng, Table};
use reference::Geometry;

fn random_call(rng: &mut Rng, g: Geometry, keys: &[u64]) -> Call {
    let partition = |rng: &mut Rng| match rng.below(12) {
        0 => 1 << g.parts,
        1 => rng.next() as u32,
        _ => rng.below(1 << g.parts) as u32,
    };
    match rng.below(19) {
        0..=5 => Call::Put(rng.pick(keys), rng.value()),
        6..=9 => Call::Get(rng.pick(keys)),
        10..=11 => Call::Del(rng.pick(keys)),
        12..=13 => Call::Flush(partition(rng)),
        14 => Call::Count(partition(rng)),
        15 => Call::Drop(partition(rng)),
        16 => Call::Text(partition(rng), rng.pick(&[0, 30, 300, 3000, 30_000])),
        _ => {
            let beyond = usize::from(rng.one_in(8));
            let page = rng.below(g.pages as usize + beyond);
            let number = [0, 1, 2, 3, g.kept, u32::MAX, rng.next() as u32];
            Call::View(partition(rng), page as u32, rng.pick(&number))
        }
    }
}

/// Makes the call on both sides; they agree on everything.
fn compare(call: Call, memory: &mut [u8], flash: &mut [u8]) -> Answer {
    let (mut plain_memory, mut plain_flash) = (memory.to_vec(), flash.to_vec());
    let before = (plain_memory.clone(), plain_flash.clone());
    let expected = call_oracle(call, &mut plain_memory, &mut plain_flash);
    let answer = call_index(call, memory, flash);
    assert_eq!(answer, expected, "{call:?}");
    assert!(memory == plain_memory, "{call:?}: memory");
    assert!(flash == plain_flash, "{call:?}: flash");
    if let Answer::Refused(..) = answer {
        assert!(memory == before.0 && flash == before.1, "{call:?}: refused");
    }
    answer
}

/// A number at or near the bounds of what it may be.
fn near(rng: &mut Rng, bound: u32) -> u32 {
    match rng.below(6) {
        0 => bound,
        1 => bound.wrapping_add(1),
        2 => u32::MAX - rng.below(2) as u32,
        3 => rng.next() as u32,
        _ => rng.below(bound as usize + 1) as u32,
    }
}

/// A partition after so many flushes and drops, with live batches that are in
/// order but hold any of the keys, or the same one twice, or one behind the used
/// entries.
fn invent_batches(rng: &mut Rng, table: &mut Table, t: usize, keys: &[u64]) {
    let g = table.g;
    let flushes = near(rng, 2 * g.kept);
    table.set_flushes(t, flushes);
    if rng.one_in(2) {
        let dropped = rng.below(flushes.min(g.kept) as usize + 1) as u32;
        table.set_live(t, flushes.min(g.kept) - dropped);
    }
    let number = table.live(t);
    for (number, slot) in live(g, flushes.into(), number.into()) {
        for q in 0..g.pages as usize {
            let count = rng.below(g.page as usize / 16);
            let behind = rng.below(3);
            let page = table.batch(t, slot, q);
            page.fill(0);
            (page[0], page[2], page[4]) = (count as u8, q as u8, t as u8);
            set_word(page, 8, number as u32);
            for entry in page[16..].chunks_mut(16).take(count + behind) {
                entry.copy_from_slice(&common::record(rng.pick(keys), rng.next()));
            }
        }
        let fill = rng.pick(&[0xff, 0xff, 0xfe, 0x77]);
        table.filter(t, slot).fill(fill);
    }
    // Else a flush or a drop that one of them goes with most often ends below 0.
    if rng.one_in(2) {
        table.recount(t);
    }
}

/// F, L, the total or the live number, at or near its bounds.
fn damage_head(rng: &mut Rng, table: &mut Table, t: usize) {
    let g = table.g;
    let most = most_entries(g);
    let flushes = table.flushes(t);
    let (at, number) = match rng.below(8) {
        0 => (0, near(rng, g.kept + 1)),
        1 => (4, near(rng, g.list)),
        2 => (8, rng.below(2) as u32),
        3 => (12, near(rng, g.kept)),
        4 => (12, near(rng, g.kept.min(flushes))),
        _ => (8, near(rng, most)),
    };
    set_word(table.head(t), at, number);
}

/// The oldest live batch, or the one that the next flush writes if none is live.
fn oldest(table: &mut Table, t: usize) -> i128 {
    i128::from(table.flushes(t)) - i128::from(table.live(t).min(table.g.kept)) + 1
}

/// One byte of the head of a page that goes with the next flush or drop, or
/// that the next flush writes over.
fn damage_oldest(rng: &mut Rng, table: &mut Table, t: usize, q: usize) {
    let g = table.g;
    let next = i128::from(table.flushes(t)) + 1;
    let batch = rng.pick(&[oldest(table, t), next]).max(1);
    let byte = rng.below(12);
    table.batch(t, slot(g, batch), q)[byte] = rng.next() as u8 & 7;
}

fn invent_list(rng: &mut Rng, table: &mut Table, t: usize, keys: &[u64]) {
    let g = table.g;
    let flushes = table.flushes(t);
    let oldest = oldest(table, t) as u32;
    for i in 0..g.list as usize {
        let stamp = flushes
            .wrapping_sub(g.kept)
            .wrapping_add(rng.below(4) as u32);
        let stamp = rng.pick(&[stamp, stamp, oldest, 0, 1]);
        let zero = if rng.one_in(3) { rng.next() << 32 } else { 0 };
        let place = common::record(rng.pick(keys), zero | u64::from(stamp));
        table.list_place(t, i).copy_from_slice(&place);
    }
    let listed = near(rng, g.list);
    table.set_listed(t, listed);
}

fn invent_buffer(rng: &mut Rng, table: &mut Table, t: usize, q: usize, keys: &[u64]) {
    let most = table.g.page as usize / 16 - 1;
    let count = rng.below(most + 1);
    let number = most.min(count + rng.below(3));
    let entries: Vec<_> = (0..number).map(|_| (rng.pick(keys), rng.next())).collect();
    table.fill_buffer(t, q, &entries);
    table.buffer(t, q)[0] = count as u8;
}

fn damage(rng: &mut Rng, table: &mut Table, keys: &[u64]) {
    let g = table.g;
    let t = rng.below(1 << g.parts);
    let q = rng.below(g.pages as usize);
    match rng.below(16) {
        0 => set_word(&mut table.memory, 4 * rng.below(8), rng.next() as u32 & 127),
        1..=4 => damage_head(rng, table, t),
        5 => {
            let count = near(rng, g.page / 16 - 1) as u16;
            table.buffer(t, q)[..2].copy_from_slice(&count.to_le_bytes());
        }
        6 => {
            let fill = rng.next() as u8 | rng.next() as u8;
            let slot = rng.below(g.kept as usize);
            table.filter(t, slot).fill(fill);
        }
        7 => {
            let slot = rng.below(g.kept as usize);
            let byte = rng.below(16);
            table.batch(t, slot, q)[byte] = rng.next() as u8 & 7;
        }
        8 => invent_list(rng, table, t, keys),
        9 => invent_buffer(rng, table, t, q, keys),
        10 => {
            let at = 32 + rng.below(table.memory.len() - 32);
            table.memory[at] = rng.next() as u8;
        }
        11 => {
            let at = rng.below(table.flash.len());
            table.flash[at] = rng.next() as u8;
        }
        12 => damage_oldest(rng, table, t, q),
        _ => invent_batches(rng, table, t, keys),
    }
}

/// So many calls by the geometry that the table was formatted with.
fn use_table(rng: &mut Rng, table: &mut Table, keys: &[u64], calls: usize, tally: &mut Tally) {
    for _ in 0..calls {
        let call = random_call(rng, table.g, keys);
        let answer = compare(call, &mut table.memory, &mut table.flash);
        tally.count(call, answer, &table.memory, &table.flash);
    }
}

#[test]
fn damaged_tables() {
    let mut tally = Tally::default();
    for seed in 0..4000 {
        println!("seed {seed}");
        let mut rng = Rng(seed);
        let g = rng.small_geometry();
        let number = rng.pick(&[3, 6, 12, 40]);
        let keys = rng.keys(number);
        let mut table = Table::new(g);
        let calls = rng.below(80);
        use_table(&mut rng, &mut table, &keys, calls, &mut tally);
        for _ in 0..6 {
            damage(&mut rng, &mut table, &keys);
            if rng.one_in(60) {
                let length = rng.below(table.memory.len() + 1).max(31);
                table.memory.truncate(length);
            }
            if rng.one_in(60) {
                let length = table.flash.len() - 1;
                table.flash.truncate(length);
            }
            use_table(&mut rng, &mut table, &keys, 12, &mut tally);
            if table.memory.len() < memory_need(g) || table.flash.len() < flash_need(g) {
                break;
            }
        }
    }
    println!("{tally}");
    tally.check(
        |call, _| call != "format",
        |_, outcome| outcome != Outcome::Refused(1),
    );
}

#[test]
fn areas_of_random_bytes() {
    for seed in 0..2000 {
        println!("seed {seed}");
        let mut rng = Rng(1 << 32 | seed);
        let g = rng.small_geometry();
        let keys = rng.keys(8);
        let (more, other) = (rng.below(20), rng.below(20));
        let mut memory = rng.bytes(memory_need(g) + more);
        let mut flash = rng.bytes(flash_need(g) + other);
        if rng.one_in(2) {
            memory[..32].copy_from_slice(&g.to_opening());
            // Small counts, so that more than the first look is needed.
            for byte in &mut memory[32..] {
                *byte &= rng.pick(&[0, 0, 0, 1, 255]);
            }
        }
        for _ in 0..10 {
            let call = random_call(&mut rng, g, &keys);
            compare(call, &mut memory, &mut flash);
        }
        compare(Call::Format(g), &mut memory, &mut flash);
    }
}

#[test]
fn formats_of_any_numbers() {
    let mut rng = Rng(5);
    let numbers = [
        0,
        1,
        2,
        3,
        8,
        9,
        32,
        33,
        63,
        64,
        65,
        96,
        128,
        4096,
        65536,
        1 << 31,
    ];
    for _ in 0..3000 {
        let mut n = [1, 64, 2, 2, 64, 3, 4];
        for _ in 0..rng.below(4) {
            n[rng.below(7)] = rng.pick(&numbers);
        }
        let (memory_length, flash_length) = (rng.below(4000), rng.below(4000));
        let mut memory = rng.bytes(memory_length);
        let mut flash = rng.bytes(flash_length);
        compare(Call::Format(Geometry::new(n)), &mut memory, &mut flash);
    }
}
