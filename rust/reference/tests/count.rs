//! Document 02, job 3: a partition's total in its head, kept by differences,
//! and the refusals that it brings.

mod common;

use common::call::{call_index, Answer, Call};
use common::plain::sum_of_counts;
use common::{set_word, Table, CALLS, G, PAGE_1, WIDE};
use reference::Geometry;

/// One partition of four pages, two batches.
const FOUR: Geometry = Geometry::new([0, 64, 4, 2, 64, 3, 2]);

/// (K + 1) × Q × E of WIDE.
const MOST: u32 = 24;

/// Keys of WIDE's partition 0 and page 1.
const KEYS: [u64; 4] = [PAGE_1, PAGE_1 + 1, PAGE_1 + 2, PAGE_1 + 3];

/// A table whose flush of partition 0, or put of the last key, pushes batch 1 out.
/// Both of its pages count three entries.
fn pushing_out(total: u32) -> Table {
    let mut table = Table::new(WIDE);
    table.set_batches(0, 3);
    for q in 0..2 {
        table.batch(0, 0, q)[0] = 3;
    }
    table.fill_buffer(0, 1, &[KEYS[0], KEYS[1], KEYS[2]].map(|key| (key, 1)));
    table.set_total(0, total);
    table
}

#[test]
fn each_call_moves_the_total_by_what_it_adds_and_takes() {
    // The filters have so many bits that they pass no key of another batch.
    let mut table = Table::new(Geometry::new([0, 64, 1, 2, 1024, 8, 3]));
    for (call, total) in [
        (Call::Put(1, 7), 1),
        (Call::Put(2, 7), 2),
        (Call::Put(3, 7), 3),
        // In place.
        (Call::Put(3, 8), 3),
        // The page is full: a flush, then the put.
        (Call::Put(4, 7), 4),
        (Call::Del(4), 3),
        // A key that is nowhere, one of batch 1, which keeps it, and again.
        (Call::Del(60), 3),
        (Call::Del(1), 3),
        (Call::Del(1), 3),
        (Call::Put(1, 9), 4),
        (Call::Flush(0), 4),
        (Call::Put(5, 7), 5),
        // Batch 1 goes, with its three entries.
        (Call::Flush(0), 2),
    ] {
        let answer = call_index(call, &mut table.memory, &mut table.flash);
        assert!(matches!(answer, Answer::Done(_)), "{call:?}: {answer:?}");
        assert_eq!(table.count(0), Ok(total), "after {call:?}");
        let sum = sum_of_counts(table.g, &table.memory, &table.flash, 0);
        assert_eq!(sum, total.into(), "after {call:?}");
    }
}

#[test]
fn a_put_that_flushes_takes_a_batch_off_and_adds_its_own() {
    let mut table = Table::new(G);
    for key in 0..9 {
        table.put(key, 7).unwrap();
    }
    assert_eq!(table.count(0), Ok(9));
    for key in 9..30 {
        let pages = u32::from(key % 3 == 0);
        assert_eq!(table.put(key, 7), Ok(pages));
        // Two batches of three entries, and those of the buffer.
        assert_eq!(table.count(0), Ok(6 + key as u32 % 3 + 1));
    }
}

#[test]
fn the_total_is_four_bytes_of_the_head() {
    let mut table = Table::new(Geometry::new([0, 4096, 4, 2, 64, 3, 2]));
    table.set_flushes(0, 1);
    let before = table.head(0).to_vec();
    for key in 0..300u64 {
        table.put(key << 30, 7).unwrap();
    }
    assert_eq!(table.flushes(0), 1);
    assert_eq!(table.head(0)[..8], before[..8]);
    assert_eq!(table.head(0)[8..12], 300u32.to_le_bytes());
    assert_eq!(table.head(0)[12..], before[12..]);
    assert_eq!(table.count(0), Ok(300));
}

#[test]
fn each_partition_has_its_own_total() {
    let mut table = Table::new(WIDE);
    for key in [1, 1 << 63, 1 << 63 | 1] {
        table.put(key, 7).unwrap();
    }
    assert_eq!((table.count(0), table.count(1)), (Ok(1), Ok(2)));
    table.flush(1).unwrap();
    table.del(1).unwrap();
    assert_eq!((table.count(0), table.count(1)), (Ok(0), Ok(2)));
}

#[test]
fn count_tells_the_head_and_reads_no_page() {
    let mut table = Table::new(WIDE);
    table.set_flushes(0, 5);
    for q in 0..2 {
        table.buffer(0, q).fill(0xff);
    }
    // Neither the buffer nor any live batch is in order.
    for total in [0, 1, 7, MOST] {
        table.set_total(0, total);
        assert_eq!(table.count(0), Ok(total));
    }
}

#[test]
fn refusal_12_for_the_total_in_every_call() {
    let mut table = Table::new(WIDE);
    table.put(KEYS[1], 1).unwrap();
    table.flush(0).unwrap();
    table.put(KEYS[0], 1).unwrap();
    for (place, call) in CALLS.iter().enumerate() {
        table.set_total(0, MOST);
        assert_eq!(call(&mut table.clone()), Ok(()), "call {place}");
        for total in [MOST + 1, 1 << 31, u32::MAX] {
            table.set_total(0, total);
            assert_eq!(table.refuses(call), (12, 0), "call {place}");
        }
        // Another partition's total is nobody's business.
        let mut other = table.clone();
        other.set_total(0, 2);
        other.set_total(1, MOST + 1);
        assert_eq!(call(&mut other), Ok(()), "call {place}");
        assert_eq!(other.refuses(|t| t.count(1)), (12, 0));
    }
}

#[test]
fn the_largest_total_of_each_geometry() {
    for (g, most) in [
        (G, 9),
        (WIDE, MOST),
        (FOUR, 36),
        (Geometry::new([0, 64, 1, 1, 64, 1, 1]), 6),
        (Geometry::new([0, 4096, 64, 32, 64, 1, 1]), 538_560),
    ] {
        let mut table = Table::new(g);
        table.set_total(0, most);
        assert_eq!(table.count(0), Ok(most), "{g:?}");
        table.set_total(0, most + 1);
        assert_eq!(table.refuses(|t| t.count(0)), (12, 0), "{g:?}");
    }
}

#[test]
fn refusal_12_where_a_put_would_end_above() {
    let mut table = Table::new(WIDE);
    table.put(KEYS[0], 1).unwrap();
    table.set_total(0, MOST - 1);
    assert_eq!(table.clone().put(KEYS[1], 1), Ok(0));
    table.set_total(0, MOST);
    assert_eq!(table.refuses(|t| t.put(KEYS[1], 1)), (12, 0));
    // A put in place adds nothing.
    assert_eq!(table.put(KEYS[0], 2), Ok(0));
    assert_eq!(table.count(0), Ok(MOST));
    // Of a put that flushes the batch that goes is taken off first.
    let mut table = pushing_out(MOST);
    assert_eq!(table.clone().put(KEYS[3], 1), Ok(2));
    table.batch(0, 0, 0)[0] = 0;
    table.batch(0, 0, 1)[0] = 1;
    let mut same = table.clone();
    assert_eq!((same.put(KEYS[3], 1), same.count(0)), (Ok(2), Ok(MOST)));
    table.batch(0, 0, 1)[0] = 0;
    assert_eq!(table.refuses(|t| t.put(KEYS[3], 1)), (12, 0));
    // None goes as long as F is below K.
    let mut table = pushing_out(MOST);
    table.set_flushes(0, 2);
    assert_eq!(table.refuses(|t| t.put(KEYS[3], 1)), (12, 0));
    table.set_total(0, MOST - 1);
    assert_eq!((table.put(KEYS[3], 1), table.count(0)), (Ok(2), Ok(MOST)));
}

#[test]
fn refusal_12_where_a_del_would_end_below_0() {
    let mut table = Table::new(WIDE);
    table.fill_buffer(0, 1, &[(KEYS[0], 1), (KEYS[1], 1)]);
    table.set_list(0, &[(KEYS[1], 1)]);
    assert_eq!(table.refuses(|t| t.del(KEYS[0])), (12, 0));
    // Nothing is taken off for a key that is listed or not in its buffer page.
    assert_eq!(table.del(KEYS[1]), Ok(()));
    assert_eq!(table.del(KEYS[2]), Ok(()));
    table.set_total(0, 1);
    assert_eq!((table.del(KEYS[0]), table.count(0)), (Ok(()), Ok(0)));
}

#[test]
fn refusal_12_where_a_flush_would_end_below_0() {
    for total in 0..6 {
        assert_eq!(pushing_out(total).refuses(|t| t.flush(0)), (12, 0));
    }
    let mut table = pushing_out(6);
    assert_eq!((table.flush(0), table.count(0)), (Ok(2), Ok(0)));
    // As long as F is below K nothing is taken off.
    let mut table = pushing_out(0);
    table.set_flushes(0, 2);
    assert_eq!((table.flush(0), table.count(0)), (Ok(2), Ok(0)));
}

#[test]
fn refusal_12_where_a_put_would_end_below_0() {
    for total in 0..5 {
        assert_eq!(pushing_out(total).refuses(|t| t.put(KEYS[3], 1)), (12, 0));
    }
    // 5 − 6 + 1: only the total at the end is judged.
    let mut table = pushing_out(5);
    assert_eq!((table.put(KEYS[3], 1), table.count(0)), (Ok(2), Ok(0)));
}

/// FOUR with two live batches of full pages, and a put of the last key, like a
/// flush, about to push the first out.
fn full() -> (Table, u64) {
    let mut table = Table::new(FOUR);
    table.set_batches(0, 2);
    for slot in 0..2 {
        for q in 0..4 {
            table.batch(0, slot, q)[0] = 3;
        }
    }
    table.fill_buffer(0, 0, &[(0, 1), (1, 1), (2, 1)]);
    table.recount(0);
    assert_eq!(table.count(0), Ok(27));
    (table, 3)
}

#[test]
fn refusal_13_counts_the_heads_read() {
    let (table, key) = full();
    for page in 0..4 {
        for byte in 0..12 {
            let mut damaged = table.clone();
            damaged.batch(0, 0, page)[byte] ^= 4;
            // Pages behind the failed one aren't judged.
            damaged.batch(0, 0, 3)[6] = 1;
            let reads = page as u32 + 1;
            assert_eq!(damaged.refuses(|t| t.flush(0)), (13, reads));
            assert_eq!(damaged.refuses(|t| t.put(key, 1)), (13, reads));
            // A put that has room and a del read no head.
            assert_eq!(damaged.put(1, 9), Ok(0));
            assert_eq!(damaged.del(1), Ok(()));
        }
    }
}

#[test]
fn refusal_13_looks_at_the_pushed_out_batch_and_its_first_12_bytes_alone() {
    let (mut table, key) = full();
    for q in 0..4 {
        table.batch(0, 0, q)[12..].fill(0xee);
        table.batch(0, 1, q).fill(0xee);
    }
    let mut flushed = table.clone();
    assert_eq!((flushed.flush(0), flushed.count(0)), (Ok(4), Ok(15)));
    let mut put = table.clone();
    assert_eq!((put.put(key, 1), put.count(0)), (Ok(4), Ok(16)));
    // The next flush pushes the other batch out.
    assert_eq!(put.refuses(|t| t.flush(0)), (13, 1));
}

#[test]
fn no_head_is_read_before_a_batch_goes() {
    let (mut table, key) = full();
    table.flash.fill(0xee);
    for flushes in [0, 1] {
        table.set_flushes(0, flushes);
        assert_eq!(table.clone().flush(0), Ok(4));
        assert_eq!(table.clone().put(key, 1), Ok(4));
    }
    table.set_flushes(0, 2);
    assert_eq!(table.refuses(|t| t.flush(0)), (13, 1));
    assert_eq!(table.refuses(|t| t.put(key, 1)), (13, 1));
}

#[test]
fn the_pushed_out_batch_goes_by_number() {
    // After 7 flushes flush 8 pushes batch 5 out, which lies in slot 1.
    let mut table = Table::new(WIDE);
    table.set_batches(0, 7);
    table.fill_buffer(0, 0, &[(1, 1)]);
    table.batch(0, 1, 1)[0] = 2;
    table.recount(0);
    for number in [2, 4, 6, 8] {
        let mut other = table.clone();
        set_word(other.batch(0, 1, 1), 8, number);
        assert_eq!(other.refuses(|t| t.flush(0)), (13, 2));
    }
    assert_eq!((table.flush(0), table.count(0)), (Ok(2), Ok(1)));
    // With the last number that there is.
    let mut table = Table::new(WIDE);
    table.set_batches(1, u32::MAX - 1);
    table.fill_buffer(1, 0, &[(1 << 63, 1)]);
    table.recount(1);
    assert_eq!((table.flush(1), table.count(1)), (Ok(2), Ok(1)));
    assert_eq!(table.flushes(1), u32::MAX);
}
