//! Document 02, job 6: why a drop is refused, and every call for a live number
//! that cannot be.

mod common;

use common::{none, set_word, Table, CALLS, PAGE_1, WIDE};
use reference::Geometry;

/// One partition of one page, three batches, six list places.
const LISTS: Geometry = Geometry::new([0, 64, 1, 3, 1024, 8, 6]);

/// One partition of four pages, two batches.
const FOUR: Geometry = Geometry::new([0, 64, 4, 2, 64, 3, 2]);

#[test]
fn refusal_23_where_no_batch_is_live() {
    let table = Table::new(WIDE);
    assert_eq!(table.refuses(|t| t.drop_oldest(0)), (23, 0));
    // What is in the buffer is no batch.
    let mut table = Table::new(LISTS);
    table.put(1, 10).unwrap();
    assert_eq!(table.refuses(|t| t.drop_oldest(0)), (23, 0));
    for _ in 0..4 {
        table.put(1, 10).unwrap();
        table.flush(0).unwrap();
    }
    for _ in 0..3 {
        assert_eq!(table.drop_oldest(0), Ok(()));
    }
    assert_eq!(table.refuses(|t| t.drop_oldest(0)), (23, 0));
    table.put(1, 10).unwrap();
    table.flush(0).unwrap();
    assert_eq!(table.drop_oldest(0), Ok(()));
    assert_eq!(table.refuses(|t| t.drop_oldest(0)), (23, 0));
    // 12 comes before it.
    table.set_listed(0, 7);
    assert_eq!(table.refuses(|t| t.drop_oldest(0)), (12, 0));
}

/// FOUR after three flushes: batches 2 and 3 lie in the slots 1 and 0. The pages
/// of either count 1, 2, 3 and 0 entries.
fn counted() -> Table {
    let mut table = Table::new(FOUR);
    table.set_batches(0, 3);
    for slot in 0..2 {
        for q in 0..3 {
            table.batch(0, slot, q)[0] = q as u8 + 1;
        }
    }
    table.recount(0);
    assert_eq!(table.count(0), Ok(12));
    table
}

#[test]
fn refusal_13_counts_the_heads_read() {
    let table = counted();
    for page in 0..4 {
        for byte in 0..12 {
            let mut damaged = table.clone();
            damaged.batch(0, 1, page)[byte] ^= 4;
            // Pages behind the failed one aren't judged.
            damaged.batch(0, 1, 3)[6] = 1;
            let reads = page as u32 + 1;
            assert_eq!(damaged.refuses(|t| t.drop_oldest(0)), (13, reads));
        }
    }
    // Neither the other batch nor anything behind the first 12 bytes is judged.
    let mut table = table;
    for q in 0..4 {
        table.batch(0, 1, q)[12..].fill(0xee);
        table.batch(0, 0, q).fill(0xee);
    }
    assert_eq!(table.drop_oldest(0), Ok(()));
    assert_eq!((table.live(0), table.count(0)), (1, Ok(6)));
    assert_eq!(table.refuses(|t| t.drop_oldest(0)), (13, 1));
}

#[test]
fn refusal_12_where_a_drop_would_end_below_0() {
    for total in 0..6 {
        let mut table = counted();
        table.set_total(0, total);
        assert_eq!(table.refuses(|t| t.drop_oldest(0)), (12, 0));
        // 13 comes before it.
        table.batch(0, 1, 3)[2] = 9;
        assert_eq!(table.refuses(|t| t.drop_oldest(0)), (13, 4));
    }
    for total in [6, 36] {
        let mut table = counted();
        table.set_total(0, total);
        assert_eq!(table.drop_oldest(0), Ok(()));
        assert_eq!(table.count(0), Ok(total - 6));
    }
}

#[test]
fn refusal_12_for_the_live_number_in_every_call() {
    // K is 3: above F, above both, and above K.
    for (flushes, outside) in [(1, [2, 3, 4]), (3, [4, 5, 1 << 31]), (9, [4, 9, u32::MAX])] {
        let mut table = Table::new(WIDE);
        table.set_batches(0, flushes);
        table.fill_buffer(0, 1, &[(PAGE_1, 1)]);
        table.recount(0);
        for (place, call) in CALLS.iter().enumerate() {
            for live in outside {
                let mut damaged = table.clone();
                damaged.set_live(0, live);
                assert_eq!(damaged.refuses(call), (12, 0), "call {place}");
                // Another partition's live number is nobody's business.
                let mut other = table.clone();
                other.set_live(1, live);
                assert_eq!(call(&mut other), call(&mut table.clone()), "call {place}");
            }
        }
    }
}

#[test]
fn the_last_numbers() {
    let mut table = Table::new(LISTS);
    table.set_batches(0, u32::MAX);
    let last = u64::from(u32::MAX);
    table.set_list(0, &[(1, last), (2, last - 2), (3, last - 1), (4, 0)]);
    for left in [vec![1, 3, 4], vec![1, 4], vec![4]] {
        assert_eq!(table.drop_oldest(0), Ok(()));
        let keys: Vec<u64> = table.list(0).iter().map(|place| place.0).collect();
        assert_eq!(keys, left);
    }
    assert_eq!(table.refuses(|t| t.drop_oldest(0)), (23, 0));
    assert_eq!(table.get(7), none(0, 0));
    assert_eq!(table.text(0), Ok(String::new()));
    // A batch of another number lies where the oldest should.
    let mut table = Table::new(LISTS);
    table.set_batches(0, u32::MAX);
    set_word(table.batch(0, 0, 0), 8, u32::MAX - 1);
    assert_eq!(table.refuses(|t| t.drop_oldest(0)), (13, 1));
}
