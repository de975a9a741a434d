//! Document 02, job 6: the oldest batch dropped on request, and what the calls
//! after it make of the live number.

mod common;

use common::plain::sum_of_counts;
use common::{found, none, record, Rng, Table, WIDE};
use reference::Geometry;

/// One partition of one page, three batches, six list places. The filters have
/// so many bits that they pass no key of another batch.
const LISTS: Geometry = Geometry::new([0, 64, 1, 3, 1024, 8, 6]);

/// One partition of four pages, two batches.
const FOUR: Geometry = Geometry::new([0, 64, 4, 2, 64, 3, 2]);

/// LISTS with so many batches, the first of key 1 alone, the next of key 2.
fn flushed(batches: u64) -> Table {
    let mut table = Table::new(LISTS);
    for key in 1..=batches {
        table.put(key, 10 * key).unwrap();
        table.flush(0).unwrap();
    }
    table
}

/// Flushes done, live number and total.
fn head(table: &mut Table) -> (u32, u32, u32) {
    (table.flushes(0), table.live(0), table.count(0).unwrap())
}

/// The head's total is what stands in the pages.
fn check_total(table: &Table) {
    let sum = sum_of_counts(table.g, &table.memory, &table.flash, 0);
    assert_eq!(table.count(0), Ok(sum as u32));
}

#[test]
fn a_drop_after_one_flush() {
    let mut table = flushed(1);
    table.put(9, 90).unwrap();
    assert_eq!(head(&mut table), (1, 1, 2));
    assert_eq!(table.drop_oldest(0), Ok(()));
    assert_eq!(head(&mut table), (1, 0, 1));
    // The filter still passes, but nobody asks it.
    assert_eq!(table.get(1), none(0, 1));
    assert_eq!(table.get(9), found(90, 0, 1, 0));
    check_total(&table);
}

#[test]
fn drops_after_two_flushes() {
    let mut table = flushed(2);
    assert_eq!(table.drop_oldest(0), Ok(()));
    assert_eq!(head(&mut table), (2, 1, 1));
    assert_eq!(table.get(1), none(0, 0));
    assert_eq!(table.get(2), found(20, 1, 1, 2));
    assert_eq!(table.drop_oldest(0), Ok(()));
    assert_eq!(head(&mut table), (2, 0, 0));
    assert_eq!(table.get(2), none(0, 0));
}

#[test]
fn the_oldest_goes_by_number_and_not_by_slot() {
    // Batches 5, 6 and 7 lie in the slots 1, 2 and 0.
    let mut table = flushed(7);
    for key in 5..=7 {
        assert_eq!(table.get(key), found(10 * key, 1, 1, key as u32));
        assert_eq!(table.drop_oldest(0), Ok(()));
        assert_eq!(table.get(key), none(0, 0));
        check_total(&table);
    }
    assert_eq!(head(&mut table), (7, 0, 0));
}

#[test]
fn a_key_is_found_in_what_stays() {
    let mut table = flushed(2);
    table.put(1, 11).unwrap();
    table.flush(0).unwrap();
    table.put(2, 22).unwrap();
    for _ in 0..2 {
        table.drop_oldest(0).unwrap();
        assert_eq!(table.get(1), found(11, 1, 2, 3));
        assert_eq!(table.get(2), found(22, 0, 1, 0));
    }
    table.drop_oldest(0).unwrap();
    assert_eq!(table.get(1), none(0, 1));
    assert_eq!(table.get(2), found(22, 0, 1, 0));
}

#[test]
fn list_entries_go_with_the_batch_that_they_are_stamped_with() {
    let mut table = flushed(3);
    for key in [2, 1, 3] {
        table.del(key).unwrap();
    }
    assert_eq!(table.list(0), [(2, 2), (1, 1), (3, 3)]);
    table.drop_oldest(0).unwrap();
    assert_eq!(table.list(0), [(2, 2), (3, 3)]);
    assert_eq!(table.list_place(0, 2), [0; 16]);
    // None of the keys comes back.
    for key in 1..=3 {
        assert_eq!(table.get(key), none(0, 0));
    }
    table.drop_oldest(0).unwrap();
    table.drop_oldest(0).unwrap();
    assert_eq!(table.list(0), []);
}

#[test]
fn a_key_listed_for_a_younger_batch_stays_gone() {
    let mut table = flushed(1);
    table.put(1, 11).unwrap();
    table.flush(0).unwrap();
    table.del(1).unwrap();
    assert_eq!(table.list_place(0, 0), record(1, 2));
    table.drop_oldest(0).unwrap();
    assert_eq!(table.list(0), [(1, 2)]);
    assert_eq!(table.get(1), none(0, 0));
    table.put(1, 12).unwrap();
    assert_eq!(table.get(1), found(12, 0, 1, 0));
}

#[test]
fn a_drop_closes_up_whole_places() {
    let mut table = Table::new(LISTS);
    table.set_batches(0, 9);
    table.set_live(0, 2);
    let high = 0xffff_0000 << 32;
    // Of the batches 8 and 9 the drop takes 8. What is stamped 7 stays.
    table.set_list(0, &[(1, 8), (2, high | 9), (3, high | 8), (4, 7), (5, 8)]);
    table.list_place(0, 5).fill(0xdd);
    table.drop_oldest(0).unwrap();
    assert_eq!(table.list(0), [(2, high | 9), (4, 7)]);
    for place in 2..5 {
        assert_eq!(table.list_place(0, place), [0; 16]);
    }
    assert_eq!(table.list_place(0, 5), [0xdd; 16]);
}

#[test]
fn a_drop_changes_the_head_and_the_list_alone() {
    let mut rng = Rng(6);
    for t in 0..2 {
        let mut table = Table::new(WIDE);
        table.set_batches(t, 5);
        for q in 0..2 {
            // A buffer page is not read, whatever it holds.
            let garbage = rng.bytes(64);
            table.buffer(t, q).copy_from_slice(&garbage);
            // Batch 3 lies in slot 2.
            table.batch(t, 2, q)[0] = 2;
        }
        for slot in 0..3 {
            let garbage = rng.bytes(8);
            table.filter(t, slot).copy_from_slice(&garbage);
        }
        table.set_list(t, &[(1, 4), (2, 3), (3, 5)]);
        table.set_total(t, 10);
        let mut expected = table.clone();
        expected.set_list(t, &[(1, 4), (3, 5)]);
        expected.list_place(t, 2).fill(0);
        expected.set_total(t, 6);
        expected.set_live(t, 2);
        assert_eq!(table.drop_oldest(t as u32), Ok(()));
        assert_eq!(table, expected);
    }
}

#[test]
fn a_flush_after_a_drop_pushes_nothing_out() {
    let mut table = flushed(4);
    assert_eq!(head(&mut table), (4, 3, 3));
    table.drop_oldest(0).unwrap();
    table.put(5, 50).unwrap();
    assert_eq!(head(&mut table), (4, 2, 3));
    table.flush(0).unwrap();
    assert_eq!(head(&mut table), (5, 3, 3));
    for key in 3..=5 {
        assert_eq!(table.get(key), found(10 * key, 1, 1, key as u32));
    }
    check_total(&table);
    // Three are live again, so the next one pushes batch 3 out.
    table.put(6, 60).unwrap();
    table.flush(0).unwrap();
    assert_eq!(head(&mut table), (6, 3, 3));
    assert_eq!(table.get(3), none(0, 0));
    check_total(&table);
}

#[test]
fn a_put_that_flushes_after_a_drop_pushes_nothing_out() {
    let mut table = flushed(4);
    for _ in 0..2 {
        table.drop_oldest(0).unwrap();
    }
    for key in 5..=8 {
        let pages = u32::from(key == 8);
        assert_eq!(table.put(key, 10 * key), Ok(pages));
    }
    assert_eq!(head(&mut table), (5, 2, 5));
    assert_eq!(table.get(4), found(40, 1, 2, 4));
    assert_eq!(table.get(5), found(50, 1, 2, 5));
    check_total(&table);
}

#[test]
fn a_flush_with_a_free_slot_reads_no_heads() {
    let mut table = Table::new(FOUR);
    table.set_batches(0, 5);
    table.fill_buffer(0, 0, &[(0, 1), (1, 1), (2, 1)]);
    table.recount(0);
    table.flash.fill(0xee);
    assert_eq!(table.refuses(|t| t.flush(0)), (13, 1));
    assert_eq!(table.refuses(|t| t.put(3, 1)), (13, 1));
    for live in 0..2 {
        table.set_live(0, live);
        let mut flush = table.clone();
        assert_eq!(
            (flush.flush(0), head(&mut flush)),
            (Ok(4), (6, live + 1, 3))
        );
        let mut put = table.clone();
        assert_eq!((put.put(3, 1), head(&mut put)), (Ok(4), (6, live + 1, 4)));
    }
}

#[test]
fn a_flush_takes_off_its_stamp_also_after_a_drop() {
    // F + 1 − K is −1, 0, 1, 2 and 7 here. Calls leave no such stamp behind a
    // drop, but damage may.
    let stamps = [(1, 0), (2, 1), (3, 2), (4, 7), (5, u64::from(u32::MAX))];
    for (flushes, left) in [
        (1, vec![1, 2, 3, 4, 5]),
        (2, vec![2, 3, 4, 5]),
        (3, vec![1, 3, 4, 5]),
        (4, vec![1, 2, 4, 5]),
        (9, vec![1, 2, 3, 5]),
    ] {
        for live in 0..flushes.min(3) {
            let mut table = Table::new(LISTS);
            table.set_batches(0, flushes);
            table.set_live(0, live);
            table.set_list(0, &stamps);
            table.fill_buffer(0, 0, &[(9, 9)]);
            table.flush(0).unwrap();
            let keys: Vec<u64> = table.list(0).iter().map(|place| place.0).collect();
            assert_eq!(keys, left, "after {flushes} flushes, {live} live");
        }
    }
}

#[test]
fn a_del_asks_live_batches_alone() {
    let mut table = flushed(2);
    table.drop_oldest(0).unwrap();
    // Batch 1's filter passes key 1 still.
    assert_eq!(table.del(1), Ok(()));
    assert_eq!(table.list(0), []);
    assert_eq!(table.del(2), Ok(()));
    assert_eq!(table.list(0), [(2, 2)]);
}

#[test]
fn a_get_reads_live_batches_alone() {
    let mut table = flushed(3);
    for slot in 0..3 {
        table.filter(0, slot).fill(0xff);
    }
    assert_eq!(table.get(9), none(3, 3));
    for reads in [2, 1, 0] {
        table.drop_oldest(0).unwrap();
        assert_eq!(table.get(9), none(reads, reads));
    }
}

#[test]
fn a_view_of_a_dropped_batch() {
    let mut table = flushed(5);
    for oldest in 3..=5 {
        assert_eq!(
            table.view(0, 0, oldest).map(|page| page[8]),
            Ok(oldest as u8)
        );
        table.drop_oldest(0).unwrap();
        let view = |t: &mut Table| t.view(0, 0, oldest).map(drop);
        assert_eq!(table.refuses(view), (17, 0));
        for younger in oldest + 1..=5 {
            assert!(table.view(0, 0, younger).is_ok());
        }
    }
    assert!(table.view(0, 0, 0).is_ok());
}

#[test]
fn a_text_after_a_drop() {
    let mut table = flushed(3);
    table.put(2, 22).unwrap();
    assert_eq!(
        table.text(0).unwrap(),
        "(put 1 10)\n(put 3 30)\n(put 2 22)\n"
    );
    // What is dropped is not read either.
    table.drop_oldest(0).unwrap();
    table.batch(0, 0, 0).fill(0xee);
    assert_eq!(table.text(0).unwrap(), "(put 3 30)\n(put 2 22)\n");
    table.drop_oldest(0).unwrap();
    assert_eq!(table.text(0).unwrap(), "(put 3 30)\n(put 2 22)\n");
    table.drop_oldest(0).unwrap();
    assert_eq!(table.text(0).unwrap(), "(put 2 22)\n");
}
