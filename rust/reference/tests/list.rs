//! The delete list: stamps, closing up, and when entries go.

mod common;

use common::{found, none, record, Table, G, WIDE};
use reference::Geometry;

/// One partition of one page, three batches, six list places.
const LISTS: Geometry = Geometry::new([0, 64, 1, 3, 1024, 8, 6]);

#[test]
fn the_stamp_is_the_youngest_batch_that_passes() {
    let mut table = Table::new(LISTS);
    table.put(1, 10).unwrap();
    table.flush(0).unwrap();
    table.put(2, 20).unwrap();
    table.flush(0).unwrap();
    assert_eq!(table.del(1), Ok(()));
    assert_eq!(table.list(0), [(1, 1)]);
    // Batch 2 passes as well now, though it doesn't hold the key.
    table.put(1, 11).unwrap();
    assert_eq!(table.list(0), []);
    table.filter(0, 1).fill(0xff);
    assert_eq!(table.del(1), Ok(()));
    assert_eq!(table.list(0), [(1, 2)]);
    assert_eq!(table.get(1), none(0, 0));
}

#[test]
fn a_key_in_the_buffer_is_listed_for_its_older_batch() {
    let mut table = Table::new(G);
    table.put(1, 10).unwrap();
    table.flush(0).unwrap();
    table.put(1, 11).unwrap();
    assert_eq!(table.del(1), Ok(()));
    assert_eq!(table.list(0), [(1, 1)]);
    assert_eq!(table.buffer(0, 0)[0], 0);
    assert_eq!(table.get(1), none(0, 0));
}

#[test]
fn a_newly_listed_key_writes_its_whole_place() {
    let mut table = Table::new(G);
    table.put(1, 10).unwrap();
    table.flush(0).unwrap();
    table.list_place(0, 0).fill(0xee);
    table.del(1).unwrap();
    assert_eq!(table.list_place(0, 0), record(1, 1));
}

#[test]
fn del_of_a_listed_key_changes_nothing() {
    let mut table = Table::new(G);
    table.put(1, 10).unwrap();
    table.flush(0).unwrap();
    table.del(1).unwrap();
    let before = table.clone();
    assert_eq!(table.del(1), Ok(()));
    assert_eq!(table, before);
}

#[test]
fn put_takes_the_key_off_the_list() {
    let mut table = Table::new(LISTS);
    table.set_flushes(0, 1);
    let high = 0xabcd_ef01 << 32;
    table.set_list(0, &[(5, 1), (6, high | 1), (7, high | 2), (6, 3)]);
    table.list_place(0, 4).fill(0xdd);
    table.put(6, 60).unwrap();
    // Whole places move, the last one becomes zero, and what stood after the
    // listed places stays. Only the first entry of the key goes.
    assert_eq!(table.list(0), [(5, 1), (7, high | 2), (6, 3)]);
    assert_eq!(table.list_place(0, 3), [0; 16]);
    assert_eq!(table.list_place(0, 4), [0xdd; 16]);
    assert_eq!(table.get(6), none(0, 0));
    table.put(6, 61).unwrap();
    assert_eq!(table.list(0), [(5, 1), (7, high | 2)]);
    assert_eq!(table.list_place(0, 2), [0; 16]);
    assert_eq!(table.list_place(0, 3), [0; 16]);
    assert_eq!(table.list_place(0, 4), [0xdd; 16]);
    assert_eq!(table.get(6), found(61, 0, 1, 0));
}

#[test]
fn places_from_l_on_are_not_looked_at() {
    let mut table = Table::new(LISTS);
    table.set_list(0, &[(5, 1), (6, 1)]);
    table.set_listed(0, 1);
    table.fill_buffer(0, 0, &[(6, 60)]);
    table.recount(0);
    assert_eq!(table.get(6), found(60, 0, 1, 0));
    table.put(6, 61).unwrap();
    assert_eq!(table.list_place(0, 1), record(6, 1));
    assert_eq!(table.listed(0), 1);
    assert_eq!(table.del(6), Ok(()));
    assert_eq!(table.buffer(0, 0)[0], 0);
}

#[test]
fn entries_go_with_their_stamped_batch_and_not_before() {
    let mut table = Table::new(LISTS);
    table.put(1, 10).unwrap();
    table.flush(0).unwrap();
    table.del(1).unwrap();
    for number in 2..=3 {
        table.put(9, number).unwrap();
        table.flush(0).unwrap();
        assert_eq!(table.list(0), [(1, 1)], "after flush {number}");
        assert_eq!(table.get(1), none(0, 0));
    }
    table.put(9, 4).unwrap();
    table.flush(0).unwrap();
    assert_eq!(table.list(0), []);
    assert_eq!(table.list_place(0, 0), [0; 16]);
    assert_eq!(table.get(1), none(0, 0));
}

#[test]
fn a_flush_closes_up_whole_places() {
    let mut table = Table::new(LISTS);
    table.set_batches(0, 9);
    let high = 0xffff_0000 << 32;
    // K is 3: flush 10 takes off what is stamped 7.
    table.set_list(0, &[(1, 7), (2, high | 8), (3, high | 7), (4, 6), (5, 7)]);
    table.list_place(0, 5).fill(0xdd);
    table.put(1, 1).unwrap();
    // That put has taken off the first entry, of key 1.
    assert_eq!(
        table.list(0),
        [(2, high | 8), (3, high | 7), (4, 6), (5, 7)]
    );
    table.flush(0).unwrap();
    assert_eq!(table.list(0), [(2, high | 8), (4, 6)]);
    for place in 2..5 {
        assert_eq!(table.list_place(0, place), [0; 16]);
    }
    assert_eq!(table.list_place(0, 5), [0xdd; 16]);
}

#[test]
fn stamps_are_compared_as_plain_integers() {
    // F + 1 − K is −2, −1, 0 and 1 here. Only from 0 on is there such a stamp.
    let stamps = [
        (1, 0),
        (2, 1),
        (3, u64::from(u32::MAX)),
        (4, u64::from(u32::MAX) - 1),
    ];
    for (flushes, left) in [
        (0, vec![1, 2, 3, 4]),
        (1, vec![1, 2, 3, 4]),
        (2, vec![2, 3, 4]),
        (3, vec![1, 3, 4]),
        (u32::MAX - 1, vec![1, 2, 3, 4]),
    ] {
        let mut table = Table::new(LISTS);
        table.set_batches(0, flushes);
        table.set_list(0, &stamps);
        table.fill_buffer(0, 0, &[(9, 9)]);
        table.flush(0).unwrap();
        let keys: Vec<u64> = table.list(0).iter().map(|place| place.0).collect();
        assert_eq!(keys, left, "after {flushes} flushes");
    }
    // With K = 1 a flush takes off what is stamped with the batch before it.
    let mut table = Table::new(Geometry { kept: 1, ..LISTS });
    table.set_batches(0, u32::MAX - 1);
    table.set_list(0, &stamps);
    table.fill_buffer(0, 0, &[(9, 9)]);
    table.flush(0).unwrap();
    assert_eq!(table.list(0), stamps[..3]);
}

#[test]
fn a_put_that_flushes_takes_off_stamped_entries_before_its_own() {
    let mut table = Table::new(LISTS);
    table.set_batches(0, 3);
    // The first entry of key 8 goes with the flush, the second with the put.
    table.set_list(0, &[(8, 1), (6, 2), (8, 2), (8, 3)]);
    table.fill_buffer(0, 0, &[(1, 1), (2, 2), (3, 3)]);
    assert_eq!(table.put(8, 80), Ok(1));
    assert_eq!(table.list(0), [(6, 2), (8, 3)]);
    assert_eq!(table.list_place(0, 2), [0; 16]);
    assert_eq!(table.list_place(0, 3), [0; 16]);
    assert_eq!(table.buffer(0, 0)[16..32], record(8, 80));
    assert_eq!(table.buffer(0, 0)[0], 1);
}

#[test]
fn lists_of_other_partitions_are_not_looked_at() {
    let mut table = Table::new(WIDE);
    table.set_list(1, &[(1, 1)]);
    table.put(1, 10).unwrap();
    assert_eq!(table.list(1), [(1, 1)]);
    assert_eq!(table.get(1), found(10, 0, 1, 0));
}
