//! States that no list of calls makes: the same key twice, keys that are both
//! listed and buffered, and bytes behind the used entries.

mod common;

use common::{found, none, pair, Table, G, PAGE_1, WIDE};

fn entries(table: &mut Table) -> Vec<(u64, u64)> {
    table.buffer(0, 0)[16..].chunks(16).map(pair).collect()
}

#[test]
fn the_first_of_two_entries_is_taken() {
    let mut table = Table::new(G);
    table.fill_buffer(0, 0, &[(5, 1), (7, 2), (5, 3)]);
    table.recount(0);
    assert_eq!(table.get(5), found(1, 0, 1, 0));
    let mut after_put = table.clone();
    assert_eq!(after_put.put(5, 9), Ok(0));
    assert_eq!(entries(&mut after_put), [(5, 9), (7, 2), (5, 3)]);
    assert_eq!(table.del(5), Ok(()));
    assert_eq!(entries(&mut table), [(7, 2), (5, 3), (0, 0)]);
    assert_eq!(table.get(5), found(3, 0, 2, 0));
    assert_eq!(table.del(5), Ok(()));
    assert_eq!(entries(&mut table), [(7, 2), (0, 0), (0, 0)]);
    assert_eq!(table.get(5), none(0, 1));
}

#[test]
fn the_first_entry_of_a_flash_page_answers() {
    let mut table = Table::new(G);
    table.fill_buffer(0, 0, &[(7, 2), (5, 1), (5, 3)]);
    table.flush(0).unwrap();
    assert_eq!(table.get(5), found(1, 1, 2, 1));
    // Only the used entries are searched.
    table.batch(0, 0, 0)[0] = 1;
    assert_eq!(table.get(5), none(1, 1));
}

#[test]
fn a_key_both_listed_and_buffered() {
    let mut table = Table::new(G);
    table.fill_buffer(0, 0, &[(5, 1)]);
    table.set_list(0, &[(5, 1)]);
    let before = table.clone();
    assert_eq!(table.get(5), none(0, 0));
    assert_eq!(table.del(5), Ok(()));
    assert_eq!(table, before);
    assert_eq!(table.put(5, 2), Ok(0));
    assert_eq!(table.list(0), []);
    assert_eq!(table.get(5), found(2, 0, 1, 0));
}

#[test]
fn entries_behind_the_count_have_no_effect_and_stay() {
    let mut table = Table::new(G);
    table.fill_buffer(0, 0, &[(5, 1), (6, 2), (7, 3)]);
    table.buffer(0, 0)[0] = 2;
    table.recount(0);
    assert_eq!(table.get(7), none(0, 2));
    assert_eq!(table.del(5), Ok(()));
    assert_eq!(entries(&mut table), [(6, 2), (0, 0), (7, 3)]);
    assert_eq!(table.put(8, 4), Ok(0));
    assert_eq!(entries(&mut table), [(6, 2), (8, 4), (7, 3)]);
}

#[test]
fn zero_is_a_key_and_the_largest_number_a_value() {
    let mut table = Table::new(G);
    assert_eq!(table.get(0), none(0, 0));
    assert_eq!(table.put(0, 1), Ok(0));
    assert_eq!(table.get(0), found(1, 0, 1, 0));
    table.flush(0).unwrap();
    assert_eq!(table.get(0), found(1, 1, 1, 1));
    assert_eq!(table.put(0, u64::MAX), Ok(0));
    assert_eq!(table.get(0), found(u64::MAX, 0, 1, 0));
}

#[test]
fn buffer_heads_are_not_judged_but_for_the_count() {
    let mut table = Table::new(WIDE);
    table.buffer(0, 1)[2..16].fill(0xee);
    assert_eq!(table.put(PAGE_1, 10), Ok(0));
    assert_eq!(table.get(PAGE_1), found(10, 0, 1, 0));
    assert!(table.view(0, 1, 0).is_ok());
    assert_eq!(table.flush(0), Ok(2));
    // The flush carried the false numbers over, and a get notices.
    assert_eq!(common::refused(table.get(PAGE_1)), (13, 1));
}

#[test]
fn live_batches_of_any_number_of_flushes() {
    let mut table = Table::new(G);
    table.set_flushes(0, u32::MAX);
    table.filter(0, 0).fill(0xff);
    table.filter(0, 1).fill(0xff);
    // 4294967295 lies in slot 0, 4294967294 in slot 1.
    table.batch(0, 0, 0).fill(0);
    table.batch(0, 0, 0)[8..12].fill(0xff);
    assert_eq!(common::refused(table.get(3)), (13, 2));
    table.batch(0, 1, 0).fill(0);
    table.batch(0, 1, 0)[8..12].copy_from_slice(&(u32::MAX - 1).to_le_bytes());
    assert_eq!(table.get(3), none(2, 0));
    assert_eq!(table.get(0), none(2, 0));
    assert_eq!(table.del(3), Ok(()));
    assert_eq!(table.list(0), [(3, u64::from(u32::MAX))]);
}
