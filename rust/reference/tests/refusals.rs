//! Every refusal at its edge. A refused call changes no byte.

mod common;

use common::{found, none, refused, set_word, Table, CALLS, G, PAGE_1, WIDE};
use reference::{format, Geometry};

/// Every call but format is refused with the number and 0 reads.
fn all_refuse(table: &Table, number: u32) {
    for (place, call) in CALLS.iter().enumerate() {
        assert_eq!(table.refuses(call), (number, 0), "call {place}");
    }
}

/// Every call but format is accepted, each on a copy of its own.
fn all_accept(table: &Table) {
    for (place, call) in CALLS.iter().enumerate() {
        assert_eq!(call(&mut table.clone()), Ok(()), "call {place}");
    }
}

/// A table in which each of `CALLS` is accepted.
fn used(g: Geometry) -> Table {
    let mut table = Table::new(g);
    table.put(0, 5).unwrap();
    table.flush(0).unwrap();
    table.put(2, 6).unwrap();
    table
}

#[test]
fn refusal_1_each_number_at_its_edges() {
    let edges: [(usize, &[u32], &[u32]); 7] = [
        (0, &[0, 1, 8], &[9, 32, 64, u32::MAX]),
        (
            1,
            &[64, 128, 4096],
            &[0, 1, 32, 63, 65, 96, 4095, 8192, 1 << 31],
        ),
        (2, &[1, 2, 64], &[0, 3, 63, 65, 128, 1 << 31, u32::MAX]),
        (3, &[1, 2, 3, 31, 32], &[0, 33, u32::MAX]),
        (
            4,
            &[64, 128, 65536],
            &[0, 32, 63, 96, 65535, 131_072, 1 << 31],
        ),
        (5, &[1, 2, 7, 8], &[0, 9, u32::MAX]),
        (6, &[1, 2, 1023, 1024], &[0, 1025, u32::MAX]),
    ];
    for (place, allowed, outside) in edges {
        let with = |number: u32| {
            let mut numbers = [0, 64, 1, 2, 64, 3, 1];
            numbers[place] = number;
            Geometry::new(numbers)
        };
        for &number in allowed {
            // No memory at all: an allowed geometry goes on to refusal 2.
            assert!(with(number).is_allowed());
            assert_eq!(refused(format(&mut [], &[], with(number))), (2, 0));
        }
        for &number in outside {
            assert!(!with(number).is_allowed());
            assert_eq!(refused(format(&mut [], &[], with(number))), (1, 0));
        }
    }
}

#[test]
fn refusal_2_and_3_at_the_need() {
    let table = used(G);
    assert_eq!((table.memory.len(), table.flash.len()), (144, 128));
    all_accept(&table);
    for length in [32, 33, 100, 143] {
        let mut short = table.clone();
        short.memory.truncate(length);
        all_refuse(&short, 2);
    }
    for length in [0, 1, 127] {
        let mut short = table.clone();
        short.flash.truncate(length);
        all_refuse(&short, 3);
    }
    for length in [0, 1, 31] {
        let mut short = table.clone();
        short.memory.truncate(length);
        all_refuse(&short, 2);
    }
}

#[test]
fn refusal_2_and_3_in_format() {
    for g in [G, WIDE] {
        let table = Table::new(g);
        for (memory, flash, number) in [(1, 0, 2), (0, 1, 3), (table.memory.len(), 0, 2)] {
            let mut short = table.clone();
            short.memory.truncate(table.memory.len() - memory);
            short.flash.truncate(table.flash.len() - flash);
            let answer = short.refuses(|t| format(&mut t.memory, &t.flash, g));
            assert_eq!(answer, (number, 0));
        }
    }
}

#[test]
fn refusal_4_at_s_and_q() {
    let mut table = Table::new(WIDE);
    table.put(PAGE_1, 1).unwrap();
    table.put(1 << 63, 1).unwrap();
    for partition in [2, 3, u32::MAX] {
        assert_eq!(table.refuses(|t| t.flush(partition)), (4, 0));
        assert_eq!(table.refuses(|t| t.count(partition)), (4, 0));
        assert_eq!(table.refuses(|t| t.text(partition)), (4, 0));
        assert_eq!(table.refuses(|t| t.drop_oldest(partition)), (4, 0));
        assert_eq!(table.refuses(|t| t.view(partition, 0, 0).map(drop)), (4, 0));
    }
    for page in [2, 3, u32::MAX] {
        assert_eq!(table.refuses(|t| t.view(0, page, 0).map(drop)), (4, 0));
    }
    assert_eq!(table.view(1, 1, 0).map(<[u8]>::len), Ok(64));
    assert_eq!(table.count(1), Ok(1));
    assert_eq!(table.flush(1), Ok(2));
    assert_eq!(table.flush(0), Ok(2));
}

#[test]
fn refusal_11_for_each_opening_number() {
    for (place, number) in [
        (0, 9),
        (1, 63),
        (2, 0),
        (3, 33),
        (4, 32),
        (5, 0),
        (6, 1025),
        (7, 1),
        (7, 1 << 31),
    ] {
        let mut table = used(G);
        set_word(&mut table.memory, 4 * place, number);
        all_refuse(&table, 11);
        let (g, flash) = (table.g, table.flash.clone());
        assert_eq!(format(&mut table.memory, &flash, g), Ok(()));
    }
}

#[test]
fn refusal_12_for_the_list() {
    for g in [G, WIDE] {
        let mut table = used(g);
        table.set_listed(0, g.list + 1);
        all_refuse(&table, 12);
        table.set_listed(0, u32::MAX);
        all_refuse(&table, 12);
    }
    // L = D is in order. No filter passes the key, so that its del needs no place.
    let mut table = used(WIDE);
    table.set_listed(0, 3);
    all_accept(&table);
    // Another partition's list is nobody's business.
    let mut table = used(WIDE);
    table.set_listed(1, 4);
    all_accept(&table);
    assert_eq!(table.refuses(|t| t.get(u64::MAX)), (12, 0));
    assert_eq!(table.refuses(|t| t.flush(1)), (12, 0));
    assert_eq!(table.refuses(|t| t.count(1)), (12, 0));
    assert_eq!(table.refuses(|t| t.text(1)), (12, 0));
    assert_eq!(table.refuses(|t| t.drop_oldest(1)), (12, 0));
}

#[test]
fn refusal_12_for_a_buffer_page() {
    let mut table = used(WIDE);
    table.buffer(0, 1)[0] = 3;
    all_accept(&table);
    for (low, high) in [(4, 0), (0, 1), (255, 255)] {
        let mut table = used(WIDE);
        table.buffer(0, 1)[..2].copy_from_slice(&[low, high]);
        assert_eq!(table.refuses(|t| t.put(PAGE_1, 1)), (12, 0));
        assert_eq!(table.refuses(|t| t.get(PAGE_1)), (12, 0));
        assert_eq!(table.refuses(|t| t.del(PAGE_1)), (12, 0));
        assert_eq!(table.refuses(|t| t.view(0, 1, 0).map(drop)), (12, 0));
        assert_eq!(table.refuses(|t| t.flush(0)), (12, 0));
        // Small keys belong to page 0.
        assert_eq!(table.clone().put(4, 1), Ok(0));
        assert_eq!(table.get(2), found(6, 0, 1, 0));
        assert_eq!(table.clone().del(2), Ok(()));
        assert!(table.view(0, 0, 0).is_ok());
        // A flash page is shown, the total told and a batch dropped, whatever the
        // buffer page counts.
        assert!(table.view(0, 1, 1).is_ok());
        assert_eq!(table.count(0), Ok(2));
        assert_eq!(table.clone().drop_oldest(0), Ok(()));
        // A put that flushes reads all pages.
        table.fill_buffer(0, 0, &[(2, 1), (4, 1), (6, 1)]);
        assert_eq!(table.clone().put(4, 7), Ok(0));
        assert_eq!(table.refuses(|t| t.put(8, 7)), (12, 0));
    }
}

#[test]
fn refusal_12_for_a_listed_key() {
    let mut table = used(G);
    table.set_list(0, &[(1, 1)]);
    assert_eq!(table.get(1), none(0, 0));
    assert_eq!(table.clone().del(1), Ok(()));
    table.buffer(0, 0)[0] = 4;
    assert_eq!(table.refuses(|t| t.get(1)), (12, 0));
    assert_eq!(table.refuses(|t| t.del(1)), (12, 0));
    assert_eq!(table.refuses(|t| t.put(1, 1)), (12, 0));
}

#[test]
fn refusal_13_for_each_field_of_the_head() {
    let mut table = Table::new(WIDE);
    let key = 1 << 63 | PAGE_1;
    table.put(key, 5).unwrap();
    table.flush(1).unwrap();
    assert_eq!(table.get(key), found(5, 1, 1, 1));
    for byte in 0..12 {
        for number in [4, 9, 255] {
            let mut damaged = table.clone();
            damaged.batch(1, 0, 1)[byte] = number;
            assert_eq!(damaged.refuses(|t| t.get(key)), (13, 1), "byte {byte}");
            let view = damaged.refuses(|t| t.view(1, 1, 1).map(drop));
            assert_eq!(view, (13, 1), "byte {byte}");
            // Neither the other page nor a change of memory reads this one.
            assert!(damaged.view(1, 0, 1).is_ok());
            assert_eq!(damaged.put(key, 6), Ok(0));
            assert_eq!(damaged.del(key), Ok(()));
        }
    }
    for count in 0..=3 {
        table.batch(1, 0, 1)[0] = count;
        assert!(table.get(key).is_ok());
    }
    for byte in 12..16 {
        table.batch(1, 0, 1)[byte] = 255;
        assert_eq!(table.get(key), found(5, 1, 1, 1));
        assert!(table.view(1, 1, 1).is_ok());
    }
}

#[test]
fn refusal_13_counts_the_pages_read() {
    let mut table = Table::new(Geometry::new([0, 64, 1, 3, 64, 1, 1]));
    for value in 1..=3 {
        table.put(7, value).unwrap();
        table.flush(0).unwrap();
    }
    // The youngest two no longer have the key, but their filters still pass.
    table.batch(0, 2, 0)[0] = 0;
    table.batch(0, 1, 0)[0] = 0;
    assert_eq!(table.get(7), found(1, 3, 1, 1));
    table.batch(0, 0, 0)[8] = 4;
    assert_eq!(table.refuses(|t| t.get(7)), (13, 3));
    table.batch(0, 1, 0)[8] = 5;
    assert_eq!(table.refuses(|t| t.get(7)), (13, 2));
    // A page that isn't read isn't judged: the youngest now answers.
    table.batch(0, 2, 0)[0] = 1;
    assert_eq!(table.get(7), found(3, 1, 1, 3));
}

#[test]
fn refusal_14_only_if_the_key_has_to_be_listed() {
    let mut table = Table::new(G);
    for key in 0..3 {
        table.put(key, 7).unwrap();
    }
    table.flush(0).unwrap();
    table.put(1, 9).unwrap();
    assert_eq!(table.del(0), Ok(()));
    assert_eq!(table.list(0), [(0, 1)]);
    // The list is full. A refused del leaves the buffer's entry in place.
    assert_eq!(table.refuses(|t| t.del(1)), (14, 0));
    assert_eq!(table.get(1), found(9, 0, 1, 0));
    // A key already listed, and a key that no filter passes, need no place.
    assert_eq!(table.clone().del(0), Ok(()));
    assert_eq!(table.clone().del(60), Ok(()));
    // With a free place the same del is accepted.
    table.set_listed(0, 0);
    assert_eq!(table.del(1), Ok(()));
    assert_eq!(table.list(0), [(1, 1)]);
    assert_eq!(table.get(1), none(0, 0));
}

#[test]
fn refusal_15_goes_by_the_counts() {
    let mut table = Table::new(WIDE);
    assert_eq!(table.refuses(|t| t.flush(0)), (15, 0));
    // Entries behind a count of 0 don't make a buffer that can be flushed.
    table.fill_buffer(0, 0, &[(2, 1), (4, 1)]);
    table.buffer(0, 0)[0] = 0;
    assert_eq!(table.refuses(|t| t.flush(0)), (15, 0));
    // One entry in the last page does.
    table.fill_buffer(0, 1, &[(PAGE_1, 1)]);
    assert_eq!(table.refuses(|t| t.flush(1)), (15, 0));
    assert_eq!(table.flush(0), Ok(2));
    assert_eq!(table.refuses(|t| t.flush(0)), (15, 0));
}

#[test]
fn refusal_16_when_the_numbers_are_used_up() {
    let mut table = Table::new(G);
    table.set_batches(0, u32::MAX - 1);
    table.fill_buffer(0, 0, &[(1, 1), (2, 2), (3, 3)]);
    assert_eq!(table.put(4, 4), Ok(1));
    assert_eq!(table.flushes(0), u32::MAX);
    assert_eq!(table.get(1), found(1, 1, 2, u32::MAX));
    assert_eq!(table.refuses(|t| t.flush(0)), (16, 0));
    assert_eq!(table.put(5, 5), Ok(0));
    assert_eq!(table.put(6, 6), Ok(0));
    assert_eq!(table.refuses(|t| t.put(7, 7)), (16, 0));
    // No flush is due for a key that has its place.
    assert_eq!(table.put(6, 60), Ok(0));
    assert_eq!(table.get(6), found(60, 0, 3, 0));
}

#[test]
fn refusal_17_at_the_edges_of_the_live_numbers() {
    let mut table = Table::new(WIDE);
    assert_eq!(table.refuses(|t| t.view(0, 0, 1).map(drop)), (17, 0));
    for flushes in 1..=5u32 {
        table.put(PAGE_1, 1).unwrap();
        table.flush(0).unwrap();
        for number in 1..=7 {
            let live = number <= flushes && number + 3 > flushes;
            let answer = table.view(0, 1, number);
            if live {
                let page = answer.expect("a live batch");
                assert_eq!(page[8..12], number.to_le_bytes());
            } else {
                assert_eq!(refused(answer), (17, 0), "{number} after {flushes}");
            }
        }
        assert!(table.view(0, 1, 0).is_ok());
        assert_eq!(refused(table.view(0, 1, u32::MAX)), (17, 0));
    }
    table.set_flushes(0, u32::MAX);
    assert_eq!(refused(table.view(0, 1, u32::MAX - 3)), (17, 0));
    assert_eq!(refused(table.view(0, 1, u32::MAX - 2)), (13, 1));
    assert_eq!(refused(table.view(0, 1, u32::MAX)), (13, 1));
}

#[test]
fn refusal_21_for_value_0_alone() {
    let mut table = Table::new(G);
    for (key, place) in [(0, 0), (1, 1), (u64::MAX, 2)] {
        assert_eq!(table.refuses(|t| t.put(key, 0)), (21, 0));
        for value in [1, 1 << 32, 1 << 63, u64::MAX] {
            assert_eq!(table.put(key, value), Ok(0));
            assert_eq!(table.get(key), found(value, 0, place + 1, 0));
        }
        // Nor does it take the value of a key that has one.
        assert_eq!(table.refuses(|t| t.put(key, 0)), (21, 0));
    }
    // The page is full: another key's put would flush, and a put of 0 doesn't.
    assert_eq!(table.refuses(|t| t.put(2, 0)), (21, 0));
    assert_eq!(table.put(2, 1), Ok(1));
}
