//! The ten bench cases of document 01.

mod common;

use common::{found, none, refused, Table, G, LARGEST};
use reference::key::{mix, Bits};
use reference::{format, Geometry, Layout};

fn layout(g: Geometry) -> Layout {
    g.layout().expect("an allowed geometry")
}

#[test]
fn case_1_the_needs_of_the_session_geometry() {
    assert_eq!(layout(G).memory_need(), 144);
    assert_eq!(layout(G).flash_need(), 128);
    assert_eq!(format(&mut [0; 144], &[0; 128], G), Ok(()));
    assert_eq!(refused(format(&mut [0; 143], &[0; 128], G)), (2, 0));
    assert_eq!(refused(format(&mut [0; 144], &[0; 127], G)), (3, 0));
}

#[test]
fn case_2_the_needs_of_the_largest_geometry() {
    let largest = layout(LARGEST);
    assert_eq!(largest.memory_need(), 138_416_160);
    assert_eq!(largest.flash_need(), 2_147_483_648);
}

#[test]
fn case_3_mixed_keys() {
    assert_eq!(mix(1), 0x4082_2041);
    assert_eq!(mix(2), 0x8104_4082);
    assert_eq!(mix(0), 0);
}

#[test]
fn case_4_bits_of_keys() {
    let bits = |key: u64| -> Vec<u32> { Bits::of(&layout(G), key).places_in(&layout(G)).collect() };
    assert_eq!(bits(0), [0, 1, 2]);
    assert_eq!(bits(1), [1, 2, 3]);
    assert_eq!(bits(2), [2, 3, 4]);
}

#[test]
fn case_5_a_filter_that_passes_a_key_its_batch_lacks() {
    let mut table = Table::new(G);
    assert_eq!(table.put(0, 7), Ok(0));
    assert_eq!(table.put(2, 8), Ok(0));
    assert_eq!(table.flush(0), Ok(1));
    assert_eq!(table.filter(0, 0), [0b0001_1111, 0, 0, 0, 0, 0, 0, 0]);
    assert_eq!(table.get(1), none(1, 2));
}

#[test]
fn case_6_the_fourth_key_flushes_and_a_repeat_does_not() {
    let mut table = Table::new(G);
    for key in 1..=3 {
        assert_eq!(table.put(key, key), Ok(0));
    }
    assert_eq!(table.put(3, 9), Ok(0));
    assert_eq!(table.get(3), found(9, 0, 3, 0));
    assert_eq!(table.put(4, 4), Ok(1));
    assert_eq!(table.flushes(0), 1);
    assert_eq!(table.get(4), found(4, 0, 1, 0));
    assert_eq!(table.get(3), found(9, 1, 4, 1));
}

#[test]
fn case_7_a_key_lasts_two_flushes() {
    let mut table = Table::new(G);
    assert_eq!(table.put(1, 10), Ok(0));
    assert_eq!(table.flush(0), Ok(1));
    table.put(2, 20).unwrap();
    assert_eq!(table.flush(0), Ok(1));
    assert_eq!(table.get(1), found(10, 1, 1, 1));
    table.put(2, 21).unwrap();
    assert_eq!(table.flush(0), Ok(1));
    assert_eq!(table.get(1), none(0, 0));
}

#[test]
fn case_8_del_of_an_absent_key_in_a_fresh_table() {
    let mut table = Table::new(G);
    let before = table.clone();
    assert_eq!(table.del(5), Ok(()));
    assert_eq!(table, before);
    assert_eq!(table.listed(0), 0);
}

#[test]
fn case_9_entries_in_a_page() {
    assert_eq!(layout(G).entries(), 3);
    let large = Geometry::new([0, 4096, 1, 2, 64, 3, 1]);
    assert_eq!(layout(large).entries(), 255);
}

#[test]
fn case_10_geometries_outside_the_table_and_an_untouched_area() {
    let outside = [
        Geometry { kept: 0, ..G },
        Geometry { kept: 33, ..G },
        Geometry { hashes: 9, ..G },
        Geometry { pages: 3, ..G },
    ];
    for g in outside {
        let (mut memory, flash) = (vec![0; 32_768], vec![0; 32_768]);
        assert_eq!(refused(format(&mut memory, &flash, g)), (1, 0), "{g:?}");
        assert_eq!(memory, vec![0; 32_768]);
    }
    let untouched = Table {
        g: G,
        memory: vec![0; 32_768],
        flash: vec![0; 32_768],
    };
    assert_eq!(untouched.refuses(|t| t.get(1)), (11, 0));
    assert_eq!(untouched.refuses(|t| t.put(1, 1)), (11, 0));
    assert_eq!(untouched.refuses(|t| t.del(1)), (11, 0));
    assert_eq!(untouched.refuses(|t| t.flush(0)), (11, 0));
    assert_eq!(untouched.refuses(|t| t.count(0)), (11, 0));
    assert_eq!(untouched.refuses(|t| t.text(0)), (11, 0));
    assert_eq!(untouched.refuses(|t| t.drop_oldest(0)), (11, 0));
    assert_eq!(untouched.refuses(|t| t.view(0, 0, 0).map(|_| ())), (11, 0));
}
