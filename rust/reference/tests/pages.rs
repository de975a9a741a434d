//! Document 02, job 2: the page number of a key.

mod common;

use common::plain::home;
use common::{found, pair, Rng, Table};
use reference::key::page_number;
use reference::Geometry;
use std::collections::HashSet;

/// The session's geometry with four pages.
const FOUR: Geometry = Geometry::new([0, 64, 4, 2, 64, 3, 1]);

/// Six keys of one stream: the low 16 bits have its number.
const STREAM: [u64; 6] = [
    0x9e37_79b9_7f4a_0007,
    0x3c6e_f372_fe94_0007,
    0xdaa6_6d2c_7dde_0007,
    0x78dd_e6e5_fd28_0007,
    0x1715_609f_7c74_0007,
    0xb54c_da58_fbbe_0007,
];

#[test]
fn keys_that_differ_only_above_bit_16() {
    let layout = FOUR.layout().unwrap();
    let pages = STREAM.map(|key| page_number(&layout, key));
    assert_eq!(pages, [3, 2, 0, 1, 3, 1]);
    // Three fill a page, and six flush nothing.
    let mut table = Table::new(FOUR);
    for key in STREAM {
        assert_eq!(table.put(key, 1), Ok(0));
    }
    let counts = [0, 1, 2, 3].map(|page| table.buffer(0, page)[0]);
    assert_eq!(counts, [1, 2, 1, 2]);
    assert_eq!(table.flush(0), Ok(4));
    // The last two come second in their pages.
    for (key, comparisons) in STREAM.into_iter().zip([1, 1, 1, 1, 2, 2]) {
        assert_eq!(table.get(key), found(1, 1, comparisons, 1));
    }
}

#[test]
fn keys_of_one_stream_reach_every_page() {
    let mut rng = Rng(2);
    for pages in [1, 2, 4, 8, 16, 32, 64] {
        let g = Geometry { pages, ..FOUR };
        let mut table = Table::new(g);
        let mut reached = HashSet::new();
        for _ in 0..2000 {
            let key = rng.next() << 16 | 7;
            table.put(key, 1).unwrap();
            let (partition, page) = home(g, key);
            let entries = table.buffer(partition, page)[16..].chunks(16);
            assert!(entries.map(pair).any(|entry| entry == (key, 1)));
            reached.insert(page);
        }
        assert_eq!(reached.len(), pages as usize);
    }
}
