//! Document 02, job 7: the figures of a card, and lists of calls that stay
//! within them and reach them.

mod common;

use common::call::call_index;
use common::carry::{check_lists, check_long_lists, check_long_sequence, check_sequences, Maker};
use common::{flash_need, memory_need, refused, Rng, G, LARGEST};
use reference::Geometry;

const MAKER: Maker = Maker {
    call: call_index,
    figures: |g, puts| {
        let card = g.figures(puts).unwrap();
        (card.flushes, card.first_lost)
    },
};

#[test]
fn the_session_geometry() {
    for (puts, flushes) in [(0, 0), (1, 0), (2, 0), (3, 0), (4, 1), (6, 1), (7, 2)] {
        let card = G.figures(puts).unwrap();
        assert_eq!((card.memory, card.flash), (144, 128));
        assert_eq!((card.flushes, card.first_lost), (flushes, 10), "{puts}");
    }
    let card = G.figures(u32::MAX).unwrap();
    assert_eq!((card.flushes, card.first_lost), (1_431_655_764, 10));
}

#[test]
fn the_largest_geometry() {
    let card = LARGEST.figures(u32::MAX).unwrap();
    assert_eq!((card.memory, card.flash), (138_416_160, 2_147_483_648));
    assert_eq!((card.flushes, card.first_lost), (16_843_008, 8416));
    for (puts, flushes) in [(0, 0), (255, 0), (256, 1), (510, 1), (511, 2)] {
        let card = LARGEST.figures(puts).unwrap();
        assert_eq!((card.flushes, card.first_lost), (flushes, 8416), "{puts}");
    }
}

/// The three cards of `include/mortxizal.h`, in a million puts.
#[test]
fn the_table_of_the_header() {
    let middle = Geometry::new([4, 4096, 16, 16, 65536, 8, 256]);
    let rows = [
        (G, [144, 128, 333_333, 10]),
        (middle, [3_211_552, 16_777_216, 3921, 4336]),
        (LARGEST, [138_416_160, 2_147_483_648, 3921, 8416]),
    ];
    for (g, row) in rows {
        let card = g.figures(1_000_000).unwrap();
        let figures = [card.memory, card.flash, card.flushes, card.first_lost];
        assert_eq!(figures, row, "{g:?}");
    }
}

#[test]
fn the_needs_are_those_of_format() {
    let mut rng = Rng(7);
    for _ in 0..1000 {
        let g = rng.small_geometry();
        let card = g.figures(rng.next() as u32).unwrap();
        let (memory, flash) = (memory_need(g), flash_need(g));
        assert_eq!((card.memory, card.flash), (memory as u64, flash as u64));
        let (mut memory, flash) = (vec![0; memory], vec![0; flash]);
        assert_eq!(reference::format(&mut memory, &flash, g), Ok(()));
        let short = reference::format(&mut memory[1..], &flash, g);
        assert_eq!(refused(short), (2, 0));
        let short = reference::format(&mut memory, &flash[1..], g);
        assert_eq!(refused(short), (3, 0));
    }
}

#[test]
fn geometries_outside_the_table() {
    let outside = [
        Geometry { parts: 9, ..G },
        Geometry { page: 0, ..G },
        Geometry { page: 8192, ..G },
        Geometry { pages: 3, ..G },
        Geometry { kept: 0, ..G },
        Geometry { kept: 33, ..G },
        Geometry { bits: 96, ..G },
        Geometry { hashes: 9, ..G },
        Geometry { list: 1025, ..G },
        Geometry::new([u32::MAX; 7]),
        Geometry::new([0; 7]),
    ];
    for g in outside {
        for puts in [0, 1, u32::MAX] {
            assert_eq!(refused(g.figures(puts)), (1, 0), "{g:?}");
        }
    }
}

#[test]
fn random_lists_stay_within_the_figures() {
    check_lists(MAKER, 0);
}

#[test]
fn long_random_lists_stay_within_the_figures() {
    check_long_lists(MAKER, 0);
}

#[test]
fn the_sequence_reaches_the_figures() {
    check_sequences(MAKER);
}

#[test]
fn the_sequence_reaches_the_figures_when_its_keys_come_round() {
    check_long_sequence(MAKER);
}
