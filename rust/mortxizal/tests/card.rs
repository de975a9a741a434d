//! The figures of a card on the proved library itself: as a Rust user meets
//! them, and against what its calls do to a fresh table. That no list of calls
//! goes beyond them is proved; here it is tried.

#[path = "../../reference/tests/common/mod.rs"]
mod common;
mod engine;

use common::call::{Answer, Call};
use common::carry::{check_lists, check_long_lists, check_long_sequence, check_sequences, Maker};
use common::{G, LARGEST};
use engine::{call_raw, geometry};
use mortxizal::{raw, Card, Refused};
use reference::Geometry;

/// The library's calls, of which a put, a get and a del tell their answer.
fn call(call: Call, memory: &mut [u8], flash: &mut [u8]) -> Answer {
    let answer = call_raw(call, memory, flash);
    match answer.status {
        raw::FOUND => Answer::Found(answer.value, answer.reads, answer.comparisons, answer.batch),
        raw::NONE => Answer::None(answer.reads, answer.comparisons),
        raw::REFUSED => Answer::Refused(answer.number, answer.reads),
        _ => Answer::Done(answer.number),
    }
}

const MAKER: Maker = Maker {
    call,
    figures: |g, puts| {
        let card = geometry(g).figures(puts).unwrap();
        (card.flushes, card.first_lost)
    },
};

#[test]
fn the_session_geometry_and_the_largest() {
    for (puts, flushes) in [
        (0, 0),
        (1, 0),
        (3, 0),
        (4, 1),
        (7, 2),
        (u32::MAX, 1_431_655_764),
    ] {
        let card = Card {
            memory: 144,
            flash: 128,
            flushes,
            first_lost: 10,
        };
        assert_eq!(geometry(G).figures(puts), Ok(card), "{puts}");
    }
    let card = Card {
        memory: 138_416_160,
        flash: 2_147_483_648,
        flushes: 16_843_008,
        first_lost: 8416,
    };
    assert_eq!(geometry(LARGEST).figures(u32::MAX), Ok(card));
}

#[test]
fn the_answer_in_all_its_fields() {
    let told = raw::Card {
        status: raw::DONE,
        number: 0,
        memory: 144,
        flash: 128,
        flushes: 33,
        first_lost: 10,
    };
    assert_eq!(raw::figures(geometry(G), 100), told);
    let refused = raw::Card {
        status: raw::REFUSED,
        number: 1,
        memory: 0,
        flash: 0,
        flushes: 0,
        first_lost: 0,
    };
    let outside = geometry(Geometry { kept: 33, ..G });
    assert_eq!(raw::figures(outside, 100), refused);
    assert_eq!(outside.figures(100), Err(Refused::Geometry));
}

// Other lists than in the Rust index's own tests.
const FIRST_SEED: u64 = 1 << 32;

#[test]
fn random_lists_stay_within_the_figures() {
    check_lists(MAKER, FIRST_SEED);
}

#[test]
fn long_random_lists_stay_within_the_figures() {
    check_long_lists(MAKER, FIRST_SEED);
}

#[test]
fn the_sequence_reaches_the_figures() {
    check_sequences(MAKER);
}

#[test]
fn the_sequence_reaches_the_figures_when_its_keys_come_round() {
    check_long_sequence(MAKER);
}
