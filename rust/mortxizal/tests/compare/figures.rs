//! What a card carries, by the proved library and by the Rust index: all fields,
//! of geometries that are allowed and that are not.

use mortxizal::{raw, Card, Refused};
use reference::Geometry;

use crate::common::Rng;
use crate::draw;
use crate::engine::geometry;
use crate::{setting, Running};

const DRAWS: u64 = 200_000;

/// A geometry of any size, or numbers near one, or any numbers.
fn numbers(rng: &mut Rng) -> Geometry {
    let g = draw::geometry_within(rng, usize::MAX);
    match rng.below(10) {
        0..=4 => g,
        5..=8 => draw::any_numbers(rng, g),
        _ => Geometry::new(std::array::from_fn(|_| rng.next() as u32)),
    }
}

/// Puts around the first two flushes, and at both ends.
fn puts(rng: &mut Rng, g: Geometry) -> u32 {
    let entries = (g.page / 16).saturating_sub(1);
    let ends = [
        0,
        1,
        2,
        entries.saturating_sub(1),
        entries,
        entries + 1,
        2 * entries,
        2 * entries + 1,
        u32::MAX - 1,
        u32::MAX,
        rng.next() as u32,
    ];
    rng.pick(&ends)
}

/// What the library should tell, as the struct and as the result.
fn expected(g: Geometry, puts: u32) -> (raw::Card, Result<Card, Refused>) {
    match g.figures(puts) {
        Ok(card) => {
            let told = raw::Card {
                status: raw::DONE,
                number: 0,
                memory: card.memory,
                flash: card.flash,
                flushes: card.flushes,
                first_lost: card.first_lost,
            };
            let result = Card {
                memory: card.memory as usize,
                flash: card.flash as usize,
                flushes: card.flushes,
                first_lost: card.first_lost,
            };
            (told, Ok(result))
        }
        Err(refusal) => {
            let told = raw::Card {
                status: raw::REFUSED,
                number: refusal.number(),
                memory: 0,
                flash: 0,
                flushes: 0,
                first_lost: 0,
            };
            (told, Err(Refused::Geometry))
        }
    }
}

#[test]
fn figures_of_any_geometry() {
    let mut running = Running {
        test: "figures_of_any_geometry",
        seed: setting("MX_SEED", 1),
    };
    let (mut told, mut refused) = (0, 0);
    for _ in 0..DRAWS {
        let rng = &mut Rng(running.seed);
        let g = numbers(rng);
        let puts = puts(rng, g);
        let (card, result) = expected(g, puts);
        let library = geometry(g);
        assert_eq!(raw::figures(library, puts), card, "{g:?}, {puts}");
        assert_eq!(library.figures(puts), result, "{g:?}, {puts}");
        assert_eq!(library.memory_need(), result.map(|card| card.memory));
        assert_eq!(library.flash_need(), result.map(|card| card.flash));
        assert_eq!(library.is_allowed(), result.is_ok());
        told += u32::from(result.is_ok());
        refused += u32::from(result.is_err());
        running.seed += 1;
    }
    println!("told {told}, refused {refused}");
    assert!(told > 0 && refused > 0);
}
