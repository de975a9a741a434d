//! What a table will carry, told before there is one.

use crate::raw;
use crate::Refused;

/// The figures of a geometry and a number of puts, from
/// [`Geometry::figures`](crate::Geometry::figures).
///
/// [`flushes`](Card::flushes) and [`first_lost`](Card::first_lost) are bounds for
/// a table fresh from a format. It is proved that no keys go beyond them, whatever
/// calls stand between the puts, as long as none is a format, a flush or a drop;
/// a refused put counts as a put. And it is proved that puts of keys that share
/// one page of one partition reach both. Keys that spread do better.
#[derive(Clone, Copy, Debug, PartialEq, Eq, Hash)]
pub struct Card {
    /// The bytes that the table needs of memory.
    pub memory: usize,
    /// The bytes that the table needs of flash.
    pub flash: usize,
    /// The most flushes that so many puts can cause, in all partitions together.
    /// Each writes [`Geometry::pages`](crate::Geometry::pages) pages.
    pub flushes: u64,
    /// The first put, counted from 1, at which an earlier key can be lost: before
    /// it a get finds every key that was put and not deleted since.
    pub first_lost: u64,
}

impl Card {
    /// The figures that the library tells.
    pub(crate) fn of(card: raw::Card) -> Result<Card, Refused> {
        // The library is proved to refuse figures for no other reason.
        if card.status == raw::REFUSED {
            return Err(Refused::Geometry);
        }
        Ok(Card {
            memory: card.memory as usize,
            flash: card.flash as usize,
            flushes: card.flushes,
            first_lost: card.first_lost,
        })
    }
}
