//! What a table of a geometry will carry, told before there is one (02, job 7).

use crate::answer::Refusal;
use crate::geometry::Geometry;

/// The figures of a geometry and a number of puts.
#[derive(Clone, Copy, Debug, PartialEq, Eq)]
pub struct Card {
    /// The bytes that the table needs of memory.
    pub memory: u64,
    /// The bytes that the table needs of flash.
    pub flash: u64,
    /// The most flushes that so many puts can cause on a fresh table.
    pub flushes: u64,
    /// The first put, counted from 1, at which an earlier key can be lost.
    pub first_lost: u64,
}

impl Geometry {
    /// The figures for so many puts on a fresh table, with no flush or drop
    /// requested; refusal 1 as in format.
    pub fn figures(self, puts: u32) -> Result<Card, Refusal> {
        let layout = self.layout().ok_or(Refusal::Geometry)?;
        let entries = layout.entries() as u64;
        // The first flush comes with put E + 1 at the earliest, each later one E puts on.
        let behind_first = u64::from(puts.saturating_sub(1));
        Ok(Card {
            memory: layout.memory_need() as u64,
            flash: layout.flash_need() as u64,
            flushes: behind_first / entries,
            first_lost: (layout.kept() as u64 + 1) * entries + 1,
        })
    }
}
