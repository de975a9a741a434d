//! What a get has cost so far: reads and comparisons (02, job 8).

use crate::answer::{Lookup, Place};
use crate::page;
use crate::record::{self, Record};

/// The two counts of one get, which grow from page to page.
#[derive(Clone, Copy, Debug, Default)]
pub struct Tally {
    /// The flash pages read, that of a refusal too.
    pub reads: u32,
    /// The entries compared, in the buffer page and the flash pages alike. What
    /// is looked up in the list does not count.
    comparisons: u32,
}

impl Tally {
    /// The key's first entry among those that a page uses. What the search
    /// compared is added.
    #[inline]
    pub fn search<'a>(&mut self, used: &'a [Record], key: u64) -> Option<&'a Record> {
        let search = page::search(used, key);
        self.comparisons += search.comparisons;
        search.place.map(|place| &used[place])
    }

    /// The answer with an entry that was found.
    #[inline]
    pub fn found(self, entry: &Record, place: Place) -> Lookup {
        Lookup::Found {
            value: record::rest(entry),
            reads: self.reads,
            comparisons: self.comparisons,
            place,
        }
    }

    /// The answer without one.
    #[inline]
    pub fn none(self) -> Lookup {
        Lookup::None {
            reads: self.reads,
            comparisons: self.comparisons,
        }
    }
}
