//! Pages: a head of 16 bytes, then E entries.
//!
//! The head is count 2, page number 2, partition 2, zero 2, flush number 4,
//! zero 4. E is never passed along: it is the number of whole records that
//! follow the head, so a count above E is a slice that can't be cut.

use crate::record::{self, Record};

/// A page's place in the table, as its head tells it.
#[derive(Clone, Copy, Debug, PartialEq, Eq)]
pub struct Name {
    /// The partition.
    pub partition: usize,
    /// The page number.
    pub page: usize,
}

impl Name {
    /// The first 8 bytes of the head of an empty page of this name, as a
    /// number: the count, in the low 16 bits, is 0.
    #[inline]
    fn head(self) -> u64 {
        (self.partition as u64) << 32 | (self.page as u64) << 16
    }
}

/// The used entries, or none if the page counts above E.
#[inline]
pub fn used(page: &[u8]) -> Option<&[Record]> {
    let (head, entries) = page.as_chunks().0.split_first()?;
    entries.get(..count(head))
}

/// The used entries of a flash page, or none if the page counts above E or
/// isn't the page of this name in the batch with this flush number.
#[inline]
pub fn used_of_batch(page: &[u8], name: Name, number: u32) -> Option<&[Record]> {
    let (head, entries) = page.as_chunks().0.split_first()?;
    // Twelve bytes are judged; the last four of the head are nobody's.
    let judged = u128::from_le_bytes(*head) >> 16 & ((1 << 80) - 1);
    if judged != u128::from(number) << 48 | u128::from(name.head() >> 16) {
        return None;
    }
    entries.get(..count(head))
}

#[inline]
fn count(head: &Record) -> usize {
    usize::from(u128::from_le_bytes(*head) as u16)
}

/// What the search of a page comes to (02, job 8).
#[derive(Clone, Copy, Debug, PartialEq, Eq)]
pub struct Search {
    /// Where the key's first entry stands, from 0, if there is one.
    pub place: Option<usize>,
    /// The entries compared: all up to that one, or every used entry.
    pub comparisons: u32,
}

/// Searches a page's used entries for the key.
///
/// The comparisons follow from the place: a count kept on the way would be one
/// more thing to do for every entry. An entry counts once, though a block of
/// them may be looked at twice.
#[inline]
pub fn search(used: &[Record], key: u64) -> Search {
    let place = record::find(used, key);
    let comparisons = place.map_or(used.len(), |place| place + 1) as u32;
    Search { place, comparisons }
}

/// The entries of a page that is to change, used or not.
#[inline]
pub fn entries_mut(page: &mut [u8]) -> &mut [Record] {
    page.as_chunks_mut().0.split_at_mut(1).1
}

/// Writes the count, which is at most E.
#[inline]
pub fn set_count(page: &mut [u8], count: usize) {
    page[..2].copy_from_slice(&(count as u16).to_le_bytes());
}

/// Writes the flush number.
#[inline]
pub fn set_number(page: &mut [u8], number: u32) {
    page[8..12].copy_from_slice(&number.to_le_bytes());
}

/// Makes the page an empty buffer page.
#[inline]
pub fn clear(page: &mut [u8], name: Name) {
    page.fill(0);
    page[..8].copy_from_slice(&name.head().to_le_bytes());
}
