//! The live batches of a partition, youngest or oldest first.
//!
//! Live are the latest so many as the head's live number says, which is at most
//! the lesser of K and F in every head that was read.

use crate::partition::Head;

/// A live batch.
#[derive(Clone, Copy, Debug)]
pub struct Batch {
    /// Its flush number.
    pub number: u32,
    /// The slot it lies in.
    pub slot: usize,
}

/// The slot of the batch that flush number `flushes` + 1 writes.
#[inline]
pub fn next_slot(flushes: u32, kept: u32) -> usize {
    (flushes % kept) as usize
}

/// Whether the batch with this number is live.
#[inline]
pub fn is_live(number: u32, head: Head) -> bool {
    (1..=head.flushes).contains(&number) && head.flushes - number < head.live
}

/// The live batches by rising number.
#[inline]
pub fn oldest_first(head: Head, kept: u32) -> impl Iterator<Item = Batch> {
    // By the flushes before each batch: with none live F + 1 could overflow.
    (head.flushes - head.live..head.flushes).map(move |before| Batch {
        number: before + 1,
        slot: next_slot(before, kept),
    })
}

/// The live batches by falling number. Slots are walked backwards and round:
/// after F passes K the youngest batch may lie in any slot.
#[inline]
pub fn youngest_first(head: Head, kept: u32) -> impl Iterator<Item = Batch> {
    let mut slot = next_slot(head.flushes, kept);
    (0..head.live).map(move |age| {
        slot = if slot == 0 { kept as usize } else { slot } - 1;
        Batch {
            number: head.flushes - age,
            slot,
        }
    })
}
