//! What the calls answer.

/// Why a call was refused. A refused call has changed no byte.
#[derive(Clone, Copy, Debug, PartialEq, Eq)]
pub enum Refusal {
    /// 1: the geometry is outside the table.
    Geometry,
    /// 2: memory is shorter than 32 bytes or than the need.
    ShortMemory,
    /// 3: flash is shorter than the need.
    ShortFlash,
    /// 4: the partition is not below S, or the page not below Q.
    OutOfRange,
    /// 11: the opening numbers are not allowed, or the eighth is not 0.
    Opening,
    /// 12: L is above D, the total is above (K + 1) × Q × E or would end above
    /// that or below 0, the live number is above the lesser of K and F, or a
    /// buffer page that the call reads counts above E.
    Overfull,
    /// 13: a flash page read is not the page expected there.
    BatchPage {
        /// The pages read so far, with the failed one. A text counts none.
        reads: u32,
    },
    /// 14: the key has to be listed and the list is full.
    ListFull,
    /// 15: there is nothing in the buffer to flush.
    BufferEmpty,
    /// 16: a flush is due and the flush numbers are used up.
    NumbersSpent,
    /// 17: the flush number is neither 0 nor that of a live batch.
    NotLive,
    /// 21: the value is 0, where the store never puts sound.
    NoPosition,
    /// 22: the text area is shorter than the text.
    ShortText,
    /// 23: no batch is live that could be dropped.
    NoBatch,
}

impl Refusal {
    /// The refusal's number in documents 01 and 02.
    pub fn number(self) -> u32 {
        match self {
            Refusal::Geometry => 1,
            Refusal::ShortMemory => 2,
            Refusal::ShortFlash => 3,
            Refusal::OutOfRange => 4,
            Refusal::Opening => 11,
            Refusal::Overfull => 12,
            Refusal::BatchPage { .. } => 13,
            Refusal::ListFull => 14,
            Refusal::BufferEmpty => 15,
            Refusal::NumbersSpent => 16,
            Refusal::NotLive => 17,
            Refusal::NoPosition => 21,
            Refusal::ShortText => 22,
            Refusal::NoBatch => 23,
        }
    }

    /// The pages read so far: only a refusal for a flash page has read any.
    pub fn reads(self) -> u32 {
        match self {
            Refusal::BatchPage { reads } => reads,
            _ => 0,
        }
    }
}

/// Where a key was found.
#[derive(Clone, Copy, Debug, PartialEq, Eq)]
pub enum Place {
    /// In its buffer page.
    Buffer,
    /// In the batch with this flush number.
    Batch(u32),
}

/// The answer of an accepted get.
#[derive(Clone, Copy, Debug, PartialEq, Eq)]
pub enum Lookup {
    /// The key has this value.
    Found {
        /// The key's value.
        value: u64,
        /// The flash pages read.
        reads: u32,
        /// The entries compared, up to the one that answers (02, job 8).
        comparisons: u32,
        /// Where the key was.
        place: Place,
    },
    /// The key is not there.
    None {
        /// The flash pages read.
        reads: u32,
        /// The entries compared, none for a listed key (02, job 8).
        comparisons: u32,
    },
}
