//! Why a call is refused.

use std::error::Error;
use std::fmt;

use crate::raw;

/// Why a call was refused. A refused call has changed no byte of any area.
///
/// A later version may refuse for more reasons, so a match has an arm for any
/// other one.
///
/// ```
/// use mortxizal::{Index, Refused};
///
/// let mut index = Index::attach(&mut [], &mut []);
/// let refused = index.put(1, 10).unwrap_err();
/// assert_eq!(refused, Refused::ShortMemory);
/// assert_eq!(refused.number(), 2);
/// assert_eq!(refused.to_string(), "memory is shorter than the table needs (refusal 2)");
/// ```
#[derive(Clone, Copy, Debug, PartialEq, Eq, Hash)]
#[non_exhaustive]
pub enum Refused {
    /// 1: a number of the geometry is outside its range (format, and what is asked
    /// of a [`Geometry`](crate::Geometry) alone: figures and needs).
    Geometry,
    /// 2: memory is shorter than 32 bytes, or than the table needs.
    ShortMemory,
    /// 3: flash is shorter than the table needs.
    ShortFlash,
    /// 4: there is no such partition (flush, view, count, text, drop) or page
    /// (view).
    OutOfRange,
    /// 11: memory does not open with an allowed geometry: it was never
    /// formatted, or it is damaged. Every call on the areas but format gives it.
    Opening,
    /// 12: the partition lists more keys than it has places for, a buffer page
    /// that the call reads counts more entries than fit (a text reads them all),
    /// more batches are live than are kept or were flushed, or the partition's
    /// total is above what fits, or would end above that or below 0 (put, del,
    /// flush, drop): memory is damaged, or was filled before totals or numbers of
    /// live batches were kept and has to be formatted anew.
    Overfull,
    /// 13: a page read from flash is not the one expected there (get, view, text,
    /// drop, and put and flush where a batch is pushed out): flash is damaged, or
    /// memory is.
    BatchPage {
        /// The flash pages read, with this one; of a text always 0.
        reads: u32,
    },
    /// 14: the key has to be listed as deleted, and its partition's list is
    /// full (del). Flushes and drops of the partition free places.
    ListFull,
    /// 15: the partition's buffer has nothing to flush (flush).
    BufferEmpty,
    /// 16: a flush is due, and the partition has had 4294967295 (put, flush).
    NumbersSpent,
    /// 17: the flush number is neither 0 nor that of a live batch (view).
    NotLive,
    /// 21: the value is 0, which is no position (put).
    NoPosition,
    /// 22: the text area is too short for the text (text).
    ShortText,
    /// 23: the partition has no live batch (drop).
    NoBatch,
}

impl Refused {
    /// The refusal's number, as in `include/mortxizal.h`.
    pub fn number(self) -> u32 {
        match self {
            Refused::Geometry => 1,
            Refused::ShortMemory => 2,
            Refused::ShortFlash => 3,
            Refused::OutOfRange => 4,
            Refused::Opening => 11,
            Refused::Overfull => 12,
            Refused::BatchPage { .. } => 13,
            Refused::ListFull => 14,
            Refused::BufferEmpty => 15,
            Refused::NumbersSpent => 16,
            Refused::NotLive => 17,
            Refused::NoPosition => 21,
            Refused::ShortText => 22,
            Refused::NoBatch => 23,
        }
    }

    /// The flash pages read before the refusal, with the one that caused it.
    pub fn reads(self) -> u32 {
        match self {
            Refused::BatchPage { reads } => reads,
            _ => 0,
        }
    }

    /// The refusal that an answer tells, if it tells one.
    pub(crate) fn of(answer: raw::Answer) -> Option<Refused> {
        if answer.status != raw::REFUSED {
            return None;
        }
        Some(match answer.number {
            1 => Refused::Geometry,
            2 => Refused::ShortMemory,
            3 => Refused::ShortFlash,
            4 => Refused::OutOfRange,
            11 => Refused::Opening,
            12 => Refused::Overfull,
            13 => Refused::BatchPage {
                reads: answer.reads,
            },
            14 => Refused::ListFull,
            15 => Refused::BufferEmpty,
            16 => Refused::NumbersSpent,
            17 => Refused::NotLive,
            21 => Refused::NoPosition,
            22 => Refused::ShortText,
            23 => Refused::NoBatch,
            // The library is proved to give no other.
            number => unreachable!("refusal {number}"),
        })
    }
}

impl fmt::Display for Refused {
    fn fmt(&self, output: &mut fmt::Formatter<'_>) -> fmt::Result {
        let text = match self {
            Refused::Geometry => "a number of the geometry is outside its range",
            Refused::ShortMemory => "memory is shorter than the table needs",
            Refused::ShortFlash => "flash is shorter than the table needs",
            Refused::OutOfRange => "there is no such partition or page",
            Refused::Opening => "memory holds no table",
            Refused::Overfull => {
                "memory is damaged: a list, a buffer page, the total or the live number counts wrongly"
            }
            Refused::BatchPage { .. } => "a page of flash is not the one expected there",
            Refused::ListFull => "the list of deleted keys is full",
            Refused::BufferEmpty => "there is nothing to flush",
            Refused::NumbersSpent => "the flush numbers are used up",
            Refused::NotLive => "there is no live batch with this flush number",
            Refused::NoPosition => "the value is 0, which is no position",
            Refused::ShortText => "the text area is too short for the text",
            Refused::NoBatch => "there is no live batch",
        };
        write!(output, "{text} (refusal {})", self.number())
    }
}

impl Error for Refused {}
