//! The two indexes behind one face. Each call is one call that is not
//! inlined into the measuring loop: of the engine since it comes from an
//! archive, of the Rust index since its functions here say so.

use reference::{Geometry, Lookup, Place, Refusal};

/// What a get says, in either index.
#[derive(Clone, Copy, PartialEq, Eq, Debug)]
pub struct Got {
    pub found: bool,
    pub value: u64,
    /// Flash pages read.
    pub reads: u32,
    /// Entries compared inside pages.
    pub comparisons: u32,
    /// The batch by number, 0 for the buffer.
    pub batch: u32,
}

/// Pages written, of a text its bytes, or the refusal's number.
pub type Done = Result<u32, u32>;

pub trait Index {
    fn format(memory: &mut [u8], flash: &[u8], geometry: Geometry) -> Done;
    fn put(memory: &mut [u8], flash: &mut [u8], key: u64, value: u64) -> Done;
    fn get(memory: &[u8], flash: &[u8], key: u64) -> Result<Got, u32>;
    fn del(memory: &mut [u8], flash: &[u8], key: u64) -> Done;
    fn flush(memory: &mut [u8], flash: &mut [u8], partition: u32) -> Done;
    fn text(memory: &[u8], flash: &[u8], partition: u32, text: &mut [u8]) -> Done;
    fn drop_oldest(memory: &mut [u8], flash: &[u8], partition: u32) -> Done;
}

/// The independent index of `rust/reference`.
pub struct RustIndex;

#[inline(never)]
fn put(memory: &mut [u8], flash: &mut [u8], key: u64, value: u64) -> Result<u32, Refusal> {
    reference::put(memory, flash, key, value)
}

#[inline(never)]
fn get(memory: &[u8], flash: &[u8], key: u64) -> Result<Lookup, Refusal> {
    reference::get(memory, flash, key)
}

#[inline(never)]
fn del(memory: &mut [u8], flash: &[u8], key: u64) -> Result<(), Refusal> {
    reference::del(memory, flash, key)
}

#[inline(never)]
fn flush(memory: &mut [u8], flash: &mut [u8], partition: u32) -> Result<u32, Refusal> {
    reference::flush(memory, flash, partition)
}

#[inline(never)]
fn text(memory: &[u8], flash: &[u8], partition: u32, text: &mut [u8]) -> Result<usize, Refusal> {
    reference::text(memory, flash, partition, text)
}

#[inline(never)]
fn drop_oldest(memory: &mut [u8], flash: &[u8], partition: u32) -> Result<(), Refusal> {
    reference::drop_oldest(memory, flash, partition)
}

impl Index for RustIndex {
    fn format(memory: &mut [u8], flash: &[u8], geometry: Geometry) -> Done {
        match reference::format(memory, flash, geometry) {
            Ok(()) => Ok(0),
            Err(refusal) => Err(refusal.number()),
        }
    }

    #[inline]
    fn put(memory: &mut [u8], flash: &mut [u8], key: u64, value: u64) -> Done {
        put(memory, flash, key, value).map_err(Refusal::number)
    }

    #[inline]
    fn get(memory: &[u8], flash: &[u8], key: u64) -> Result<Got, u32> {
        match get(memory, flash, key) {
            Ok(Lookup::Found {
                value,
                reads,
                comparisons,
                place,
            }) => Ok(Got {
                found: true,
                value,
                reads,
                comparisons,
                batch: match place {
                    Place::Buffer => 0,
                    Place::Batch(number) => number,
                },
            }),
            Ok(Lookup::None { reads, comparisons }) => Ok(Got {
                found: false,
                value: 0,
                reads,
                comparisons,
                batch: 0,
            }),
            Err(refusal) => Err(refusal.number()),
        }
    }

    #[inline]
    fn del(memory: &mut [u8], flash: &[u8], key: u64) -> Done {
        match del(memory, flash, key) {
            Ok(()) => Ok(0),
            Err(refusal) => Err(refusal.number()),
        }
    }

    #[inline]
    fn flush(memory: &mut [u8], flash: &mut [u8], partition: u32) -> Done {
        flush(memory, flash, partition).map_err(Refusal::number)
    }

    #[inline]
    fn text(memory: &[u8], flash: &[u8], partition: u32, area: &mut [u8]) -> Done {
        match text(memory, flash, partition, area) {
            Ok(length) => Ok(length as u32),
            Err(refusal) => Err(refusal.number()),
        }
    }

    #[inline]
    fn drop_oldest(memory: &mut [u8], flash: &[u8], partition: u32) -> Done {
        match drop_oldest(memory, flash, partition) {
            Ok(()) => Ok(0),
            Err(refusal) => Err(refusal.number()),
        }
    }
}
