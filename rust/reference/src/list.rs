//! The delete list of a partition: places of key 8, stamp 4, zero 4.
//!
//! A listed key counts as absent, though batches may still hold it. Its stamp
//! is the youngest batch that may: once that one is gone, all of them are.

use crate::geometry::RECORD_BYTES;
use crate::record::{self, Record};

/// The list place of a key and its stamp.
#[inline]
pub fn place(key: u64, stamp: u32) -> Record {
    record::new(key, u64::from(stamp))
}

#[inline]
fn stamp(place: &Record) -> u32 {
    record::rest(place) as u32
}

/// Takes out every place with the stamp: how many places stay listed.
#[inline]
pub fn remove_stamped(listed: &mut [Record], gone: u32) -> usize {
    let mut stay = 0;
    for place in 0..listed.len() {
        if stamp(&listed[place]) != gone {
            listed[stay] = listed[place];
            stay += 1;
        }
    }
    listed[stay..].fill([0; RECORD_BYTES]);
    stay
}
