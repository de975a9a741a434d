//! Records of 16 bytes that open with a key: page entries and list places.

use crate::geometry::RECORD_BYTES;

/// A page entry (key 8, value 8) or a list place (key 8, stamp 4, zero 4).
pub type Record = [u8; RECORD_BYTES];

/// The record of a key and the 8 bytes after it.
#[inline]
pub fn new(key: u64, rest: u64) -> Record {
    (u128::from(rest) << 64 | u128::from(key)).to_le_bytes()
}

/// The key that the record opens with.
#[inline]
pub fn key(record: &Record) -> u64 {
    u128::from_le_bytes(*record) as u64
}

/// The 8 bytes after the key: an entry's value, or a stamp and its zero.
#[inline]
pub fn rest(record: &Record) -> u64 {
    (u128::from_le_bytes(*record) >> 64) as u64
}

/// The place of the first record of the key.
///
/// Records are gone through in blocks of four, whose comparisons come out
/// unrolled: in a large page nearly all records are other keys.
#[inline]
pub fn find(records: &[Record], wanted: u64) -> Option<usize> {
    let is_wanted = |record: &Record| key(record) == wanted;
    let (blocks, rest) = records.as_chunks::<4>();
    let block = blocks.iter().position(|block| block.iter().any(is_wanted));
    let (skipped, left) = match block {
        Some(block) => (4 * block, &blocks[block][..]),
        None => (4 * blocks.len(), rest),
    };
    left.iter().position(is_wanted).map(|place| skipped + place)
}

/// Takes out the record at the place: later ones move down whole, and the
/// place that falls vacant at the end becomes zero.
#[inline]
pub fn remove(records: &mut [Record], place: usize) {
    let last = records.len() - 1;
    records.copy_within(place + 1.., place);
    records[last] = [0; RECORD_BYTES];
}
