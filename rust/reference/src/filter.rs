//! Filters: one for each slot of a partition, M bits each.
//!
//! M is a power of two and M / 8 the filter's length, so a place mod M is the
//! low three bits of the place in a byte whose number is masked by the length.

use crate::key::Bits;

/// Whether all bits of the key are set.
#[inline]
pub fn passes(filter: &[u8], bits: Bits) -> bool {
    let mask = filter.len().wrapping_sub(1);
    bits.places()
        .all(|place| filter[(place >> 3) as usize & mask] & 1 << (place & 7) != 0)
}

/// Sets all bits of the key.
#[inline]
pub fn insert(filter: &mut [u8], bits: Bits) {
    let mask = filter.len().wrapping_sub(1);
    for place in bits.places() {
        filter[(place >> 3) as usize & mask] |= 1 << (place & 7);
    }
}
