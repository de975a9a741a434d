//! From a key to its partition, its page and its filter bits.

use crate::geometry::Layout;

/// The key's partition: its top s bits.
#[inline]
pub fn partition(layout: &Layout, key: u64) -> usize {
    // In two steps, because with s = 0 a single shift would be by 64.
    ((key >> 32) >> (32 - layout.geometry().parts)) as usize
}

/// Marsaglia's xorshift on 64 bits.
#[inline]
pub fn mix(key: u64) -> u64 {
    let mut mixed = key;
    mixed ^= mixed << 13;
    mixed ^= mixed >> 7;
    mixed ^= mixed << 17;
    mixed
}

/// The key's page number: bits 48 to 63 of the mixed key, as a number, mod Q.
#[inline]
pub fn page_number(layout: &Layout, key: u64) -> usize {
    // Q is a power of two of at most 64, so the mask lies within the 16 bits.
    (mix(key) >> 48) as usize & (layout.pages() - 1)
}

/// The bits that a key sets in a filter, before they are taken mod M.
///
/// M divides 2^32, so the sums g + i × d may wrap.
#[derive(Clone, Copy, Debug)]
pub struct Bits {
    first: u32,
    step: u32,
    hashes: u32,
}

impl Bits {
    /// The bits of a key.
    #[inline]
    pub fn of(layout: &Layout, key: u64) -> Bits {
        let mixed = mix(key);
        Bits {
            first: mixed as u32,
            step: (mixed >> 32) as u32 | 1,
            hashes: layout.geometry().hashes,
        }
    }

    /// The h places, bit 0 first, still to be taken mod M.
    #[inline]
    pub fn places(self) -> impl Iterator<Item = u32> {
        (0..self.hashes).map(move |i| self.first.wrapping_add(i.wrapping_mul(self.step)))
    }

    /// The h places in a filter of the layout, bit 0 first.
    #[inline]
    pub fn places_in(self, layout: &Layout) -> impl Iterator<Item = u32> {
        let mask = layout.geometry().bits - 1;
        self.places().map(move |place| place & mask)
    }
}
