//! What a get finds.

use crate::raw::{self, Answer};

/// Where a key was found.
#[derive(Clone, Copy, Debug, PartialEq, Eq, Hash)]
pub enum Place {
    /// In the buffer.
    Buffer,
    /// In the batch with this flush number.
    Batch(u32),
}

/// What a get found.
///
/// A later version may tell more of it. So a pattern ends in `..`, and a lookup
/// that another one is compared with is made by [`Lookup::found`] or
/// [`Lookup::none`].
///
/// ```
/// # use mortxizal::{Geometry, Index};
/// use mortxizal::{Lookup, Place};
///
/// # let geometry = Geometry::default();
/// # let mut memory = vec![0; geometry.memory_need()?];
/// # let mut flash = vec![0; geometry.flash_need()?];
/// # let mut index = Index::format(&mut memory, &mut flash, geometry)?;
/// index.put(7, 70)?;
/// assert_eq!(index.get(7)?, Lookup::found(70, 0, 1, Place::Buffer));
/// let position = match index.get(7)? {
///     Lookup::Found { value, .. } => value,
///     _ => 0,
/// };
/// assert_eq!(position, 70);
/// # Ok::<(), mortxizal::Refused>(())
/// ```
#[derive(Clone, Copy, Debug, PartialEq, Eq, Hash)]
#[non_exhaustive]
pub enum Lookup {
    /// The key has this value.
    #[non_exhaustive]
    Found {
        /// The key's value.
        value: u64,
        /// The flash pages read.
        reads: u32,
        /// The entries compared with the key inside pages.
        comparisons: u32,
        /// Where the key was.
        place: Place,
    },
    /// The key is not there.
    #[non_exhaustive]
    None {
        /// The flash pages read.
        reads: u32,
        /// The entries compared with the key inside pages.
        comparisons: u32,
    },
}

impl Lookup {
    /// The lookup of a key that is there.
    #[inline]
    pub const fn found(value: u64, reads: u32, comparisons: u32, place: Place) -> Lookup {
        Lookup::Found {
            value,
            reads,
            comparisons,
            place,
        }
    }

    /// The lookup of a key that is not there.
    #[inline]
    pub const fn none(reads: u32, comparisons: u32) -> Lookup {
        Lookup::None { reads, comparisons }
    }

    /// What the answer of an accepted get tells.
    #[inline]
    pub(crate) fn of(answer: Answer) -> Lookup {
        let (reads, comparisons) = (answer.reads, answer.comparisons);
        if answer.status == raw::NONE {
            return Lookup::none(reads, comparisons);
        }
        let place = match answer.batch {
            0 => Place::Buffer,
            number => Place::Batch(number),
        };
        Lookup::found(answer.value, reads, comparisons, place)
    }

    /// The key's value, if it has one.
    #[inline]
    pub fn value(self) -> Option<u64> {
        match self {
            Lookup::Found { value, .. } => Some(value),
            Lookup::None { .. } => None,
        }
    }

    /// The flash pages read.
    #[inline]
    pub fn reads(self) -> u32 {
        match self {
            Lookup::Found { reads, .. } | Lookup::None { reads, .. } => reads,
        }
    }

    /// The entries compared with the key inside pages, which are its buffer page
    /// and each flash page read. A page costs i + 1 where the key is its entry i,
    /// counted from 0, and its count of entries where the key is not among them.
    /// The list of deleted keys costs none: a key in it has 0 reads and 0
    /// comparisons.
    ///
    /// It is proved that no page costs more than the E = P / 16 - 1 entries that a
    /// page of P bytes has room for, so that there are at most E * (reads + 1).
    ///
    /// ```
    /// # use mortxizal::{Geometry, Index};
    /// # let geometry = Geometry::default().with_parts(0).with_pages(1);
    /// # let mut memory = vec![0; geometry.memory_need()?];
    /// # let mut flash = vec![0; geometry.flash_need()?];
    /// # let mut index = Index::format(&mut memory, &mut flash, geometry)?;
    /// for key in 1..=3 {
    ///     index.put(key, 10 * key)?;
    /// }
    /// index.flush(0)?;
    /// index.put(4, 40)?;
    /// assert_eq!(index.get(4)?.comparisons(), 1);
    /// // The one entry of the buffer page, then two of the page in flash.
    /// assert_eq!(index.get(2)?.comparisons(), 1 + 2);
    /// # Ok::<(), mortxizal::Refused>(())
    /// ```
    #[inline]
    pub fn comparisons(self) -> u32 {
        match self {
            Lookup::Found { comparisons, .. } | Lookup::None { comparisons, .. } => comparisons,
        }
    }
}
