//! The seven numbers of a table, and what the proved library tells of them.

use crate::raw;
use crate::{Card, Refused};

/// The seven numbers that a table is formatted with.
///
/// A later version may have more of them. So a geometry is made from the default
/// one, by saying what differs; this may be done in a constant.
///
/// ```
/// use mortxizal::Geometry;
///
/// const GEOMETRY: Geometry = Geometry::DEFAULT.with_kept(8).with_list(100);
///
/// assert_eq!((GEOMETRY.page, GEOMETRY.kept, GEOMETRY.list), (4096, 8, 100));
/// let mut memory = vec![0; GEOMETRY.memory_need()?];
/// let mut flash = vec![0; GEOMETRY.flash_need()?];
/// # Ok::<(), mortxizal::Refused>(())
/// ```
#[derive(Clone, Copy, Debug, PartialEq, Eq, Hash)]
#[non_exhaustive]
pub struct Geometry {
    /// s: the table has 2^s partitions, by the top s bits of a key. 0 to 8.
    pub parts: u32,
    /// P: bytes in a page, which holds P / 16 - 1 entries. A power of two, 64 to 4096.
    pub page: u32,
    /// Q: pages in a batch, among which a key's mixed bits choose. A power of two, 1 to 64.
    pub pages: u32,
    /// K: the most batches kept per partition. 1 to 32.
    pub kept: u32,
    /// M: bits in the filter of a batch. A power of two, 64 to 65536.
    pub bits: u32,
    /// h: bits that a key sets in a filter. 1 to 8.
    pub hashes: u32,
    /// D: places for deleted keys per partition. 1 to 1024.
    pub list: u32,
}

impl Default for Geometry {
    /// [`Geometry::DEFAULT`].
    fn default() -> Self {
        Geometry::DEFAULT
    }
}

impl Geometry {
    /// 16 partitions of 16 batches of 16 pages, with 16 filter bits to an
    /// entry: room for 1,044,480 entries in 16 MiB of flash, over 3.1 MiB of
    /// memory.
    pub const DEFAULT: Geometry = Geometry {
        parts: 4,
        page: 4096,
        pages: 16,
        kept: 16,
        bits: 65536,
        hashes: 8,
        list: 256,
    };

    /// The same with 2^s partitions, for this s.
    #[must_use]
    pub const fn with_parts(self, parts: u32) -> Geometry {
        Geometry { parts, ..self }
    }

    /// The same with pages of so many bytes.
    #[must_use]
    pub const fn with_page(self, page: u32) -> Geometry {
        Geometry { page, ..self }
    }

    /// The same with so many pages in a batch.
    #[must_use]
    pub const fn with_pages(self, pages: u32) -> Geometry {
        Geometry { pages, ..self }
    }

    /// The same with so many batches kept per partition.
    #[must_use]
    pub const fn with_kept(self, kept: u32) -> Geometry {
        Geometry { kept, ..self }
    }

    /// The same with so many bits in the filter of a batch.
    #[must_use]
    pub const fn with_bits(self, bits: u32) -> Geometry {
        Geometry { bits, ..self }
    }

    /// The same with so many bits that a key sets in a filter.
    #[must_use]
    pub const fn with_hashes(self, hashes: u32) -> Geometry {
        Geometry { hashes, ..self }
    }

    /// The same with so many places for deleted keys per partition.
    #[must_use]
    pub const fn with_list(self, list: u32) -> Geometry {
        Geometry { list, ..self }
    }

    /// What a table of this geometry carries: the bytes of its areas, the most
    /// flushes that so many puts can cause, and the first put at which an earlier
    /// key can be lost. It is told without any area, before a card is bought.
    ///
    /// [`Refused::Geometry`] if the geometry is not allowed.
    ///
    /// ```
    /// use mortxizal::{Geometry, Refused};
    ///
    /// let card = Geometry::default().figures(1_000_000)?;
    /// assert_eq!((card.memory, card.flash), (3_211_552, 16_777_216));
    /// assert_eq!((card.flushes, card.first_lost), (3_921, 4_336));
    ///
    /// let geometry = Geometry::default().with_kept(33);
    /// assert_eq!(geometry.figures(1_000_000), Err(Refused::Geometry));
    /// # Ok::<(), mortxizal::Refused>(())
    /// ```
    pub fn figures(&self, puts: u32) -> Result<Card, Refused> {
        raw::expect_interface();
        Card::of(raw::figures(*self, puts))
    }

    /// Whether all seven numbers are in their ranges.
    ///
    /// ```
    /// use mortxizal::Geometry;
    ///
    /// assert!(Geometry::default().is_allowed());
    /// assert!(!Geometry::default().with_pages(3).is_allowed());
    /// ```
    pub fn is_allowed(&self) -> bool {
        self.figures(0).is_ok()
    }

    /// The bytes that the table needs of memory, or [`Refused::Geometry`] if it
    /// is not allowed.
    pub fn memory_need(&self) -> Result<usize, Refused> {
        Ok(self.figures(0)?.memory)
    }

    /// The bytes that the table needs of flash, or [`Refused::Geometry`] if it
    /// is not allowed.
    pub fn flash_need(&self) -> Result<usize, Refused> {
        Ok(self.figures(0)?.flash)
    }
}
