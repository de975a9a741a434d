//! The seven numbers of a table, and where its bytes lie once they are allowed.

use crate::answer::Refusal;

/// The length of the eight opening numbers of the memory area.
pub const OPENING_BYTES: usize = 32;
/// The length of a partition's head.
pub const HEAD_BYTES: usize = 16;
/// The length of a page's head, of an entry and of a list place.
pub const RECORD_BYTES: usize = 16;

/// The seven numbers, allowed or not.
#[derive(Clone, Copy, Debug, PartialEq, Eq, Hash)]
pub struct Geometry {
    /// s: the table has 2^s partitions.
    pub parts: u32,
    /// P: bytes in a page.
    pub page: u32,
    /// Q: pages in a batch.
    pub pages: u32,
    /// K: batches kept per partition.
    pub kept: u32,
    /// M: bits in a filter.
    pub bits: u32,
    /// h: bits set per key.
    pub hashes: u32,
    /// D: list places per partition.
    pub list: u32,
}

impl Geometry {
    /// The numbers in the order of document 01's table.
    #[inline]
    pub const fn new(numbers: [u32; 7]) -> Geometry {
        let [parts, page, pages, kept, bits, hashes, list] = numbers;
        Geometry {
            parts,
            page,
            pages,
            kept,
            bits,
            hashes,
            list,
        }
    }

    /// Whether all seven numbers are in document 01's table.
    #[inline]
    pub fn is_allowed(&self) -> bool {
        self.parts <= 8
            && is_power_within(self.page, 64, 4096)
            && is_power_within(self.pages, 1, 64)
            && (1..=32).contains(&self.kept)
            && is_power_within(self.bits, 64, 65536)
            && (1..=8).contains(&self.hashes)
            && (1..=1024).contains(&self.list)
    }

    /// The layout of a table of this geometry, if it is allowed.
    #[inline]
    pub fn layout(self) -> Option<Layout> {
        self.is_allowed().then_some(Layout { geometry: self })
    }

    /// The opening bytes of a table of this geometry.
    pub fn to_opening(self) -> [u8; OPENING_BYTES] {
        let numbers = [
            self.parts,
            self.page,
            self.pages,
            self.kept,
            self.bits,
            self.hashes,
            self.list,
            0,
        ];
        let mut opening = [0; OPENING_BYTES];
        let (words, _) = opening.as_chunks_mut::<4>();
        for (word, number) in words.iter_mut().zip(numbers) {
            *word = number.to_le_bytes();
        }
        opening
    }

    /// The geometry that opening bytes hold, if the eighth number is 0.
    #[inline]
    pub fn from_opening(opening: &[u8; OPENING_BYTES]) -> Option<Geometry> {
        let (words, _) = opening.as_chunks::<4>();
        let number = |i: usize| u32::from_le_bytes(words[i]);
        let geometry = Geometry::new(std::array::from_fn(number));
        (number(7) == 0).then_some(geometry)
    }
}

#[inline]
fn is_power_within(number: u32, low: u32, high: u32) -> bool {
    number.is_power_of_two() && low <= number && number <= high
}

/// An allowed geometry: sizes and offsets in the two areas.
///
/// A layout can only be made from an allowed geometry, so none of its sums
/// can overflow: the largest table needs 2^31 bytes of flash.
#[derive(Clone, Copy, Debug, PartialEq, Eq)]
pub struct Layout {
    geometry: Geometry,
}

impl Layout {
    /// The layout of a formatted table: refusals 2 (below 32), 11, 2 and 3.
    #[inline]
    pub fn open(memory: &[u8], flash: &[u8]) -> Result<Layout, Refusal> {
        let opening = memory.first_chunk().ok_or(Refusal::ShortMemory)?;
        let layout = Geometry::from_opening(opening)
            .and_then(Geometry::layout)
            .ok_or(Refusal::Opening)?;
        layout.check_lengths(memory, flash)?;
        Ok(layout)
    }

    /// Refusals 2 and 3 by the need.
    #[inline]
    pub fn check_lengths(&self, memory: &[u8], flash: &[u8]) -> Result<(), Refusal> {
        if memory.len() < self.memory_need() {
            return Err(Refusal::ShortMemory);
        }
        if flash.len() < self.flash_need() {
            return Err(Refusal::ShortFlash);
        }
        Ok(())
    }

    /// The seven numbers.
    #[inline]
    pub fn geometry(&self) -> Geometry {
        self.geometry
    }

    /// S: the number of partitions.
    #[inline]
    pub fn partitions(&self) -> usize {
        1 << self.geometry.parts
    }

    /// P: bytes in a page.
    #[inline]
    pub fn page_bytes(&self) -> usize {
        self.geometry.page as usize
    }

    /// Q: pages in a batch.
    #[inline]
    pub fn pages(&self) -> usize {
        self.geometry.pages as usize
    }

    /// K: batches kept per partition.
    #[inline]
    pub fn kept(&self) -> usize {
        self.geometry.kept as usize
    }

    /// E: entries that fit a page.
    #[inline]
    pub fn entries(&self) -> usize {
        self.page_bytes() / RECORD_BYTES - 1
    }

    /// (K + 1) × Q × E: entries that fit a partition's live batches and buffer.
    #[inline]
    pub fn most_entries(&self) -> u32 {
        (self.geometry.kept + 1) * self.geometry.pages * self.entries() as u32
    }

    /// The bytes of a partition's D list places.
    #[inline]
    pub fn list_bytes(&self) -> usize {
        self.geometry.list as usize * RECORD_BYTES
    }

    /// The bytes of one filter.
    #[inline]
    pub fn filter_bytes(&self) -> usize {
        self.geometry.bits as usize / 8
    }

    /// The bytes of a batch, which are also those of a partition's buffer.
    #[inline]
    pub fn batch_bytes(&self) -> usize {
        self.pages() * self.page_bytes()
    }

    /// The bytes of a partition in memory.
    #[inline]
    pub fn partition_bytes(&self) -> usize {
        HEAD_BYTES + self.list_bytes() + self.kept() * self.filter_bytes() + self.batch_bytes()
    }

    /// The bytes that the table needs of the memory area.
    #[inline]
    pub fn memory_need(&self) -> usize {
        OPENING_BYTES + (self.partition_bytes() << self.geometry.parts)
    }

    /// The bytes that the table needs of the flash area.
    #[inline]
    pub fn flash_need(&self) -> usize {
        (self.kept() * self.batch_bytes()) << self.geometry.parts
    }

    /// Where a partition begins in memory.
    #[inline]
    pub fn partition_at(&self, partition: usize) -> usize {
        OPENING_BYTES + partition * self.partition_bytes()
    }

    /// Where a slot of a partition begins in flash.
    #[inline]
    pub fn slot_at(&self, partition: usize, slot: usize) -> usize {
        (partition * self.kept() + slot) * self.batch_bytes()
    }

    /// Where a page of a slot of a partition begins in flash.
    #[inline]
    pub fn page_at(&self, partition: usize, slot: usize, page: usize) -> usize {
        self.slot_at(partition, slot) + page * self.page_bytes()
    }
}
