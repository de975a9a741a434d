//! A partition in memory: head, list, filters and buffer, cut apart once.

use crate::answer::Refusal;
use crate::filter;
use crate::geometry::{Layout, HEAD_BYTES};
use crate::key::Bits;
use crate::live::{self, Batch};
use crate::page;
use crate::record::{self, Record};

/// What the head counts.
#[derive(Clone, Copy, Debug)]
pub struct Head {
    /// F: flushes done.
    pub flushes: u32,
    /// L: listed keys.
    pub listed: u32,
    /// The entries of the buffer and the live batches together.
    pub total: u32,
    /// The live number: so many batches are live, the latest ones.
    pub live: u32,
}

impl Head {
    /// The head of a partition in memory, and nothing else of it.
    #[inline]
    pub fn of(layout: &Layout, memory: &[u8], partition: usize) -> Result<Head, Refusal> {
        let bytes = memory[layout.partition_at(partition)..].first_chunk();
        Head::read(layout, bytes.ok_or(Refusal::ShortMemory)?)
    }

    /// Reads the head; refusal 12 if L or the total is above what fits, or the
    /// live number above the lesser of K and F.
    #[inline]
    fn read(layout: &Layout, bytes: &[u8; HEAD_BYTES]) -> Result<Head, Refusal> {
        let word = u128::from_le_bytes(*bytes);
        let head = Head {
            flushes: word as u32,
            listed: (word >> 32) as u32,
            total: (word >> 64) as u32,
            live: (word >> 96) as u32,
        };
        if head.listed > layout.geometry().list
            || head.total > layout.most_entries()
            || head.live > layout.geometry().kept.min(head.flushes)
        {
            return Err(Refusal::Overfull);
        }
        Ok(head)
    }

    /// The total that a call ends with which adds so many entries and takes so
    /// many off; refusal 12 if it is below 0 or above what fits. Only the end is
    /// judged: a put that flushes may take off one more than there were.
    #[inline]
    pub fn total_after(self, layout: &Layout, added: u32, gone: u32) -> Result<u32, Refusal> {
        let total = (self.total + added).checked_sub(gone);
        total
            .filter(|&total| total <= layout.most_entries())
            .ok_or(Refusal::Overfull)
    }
}

/// A partition that is only read.
#[derive(Clone, Copy)]
pub struct Partition<'a> {
    /// The four counts.
    pub head: Head,
    /// The first L list places.
    pub listed: &'a [Record],
    /// K filters by slot.
    pub filters: &'a [u8],
    /// Q buffer pages.
    pub buffer: &'a [u8],
}

impl<'a> Partition<'a> {
    /// Cuts the partition; refusal 12 if its head counts more than fits.
    // The compiler would make it a call, at a sixth more instructions in a get.
    #[inline(always)]
    pub fn cut(layout: &Layout, memory: &'a [u8], partition: usize) -> Result<Self, Refusal> {
        let bytes = &memory[layout.partition_at(partition)..][..layout.partition_bytes()];
        let (head, bytes) = bytes.split_first_chunk().ok_or(Refusal::ShortMemory)?;
        let (list, bytes) = bytes.split_at(layout.list_bytes());
        let (filters, buffer) = bytes.split_at(layout.kept() * layout.filter_bytes());
        let head = Head::read(layout, head)?;
        Ok(Partition {
            head,
            listed: &list.as_chunks().0[..head.listed as usize],
            filters,
            buffer,
        })
    }

    /// A buffer page.
    #[inline]
    pub fn page(&self, layout: &Layout, page: usize) -> &'a [u8] {
        &self.buffer[page * layout.page_bytes()..][..layout.page_bytes()]
    }

    /// The live batches whose filter passes, youngest first.
    #[inline]
    pub fn passing(self, layout: &Layout, bits: Bits) -> impl Iterator<Item = Batch> + 'a {
        let length = layout.filter_bytes();
        live::youngest_first(self.head, layout.geometry().kept).filter(move |batch| {
            filter::passes(&self.filters[batch.slot * length..][..length], bits)
        })
    }
}

/// A partition that is to change.
pub struct PartitionMut<'a> {
    /// The four counts.
    pub head: Head,
    head_bytes: &'a mut [u8; HEAD_BYTES],
    list: &'a mut [Record],
    /// K filters by slot.
    pub filters: &'a mut [u8],
    /// Q buffer pages.
    pub buffer: &'a mut [u8],
}

impl<'a> PartitionMut<'a> {
    /// Cuts the partition; refusal 12 if its head counts more than fits.
    // As a call it would cost a sixth more instructions in a del.
    #[inline(always)]
    pub fn cut(layout: &Layout, memory: &'a mut [u8], partition: usize) -> Result<Self, Refusal> {
        let bytes = &mut memory[layout.partition_at(partition)..][..layout.partition_bytes()];
        let (head_bytes, bytes) = bytes.split_first_chunk_mut().ok_or(Refusal::ShortMemory)?;
        let (list, bytes) = bytes.split_at_mut(layout.list_bytes());
        let (filters, buffer) = bytes.split_at_mut(layout.kept() * layout.filter_bytes());
        Ok(PartitionMut {
            head: Head::read(layout, head_bytes)?,
            head_bytes,
            list: list.as_chunks_mut().0,
            filters,
            buffer,
        })
    }

    /// The same partition, only read.
    #[inline]
    pub fn shared(&self) -> Partition<'_> {
        Partition {
            head: self.head,
            listed: &self.list[..self.head.listed as usize],
            filters: self.filters,
            buffer: self.buffer,
        }
    }

    /// Puts the whole head back.
    #[inline]
    pub fn set_head(&mut self, head: Head) {
        let first = u64::from(head.listed) << 32 | u64::from(head.flushes);
        let last = u64::from(head.live) << 32 | u64::from(head.total);
        self.head_bytes[..8].copy_from_slice(&first.to_le_bytes());
        self.head_bytes[8..].copy_from_slice(&last.to_le_bytes());
        self.head = head;
    }

    /// Puts back the total alone.
    #[inline]
    pub fn set_total(&mut self, total: u32) {
        self.head_bytes[8..12].copy_from_slice(&total.to_le_bytes());
        self.head.total = total;
    }

    #[inline]
    fn set_listed(&mut self, listed: usize) {
        self.head.listed = listed as u32;
        self.head_bytes[4..8].copy_from_slice(&self.head.listed.to_le_bytes());
    }

    /// The first L list places.
    #[inline]
    pub fn listed_mut(&mut self) -> &mut [Record] {
        &mut self.list[..self.head.listed as usize]
    }

    /// Whether every list place has a key.
    #[inline]
    pub fn is_list_full(&self) -> bool {
        self.head.listed as usize == self.list.len()
    }

    /// Lists a key last, in a list that is not full.
    #[inline]
    pub fn list(&mut self, place: Record) {
        let listed = self.head.listed as usize;
        self.list[listed] = place;
        self.set_listed(listed + 1);
    }

    /// Takes the key's first place off the list, if it has one.
    #[inline]
    pub fn unlist(&mut self, key: u64) {
        let listed = self.listed_mut();
        if let Some(place) = record::find(listed, key) {
            record::remove(listed, place);
            self.set_listed(self.head.listed as usize - 1);
        }
    }

    /// A buffer page that is to change.
    #[inline]
    pub fn page_mut(&mut self, layout: &Layout, page: usize) -> &mut [u8] {
        &mut self.buffer[page * layout.page_bytes()..][..layout.page_bytes()]
    }

    /// The entries that the whole buffer uses; refusal 12 if a page counts above E.
    #[inline]
    pub fn count_buffer(&self, layout: &Layout) -> Result<usize, Refusal> {
        let mut total = 0;
        for page in self.buffer.chunks_exact(layout.page_bytes()) {
            total += page::used(page).ok_or(Refusal::Overfull)?.len();
        }
        Ok(total)
    }
}
