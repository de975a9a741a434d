//! Batches: the flush proper, which makes one of a partition's buffer, and the
//! entries of one that goes.

use crate::answer::Refusal;
use crate::filter;
use crate::geometry::Layout;
use crate::key::Bits;
use crate::list;
use crate::live::{self, Batch};
use crate::page::{self, Name};
use crate::partition::{Head, PartitionMut};
use crate::record;

/// A flush that has passed every check.
pub struct Flush {
    partition: usize,
    slot: usize,
    /// The partition's head after it, but for the keys that leave the list.
    head: Head,
}

impl Flush {
    /// Judges the flush of a partition whose buffer pages all count at most E,
    /// with so many entries to be appended after it: refusals 16, 13 and, by
    /// the total that the call ends with, 12.
    pub fn judge(
        layout: &Layout,
        partition: usize,
        head: Head,
        flash: &[u8],
        appended: u32,
    ) -> Result<Flush, Refusal> {
        let kept = layout.geometry().kept;
        let flushes = head.flushes.checked_add(1).ok_or(Refusal::NumbersSpent)?;
        let slot = live::next_slot(head.flushes, kept);
        let pushed_out = if head.live == kept {
            // It lies in the slot that the new one takes.
            let number = flushes - kept;
            count_entries(layout, partition, Batch { number, slot }, flash)?
        } else {
            0
        };
        let total = head.total_after(layout, appended, pushed_out)?;
        Ok(Flush {
            partition,
            slot,
            head: Head {
                flushes,
                total,
                live: kept.min(head.live + 1),
                ..head
            },
        })
    }

    /// Does the flush.
    pub fn write(self, layout: &Layout, memory: &mut PartitionMut, flash: &mut [u8]) {
        let number = self.head.flushes;
        write_pages(layout, self.partition, self.slot, number, memory, flash);
        // Whether the batch with that stamp is pushed out now or was dropped before.
        // Without wrapping: as long as F + 1 is below K there is no such stamp.
        let listed = match number.checked_sub(layout.geometry().kept) {
            Some(gone) => list::remove_stamped(memory.listed_mut(), gone) as u32,
            None => self.head.listed,
        };
        memory.set_head(Head {
            listed,
            ..self.head
        });
    }
}

/// The entries of the batch, by the heads of its pages alone; refusal 13 at the
/// first page that isn't the one expected there.
pub fn count_entries(
    layout: &Layout,
    partition: usize,
    batch: Batch,
    flash: &[u8],
) -> Result<u32, Refusal> {
    let pages = &flash[layout.slot_at(partition, batch.slot)..][..layout.batch_bytes()];
    let mut entries = 0;
    for (page, bytes) in pages.chunks_exact(layout.page_bytes()).enumerate() {
        let reads = page as u32 + 1;
        let used = page::used_of_batch(bytes, Name { partition, page }, batch.number);
        entries += used.ok_or(Refusal::BatchPage { reads })?.len() as u32;
    }
    Ok(entries)
}

/// Copies every buffer page to the slot, whatever bytes it holds, enters its
/// keys in the slot's new filter and empties it, all while it is at hand.
fn write_pages(
    layout: &Layout,
    partition: usize,
    slot: usize,
    number: u32,
    memory: &mut PartitionMut,
    flash: &mut [u8],
) {
    let length = layout.page_bytes();
    let batch = &mut flash[layout.slot_at(partition, slot)..][..layout.batch_bytes()];
    let filter = &mut memory.filters[slot * layout.filter_bytes()..][..layout.filter_bytes()];
    filter.fill(0);
    let pages = memory.buffer.chunks_exact_mut(length);
    for (page_number, (page, copy)) in pages.zip(batch.chunks_exact_mut(length)).enumerate() {
        copy.copy_from_slice(page);
        page::set_number(copy, number);
        for entry in page::used(page).unwrap_or_default() {
            filter::insert(filter, Bits::of(layout, record::key(entry)));
        }
        let name = Name {
            partition,
            page: page_number,
        };
        page::clear(page, name);
    }
}
