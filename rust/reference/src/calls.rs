//! The calls. Each judges its arguments and the areas in the papers' order
//! before it changes a byte.

use crate::answer::{Lookup, Place, Refusal};
use crate::batch::{self, Flush};
use crate::geometry::{Geometry, Layout, OPENING_BYTES};
use crate::key::{self, Bits};
use crate::list;
use crate::live;
use crate::page::{self, Name};
use crate::partition::{Head, Partition, PartitionMut};
use crate::record;
use crate::tally::Tally;

/// Makes an empty table of the geometry. Flash only has to be long enough.
pub fn format(memory: &mut [u8], flash: &[u8], geometry: Geometry) -> Result<(), Refusal> {
    let layout = geometry.layout().ok_or(Refusal::Geometry)?;
    layout.check_lengths(memory, flash)?;
    let (opening, partitions) = memory[..layout.memory_need()].split_at_mut(OPENING_BYTES);
    opening.copy_from_slice(&geometry.to_opening());
    let length = layout.partition_bytes();
    for (partition, bytes) in partitions.chunks_exact_mut(length).enumerate() {
        let (other, buffer) = bytes.split_at_mut(length - layout.batch_bytes());
        other.fill(0);
        let pages = buffer.chunks_exact_mut(layout.page_bytes());
        for (number, bytes) in pages.enumerate() {
            let name = Name {
                partition,
                page: number,
            };
            page::clear(bytes, name);
        }
    }
    Ok(())
}

/// Gives the key the value: the pages written, 0 or Q.
pub fn put(memory: &mut [u8], flash: &mut [u8], key: u64, value: u64) -> Result<u32, Refusal> {
    let layout = Layout::open(memory, flash)?;
    if value == 0 {
        return Err(Refusal::NoPosition);
    }
    let name = name_of(&layout, key);
    let mut partition = PartitionMut::cut(&layout, memory, name.partition)?;
    let head = partition.head;
    let page = partition.page_mut(&layout, name.page);
    let used = page::used(page).ok_or(Refusal::Overfull)?;
    let count = used.len();
    let mut written = 0;
    if let Some(place) = record::find(used, key) {
        page::entries_mut(page)[place] = record::new(key, value);
    } else if count < layout.entries() {
        let total = head.total_after(&layout, 1, 0)?;
        append(page, count, key, value);
        partition.set_total(total);
    } else {
        partition.count_buffer(&layout)?;
        let due = Flush::judge(&layout, name.partition, head, flash, 1)?;
        due.write(&layout, &mut partition, flash);
        append(partition.page_mut(&layout, name.page), 0, key, value);
        written = layout.geometry().pages;
    }
    partition.unlist(key);
    Ok(written)
}

#[inline]
fn append(page: &mut [u8], count: usize, key: u64, value: u64) {
    page::entries_mut(page)[count] = record::new(key, value);
    page::set_count(page, count + 1);
}

/// Looks the key up: list, buffer page, then live batches youngest first.
pub fn get(memory: &[u8], flash: &[u8], key: u64) -> Result<Lookup, Refusal> {
    let layout = Layout::open(memory, flash)?;
    let name = name_of(&layout, key);
    let partition = Partition::cut(&layout, memory, name.partition)?;
    let used = page::used(partition.page(&layout, name.page)).ok_or(Refusal::Overfull)?;
    let mut tally = Tally::default();
    if record::find(partition.listed, key).is_some() {
        return Ok(tally.none());
    }
    if let Some(entry) = tally.search(used, key) {
        return Ok(tally.found(entry, Place::Buffer));
    }
    for batch in partition.passing(&layout, Bits::of(&layout, key)) {
        tally.reads += 1;
        let page = flash_page(&layout, flash, name, batch.slot);
        let used = page::used_of_batch(page, name, batch.number);
        let used = used.ok_or(Refusal::BatchPage { reads: tally.reads })?;
        if let Some(entry) = tally.search(used, key) {
            return Ok(tally.found(entry, Place::Batch(batch.number)));
        }
    }
    Ok(tally.none())
}

/// Takes the key out of the table. No flash is read: where a live batch may
/// hold the key it is listed, also if the buffer held it too.
pub fn del(memory: &mut [u8], flash: &[u8], key: u64) -> Result<(), Refusal> {
    let layout = Layout::open(memory, flash)?;
    let name = name_of(&layout, key);
    let mut partition = PartitionMut::cut(&layout, memory, name.partition)?;
    let shared = partition.shared();
    let used = page::used(shared.page(&layout, name.page)).ok_or(Refusal::Overfull)?;
    if record::find(shared.listed, key).is_some() {
        return Ok(());
    }
    let (count, place) = (used.len(), record::find(used, key));
    let youngest = shared.passing(&layout, Bits::of(&layout, key)).next();
    if youngest.is_some() && partition.is_list_full() {
        return Err(Refusal::ListFull);
    }
    if let Some(place) = place {
        let total = partition.head.total_after(&layout, 0, 1)?;
        partition.set_total(total);
        let page = partition.page_mut(&layout, name.page);
        record::remove(&mut page::entries_mut(page)[..count], place);
        page::set_count(page, count - 1);
    }
    if let Some(batch) = youngest {
        partition.list(list::place(key, batch.number));
    }
    Ok(())
}

/// Flushes the partition: the pages written, Q.
pub fn flush(memory: &mut [u8], flash: &mut [u8], partition: u32) -> Result<u32, Refusal> {
    let layout = Layout::open(memory, flash)?;
    let number = below(partition, layout.partitions())?;
    let mut partition = PartitionMut::cut(&layout, memory, number)?;
    if partition.count_buffer(&layout)? == 0 {
        return Err(Refusal::BufferEmpty);
    }
    let due = Flush::judge(&layout, number, partition.head, flash, 0)?;
    due.write(&layout, &mut partition, flash);
    Ok(layout.geometry().pages)
}

/// Drops the partition's oldest live batch: lookups pass it over from here on.
/// Flash, filters and the buffer stay as they are.
pub fn drop_oldest(memory: &mut [u8], flash: &[u8], partition: u32) -> Result<(), Refusal> {
    let layout = Layout::open(memory, flash)?;
    let number = below(partition, layout.partitions())?;
    let mut partition = PartitionMut::cut(&layout, memory, number)?;
    let head = partition.head;
    let oldest = live::oldest_first(head, layout.geometry().kept).next();
    let oldest = oldest.ok_or(Refusal::NoBatch)?;
    let entries = batch::count_entries(&layout, number, oldest, flash)?;
    let total = head.total_after(&layout, 0, entries)?;
    let listed = list::remove_stamped(partition.listed_mut(), oldest.number) as u32;
    partition.set_head(Head {
        listed,
        total,
        live: head.live - 1,
        ..head
    });
    Ok(())
}

/// The entries of the partition's buffer and live batches together, as its
/// head has them. No page is read.
pub fn count(memory: &[u8], flash: &[u8], partition: u32) -> Result<u32, Refusal> {
    let layout = Layout::open(memory, flash)?;
    let number = below(partition, layout.partitions())?;
    Ok(Head::of(&layout, memory, number)?.total)
}

/// Shows one page where it lies: in memory for flush number 0, else in flash.
pub fn view<'a>(
    memory: &'a [u8],
    flash: &'a [u8],
    partition: u32,
    page: u32,
    number: u32,
) -> Result<&'a [u8], Refusal> {
    let layout = Layout::open(memory, flash)?;
    let name = Name {
        partition: below(partition, layout.partitions())?,
        page: below(page, layout.pages())?,
    };
    let partition = Partition::cut(&layout, memory, name.partition)?;
    if number == 0 {
        let page = partition.page(&layout, name.page);
        page::used(page).ok_or(Refusal::Overfull)?;
        return Ok(page);
    }
    if !live::is_live(number, partition.head) {
        return Err(Refusal::NotLive);
    }
    let slot = live::next_slot(number - 1, layout.geometry().kept);
    let page = flash_page(&layout, flash, name, slot);
    page::used_of_batch(page, name, number).ok_or(Refusal::BatchPage { reads: 1 })?;
    Ok(page)
}

/// What view shows, which for a refused view is an empty part of memory.
pub fn view_part<'a>(
    memory: &'a [u8],
    flash: &'a [u8],
    partition: u32,
    page: u32,
    number: u32,
) -> &'a [u8] {
    view(memory, flash, partition, page, number).unwrap_or(&memory[..0])
}

#[inline]
pub(crate) fn name_of(layout: &Layout, key: u64) -> Name {
    Name {
        partition: key::partition(layout, key),
        page: key::page_number(layout, key),
    }
}

#[inline]
pub(crate) fn below(argument: u32, bound: usize) -> Result<usize, Refusal> {
    let argument = argument as usize;
    if argument < bound {
        Ok(argument)
    } else {
        Err(Refusal::OutOfRange)
    }
}

#[inline]
pub(crate) fn flash_page<'a>(
    layout: &Layout,
    flash: &'a [u8],
    name: Name,
    slot: usize,
) -> &'a [u8] {
    &flash[layout.page_at(name.partition, slot, name.page)..][..layout.page_bytes()]
}
