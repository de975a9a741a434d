//! A partition as session lines: a `(put key value)` for each key that a get
//! finds, so that the lines, read into a fresh table, move the partition.

use crate::answer::Refusal;
use crate::calls::{below, flash_page, name_of};
use crate::geometry::Layout;
use crate::key::Bits;
use crate::live::{self, Batch};
use crate::page::{self, Name};
use crate::partition::Partition;
use crate::record::{self, Record};

/// Writes the partition's lines to the text area, the oldest batch first and the
/// buffer last: their length. Bytes of the area behind them stay.
///
/// A line has its place where a get of its key finds the entry. The entries are
/// gone through twice: the lines have to fit before the first is written.
pub fn text(
    memory: &[u8],
    flash: &[u8],
    partition: u32,
    text: &mut [u8],
) -> Result<usize, Refusal> {
    let layout = Layout::open(memory, flash)?;
    let number = below(partition, layout.partitions())?;
    let contents = Contents::judge(&layout, memory, flash, number)?;
    let length = contents.lines().map(line_bytes).sum();
    let area = text.get_mut(..length).ok_or(Refusal::ShortText)?;
    contents.lines().fold(area, write_line);
    Ok(length)
}

/// A partition with its batches, all of whose pages are in order.
struct Contents<'a> {
    layout: &'a Layout,
    number: usize,
    partition: Partition<'a>,
    flash: &'a [u8],
}

impl<'a> Contents<'a> {
    /// Judges the head and every page of the buffer and then of the live
    /// batches: refusals 12 and 13. No entry is looked at, and no read counted.
    fn judge(
        layout: &'a Layout,
        memory: &'a [u8],
        flash: &'a [u8],
        number: usize,
    ) -> Result<Self, Refusal> {
        let contents = Contents {
            layout,
            number,
            partition: Partition::cut(layout, memory, number)?,
            flash,
        };
        for page in 0..layout.pages() {
            contents.used(None, page).ok_or(Refusal::Overfull)?;
        }
        // The buffer's pages come again behind the batches', and pass.
        for (batch, page) in contents.pages() {
            let used = contents.used(batch, page);
            used.ok_or(Refusal::BatchPage { reads: 0 })?;
        }
        Ok(contents)
    }

    /// Every page with its batch, which for a buffer page is none: the oldest
    /// batch first and the buffer last.
    fn pages(&self) -> impl Iterator<Item = (Option<Batch>, usize)> {
        let pages = self.layout.pages();
        let batches = live::oldest_first(self.partition.head, self.layout.geometry().kept);
        let places = batches.map(Some).chain([None]);
        places.flat_map(move |batch| (0..pages).map(move |page| (batch, page)))
    }

    /// The used entries of a page, or none if it isn't in order.
    #[inline]
    fn used(&self, batch: Option<Batch>, page: usize) -> Option<&'a [Record]> {
        let Some(batch) = batch else {
            return page::used(self.partition.page(self.layout, page));
        };
        let name = self.name(page);
        let bytes = flash_page(self.layout, self.flash, name, batch.slot);
        page::used_of_batch(bytes, name, batch.number)
    }

    #[inline]
    fn name(&self, page: usize) -> Name {
        Name {
            partition: self.number,
            page,
        }
    }

    /// The entries that have a line, in the text's order.
    fn lines(&self) -> impl Iterator<Item = &'a Record> + '_ {
        self.pages().flat_map(move |(batch, page)| {
            let used = self.used(batch, page).unwrap_or_default();
            let entries = used.iter().enumerate();
            entries
                .filter(move |&(place, _)| self.answers(batch, page, used, place))
                .map(|(_, entry)| entry)
        })
    }

    /// Whether a get of the key at this place answers with the entry there: a
    /// get searches the key's own pages alone, and takes its first place in them.
    #[inline]
    fn answers(&self, batch: Option<Batch>, page: usize, used: &[Record], place: usize) -> bool {
        let key = record::key(&used[place]);
        name_of(self.layout, key) == self.name(page)
            && record::find(self.partition.listed, key).is_none()
            && record::find(&used[..place], key).is_none()
            && batch.is_none_or(|batch| self.reaches(batch, page, key))
    }

    /// Whether a get of the key comes to this batch: its filter passes, and
    /// neither the buffer nor a younger batch that passes has the key.
    #[inline]
    fn reaches(&self, batch: Batch, page: usize, key: u64) -> bool {
        let has = |batch: Option<Batch>| {
            let used = self.used(batch, page).unwrap_or_default();
            record::find(used, key).is_some()
        };
        if has(None) {
            return false;
        }
        let bits = Bits::of(self.layout, key);
        let mut passing = self.partition.passing(self.layout, bits);
        let last = passing.find(|other| other.number == batch.number || has(Some(*other)));
        last.is_some_and(|last| last.number == batch.number)
    }
}

/// The figures of the largest number.
const MOST_FIGURES: usize = 20;

/// The bytes of an entry's line.
#[inline]
fn line_bytes(entry: &Record) -> usize {
    let figures = |number: u64| number.checked_ilog10().unwrap_or(0) as usize + 1;
    b"(put  )\n".len() + figures(record::key(entry)) + figures(record::rest(entry))
}

/// Writes an entry's line where the area begins: what is left of it.
#[inline]
fn write_line<'a>(area: &'a mut [u8], entry: &Record) -> &'a mut [u8] {
    let area = write_bytes(area, b"(put ");
    let area = write_figures(area, record::key(entry));
    let area = write_bytes(area, b" ");
    let area = write_figures(area, record::rest(entry));
    write_bytes(area, b")\n")
}

#[inline]
fn write_bytes<'a>(area: &'a mut [u8], bytes: &[u8]) -> &'a mut [u8] {
    let (start, rest) = area.split_at_mut(bytes.len());
    start.copy_from_slice(bytes);
    rest
}

/// Writes the number in decimal, without leading zeros.
#[inline]
fn write_figures(area: &mut [u8], number: u64) -> &mut [u8] {
    let mut figures = [b'0'; MOST_FIGURES];
    let mut start = MOST_FIGURES;
    let mut left = number;
    // The last figure first: a 0 alone is a figure too.
    loop {
        start -= 1;
        figures[start] = b'0' + (left % 10) as u8;
        left /= 10;
        if left == 0 {
            return write_bytes(area, &figures[start..]);
        }
    }
}
