//! An index over two borrowed areas.

use crate::raw::{self, Answer};
use crate::{Geometry, Lookup, Refused};

/// A table in two borrowed areas, memory and flash.
///
/// All its state is in the areas. An index may be let go and taken up again
/// later with [`Index::attach`], also in another process, as long as the bytes
/// of both areas come back together.
///
/// ```
/// use mortxizal::{Geometry, Index, Lookup, Place};
///
/// let geometry = Geometry::default().with_parts(1);
/// let mut memory = vec![0; geometry.memory_need()?];
/// let mut flash = vec![0; geometry.flash_need()?];
///
/// let mut index = Index::format(&mut memory, &mut flash, geometry)?;
/// index.put(7, 70)?;
/// index.flush(0)?;
/// assert_eq!(index.get(7)?, Lookup::found(70, 1, 1, Place::Batch(1)));
/// index.del(7)?;
/// assert_eq!(index.get(7)?, Lookup::none(0, 0));
/// # Ok::<(), mortxizal::Refused>(())
/// ```
#[derive(Debug)]
pub struct Index<'a> {
    memory: &'a mut [u8],
    flash: &'a mut [u8],
}

impl<'a> Index<'a> {
    /// Makes memory an empty table of the geometry. Bytes beyond the need and
    /// all of flash stay as they are.
    ///
    /// Refused with [`Geometry`](Refused::Geometry),
    /// [`ShortMemory`](Refused::ShortMemory) or
    /// [`ShortFlash`](Refused::ShortFlash), in this order.
    pub fn format(
        memory: &'a mut [u8],
        flash: &'a mut [u8],
        geometry: Geometry,
    ) -> Result<Self, Refused> {
        raw::expect_interface();
        accepted(raw::format(memory, flash, geometry))?;
        Ok(Index { memory, flash })
    }

    /// Takes up the table that the areas hold. Nothing is checked here: where
    /// they hold none, or a damaged one, its calls are refused.
    ///
    /// A table that was filled before its partitions had a number of live batches
    /// has to be formatted anew. That number is 0 in it, and no call tells so: no
    /// key of its batches is found.
    ///
    /// ```
    /// use mortxizal::{Index, Refused};
    ///
    /// let (mut memory, mut flash) = ([0; 100], [0; 100]);
    /// let index = Index::attach(&mut memory, &mut flash);
    /// assert_eq!(index.get(1), Err(Refused::Opening));
    /// ```
    pub fn attach(memory: &'a mut [u8], flash: &'a mut [u8]) -> Self {
        raw::expect_interface();
        Index { memory, flash }
    }

    /// The memory area.
    pub fn memory(&self) -> &[u8] {
        self.memory
    }

    /// The flash area.
    pub fn flash(&self) -> &[u8] {
        self.flash
    }

    /// Gives both areas back, memory first.
    pub fn into_areas(self) -> (&'a mut [u8], &'a mut [u8]) {
        (self.memory, self.flash)
    }

    /// Gives the key the value: the flash pages written. These are 0, or
    /// [`Geometry::pages`] where the key's buffer page was full and its
    /// partition was flushed first.
    ///
    /// A flush makes the buffer a batch. Where [`Geometry::kept`] batches are
    /// live already the oldest one is pushed out, and with it its keys that were
    /// not put again since. The heads of its pages are read first, to take its
    /// entries off the [count](Index::count): where one is not the head expected
    /// there the put is refused with [`BatchPage`](Refused::BatchPage).
    ///
    /// Every key is allowed, and every value but 0: the sound store has nothing
    /// at position 0, and from a format on no get shows it.
    ///
    /// ```
    /// # use mortxizal::{Geometry, Index, Refused};
    /// # let geometry = Geometry::default();
    /// # let mut memory = vec![0; geometry.memory_need()?];
    /// # let mut flash = vec![0; geometry.flash_need()?];
    /// # let mut index = Index::format(&mut memory, &mut flash, geometry)?;
    /// index.put(7, 70)?;
    /// assert_eq!(index.put(7, 0), Err(Refused::NoPosition));
    /// assert_eq!(index.get(7)?.value(), Some(70));
    /// # Ok::<(), mortxizal::Refused>(())
    /// ```
    #[inline]
    pub fn put(&mut self, key: u64, value: u64) -> Result<u32, Refused> {
        let answer = raw::put(self.memory, self.flash, key, value);
        Ok(accepted(answer)?.number)
    }

    /// Looks the key up, in the buffer and then in the live batches whose
    /// filter passes, youngest first. A key that was put is found until it is
    /// deleted, or until the batch that it went to is pushed out by a flush or
    /// [dropped](Index::drop_oldest). Beside the value the lookup tells what it
    /// cost: flash pages [read](Lookup::reads), and entries
    /// [compared](Lookup::comparisons) inside pages.
    ///
    /// ```
    /// # use mortxizal::{Geometry, Index};
    /// # let geometry = Geometry::default();
    /// # let mut memory = vec![0; geometry.memory_need()?];
    /// # let mut flash = vec![0; geometry.flash_need()?];
    /// # let mut index = Index::format(&mut memory, &mut flash, geometry)?;
    /// index.put(7, 70)?;
    /// assert_eq!(index.get(7)?.value(), Some(70));
    /// assert_eq!(index.get(8)?.value(), None);
    /// # Ok::<(), mortxizal::Refused>(())
    /// ```
    #[inline]
    pub fn get(&self, key: u64) -> Result<Lookup, Refused> {
        let answer = raw::get(self.memory, self.flash, key);
        Ok(Lookup::of(accepted(answer)?))
    }

    /// Deletes the key: it is found no more until it is put again. A key that
    /// is not there may be deleted too.
    #[inline]
    pub fn del(&mut self, key: u64) -> Result<(), Refused> {
        accepted(raw::del(self.memory, self.flash, key))?;
        Ok(())
    }

    /// Makes the partition's buffer a batch in flash: the pages written, which
    /// are [`Geometry::pages`]. Where it pushes the oldest batch out, the heads of
    /// that one's pages are read first, as in a [put](Index::put).
    #[inline]
    pub fn flush(&mut self, partition: u32) -> Result<u32, Refused> {
        let answer = raw::flush(self.memory, self.flash, partition);
        Ok(accepted(answer)?.number)
    }

    /// The entries of the partition's buffer and live batches together, which
    /// its head holds: no page is read. A key counts once in each of them that
    /// has it, a deleted key too as long as the batch that has it is live.
    ///
    /// A table that was filled before totals were kept counts from 0 and has to
    /// be formatted anew: nothing in its bytes tells that its counts are wrong.
    ///
    /// ```
    /// # use mortxizal::{Geometry, Index, Refused};
    /// # let geometry = Geometry::default().with_parts(1);
    /// # let mut memory = vec![0; geometry.memory_need()?];
    /// # let mut flash = vec![0; geometry.flash_need()?];
    /// # let mut index = Index::format(&mut memory, &mut flash, geometry)?;
    /// index.put(7, 70)?;
    /// index.put(8, 80)?;
    /// assert_eq!(index.count(0)?, 2);
    /// index.del(7)?;
    /// assert_eq!(index.count(0)?, 1);
    /// assert_eq!(index.count(2), Err(Refused::OutOfRange));
    /// # Ok::<(), mortxizal::Refused>(())
    /// ```
    #[inline]
    pub fn count(&self, partition: u32) -> Result<u32, Refused> {
        let answer = raw::count(self.memory, self.flash, partition);
        Ok(accepted(answer)?.number)
    }

    /// Drops the partition's oldest live batch: its keys that were not put again
    /// since are found no more, its entries leave the [count](Index::count), and
    /// keys that were listed as deleted for this batch leave the list. Flash and
    /// filters stay as they are: its place in flash is written over when a later
    /// flush comes to it.
    ///
    /// The heads of its pages are read first, as in a flush that pushes it out,
    /// and the call is refused with [`BatchPage`](Refused::BatchPage) where one is
    /// not the head expected there. With no live batch it is refused with
    /// [`NoBatch`](Refused::NoBatch).
    ///
    /// ```
    /// # use mortxizal::{Geometry, Index, Refused};
    /// # let geometry = Geometry::default().with_parts(1);
    /// # let mut memory = vec![0; geometry.memory_need()?];
    /// # let mut flash = vec![0; geometry.flash_need()?];
    /// # let mut index = Index::format(&mut memory, &mut flash, geometry)?;
    /// index.put(7, 70)?;
    /// index.flush(0)?;
    /// index.put(8, 80)?;
    /// index.drop_oldest(0)?;
    /// assert_eq!(index.get(7)?.value(), None);
    /// assert_eq!(index.get(8)?.value(), Some(80));
    /// assert_eq!(index.count(0)?, 1);
    /// assert_eq!(index.drop_oldest(0), Err(Refused::NoBatch));
    /// # Ok::<(), mortxizal::Refused>(())
    /// ```
    #[inline]
    pub fn drop_oldest(&mut self, partition: u32) -> Result<(), Refused> {
        accepted(raw::drop_oldest(self.memory, self.flash, partition))?;
        Ok(())
    }

    /// Writes the partition to the text area as lines of the session program,
    /// `(put key value)` for each key that a get finds, with the value found and
    /// byte 10 at the end: the bytes written. Those behind them stay.
    ///
    /// The oldest batch comes first and the buffer last, and within a batch the
    /// lines stand by page and place of the entry. From a table that calls have
    /// made since a format, the lines, read into a fresh table of the same
    /// geometry, give every key of the partition the value that it had, or none;
    /// and they take at most 48 bytes for each entry that the partition
    /// [counts](Index::count).
    ///
    /// All pages of the buffer and of the live batches are read. Where the text
    /// area is too short nothing is written, and the call is refused with
    /// [`ShortText`](Refused::ShortText).
    ///
    /// ```
    /// # use mortxizal::{Geometry, Index, Refused};
    /// # let geometry = Geometry::default().with_parts(1);
    /// # let mut memory = vec![0; geometry.memory_need()?];
    /// # let mut flash = vec![0; geometry.flash_need()?];
    /// # let mut index = Index::format(&mut memory, &mut flash, geometry)?;
    /// index.put(7, 70)?;
    /// index.flush(0)?;
    /// index.put(8, 80)?;
    /// let mut text = vec![0; 48 * index.count(0)? as usize];
    /// let length = index.text(0, &mut text)?;
    /// assert_eq!(&text[..length], b"(put 7 70)\n(put 8 80)\n");
    /// assert_eq!(index.text(0, &mut text[..length - 1]), Err(Refused::ShortText));
    /// # Ok::<(), mortxizal::Refused>(())
    /// ```
    #[inline]
    pub fn text(&self, partition: u32, text: &mut [u8]) -> Result<usize, Refused> {
        let answer = raw::text(self.memory, self.flash, partition, text);
        Ok(accepted(answer)?.value as usize)
    }

    /// One page where it stands: of the buffer for flush number 0, else of the
    /// live batch with that number.
    ///
    /// ```
    /// # use mortxizal::{Geometry, Index};
    /// # let geometry = Geometry::default();
    /// # let mut memory = vec![0; geometry.memory_need()?];
    /// # let mut flash = vec![0; geometry.flash_need()?];
    /// # let mut index = Index::format(&mut memory, &mut flash, geometry)?;
    /// index.put(16, 160)?;
    /// let page = index.view(0, 0, 0)?;
    /// assert_eq!(page.len(), 4096);
    /// assert_eq!(page[..2], [1, 0], "a page opens with the count of its entries");
    /// # Ok::<(), mortxizal::Refused>(())
    /// ```
    #[inline]
    pub fn view(&self, partition: u32, page: u32, flush: u32) -> Result<&[u8], Refused> {
        let answer = accepted(raw::view(self.memory, self.flash, partition, page, flush))?;
        let area = match answer.batch {
            0 => &*self.memory,
            _ => &*self.flash,
        };
        let at = answer.value as usize;
        Ok(&area[at..at + answer.number as usize])
    }
}

#[inline]
fn accepted(answer: Answer) -> Result<Answer, Refused> {
    match Refused::of(answer) {
        None => Ok(answer),
        Some(refused) => Err(refused),
    }
}
