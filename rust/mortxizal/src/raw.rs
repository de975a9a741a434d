//! The calls as the C interface gives them: one struct for every answer on the
//! areas, and one for the figures of a geometry.
//!
//! [`Index`](crate::Index) is the convenient way to the same calls. These
//! functions suit a caller that holds the areas in some other way, for example
//! only for reading, or that wants the answers as plain numbers.
//!
//! This module holds all the crate's unsafe code. Slices meet everything that
//! `include/mortxizal.h` asks of a caller: their pointers are never null, their
//! lengths stay below 2^63, and what is borrowed for writing overlaps nothing.

use crate::Geometry;

/// An answer, as `mx_answer` of `include/mortxizal.h`.
#[derive(Clone, Copy, Debug, PartialEq, Eq)]
#[repr(C)]
pub struct Answer {
    /// [`DONE`], [`FOUND`], [`NONE`] or [`REFUSED`].
    pub status: u32,
    /// Done: pages written. Refused: the refusal's number. View: bytes of the page.
    /// Count: entries.
    pub number: u32,
    /// Flash pages read.
    pub reads: u32,
    /// Found: 0 in the buffer, else the batch's number. View: 0 in memory, 1 in flash.
    pub batch: u32,
    /// Found: the value. View: where the page begins in that area. Text: its bytes.
    pub value: u64,
    /// Found, none: entries compared with the key inside pages.
    pub comparisons: u32,
}

/// The figures of a geometry, as `mx_card` of `include/mortxizal.h`.
#[derive(Clone, Copy, Debug, PartialEq, Eq)]
#[repr(C)]
pub struct Card {
    /// [`DONE`] or [`REFUSED`].
    pub status: u32,
    /// Done: 0. Refused: 1, and the figures are 0.
    pub number: u32,
    /// Bytes that the table needs of memory.
    pub memory: u64,
    /// Bytes that the table needs of flash.
    pub flash: u64,
    /// The most flushes that so many puts can cause on a fresh table.
    pub flushes: u64,
    /// The first put at which an earlier key can be lost.
    pub first_lost: u64,
}

/// The number of the interface that this module is written for, which is
/// `MX_INTERFACE` of `include/mortxizal.h`.
pub const INTERFACE: u32 = 8;

/// The status of an accepted format, put, del, flush, view, count, text or drop,
/// and of figures that are told.
pub const DONE: u32 = 0;
/// The status of a get that found the key.
pub const FOUND: u32 = 1;
/// The status of a get that did not.
pub const NONE: u32 = 2;
/// The status of a refused call.
pub const REFUSED: u32 = 3;

mod c {
    use super::{Answer, Card};

    extern "C" {
        pub fn mx_format(
            memory: *mut u8,
            memory_len: usize,
            flash: *const u8,
            flash_len: usize,
            s: u32,
            page: u32,
            pages: u32,
            kept: u32,
            bits: u32,
            hashes: u32,
            list: u32,
        ) -> Answer;
        pub fn mx_put(
            memory: *mut u8,
            memory_len: usize,
            flash: *mut u8,
            flash_len: usize,
            key: u64,
            value: u64,
        ) -> Answer;
        pub fn mx_get(
            memory: *const u8,
            memory_len: usize,
            flash: *const u8,
            flash_len: usize,
            key: u64,
        ) -> Answer;
        pub fn mx_del(
            memory: *mut u8,
            memory_len: usize,
            flash: *const u8,
            flash_len: usize,
            key: u64,
        ) -> Answer;
        pub fn mx_flush(
            memory: *mut u8,
            memory_len: usize,
            flash: *mut u8,
            flash_len: usize,
            partition: u32,
        ) -> Answer;
        pub fn mx_view(
            memory: *const u8,
            memory_len: usize,
            flash: *const u8,
            flash_len: usize,
            partition: u32,
            page: u32,
            flush: u32,
        ) -> Answer;
        pub fn mx_count(
            memory: *const u8,
            memory_len: usize,
            flash: *const u8,
            flash_len: usize,
            partition: u32,
        ) -> Answer;
        pub fn mx_text(
            memory: *const u8,
            memory_len: usize,
            flash: *const u8,
            flash_len: usize,
            partition: u32,
            text: *mut u8,
            text_len: usize,
        ) -> Answer;
        pub fn mx_drop(
            memory: *mut u8,
            memory_len: usize,
            flash: *const u8,
            flash_len: usize,
            partition: u32,
        ) -> Answer;
        pub fn mx_figures(
            s: u32,
            page: u32,
            pages: u32,
            kept: u32,
            bits: u32,
            hashes: u32,
            list: u32,
            puts: u32,
        ) -> Card;
        pub fn mx_interface() -> u32;
    }
}

/// Makes memory an empty table of the geometry.
#[inline]
pub fn format(memory: &mut [u8], flash: &[u8], geometry: Geometry) -> Answer {
    // SAFETY: the pointers and lengths are those of two slices.
    unsafe {
        c::mx_format(
            memory.as_mut_ptr(),
            memory.len(),
            flash.as_ptr(),
            flash.len(),
            geometry.parts,
            geometry.page,
            geometry.pages,
            geometry.kept,
            geometry.bits,
            geometry.hashes,
            geometry.list,
        )
    }
}

/// Gives the key the value.
#[inline]
pub fn put(memory: &mut [u8], flash: &mut [u8], key: u64, value: u64) -> Answer {
    let (m, f) = (memory.as_mut_ptr(), flash.as_mut_ptr());
    // SAFETY: the pointers and lengths are those of two slices.
    unsafe { c::mx_put(m, memory.len(), f, flash.len(), key, value) }
}

/// Looks the key up.
#[inline]
pub fn get(memory: &[u8], flash: &[u8], key: u64) -> Answer {
    let (m, f) = (memory.as_ptr(), flash.as_ptr());
    // SAFETY: the pointers and lengths are those of two slices.
    unsafe { c::mx_get(m, memory.len(), f, flash.len(), key) }
}

/// Deletes the key.
#[inline]
pub fn del(memory: &mut [u8], flash: &[u8], key: u64) -> Answer {
    let (m, f) = (memory.as_mut_ptr(), flash.as_ptr());
    // SAFETY: the pointers and lengths are those of two slices.
    unsafe { c::mx_del(m, memory.len(), f, flash.len(), key) }
}

/// Makes the partition's buffer a batch in flash.
#[inline]
pub fn flush(memory: &mut [u8], flash: &mut [u8], partition: u32) -> Answer {
    let (m, f) = (memory.as_mut_ptr(), flash.as_mut_ptr());
    // SAFETY: the pointers and lengths are those of two slices.
    unsafe { c::mx_flush(m, memory.len(), f, flash.len(), partition) }
}

/// Tells where a page stands.
#[inline]
pub fn view(memory: &[u8], flash: &[u8], partition: u32, page: u32, flush: u32) -> Answer {
    let (m, f) = (memory.as_ptr(), flash.as_ptr());
    // SAFETY: the pointers and lengths are those of two slices.
    unsafe { c::mx_view(m, memory.len(), f, flash.len(), partition, page, flush) }
}

/// Tells how many entries the partition holds.
#[inline]
pub fn count(memory: &[u8], flash: &[u8], partition: u32) -> Answer {
    let (m, f) = (memory.as_ptr(), flash.as_ptr());
    // SAFETY: the pointers and lengths are those of two slices.
    unsafe { c::mx_count(m, memory.len(), f, flash.len(), partition) }
}

/// Writes the partition as session lines.
#[inline]
pub fn text(memory: &[u8], flash: &[u8], partition: u32, text: &mut [u8]) -> Answer {
    let (m, f, t) = (memory.as_ptr(), flash.as_ptr(), text.as_mut_ptr());
    // SAFETY: the pointers and lengths are those of three slices.
    unsafe { c::mx_text(m, memory.len(), f, flash.len(), partition, t, text.len()) }
}

/// Drops the partition's oldest live batch.
#[inline]
pub fn drop_oldest(memory: &mut [u8], flash: &[u8], partition: u32) -> Answer {
    let (m, f) = (memory.as_mut_ptr(), flash.as_ptr());
    // SAFETY: the pointers and lengths are those of two slices.
    unsafe { c::mx_drop(m, memory.len(), f, flash.len(), partition) }
}

/// Tells what a table of the geometry carries, with so many puts.
#[inline]
pub fn figures(geometry: Geometry, puts: u32) -> Card {
    // SAFETY: all arguments are numbers, and any are allowed.
    unsafe {
        c::mx_figures(
            geometry.parts,
            geometry.page,
            geometry.pages,
            geometry.kept,
            geometry.bits,
            geometry.hashes,
            geometry.list,
            puts,
        )
    }
}

/// Tells the number of the library's interface. A library of another one than
/// [`INTERFACE`] lays out its answers otherwise or takes other arguments, so that
/// no other function of this crate may be used with it.
#[inline]
pub fn interface() -> u32 {
    // SAFETY: it takes no argument and reads nothing.
    unsafe { c::mx_interface() }
}

/// Panics where the library's interface is not [`INTERFACE`]: then it was not
/// built anew when this crate was.
pub(crate) fn expect_interface() {
    let library = interface();
    assert_eq!(
        library, INTERFACE,
        "target/staticlib/libmortxizal.a is of another interface: run `./library` again"
    );
}
