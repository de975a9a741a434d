//! The fingerprint index, proved: a table of 64-bit keys and values for flash.
//!
//! Puts gather in a buffer in memory and go to flash in batches, with a Bloom
//! filter in front of each batch and a list of deleted keys, after the published
//! BufferHash design. Only the latest batches are kept: an old key goes with
//! its batch, pushed out by a flush or dropped on request, unless it is put again.
//!
//! The work is done by a library written in Rattle, in which every call is
//! proved to answer and to leave, byte for byte, what the index's definition
//! says, on areas of any length and any content: a damaged table refuses a call
//! or answers from what it holds, and never does anything undefined. This crate
//! puts slices and results around it. `./library` has to be run
//! before it is built, and again when it has changed: an [`Index`] over a library
//! of another interface panics at once, or does not link ([`raw::interface`]). The
//! library is for x86-64 Linux.
//!
//! ```
//! use mortxizal::{Geometry, Index};
//!
//! let geometry = Geometry::default();
//! let mut memory = vec![0; geometry.memory_need()?];
//! let mut flash = vec![0; geometry.flash_need()?];
//! let mut index = Index::format(&mut memory, &mut flash, geometry)?;
//!
//! index.put(0x1234, 99)?;
//! assert_eq!(index.get(0x1234)?.value(), Some(99));
//! index.del(0x1234)?;
//! assert_eq!(index.get(0x1234)?.value(), None);
//! # Ok::<(), mortxizal::Refused>(())
//! ```

#![deny(missing_docs)]
#![deny(unsafe_code)]

mod card;
mod geometry;
mod index;
mod lookup;
#[allow(unsafe_code)]
pub mod raw;
mod refused;

pub use card::Card;
pub use geometry::Geometry;
pub use index::Index;
pub use lookup::{Lookup, Place};
pub use refused::Refused;
