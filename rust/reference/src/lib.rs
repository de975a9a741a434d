//! The relay's fingerprint index of documents 01 and 02 in plain safe Rust.
//!
//! The index keeps nothing of its own. Every call is lent two byte areas,
//! memory and flash, of any length and any content: it judges them first, is
//! refused without changing a byte, or works on them in place. A text is
//! written to a third, and figures are told of a geometry without any area. No
//! call allocates and none can panic.
//!
//! This crate is written from the documents alone. It is the other side of a
//! comparison byte by byte with the proved engine and the baseline that the
//! engine's speed is measured against.

#![forbid(unsafe_code)]
#![warn(missing_docs)]

mod answer;
mod batch;
mod calls;
mod card;
mod filter;
pub mod geometry;
pub mod key;
mod list;
mod live;
mod page;
mod partition;
mod record;
pub mod session;
mod tally;
mod text;

pub use answer::{Lookup, Place, Refusal};
pub use calls::{count, del, drop_oldest, flush, format, get, put, view, view_part};
pub use card::Card;
pub use geometry::{Geometry, Layout};
pub use text::text;
