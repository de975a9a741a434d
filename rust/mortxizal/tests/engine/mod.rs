//! The proved library's calls, from the calls and geometries of the Rust index.

use mortxizal::{raw, Geometry};

use crate::common::call::Call;

pub fn geometry(g: reference::Geometry) -> Geometry {
    Geometry::default()
        .with_parts(g.parts)
        .with_page(g.page)
        .with_pages(g.pages)
        .with_kept(g.kept)
        .with_bits(g.bits)
        .with_hashes(g.hashes)
        .with_list(g.list)
}

/// Makes the call. A text is written to an area that nobody looks at.
pub fn call_raw(call: Call, memory: &mut [u8], flash: &mut [u8]) -> raw::Answer {
    match call {
        Call::Format(g) => raw::format(memory, flash, geometry(g)),
        Call::Put(key, value) => raw::put(memory, flash, key, value),
        Call::Get(key) => raw::get(memory, flash, key),
        Call::Del(key) => raw::del(memory, flash, key),
        Call::Flush(partition) => raw::flush(memory, flash, partition),
        Call::View(partition, page, flush) => raw::view(memory, flash, partition, page, flush),
        Call::Count(partition) => raw::count(memory, flash, partition),
        Call::Text(partition, room) => raw::text(memory, flash, partition, &mut vec![0; room]),
        Call::Drop(partition) => raw::drop_oldest(memory, flash, partition),
    }
}
