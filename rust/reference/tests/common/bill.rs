//! What a get costs, counted one by one over the bytes as they lie (02, job 8).

use reference::Geometry;

use super::plain::{bits, flash_at, home, length, live, number};

/// A partition's bytes in memory.
fn partition(g: Geometry, memory: &[u8], t: usize) -> &[u8] {
    &memory[32 + t * length(g)..][..length(g)]
}

fn is_listed(own: &[u8], key: u64) -> bool {
    let listed = number(&own[4..8]) as usize;
    let mut places = own[16..].chunks(16).take(listed);
    places.any(|place| place[..8] == key.to_le_bytes())
}

/// The key's pages that a get may come to: the one in the buffer, then one of
/// each live batch whose filter passes, youngest first.
fn pages<'a>(g: Geometry, memory: &'a [u8], flash: &'a [u8], key: u64) -> Vec<&'a [u8]> {
    let (t, q) = home(g, key);
    let own = partition(g, memory, t);
    let size = g.page as usize;
    let places = bits(g, key);
    let passes = |slot: usize| {
        let filter = &own[16 + 16 * g.list as usize + slot * g.bits as usize / 8..];
        places.iter().all(|b| filter[b / 8] >> (b % 8) & 1 == 1)
    };
    let mut pages = vec![&own[length(g) - (g.pages as usize - q) * size..][..size]];
    let batches = live(g, number(&own[..4]).into(), number(&own[12..16]).into());
    for (_, slot) in batches.filter(|&(_, slot)| passes(slot)) {
        pages.push(&flash[flash_at(g, t, slot, q)..][..size]);
    }
    pages
}

/// The pages read and the entries compared by a get of the key, which the areas
/// must be fit for.
pub fn bill(memory: &[u8], flash: &[u8], key: u64) -> (u32, u32) {
    let g = Geometry::from_opening(memory.first_chunk().unwrap()).unwrap();
    let (mut reads, mut compared) = (0, 0);
    if is_listed(partition(g, memory, home(g, key).0), key) {
        return (reads, compared);
    }
    for (before, page) in pages(g, memory, flash, key).into_iter().enumerate() {
        // The first page is the buffer's, which takes no read.
        reads = before as u32;
        let count = number(&page[..2]) as usize;
        for entry in page[16..].chunks(16).take(count) {
            compared += 1;
            if entry[..8] == key.to_le_bytes() {
                return (reads, compared);
            }
        }
    }
    (reads, compared)
}
