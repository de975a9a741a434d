//! What a get costs inside pages, as a Rust user meets it.

use mortxizal::{raw, Geometry, Index, Lookup, Place, Refused};

/// One partition with batches of one page, in which seven entries fit.
const G: Geometry = Geometry::DEFAULT
    .with_parts(0)
    .with_page(128)
    .with_pages(1)
    .with_kept(3)
    .with_bits(64)
    .with_hashes(3)
    .with_list(1);

/// The filters, which stand behind the one place of the list, and the buffer page,
/// which is memory's end.
fn filters_and_buffer(memory: &mut [u8]) -> (&mut [u8], &mut [u8]) {
    let end = memory.len() - 128;
    memory[64..].split_at_mut(end - 64)
}

/// A table that has these batches, oldest first, and this buffer, each key with
/// ten times itself. Every filter passes every key.
fn table(batches: &[&[u64]], buffer: &[u64]) -> (Vec<u8>, Vec<u8>) {
    let mut memory = vec![0xa5; G.memory_need().unwrap()];
    let mut flash = vec![0x5a; G.flash_need().unwrap()];
    let mut index = Index::format(&mut memory, &mut flash, G).unwrap();
    for (place, keys) in batches.iter().chain([&buffer]).enumerate() {
        for &key in *keys {
            assert_eq!(index.put(key, 10 * key), Ok(0));
        }
        if place < batches.len() {
            assert_eq!(index.flush(0), Ok(1));
        }
    }
    filters_and_buffer(&mut memory).0.fill(0xff);
    (memory, flash)
}

fn found(key: u64, reads: u32, comparisons: u32, place: Place) -> Result<Lookup, Refused> {
    Ok(Lookup::found(10 * key, reads, comparisons, place))
}

fn none(reads: u32, comparisons: u32) -> Result<Lookup, Refused> {
    Ok(Lookup::none(reads, comparisons))
}

#[test]
fn a_lookup_tells_what_it_is_made_of() {
    let found = Lookup::found(70, 2, 9, Place::Batch(4));
    assert_eq!((found.value(), found.reads()), (Some(70), 2));
    assert_eq!(found.comparisons(), 9);
    let none = Lookup::none(3, 8);
    assert_eq!((none.value(), none.reads()), (None, 3));
    assert_eq!(none.comparisons(), 8);
    assert!(matches!(found, Lookup::Found { comparisons: 9, .. }));
    assert!(matches!(none, Lookup::None { comparisons: 8, .. }));
}

#[test]
fn every_place_of_the_buffer_page() {
    let (mut memory, mut flash) = table(&[], &[]);
    let mut index = Index::attach(&mut memory, &mut flash);
    assert_eq!(index.get(1), none(0, 0));
    for last in 1..=7 {
        index.put(last, 10 * last).unwrap();
        for key in 1..=last {
            assert_eq!(index.get(key), found(key, 0, key as u32, Place::Buffer));
        }
        assert_eq!(index.get(last + 1), none(0, last as u32));
    }
}

#[test]
fn every_place_of_a_batch() {
    let (mut memory, mut flash) = table(&[&[1, 2, 3, 4, 5, 6, 7]], &[]);
    let index = Index::attach(&mut memory, &mut flash);
    for key in 1..=7 {
        assert_eq!(index.get(key), found(key, 1, key as u32, Place::Batch(1)));
    }
    assert_eq!(index.get(8), none(1, 7));
}

/// The pages from the buffer on, younger ones first, up to that with the key.
#[test]
fn pages_add_up() {
    let batches: [&[u64]; 3] = [&[1, 2, 3, 4, 5, 6], &[11, 12], &[21, 22, 23, 24, 25]];
    let (mut memory, mut flash) = table(&batches, &[31, 32, 33]);
    let mut index = Index::attach(&mut memory, &mut flash);
    assert_eq!(index.get(32), found(32, 0, 2, Place::Buffer));
    assert_eq!(index.get(24), found(24, 1, 3 + 4, Place::Batch(3)));
    assert_eq!(index.get(11), found(11, 2, 3 + 5 + 1, Place::Batch(2)));
    assert_eq!(index.get(6), found(6, 3, 3 + 5 + 2 + 6, Place::Batch(1)));
    assert_eq!(index.get(7), none(3, 3 + 5 + 2 + 6));
    // A batch that is dropped is searched no more.
    index.drop_oldest(0).unwrap();
    assert_eq!(index.get(6), none(2, 3 + 5 + 2));
    // Nor is one whose filter does not pass.
    filters_and_buffer(&mut memory).0.fill(0);
    let index = Index::attach(&mut memory, &mut flash);
    assert_eq!(index.get(12), none(0, 3));
}

/// E of the buffer page and of each page read: the bound is reached.
#[test]
fn the_most_that_a_get_compares() {
    let full = [1, 2, 3, 4, 5, 6, 7];
    let (mut memory, mut flash) = table(&[&full, &full, &full], &full);
    let index = Index::attach(&mut memory, &mut flash);
    assert_eq!(index.get(8), none(3, 7 * (3 + 1)));
}

#[test]
fn a_listed_key_costs_nothing() {
    let (mut memory, mut flash) = table(&[&[1, 2, 3]], &[4, 5]);
    let mut index = Index::attach(&mut memory, &mut flash);
    index.del(3).unwrap();
    assert_eq!(index.get(3), none(0, 0));
    assert_eq!(index.get(2), found(2, 1, 2 + 2, Place::Batch(1)));
    index.put(3, 30).unwrap();
    assert_eq!(index.get(3), found(3, 0, 3, Place::Buffer));
    // With no live batch a deleted key is not listed, and the page is searched.
    index.drop_oldest(0).unwrap();
    index.del(3).unwrap();
    assert_eq!(index.get(3), none(0, 2));
}

#[test]
fn the_answer_in_all_its_fields() {
    let (memory, mut flash) = table(&[&[1, 2, 3]], &[4, 5]);
    let found = raw::Answer {
        status: raw::FOUND,
        number: 0,
        reads: 1,
        batch: 1,
        value: 30,
        comparisons: 5,
    };
    assert_eq!(raw::get(&memory, &flash, 3), found);
    let none = raw::Answer {
        status: raw::NONE,
        batch: 0,
        value: 0,
        ..found
    };
    assert_eq!(raw::get(&memory, &flash, 6), none);
    // Two entries of the buffer page were compared, but a refusal does not tell.
    flash[8] ^= 1;
    let refused = raw::Answer {
        status: raw::REFUSED,
        number: 13,
        comparisons: 0,
        ..none
    };
    assert_eq!(raw::get(&memory, &flash, 3), refused);
}

/// A page's first `count` entries are searched, whatever stands there.
#[test]
fn pages_that_no_calls_make() {
    let (mut memory, mut flash) = table(&[&[1, 2, 3]], &[4, 5, 6]);
    // The count of the buffer page goes down: key 6 is behind the used entries.
    filters_and_buffer(&mut memory).1[0] = 2;
    let index = Index::attach(&mut memory, &mut flash);
    assert_eq!(index.get(6), none(1, 2 + 3));
    // In the batch key 3 takes the place of key 2 too, and its first place counts.
    flash[2 * 16] = 3;
    let index = Index::attach(&mut memory, &mut flash);
    assert_eq!(
        index.get(3),
        Ok(Lookup::found(20, 1, 2 + 2, Place::Batch(1)))
    );
    // A count of more entries than fit is refused, with 13 in a batch and with 12 in the buffer.
    flash[0] = 8;
    let index = Index::attach(&mut memory, &mut flash);
    assert_eq!(index.get(3), Err(Refused::BatchPage { reads: 1 }));
    filters_and_buffer(&mut memory).1[0] = 8;
    let index = Index::attach(&mut memory, &mut flash);
    assert_eq!(index.get(3), Err(Refused::Overfull));
}
